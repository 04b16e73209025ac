/* Compares two fund files: prints how the premium and the gross premium moved from the old one to the new one, each with the
 * interval in which the exact move lies, and the first lines that differ beside the editions and the rates; or what is refused,
 * with the line at fault.
 *
 *     compare OLD NEW
 */
#include "miguepo.h"

#include <inttypes.h>
#include <stdio.h>

/* A file that is accepted is shorter; of a longer one only the first bytes are read, which give the same answer. */
enum { MOST = 65536 };

static uint8_t old_text[MOST], new_text[MOST];
static struct miguepo_cells old_cells, new_cells;

/* A number of units of 10^-12, as a decimal number. */
static void print_units(const char *word, int64_t number)
{
    uint64_t one = 1000000000000, units = number < 0 ? 0 - (uint64_t)number : (uint64_t)number;
    printf("%s%s%" PRIu64 ".%012" PRIu64, word, number < 0 ? "-" : "", units / one, units % one);
}

static int read_text(const char *path, uint8_t *text, size_t *size)
{
    FILE *in = fopen(path, "rb");
    if (!in) {
        perror(path);
        return 0;
    }
    *size = fread(text, 1, MOST, in);
    if (ferror(in)) {
        perror(path);
        return 0;
    }
    fclose(in);
    return 1;
}

static void print_refusal(const char *name, const struct miguepo_result *fund, const uint8_t *text)
{
    if (fund->number == MIGUEPO_ACCEPTED)
        return;
    printf("%s refused=%" PRIu64 ",%" PRIu64 "\n", name, fund->number, fund->place);
    if (fund->line_size) {
        printf("line: ");
        fwrite(text + fund->line_start, 1, fund->line_size, stdout);
        printf("\n");
    }
}

static void print_move(const struct miguepo_comparison *c)
{
    print_units("move ", c->premium);
    print_units(", exact from ", c->least);
    print_units(" to ", c->most);
    printf("\ngross move %" PRId64 " centimes, exact from %" PRId64 " to %" PRId64 "\n", c->gross, c->gross_least, c->gross_most);
    if (c->header)
        printf("header line %" PRIu64 " differs\n", c->header);
    if (c->member)
        printf("member line %" PRIu64 " differs: line %" PRIu64 " of the old file, line %" PRIu64 " of the new one\n", c->member,
               c->old_line, c->new_line);
    if (!c->header && !c->member)
        printf("the exact move is that of the rates\n");
}

int main(int count, char **words)
{
    size_t old_size, new_size;
    if (count != 3) {
        fprintf(stderr, "usage: compare OLD NEW\n");
        return 2;
    }
    if (!read_text(words[1], old_text, &old_size) || !read_text(words[2], new_text, &new_size))
        return 2;

    struct miguepo_result old_fund, new_fund;
    struct miguepo_comparison comparison;
    miguepo_compare_cells(old_text, old_size, new_text, new_size, 0, &old_cells, &new_cells, &old_fund, &new_fund, &comparison);
    if (!comparison.moved) {
        print_refusal("old", &old_fund, old_text);
        print_refusal("new", &new_fund, new_text);
        return 1;
    }
    print_move(&comparison);
    return 0;
}
