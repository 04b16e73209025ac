/* Prices a fund file, or a fund whose rows come as sheets: prints the premium with its bound and the gross premium in centimes, or
 * the refusal and the line at fault. With a level, in units of 10^-12, the place of the quantile too: the smallest total x with
 * F(x) at least the level, or none up to the horizon; and F there with its bound.
 *
 *     price FILE [LEVEL]
 *     price --sheets HEADER RATES MEMBERS [LEVEL]
 */
#include "miguepo.h"

#include <inttypes.h>
#include <stdio.h>
#include <stdlib.h>
#include <string.h>

/* A file or sheet that is accepted is shorter; of a longer one only the first bytes are read, which give the same answer. */
enum { MOST = 65536 };

/* The file, or the header text, the rate sheet and the member sheet. */
enum { TEXTS = 3 };

static uint8_t text[TEXTS][MOST];
static size_t size[TEXTS];
static int64_t d[MIGUEPO_CELLS], f[MIGUEPO_CELLS], sums[MIGUEPO_CELLS];
static uint64_t h[MIGUEPO_CELLS], r[MIGUEPO_CELLS];

/* A number of units of 10^-12, as a decimal number. */
static void print_units(const char *word, int negative, uint64_t units)
{
    uint64_t one = 1000000000000;
    printf("%s%s%" PRIu64 ".%012" PRIu64, word, negative ? "-" : "", units / one, units % one);
}

/* Whether the word is decimal digits and nothing else, and the number fits. */
static int read_level(const char *word, uint64_t *level)
{
    *level = 0;
    for (const char *at = word; *at; at++) {
        if (*at < '0' || *at > '9')
            return 0;
        uint64_t digit = (uint64_t)(*at - '0');
        if (*level > (UINT64_MAX - digit) / 10)
            return 0;
        *level = *level * 10 + digit;
    }
    return *word != 0;
}

static int read_text(const char *path, int number)
{
    FILE *in = fopen(path, "rb");
    if (!in) {
        perror(path);
        return 0;
    }
    size[number] = fread(text[number], 1, MOST, in);
    if (ferror(in)) {
        perror(path);
        return 0;
    }
    fclose(in);
    return 1;
}

/* F(x) with the most by which it can differ from the exact probability of a total of at most x: R(0) + .. + R(x) + 2 E. */
static void print_sum(const struct miguepo_result *fund, uint64_t x)
{
    uint64_t bound = 2 * fund->truncation;
    for (uint64_t k = 0; k <= x; k++)
        bound += r[k];
    print_units("F ", sums[x] < 0, sums[x] < 0 ? 0 - (uint64_t)sums[x] : (uint64_t)sums[x]);
    print_units(", within ", 0, bound);
}

static void print_refusal(const struct miguepo_result *fund)
{
    printf("refused=%" PRIu64 ",%" PRIu64 "\n", fund->number, fund->place);
    if (fund->line_size) {
        printf("line: ");
        fwrite(text[0] + fund->line_start, 1, fund->line_size, stdout);
        printf("\n");
    }
}

int main(int count, char **words)
{
    uint64_t level = 0;
    int sheets = count > 1 && strcmp(words[1], "--sheets") == 0;
    int first = sheets ? 2 : 1, texts = sheets ? TEXTS : 1, with_level = count == first + texts + 1;
    if ((count != first + texts && !with_level) || (with_level && !read_level(words[count - 1], &level))) {
        fprintf(stderr, "usage: price FILE [LEVEL], or price --sheets HEADER RATES MEMBERS [LEVEL], the level a whole number of "
                        "units of 10^-12\n");
        return 2;
    }
    for (int k = 0; k < texts; k++)
        if (!read_text(words[first + k], k))
            return 2;

    struct miguepo_result fund;
    if (sheets)
        miguepo_price_sheets(text[0], size[0], text[1], size[1], text[2], size[2], level, d, MIGUEPO_CELLS, h, MIGUEPO_CELLS,
                             f, MIGUEPO_CELLS, r, MIGUEPO_CELLS, sums, MIGUEPO_CELLS, &fund);
    else
        miguepo_price(text[0], size[0], level, d, MIGUEPO_CELLS, h, MIGUEPO_CELLS, f, MIGUEPO_CELLS, r, MIGUEPO_CELLS,
                      sums, MIGUEPO_CELLS, &fund);
    if (fund.number != MIGUEPO_ACCEPTED) {
        print_refusal(&fund);
        return 1;
    }
    print_units("premium ", fund.premium < 0, fund.premium < 0 ? 0 - (uint64_t)fund.premium : (uint64_t)fund.premium);
    print_units(", within ", 0, fund.within);
    printf("\ngross %" PRIu64 " centimes\n", fund.gross);
    if (with_level && fund.reached) {
        printf("quantile %" PRIu64 ": ", fund.quantile);
        print_sum(&fund, fund.quantile);
        printf("\n");
    } else if (with_level) {
        printf("quantile none\n");
    }
    return 0;
}
