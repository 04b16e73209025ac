/* A host of the call with sheets in a floating-point environment of its own (tests/float_hosts.py).
 *
 *   float_host ENVIRONMENT CALL WORK < INPUT
 *
 *   ENVIRONMENT  same (as the program starts), up, down, zero (the rounding direction), traps (exceptions unmasked)
 *   CALL         direct, or default: by miguepo_price_sheets_default
 *   WORK         cases: prints the answer of each; rates: prints how the 1,000,001 rates are taken; neighbours: how
 *                every sixteenth is, and the numbers above and below it
 *
 * INPUT is header texts with two sheets, each text and sheet behind its size in eight bytes; for rates only the
 * first counts, a fund of one rate and a horizon of 0, whose mean is 1,000 times its q. The last line printed has the control bits of MXCSR before the calls, and all its bits that the calls changed.
 */
#define _GNU_SOURCE
#include <fenv.h>
#include <stdio.h>
#include <stdlib.h>
#include <string.h>
#include <xmmintrin.h>

#include "miguepo.h"

#define RATES 1000001
#define FLAGS 0x3fu

static uint64_t quotients[RATES];
static uint8_t text[3][1 << 17];
static size_t size[3];
static struct miguepo_cells cells;
static struct miguepo_result result;
static size_t lent = MIGUEPO_CELLS;
static int by_default;

static void call(void)
{
    (by_default ? miguepo_price_sheets_default : miguepo_price_sheets)(
        text[0], size[0], text[1], size[1], text[2], size[2], UINT64_C(990000000000),
        cells.d, lent, cells.h, lent, cells.f, lent, cells.r, lent, cells.sums, lent, &result);
}

static int next_case(void)
{
    for (int k = 0; k < 3; k++) {
        uint64_t count;
        if (fread(&count, 8, 1, stdin) != 1)
            return 0;
        if (count > sizeof text[k] || fread(text[k], 1, count, stdin) != count)
            exit(2);
        size[k] = count;
    }
    return 1;
}

/* The number and the place, and a number that all else that the call writes goes into. */
static void print_answer(void)
{
    uint64_t mixed = UINT64_C(14695981039346656037);
    const uint8_t *parts[2] = {(const uint8_t *)&result, (const uint8_t *)&cells};
    size_t sizes[2] = {sizeof result, sizeof cells};
    for (int k = 0; k < 2; k++)
        for (size_t at = 0; at < sizes[k]; at++)
            mixed = (mixed ^ parts[k][at]) * UINT64_C(1099511628211);
    printf("%llu %llu %016llx\n", (unsigned long long)result.number, (unsigned long long)result.place, (unsigned long long)mixed);
}

/* The number of a fund whose one rate is q, by its bits. */
static uint64_t number_of(uint64_t q)
{
    memcpy(text[1] + 8, &q, 8);
    call();
    return result.number;
}

static void print_rates(int neighbours)
{
    long right = 0, refused = 0, wrong = 0, above = 0, below = 0;
    for (uint64_t k = 0; k < RATES; k += neighbours ? 16 : 1) {
        uint64_t number = number_of(quotients[k]);
        if (number == 0 && result.mean == 1000 * k)
            right++;
        else if (number == MIGUEPO_CELL)
            refused++;
        else
            wrong++;
        if (neighbours) {
            above += number_of(quotients[k] + 1) == 0;
            below += k > 0 && number_of(quotients[k] - 1) == 0;
        }
    }
    printf("right=%ld refused=%ld wrong=%ld above=%ld below=%ld\n", right, refused, wrong, above, below);
}

static void set_environment(const char *name)
{
    if (!strcmp(name, "up"))
        fesetround(FE_UPWARD);
    else if (!strcmp(name, "down"))
        fesetround(FE_DOWNWARD);
    else if (!strcmp(name, "zero"))
        fesetround(FE_TOWARDZERO);
    else if (!strcmp(name, "traps"))
        _mm_setcsr(_mm_getcsr() & ~(FLAGS << 7));
    else if (strcmp(name, "same"))
        exit(2);
}

int main(int argc, char **argv)
{
    if (argc != 4)
        return 2;
    for (int k = 0; k < RATES; k++) {
        double q = k / 1000000.0;
        memcpy(&quotients[k], &q, 8);
    }
    by_default = !strcmp(argv[2], "default");
    _mm_setcsr(_mm_getcsr() & ~FLAGS);
    set_environment(argv[1]);
    unsigned before = _mm_getcsr();
    if (strcmp(argv[3], "cases")) {
        lent = 1;
        if (!next_case())
            return 2;
        print_rates(!strcmp(argv[3], "neighbours"));
    } else {
        while (next_case()) {
            call();
            print_answer();
        }
    }
    printf("control=%04x changed=%04x\n", before & ~FLAGS, before ^ _mm_getcsr());
    return 0;
}
