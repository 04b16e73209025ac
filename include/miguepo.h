/* Stop-loss premiums of a pension fund, with a proved bound on every probability,
 * on the distribution function and on the premium.
 *
 * One call prices one fund file, or one header text with two sheets, and finds
 * the fund's quantile at a level; another prices two fund files, and says how the
 * premium moved from one to the other. The level and all figures but places, lines,
 * sizes, the horizon and the gross premium are in units of 10^-12.
 *
 * The calls take every sequence of bytes, every level and result slices of every
 * length, and always return. They keep no state, allocate nothing, need less
 * than 250 KiB of stack, the one that compares less than 500, and may run in
 * several threads at once on different results.
 *
 * Two libraries, which may be linked side by side: libmiguepo.a holds the calls
 * that price, libmiguepo_comparison.a the one that compares.
 *
 * What only the caller can get wrong:
 *   - no pointer is null; of a slice without cells it may point anywhere;
 *   - behind each pointer of a slice stand as many cells as its length says;
 *   - each pointer is aligned for its type;
 *   - nothing that is written (the result slices and the structs) overlaps with
 *     anything else that is passed, and nothing else writes to what is passed
 *     while the call runs;
 *   - the call with sheets, which alone computes with floats, is made where rounding
 *     is to nearest and no floating-point exception is unmasked, as every program
 *     starts. miguepo_price_sheets_default sees to it, wherever it is called.
 */
#ifndef MIGUEPO_H
#define MIGUEPO_H

#include <stddef.h>
#include <stdint.h>

#ifdef __cplusplus
extern "C" {
#endif

/* The number of an answer: 0, or why pricing stops. */
enum miguepo_number {
    MIGUEPO_ACCEPTED = 0,
    MIGUEPO_FORM = 1,       /* a line breaks the spelling or the order, is missing, or bytes follow; at a line */
    MIGUEPO_RANGE = 2,      /* a number, row count, lives in all, age order, q + i or end count breaks its limit; at a line */
    MIGUEPO_EDITION = 3,    /* the two editions differ */
    MIGUEPO_DEDUCTIBLE = 4, /* the deductible is above the horizon and one */
    MIGUEPO_UNMATCHED = 5,  /* a member's age is below the first rate row's, or there is none; at its line */
    MIGUEPO_HALF = 6,       /* a group 1 member's q + i is at least a half; at its line */
    MIGUEPO_LOAD = 7,       /* the load is above 8 x 10^12 units */
    MIGUEPO_ORDER = 8,      /* the truncation figure is above 10^8 units */
    MIGUEPO_SHORT = 9,      /* one of the five result slices has fewer cells than the horizon and one */
    MIGUEPO_WIDE = 10,      /* some R(x) is above 250,000 units; at the first such x */
    MIGUEPO_CELL = 11       /* a sheet's cell is not taken, or a last row is cut short; at a row */
};

/* Cells enough for every horizon. */
#define MIGUEPO_CELLS 4096

/* The largest level that can be reached: 1, in units. */
#define MIGUEPO_MOST_LEVEL UINT64_C(1000000000000)

/* What a call answers beside the cells. Each field has eight bytes. */
struct miguepo_result {
    uint64_t number;     /* MIGUEPO_ACCEPTED, or the refusal's */
    uint64_t place;      /* of the refusal: a line or a sheet's row, counted from 1, or the x of MIGUEPO_WIDE, or 0 */
    uint64_t line_start; /* the part of the file, or of the header text, that is the line of the refusal, without its */
    uint64_t line_size;  /* line feed; its size is 0 where no line is at fault, and for a sheet's row */
    uint64_t horizon;    /* X of the fund that is accepted */
    uint64_t truncation; /* the truncation figure E */
    uint64_t mean;       /* the mean of the year's total claims */
    int64_t premium;     /* the stop-loss premium */
    uint64_t within;     /* the premium's bound: the exact premium differs from the premium by at most this */
    uint64_t gross;      /* the gross premium, in whole centimes: the worth of the premium and its bound, loaded and taken up */
    uint64_t reached;    /* 1 where the level is reached up to the horizon, 0 where it is not: there is no quantile */
    uint64_t quantile;   /* the place of the quantile, the smallest x with F(x) at least the level; 0 where there is none */
};

/* Prices a fund file. A member line stands for as many lives as its last number says,
 * 1 to 1,000, and is priced as so many copies of itself in its spot; all lines
 * together have at most 1,000 lives. A fund above a limit has no price here: those
 * of its parts do not add up to it, since each part's cover pays above a deductible
 * of its own.
 *
 *   file, file_length        the bytes of the fund file
 *   level                    the level that is asked for, in units
 *   d, h, f, r, sums         result slices, and how many cells each has
 *   result                   every field is written
 *
 * Accepted (0): d, h, f, r and sums hold D, H, f, R and F for 0 to X, and 0
 * beyond; f[x] and the exact probability of the total x differ by at most
 * r[x] + 2 E. F(x) is f(0) + .. + f(x). F may fall, since f may be slightly
 * negative; the quantile is the first x from 0 to X with F(x) at least the level.
 * A level above MIGUEPO_MOST_LEVEL is not reached, whatever F is; the fund is
 * priced all the same. The gross premium is never below the exact premium's loaded
 * worth.
 *
 * The bound of F: sums[x] and the exact probability of a total of at most x differ
 * by at most B(x) = r[0] + .. + r[x] + 2 E. The distances of f[0] to f[x] from the
 * exact probabilities, added up, are at most B(x) too: the cut, 2 E, counts once.
 * The listing prints B(x); it is not lent, and a host adds it up from r and the
 * truncation figure. A uint64_t cannot wrap there: r[x] is at most 250,000, E at
 * most 10^8, and there are at most 4,096 cells, so B(x) is at most 1,224,000,000.
 * Where the quantile is x, the exact probability of a total of at most x is at
 * least the level less B(x), and that of a total of at most y, for each y below x,
 * is below the level plus B(y).
 *
 * Premium, bound and gross premium do not depend on the horizon, and the exact
 * premium does not on the order. Another deductible is another cover; other rates,
 * frequencies, groups, amounts or lives are another fund.
 *
 * Refused (1 to 10): the horizon, every figure, reached, the quantile and every
 * cell of the five slices are 0.
 */
void miguepo_price(const uint8_t *file, size_t file_length,
                   uint64_t level,
                   int64_t *d, size_t d_length,
                   uint64_t *h, size_t h_length,
                   int64_t *f, size_t f_length,
                   uint64_t *r, size_t r_length,
                   int64_t *sums, size_t sums_length,
                   struct miguepo_result *result);

/* Prices a header text with two sheets.
 *
 *   header, header_length    the header lines of a fund file, each with its line feed
 *   rates, rates_length      rows of three cells, 24 bytes: age, q, i
 *   members, members_length  rows of five cells, 40 bytes: age, group, amount at death, amount at disability, lives
 *   the others               as for a fund file
 *
 * A cell is an IEEE 754 binary64 of eight bytes, least byte first, at any address.
 * A NaN is a blank. An age, a group, an amount and a number of lives are whole
 * numbers in their ranges; a rate is the binary64 quotient of some k by 1,000,000,
 * k from 0 to 1,000,000, and k is the rate in millionths. A blank amount is 0, no
 * other cell may be blank. Minus zero is 0.
 *
 * Sheets whose cells are all taken are priced as the fund file with the header
 * text and the same rows: number, place, figures, quantile and every cell are that
 * file's; only the line is empty, since it stands in no text. A cell that is not
 * taken, and a last row that is cut short, are MIGUEPO_CELL; the place is the row,
 * counted from 1 through the rates and on through the members. Refusals in the
 * header text come before any row, and bytes behind its last line are MIGUEPO_FORM
 * at their line.
 *
 * The rates' quotients are formed by the processor's division, in the rounding
 * direction of the thread that calls. In another direction than to nearest about
 * half of the rates are refused, and a number beside a rate may be taken for it. Where
 * an exception is unmasked, a division that is inexact traps; where none is, the call
 * may raise the flag of inexact, and no other. Subnormals are refused by their bits:
 * it does not matter whether the processor takes them as 0 or flushes results to 0,
 * as it does in a program built with -ffast-math.
 */
void miguepo_price_sheets(const uint8_t *header, size_t header_length,
                          const uint8_t *rates, size_t rates_length,
                          const uint8_t *members, size_t members_length,
                          uint64_t level,
                          int64_t *d, size_t d_length,
                          uint64_t *h, size_t h_length,
                          int64_t *f, size_t f_length,
                          uint64_t *r, size_t r_length,
                          int64_t *sums, size_t sums_length,
                          struct miguepo_result *result);

#if defined(__x86_64__) && defined(__GNUC__)
/* The same call in the default floating-point environment: rounding to nearest,
 * exceptions masked, subnormals as they are. The caller's environment is put back,
 * with its flags. The library computes in SSE registers alone, whose environment is
 * MXCSR: <fenv.h> and libm are not needed. It is not inlined, so that no operation of
 * the caller moves in between. */
__attribute__((noinline, unused))
static void miguepo_price_sheets_default(const uint8_t *header, size_t header_length,
                                         const uint8_t *rates, size_t rates_length,
                                         const uint8_t *members, size_t members_length,
                                         uint64_t level,
                                         int64_t *d, size_t d_length,
                                         uint64_t *h, size_t h_length,
                                         int64_t *f, size_t f_length,
                                         uint64_t *r, size_t r_length,
                                         int64_t *sums, size_t sums_length,
                                         struct miguepo_result *result)
{
    unsigned int environment = __builtin_ia32_stmxcsr();
    __builtin_ia32_ldmxcsr(0x1f80);
    miguepo_price_sheets(header, header_length, rates, rates_length, members, members_length, level,
                         d, d_length, h, h_length, f, f_length, r, r_length, sums, sums_length, result);
    __builtin_ia32_ldmxcsr(environment);
}
#endif

/* How the premium moved from an old fund to a new one, and what differs between
 * their files beside the editions and the rate lines. Each field has eight bytes. */
struct miguepo_comparison {
    uint64_t moved;      /* 1 where both funds are accepted; 0 where one is refused, and then every field is 0 */
    int64_t premium;     /* the move: the new premium less the old one */
    uint64_t arithmetic; /* the most that arithmetic can have to do with it: the two premiums' bounds together */
    int64_t least;       /* the exact move, the exact premium of the new fund less that of the old one, */
    int64_t most;        /* is at least `least` and at most `most` */
    int64_t gross;       /* the new gross premium less the old one, in centimes */
    int64_t gross_least; /* the move of the exact premium's loaded worth, in centimes, */
    int64_t gross_most;  /* is at least `gross_least` and at most `gross_most` */
    uint64_t header;     /* the first header line that differs, 3 for `horizon=` to 7 for `worth=`, or 0 */
    uint64_t member;     /* the first member line that differs, counted from 1 among the member lines, or 0 */
    uint64_t old_line;   /* where it stands in the old file and in the new one, or 0; of a file with fewer */
    uint64_t new_line;   /* member lines it is the line of `end=` */
};

/* Prices an old fund file and a new one, each as miguepo_price does, and compares
 * them.
 *
 *   old_file, new_file       the bytes of the two fund files
 *   level                    the level that is asked for in both, in units
 *   old_d .. old_sums        result slices of the old fund, and how many cells each has
 *   new_d .. new_sums        those of the new fund
 *   old_result, new_result   what miguepo_price answers of each
 *   comparison               every field is written
 *
 * That the exact moves lie in their intervals is a theorem, for all files that are
 * accepted. Where header and member are 0 the files differ in editions and rate
 * lines alone: the exact move is then that of the rates, of the same terms and
 * members under the old rates and under the new ones.
 */
void miguepo_compare(const uint8_t *old_file, size_t old_length,
                     const uint8_t *new_file, size_t new_length,
                     uint64_t level,
                     int64_t *old_d, size_t old_d_length,
                     uint64_t *old_h, size_t old_h_length,
                     int64_t *old_f, size_t old_f_length,
                     uint64_t *old_r, size_t old_r_length,
                     int64_t *old_sums, size_t old_sums_length,
                     int64_t *new_d, size_t new_d_length,
                     uint64_t *new_h, size_t new_h_length,
                     int64_t *new_f, size_t new_f_length,
                     uint64_t *new_r, size_t new_r_length,
                     int64_t *new_sums, size_t new_sums_length,
                     struct miguepo_result *old_result,
                     struct miguepo_result *new_result,
                     struct miguepo_comparison *comparison);

/* Cells for one fund of any horizon. */
struct miguepo_cells {
    int64_t d[MIGUEPO_CELLS];
    uint64_t h[MIGUEPO_CELLS];
    int64_t f[MIGUEPO_CELLS];
    uint64_t r[MIGUEPO_CELLS];
    int64_t sums[MIGUEPO_CELLS];
};

/* The same call with the cells of two such structs, 160 KiB each. */
static inline void miguepo_compare_cells(const uint8_t *old_file, size_t old_length,
                                         const uint8_t *new_file, size_t new_length,
                                         uint64_t level,
                                         struct miguepo_cells *old_cells,
                                         struct miguepo_cells *new_cells,
                                         struct miguepo_result *old_result,
                                         struct miguepo_result *new_result,
                                         struct miguepo_comparison *comparison)
{
    size_t all = MIGUEPO_CELLS;
    miguepo_compare(old_file, old_length, new_file, new_length, level,
                    old_cells->d, all, old_cells->h, all, old_cells->f, all, old_cells->r, all, old_cells->sums, all,
                    new_cells->d, all, new_cells->h, all, new_cells->f, all, new_cells->r, all, new_cells->sums, all,
                    old_result, new_result, comparison);
}

#ifdef __cplusplus
}
#endif

#endif
