// The library that compares against the tuned peer of bench/, on pairs of files, slice lengths and levels that a fuzzer chooses.
//
// The first ten bytes of an input choose the slices' lengths of the old fund and of the new one, the next eight the level, the next two the
// old file's length; the old file and the new one follow. Both answers are the peer's; the moves and what differs are worked here from the two
// answers and from the files' lines, as tests/comparison.py does: in accepted files two lines say the same only where they are the same bytes.
#include "common.h"

enum { OLD, NEW, FUNDS };
enum { HEAD = FUNDS * SLICES + 8 + 2 }; // bytes before the files
enum { HEADER_LINES = 7, FIRST_COMPARED = 3 };

struct line {
    const uint8_t *start;
    size_t length;
};

static struct line line_at(const uint8_t *file, size_t length, uint64_t place) {
    const uint8_t *at = file, *end = file + length;
    for (; place > 1; place--)
        at = (const uint8_t *)memchr(at, '\n', (size_t)(end - at)) + 1;
    return (struct line){at, (size_t)((const uint8_t *)memchr(at, '\n', (size_t)(end - at)) - at)};
}

static int begins(struct line l, const char *key) { return l.length >= strlen(key) && memcmp(l.start, key, strlen(key)) == 0; }

static int equal(struct line a, struct line b) { return a.length == b.length && memcmp(a.start, b.start, a.length) == 0; }

static uint64_t number_in(struct line l, const char *key) {
    uint64_t number = 0;
    for (size_t k = strlen(key); k < l.length; k++)
        number = 10 * number + (l.start[k] - '0');
    return number;
}

// The place of the first line behind the rate lines.
static uint64_t members_from(const uint8_t *file, size_t length) {
    uint64_t place = HEADER_LINES + 1;
    while (begins(line_at(file, length, place), "rate="))
        place++;
    return place;
}

// A gross premium is less than this above the exact premium's loaded worth, in centimes.
static int64_t excess(const uint8_t *file, size_t length, uint64_t within) {
    const unsigned __int128 divisor = (unsigned __int128)1000 * 1000000000000;
    uint64_t deductible = number_in(line_at(file, length, 6), "deductible="), worth = number_in(line_at(file, length, 7), "worth=");
    uint64_t loading = deductible < 100 ? 1500 : deductible < 300 ? 1700 : deductible < 600 ? 1900 : 2100;
    return (int64_t)(((unsigned __int128)2 * within * worth * loading + (divisor - 1)) / divisor) + 1;
}

static void differences(uint8_t **file, const size_t *length, struct miguepo_comparison *out) {
    for (uint64_t place = HEADER_LINES; place >= FIRST_COMPARED; place--)
        if (!equal(line_at(file[OLD], length[OLD], place), line_at(file[NEW], length[NEW], place)))
            out->header = place;
    uint64_t old = members_from(file[OLD], length[OLD]), new = members_from(file[NEW], length[NEW]);
    for (uint64_t number = 1;; number++, old++, new++) {
        struct line a = line_at(file[OLD], length[OLD], old), b = line_at(file[NEW], length[NEW], new);
        int ends = !begins(a, "member=") && !begins(b, "member=");
        if (ends)
            return;
        if (!equal(a, b)) {
            out->member = number;
            out->old_line = old;
            out->new_line = new;
            return;
        }
    }
}

static struct miguepo_comparison compared(uint8_t **file, const size_t *length, const struct priced *p) {
    struct miguepo_comparison out = {0};
    if (p[OLD].number != 0 || p[NEW].number != 0)
        return out;
    out.moved = 1;
    out.premium = p[NEW].premium - p[OLD].premium;
    out.arithmetic = p[OLD].within + p[NEW].within;
    out.least = out.premium - (int64_t)out.arithmetic;
    out.most = out.premium + (int64_t)out.arithmetic;
    out.gross = (int64_t)p[NEW].gross - (int64_t)p[OLD].gross;
    out.gross_least = out.gross - excess(file[NEW], length[NEW], p[NEW].within);
    out.gross_most = out.gross + excess(file[OLD], length[OLD], p[OLD].within);
    differences(file, length, &out);
    return out;
}

int LLVMFuzzerTestOneInput(const uint8_t *data, size_t size) {
    if (size < HEAD)
        return 0;
    uint64_t level = level_of(data + FUNDS * SLICES);
    const uint8_t *files = data + HEAD;
    size_t given = data[HEAD - 2] | (size_t)data[HEAD - 1] << 8, left = size - HEAD;
    size_t length[FUNDS] = {given < left ? given : left, given < left ? left - given : 0};
    uint8_t *file[FUNDS] = {copy_of(files, length[OLD]), copy_of(files + length[OLD], length[NEW])};
    size_t n[FUNDS][SLICES];
    uint8_t *slice[2][FUNDS][SLICES];
    struct priced peer[FUNDS];
    memset(peer, 0, sizeof peer);
    for (int k = 0; k < FUNDS; k++) {
        for (int j = 0; j < SLICES; j++) {
            n[k][j] = cells(data[k * SLICES + j]);
            for (int side = 0; side < 2; side++)
                slice[side][k][j] = slice_of(8 * n[k][j], 0x5a + side);
        }
        uint8_t **s = slice[0][k];
        peer_price(file[k], length[k], level, (int64_t *)s[0], n[k][0], (uint64_t *)s[1], n[k][1], (int64_t *)s[2], n[k][2],
                   (uint64_t *)s[3], n[k][3], (int64_t *)s[4], n[k][4], &peer[k]);
    }

    struct miguepo_result *result[FUNDS];
    for (int k = 0; k < FUNDS; k++)
        result[k] = (struct miguepo_result *)slice_of(sizeof *result[k], 0x5c);
    struct miguepo_comparison *comparison = (struct miguepo_comparison *)slice_of(sizeof *comparison, 0x5d);
    uint8_t **o = slice[1][OLD], **w = slice[1][NEW];
    miguepo_compare(file[OLD], length[OLD], file[NEW], length[NEW], level, (int64_t *)o[0], n[OLD][0], (uint64_t *)o[1], n[OLD][1],
                    (int64_t *)o[2], n[OLD][2], (uint64_t *)o[3], n[OLD][3], (int64_t *)o[4], n[OLD][4], (int64_t *)w[0], n[NEW][0],
                    (uint64_t *)w[1], n[NEW][1], (int64_t *)w[2], n[NEW][2], (uint64_t *)w[3], n[NEW][3], (int64_t *)w[4], n[NEW][4],
                    result[OLD], result[NEW], comparison);

    struct miguepo_comparison wanted = compared(file, length, peer);
    same(&wanted, comparison, sizeof wanted);
    edges_kept((uint8_t *)comparison, sizeof *comparison, 0x5d);
    free((uint8_t *)comparison - EDGE);
    for (int k = 0; k < FUNDS; k++) {
        struct priced got = priced_of(result[k]);
        if (got.length == 0)
            got.start = peer[k].start = 0; // the start of an empty part says nothing
        same(&peer[k], &got, sizeof got);
        same(file[k], k == OLD ? files : files + length[OLD], length[k]);
        free(file[k]);
        edges_kept((uint8_t *)result[k], sizeof *result[k], 0x5c);
        free((uint8_t *)result[k] - EDGE);
        for (int j = 0; j < SLICES; j++) {
            same(slice[0][k][j], slice[1][k][j], 8 * n[k][j]);
            for (int side = 0; side < 2; side++) {
                edges_kept(slice[side][k][j], 8 * n[k][j], 0x5a + side);
                free(slice[side][k][j] - EDGE);
            }
        }
    }
    return 0;
}
