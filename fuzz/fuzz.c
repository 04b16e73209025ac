// The library against the tuned peer of bench/, on files, sheets, slice lengths and levels that a fuzzer chooses.
//
// The first byte of an input says whether it is a file or sheets, the next five choose the slices' lengths, the next eight the
// level. The rest is the file; or two lengths, of two bytes each, and the header text and the rate sheet of these lengths, and
// the member sheet. The peer is built with the fuzzer's coverage and with sanitizers, so that new paths through it lead the
// search; the library is the archive itself. Before and behind each slice and the result stand bytes that must stay as they
// are, since no sanitizer sees the archive's stores.
#include "common.h"

enum { HEAD = 1 + SLICES + 8 }; // bytes before the texts

// A file, or a header text, a rate sheet and a member sheet; `given` are the input's bytes, `at` copies of them.
enum { TEXTS = 3 };
struct texts {
    int count;
    const uint8_t *given[TEXTS];
    uint8_t *at[TEXTS];
    size_t length[TEXTS];
};

// The next text: so many bytes, or as many as are left.
static void add_text(struct texts *t, const uint8_t **from, size_t *left, size_t length) {
    int k = t->count++;
    t->given[k] = *from;
    t->length[k] = length < *left ? length : *left;
    t->at[k] = copy_of(*from, t->length[k]);
    *from += t->length[k];
    *left -= t->length[k];
}

static struct texts texts_of(int is_sheets, const uint8_t *from, size_t left) {
    struct texts t = {0};
    if (is_sheets && left >= 4) {
        size_t header = from[0] | (size_t)from[1] << 8, rates = from[2] | (size_t)from[3] << 8;
        from += 4;
        left -= 4;
        add_text(&t, &from, &left, header);
        add_text(&t, &from, &left, rates);
    }
    add_text(&t, &from, &left, left);
    return t;
}

static void call_peer(const struct texts *t, uint64_t level, uint8_t **slice, const size_t *n, struct priced *out) {
    int64_t *D = (int64_t *)slice[0], *f = (int64_t *)slice[2], *F = (int64_t *)slice[4];
    uint64_t *H = (uint64_t *)slice[1], *R = (uint64_t *)slice[3];
    if (t->count == 1)
        peer_price(t->at[0], t->length[0], level, D, n[0], H, n[1], f, n[2], R, n[3], F, n[4], out);
    else
        peer_price_sheets(t->at[0], t->length[0], t->at[1], t->length[1], t->at[2], t->length[2], level, D, n[0], H, n[1], f, n[2],
                          R, n[3], F, n[4], out);
}

static void call_library(const struct texts *t, uint64_t level, uint8_t **slice, const size_t *n, struct miguepo_result *out) {
    int64_t *d = (int64_t *)slice[0], *f = (int64_t *)slice[2], *sums = (int64_t *)slice[4];
    uint64_t *h = (uint64_t *)slice[1], *r = (uint64_t *)slice[3];
    if (t->count == 1)
        miguepo_price(t->at[0], t->length[0], level, d, n[0], h, n[1], f, n[2], r, n[3], sums, n[4], out);
    else
        miguepo_price_sheets(t->at[0], t->length[0], t->at[1], t->length[1], t->at[2], t->length[2], level, d, n[0], h, n[1], f,
                             n[2], r, n[3], sums, n[4], out);
}

int LLVMFuzzerTestOneInput(const uint8_t *data, size_t size) {
    if (size < HEAD)
        return 0;
    size_t n[SLICES];
    uint64_t level = level_of(data + 1 + SLICES);
    uint8_t *slice[2][SLICES];
    for (int k = 0; k < SLICES; k++) {
        n[k] = cells(data[1 + k]);
        for (int side = 0; side < 2; side++)
            slice[side][k] = slice_of(8 * n[k], 0x5a + side);
    }
    struct texts texts = texts_of(data[0] & 1, data + HEAD, size - HEAD);

    struct priced peer;
    memset(&peer, 0, sizeof peer);
    call_peer(&texts, level, slice[0], n, &peer);
    struct miguepo_result *result = (struct miguepo_result *)slice_of(sizeof *result, 0x5c);
    call_library(&texts, level, slice[1], n, result);
    struct priced got = priced_of(result);
    if (got.length == 0)
        got.start = peer.start = 0; // the start of an empty part says nothing
    same(&peer, &got, sizeof peer);
    for (int k = 0; k < SLICES; k++)
        same(slice[0][k], slice[1][k], 8 * n[k]);

    for (int k = 0; k < texts.count; k++) {
        same(texts.given[k], texts.at[k], texts.length[k]);
        free(texts.at[k]);
    }
    edges_kept((uint8_t *)result, sizeof *result, 0x5c);
    free((uint8_t *)result - EDGE);
    for (int k = 0; k < SLICES; k++)
        for (int side = 0; side < 2; side++) {
            edges_kept(slice[side][k], 8 * n[k], 0x5a + side);
            free(slice[side][k] - EDGE);
        }
    return 0;
}
