// The verified calls with the peer's signatures.
#include "../include/miguepo.h"
#include "peer.h"

static inline struct priced priced_of(const struct miguepo_result *got) {
    struct priced out = {
        .number = got->number,
        .place = got->place,
        .start = got->line_start,
        .length = got->line_size,
        .truncation = got->truncation,
        .mean = got->mean,
        .premium = got->premium,
        .within = got->within,
        .gross = got->gross,
        .horizon = got->horizon,
        .reached = got->reached,
        .quantile = got->quantile,
    };
    return out;
}

static inline int verified_price(const unsigned char *file, size_t length, uint64_t level, int64_t *D, size_t nD, uint64_t *H,
                                 size_t nH, int64_t *f, size_t nf, uint64_t *R, size_t nR, int64_t *F, size_t nF,
                                 struct priced *out) {
    struct miguepo_result got;
    miguepo_price(file, length, level, D, nD, H, nH, f, nf, R, nR, F, nF, &got);
    *out = priced_of(&got);
    return (int)out->number;
}

static inline int verified_price_sheets(const unsigned char *header, size_t header_length, const unsigned char *rates,
                                        size_t rates_length, const unsigned char *members, size_t members_length, uint64_t level,
                                        int64_t *D, size_t nD, uint64_t *H, size_t nH, int64_t *f, size_t nf, uint64_t *R,
                                        size_t nR, int64_t *F, size_t nF, struct priced *out) {
    struct miguepo_result got;
    miguepo_price_sheets(header, header_length, rates, rates_length, members, members_length, level, D, nD, H, nH, f, nf, R, nR,
                         F, nF, &got);
    *out = priced_of(&got);
    return (int)out->number;
}
