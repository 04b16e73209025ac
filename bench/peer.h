// The answer of a pricing call: METHOD 2's number and place, the line handed back, the figures in units, the gross premium
// in centimes, and the quantile.
#include <stddef.h>
#include <stdint.h>

struct priced {
    uint64_t number, place;
    uint64_t start, length;
    uint64_t truncation, mean;
    int64_t premium;
    uint64_t within;
    uint64_t gross;
    uint64_t horizon; // of an accepted fund, for the listing
    uint64_t reached; // 1 where the level is at most 10^12 and some F(x) up to the horizon is at least the level, else 0
    uint64_t quantile; // the first such x, or 0
};

// Prices a fund file into the five result slices; returns the number.
int peer_price(const unsigned char *file, size_t length, uint64_t level, int64_t *D, size_t nD, uint64_t *H, size_t nH,
               int64_t *f, size_t nf, uint64_t *R, size_t nR, int64_t *F, size_t nF, struct priced *out);

// Prices a fund whose rows come as sheets; the line handed back is one of the header text.
int peer_price_sheets(const unsigned char *header, size_t header_length, const unsigned char *rates, size_t rates_length,
                      const unsigned char *members, size_t members_length, uint64_t level, int64_t *D, size_t nD, uint64_t *H,
                      size_t nH, int64_t *f, size_t nf, uint64_t *R, size_t nR, int64_t *F, size_t nF, struct priced *out);

// The same with plain 128-bit divisions.
int plain_price(const unsigned char *file, size_t length, uint64_t level, int64_t *D, size_t nD, uint64_t *H, size_t nH,
                int64_t *f, size_t nf, uint64_t *R, size_t nR, int64_t *F, size_t nF, struct priced *out);

int plain_price_sheets(const unsigned char *header, size_t header_length, const unsigned char *rates, size_t rates_length,
                       const unsigned char *members, size_t members_length, uint64_t level, int64_t *D, size_t nD, uint64_t *H,
                       size_t nH, int64_t *f, size_t nf, uint64_t *R, size_t nR, int64_t *F, size_t nF, struct priced *out);
