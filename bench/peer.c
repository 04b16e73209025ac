// docs/METHOD.md in C, without proofs: the peers that the verified library is measured against. With PLAIN every product is
// divided as a 128-bit integer, and the calls are plain_price and plain_price_sheets; without, the divisions are made by hand
// where words are enough.
#include "peer.h"
#include <string.h>

#ifdef PLAIN
#define peer_price plain_price
#define peer_price_sheets plain_price_sheets
#endif

typedef unsigned __int128 wide;

#define MILLION 1000000ull
#define UNIT 1000000000000ull
#define FIVES 244140625ull // 5^12

enum { MOST_HORIZON = 4095, MOST_ORDER = 12, MOST_FREQUENCY = 5000, MOST_RATES = 121, MOST_MEMBERS = 1000, MOST_AGE = 120 };
enum { HEADER_LINES = 7, MOST_AMOUNT = 65535, MOST_LIVES = 1000 };
enum { CELL_BYTES = 8, RATE_BYTES = 3 * CELL_BYTES, MEMBER_BYTES = 5 * CELL_BYTES };
enum { FORM = 1, RANGE, EDITION, DEDUCTIBLE, UNMATCHED, HALF, LOAD, ORDER, SHORT, WIDE, CELL };

struct rate {
    uint64_t age, q, i;
};

struct frequencies {
    uint64_t death, disability;
};

// A line, which stands for so many lives; q, i and p are those of one life.
struct member {
    size_t start; // of its line
    uint64_t age, group, d, e, lives;
    uint64_t q, i, p; // folded
};

struct fund {
    uint64_t rates, members, horizon, order, deductible, worth;
    uint64_t lives; // in all
    struct frequencies frequency;
    size_t rate_rows, member_rows;
    struct rate rate[MOST_RATES];
    struct member member[MOST_MEMBERS];
};

// A place where D or H is not zero.
struct place {
    uint64_t k, size; // size is |D(k)|
    int64_t sign; // -1 where D(k) is negative, else 0
    uint64_t h;
};

// All of them, in rising order.
struct places {
    size_t count;
    int words; // whether each product of a bound is a word, R being at most 250,000 and |f| at most 2*10^12
    struct place at[MOST_HORIZON];
};

// Roundings

static uint64_t up(uint64_t a, uint64_t b) { return (a + b - 1) / b; }

static uint64_t nearest(uint64_t a, uint64_t b) { return (a + b / 2) / b; }

#ifdef PLAIN
// A product over 10^12, as 128-bit integers give it.
static inline uint64_t per_unit(wide product) { return (uint64_t)(product / UNIT); }
#else
// A product over 10^12, which is 2^12 times FIVES; where it is below 2^76, by a division of words.
static inline uint64_t per_unit(wide product) {
    uint64_t top = (uint64_t)(product >> 64), low = (uint64_t)product;
    if (top >> 12 == 0)
        return (top << 52 | low >> 12) / FIVES;
    return (uint64_t)(product / UNIT);
}
#endif

static inline uint64_t nearest_per_unit(uint64_t a, uint64_t b) { return per_unit((wide)a * b + UNIT / 2); }

static inline uint64_t up_per_unit(uint64_t a, uint64_t b) { return per_unit((wide)a * b + (UNIT - 1)); }

// The same for a product that is a word.
static inline uint64_t up_per_unit_word(uint64_t a, uint64_t b) { return (a * b + (UNIT - 1)) / UNIT; }

// The fund file

struct reader {
    const unsigned char *file;
    size_t length, next; // the next line's start
    uint64_t place;
    size_t start, end; // the line taken last
};

// The next line; 0 where it is missing.
static int take(struct reader *r) {
    r->place++;
    r->start = r->end = 0;
    if (r->next == r->length)
        return 0;
    const unsigned char *feed = memchr(r->file + r->next, '\n', r->length - r->next);
    r->start = r->next;
    r->end = feed ? (size_t)(feed - r->file) : r->length;
    r->next = feed ? r->end + 1 : r->length;
    return 1;
}

// Whether the line is the key and `count` numbers between commas, with its line feed.
static int spelled(const struct reader *r, const char *key, size_t key_length, int count, uint64_t *n) {
    const unsigned char *at = r->file + r->start, *end = r->file + r->end;
    if (r->next == r->end || (size_t)(end - at) < key_length || memcmp(at, key, key_length) != 0)
        return 0;
    at += key_length;
    for (int k = 0; k < count; k++) {
        const unsigned char *first = at;
        uint64_t value = 0;
        while (at < end && (unsigned)(*at - '0') <= 9 && at - first < 8)
            value = 10 * value + (*at++ - '0');
        if (at == first || at - first > 7 || (*first == '0' && at - first > 1))
            return 0;
        n[k] = value;
        if (k + 1 < count && (at == end || *at++ != ','))
            return 0;
    }
    return at == end;
}

#define SPELLED(r, key, count, n) spelled(r, key, sizeof key - 1, count, n)

static int read_number(struct reader *r, const char *key, uint64_t least, uint64_t most, uint64_t *n) {
    if (!take(r) || !spelled(r, key, strlen(key), 1, n))
        return FORM;
    return *n < least || *n > most ? RANGE : 0;
}

static int read_frequencies(struct reader *r, struct frequencies *frequency) {
    uint64_t n[2];
    if (!take(r) || !SPELLED(r, "frequency=", 2, n))
        return FORM;
    *frequency = (struct frequencies){n[0], n[1]};
    return n[0] > MOST_FREQUENCY || n[1] > MOST_FREQUENCY ? RANGE : 0;
}

static int read_rate(struct fund *fund, const uint64_t *n) {
    size_t rows = fund->rate_rows;
    if (fund->member_rows > 0)
        return FORM;
    if (rows == MOST_RATES || n[0] > MOST_AGE || (rows > 0 && n[0] <= fund->rate[rows - 1].age) || n[1] + n[2] > MILLION)
        return RANGE;
    fund->rate[fund->rate_rows++] = (struct rate){n[0], n[1], n[2]};
    return 0;
}

// Each line has a life or more, so that the lives in all limit the lines too.
static int read_member(struct fund *fund, size_t start, const uint64_t *n) {
    if (n[0] > MOST_AGE || n[1] < 1 || n[1] > 2 || n[2] > MOST_AMOUNT || n[3] > MOST_AMOUNT || n[4] < 1 ||
        n[4] > MOST_LIVES - fund->lives)
        return RANGE;
    struct member *m = &fund->member[fund->member_rows++];
    m->start = start;
    m->age = n[0], m->group = n[1], m->d = n[2], m->e = n[3], m->lives = n[4];
    fund->lives += n[4];
    return 0;
}

static int read_rows(struct reader *r, struct fund *fund) {
    uint64_t n[5];
    int why;
    for (;;) {
        if (!take(r))
            return FORM;
        if (SPELLED(r, "member=", 5, n)) {
            if ((why = read_member(fund, r->start, n)))
                return why;
        } else if (SPELLED(r, "rate=", 3, n)) {
            if ((why = read_rate(fund, n)))
                return why;
        } else if (SPELLED(r, "end=", 1, n)) {
            if (n[0] != fund->member_rows)
                return RANGE;
            return r->next < r->length && take(r) ? FORM : 0;
        } else {
            return FORM;
        }
    }
}

static int read_header(struct reader *r, struct fund *fund) {
    int why;
    fund->rate_rows = fund->member_rows = 0;
    fund->lives = 0;
    if ((why = read_number(r, "rates=", 1900, 2999, &fund->rates)) ||
        (why = read_number(r, "members=", 1900, 2999, &fund->members)) ||
        (why = read_number(r, "horizon=", 0, MOST_HORIZON, &fund->horizon)) ||
        (why = read_number(r, "order=", 1, MOST_ORDER, &fund->order)) ||
        (why = read_frequencies(r, &fund->frequency)) ||
        (why = read_number(r, "deductible=", 0, 4096, &fund->deductible)) ||
        (why = read_number(r, "worth=", 1, 9999999, &fund->worth)))
        return why;
    return 0;
}

static int read_fund(struct reader *r, struct fund *fund) {
    int why = read_header(r, fund);
    return why ? why : read_rows(r, fund);
}

// Sheets

struct sheet {
    const unsigned char *bytes;
    size_t length;
};

// The cell with this number of a row; a blank is any NaN.
static double cell_of(const unsigned char *row, int number) {
    uint64_t bits = 0;
    double x;
    for (int k = CELL_BYTES; k-- > 0;)
        bits = bits << 8 | row[CELL_BYTES * number + k];
    memcpy(&x, &bits, sizeof x);
    return x;
}

// Whether x is a whole number within the limits. No comparison holds of a NaN, and minus zero is 0.
static int whole(double x, uint64_t least, uint64_t most, uint64_t *n) {
    if (!(x >= (double)least && x <= (double)most))
        return 0;
    *n = (uint64_t)x;
    return (double)*n == x;
}

static int amount(double x, uint64_t *n) {
    *n = 0;
    return x != x || whole(x, 0, MOST_AMOUNT, n);
}

// Whether x is the quotient of some k by 1,000,000: of the nearest k, since no other is within a half.
static int rate(double x, uint64_t *k) {
    if (!(x >= 0 && x <= 1))
        return 0;
    *k = (uint64_t)(x * 1e6 + 0.5);
    return (double)*k / 1e6 == x;
}

// The rate rows and then the member rows; `row` is the one at fault.
static int read_sheets(struct sheet rates, struct sheet members, struct fund *fund, uint64_t *row) {
    uint64_t n[5];
    int why;
    *row = 0;
    for (size_t at = 0; at < rates.length; at += RATE_BYTES) {
        const unsigned char *cells = rates.bytes + at;
        ++*row;
        if (rates.length - at < RATE_BYTES || !whole(cell_of(cells, 0), 0, MOST_AGE, &n[0]) || !rate(cell_of(cells, 1), &n[1]) ||
            !rate(cell_of(cells, 2), &n[2]))
            return CELL;
        if ((why = read_rate(fund, n)))
            return why;
    }
    for (size_t at = 0; at < members.length; at += MEMBER_BYTES) {
        const unsigned char *cells = members.bytes + at;
        ++*row;
        if (members.length - at < MEMBER_BYTES || !whole(cell_of(cells, 0), 0, MOST_AGE, &n[0]) ||
            !whole(cell_of(cells, 1), 1, 2, &n[1]) || !amount(cell_of(cells, 2), &n[2]) || !amount(cell_of(cells, 3), &n[3]) ||
            !whole(cell_of(cells, 4), 1, MOST_LIVES, &n[4]))
            return CELL;
        if ((why = read_member(fund, 0, n)))
            return why;
    }
    return 0;
}

// From members to the transform

// Refusals 5 and 6; `at` is the member.
static int fold(struct fund *fund, size_t *at) {
    // a row holds from its age until the next row's
    const struct rate *row[MOST_AGE + 1] = {0};
    for (size_t k = 0; k < fund->rate_rows; k++)
        row[fund->rate[k].age] = &fund->rate[k];
    for (size_t age = 1; age <= MOST_AGE; age++)
        if (!row[age])
            row[age] = row[age - 1];
    for (*at = 0; *at < fund->member_rows; ++*at) {
        struct member *m = &fund->member[*at];
        const struct rate *rate = row[m->age];
        if (!rate)
            return UNMATCHED;
        m->q = m->d ? rate->q : 0;
        m->i = m->e ? rate->i : 0;
        m->p = MILLION - m->q - m->i;
    }
    for (*at = 0; *at < fund->member_rows; ++*at)
        if (fund->member[*at].group == 1 && fund->member[*at].p <= MILLION / 2)
            return HALF;
    return 0;
}

// The weights of one life of group 2, in units.
static uint64_t death_weight(const struct fund *fund, const struct member *m) { return m->q * fund->frequency.death * 1000; }

static uint64_t disability_weight(const struct fund *fund, const struct member *m) {
    return m->i * fund->frequency.disability * 1000;
}

static uint64_t lambda_of(const struct fund *fund) {
    uint64_t lambda = 0;
    for (const struct member *m = fund->member, *end = m + fund->member_rows; m < end; m++)
        if (m->group == 2)
            lambda += m->lives * (death_weight(fund, m) + disability_weight(fund, m));
    return lambda;
}

static uint64_t load_of(const struct fund *fund, uint64_t lambda) {
    uint64_t load = lambda;
    for (const struct member *m = fund->member, *end = m + fund->member_rows; m < end; m++)
        if (m->group == 1)
            load += m->lives * up(UNIT * (m->q + m->i), m->p);
    return load;
}

static wide truncation_of(const struct fund *fund) {
    wide sum = 0;
    for (const struct member *m = fund->member, *end = m + fund->member_rows; m < end; m++) {
        if (m->group != 1)
            continue;
        uint64_t claim = m->q + m->i, w = UNIT;
        for (uint64_t n = 0; n <= fund->order; n++)
            w = up(w * claim, m->p);
        sum += (wide)m->lives * up(w * m->p, (m->p - claim) * (fund->order + 1));
    }
    return sum;
}

// Asked where the load is within its limit: without it a line's product may wrap.
static uint64_t mean_of(const struct fund *fund) {
    uint64_t mean = 0;
    for (const struct member *m = fund->member, *end = m + fund->member_rows; m < end; m++)
        mean += m->lives * (m->group == 1 ? (m->q * m->d + m->i * m->e) * MILLION
                                          : death_weight(fund, m) * m->d + disability_weight(fund, m) * m->e);
    return mean;
}

// The terms of a line of group 1, each for all its lives.
static void add_terms(const struct member *m, uint64_t order, uint64_t horizon, int64_t *D, uint64_t *H) {
    uint64_t v[MOST_ORDER + 1] = {UNIT};
    for (uint64_t n = 1; n <= order; n++) {
        // without q only l = 0 is reached, without i only l = n
        uint64_t least = m->i ? 0 : n, most = m->q ? n : 0;
        for (uint64_t l = most + 1; l-- > least;) {
            v[l] = nearest((l ? m->q * v[l - 1] : 0) + m->i * v[l], m->p);
            uint64_t x = m->d * l + m->e * (n - l);
            if (x > horizon)
                continue;
            int64_t term = (int64_t)(m->lives * nearest(x * v[l], n));
            D[x] += n % 2 ? term : -term;
            H[x] += m->lives * x;
        }
    }
}

static void transform(const struct fund *fund, int64_t *D, uint64_t *H) {
    uint64_t horizon = fund->horizon;
    for (const struct member *m = fund->member, *end = m + fund->member_rows; m < end; m++) {
        if (m->group == 1) {
            if (m->q || m->i)
                add_terms(m, fund->order, horizon, D, H);
            continue;
        }
        if (m->d <= horizon)
            D[m->d] += (int64_t)(m->lives * death_weight(fund, m) * m->d);
        if (m->e <= horizon)
            D[m->e] += (int64_t)(m->lives * disability_weight(fund, m) * m->e);
    }
}

// The recursion and its bounds

static void start(const struct fund *fund, uint64_t lambda, int64_t *cell, uint64_t *bound) {
    uint64_t t = UNIT, c = 0;
    int64_t sum = UNIT;
    *bound = 0;
    if (lambda > 0)
        for (uint64_t n = 1; n < 64; n++) {
            wide divisor = (wide)n * UNIT;
            t = (uint64_t)(((wide)t * lambda + divisor / 2) / divisor);
            c = (uint64_t)(((wide)c * lambda + divisor - 1) / divisor) + 1;
            sum += n % 2 ? -(int64_t)t : (int64_t)t;
            *bound += c;
        }
    int negative = sum < 0;
    uint64_t size = negative ? -(uint64_t)sum : (uint64_t)sum;
    for (const struct member *m = fund->member, *end = m + fund->member_rows; m < end; m++)
        if (m->group == 1) {
            for (uint64_t k = 0; k < m->lives; k++)
                size = nearest(size * m->p, MILLION);
            *bound += m->lives;
        }
    *cell = negative ? -(int64_t)size : (int64_t)size;
}

static void list_places(uint64_t horizon, const int64_t *D, const uint64_t *H, struct places *p) {
    p->count = 0;
    p->words = 1;
    for (uint64_t k = 1; k <= horizon; k++) {
        if (D[k] == 0 && H[k] == 0)
            continue;
        uint64_t size = D[k] < 0 ? -(uint64_t)D[k] : (uint64_t)D[k];
        p->at[p->count++] = (struct place){k, size, D[k] >> 63, H[k]};
#ifdef PLAIN
        p->words = 0;
#else
        p->words &= size <= 70 * UNIT && H[k] <= 9000000;
#endif
    }
}

struct sums {
    int64_t cell;
    uint64_t bound;
};

// The sums of one x over the places up to it; f and R point at their cells x.
static inline struct sums sums_of(const struct place *at, size_t count, int words, const int64_t *f, const uint64_t *R) {
    struct sums s = {0, 0};
    for (size_t j = 0; j < count; j++, at++) {
        ptrdiff_t k = (ptrdiff_t)at->k;
        int64_t cell = f[-k], minus = cell >> 63;
        uint64_t r = R[-k], size = (uint64_t)((cell ^ minus) - minus);
        int64_t part = (int64_t)nearest_per_unit(at->size, size);
        minus ^= at->sign;
        s.cell += (part ^ minus) - minus;
        s.bound += words ? up_per_unit_word(at->size, r) + up_per_unit_word(at->h, size + r)
                         : up_per_unit(at->size, r) + up_per_unit(at->h, size + r);
    }
    return s;
}

// Kept out of line: inlined into the rest, the loop lacks registers.
__attribute__((noinline)) static struct sums sums_at(const struct places *p, size_t count, const int64_t *f, const uint64_t *R) {
    return p->words ? sums_of(p->at, count, 1, f, R) : sums_of(p->at, count, 0, f, R);
}

// f and R from 1 to the horizon; the first place whose bound is too wide, or 0.
static uint64_t recursion(uint64_t horizon, const int64_t *D, const uint64_t *H, int64_t *f, uint64_t *R) {
    struct places p;
    size_t reached = 0;
    list_places(horizon, D, H, &p);
    for (uint64_t x = 1; x <= horizon; x++) {
        while (reached < p.count && p.at[reached].k <= x)
            reached++;
        struct sums s = sums_at(&p, reached, f + x, R + x);
        R[x] = up(s.bound, x) + 1;
        if (R[x] > 250000)
            return x;
        uint64_t size = s.cell < 0 ? -(uint64_t)s.cell : (uint64_t)s.cell;
        int64_t cell = (int64_t)nearest(size, x);
        f[x] = s.cell < 0 ? -cell : cell;
    }
    return 0;
}

static void premium(const struct fund *fund, const int64_t *f, const uint64_t *R, struct priced *out) {
    uint64_t M = fund->deductible;
    out->premium = (int64_t)out->mean - (int64_t)(M * UNIT);
    out->within = 2 * M * out->truncation;
    for (uint64_t x = 0; x < M; x++) {
        out->premium += (int64_t)(M - x) * f[x];
        out->within += (M - x) * R[x];
    }
}

// The loading of the pool's tariff, in thousandths.
static uint64_t loading(uint64_t deductible) {
    return deductible < 100 ? 1500 : deductible < 300 ? 1700 : deductible < 600 ? 1900 : 2100;
}

// The gross premium in centimes: divided once by 10^15 and taken up.
static uint64_t gross(const struct fund *fund, int64_t premium, uint64_t within) {
    const wide divisor = (wide)1000 * UNIT;
    int64_t sum = premium + (int64_t)within;
    if (sum < 0)
        return 0;
    return (uint64_t)(((wide)(uint64_t)sum * fund->worth * loading(fund->deductible) + (divisor - 1)) / divisor);
}

// The running sums of f, and the first place where they are at least the level.
static void running_sums(uint64_t horizon, uint64_t level, const int64_t *f, int64_t *F, struct priced *out) {
    int64_t sum = 0;
    int open = level <= UNIT;
    for (uint64_t x = 0; x <= horizon; x++) {
        sum += f[x];
        F[x] = sum;
        if (open && sum >= (int64_t)level) {
            open = 0;
            out->reached = 1;
            out->quantile = x;
        }
    }
}

// Refusals 7 to 10, or the figures and cells.
static int value(const struct fund *fund, uint64_t level, int64_t *D, size_t nD, uint64_t *H, size_t nH, int64_t *f, size_t nf,
                 uint64_t *R, size_t nR, int64_t *F, size_t nF, struct priced *out) {
    uint64_t lambda = lambda_of(fund), horizon = fund->horizon;
    if (load_of(fund, lambda) > 8 * UNIT)
        return LOAD;
    wide truncation = truncation_of(fund);
    if (truncation > 100000000)
        return ORDER;
    if (nD <= horizon || nH <= horizon || nf <= horizon || nR <= horizon || nF <= horizon)
        return SHORT;
    transform(fund, D, H);
    start(fund, lambda, &f[0], &R[0]);
    out->place = recursion(horizon, D, H, f, R);
    if (out->place)
        return WIDE;
    out->truncation = (uint64_t)truncation;
    out->mean = mean_of(fund);
    out->horizon = horizon;
    premium(fund, f, R, out);
    out->gross = gross(fund, out->premium, out->within);
    running_sums(horizon, level, f, F, out);
    return 0;
}

static void clear(int64_t *D, size_t nD, uint64_t *H, size_t nH, int64_t *f, size_t nf, uint64_t *R, size_t nR, int64_t *F,
                  size_t nF) {
    memset(D, 0, nD * sizeof *D);
    memset(H, 0, nH * sizeof *H);
    memset(f, 0, nf * sizeof *f);
    memset(R, 0, nR * sizeof *R);
    memset(F, 0, nF * sizeof *F);
}

// Refusals 3 to 10 of a fund that is read, or the figures and cells; sets the place, and for 5 and 6 the member.
static int priced_fund(struct fund *fund, uint64_t level, int64_t *D, size_t nD, uint64_t *H, size_t nH, int64_t *f, size_t nf,
                       uint64_t *R, size_t nR, int64_t *F, size_t nF, size_t *at, struct priced *out) {
    int why;
    if (fund->rates != fund->members)
        return EDITION;
    if (fund->deductible > fund->horizon + 1)
        return DEDUCTIBLE;
    if ((why = fold(fund, at))) {
        out->place = HEADER_LINES + 1 + fund->rate_rows + *at;
        return why;
    }
    why = value(fund, level, D, nD, H, nH, f, nf, R, nR, F, nF, out);
    if (why)
        clear(D, nD, H, nH, f, nf, R, nR, F, nF);
    return why;
}

// The part that is handed back: the line taken last.
static void hand_back(const struct reader *r, struct priced *out) {
    out->start = r->end > r->start ? r->start : 0;
    out->length = r->end - r->start;
}

int peer_price(const unsigned char *file, size_t length, uint64_t level, int64_t *D, size_t nD, uint64_t *H, size_t nH,
               int64_t *f, size_t nf, uint64_t *R, size_t nR, int64_t *F, size_t nF, struct priced *out) {
    struct fund fund;
    struct reader r = {.file = file, .length = length};
    size_t at = 0;
    int why;
    *out = (struct priced){0};
    clear(D, nD, H, nH, f, nf, R, nR, F, nF);
    if ((why = read_fund(&r, &fund))) {
        out->place = r.place;
        hand_back(&r, out);
    } else {
        why = priced_fund(&fund, level, D, nD, H, nH, f, nf, R, nR, F, nF, &at, out);
        if (why == UNMATCHED || why == HALF) {
            r.next = fund.member[at].start;
            take(&r);
            hand_back(&r, out);
        }
    }
    out->number = (uint64_t)why;
    return why;
}

int peer_price_sheets(const unsigned char *header, size_t header_length, const unsigned char *rates, size_t rates_length,
                      const unsigned char *members, size_t members_length, uint64_t level, int64_t *D, size_t nD, uint64_t *H,
                      size_t nH, int64_t *f, size_t nf, uint64_t *R, size_t nR, int64_t *F, size_t nF, struct priced *out) {
    struct fund fund;
    struct reader r = {.file = header, .length = header_length};
    uint64_t row;
    size_t at = 0;
    int why;
    *out = (struct priced){0};
    clear(D, nD, H, nH, f, nf, R, nR, F, nF);
    why = read_header(&r, &fund);
    if (!why && r.next < r.length && take(&r))
        why = FORM;
    if (why) {
        out->place = r.place;
        hand_back(&r, out);
    } else if ((why = read_sheets((struct sheet){rates, rates_length}, (struct sheet){members, members_length}, &fund, &row))) {
        out->place = why == CELL ? row : HEADER_LINES + row;
    } else {
        why = priced_fund(&fund, level, D, nD, H, nH, f, nf, R, nR, F, nF, &at, out);
    }
    out->number = (uint64_t)why;
    return why;
}
