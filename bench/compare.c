// Prices each fund by the two peers and by the verified library in turn, compares every figure and cell, and prints the time
// of one call of each and the ratios. A fund is a file, or a folder NAME.sheets with the files header, rates and members.
// NAME-written-out.fund behind NAME.fund has each line of it as so many lines of one life: its answers must be the same, and
// how much longer it takes is printed too.
#define _POSIX_C_SOURCE 199309L
#include "verified.h"
#include <stdio.h>
#include <stdlib.h>
#include <string.h>
#include <time.h>

enum { CELLS = 4096, ROOM = 65536, ROUNDS = 60 };

static const double ROUND_SECONDS = 0.02;
static const uint64_t LEVEL = 990000000000; // 0.99

typedef int price(const unsigned char *, size_t, uint64_t, int64_t *, size_t, uint64_t *, size_t, int64_t *, size_t, uint64_t *,
                  size_t, int64_t *, size_t, struct priced *);
typedef int price_sheets(const unsigned char *, size_t, const unsigned char *, size_t, const unsigned char *, size_t, uint64_t,
                         int64_t *, size_t, uint64_t *, size_t, int64_t *, size_t, uint64_t *, size_t, int64_t *, size_t,
                         struct priced *);

struct answer {
    struct priced figures;
    int64_t D[CELLS], f[CELLS], F[CELLS];
    uint64_t H[CELLS], R[CELLS];
};

struct side {
    const char *name;
    price *price;
    price_sheets *price_sheets;
    struct answer answer, before; // of this fund and of the one before it
    long calls;
    double time, time_before;
};

static struct side sides[] = {{.name = "plain", .price = plain_price, .price_sheets = plain_price_sheets},
                              {.name = "tuned", .price = peer_price, .price_sheets = peer_price_sheets},
                              {.name = "verified", .price = verified_price, .price_sheets = verified_price_sheets}};

enum { SIDES = sizeof sides / sizeof sides[0], VERIFIED = SIDES - 1 };

// The fund: a file, or a header text, a rate sheet and a member sheet.
enum { TEXTS = 3 };
static unsigned char text[TEXTS][ROOM];
static size_t length[TEXTS];
static int is_sheets;

static void call(struct side *side) {
    struct answer *a = &side->answer;
    if (is_sheets)
        side->price_sheets(text[0], length[0], text[1], length[1], text[2], length[2], LEVEL, a->D, CELLS, a->H, CELLS, a->f, CELLS,
                           a->R, CELLS, a->F, CELLS, &a->figures);
    else
        side->price(text[0], length[0], LEVEL, a->D, CELLS, a->H, CELLS, a->f, CELLS, a->R, CELLS, a->F, CELLS, &a->figures);
}

static double now(void) {
    struct timespec t;
    clock_gettime(CLOCK_PROCESS_CPUTIME_ID, &t);
    return (double)t.tv_sec + 1e-9 * (double)t.tv_nsec;
}

// The time of one call, from so many in a row.
static double timed(struct side *side, long calls) {
    double begin = now();
    for (long k = 0; k < calls; k++)
        call(side);
    return (now() - begin) / (double)calls;
}

static int read_text(const char *name, int number) {
    FILE *in = fopen(name, "rb");
    if (!in)
        return 0;
    length[number] = fread(text[number], 1, ROOM, in);
    return fclose(in) == 0;
}

static int read_fund(const char *name) {
    static const char *const parts[TEXTS] = {"header", "rates", "members"};
    const char *suffix = strrchr(name, '.');
    is_sheets = suffix && strcmp(suffix, ".sheets") == 0;
    if (!is_sheets)
        return read_text(name, 0);
    for (int k = 0; k < TEXTS; k++) {
        char path[FILENAME_MAX];
        snprintf(path, sizeof path, "%s/%s", name, parts[k]);
        if (!read_text(path, k))
            return 0;
    }
    return 1;
}

// Whether the answers are those of the fund before it, and how much longer each side took.
static int compare_written_out(const char *name) {
    for (int k = 0; k < SIDES; k++)
        if (memcmp(&sides[k].answer, &sides[k].before, sizeof sides[k].answer) != 0) {
            printf("%s: the answer of %s is not that of the fund before it\n", name, sides[k].name);
            return 0;
        }
    printf("%s, times the fund before it:", name);
    for (int k = 0; k < SIDES; k++)
        printf(" %s %.2f%s", sides[k].name, sides[k].time / sides[k].time_before, k + 1 < SIDES ? "," : "\n");
    return 1;
}

static int compare(const char *name) {
    if (!read_fund(name)) {
        fprintf(stderr, "%s: cannot be read\n", name);
        return 0;
    }
    for (int k = 0; k < SIDES; k++) {
        sides[k].before = sides[k].answer;
        sides[k].time_before = sides[k].time;
        memset(&sides[k].answer, 0x11 * (k + 1), sizeof sides[k].answer);
        call(&sides[k]);
        if (memcmp(&sides[0].answer, &sides[k].answer, sizeof sides[0].answer) != 0) {
            printf("%s: the answers of %s and %s differ\n", name, sides[0].name, sides[k].name);
            return 0;
        }
    }
    if (sides[0].answer.figures.number != 0) {
        printf("%s: refused %d\n", name, (int)sides[0].answer.figures.number);
        return 0;
    }
    for (int k = 0; k < SIDES; k++) {
        sides[k].calls = 1 + (long)(ROUND_SECONDS / timed(&sides[k], 3));
        sides[k].time = 1e9;
    }
    for (int round = 0; round < ROUNDS; round++)
        for (int k = 0; k < SIDES; k++) {
            double time = timed(&sides[k], sides[k].calls);
            sides[k].time = time < sides[k].time ? time : sides[k].time;
        }
    printf("%s:", name);
    for (int k = 0; k < SIDES; k++)
        printf(" %s %.1f us,", sides[k].name, 1e6 * sides[k].time);
    printf(" verified/plain %.2f, verified/tuned %.2f\n", sides[VERIFIED].time / sides[0].time, sides[VERIFIED].time / sides[1].time);
    return strstr(name, "-written-out") ? compare_written_out(name) : 1;
}

int main(int count, char **names) {
    int good = count > 1;
    for (int k = 1; k < count; k++)
        good = compare(names[k]) && good;
    return good ? EXIT_SUCCESS : EXIT_FAILURE;
}
