// Prices the fund file that its argument names, by the peer, and prints number, place, premium, within and gross on one line.
#include "peer.h"
#include <inttypes.h>
#include <stdio.h>

enum { CELLS = 4096, ROOM = 65536 };

static unsigned char file[ROOM];
static int64_t D[CELLS], f[CELLS], F[CELLS];
static uint64_t H[CELLS], R[CELLS];

int main(int count, char **words) {
    FILE *in = count == 2 ? fopen(words[1], "rb") : NULL;
    if (!in) {
        fprintf(stderr, "peer: a file that cannot be read\n");
        return 2;
    }
    size_t length = fread(file, 1, ROOM, in);
    if (ferror(in) || fclose(in)) {
        fprintf(stderr, "peer: a read that failed\n");
        return 2;
    }
    struct priced a;
    peer_price(file, length, 0, D, CELLS, H, CELLS, f, CELLS, R, CELLS, F, CELLS, &a);
    printf("%" PRIu64 ",%" PRIu64 ",%" PRId64 ",%" PRIu64 ",%" PRIu64 "\n", a.number, a.place, a.premium, a.within, a.gross);
    return 0;
}
