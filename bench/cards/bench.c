// Times the two converters of result cards against the same tests and copies written in C, in one
// program, by turns over the same card. What both write must be equal. A ratio is the median over
// the turns of the port's time to that of the C.
#include <stdint.h>
#include <stdio.h>
#include <stdlib.h>
#include <string.h>
#include <time.h>

#include "trufolmesca.h"

enum { OLDER = TRUFOLMESCA_OLDER_RESULT_CARD_SIZE, NEWER = TRUFOLMESCA_RESULT_CARD_SIZE, TURNS = 101, CALLS = 20000 };

typedef uint32_t converter(const uint8_t *card, size_t card_len, uint8_t *out, size_t out_len);

static double now(void) {
    struct timespec t;
    clock_gettime(CLOCK_THREAD_CPUTIME_ID, &t);
    return t.tv_sec * 1e9 + t.tv_nsec;
}

// ---- the C

// whether a card has this length, its three heads, and 0 or 1 where a truth value is; an edge has so many bytes
static int is_card(const uint8_t *card, size_t card_len, size_t size, uint8_t tag, size_t edge) {
    const uint8_t *flags = card + 70 + 4 * edge;
    if (card_len != size) return 0;
    if (card[0] != 16 || card[1] != 64 || card[2] != 0) return 0;
    if (card[67] != tag || card[68] != 4 * edge || card[69] != 0) return 0;
    if (flags[0] != 18 || flags[1] != 4 || flags[2] != 0) return 0;
    for (size_t e = 0; e < 4; e++)
        if (card[70 + edge * e + edge - 1] > 1 || flags[3 + e] > 1) return 0;
    return 1;
}

static uint32_t widen(const uint8_t *card, size_t card_len, uint8_t *out, size_t out_len) {
    if (!is_card(card, card_len, OLDER, 17, 4)) return 23;
    if (out_len < NEWER) return 12;
    memcpy(out, card, 67);
    out[67] = 19, out[68] = 28, out[69] = 0;
    for (int e = 0; e < 4; e++) {
        for (int k = 0; k < 3; k++) out[70 + 7 * e + 2 * k] = card[70 + 4 * e + k], out[71 + 7 * e + 2 * k] = 0;
        out[76 + 7 * e] = card[73 + 4 * e];
    }
    memcpy(out + 98, card + 86, 7);
    return 0;
}

static uint32_t narrow(const uint8_t *card, size_t card_len, uint8_t *out, size_t out_len) {
    if (!is_card(card, card_len, NEWER, 19, 7)) return 23;
    for (int e = 0; e < 4; e++)
        for (int k = 0; k < 3; k++)
            if (card[71 + 7 * e + 2 * k]) return 24;
    if (out_len < OLDER) return 12;
    memcpy(out, card, 67);
    out[67] = 17, out[68] = 16, out[69] = 0;
    for (int e = 0; e < 4; e++) {
        for (int k = 0; k < 3; k++) out[70 + 4 * e + k] = card[70 + 7 * e + 2 * k];
        out[73 + 4 * e] = card[76 + 7 * e];
    }
    memcpy(out + 86, card + 98, 7);
    return 0;
}

// ---- by turns

static int by_size(const void *a, const void *b) {
    double x = *(const double *)a, y = *(const double *)b;
    return (x > y) - (x < y);
}

// A corner's byte is that of the call before and the turn's, so that no call can be left out.
static double time_of(converter *call, uint8_t *card, size_t card_len, uint8_t *out, size_t out_len) {
    uint32_t numbers = 0;
    double start = now();
    for (int i = 0; i < CALLS; i++) {
        numbers |= call(card, card_len, out, out_len);
        card[3] = (uint8_t)(out[4] + i);
    }
    double took = now() - start;
    if (numbers) {
        fprintf(stderr, "a card was refused\n");
        exit(1);
    }
    return took;
}

// Through pointers that are read anew, so that neither is built into the loop.
static void compare(const char *name, converter *port, converter *c, uint8_t *card, size_t card_len, size_t out_len) {
    converter *volatile calls[2] = {port, c};
    uint8_t out[2][NEWER];
    double ratios[TURNS];
    for (int k = 0; k < 2; k++) calls[k](card, card_len, out[k], out_len);
    if (memcmp(out[0], out[1], out_len)) {
        fprintf(stderr, "%s: another card\n", name);
        exit(1);
    }
    for (int turn = 0; turn < TURNS; turn++) {
        double took = time_of(calls[0], card, card_len, out[0], out_len);
        ratios[turn] = took / time_of(calls[1], card, card_len, out[1], out_len);
    }
    qsort(ratios, TURNS, sizeof *ratios, by_size);
    printf("%s: %.1f\n", name, ratios[TURNS / 2]);
}

int main(void) {
    uint8_t older[OLDER] = {16, 64}, newer[NEWER];
    for (int i = 0; i < 64; i++) older[3 + i] = (uint8_t)(37 * i);
    older[67] = 17, older[68] = 16, older[86] = 18, older[87] = 4;
    for (int e = 0; e < 4; e++) {
        older[70 + 4 * e] = 28, older[71 + 4 * e] = 27, older[72 + 4 * e] = 1;
        older[73 + 4 * e] = older[89 + e] = 1;
    }
    widen(older, OLDER, newer, NEWER);
    compare("widen_result_card", trufolmesca_widen_result_card, widen, older, OLDER, NEWER);
    compare("narrow_result_card", trufolmesca_narrow_result_card, narrow, newer, NEWER, OLDER);
}
