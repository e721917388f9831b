/*
 * Two decoders of the same trellis, 64 states and the generators 171 and 133: libosmocore's and libfec's. They decode error-free soft bits of random
 * data that a plain encoder made here. The encoder starts in state 0, and the last TAIL digits are 0: libfec goes back from the state after them, and
does not give them.
 */
#include <fec.h>
#include <osmocom/core/conv.h>
#include <stdlib.h>
#include <string.h>

#include "peers.h"

/* The generators as taps on a state with the newest digit worth 1, the present stage's digit worth 1 too. */
enum { FIRST = 0x4f, SECOND = 0x6d, STATES = 64, TAIL = 6 };

static uint8_t outputs[STATES][2];
static uint8_t nexts[STATES][2];

static const struct osmo_conv_code code = {
    .N = 2,
    .K = 7,
    .len = STAGES,
    .term = CONV_TERM_TRUNCATION,
    .next_output = (const uint8_t(*)[2])outputs,
    .next_state = (const uint8_t(*)[2])nexts,
};

static ubit_t sent[BLOCKS][STAGES];
static sbit_t soft[BLOCKS][2 * STAGES];           /* libosmocore: 127 is a 0, -127 a 1 */
static unsigned char symbols[BLOCKS][2 * STAGES]; /* libfec: 0 is a 0, 255 a 1 */
static ubit_t got[BLOCKS][STAGES];
static unsigned char packed[BLOCKS][STAGES / 8];
static void *fec;

static unsigned odd(unsigned x)
{
    return (unsigned)__builtin_popcount(x) % 2;
}

void decoders_prepare(uint64_t seed)
{
    /* libosmocore's state has the newest digit worth 1 as well; its output has the first generator's bit worth 2. */
    for (unsigned s = 0; s < STATES; s++) {
        for (unsigned d = 0; d < 2; d++) {
            const unsigned window = 2 * s + d;
            outputs[s][d] = (uint8_t)(2 * odd(window & FIRST) + odd(window & SECOND));
            nexts[s][d] = (uint8_t)(window % STATES);
        }
    }
    for (int k = 0; k < BLOCKS; k++) {
        unsigned state = 0;
        for (int t = 0; t < STAGES; t++) {
            seed = seed * UINT64_C(6364136223846793005) + UINT64_C(1442695040888963407);
            const unsigned d = t < STAGES - TAIL ? (unsigned)(seed >> 63) : 0;
            const unsigned word = outputs[state][d];
            sent[k][t] = (ubit_t)d;
            soft[k][2 * t] = (word & 2) != 0 ? -127 : 127;
            soft[k][2 * t + 1] = (word & 1) != 0 ? -127 : 127;
            symbols[k][2 * t] = (word & 2) != 0 ? 255 : 0;
            symbols[k][2 * t + 1] = (word & 1) != 0 ? 255 : 0;
            state = nexts[state][d];
        }
    }
    if (fec == NULL) {
        /* A polynomial of libfec has the present stage's digit worth 1. */
        int polynomials[2] = {FIRST, SECOND};
        fec = create_viterbi27(STAGES);
        if (fec == NULL) {
            abort();
        }
        set_viterbi27_polynomial(polynomials);
    }
}

void libosmocore_decode(void)
{
    for (int k = 0; k < BLOCKS; k++) {
        (void)osmo_conv_decode(&code, soft[k], got[k]);
    }
}

int libosmocore_right(void)
{
    const int right = memcmp(got, sent, sizeof got) == 0;
    memset(got, 2, sizeof got);
    return right;
}

void libfec_decode(void)
{
    for (int k = 0; k < BLOCKS; k++) {
        (void)init_viterbi27(fec, 0);
        (void)update_viterbi27_blk(fec, symbols[k], STAGES);
        (void)chainback_viterbi27(fec, packed[k], STAGES - TAIL, 0);
    }
}

int libfec_right(void)
{
    int right = 1;
    for (int k = 0; k < BLOCKS; k++) {
        for (int t = 0; t < STAGES - TAIL; t++) {
            right &= ((packed[k][t / 8] >> (7 - t % 8)) & 1) == sent[k][t];
        }
    }
    memset(packed, 0, sizeof packed);
    return right;
}
