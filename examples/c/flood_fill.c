/* An image of drift coefficients, received over a link that loses, repeats and shuffles messages. Each pass sends the blocks that are not
 * done, until all are. Then the image is compared with what was sent. */
#include <stdio.h>
#include <string.h>

#include "reidhintsje.h"

#define BLOCKS 5u
#define SIZE 8u      /* the words of a block */
#define LAST_SIZE 3u /* the words of the last block */
#define WORDS (SIZE * (BLOCKS - 1) + LAST_SIZE)
#define UNTOUCHED 0xeeu

static uint32_t coefficients[WORDS];                 /* what is sent */
static uint8_t receiver[REIDHINTSJE_RECEIVER_BYTES]; /* all zeros: the empty receiver */
static uint8_t image[4 * SIZE * BLOCKS];             /* four bytes for each declared word; the short last block leaves some over */
static uint64_t outcome[REIDHINTSJE_OUTCOME_NUMBERS];
static unsigned events[REIDHINTSJE_DONE + 1]; /* how often each event was answered */
static unsigned sent, lost, twice;

/* 0 to n - 1, the same series in each run */
static uint32_t chance(uint32_t n) {
    static uint32_t state = 15;
    state = state * 1664525u + 1013904223u;
    return (state >> 16) % n;
}

/* how often a message that is sent arrives */
static int arrivals(void) {
    uint32_t n = chance(12);
    sent += 1;
    lost += n == 0;
    twice += n == 1;
    return n == 0 ? 0 : n == 1 ? 2 : 1;
}

/* Sends a block: Block Start, its words in a shuffled order, Block End. Prints what each Block End was answered; 1 if the block is done. */
static int send_block(uint32_t block) {
    const uint32_t size = block == BLOCKS - 1 ? LAST_SIZE : SIZE;
    uint32_t order[SIZE];
    int done = 0;

    for (uint32_t i = 0; i < SIZE; i++) {
        order[i] = i;
    }
    for (uint32_t i = size - 1; i > 0; i--) {
        uint32_t other = chance(i + 1), id = order[i];
        order[i] = order[other];
        order[other] = id;
    }

    for (int n = arrivals(); n > 0; n--) {
        reidhintsje_flood_fill_block_start(receiver, image, sizeof image, block, size, outcome);
        events[outcome[REIDHINTSJE_EVENT]]++;
    }
    for (uint32_t i = 0; i < size; i++) {
        uint32_t word = coefficients[SIZE * block + order[i]];
        for (int n = arrivals(); n > 0; n--) {
            reidhintsje_flood_fill_block_data(receiver, image, sizeof image, block, order[i], word, outcome);
            events[outcome[REIDHINTSJE_EVENT]]++;
        }
    }
    int ends = arrivals();
    printf(ends ? " %u" : " %u no answer", (unsigned)block);
    for (; ends > 0; ends--) {
        uint32_t refusal = reidhintsje_flood_fill_block_end(receiver, image, sizeof image, block, outcome);
        events[outcome[REIDHINTSJE_EVENT]]++;
        switch (outcome[REIDHINTSJE_EVENT]) {
        case REIDHINTSJE_DONE:
            done = 1;
            printf(" done");
            break;
        case REIDHINTSJE_MISSING:
            printf(" lacks %u (lowest %u)", (unsigned)outcome[REIDHINTSJE_ITEMS], (unsigned)outcome[REIDHINTSJE_PLACE]);
            break;
        default: /* 29: the Block Start was lost, or an earlier Block End completed the block */
            printf(" refused %u", (unsigned)refusal);
        }
    }
    printf(";");
    return done;
}

int main(void) {
    int done[BLOCKS] = {0};
    unsigned left = BLOCKS, wrong = 0, written = 0;

    for (uint32_t i = 0; i < WORDS; i++) {
        coefficients[i] = 0x10000u + 37 * i * i; /* 1 and a little, in 65536ths */
    }
    memset(image, UNTOUCHED, sizeof image);

    /* three that are refused: a block before any Start; an image that is a byte short; blocks of no words. Then the Start itself */
    const uint32_t last = BLOCKS - 1;
    printf("early: %u\n", (unsigned)reidhintsje_flood_fill_block_start(receiver, image, sizeof image, 0, SIZE, outcome));
    printf("short: %u\n", (unsigned)reidhintsje_flood_fill_start(receiver, image, sizeof image - 1, last, SIZE, outcome));
    printf("empty: %u\n", (unsigned)reidhintsje_flood_fill_start(receiver, image, sizeof image, last, 0, outcome));
    printf("start: %u\n", (unsigned)reidhintsje_flood_fill_start(receiver, image, sizeof image, last, SIZE, outcome));

    for (unsigned pass = 1; left > 0; pass++) {
        printf("pass %u:", pass);
        for (uint32_t block = 0; block < BLOCKS; block++) {
            if (!done[block] && send_block(block)) {
                done[block] = 1;
                left--;
            }
        }
        printf(" %u left\n", left);
    }
    printf("sent %u, lost %u, twice %u\n", sent, lost, twice);
    printf("accepted %u, ignored %u, missing %u, done %u, refused %u\n", events[REIDHINTSJE_ACCEPTED], events[REIDHINTSJE_IGNORED],
           events[REIDHINTSJE_MISSING], events[REIDHINTSJE_DONE], events[REIDHINTSJE_REFUSED]);

    /* the image has the coefficients, Little Endian; the bytes behind them are as they were */
    for (size_t i = 0; i < 4 * WORDS; i++) {
        wrong += image[i] != (uint8_t)(coefficients[i / 4] >> (8 * (i % 4)));
    }
    for (size_t i = 4 * WORDS; i < sizeof image; i++) {
        written += image[i] != UNTOUCHED;
    }
    printf("image: %u bytes, %u wrong; %u behind it, %u written\n", 4 * WORDS, wrong, (unsigned)sizeof image - 4 * WORDS, written);
    printf("first:");
    for (size_t i = 0; i < 16; i++) {
        printf(" %02x", image[i]);
    }
    printf("\n");
    return wrong + written > 0;
}
