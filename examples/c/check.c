/* APLX images checked against a plan. First the image that our packer writes; then one that another firm's packer wrote, in parts, with
 * shared data and data in another order, which is examples/supplier.aplx.hex; then what such a packer may get wrong, each fault in that image;
 * then a plan that is refused.
 * Each call is shown with what it returned and its eight numbers, in hex: refusal, place, event, kind, address, resume, items, bytes. */
#include <stdio.h>
#include <string.h>

#include "reidhintsje.h"

#define TABLE 0x00400000u /* the address of the coefficients; a channel has eight words */
#define PLAN 176u         /* the bytes of the plan */
#define IMAGE 180u        /* the bytes of the other firm's image */
#define END 0xffffffffu

enum { ACOPY = 1, RCOPY = 2, FILL = 3, EXEC = 4 };

static uint64_t outcome[REIDHINTSJE_OUTCOME_NUMBERS];
static uint8_t plan[PLAN], image[IMAGE];

static void words(uint8_t *at, uint32_t a, uint32_t b, uint32_t c, uint32_t d) {
    const uint32_t four[4] = {a, b, c, d};
    for (int i = 0; i < 16; i++) {
        at[i] = (uint8_t)(four[i / 4] >> (8 * (i % 4)));
    }
}

/* a channel's eight words: so much at first, and then a little more each time */
static void channel(uint8_t *at, uint32_t first) {
    words(at, first, first + 10, first + 19, first + 25);
    words(at + 16, first + 29, first + 32, first + 33, first + 34);
}

/* examples/channels.plan.hex: a fill over the table, channels 0 and 1, channel 2 with the coefficients of channel 0, the run */
static void make_plan(void) {
    words(plan, 4, 16, 80, 96);
    words(plan + 16, 2, TABLE, 128, 0);
    words(plan + 32, 1, TABLE, 64, 0);
    words(plan + 48, 1, TABLE + 64, 32, 64);
    words(plan + 64, 3, 0, 0, 0);
    channel(plan + 80, 1000);
    channel(plan + 112, 2000);
    channel(plan + 144, 1000);
}

/* examples/supplier.aplx.hex: seven entries, a mark of 4 bytes, the data of channel 1, and that of channels 0 and 2 */
static void make_image(void) {
    words(image, FILL, TABLE, 96, 0);
    words(image + 16, FILL, TABLE + 96, 32, 0);
    words(image + 32, RCOPY, TABLE, 116, 32);
    words(image + 48, RCOPY, TABLE + 32, 68, 32);
    words(image + 64, RCOPY, TABLE + 64, 84, 32);
    words(image + 80, EXEC, 0, 7, 0);
    words(image + 96, END, END, END, END);
    memcpy(image + 112, "v1.4", 4);
    channel(image + 116, 2000);
    channel(image + 148, 1000);
}

static uint32_t tell(const char *what, uint32_t answer) {
    printf("%s: %x [", what, (unsigned)answer);
    for (int i = 0; i < REIDHINTSJE_OUTCOME_NUMBERS; i++) {
        printf(i ? " %llx" : "%llx", (unsigned long long)outcome[i]);
    }
    printf("]\n");
    return answer;
}

/* Checks an image against the plan and shows the verdict. */
static void check(const char *what, const uint8_t *bytes, size_t length) {
    if (tell(what, reidhintsje_aplx_check(plan, PLAN, bytes, length, outcome))) {
        printf("refused %u at %u\n", (unsigned)outcome[REIDHINTSJE_REFUSAL], (unsigned)outcome[REIDHINTSJE_PLACE]);
    } else {
        printf("accepted\n");
    }
}

/* Checks the other firm's image, but with these words in an entry. */
static void with_entry(const char *what, uint32_t entry, uint32_t a, uint32_t b, uint32_t c, uint32_t d) {
    make_image();
    words(image + 16 * entry, a, b, c, d);
    check(what, image, IMAGE);
}

int main(void) {
    uint8_t packed[256];

    make_plan();
    make_image();
    printf("-- accepted\n");
    tell("pack", reidhintsje_pack_aplx(plan, PLAN, packed, sizeof packed, outcome));
    check("our image", packed, (size_t)outcome[REIDHINTSJE_BYTES]);
    check("the other firm's", image, IMAGE);

    printf("-- its entries\n");
    with_entry("a part of 80 bytes", 0, FILL, TABLE, 80, 0);
    with_entry("a part that leaves a gap", 1, FILL, TABLE + 100, 32, 0);
    with_entry("another fill word", 1, FILL, TABLE + 96, 32, 1);
    with_entry("a put as ACOPY", 3, ACOPY, TABLE + 32, TABLE, 32);
    with_entry("a part past the piece's end", 3, RCOPY, TABLE + 32, 68, 64);
    with_entry("a Thumb run for an ARM run", 5, EXEC, 1, 0, 0);
    with_entry("an end before the run", 5, END, 0, 0, 0);
    with_entry("no end", 6, 0, 0, 0, 0);
    make_image();
    words(image + 48, RCOPY, TABLE + 64, 100, 32);
    words(image + 64, RCOPY, TABLE + 32, 52, 32);
    check("channels 1 and 2 exchanged", image, IMAGE);

    printf("-- its data\n");
    with_entry("at no multiple of 4", 3, RCOPY, TABLE + 32, 66, 32);
    with_entry("over the end entry", 3, RCOPY, TABLE + 32, 60, 32);
    make_image();
    check("cut short by a byte", image, IMAGE - 1);
    image[116 + 4] ^= 1;
    check("another bit in channel 1", image, IMAGE);

    /* a fault of the plan comes before all those of the image */
    printf("-- the plan\n");
    words(plan + 32, 1, TABLE, 0, 0);
    check("a put of no bytes", image, IMAGE);
    return 0;
}
