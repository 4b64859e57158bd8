/* Two plans compared. First the drift coefficients of two channels, before and after a recalibration; then a plan and another that leaves
 * the same bytes by other pieces; then a plan that is refused; then two packed images, which are read back as plans.
 * Each call is shown with what it returned and its eight numbers, in hex: refusal, place, event, kind, address, resume, items, bytes.
 * Each stretch is a line: its first and last address, and the old and the new byte at the first, -- where that is not stored. */
#include <stdio.h>
#include <string.h>

#include "reidhintsje.h"

#define TABLE 0x00400000u /* the address of the coefficients; a channel has eight words */
#define ROOM 512u         /* bytes enough for each plan and image here */

static uint64_t outcome[REIDHINTSJE_OUTCOME_NUMBERS];
static reidhintsje_stretch stretches[REIDHINTSJE_MOST_STRETCHES]; /* the output of each comparison */

/* a plan in the making: its table, with room for eight pieces, stands behind the header, its data behind the table */
typedef struct {
    uint8_t bytes[ROOM];
    uint32_t pieces, data;
} draft;

enum { PUT = 1, FILL = 2, RUN = 3, DATA = 16 + 8 * 16 };

static void words(uint8_t *at, uint32_t a, uint32_t b, uint32_t c, uint32_t d) {
    const uint32_t four[4] = {a, b, c, d};
    for (int i = 0; i < 16; i++) {
        at[i] = (uint8_t)(four[i / 4] >> (8 * (i % 4)));
    }
}

static void piece(draft *plan, uint32_t kind, uint32_t address, uint32_t length, uint32_t last) {
    words(plan->bytes + 16 + 16 * plan->pieces, kind, address, length, last);
    plan->pieces += 1;
    words(plan->bytes, plan->pieces, 16, DATA, plan->data);
}

/* a put of a channel's eight words: so much at first, and then a little more each time */
static void channel(draft *plan, uint32_t number, uint32_t first) {
    const uint32_t from = plan->data;
    uint8_t *at = plan->bytes + DATA + from;
    words(at, first, first + 10, first + 19, first + 25);
    words(at + 16, first + 29, first + 32, first + 33, first + 34);
    plan->data += 32;
    piece(plan, PUT, TABLE + 32 * number, 32, from);
}

static size_t length(const draft *plan) { return DATA + plan->data; }

static uint32_t tell(const char *what, uint32_t answer) {
    printf("%s: %x [", what, (unsigned)answer);
    for (int i = 0; i < REIDHINTSJE_OUTCOME_NUMBERS; i++) {
        printf(i ? " %llx" : "%llx", (unsigned long long)outcome[i]);
    }
    printf("]\n");
    return answer;
}

static void show_byte(uint32_t byte) {
    if (byte == REIDHINTSJE_NOT_STORED) {
        printf(" --");
    } else {
        printf(" %02x", (unsigned)byte);
    }
}

/* Compares two plans and shows the stretches and whether the runs are the same; or which plan is refused, for what, and where. */
static void compare(const uint8_t *old_plan, size_t old_length, const uint8_t *new_plan, size_t new_length) {
    static const char *const which[] = {"neither plan", "the old plan", "the new plan"};
    uint8_t *output = (uint8_t *)stretches;
    if (tell("compare", reidhintsje_compare(old_plan, old_length, new_plan, new_length, output, sizeof stretches, outcome))) {
        printf("%s: refused %u at %u\n", which[outcome[REIDHINTSJE_KIND]], (unsigned)outcome[REIDHINTSJE_REFUSAL],
               (unsigned)outcome[REIDHINTSJE_PLACE]);
        return;
    }
    for (uint64_t i = 0; i < outcome[REIDHINTSJE_ITEMS]; i++) {
        printf("%08x %08x", (unsigned)stretches[i].first, (unsigned)stretches[i].last);
        show_byte(stretches[i].old_byte);
        show_byte(stretches[i].new_byte);
        printf("\n");
    }
    printf(outcome[REIDHINTSJE_EVENT] == REIDHINTSJE_SAME_RUN ? "same run\n" : "other run\n");
}

/* Packs a plan, for APLX, and reads its image back. The length of the plan that was read. */
static size_t by_image(const draft *plan, uint8_t read[ROOM]) {
    uint8_t image[ROOM];
    tell("pack", reidhintsje_pack_aplx(plan->bytes, length(plan), image, sizeof image, outcome));
    tell("read back", reidhintsje_aplx_read(image, (size_t)outcome[REIDHINTSJE_BYTES], read, ROOM, outcome));
    return (size_t)outcome[REIDHINTSJE_BYTES];
}

int main(void) {
    draft old_plan = {{0}, 0, 0}, new_plan = {{0}, 0, 0}, other = {{0}, 0, 0};
    uint8_t old_read[ROOM], new_read[ROOM];

    /* channel 0; channel 1 as first measured; its correction, listed later, so that it stays; the run */
    channel(&old_plan, 0, 1000);
    channel(&old_plan, 1, 2000);
    channel(&old_plan, 1, 2002);
    piece(&old_plan, RUN, 0, 0, 0);

    /* the same but for one coefficient of channel 0, channel 1 as first measured, which its correction hides, and one word of that
     * correction; a mark behind the table; and something behind the run, which is not compared */
    channel(&new_plan, 0, 1000);
    words(new_plan.bytes + DATA + 16, 1030, 1032, 1033, 1034);
    channel(&new_plan, 1, 2001);
    channel(&new_plan, 1, 2002);
    words(new_plan.bytes + DATA + 64, 2002, 2012, 2049, 2027);
    piece(&new_plan, FILL, TABLE + 64, 32, 2);
    piece(&new_plan, RUN, 0, 0, 0);
    piece(&new_plan, FILL, TABLE, 32, 0);

    printf("-- before and after\n");
    compare(old_plan.bytes, length(&old_plan), new_plan.bytes, length(&new_plan));

    /* the old plan's bytes by other pieces: its correction alone, channel 0 last over a fill. There is no run */
    channel(&other, 1, 2002);
    piece(&other, FILL, TABLE, 32, 0);
    channel(&other, 0, 1000);
    printf("-- other pieces\n");
    compare(old_plan.bytes, length(&old_plan), other.bytes, length(&other));

    /* a fill of 32 bytes from the last word on has no addresses for 28 of them: 19, and no byte of the output changes */
    printf("-- refused\n");
    piece(&other, FILL, 0xfffffffcu, 32, 0);
    stretches[0].first = 0xeeeeeeeeu;
    compare(old_plan.bytes, length(&old_plan), other.bytes, length(&other));
    printf("output: %08x\n", (unsigned)stretches[0].first);
    tell("compare", reidhintsje_compare(old_plan.bytes, length(&old_plan), new_plan.bytes, length(&new_plan), (uint8_t *)stretches,
                                        REIDHINTSJE_COMPARE_OUTPUT_BYTES - 1, outcome));

    /* the images of the first two plans */
    printf("-- two images\n");
    size_t old_length = by_image(&old_plan, old_read), new_length = by_image(&new_plan, new_read);
    compare(old_read, old_length, new_read, new_length);
    return 0;
}
