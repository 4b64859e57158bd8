/* A plan packed as an APLX image in both ways: plain, with data of its own for each put, and with one copy of equal data. The plan is
 * examples/sixteen_channels.plan.hex, one table for sixteen channels. Where the entries point; the image with one copy checked against the
 * plan, read back and packed again; both images loaded; an output that is too small; a plan that is refused.
 * Each call is shown with what it returned and its eight numbers, in hex: refusal, place, event, kind, address, resume, items, bytes. */
#include <stdio.h>
#include <string.h>

#include "reidhintsje.h"

#define TABLES 0x00400000u /* the address of the tables; each has 64 bytes */
#define HEADER 0xf5000000u /* where an image lies to be loaded */
#define CHANNELS 16u
#define STORED 1088u /* the bytes of the tables and what follows them */
#define COUNT 19u    /* pieces: a fill, the channels, the calibration's number, a run */
#define PLAN 480u    /* the bytes of the plan */
#define ROOM 2048u   /* bytes enough for each plan and image here */

static uint64_t outcome[REIDHINTSJE_OUTCOME_NUMBERS];
static uint8_t plan[PLAN];

static void words(uint8_t *at, uint32_t a, uint32_t b, uint32_t c, uint32_t d) {
    const uint32_t four[4] = {a, b, c, d};
    for (int i = 0; i < 16; i++) {
        at[i] = (uint8_t)(four[i / 4] >> (8 * (i % 4)));
    }
}

static uint32_t word(const uint8_t *at) {
    return at[0] | (uint32_t)at[1] << 8 | (uint32_t)at[2] << 16 | (uint32_t)at[3] << 24;
}

/* a table of sixteen words */
static void table(uint8_t *at) {
    words(at, 1000, 1010, 1019, 1025);
    words(at + 16, 1029, 1032, 1033, 1034);
    words(at + 32, 1034, 1033, 1032, 1029);
    words(at + 48, 1025, 1019, 1010, 1000);
}

/* examples/sixteen_channels.plan.hex; the table stands in its data twice */
static void make_plan(void) {
    uint8_t *piece = plan + 16, *data = plan + 16 + 16 * COUNT;
    words(plan, COUNT, 16, 16 + 16 * COUNT, 160);
    words(piece, 2, TABLES, STORED, 0);
    for (uint32_t i = 0; i < CHANNELS; i++) {
        words(piece += 16, 1, TABLES + 64 * i, 64, i < 8 ? 0 : 64);
    }
    words(piece += 16, 1, TABLES + 64 * CHANNELS, 32, 128);
    words(piece += 16, 3, 0, 0, 0);
    table(data);
    table(data + 64);
    words(data + 128, 3, 0, 0, 0);
    words(data + 144, 0, 0, 0, 0);
}

static uint32_t tell(const char *what, uint32_t answer) {
    printf("%s: %x [", what, (unsigned)answer);
    for (int i = 0; i < REIDHINTSJE_OUTCOME_NUMBERS; i++) {
        printf(i ? " %llx" : "%llx", (unsigned long long)outcome[i]);
    }
    printf("]\n");
    return answer;
}

static void compare(const char *what, const uint8_t *a, size_t a_length, const uint8_t *b, size_t b_length) {
    printf("%s: %s\n", what, a_length == b_length && memcmp(a, b, a_length) == 0 ? "the same" : "other bytes");
}

static void refused(void) {
    printf("refused %u at %u, needs %u bytes\n", (unsigned)outcome[REIDHINTSJE_REFUSAL], (unsigned)outcome[REIDHINTSJE_PLACE],
           (unsigned)outcome[REIDHINTSJE_BYTES]);
}

/* Packs a plan in both ways; the lengths of the images, or 0 where it is refused. */
static void pack_both(const uint8_t *from, size_t length, uint8_t plain[ROOM], size_t *plain_length, uint8_t shared[ROOM],
                      size_t *shared_length) {
    *plain_length = *shared_length = 0;
    if (tell("plain", reidhintsje_pack_aplx(from, length, plain, ROOM, outcome)) == 0) {
        *plain_length = (size_t)outcome[REIDHINTSJE_BYTES];
    }
    if (tell("shared", reidhintsje_pack_aplx_shared(from, length, shared, ROOM, outcome)) == 0) {
        *shared_length = (size_t)outcome[REIDHINTSJE_BYTES];
    }
}

/* Loads an image from its first entry on. Memory has three regions: code, the tables, the image. What the tables' then has. */
static void load(const char *what, const uint8_t *image, size_t image_length, uint8_t loaded[STORED]) {
    static uint8_t map[REIDHINTSJE_MAP_BYTES], memory[64 + STORED + ROOM];
    memset(map, 0, sizeof map);
    memset(memory, 0xee, sizeof memory);
    reidhintsje_map_add(map, sizeof map, 0, 64, 0, REIDHINTSJE_MAY_RUN);
    reidhintsje_map_add(map, sizeof map, TABLES, STORED, 64, REIDHINTSJE_MAY_WRITE);
    reidhintsje_map_add(map, sizeof map, HEADER, ROOM, 64 + STORED, REIDHINTSJE_MAY_READ);
    memcpy(memory + 64 + STORED, image, image_length);
    tell(what, reidhintsje_aplx_load(map, sizeof map, memory, sizeof memory, HEADER, outcome));
    memcpy(loaded, memory + 64, STORED);
}

int main(void) {
    uint8_t plain[ROOM], shared[ROOM], back[ROOM], plain_again[ROOM], shared_again[ROOM];
    uint8_t wanted[STORED] = {0}, from_plain[STORED], from_shared[STORED], output[ROOM], untouched[ROOM];
    const uint32_t shown[] = {1, 2, 16, 17}; /* the entries of channels 0, 1 and 15, and of the calibration's number */
    size_t plain_length, shared_length, back_length, plain_again_length, shared_again_length;

    make_plan();
    printf("-- packed\n");
    pack_both(plan, PLAN, plain, &plain_length, shared, &shared_length);
    printf("plain %u bytes, shared %u bytes\n", (unsigned)plain_length, (unsigned)shared_length);

    /* an offset counts from its entry; the 20 entries have 320 bytes */
    printf("-- where the data of an entry lies\n");
    for (size_t k = 0; k < sizeof shown / sizeof shown[0]; k++) {
        const uint32_t at = 16 * shown[k];
        printf("entry %u: plain at %u, shared at %u\n", (unsigned)shown[k], (unsigned)(at + word(plain + at + 8)),
               (unsigned)(at + word(shared + at + 8)));
    }

    printf("-- checked\n");
    tell("shared", reidhintsje_aplx_check(plan, PLAN, shared, shared_length, outcome));

    /* each put of the plan that is read has a copy of its own */
    printf("-- read back and packed again\n");
    tell("read back", reidhintsje_aplx_read(shared, shared_length, back, sizeof back, outcome));
    back_length = (size_t)outcome[REIDHINTSJE_BYTES];
    pack_both(back, back_length, plain_again, &plain_again_length, shared_again, &shared_again_length);
    compare("plain", plain_again, plain_again_length, plain, plain_length);
    compare("shared", shared_again, shared_again_length, shared, shared_length);

    /* what the plan says: the table for each channel, the calibration's number, zeros */
    printf("-- loaded\n");
    for (uint32_t i = 0; i < CHANNELS; i++) {
        table(wanted + 64 * i);
    }
    words(wanted + 64 * CHANNELS, 3, 0, 0, 0);
    load("plain", plain, plain_length, from_plain);
    load("shared", shared, shared_length, from_shared);
    compare("what both leave", from_plain, sizeof from_plain, from_shared, sizeof from_shared);
    compare("and what the plan says", from_shared, sizeof from_shared, wanted, sizeof wanted);

    /* 10 at 19, the count of pieces; the last number is the length that is needed */
    printf("-- too small\n");
    memset(output, 0xee, sizeof output);
    memset(untouched, 0xee, sizeof untouched);
    tell("shared, a byte short", reidhintsje_pack_aplx_shared(plan, PLAN, output, shared_length - 1, outcome));
    refused();
    tell("plain, in as many bytes as shared", reidhintsje_pack_aplx(plan, PLAN, output, shared_length, outcome));
    refused();
    compare("the output and what it was", output, sizeof output, untouched, sizeof untouched);

    /* the last put has 20 bytes: both refuse it */
    printf("-- refused\n");
    words(plan + 16 + 16 * (CHANNELS + 1), 1, TABLES + 64 * CHANNELS, 20, 128);
    pack_both(plan, PLAN, plain, &plain_length, shared, &shared_length);
    return 0;
}
