/* APLX images read back as plans. First there and back: a plan is packed, its image is read back, and the plan that was read is packed
 * again. Then an old image that our packer did not write, with shared data and an offset that leads backward: the image of its plan has
 * other bytes, and a load of either leaves the same memory. Then an image that is refused.
 * Each call is shown with what it returned and its eight numbers, in hex: refusal, place, event, kind, address, resume, items, bytes. */
#include <stdio.h>
#include <string.h>

#include "reidhintsje.h"

#define BASE 0xf5000000u /* the region's first address; memory[0] */
#define IMAGE 512u       /* where an image is put in memory to be loaded */
#define ROOM 256u        /* bytes enough for each plan and image here */

static uint64_t outcome[REIDHINTSJE_OUTCOME_NUMBERS];

static void words(uint8_t *at, uint32_t a, uint32_t b, uint32_t c, uint32_t d) {
    const uint32_t four[4] = {a, b, c, d};
    for (int i = 0; i < 16; i++) {
        at[i] = (uint8_t)(four[i / 4] >> (8 * (i % 4)));
    }
}

static uint32_t tell(const char *what, uint32_t answer) {
    printf("%s: %x [", what, (unsigned)answer);
    for (int i = 0; i < REIDHINTSJE_OUTCOME_NUMBERS; i++) {
        printf(i ? " %llx" : "%llx", (unsigned long long)outcome[i]);
    }
    printf("]\n");
    return answer;
}

static void show(const char *what, const uint8_t *bytes, size_t n) {
    printf("%s:\n", what);
    for (size_t i = 0; i < n; i++) {
        printf(i % 16 == 15 || i == n - 1 ? "%02x\n" : "%02x ", bytes[i]);
    }
}

static void compare(const char *what, const uint8_t *a, size_t a_length, const uint8_t *b, size_t b_length) {
    printf("%s: %s\n", what, a_length == b_length && memcmp(a, b, a_length) == 0 ? "the same" : "other bytes");
}

/* Reads an image back in two steps: with no output, which answers the length that is needed, and with that many bytes. The length of the
 * plan, or 0 where the image is refused. */
static size_t read_back(const uint8_t *image, size_t image_length, uint8_t plan[ROOM]) {
    size_t needed;
    if (tell("ask", reidhintsje_aplx_read(image, image_length, plan, 0, outcome)) != REIDHINTSJE_OUTPUT_TOO_SMALL) {
        return 0;
    }
    needed = (size_t)outcome[REIDHINTSJE_BYTES];
    if (needed > ROOM) {
        return 0;
    }
    tell("read back", reidhintsje_aplx_read(image, image_length, plan, needed, outcome));
    return needed;
}

/* Packs a plan that is known to fit. The length of its image. */
static size_t pack(const uint8_t *plan, size_t plan_length, uint8_t image[ROOM]) {
    tell("pack", reidhintsje_pack_aplx(plan, plan_length, image, ROOM, outcome));
    return (size_t)outcome[REIDHINTSJE_BYTES];
}

/* Loads an image from its first entry on, in a memory that is otherwise zero; the 128 bytes from BASE on. */
static void load(const uint8_t *image, size_t image_length, uint8_t loaded[128]) {
    static uint8_t map[REIDHINTSJE_MAP_BYTES], memory[1024];
    const uint32_t every = REIDHINTSJE_MAY_READ | REIDHINTSJE_MAY_WRITE | REIDHINTSJE_MAY_RUN;
    memset(map, 0, sizeof map);
    memset(memory, 0, sizeof memory);
    reidhintsje_map_add(map, sizeof map, BASE, sizeof memory, 0, every);
    memcpy(memory + IMAGE, image, image_length);
    tell("load", reidhintsje_aplx_load(map, sizeof map, memory, sizeof memory, BASE + IMAGE, outcome));
    memcpy(loaded, memory, 128);
}

int main(void) {
    uint8_t image[ROOM], plan[ROOM], packed[ROOM], again[ROOM], from_old[128], from_packed[128];
    size_t image_length, plan_length, packed_length, again_length;

    /* a plan of a put, a fill and a run, whose data stands behind a gap */
    const size_t whole = 16 + 3 * 16 + 4 + 32;
    memset(plan, 7, sizeof plan);
    words(plan, 3, 16, 68, 32);
    words(plan + 16, 1, BASE, 32, 0);
    words(plan + 32, 2, BASE + 32, 32, 0x01020304u);
    words(plan + 48, 3, BASE + 1, 0, 0);
    for (int i = 0; i < 32; i++) {
        plan[68 + i] = (uint8_t)(0xa0 + i);
    }
    printf("-- there and back\n");
    image_length = pack(plan, whole, image);
    plan_length = read_back(image, image_length, again);
    compare("its plan and the first one", again, plan_length, plan, whole); /* the gap is lost */
    packed_length = pack(again, plan_length, packed);
    compare("its image and the first one", packed, packed_length, image, image_length);

    /* an old image of 112 bytes: two puts share the data at 80; the third stores entries 0 and 1, 32 bytes before its own; a run with an
     * unused word */
    printf("-- an old image\n");
    words(image, 2, BASE, 80, 32);
    words(image + 16, 2, BASE + 32, 64, 32);
    words(image + 32, 2, BASE + 64, 0xffffffe0u, 32);
    words(image + 48, 4, BASE + 1, 7, 0);
    words(image + 64, 0xffffffffu, 0, 0, 0);
    for (int i = 0; i < 32; i++) {
        image[80 + i] = (uint8_t)(0xa0 + i);
    }
    image_length = 112;
    plan_length = read_back(image, image_length, plan);
    show("plan", plan, plan_length);
    packed_length = pack(plan, plan_length, packed);
    compare("its image and the old one", packed, packed_length, image, image_length); /* each put has data of its own, 7 is 0 */
    again_length = read_back(packed, packed_length, again);
    compare("its plan and the last one", again, again_length, plan, plan_length);
    load(image, image_length, from_old);
    load(packed, packed_length, from_packed);
    compare("what both leave", from_old, sizeof from_old, from_packed, sizeof from_packed);

    /* the second entry becomes an ACOPY, which no plan can say: 20 at 1, and no byte of the output changes */
    printf("-- refused\n");
    words(image + 16, 1, BASE + 32, BASE, 32);
    memset(again, 0xee, sizeof again);
    tell("read back", reidhintsje_aplx_read(image, image_length, again, sizeof again, outcome));
    printf("refused %u at %u\n", (unsigned)outcome[REIDHINTSJE_REFUSAL], (unsigned)outcome[REIDHINTSJE_PLACE]);
    show("output", again, 16);
    return 0;
}
