/* One region of memory; a plan packed as an APLX image into it; the image loaded; the same by way of a serial ROM; packets answered.
 * Each call is shown with what it returned and its eight numbers, in hex: refusal, place, event, kind, address, resume, items, bytes. */
#include <stdio.h>
#include <string.h>

#include "reidhintsje.h"

#define BASE 0xf5000000u /* the region's first address; memory[0] */
#define IMAGE 512u       /* where the image is put in memory */

static uint8_t map[REIDHINTSJE_MAP_BYTES]; /* all zeros: the empty map */
static uint8_t memory[1024];
static uint8_t plan[128];

static void word(uint8_t *at, uint32_t n) {
    for (int i = 0; i < 4; i++) {
        at[i] = (uint8_t)(n >> (8 * i));
    }
}

/* a piece of the plan: 1 put, 2 fill, 3 run */
static void piece(size_t index, uint32_t kind, uint32_t address, uint32_t length, uint32_t last) {
    uint8_t *at = plan + 16 + 16 * index;
    word(at, kind);
    word(at + 4, address);
    word(at + 8, length);
    word(at + 12, last);
}

static void tell(const char *what, uint32_t answer, const uint64_t *outcome) {
    printf("%s: %x [", what, (unsigned)answer);
    for (int i = 0; i < REIDHINTSJE_OUTCOME_NUMBERS; i++) {
        printf(i ? " %llx" : "%llx", (unsigned long long)outcome[i]);
    }
    printf("]\n");
}

static void show(const char *what, const uint8_t *bytes, size_t n) {
    printf("%s:", what);
    for (size_t i = 0; i < n; i++) {
        printf(" %02x", bytes[i]);
    }
    printf("\n");
}

int main(void) {
    uint64_t outcome[REIDHINTSJE_OUTCOME_NUMBERS];
    uint32_t header = BASE + IMAGE;

    /* the map: one region with every right, one that shares its addresses, and one with rights that have no meaning */
    const uint32_t every = REIDHINTSJE_MAY_READ | REIDHINTSJE_MAY_WRITE | REIDHINTSJE_MAY_RUN;
    printf("region: %u\n", (unsigned)reidhintsje_map_add(map, sizeof map, BASE, sizeof memory, 0, every));
    printf("region again: %u\n", (unsigned)reidhintsje_map_add(map, sizeof map, BASE + 4, 64, 2048, REIDHINTSJE_MAY_READ));
    printf("region with other rights: %u\n", (unsigned)reidhintsje_map_add(map, sizeof map, BASE + 4096, 64, 2048, 8));
    printf("sound: %u\n", (unsigned)reidhintsje_map_sound(map, sizeof map, sizeof memory));
    printf("sound for less: %u\n", (unsigned)reidhintsje_map_sound(map, sizeof map, sizeof memory - 1));
    show("map", map, 20);

    /* the plan: header, three pieces at 16, 32 bytes of data at 64 */
    word(plan, 3);
    word(plan + 4, 16);
    word(plan + 8, 64);
    word(plan + 12, 32);
    piece(0, 1, BASE, 32, 0);
    piece(1, 2, BASE + 32, 32, 0x01020304u);
    piece(2, 3, BASE + 1, 0, 0);
    for (int i = 0; i < 32; i++) {
        plan[64 + i] = (uint8_t)(0xa0 + i);
    }
    tell("read", reidhintsje_plan_read(plan, sizeof plan, REIDHINTSJE_TARGET_APLX, outcome), outcome);

    /* the image: first into no room at all, to learn its length */
    tell("pack", reidhintsje_pack_aplx(plan, sizeof plan, memory + IMAGE, 0, outcome), outcome);
    size_t needed = (size_t)outcome[REIDHINTSJE_BYTES];
    tell("pack", reidhintsje_pack_aplx(plan, sizeof plan, memory + IMAGE, needed, outcome), outcome);

    /* the loads: up to the run, and from there to the end */
    for (int more = 1; more;) {
        uint32_t answer = reidhintsje_aplx_load(map, sizeof map, memory, sizeof memory, header, outcome);
        tell("load", answer, outcome);
        more = outcome[REIDHINTSJE_EVENT] == REIDHINTSJE_RUN;
        header = (uint32_t)outcome[REIDHINTSJE_RESUME];
    }
    show("memory", memory, 40);

    /* the same plan by way of a serial ROM */
    uint8_t rom[128];
    tell("pack", reidhintsje_pack_srom(plan, sizeof plan, rom, sizeof rom, outcome), outcome);
    size_t length = (size_t)outcome[REIDHINTSJE_BYTES];
    memset(memory, 0, sizeof memory);
    tell("load", reidhintsje_srom_load(map, sizeof map, memory, sizeof memory, rom, length, 0, outcome), outcome);
    show("memory", memory, 40);

    /* a table that is one byte short is no map */
    tell("load", reidhintsje_srom_load(map, sizeof map - 1, memory, sizeof memory, rom, length, 0, outcome), outcome);

    /* what board is this (VER), with sequence number 0x0102 */
    const uint32_t identity[REIDHINTSJE_IDENTITY_NUMBERS] = {
        [REIDHINTSJE_POINT_TO_POINT] = 0x0305, [REIDHINTSJE_PHYSICAL_CPU] = 7, [REIDHINTSJE_VIRTUAL_CPU] = 9,
        [REIDHINTSJE_VERSION] = 0x0064,        [REIDHINTSJE_DATE] = 0x5f000000u,
    };
    const uint8_t packet[4] = {0, 0, 2, 1};
    uint8_t output[REIDHINTSJE_SCP_OUTPUT_BYTES];
    tell("answer",
         reidhintsje_scp_answer(map, sizeof map, memory, sizeof memory, identity, packet, 4, output, sizeof output, outcome),
         outcome);
    show("response", output, (size_t)outcome[REIDHINTSJE_BYTES]);

    /* a packet of 3 bytes gets no response; an output of 271 bytes is refused */
    tell("answer",
         reidhintsje_scp_answer(map, sizeof map, memory, sizeof memory, identity, packet, 3, output, sizeof output, outcome),
         outcome);
    tell("answer",
         reidhintsje_scp_answer(map, sizeof map, memory, sizeof memory, identity, packet, 4, output, sizeof output - 1, outcome),
         outcome);

    /* start at the region's first address (RUN) */
    const uint8_t start[8] = {1, 0, 3, 1, 0, 0, 0, 0xf5};
    tell("answer",
         reidhintsje_scp_answer(map, sizeof map, memory, sizeof memory, identity, start, sizeof start, output, sizeof output, outcome),
         outcome);
    return 0;
}
