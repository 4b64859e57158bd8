/* The library against plain C that does the same, and against memcpy, memset and memcmp, in one run. Prints ratios of the least times.
 * Every row first shows that both leave the same bytes and outcomes. */
#include "../include/reidhintsje.h"
#include "plain.h"

#include <stdio.h>
#include <stdlib.h>
#include <string.h>
#include <time.h>

enum { KIB = 1024, MIB = 1024 * 1024, ROUNDS = 9 };
#define SIZE ((size_t)33 * MIB)

static uint8_t map[132], ascending[132], mixed[132], *ours, *theirs, *rom, *plan, *image, *out1, *out2, packet[272], reply1[272], reply2[272];
static uint8_t *old_plan, *new_plan;
static size_t rom_length, plan_length, image_length, packet_length, old_length, new_length, room;
static uint64_t outcome1[8], outcome2[8];
static const uint32_t identity[REIDHINTSJE_IDENTITY_NUMBERS];
static size_t limit_length;

static double now(void)
{
    struct timespec t;
    clock_gettime(CLOCK_MONOTONIC, &t);
    return t.tv_sec + 1e-9 * t.tv_nsec;
}

/* ---- what is timed */
static void library_aplx(void) { reidhintsje_aplx_load(map, 132, ours, SIZE, 0x1000, outcome1); }
static void plain_aplx(void) { plain_aplx_load(map, 132, theirs, SIZE, 0x1000, outcome2); }
static void library_srom(void) { reidhintsje_srom_load(map, 132, ours, SIZE, rom, rom_length, 0, outcome1); }
static void plain_srom(void) { plain_srom_load(map, 132, theirs, SIZE, rom, rom_length, 0, outcome2); }
static void library_pack_srom(void) { reidhintsje_pack_srom(plan, plan_length, out1, 5 * MIB, outcome1); }
static void plain_pack_srom_(void) { plain_pack_srom(plan, plan_length, out2, 5 * MIB, outcome2); }
static void library_pack_aplx(void) { reidhintsje_pack_aplx(plan, plan_length, out1, 5 * MIB, outcome1); }
static void plain_pack_aplx_(void) { plain_pack_aplx(plan, plan_length, out2, 5 * MIB, outcome2); }
static void library_aplx_read(void) { reidhintsje_aplx_read(image, image_length, out1, 5 * MIB, outcome1); }
static void plain_aplx_read_(void) { plain_aplx_read(image, image_length, out2, 5 * MIB, outcome2); }
static void library_compare(void) { reidhintsje_compare(old_plan, old_length, new_plan, new_length, out1, 5 * MIB, outcome1); }
static void plain_compare_(void) { plain_compare(old_plan, old_length, new_plan, new_length, out2, 5 * MIB, outcome2); }
static void library_check(void) { reidhintsje_aplx_check(old_plan, old_length, image, image_length, outcome1); }
static void plain_check_(void) { plain_aplx_check(old_plan, old_length, image, image_length, outcome2); }
static void library_share(void) { reidhintsje_pack_aplx_shared(old_plan, old_length, out1, room, outcome1); }
static void plain_share_(void) { plain_pack_aplx_shared(old_plan, old_length, out2, room, outcome2); }
/* the same plan with data of its own for each put */
static void library_own(void) { reidhintsje_pack_aplx(old_plan, old_length, out1, room, outcome1); }
static void library_scp(void) { reidhintsje_scp_answer(map, 132, ours, SIZE, identity, packet, packet_length, reply1, 272, outcome1); }
static void plain_scp(void) { plain_scp_answer(map, 132, theirs, SIZE, packet, packet_length, reply2, 272, outcome2); }

/* flood fill: a whole image of 32 blocks of 256 words, message by message; a Block Start and the data of its block; one word, which has not
 * come yet. The image is the first 32 KiB of the memory */
static uint8_t receiver[REIDHINTSJE_RECEIVER_BYTES];
static struct plain_receiver plain_receiver;
static uint32_t image_word(uint32_t block, uint32_t word_id) { return 2654435761u * (256 * block + word_id); }
static void library_flood_block(uint32_t block)
{
    reidhintsje_flood_fill_block_start(receiver, ours, 32 * KIB, block, 256, outcome1);
    for (uint32_t w = 0; w < 256; w++)
        reidhintsje_flood_fill_block_data(receiver, ours, 32 * KIB, block, w, image_word(block, w), outcome1);
}
static void plain_flood_block(uint32_t block)
{
    plain_flood_fill_block_start(&plain_receiver, theirs, 32 * KIB, block, 256, outcome2);
    for (uint32_t w = 0; w < 256; w++)
        plain_flood_fill_block_data(&plain_receiver, theirs, 32 * KIB, block, w, image_word(block, w), outcome2);
}
static void library_flood(void)
{
    reidhintsje_flood_fill_start(receiver, ours, 32 * KIB, 31, 256, outcome1);
    for (uint32_t b = 0; b < 32; b++) {
        library_flood_block(b);
        reidhintsje_flood_fill_block_end(receiver, ours, 32 * KIB, b, outcome1);
    }
}
static void plain_flood(void)
{
    plain_flood_fill_start(&plain_receiver, theirs, 32 * KIB, 31, 256, outcome2);
    for (uint32_t b = 0; b < 32; b++) {
        plain_flood_block(b);
        plain_flood_fill_block_end(&plain_receiver, theirs, 32 * KIB, b, outcome2);
    }
}
static void library_flood_data(void)
{
    receiver[264 + 7] = 0;
    reidhintsje_flood_fill_block_data(receiver, ours, 32 * KIB, 0, 7, 0x01020304, outcome1);
}
static void plain_flood_data(void)
{
    plain_receiver.marks[7] = false;
    plain_flood_fill_block_data(&plain_receiver, theirs, 32 * KIB, 0, 7, 0x01020304, outcome2);
}
static void library_flood_one(void) { library_flood_block(0); }
static void plain_flood_one(void) { plain_flood_block(0); }
static void limit_copy(void) { memcpy(theirs + 17 * MIB, theirs + MIB, limit_length); }
static void limit_fill(void) { memset(theirs + 17 * MIB, 5, limit_length); }
static volatile int differs; /* so that the comparison is made */
static void limit_compare(void) { differs = memcmp(ours + 17 * MIB, theirs + 17 * MIB, limit_length); }
/* the data of the plan and of the image that is checked, with which both end */
static void limit_check(void) { differs = memcmp(old_plan + old_length - limit_length, image + image_length - limit_length, limit_length); }

static double least(void (*act)(void), double so_far)
{
    long turns = 1;
    double took;
    for (;;) {
        double began = now();
        for (long i = 0; i < turns; i++) act();
        took = now() - began;
        if (took > 0.01) break;
        turns *= took > 0.001 ? 2 + (long)(0.01 / took) : 8;
    }
    took /= turns;
    return took < so_far ? took : so_far;
}

static int failed;

static void row(const char *name, void (*library)(void), void (*plain)(void), void (*limit)(void), const char *limit_name)
{
    memcpy(theirs, ours, SIZE);
    memset(out1, 7, 5 * MIB);
    memset(out2, 7, 5 * MIB);
    library();
    plain();
    if (memcmp(ours, theirs, SIZE) || memcmp(outcome1, outcome2, sizeof outcome1) || memcmp(out1, out2, 5 * MIB)
        || memcmp(reply1, reply2, 272) || outcome1[0]) {
        printf("%-44s the two differ, or were refused: %llu %llu\n", name, (unsigned long long)outcome1[0], (unsigned long long)outcome2[0]);
        failed = 1;
        return;
    }
    double a = 1e9, b = 1e9, c = 1e9;
    for (int i = 0; i < ROUNDS; i++) {
        a = least(library, a);
        b = least(plain, b);
        if (limit) c = least(limit, c);
    }
    printf("%-44s %11.3f us   %5.2f of plain C", name, a * 1e6, a / b);
    if (limit) printf("   %5.2f of %s", a / c, limit_name);
    printf("\n");
}

/* ---- inputs */
static void word(uint8_t *p, uint32_t w) { p[0] = w; p[1] = w >> 8; p[2] = w >> 16; p[3] = w >> 24; }

static void entry(size_t at, uint32_t c, uint32_t x, uint32_t y, uint32_t z)
{
    word(ours + at, c);
    word(ours + at + 4, x);
    word(ours + at + 8, y);
    word(ours + at + 12, z);
}

static void entries(uint32_t c, uint32_t x, uint32_t y, uint32_t z)
{
    entry(0, c, x, y, z);
    entry(16, 0xffffffff, 0, 0, 0);
    limit_length = c == 3 ? y : z;
}

/* blocks of 65,532 words, and one for the rest */
static void make_rom(size_t bytes)
{
    size_t at = 0;
    uint32_t address = 0x20000000;
    while (bytes) {
        size_t n = bytes > 262128 ? 262128 : bytes;
        rom[at] = 0x3a;
        rom[at + 1] = n / 4 >> 8;
        rom[at + 2] = n / 4;
        rom[at + 3] = address >> 24;
        rom[at + 4] = address >> 16;
        rom[at + 5] = address >> 8;
        rom[at + 6] = address;
        for (size_t k = 0; k < n; k++) rom[at + 7 + k] = k * 31 + 5;
        at += 7 + n;
        address += n;
        bytes -= n;
    }
    rom[at] = 0xff;
    rom_length = at + 1;
}

/* so many pieces of 64 KiB, puts or fills */
static void make_plan(uint32_t count, uint32_t kind)
{
    word(plan, count);
    word(plan + 4, 16);
    word(plan + 8, 16 + 16 * count);
    word(plan + 12, 64 * KIB);
    for (uint32_t i = 0; i < count; i++) {
        uint8_t *p = plan + 16 + 16 * i;
        word(p, kind);
        word(p + 4, 0x20000000 + 64 * KIB * i);
        word(p + 8, 64 * KIB);
        word(p + 12, kind == 1 ? 0 : 0x01020304);
    }
    for (size_t k = 0; k < 64 * KIB; k++) plan[16 + 16 * count + k] = k * 7 + 3;
    plan_length = 16 + 16 * count + 64 * KIB;
}

/* the image of such a plan; its data stands in it once for each put */
static void make_image(uint32_t count)
{
    make_plan(count, 1);
    if (reidhintsje_pack_aplx(plan, plan_length, image, 5 * MIB, outcome1)) exit(2);
    image_length = outcome1[REIDHINTSJE_BYTES];
}

/* a plan to be compared: so many pieces of one length, the next one a step behind the last. Puts have data of their own, and leave what
 * fills leave */
static size_t make_pieces(uint8_t *to, uint32_t count, uint32_t kind, uint32_t address, uint32_t step, uint32_t length)
{
    uint32_t data = kind == 1 ? count * length : 0;
    word(to, count);
    word(to + 4, 16);
    word(to + 8, 16 + 16 * count);
    word(to + 12, data);
    for (uint32_t i = 0; i < count; i++) {
        uint8_t *p = to + 16 + 16 * i;
        word(p, kind);
        word(p + 4, address + step * i);
        word(p + 8, length);
        word(p + 12, kind == 1 ? length * i : 0x01020304);
    }
    for (uint32_t k = 0; k < data; k += 4) word(to + 16 + 16 * count + k, 0x01020304);
    return 16 + 16 * count + data;
}

/* the data of the new plan, which are puts, with other bytes: from the first on so many, each a step behind the last */
static void change(uint32_t count, uint32_t step)
{
    for (uint32_t k = 0; k < count; k++) new_plan[16 + 16 * new_plan[0] + step * k] ^= 255;
}

static void make_plans(uint32_t count, uint32_t old_kind, uint32_t new_kind, uint32_t address, uint32_t step, uint32_t length)
{
    old_length = make_pieces(old_plan, count, old_kind, address, step, length);
    new_length = make_pieces(new_plan, count, new_kind, address, step, length);
}

/* a plan of so many puts of one length, and an image of it in parts: of this length, those of the last put of another; the last part of a
 * put is what is left of it. The data stands in the image once, in the plan's order */
static void make_checked(uint32_t count, uint32_t length, uint32_t part, uint32_t last_part)
{
    uint32_t e = 0, data = 0, entries = 1 + (count - 1) * ((length + part - 1) / part) + (length + last_part - 1) / last_part;
    old_length = make_pieces(old_plan, count, 1, 0x20000000, length, length);
    limit_length = count * length;
    for (size_t k = 0; k < limit_length; k++) old_plan[16 + 16 * count + k] = k * 7 + (k >> 8) * 3;
    for (uint32_t i = 0; i < count; i++) {
        for (uint32_t done = 0, n, most = i + 1 < count ? part : last_part; done < length; done += n) {
            uint8_t *p = image + 16 * e;
            n = length - done < most ? length - done : most;
            word(p, 2);
            word(p + 4, 0x20000000 + data);
            word(p + 8, 16 * entries + data - 16 * e);
            word(p + 12, n);
            data += n;
            e++;
        }
    }
    memset(image + 16 * e, 255, 16);
    image_length = 16 * entries + limit_length;
    memcpy(image + 16 * entries, old_plan + 16 + 16 * count, limit_length);
}

/* both are to refuse the image with 30 at this place */
static void refused_at(uint64_t place)
{
    uint64_t wanted[8] = {REIDHINTSJE_NOT_AS_PLANNED, place};
    library_check();
    plain_check_();
    if (memcmp(outcome1, wanted, sizeof wanted) || memcmp(outcome2, wanted, sizeof wanted)) {
        printf("a faulty image: %llu at %llu and %llu at %llu, wanted 30 at %llu\n", (unsigned long long)outcome1[0],
               (unsigned long long)outcome1[1], (unsigned long long)outcome2[0], (unsigned long long)outcome2[1], (unsigned long long)place);
        failed = 1;
    }
}

/* faults of an image of so many entries, each of which both are to refuse: in the words of an entry, in its data, in the end */
static void refusals(uint64_t entries)
{
    for (uint64_t e = 0; e + 1 < entries; e++)
        for (int k = 0; k < 4; k++) {
            image[16 * e + 4 * k] ^= 1;
            refused_at(e);
            image[16 * e + 4 * k] ^= 1;
        }
    image[image_length - 1] ^= 1;
    refused_at(entries - 2);
    image[image_length - 1] ^= 1;
    image[16 * entries] ^= 1;
    refused_at(0);
    image[16 * entries] ^= 1;
    image_length -= 1;
    refused_at(entries - 2);
    image_length = 16 * entries - 1;
    refused_at(entries - 1);
    image_length = 16 * entries + limit_length;
    word(image + 16 * (entries - 2), 0xffffffff);
    refused_at(entries - 2);
    word(image + 16 * (entries - 2), 2);
}

/* a plan of so many puts of one length, whose contents are equal, but for the byte at this place of each, which is the put's index; with
 * `length` as the place they are equal. Both are to refuse an output that lacks a byte, and to leave it as it was */
static void make_shared(uint32_t count, uint32_t length, uint32_t differ_at)
{
    old_length = make_pieces(old_plan, count, 1, 0x20000000, length, length);
    if (differ_at < length)
        for (uint32_t i = 0; i < count; i++) old_plan[16 + 16 * count + length * i + differ_at] = i;
    size_t needed = 16 * (count + 1) + (differ_at < length ? count * length : length);
    uint64_t wanted[8] = {REIDHINTSJE_OUTPUT_TOO_SMALL, count, REIDHINTSJE_REFUSED, 0, 0, 0, 0, needed};
    room = needed - 1;
    memset(out1, 7, 5 * MIB);
    memset(out2, 7, 5 * MIB);
    library_share();
    plain_share_();
    if (memcmp(outcome1, wanted, sizeof wanted) || memcmp(outcome2, wanted, sizeof wanted) || memcmp(out1, out2, 5 * MIB) || out1[0] != 7) {
        printf("an output too small: %llu and %llu, wanted 10\n", (unsigned long long)outcome1[0], (unsigned long long)outcome2[0]);
        failed = 1;
    }
    room = 5 * MIB;
}

static void make_packet(uint32_t command, uint32_t address, uint32_t length)
{
    word(packet, command | 0x00110000);
    word(packet + 4, address);
    word(packet + 8, length);
    word(packet + 12, 2);
    packet_length = command == 3 ? 16 + length : 16;
}

/* the header's region, five small ones and two of 16 MiB, in this order; the last is the one that is used */
static void make_map(uint8_t *table, const char *order)
{
    static const uint32_t regions[8][3] = {
        {0x1000, 4096, 0},           {0x400000, 256, 0x40000}, {0x401000, 256, 0x41000},    {0x402000, 256, 0x42000},
        {0x403000, 256, 0x43000},    {0x404000, 256, 0x44000}, {0x10000000, 16 * MIB, MIB}, {0x20000000, 16 * MIB, 17 * MIB},
    };
    for (; *order; order++) {
        const uint32_t *g = regions[*order - '0'];
        if (reidhintsje_map_add(table, 132, g[0], g[1], g[2], 7)) exit(2);
    }
}

int main(void)
{
    ours = malloc(SIZE);
    theirs = malloc(SIZE);
    rom = malloc(5 * MIB);
    plan = malloc(MIB);
    old_plan = malloc(5 * MIB);
    new_plan = malloc(5 * MIB);
    image = malloc(5 * MIB);
    out1 = malloc(5 * MIB);
    out2 = malloc(5 * MIB);
    if (!ours || !theirs || !rom || !plan || !old_plan || !new_plan || !image || !out1 || !out2) return 2;
    for (size_t i = 0; i < SIZE; i++) ours[i] = i * 13 + 1;
    memset(reply1, 0, 272);
    memset(reply2, 0, 272);
    make_map(ascending, "01234567");
    make_map(mixed, "12345067");
    memcpy(map, ascending, 132);

    entries(1, 0x20000000, 0x10000000, 64 * KIB);
    row("APLX copy of 64 KiB", library_aplx, plain_aplx, limit_copy, "memcpy");
    entries(1, 0x20000000, 0x10000000, 16 * MIB);
    row("APLX copy of 16 MiB", library_aplx, plain_aplx, limit_copy, "memcpy");
    entries(1, 0x20000004, 0x20000000, 64 * KIB);
    row("APLX copy of 64 KiB onto itself, up by 4", library_aplx, plain_aplx, 0, 0);
    entries(3, 0x20000000, 64 * KIB, 0x01020304);
    row("APLX fill of 64 KiB", library_aplx, plain_aplx, limit_fill, "memset");
    entries(3, 0x20000000, 16 * MIB, 0x01020304);
    row("APLX fill of 16 MiB", library_aplx, plain_aplx, limit_fill, "memset");
    make_rom(4 * MIB);
    limit_length = 4 * MIB;
    row("SROM load of 4 MiB", library_srom, plain_srom, limit_copy, "memcpy");
    limit_length = 64 * KIB;
    make_plan(1, 1);
    row("packing a put of 64 KiB as APLX", library_pack_aplx, plain_pack_aplx_, limit_copy, "memcpy");
    row("packing a put of 64 KiB as SROM", library_pack_srom, plain_pack_srom_, limit_copy, "memcpy");
    make_plan(1, 2);
    row("packing a fill of 64 KiB as SROM", library_pack_srom, plain_pack_srom_, limit_fill, "memset");
    limit_length = 4 * MIB;
    make_plan(64, 1);
    row("packing puts of 4 MiB as APLX", library_pack_aplx, plain_pack_aplx_, limit_copy, "memcpy");
    row("packing puts of 4 MiB as SROM", library_pack_srom, plain_pack_srom_, limit_copy, "memcpy");
    limit_length = 64 * KIB;
    make_image(1);
    row("reading back an APLX image of 64 KiB", library_aplx_read, plain_aplx_read_, limit_copy, "memcpy");
    limit_length = 4 * MIB;
    make_image(64);
    row("reading back an APLX image of 4 MiB", library_aplx_read, plain_aplx_read_, limit_copy, "memcpy");
    make_plans(64, 1, 1, 0x20000000, 64 * KIB, 64 * KIB);
    change(5, 800000);
    row("comparing puts of 4 MiB with puts", library_compare, plain_compare_, limit_compare, "memcmp");
    make_plans(64, 2, 1, 0x20000000, 64 * KIB, 64 * KIB);
    change(5, 800000);
    row("comparing fills of 4 MiB with puts", library_compare, plain_compare_, limit_compare, "memcmp");
    make_plans(64, 2, 2, 0x20000000, 64 * KIB, 64 * KIB);
    word(new_plan + 16 + 16 * 63 + 12, 0x05060708); /* the last fill */
    row("comparing fills of 4 MiB with fills", library_compare, plain_compare_, limit_compare, "memcmp");
    make_plans(8, 1, 1, 0, 0xffffffe0 / 7, 32); /* the first at address 0, the last ends at the last address */
    change(5, 50);
    row("comparing 8 puts of 32 bytes, far apart", library_compare, plain_compare_, 0, 0);
    make_plans(8, 1, 1, 0, 64, 32);
    change(5, 50);
    row("the same, 32 bytes between them", library_compare, plain_compare_, 0, 0);
    make_plans(64, 1, 1, 0, 64, 32);
    row("comparing 64 puts of 32 bytes, equal", library_compare, plain_compare_, 0, 0);
    change(512, 4);
    row("the same, 512 stretches", library_compare, plain_compare_, 0, 0);
    make_checked(64, 64 * KIB, 16 * KIB, 24 * KIB); /* 63 x 4 + 3 parts, and the end: 256 entries */
    refusals(256);
    row("checking an image of 4 MiB, 256 entries", library_check, plain_check_, limit_check, "memcmp");
    make_checked(8, 64, 32, 32);
    refusals(17);
    row("checking an image of 512 bytes, 17 entries", library_check, plain_check_, 0, 0);
    make_shared(64, 64 * KIB, 64 * KIB);
    row("sharing 64 puts of 64 KiB, all equal", library_share, plain_share_, library_own, "the plain packing");
    make_shared(64, 64 * KIB, 64 * KIB - 1);
    row("the same, the last byte of each differs", library_share, plain_share_, library_own, "the plain packing");
    make_shared(64, 64 * KIB, 0);
    row("the same, the first byte of each differs", library_share, plain_share_, library_own, "the plain packing");
    make_shared(16, KIB, KIB);
    row("sharing 16 puts of 1 KiB, all equal", library_share, plain_share_, library_own, "the plain packing");
    make_shared(64, 32, 0);
    row("sharing 64 puts of 32 bytes, all different", library_share, plain_share_, library_own, "the plain packing");
    make_packet(2, 0x20000000, 256);
    row("SCP READ of 256 bytes", library_scp, plain_scp, 0, 0);
    make_packet(3, 0x20000000, 256);
    row("SCP WRITE of 256 bytes", library_scp, plain_scp, 0, 0);
    make_packet(2, 0x20000000, 4);
    row("SCP READ of 4 bytes (map test and lookup)", library_scp, plain_scp, 0, 0);
    memcpy(map, mixed, 132);
    row("the same, regions in another order", library_scp, plain_scp, 0, 0);
    make_packet(2, 0x20000000, 256);
    row("SCP READ of 256 bytes, in another order", library_scp, plain_scp, 0, 0);
    row("flood fill of 32 KiB, 8257 messages", library_flood, plain_flood, 0, 0);
    reidhintsje_flood_fill_start(receiver, ours, 32 * KIB, 31, 256, outcome1);
    plain_flood_fill_start(&plain_receiver, theirs, 32 * KIB, 31, 256, outcome2);
    row("flood fill, a Block Start and its 256 words", library_flood_one, plain_flood_one, 0, 0);
    row("flood fill, one word", library_flood_data, plain_flood_data, 0, 0);
    return failed;
}
