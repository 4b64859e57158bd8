/* Plain C: each rule written down once, loops as one writes them. Places and counts are 64 bits wide. */
#include "plain.h"

#include "../include/reidhintsje.h"

#include <stdbool.h>
#include <string.h>

/* ---- bytes */
static uint32_t little(const uint8_t *p) { return p[0] | p[1] << 8 | p[2] << 16 | (uint32_t)p[3] << 24; }
static uint32_t big(const uint8_t *p) { return (uint32_t)p[0] << 24 | p[1] << 16 | p[2] << 8 | p[3]; }
static void put_little(uint8_t *p, uint32_t w) { p[0] = w; p[1] = w >> 8; p[2] = w >> 16; p[3] = w >> 24; }
static void put_big(uint8_t *p, uint32_t w) { p[0] = w >> 24; p[1] = w >> 16; p[2] = w >> 8; p[3] = w; }

/* an event that is no refusal, and no run */
static uint32_t answer(uint64_t *outcome, uint64_t event, uint64_t place, uint64_t address, uint64_t items, uint64_t bytes)
{
    uint64_t all[8] = {0, place, event, 0, address, 0, items, bytes};
    memcpy(outcome, all, sizeof all);
    return 0;
}
static uint32_t ran(uint64_t *outcome, uint64_t address, uint64_t resume, uint64_t items, uint64_t bytes)
{
    uint64_t all[8] = {0, 0, REIDHINTSJE_RUN, address % 2 ? REIDHINTSJE_THUMB : REIDHINTSJE_ARM, address, resume, items, bytes};
    memcpy(outcome, all, sizeof all);
    return 0;
}
static uint32_t refuse_for(uint64_t *outcome, uint64_t number, uint64_t place, uint64_t needed)
{
    uint64_t all[8] = {number, place, REIDHINTSJE_REFUSED, 0, 0, 0, 0, needed};
    memcpy(outcome, all, sizeof all);
    return (uint32_t)number;
}
static uint32_t refuse(uint64_t *outcome, uint64_t number, uint64_t place) { return refuse_for(outcome, number, place, 0); }

/* ---- the map */
struct region { uint64_t base, length, place, rights; };
struct map { uint64_t count; struct region regions[8]; };
enum { READ = 1, WRITE = 2, RUN = 4 };

static bool meet(uint64_t a, uint64_t n, uint64_t b, uint64_t k) { return n && k && a < b + k && b < a + n; }

static bool sound(struct map *m, const uint8_t *table, size_t length, uint64_t size)
{
    if (length != 132) return false;
    m->count = little(table);
    if (m->count > 8) return false;
    for (uint64_t i = 0; i < m->count; i++) {
        const uint8_t *p = table + 4 + 16 * i;
        struct region g = {little(p), little(p + 4), little(p + 8), little(p + 12)};
        if (g.base % 4 || g.length % 4 || g.length < 4 || g.length > 16777216 || g.base + g.length > 4294967280u) return false;
        if (g.place + g.length > size || g.rights > 7) return false;
        for (uint64_t j = 0; j < i; j++) {
            struct region h = m->regions[j];
            if (meet(g.base, g.length, h.base, h.length) || meet(g.place, g.length, h.place, h.length)) return false;
        }
        m->regions[i] = g;
    }
    return true;
}

static bool lookup(const struct map *m, uint64_t right, uint64_t a, uint64_t n, uint64_t *place)
{
    for (uint64_t i = 0; i < m->count; i++) {
        const struct region *g = &m->regions[i];
        if (n && g->base <= a && a + n <= g->base + g->length && (g->rights & right)) {
            *place = g->place + (a - g->base);
            return true;
        }
    }
    return false;
}

static bool legal(const struct map *m, uint64_t a)
{
    uint64_t place;
    if (a % 2) return lookup(m, RUN, a - 1, 1, &place);
    return a % 4 == 0 && lookup(m, RUN, a, 1, &place);
}

/* ---- serial ROM */
uint32_t plain_srom_load(const uint8_t *table, size_t table_length, uint8_t *memory, size_t size, const uint8_t *rom, size_t length,
                         size_t offset, uint64_t *outcome)
{
    struct map m;
    if (!sound(&m, table, table_length, size)) return refuse(outcome, 1, 0);
    if (length > 16777216) return refuse(outcome, 13, 0);
    uint64_t taken = 0, stored = 0, stop = 0, event = 0, run = 0, o = offset;
    for (int pass = 0; pass < 2; pass++) { /* tests, then stores */
        for (o = offset;;) {
            if (o >= length) return refuse(outcome, 2, length);
            if (rom[o] == 0x55) { o++; continue; }
            if (rom[o] != 0x3a) { event = REIDHINTSJE_END; stop = o; break; }
            if (o + 7 > length) return refuse(outcome, 2, o);
            uint64_t words = (uint64_t)rom[o + 1] << 8 | rom[o + 2], a = big(rom + o + 3), place = 0;
            if (!words) {
                if (!legal(&m, a)) return refuse(outcome, 9, o);
                event = REIDHINTSJE_RUN;
                run = a;
                break;
            }
            if (!pass) {
                if (a % 4) return refuse(outcome, 3, o);
                if (o + 7 + 4 * words > length) return refuse(outcome, 2, o);
                if (!lookup(&m, WRITE, a, 4 * words, &place)) return refuse(outcome, 4, o);
                taken++;
                stored += 4 * words;
            } else {
                lookup(&m, WRITE, a, 4 * words, &place);
                const uint8_t *from = rom + o + 7;
                uint8_t *to = memory + place;
                for (uint64_t k = 0; k < words; k++) put_little(to + 4 * k, big(from + 4 * k));
            }
            o += 7 + 4 * words;
        }
    }
    if (event == REIDHINTSJE_END) return answer(outcome, event, stop, 0, taken, stored);
    return ran(outcome, run, o + 7, taken, stored);
}

/* ---- APLX */
static uint64_t rounded(uint64_t n) { return (n + 31) / 32 * 32; }

uint32_t plain_aplx_load(const uint8_t *table, size_t table_length, uint8_t *memory, size_t size, uint32_t header, uint64_t *outcome)
{
    struct map m;
    if (!sound(&m, table, table_length, size)) return refuse(outcome, 1, 0);
    if (header % 4) return refuse(outcome, 3, 0);
    struct { uint64_t address, to, from, length; uint32_t word; bool fill; } work[256];
    uint64_t count = 0, place, stored = 0, event = 0, value = 0;
    for (;; count++) {
        if (count == 256) return refuse(outcome, 7, 256);
        uint64_t a = header + 16 * count;
        if (!lookup(&m, READ, a, 16, &place)) return refuse(outcome, 6, count);
        uint32_t c = little(memory + place), x = little(memory + place + 4), y = little(memory + place + 8), z = little(memory + place + 12);
        work[count].address = x;
        if (c == 1 || c == 2) {
            uint64_t n = rounded(z), s = c == 1 ? y : (uint32_t)(a + y);
            if (!n) return refuse(outcome, 5, count);
            if (x % 4 || s % 4) return refuse(outcome, 3, count);
            if (!lookup(&m, WRITE, x, n, &work[count].to) || !lookup(&m, READ, s, n, &work[count].from)) return refuse(outcome, 4, count);
            work[count].length = n;
            work[count].fill = false;
        } else if (c == 3) {
            uint64_t n = rounded(y);
            if (!n) return refuse(outcome, 5, count);
            if (x % 4) return refuse(outcome, 3, count);
            if (!lookup(&m, WRITE, x, n, &work[count].to)) return refuse(outcome, 4, count);
            work[count].length = n;
            work[count].word = z;
            work[count].fill = true;
        } else {
            if (c == 4) {
                if (!legal(&m, x)) return refuse(outcome, 9, count);
                event = REIDHINTSJE_RUN;
                value = x;
            } else {
                event = c == 0xffffffff ? REIDHINTSJE_END : REIDHINTSJE_UNKNOWN;
                value = c == 0xffffffff ? 0 : c;
            }
            break;
        }
    }
    for (uint64_t i = 0; i < count; i++)
        if (meet(work[i].address, work[i].length, header, 16 * (count + 1))) return refuse(outcome, 8, i);
    for (uint64_t i = 0; i < count; i++) {
        uint8_t *to = memory + work[i].to;
        const uint8_t *from = memory + work[i].from;
        if (work[i].fill)
            for (uint64_t k = 0; k < work[i].length; k += 4) put_little(to + k, work[i].word);
        else
            for (uint64_t k = 0; k < work[i].length; k += 4) put_little(to + k, little(from + k));
        stored += work[i].length;
    }
    if (event == REIDHINTSJE_RUN) return ran(outcome, value, header + 16 * (count + 1), count, stored);
    return answer(outcome, event, count, value, count, stored);
}

/* ---- SCP, READ and WRITE */
static uint32_t coded(const uint8_t *packet, uint8_t *output, uint16_t code, uint64_t *outcome)
{
    output[0] = code;
    output[1] = 0;
    output[2] = packet[2];
    output[3] = packet[3];
    return answer(outcome, REIDHINTSJE_RESPONSE, 0, 0, 0, 4);
}

uint32_t plain_scp_answer(const uint8_t *table, size_t table_length, uint8_t *memory, size_t size, const uint8_t *packet, size_t length,
                          uint8_t *output, size_t room, uint64_t *outcome)
{
    struct map m;
    if (room < 272) return refuse_for(outcome, 10, 0, 272);
    if (!sound(&m, table, table_length, size)) return refuse(outcome, 1, 0);
    if (length < 4) return answer(outcome, REIDHINTSJE_SILENT, 0, 0, 0, 0);
    if (length > 272) return coded(packet, output, 0x81, outcome);
    uint32_t command = packet[0] | packet[1] << 8;
    if (command != 2 && command != 3) return coded(packet, output, 0x83, outcome);
    if (length < 16) return coded(packet, output, 0x81, outcome);
    uint64_t a = little(packet + 4), n = little(packet + 8), type = little(packet + 12), place = 0;
    if (n > 256 || type > 2) return coded(packet, output, 0x84, outcome);
    if (command == 3 && length != 16 + n) return coded(packet, output, 0x81, outcome);
    uint64_t unit = (uint64_t)1 << type;
    if (a % unit || n % unit) return coded(packet, output, 0x84, outcome);
    if (n && !lookup(&m, command == 2 ? READ : WRITE, a, n, &place)) return coded(packet, output, 0x84, outcome);
    coded(packet, output, 0x80, outcome);
    if (command == 2) {
        for (uint64_t k = 0; k < n; k++) output[4 + k] = memory[place + k];
        outcome[REIDHINTSJE_BYTES] = 4 + n;
    } else {
        for (uint64_t k = 0; k < n; k++) memory[place + k] = packet[16 + k];
    }
    return 0;
}

/* ---- plans */
static uint32_t pack(const uint8_t *plan, size_t length, uint8_t *output, size_t room, uint64_t unit, uint64_t *outcome)
{
    if (length < 16) return refuse(outcome, 2, 0);
    uint64_t count = little(plan), at = little(plan + 4), data = little(plan + 8), size = little(plan + 12), puts = 0, fills = 0;
    if (count > 64) return refuse(outcome, 11, 0);
    if (at + 16 * count > length || data + size > length) return refuse(outcome, 2, 0);
    for (uint64_t i = 0; i < count; i++) {
        const uint8_t *p = plan + at + 16 * i;
        uint64_t kind = little(p), a = little(p + 4), n = little(p + 8), last = little(p + 12);
        if (kind == 3) {
            if (n || last) return refuse(outcome, 11, i);
            if (a % 4 == 2) return refuse(outcome, 9, i);
            continue;
        }
        if (kind != 1 && kind != 2) return refuse(outcome, 11, i);
        if (!n) return refuse(outcome, 5, i);
        if (n > 65536) return refuse(outcome, 11, i);
        if (a % 4) return refuse(outcome, 3, i);
        if (kind == 1 && last + n > size) return refuse(outcome, 2, i);
        if (n % unit) return refuse(outcome, 12, i);
        *(kind == 1 ? &puts : &fills) += n;
    }
    uint64_t image = unit == 32 ? 16 * (count + 1) + puts : 2 + 7 * count + puts + fills;
    if (room < image) return refuse_for(outcome, 10, count, image);
    uint8_t *to = output, *more = output + 16 * (count + 1);
    if (unit == 4) *to++ = 0x55;
    for (uint64_t i = 0; i < count; i++) {
        const uint8_t *p = plan + at + 16 * i;
        uint32_t kind = little(p), a = little(p + 4), n = little(p + 8), last = little(p + 12);
        const uint8_t *from = plan + data + last;
        if (unit == 32) {
            put_little(to, kind == 1 ? 2 : kind == 2 ? 3 : 4);
            put_little(to + 4, a);
            put_little(to + 8, kind == 1 ? (uint32_t)(more - to) : n);
            put_little(to + 12, kind == 1 ? n : last);
            if (kind == 1) {
                for (uint32_t k = 0; k < n; k++) more[k] = from[k];
                more += n;
            }
            to += 16;
        } else {
            to[0] = 0x3a;
            to[1] = n / 4 >> 8;
            to[2] = n / 4;
            put_big(to + 3, a);
            to += 7;
            if (kind == 1)
                for (uint32_t k = 0; k < n; k += 4) put_big(to + k, little(from + k));
            else
                for (uint32_t k = 0; k < n; k += 4) put_big(to + k, last);
            to += n;
        }
    }
    if (unit == 4) {
        *to = 0xff;
    } else {
        put_little(to, 0xffffffff);
        put_little(to + 4, 0);
        put_little(to + 8, 0);
        put_little(to + 12, 0);
    }
    return answer(outcome, REIDHINTSJE_PACKED, 0, 0, 0, image);
}

uint32_t plain_pack_srom(const uint8_t *plan, size_t length, uint8_t *output, size_t room, uint64_t *outcome)
{
    return pack(plan, length, output, room, 4, outcome);
}

uint32_t plain_pack_aplx(const uint8_t *plan, size_t length, uint8_t *output, size_t room, uint64_t *outcome)
{
    return pack(plan, length, output, room, 32, outcome);
}

/* ---- images */
uint32_t plain_aplx_read(const uint8_t *image, size_t length, uint8_t *output, size_t room, uint64_t *outcome)
{
    uint64_t count = 0, puts = 0;
    for (;; count++) {
        const uint8_t *p = image + 16 * count;
        if (length < 16 * count + 16) return refuse(outcome, 2, count);
        uint64_t c = little(p), a = little(p + 4), second = little(p + 8), third = little(p + 12), n = c == 2 ? third : second;
        if (c == 0xffffffff) break;
        if (c < 2 || c > 4) return refuse(outcome, 20, count);
        if (count == 64) return refuse(outcome, 21, count);
        if (c == 4) {
            if (a % 4 == 2) return refuse(outcome, 9, count);
            continue;
        }
        if (!n) return refuse(outcome, 5, count);
        if (n % 32 || n > 65536) return refuse(outcome, 22, count);
        if (a % 4 || (c == 2 && second % 4)) return refuse(outcome, 3, count);
        if (c == 2 && (uint32_t)(16 * count + second) + n > length) return refuse(outcome, 23, count);
        if (c == 2) puts += n;
    }
    uint64_t plan = 16 * (count + 1) + puts;
    if (room < plan) return refuse_for(outcome, 10, count, plan);
    put_little(output, count);
    put_little(output + 4, 16);
    put_little(output + 8, 16 * (count + 1));
    put_little(output + 12, puts);
    uint8_t *data = output + 16 * (count + 1), *more = data;
    for (uint64_t i = 0; i < count; i++) {
        const uint8_t *p = image + 16 * i;
        uint8_t *to = output + 16 * (i + 1);
        uint32_t c = little(p), second = little(p + 8), third = little(p + 12);
        put_little(to, c - 1);
        put_little(to + 4, little(p + 4));
        put_little(to + 8, c == 2 ? third : c == 3 ? second : 0);
        put_little(to + 12, c == 2 ? (uint32_t)(more - data) : c == 3 ? third : 0);
        if (c == 2) {
            const uint8_t *from = image + (uint32_t)(16 * i + second);
            for (uint32_t k = 0; k < third; k++) more[k] = from[k];
            more += third;
        }
    }
    return answer(outcome, REIDHINTSJE_PACKED, 0, 0, 0, plan);
}
