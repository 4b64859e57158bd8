/* Plain C: two plans compared. Up to the next border of a piece each plan has one source, or none; there it is byte by byte. */
#include "plain.h"

#include "../include/reidhintsje.h"

#include <stdbool.h>
#include <string.h>

#define ADDRESSES ((uint64_t)1 << 32)

/* the addresses of a put or a fill, and what it stores: data, or a word where there are none */
struct piece { uint64_t first, past; const uint8_t *data; uint32_t word; };
/* the pieces before the first run */
struct plan { uint32_t count; bool runs; uint32_t run; struct piece pieces[64]; };
struct list { uint32_t count; reidhintsje_stretch stretches[REIDHINTSJE_MOST_STRETCHES]; };

static uint32_t little(const uint8_t *p) { return p[0] | p[1] << 8 | p[2] << 16 | (uint32_t)p[3] << 24; }
static void put_little(uint8_t *p, uint32_t w) { p[0] = w; p[1] = w >> 8; p[2] = w >> 16; p[3] = w >> 24; }

static uint32_t refuse(uint64_t *outcome, uint64_t number, uint64_t place, uint64_t which, uint64_t needed)
{
    uint64_t all[8] = {number, place, REIDHINTSJE_REFUSED, which, 0, 0, 0, needed};
    memcpy(outcome, all, sizeof all);
    return (uint32_t)number;
}

/* Reads a plan: 0, or the number of the refusal. */
static uint32_t read_plan(const uint8_t *plan, size_t length, struct plan *to, uint64_t *place)
{
    *place = 0;
    to->count = 0;
    to->runs = false;
    to->run = 0;
    if (length < 16) return REIDHINTSJE_CUT_SHORT;
    uint64_t count = little(plan), at = little(plan + 4), data = little(plan + 8), size = little(plan + 12);
    if (count > 64) return REIDHINTSJE_PLAN_MALFORMED;
    if (at + 16 * count > length || data + size > length) return REIDHINTSJE_CUT_SHORT;
    for (uint64_t i = 0; i < count; i++) {
        const uint8_t *p = plan + at + 16 * i;
        uint64_t kind = little(p), a = little(p + 4), n = little(p + 8), last = little(p + 12);
        *place = i;
        if (kind == 3) {
            if (n || last) return REIDHINTSJE_PLAN_MALFORMED;
            if (a % 4 == 2) return REIDHINTSJE_RUN_NOT_LEGAL;
            if (!to->runs) to->run = (uint32_t)a;
            to->runs = true;
            continue;
        }
        if (kind != 1 && kind != 2) return REIDHINTSJE_PLAN_MALFORMED;
        if (!n) return REIDHINTSJE_ZERO_LENGTH;
        if (n > 65536) return REIDHINTSJE_PLAN_MALFORMED;
        if (a % 4) return REIDHINTSJE_NOT_ALIGNED;
        if (kind == 1 && last + n > size) return REIDHINTSJE_CUT_SHORT;
        if (a + n > ADDRESSES) return REIDHINTSJE_PAST_LAST_ADDRESS;
        if (to->runs) continue;
        struct piece piece = {a, a + n, kind == 1 ? plan + data + last : NULL, (uint32_t)last};
        to->pieces[to->count++] = piece;
    }
    return 0;
}

/* The last piece that stores an address, or NULL; the end comes down to the next border. */
static const struct piece *source(const struct plan *plan, uint64_t at, uint64_t *end)
{
    const struct piece *found = NULL;
    for (uint32_t i = 0; i < plan->count; i++) {
        const struct piece *p = &plan->pieces[i];
        if (at < p->first) {
            if (p->first < *end) *end = p->first;
        } else if (at < p->past) {
            if (p->past < *end) *end = p->past;
            found = p;
        }
    }
    return found;
}

static uint32_t byte_at(const struct piece *p, uint64_t at)
{
    if (!p) return REIDHINTSJE_NOT_STORED;
    uint64_t i = at - p->first;
    return p->data ? p->data[i] : p->word >> 8 * (i % 4) & 255;
}

/* Adds addresses to the list; false where it is full. */
static bool add(struct list *list, uint64_t first, uint64_t past, uint32_t old_byte, uint32_t new_byte)
{
    if (list->count && (uint64_t)list->stretches[list->count - 1].last + 1 == first) {
        list->stretches[list->count - 1].last = (uint32_t)(past - 1);
        return true;
    }
    if (list->count == REIDHINTSJE_MOST_STRETCHES) return false;
    reidhintsje_stretch stretch = {(uint32_t)first, (uint32_t)(past - 1), old_byte, new_byte};
    list->stretches[list->count++] = stretch;
    return true;
}

/* Lists where the two differ; false where the stretches are too many. */
static bool collect(const struct plan *old_plan, const struct plan *new_plan, struct list *list)
{
    list->count = 0;
    for (uint64_t at = 0, end; at < ADDRESSES; at = end) {
        end = ADDRESSES;
        const struct piece *a = source(old_plan, at, &end), *b = source(new_plan, at, &end);
        if (!a && !b) continue;
        if (!a || !b) {
            if (!add(list, at, end, byte_at(a, at), byte_at(b, at))) return false;
            continue;
        }
        for (uint64_t x = at; x < end; x++) {
            uint32_t old_byte = byte_at(a, x), new_byte = byte_at(b, x);
            if (old_byte != new_byte && !add(list, x, x + 1, old_byte, new_byte)) return false;
        }
    }
    return true;
}

uint32_t plain_compare(const uint8_t *old_plan, size_t old_length, const uint8_t *new_plan, size_t new_length, uint8_t *output,
                       size_t room, uint64_t *outcome)
{
    struct plan a, b;
    struct list list;
    uint64_t place;
    uint32_t number;
    if (room < REIDHINTSJE_COMPARE_OUTPUT_BYTES)
        return refuse(outcome, REIDHINTSJE_OUTPUT_TOO_SMALL, 0, REIDHINTSJE_NEITHER_PLAN, REIDHINTSJE_COMPARE_OUTPUT_BYTES);
    if ((number = read_plan(old_plan, old_length, &a, &place))) return refuse(outcome, number, place, REIDHINTSJE_OLD_PLAN, 0);
    if ((number = read_plan(new_plan, new_length, &b, &place))) return refuse(outcome, number, place, REIDHINTSJE_NEW_PLAN, 0);
    if (!collect(&a, &b, &list))
        return refuse(outcome, REIDHINTSJE_TOO_MANY_STRETCHES, REIDHINTSJE_MOST_STRETCHES, REIDHINTSJE_NEITHER_PLAN, 0);
    for (uint32_t i = 0; i < list.count; i++) {
        const reidhintsje_stretch *s = &list.stretches[i];
        put_little(output + 16 * i, s->first);
        put_little(output + 16 * i + 4, s->last);
        put_little(output + 16 * i + 8, s->old_byte);
        put_little(output + 16 * i + 12, s->new_byte);
    }
    bool same = a.runs == b.runs && a.run == b.run;
    uint64_t all[8] = {0, 0, same ? REIDHINTSJE_SAME_RUN : REIDHINTSJE_OTHER_RUN, 0, 0, 0, list.count, 16 * (uint64_t)list.count};
    memcpy(outcome, all, sizeof all);
    return 0;
}
