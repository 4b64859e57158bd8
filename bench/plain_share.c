/* Plain C: a plan packed as an APLX image that keeps one copy of equal data. The plan is read once, its puts compared by memcmp with the
 * contents that are kept; then the entries are written, and the contents by memcpy. */
#include "plain.h"

#include "../include/reidhintsje.h"

#include <string.h>

enum { PUT = 1, FILL = 2, RUN = 3 };
/* place of a put's data in the image, word of a fill */
struct piece { uint32_t kind, address, length, word; uint64_t place; };
struct content { const uint8_t *data; uint32_t length; uint64_t place; };

static uint32_t little(const uint8_t *p) { return p[0] | p[1] << 8 | p[2] << 16 | (uint32_t)p[3] << 24; }
static void put_little(uint8_t *p, uint32_t w) { p[0] = w; p[1] = w >> 8; p[2] = w >> 16; p[3] = w >> 24; }
static void put_entry(uint8_t *p, uint32_t a, uint32_t b, uint32_t c, uint32_t d)
{
    put_little(p, a);
    put_little(p + 4, b);
    put_little(p + 8, c);
    put_little(p + 12, d);
}

static uint32_t answer(uint64_t *outcome, uint64_t number, uint64_t place, uint64_t bytes)
{
    uint64_t all[8] = {number, place, number ? REIDHINTSJE_REFUSED : REIDHINTSJE_PACKED, 0, 0, 0, 0, bytes};
    memcpy(outcome, all, sizeof all);
    return (uint32_t)number;
}

uint32_t plain_pack_aplx_shared(const uint8_t *plan, size_t length, uint8_t *output, size_t room, uint64_t *outcome)
{
    struct piece pieces[64];
    struct content kept[64];
    if (length < 16) return answer(outcome, REIDHINTSJE_CUT_SHORT, 0, 0);
    uint64_t count = little(plan), at = little(plan + 4), data = little(plan + 8), size = little(plan + 12), kept_count = 0;
    uint64_t image = 16 * (count + 1); /* its length so far, where the next content goes */
    if (count > 64) return answer(outcome, REIDHINTSJE_PLAN_MALFORMED, 0, 0);
    if (at + 16 * count > length || data + size > length) return answer(outcome, REIDHINTSJE_CUT_SHORT, 0, 0);
    for (uint64_t i = 0; i < count; i++) {
        const uint8_t *p = plan + at + 16 * i;
        uint32_t kind = little(p), a = little(p + 4), n = little(p + 8), word = little(p + 12);
        struct piece piece = {kind, a, n, word, 0};
        if (kind == RUN) {
            if (n || word) return answer(outcome, REIDHINTSJE_PLAN_MALFORMED, i, 0);
            if (a % 4 == 2) return answer(outcome, REIDHINTSJE_RUN_NOT_LEGAL, i, 0);
        } else {
            if (kind != PUT && kind != FILL) return answer(outcome, REIDHINTSJE_PLAN_MALFORMED, i, 0);
            if (!n) return answer(outcome, REIDHINTSJE_ZERO_LENGTH, i, 0);
            if (n > 65536) return answer(outcome, REIDHINTSJE_PLAN_MALFORMED, i, 0);
            if (a % 4) return answer(outcome, REIDHINTSJE_NOT_ALIGNED, i, 0);
            if (kind == PUT && (uint64_t)word + n > size) return answer(outcome, REIDHINTSJE_CUT_SHORT, i, 0);
            if (n % 32) return answer(outcome, REIDHINTSJE_LENGTH_NOT_EXPRESSIBLE, i, 0);
        }
        if (kind == PUT) {
            const uint8_t *from = plan + data + word;
            uint64_t k = 0;
            while (k < kept_count && (kept[k].length != n || memcmp(kept[k].data, from, n))) k++;
            if (k == kept_count) {
                struct content content = {from, n, image};
                kept[kept_count++] = content;
                image += n;
            }
            piece.place = kept[k].place;
        }
        pieces[i] = piece;
    }
    if (room < image) return answer(outcome, REIDHINTSJE_OUTPUT_TOO_SMALL, count, image);
    for (uint64_t i = 0; i < count; i++) {
        const struct piece *p = &pieces[i];
        uint8_t *to = output + 16 * i;
        if (p->kind == PUT)
            put_entry(to, 2, p->address, p->place - 16 * i, p->length);
        else if (p->kind == FILL)
            put_entry(to, 3, p->address, p->length, p->word);
        else
            put_entry(to, 4, p->address, 0, 0);
    }
    put_entry(output + 16 * count, 0xffffffff, 0, 0, 0);
    for (uint64_t k = 0; k < kept_count; k++) memcpy(output + kept[k].place, kept[k].data, kept[k].length);
    return answer(outcome, 0, 0, image);
}
