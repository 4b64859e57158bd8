/* Plain C: an APLX image checked against a plan. The plan is taken apart once; then one entry after the other, data by memcmp. */
#include "plain.h"

#include "../include/reidhintsje.h"

#include <string.h>

enum { PUT = 1, FILL = 2, RUN = 3, END = 0 };
/* data of a put, word of a fill */
struct piece { uint32_t kind; uint64_t address, length; const uint8_t *data; uint32_t word; };

static uint32_t little(const uint8_t *p) { return p[0] | p[1] << 8 | p[2] << 16 | (uint32_t)p[3] << 24; }

static uint32_t answer(uint64_t *outcome, uint64_t number, uint64_t place)
{
    uint64_t all[8] = {number, place, number ? REIDHINTSJE_REFUSED : REIDHINTSJE_CHECKED, 0, 0, 0, 0, 0};
    memcpy(outcome, all, sizeof all);
    return (uint32_t)number;
}

/* Reads a plan, with an END behind its pieces: 0, or the number of the refusal. */
static uint32_t read_plan(const uint8_t *plan, size_t length, struct piece *to, uint64_t *place)
{
    *place = 0;
    if (length < 16) return REIDHINTSJE_CUT_SHORT;
    uint64_t count = little(plan), at = little(plan + 4), data = little(plan + 8), size = little(plan + 12);
    if (count > 64) return REIDHINTSJE_PLAN_MALFORMED;
    if (at + 16 * count > length || data + size > length) return REIDHINTSJE_CUT_SHORT;
    for (uint64_t i = 0; i < count; i++) {
        const uint8_t *p = plan + at + 16 * i;
        uint32_t kind = little(p), word = little(p + 12);
        uint64_t a = little(p + 4), n = little(p + 8);
        *place = i;
        if (kind == RUN) {
            if (n || word) return REIDHINTSJE_PLAN_MALFORMED;
            if (a % 4 == 2) return REIDHINTSJE_RUN_NOT_LEGAL;
        } else {
            if (kind != PUT && kind != FILL) return REIDHINTSJE_PLAN_MALFORMED;
            if (!n) return REIDHINTSJE_ZERO_LENGTH;
            if (n > 65536) return REIDHINTSJE_PLAN_MALFORMED;
            if (a % 4) return REIDHINTSJE_NOT_ALIGNED;
            if (kind == PUT && word + n > size) return REIDHINTSJE_CUT_SHORT;
        }
        struct piece piece = {kind, a, n, kind == PUT ? plan + data + word : NULL, word};
        to[i] = piece;
    }
    to[count].kind = END;
    return 0;
}

uint32_t plain_aplx_check(const uint8_t *plan, size_t plan_length, const uint8_t *image, size_t length, uint64_t *outcome)
{
    struct piece pieces[65], *p = pieces;
    uint64_t place;
    uint32_t number = read_plan(plan, plan_length, pieces, &place);
    if (number) return answer(outcome, number, place);
    uint64_t whole = length / 16 < 256 ? length / 16 : 256, end = 0;
    while (end < whole && little(image + 16 * end) != 0xffffffff) end++;
    if (end == whole) return answer(outcome, REIDHINTSJE_NOT_AS_PLANNED, whole);
    for (uint64_t i = 0; i < end; i++) {
        const uint8_t *e = image + 16 * i;
        uint32_t c = little(e), a = little(e + 4), second = little(e + 8), third = little(e + 12), n = c == 2 ? third : second;
        /* the entry's command is the piece's kind and 1 */
        if (p->kind == END || c != p->kind + 1 || a != p->address) return answer(outcome, REIDHINTSJE_NOT_AS_PLANNED, i);
        if (c == 4) {
            p++;
            continue;
        }
        if (!n || n % 32 || n > p->length) return answer(outcome, REIDHINTSJE_NOT_AS_PLANNED, i);
        if (c == 2) {
            uint64_t from = (uint32_t)(16 * i + second);
            if (from % 4 || from < 16 * (end + 1) || from + n > length || memcmp(image + from, p->data, n))
                return answer(outcome, REIDHINTSJE_NOT_AS_PLANNED, i);
            p->data += n;
        } else if (third != p->word) {
            return answer(outcome, REIDHINTSJE_NOT_AS_PLANNED, i);
        }
        p->address += n;
        p->length -= n;
        if (!p->length) p++;
    }
    return answer(outcome, p->kind == END ? 0 : REIDHINTSJE_NOT_AS_PLANNED, p->kind == END ? 0 : end);
}
