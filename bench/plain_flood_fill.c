/* Plain C: the flood-fill receiver, with its state behind a pointer. */
#include "plain.h"

#include "../include/reidhintsje.h"

#include <stdbool.h>
#include <string.h>

static uint32_t tell(uint64_t *outcome, uint64_t event, uint64_t place, uint64_t items)
{
    uint64_t all[8] = {0, place, event, 0, 0, 0, items, 0};
    memcpy(outcome, all, sizeof all);
    return 0;
}

static uint32_t refuse(uint64_t *outcome, uint32_t number)
{
    uint64_t all[8] = {number, 0, REIDHINTSJE_REFUSED, 0, 0, 0, 0, 0};
    memcpy(outcome, all, sizeof all);
    return number;
}

static bool is_short(size_t image_length, uint64_t count, uint64_t size) { return image_length / 4 < count * size; }

uint32_t plain_flood_fill_start(struct plain_receiver *r, const uint8_t *image, size_t image_length, uint32_t last_block,
                                uint32_t block_size, uint64_t *outcome)
{
    (void)image;
    if (is_short(image_length, (uint64_t)last_block + 1, block_size)) return refuse(outcome, REIDHINTSJE_IMAGE_TOO_SHORT);
    if (last_block > 255 || block_size < 1 || block_size > 256 || (last_block + 1) * block_size > 8192)
        return refuse(outcome, REIDHINTSJE_OUTSIDE_LIMITS);
    memset(r, 0, sizeof *r);
    r->count = last_block + 1;
    r->size = block_size;
    return tell(outcome, REIDHINTSJE_ACCEPTED, 0, 0);
}

uint32_t plain_flood_fill_block_start(struct plain_receiver *r, const uint8_t *image, size_t image_length, uint32_t block, uint32_t size,
                                      uint64_t *outcome)
{
    (void)image;
    if (is_short(image_length, r->count, r->size)) return refuse(outcome, REIDHINTSJE_IMAGE_TOO_SHORT);
    if (r->count == 0) return refuse(outcome, REIDHINTSJE_NO_START);
    if (block >= r->count) return refuse(outcome, REIDHINTSJE_NO_SUCH_BLOCK);
    if (size < 1 || (block + 1 == r->count ? size > r->size : size != r->size)) return refuse(outcome, REIDHINTSJE_WRONG_SIZE);
    if (r->done[block]) return tell(outcome, REIDHINTSJE_IGNORED, 0, 0);
    r->open = true;
    r->block = block;
    r->open_size = size;
    memset(r->marks, 0, sizeof r->marks);
    return tell(outcome, REIDHINTSJE_ACCEPTED, 0, 0);
}

uint32_t plain_flood_fill_block_data(struct plain_receiver *r, const uint8_t *image, size_t image_length, uint32_t block,
                                     uint32_t word_id, uint32_t word, uint64_t *outcome)
{
    (void)image;
    if (is_short(image_length, r->count, r->size)) return refuse(outcome, REIDHINTSJE_IMAGE_TOO_SHORT);
    if (!r->open || r->block != block || word_id >= r->open_size || r->marks[word_id]) return tell(outcome, REIDHINTSJE_IGNORED, 0, 0);
    r->words[word_id] = word;
    r->marks[word_id] = true;
    return tell(outcome, REIDHINTSJE_ACCEPTED, 0, 0);
}

uint32_t plain_flood_fill_block_end(struct plain_receiver *r, uint8_t *image, size_t image_length, uint32_t block, uint64_t *outcome)
{
    if (is_short(image_length, r->count, r->size)) return refuse(outcome, REIDHINTSJE_IMAGE_TOO_SHORT);
    if (!r->open || r->block != block) return refuse(outcome, REIDHINTSJE_NOT_OPEN);
    uint32_t number = 0, lowest = 0;
    for (uint32_t i = 0; i < r->open_size; i++) number += !r->marks[i];
    if (number) {
        while (r->marks[lowest]) lowest++;
        return tell(outcome, REIDHINTSJE_MISSING, lowest, number);
    }
    uint8_t *p = image + 4 * (size_t)block * r->size;
    for (uint32_t i = 0; i < r->open_size; i++, p += 4) {
        uint32_t w = r->words[i];
        p[0] = w;
        p[1] = w >> 8;
        p[2] = w >> 16;
        p[3] = w >> 24;
    }
    r->done[block] = true;
    r->open = false;
    return tell(outcome, REIDHINTSJE_DONE, 0, 0);
}
