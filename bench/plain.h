/* The same calls in plain C, under the same rules (papers 01 and 02), for comparison. */
#ifndef PLAIN_H
#define PLAIN_H
#include <stdbool.h>
#include <stddef.h>
#include <stdint.h>

uint32_t plain_srom_load(const uint8_t *map, size_t map_length, uint8_t *memory, size_t memory_length, const uint8_t *rom,
                         size_t rom_length, size_t offset, uint64_t *outcome);
uint32_t plain_aplx_load(const uint8_t *map, size_t map_length, uint8_t *memory, size_t memory_length, uint32_t header,
                         uint64_t *outcome);
/* READ and WRITE only */
uint32_t plain_scp_answer(const uint8_t *map, size_t map_length, uint8_t *memory, size_t memory_length, const uint8_t *packet,
                          size_t packet_length, uint8_t *output, size_t output_length, uint64_t *outcome);
uint32_t plain_pack_srom(const uint8_t *plan, size_t plan_length, uint8_t *output, size_t output_length, uint64_t *outcome);
uint32_t plain_pack_aplx(const uint8_t *plan, size_t plan_length, uint8_t *output, size_t output_length, uint64_t *outcome);
uint32_t plain_pack_aplx_shared(const uint8_t *plan, size_t plan_length, uint8_t *output, size_t output_length, uint64_t *outcome);
uint32_t plain_aplx_read(const uint8_t *image, size_t image_length, uint8_t *output, size_t output_length, uint64_t *outcome);
uint32_t plain_compare(const uint8_t *old_plan, size_t old_length, const uint8_t *new_plan, size_t new_length, uint8_t *output,
                       size_t output_length, uint64_t *outcome);
uint32_t plain_aplx_check(const uint8_t *plan, size_t plan_length, const uint8_t *image, size_t image_length, uint64_t *outcome);

/* the flood-fill receiver; all zeros is an empty one */
struct plain_receiver {
    uint32_t count, size, block, open_size;
    bool open, done[256], marks[256];
    uint32_t words[256];
};
uint32_t plain_flood_fill_start(struct plain_receiver *r, const uint8_t *image, size_t image_length, uint32_t last_block,
                                uint32_t block_size, uint64_t *outcome);
uint32_t plain_flood_fill_block_start(struct plain_receiver *r, const uint8_t *image, size_t image_length, uint32_t block, uint32_t size,
                                      uint64_t *outcome);
uint32_t plain_flood_fill_block_data(struct plain_receiver *r, const uint8_t *image, size_t image_length, uint32_t block,
                                     uint32_t word_id, uint32_t word, uint64_t *outcome);
uint32_t plain_flood_fill_block_end(struct plain_receiver *r, uint8_t *image, size_t image_length, uint32_t block, uint64_t *outcome);
#endif
