/* Reidhintsje for C, and for what calls C: link with target/staticlib/libreidhintsje.a, which examples/library makes.
 *
 * The archive is for x86-64 Linux, which is what the toolchain's compiler writes today: for the bench computer that packs and compares
 * plans, checks images, loads and answers packets for an instrument, and not for the board's own cores.
 *
 * Every call is proved to stay inside the buffers that it is lent, to end, and to answer for any bytes and any numbers. The proof takes
 * for granted what a C caller must see to:
 *   - a buffer is a pointer and the length in bytes that it really has; the pointer is never NULL, not even where the length is 0;
 *   - `outcome` points to eight numbers, aligned as uint64_t is; `identity` to five, aligned as uint32_t is; `receiver` to 1544 bytes;
 *   - a buffer that a call may write (no const) overlaps no other buffer of that call. Buffers that it only reads may overlap.
 * Nothing is allocated, and nothing is kept between calls, so that calls on different buffers may run at the same time.
 *
 * Each call returns 0, or the number of the refusal (docs/REFUSALS.md says what to look at). A refused call leaves map, memory,
 * output, receiver and image as they were. Addresses and words are 32 bits, Little Endian where they stand in bytes.
 */
#ifndef REIDHINTSJE_H
#define REIDHINTSJE_H

#include <stddef.h>
#include <stdint.h>

#ifdef __cplusplus
extern "C" {
#endif

/* ---- refusals */
#define REIDHINTSJE_MAP_NOT_SOUND 1u
#define REIDHINTSJE_CUT_SHORT 2u
#define REIDHINTSJE_NOT_ALIGNED 3u
#define REIDHINTSJE_NOT_PERMITTED 4u
#define REIDHINTSJE_ZERO_LENGTH 5u
#define REIDHINTSJE_ENTRY_NOT_READABLE 6u
#define REIDHINTSJE_NO_STOP 7u
#define REIDHINTSJE_MEETS_HEADER 8u
#define REIDHINTSJE_RUN_NOT_LEGAL 9u
#define REIDHINTSJE_OUTPUT_TOO_SMALL 10u
#define REIDHINTSJE_PLAN_MALFORMED 11u
#define REIDHINTSJE_LENGTH_NOT_EXPRESSIBLE 12u
#define REIDHINTSJE_SROM_TOO_LONG 13u
#define REIDHINTSJE_TOO_MANY_STRETCHES 18u
#define REIDHINTSJE_PAST_LAST_ADDRESS 19u
#define REIDHINTSJE_NO_PIECE 20u
#define REIDHINTSJE_TOO_MANY_PIECES 21u
#define REIDHINTSJE_LENGTH_NOT_PACKABLE 22u
#define REIDHINTSJE_DATA_OUTSIDE 23u
#define REIDHINTSJE_IMAGE_TOO_SHORT 24u
#define REIDHINTSJE_OUTSIDE_LIMITS 25u
#define REIDHINTSJE_NO_START 26u
#define REIDHINTSJE_NO_SUCH_BLOCK 27u
#define REIDHINTSJE_WRONG_SIZE 28u
#define REIDHINTSJE_NOT_OPEN 29u
#define REIDHINTSJE_NOT_AS_PLANNED 30u

/* ---- outcomes
 * Every call that takes `outcome` writes all eight of its numbers; those that a case does not name are 0. One layout for all calls:
 */
#define REIDHINTSJE_OUTCOME_NUMBERS 8
#define REIDHINTSJE_REFUSAL 0 /* the number of the refusal, which the call returns too; 0 if there is none */
#define REIDHINTSJE_PLACE 1   /* of a refusal, an end or an unknown command: an APLX entry's index, a serial ROM's offset, a piece's index;
                                 of refusal 10 where an image is packed or read back, the count of its pieces; of refusal 18, how many
                                 stretches there may be, 512; of refusal 30 where there is no end word, in how many entries it was looked
                                 for; of MISSING, the lowest missing word ID */
#define REIDHINTSJE_EVENT 2   /* what happened: one of the numbers below */
#define REIDHINTSJE_KIND 3    /* of a run: 1 ARM, 2 Thumb; of a refused comparison: 1 the old plan, 2 the new plan, 0 neither; else 0 */
#define REIDHINTSJE_ADDRESS 4 /* of a run, as written (bit 0 is set for Thumb); of UNKNOWN, the command word */
#define REIDHINTSJE_RESUME 5  /* after a load that stopped at a run: the offset, or the header address, from which the next load goes on */
#define REIDHINTSJE_ITEMS 6   /* entries or blocks taken before the stop; pieces of a plan that was read; stretches that a comparison
                                 listed; of MISSING, how many words */
#define REIDHINTSJE_BYTES 7   /* of a load: stored, each counted every time it was stored; of the response; of the image, plan or stretches
                                 that were written; of refusal 10: the length that the output has to have */

#define REIDHINTSJE_REFUSED 0  /* nothing was changed */
#define REIDHINTSJE_END 1      /* a load came to its end */
#define REIDHINTSJE_UNKNOWN 2  /* a load stopped at an unknown command word */
#define REIDHINTSJE_RUN 3      /* a load, also one that a packet asked for, stopped at a run; RESUME says where the next load goes on */
#define REIDHINTSJE_START 4    /* a packet asks for a run (no flood-fill Start); there is no resume */
#define REIDHINTSJE_RESPONSE 5 /* a packet was answered; the response stands at the output's front */
#define REIDHINTSJE_SILENT 6   /* a packet gets no response, and nothing was done */
#define REIDHINTSJE_READ 7     /* a plan was read */
#define REIDHINTSJE_PACKED 8   /* a plan was packed, or an image was read back: the image, or the plan, stands at the output's front */
#define REIDHINTSJE_ACCEPTED 9 /* a flood-fill message did what it asks: it began an image, opened a block, or its word was kept */
#define REIDHINTSJE_IGNORED 10 /* a flood-fill message changed nothing, and that is no error */
#define REIDHINTSJE_MISSING 11 /* a Block End whose block lacks words: ITEMS says how many, PLACE the lowest; the block stays open */
#define REIDHINTSJE_DONE 12    /* a Block End whose block is complete: its words stand in the image */
#define REIDHINTSJE_SAME_RUN 13  /* two plans were compared: both run the same address, as written (bit 0 too), or neither has a run */
#define REIDHINTSJE_OTHER_RUN 14 /* two plans were compared: they run two addresses, or only one of them has a run */
#define REIDHINTSJE_CHECKED 15   /* an image was checked against a plan: it follows the plan */

/* KIND of a run */
#define REIDHINTSJE_NO_KIND 0
#define REIDHINTSJE_ARM 1
#define REIDHINTSJE_THUMB 2

/* KIND of a refused comparison: the plan that the refusal is about */
#define REIDHINTSJE_NEITHER_PLAN 0
#define REIDHINTSJE_OLD_PLAN 1
#define REIDHINTSJE_NEW_PLAN 2

/* ---- the map
 * A map is a table of 132 bytes that the caller keeps: the count of regions in 4 bytes, then eight regions of 16 bytes each, base, length,
 * place and rights. All zeros is the empty map. Regions past the count have no meaning, whatever bytes they have. A table of any other
 * length, or one in which a region in use has a rights word over 7, is no sound map: calls refuse it with 1.
 * A region is `length` addresses from `base` on, which are the bytes of `memory` from `place` on. Base and length are multiples of 4, the
 * length is 4 to 16777216, base + length at most 4294967280. No two regions share an address or a byte of memory. Whether every region
 * ends inside memory is tested by the calls that take both. Regions may be added in any order; a map whose regions ascend, in addresses
 * and in places, is tested fastest.
 */
#define REIDHINTSJE_MAP_BYTES 132

/* rights; add up those that are given. A region with any other bit is refused */
#define REIDHINTSJE_MAY_READ 1u
#define REIDHINTSJE_MAY_WRITE 2u
#define REIDHINTSJE_MAY_RUN 4u

/* Adds a region at the map's end. 0: added, and the table is written anew: of a rights word past the count the lowest three bits are left,
 * and every other byte past the new region is as it was. 1: refused, and the table is as it was. */
uint32_t reidhintsje_map_add(uint8_t *map, size_t map_length, uint32_t base, uint32_t length, uint32_t place, uint32_t rights);

/* Whether the map is sound for a memory of so many bytes: 0, or 1 where it is not. Every load and packet tests this too. */
uint32_t reidhintsje_map_sound(const uint8_t *map, size_t map_length, size_t memory_length);

/* ---- the loaders: END, UNKNOWN or RUN, with ITEMS and BYTES
 * Loads a serial ROM from an offset on, which is 0 at power-up. A ROM has at most 16777216 bytes. Refusals: 1, 2, 3, 4, 9, 13. */
uint32_t reidhintsje_srom_load(const uint8_t *map, size_t map_length, uint8_t *memory, size_t memory_length, const uint8_t *rom,
                               size_t rom_length, size_t offset, uint64_t *outcome);

/* Loads the APLX image in memory whose header stands at an address. At most 256 entries are read. Refusals: 1, 3 to 9. */
uint32_t reidhintsje_aplx_load(const uint8_t *map, size_t map_length, uint8_t *memory, size_t memory_length, uint32_t header,
                               uint64_t *outcome);

/* ---- SCP: RESPONSE with BYTES, SILENT, START or RUN (here without ITEMS and BYTES)
 * Answers one packet. The output must have 272 bytes or more, else 10. `identity` is what a VER packet is told, five numbers; of each only
 * as many bits count as its field has. Refusals: 10, 1. A load that a packet asks for and that is refused is a RESPONSE. */
#define REIDHINTSJE_SCP_OUTPUT_BYTES 272

#define REIDHINTSJE_IDENTITY_NUMBERS 5
#define REIDHINTSJE_POINT_TO_POINT 0 /* 16 bits */
#define REIDHINTSJE_PHYSICAL_CPU 1   /* 8 bits */
#define REIDHINTSJE_VIRTUAL_CPU 2    /* 8 bits */
#define REIDHINTSJE_VERSION 3        /* 16 bits */
#define REIDHINTSJE_DATE 4           /* 32 bits */

uint32_t reidhintsje_scp_answer(const uint8_t *map, size_t map_length, uint8_t *memory, size_t memory_length, const uint32_t *identity,
                                const uint8_t *packet, size_t packet_length, uint8_t *output, size_t output_length, uint64_t *outcome);

/* ---- plans: a plan has at most 64 pieces of at most 65536 bytes each */
#define REIDHINTSJE_TARGET_APLX 0u
#define REIDHINTSJE_TARGET_SROM 1u
#define REIDHINTSJE_TARGET_ANY 2u

/* Reads a plan and tests it. Lengths are to be multiples of 32 for APLX, of 4 for a serial ROM; for any other target they are not tested.
 * READ with ITEMS. Refusals: 2, 3, 5, 9, 11, 12. */
uint32_t reidhintsje_plan_read(const uint8_t *plan, size_t plan_length, uint32_t target, uint64_t *outcome);

/* Packs a plan as a serial ROM image, or as an APLX image, at the output's front; the output past the image is left as it was. PACKED with
 * BYTES. Refusals: those of reading, and 10 where the image does not fit; BYTES is then the length that it has. */
uint32_t reidhintsje_pack_srom(const uint8_t *plan, size_t plan_length, uint8_t *output, size_t output_length, uint64_t *outcome);
uint32_t reidhintsje_pack_aplx(const uint8_t *plan, size_t plan_length, uint8_t *output, size_t output_length, uint64_t *outcome);

/* Packs a plan as an APLX image that keeps one copy of equal data, at the output's front; the output past the image is left as it was.
 * PACKED with BYTES. The image of reidhintsje_pack_aplx is called the plain one here.
 *
 * Shared is the whole content of a put: puts share if they have the same length and the same bytes, wherever these stand in the plan. No
 * part of a content is shared, nor the front of a longer one, nor what a fill stores. The entries are those of the plain image, in the same
 * order; only the offsets of RCOPY may be others. Behind the end entry stands each different content once, in the order in which they first
 * appear in the plan, with nothing between; every put that has it copies from there. So the image has 16 x (count + 1) bytes and the
 * lengths of the different contents. It is never longer than the plain one. Where no two contents are equal, it is the plain one.
 *
 * The other calls take it as any image. A load of it, from any entry, does what the plan says, as one of the plain image does and under
 * the same conditions (docs/DEMAND3.md): among them, no destination of the plan meets the image. reidhintsje_aplx_check accepts it for its
 * plan. reidhintsje_aplx_read reads it back as a plan with the same pieces, in which each put has a copy of its own; this packs to the same
 * two images, plain and shared, as the first plan.
 *
 * Refusals: those of reidhintsje_plan_read with REIDHINTSJE_TARGET_APLX; last, 10 where the image does not fit: PLACE is the count of its
 * pieces, BYTES the length that this image, not the plain one, has. Room for the plain image is always enough.
 *
 * The cost: each put is compared with the different contents before it that have its length, one after the other, until one is equal, and
 * with each up to the first difference. There are at most 2,016 comparisons, where 64 puts of one length all differ. A call that is refused
 * with 10 makes them too, for BYTES; it makes them twice where the output has room for the entries. docs/SPEED.md has figures. */
uint32_t reidhintsje_pack_aplx_shared(const uint8_t *plan, size_t plan_length, uint8_t *output, size_t output_length, uint64_t *outcome);

/* Reads an APLX image back as a plan, at the output's front; the output past the plan is left as it was. The image's header stands at the
 * slice's front; bytes behind its data change nothing. RCOPY becomes put, FILL fill, EXEC run, one piece for each entry up to the first
 * end word; the unused words of EXEC and of the end entry are ignored. The data of an RCOPY stands at (16 x the entry's index + its
 * offset) modulo 2^32, counted from the image's first byte, anywhere in the slice, also before its entry or over entries. The plan has its
 * table directly behind its header, then the data of the puts in order, at offset 16 + 16 x the count. PACKED with BYTES.
 * Refusals of an entry, PLACE its index, in this order: 2 where its 16 bytes, also those of the end entry, are not in the slice; 20 for
 * ACOPY or an unknown word (the end word is none); 21 for a 65th piece; 9 for a run address with bits 1:0 = 2; 5 for length zero; 22 for
 * a length that is not a multiple of 32, or over 65536; 3 where the destination, or the offset of an RCOPY, is not a multiple of 4; 23
 * where the data of an RCOPY does not lie in the slice. Last, 10 where the plan does not fit: PLACE is the count of its pieces, BYTES the
 * length that it has. */
uint32_t reidhintsje_aplx_read(const uint8_t *image, size_t image_length, uint8_t *output, size_t output_length, uint64_t *outcome);

/* ---- two plans compared: SAME_RUN or OTHER_RUN, with ITEMS and BYTES
 * Compares what two plans leave at each byte address. Of each plan the pieces from index 0 through its first run count, or to its end where
 * it has none; those behind the run are tested, but not compared. The addresses are listed which only one plan stores, and those which both
 * store and leave with different last bytes; no others. It makes no difference by how many pieces, of what kind and in what order a plan
 * leaves its bytes. Images are compared as the plans that reidhintsje_aplx_read reads back.
 *
 * The addresses are listed as stretches, at the output's front, 16 bytes each:
 *      0   4 bytes     the first address
 *      4   4 bytes     the last address
 *      8   4 bytes     the byte that the old plan leaves at the first address; 256 where it does not store it
 *     12   4 bytes     the byte that the new plan leaves there; 256 where it does not store it
 * Stretches ascend, and each is as long as possible: between two of them lies at least one address that is not listed. At the other
 * addresses of a stretch other bytes may stand, or none. ITEMS is the number of stretches, BYTES 16 x ITEMS. The output past them is left
 * as it was.
 *
 * The output has to have 8192 bytes, room for 512 stretches, whatever the plans. Refusals, in this order:
 *   - 10 where the output has fewer bytes, before all else; PLACE is 0, BYTES 8192;
 *   - the old plan's: those of reidhintsje_plan_read with REIDHINTSJE_TARGET_ANY (2, 3, 5, 9, 11; 12 is not tested), and as the last test of
 *     each piece 19 for a put or fill that ends past address 4294967295; PLACE is the piece's index, or 0 for the header;
 *   - the new plan's, likewise;
 *   - 18 where there are more than 512 stretches; PLACE is 512.
 * KIND says which plan is refused; 10 and 18 name neither.
 */
#define REIDHINTSJE_STRETCH_BYTES 16
#define REIDHINTSJE_MOST_STRETCHES 512
#define REIDHINTSJE_COMPARE_OUTPUT_BYTES 8192
#define REIDHINTSJE_NOT_STORED 256u

/* A stretch as it stands in the output, on a Little Endian machine as this one: an array of 512 of them can be lent as output. */
typedef struct {
    uint32_t first, last, old_byte, new_byte;
} reidhintsje_stretch;

uint32_t reidhintsje_compare(const uint8_t *old_plan, size_t old_length, const uint8_t *new_plan, size_t new_length, uint8_t *output,
                             size_t output_length, uint64_t *outcome);

/* ---- an image checked against a plan: CHECKED
 * Checks the APLX image that another firm's packer wrote of a plan. The image's header stands at the slice's front; other bytes may follow
 * the image. Nothing is written but the outcome. docs/FORMATS.md says what a load of an accepted image does. The images of
 * reidhintsje_pack_aplx and reidhintsje_pack_aplx_shared are accepted for their plans.
 *
 * An image is accepted if it keeps these rules, and only then:
 *   - The entries follow the pieces of the plan, in the plan's order: RCOPY for a put, FILL for a fill, EXEC for a run. Then comes an end
 *     entry, and before it no other has the end word. There are at most 256 entries, the end entry among them. No entry is an ACOPY, and
 *     none is left out, added, or joined from two pieces.
 *   - A put or fill is one entry, or several in a row, each a part of it. The first part begins at the piece's address, each other one
 *     where the part before it ends, and the last ends where the piece ends. The length of a part is a multiple of 32, and not 0. No part
 *     goes past the piece's end, and none begins past address 4294967295. Nothing is padded: a piece whose length is not a multiple of 32
 *     cannot be written.
 *   - A FILL has the word of its fill. An EXEC has the address of its run as written, bit 0 too. The unused words of EXEC and of the end
 *     entry may be anything.
 *   - The data of an RCOPY is that of its part, byte by byte. It begins at (16 x the entry's index + its offset) modulo 2^32, counted from
 *     the image's first byte: at a multiple of 4, behind the end entry; and it ends inside the slice. Data may stand in any order, with
 *     other bytes between, and entries may share it, wholly or in part.
 *
 * Refusals, in this order:
 *   - the plan's: those of reidhintsje_plan_read with REIDHINTSJE_TARGET_ANY (2, 3, 5, 9, 11; 12 is not tested); PLACE is the piece's
 *     index, or 0 for the header;
 *   - 30 where none of the first 256 whole entries of the slice has the end word; PLACE is their number: image_length / 16, or 256 where
 *     that is more;
 *   - 30 at the first entry that, after those before it, is not the part or run that is due, or the end where no piece is due any more;
 *     PLACE is its index. If the end comes too early, that is the index of the end entry.
 */
uint32_t reidhintsje_aplx_check(const uint8_t *plan, size_t plan_length, const uint8_t *image, size_t image_length, uint64_t *outcome);

/* ---- flood fill: ACCEPTED, IGNORED, MISSING or DONE
 * An image is passed along in blocks of words, by four messages, each a call. Messages come taken apart; those with a bad checksum are
 * already dropped, and no CRC is tested. The caller keeps two buffers from message to message, and nobody else writes them: the receiver,
 * and the image that is received.
 * Messages may be lost, come twice and in any order. Once a Start was accepted and all messages since then are one image's, the image is
 * whole as soon as every block is done. What is left is made good by sending each block that is not done again: its Block Start, only
 * data with all its words, its Block End.
 *
 * A receiver is 1544 bytes; all zeros is the empty one, which no Start has reached.
 *      0   2 bytes     the number of blocks that the last accepted Start declared; 0 before any
 *      2   2 bytes     the full size of a block, in words
 *      4   2 bytes     the ID of the open block
 *      6   2 bytes     its own size, in words; 0 if no block is open
 *      8   256 bytes   for each block: done, unless 0
 *    264   256 bytes   for each word of the open block: it came, unless 0
 *    520   1024 bytes  the words of the open block, 4 bytes each, Little Endian as all numbers are
 * What a call changes of them: an accepted Start writes all 1544 bytes anew, zeros but for its two numbers. A Block Start that opens a
 * block writes the bytes from 4 to 7 and makes the 256 bytes of the words zero. A word that is kept is written, and its byte becomes 1. A
 * Block End that completes a block makes the bytes from 4 to 7 zero and the block's own byte 1. All else changes no byte of the receiver.
 * Any 1544 bytes are read as a receiver. In those that no calls from an empty one left, a block from ID 256 on counts as done and has no
 * byte of its own, and a word from ID 256 on counts as come; a Block End looks at the first 256 words at most, and where they do not fit
 * into the image it is DONE and leaves the image as it was.
 *
 * Every call is refused with 24 where the image has fewer than four bytes for each declared word: those of the Start itself, and for the
 * other messages those of the last accepted Start. Before any Start no image is too short. The place of a refusal is 0.
 */
#define REIDHINTSJE_RECEIVER_BYTES 1544

/* Start: `last_block` is the number of blocks less 1, `size` the words of each block; only the last may be shorter. 1 to 256 blocks
 * of 1 to 256 words, and at most 8192 words in all, else 25. Begins afresh: no block is done. The image is not written. Refusals: 24, 25. */
uint32_t reidhintsje_flood_fill_start(uint8_t *receiver, const uint8_t *image, size_t image_length, uint32_t last_block,
                                      uint32_t size, uint64_t *outcome);

/* Block Start: opens a block, with no word come; a block that was open is dropped. IGNORED where the block is done: what is open stays
 * open. `size` is the block's own size. Refusals: 24; 26 before any Start; 27 where there is no such block; 28 where the size is wrong:
 * it is the full one, and of the last block also less, but at least 1. */
uint32_t reidhintsje_flood_fill_block_start(uint8_t *receiver, const uint8_t *image, size_t image_length, uint32_t block, uint32_t size,
                                            uint64_t *outcome);

/* Block Data: a word is kept if its block is open, its ID below the block's size, and it has not come; else it is IGNORED. Refusal: 24. */
uint32_t reidhintsje_flood_fill_block_data(uint8_t *receiver, const uint8_t *image, size_t image_length, uint32_t block,
                                           uint32_t word_id, uint32_t word, uint64_t *outcome);

/* Block End: MISSING, and the block stays open; or DONE: the block's words go into the image, Little Endian, from byte 4 x block x full
 * size on. Refusals: 24; 29 where the block is not open. */
uint32_t reidhintsje_flood_fill_block_end(uint8_t *receiver, uint8_t *image, size_t image_length, uint32_t block, uint64_t *outcome);

#ifdef __cplusplus
}
#endif

#endif
