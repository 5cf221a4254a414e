/* Juolgesot for C: the functions that target/staticlib/libcapi.a exports (x86-64).
 *
 * Each returns 0, or the number of a refusal of documents 01 and 02; then *first is the part and *second the item of its place,
 * and the others are 0. A slice is a pointer and its length in items. Slices must not overlap, and the stack has to be large
 * enough (below); nothing else is asked of a caller, and no pointer is kept. Pointers to empty slices are not read, but must not
 * be null.
 *
 * `room` is working room. It holds zeros after every call, but for refusal 32 (it is too short), which changes nothing.
 *
 * Nothing is allocated, and no function of the C library is called but memcpy and memset.
 */
#ifndef JUOLGESOT_H
#define JUOLGESOT_H

#include <stddef.h>
#include <stdint.h>

#ifdef __cplusplus
extern "C" {
#endif

/* Editions, named by their lanes: the full one has 256 lanes, 13 levels and 8192 slots, the small one 128, 12 and 4096. What is said
 * below in numbers is of the full one; where the small one has others, they follow in brackets. Functions are told the edition, but
 * for a plan, whose record names it (word 5). Any other number is refused by 29, at (0, 0), after 32 and before all else. */
#define JUOLGESOT_FULL 256
#define JUOLGESOT_SMALL 128

/* Words of room, the same in both editions: for a read set and for a listing; for a plan, with 16 more for each part; for each block of a run; for a
 * repair, with 4 more for each whole or half entry of its count list. */
#define JUOLGESOT_SET_ROOM 16384
#define JUOLGESOT_PLAN_ROOM 65536
#define JUOLGESOT_PART_ROOM 16
#define JUOLGESOT_BLOCK_ROOM 1024
#define JUOLGESOT_REPAIR_ROOM 65536
#define JUOLGESOT_ENTRY_ROOM 4
/* Slots of a stage, as a plan record has them: slot j of level h is word 2^(13-h) + j - 1 (2^(12-h) + j - 1). Those of levels 1 and
 * up. */
#define JUOLGESOT_STAGE_SLOTS 16383
#define JUOLGESOT_COUNTED_SLOTS 8191
#define JUOLGESOT_SMALL_STAGE_SLOTS 8191
#define JUOLGESOT_SMALL_COUNTED_SLOTS 4095

/* What is told for the local position of a bit that a read set does not ask for. */
#define JUOLGESOT_NO_POSITION 4294967295

/* The largest results: rounds of a read set, and words of a round; bytes of a listing; bytes of an AIGER file before its gates, and
 * of each gate. A placing lists at most JUOLGESOT_COUNTED_SLOTS entries more than it was given. */
#define JUOLGESOT_MOST_ROUNDS 32
#define JUOLGESOT_ROUND_WORDS 512
#define JUOLGESOT_SMALL_ROUND_WORDS 256
#define JUOLGESOT_LIST_TEXT 237578
#define JUOLGESOT_AIGER_HEADER 64
#define JUOLGESOT_AIGER_GATE 10

/* Bytes of stack: a thread of so much in all can call the function, whatever the arguments (measured: host/compare's
 * measure_stack holds the archive to them). 240 KiB are enough for all. */
#define JUOLGESOT_READ_ROUNDS_STACK 147456
#define JUOLGESOT_LOCAL_POSITION_STACK 147456
#define JUOLGESOT_LIST_STACK 245760
#define JUOLGESOT_PLAN_SIZES_STACK 237568
#define JUOLGESOT_BUILD_STACK 237568
#define JUOLGESOT_RUN_STACK 32768
#define JUOLGESOT_VALUE_STACK 32768
#define JUOLGESOT_READ_AIGER_STACK 32768
#define JUOLGESOT_WRITE_AIGER_STACK 32768
#define JUOLGESOT_PLACE_BIT_STACK 212992
#define JUOLGESOT_PURGE_BIT_STACK 147456
#define JUOLGESOT_JOIN_STACK 32768

/* The rounds of a read set: word, mask, word, mask ..
 * 0: *first is the number of rounds (at most 32), *second the piece size that won (1 to the number of pairs: below it, the packing
 * fell back), and out begins with 512 (256) words a round. Refused by 32, 29, 1, 2, 3, 21, 22, 4, 14; the item of
 * 4 is the word that the search stopped at, bit 31 included. */
uint32_t juolgesot_read_rounds(const uint32_t *set, size_t set_len, uint32_t *room, size_t room_len,
                               uint32_t *out, size_t out_len, uint32_t edition, uint64_t *first, uint64_t *second);

/* The local position (0 to 8191, or 4095) to which the packing of a read set brings a bit (0 to 31) of a word, which is as it stands in the
 * set, bit 31 included. The set is packed anew: a call takes the time of juolgesot_read_rounds.
 * 0: *first is the position, bit *first % 32 of lane *first / 32; or JUOLGESOT_NO_POSITION where the set does not ask for the bit.
 * Refused by 32, 29, 1, 2, 3, 21, 22, 4, at the places that juolgesot_read_rounds tells. */
uint32_t juolgesot_local_position(const uint32_t *set, size_t set_len, uint32_t *room, size_t room_len,
                                  uint32_t word, uint32_t bit, uint32_t edition, uint64_t *first, uint64_t *second);

/* What the listing program prints for these records, refusals included (the program itself is of the full edition).
 * 0: *first is the number of bytes, and out begins with them. Refused by 32, 29, 14. */
uint32_t juolgesot_list(const uint8_t *records, size_t records_len, uint32_t *room, size_t room_len,
                        uint8_t *out, size_t out_len, uint32_t edition, uint64_t *first, uint64_t *second);

/* How large the script of a plan record is, in the edition that the record names.
 * 0: starts, words, state words, SRAM words. Refused by 32, 29, 5 to 13, 3, 21, 22, 4; the place is
 * part and item, and the item of 4 is the word as above. */
uint32_t juolgesot_plan_sizes(const uint8_t *plan, size_t plan_len, uint32_t *room, size_t room_len,
                              uint64_t *first, uint64_t *second, uint64_t *third, uint64_t *fourth);

/* The script of a plan record.
 * 0: as above, and starts and words begin with the script's, pieces with the piece size that won for each part: parts are counted
 * on through the major stages, and pieces has one word for each at least. Refused by the same, then 14. */
uint32_t juolgesot_build(const uint8_t *plan, size_t plan_len, uint32_t *room, size_t room_len,
                         uint64_t *starts, size_t starts_len, uint32_t *words, size_t words_len,
                         uint32_t *pieces, size_t pieces_len,
                         uint64_t *first, uint64_t *second, uint64_t *third, uint64_t *fourth);

/* Turns of one major stage: its blocks' starts and their end, and a block for each turn. Bits are read from old, or
 * (staged) from new_, and stored into new_: where one is enabled, with its data inversion; where not, as old has it. The edition is
 * that of the plan that the words were built of: words of the other one are refused by 15, but for accidents.
 * 0: *first is the number of turns left. Refused by 32, 29, 15, 16. */
uint32_t juolgesot_run(const uint32_t *words, size_t words_len, const uint64_t *starts, size_t starts_len,
                       const uint32_t *turns, size_t turns_len, const uint32_t *old, size_t old_len,
                       uint32_t *new_, size_t new_len, uint32_t *room, size_t room_len,
                       uint32_t edition, uint64_t *first, uint64_t *second);

/* The value of a pin by the gates, and of every gate, in a part, between two states. A part past the plan reads
 * nothing; what lies behind a state is 0; the value of the empty pin, 0xFFFFFFFF, is 0. The time grows with the gates.
 * 0: *first is the pin's bit, and bits begins with (gates + 31) / 32 words: bit g % 32 of word g / 32 is the value of
 * the pin of gate g of the plan's list, and bits past the last gate are 0. Refused by 32, 29, 5, 6,
 * 14. */
uint32_t juolgesot_value(const uint8_t *plan, size_t plan_len, uint32_t *room, size_t room_len,
                         const uint32_t *old, size_t old_len, const uint32_t *new_, size_t new_len,
                         uint32_t *bits, size_t bits_len, uint32_t part, uint32_t pin,
                         uint64_t *first, uint64_t *second);

/* The gates of a binary AIGER file, three words each: pin, first and second fan-in (twice a pin, plus 1 where inverted).
 * 0: gates, inputs, latches, outputs, and out begins with the words. Three words for each two bytes always are enough.
 * Refused by 18, 19 or 20, 14. */
uint32_t juolgesot_read_aiger(const uint8_t *bytes, size_t bytes_len, uint32_t *out, size_t out_len,
                              uint64_t *first, uint64_t *second, uint64_t *third, uint64_t *fourth);

/* The binary AIGER file of a gate list, without latches and outputs.
 * 0: *first is the number of bytes, and out begins with them. 64 bytes and 10 a gate always are enough.
 * Refused by 33, 14. */
uint32_t juolgesot_write_aiger(const uint32_t *gates, size_t gates_len, uint8_t *out, size_t out_len,
                               uint64_t *first, uint64_t *second);

/* Places a node at a slot of a level (0 to 13, or 12) of one stage. gates: three words each, as above. levels: by pin; one past the
 * end has none. counts: node, count, node, count .., how often each node stands at levels 1 and up, in any order.
 * 0: *first is the number of entries (node, count) that after begins with, the counts as they then are; a caller must not
 * lean on their order. Refused by 32, 29, 5, 6, 24, 25, 26, 14 (also where a count would pass 2^32 - 1). */
uint32_t juolgesot_place_bit(const uint32_t *gates, size_t gates_len, const uint32_t *levels, size_t levels_len,
                             const uint32_t *counts, size_t counts_len, uint32_t *slots, size_t slots_len,
                             uint32_t *after, size_t after_len, uint32_t *room, size_t room_len,
                             uint32_t level, uint32_t slot, uint32_t node, uint32_t edition,
                             uint64_t *first, uint64_t *second);

/* Clears a slot of a level and, unless it is empty, the two slots under it, and so on down.
 * 0: as above. Refused by 32, 29, 5, 34, 14. */
uint32_t juolgesot_purge_bit(const uint32_t *counts, size_t counts_len, uint32_t *slots, size_t slots_len,
                             uint32_t *after, size_t after_len, uint32_t *room, size_t room_len,
                             uint32_t level, uint32_t slot, uint32_t edition, uint64_t *first, uint64_t *second);

/* The join of two read sets, each word, mask, word, mask ..: the words of both, ascending, masks or'ed. a and b are only read,
 * and may overlap or be the same; either may be empty.
 * 0: *first is the number of pairs (at most 8192), and out begins with them, two words each. As many words as both sets have
 * always are enough. Refused by 1, 2 (the first set, then the second), 1 (the join has over 8192 pairs), 14. */
uint32_t juolgesot_join(const uint32_t *a, size_t a_len, const uint32_t *b, size_t b_len, uint32_t *out, size_t out_len,
                        uint64_t *first, uint64_t *second);

#ifdef __cplusplus
}
#endif

#endif
