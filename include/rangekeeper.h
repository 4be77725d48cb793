/* Rangekeeper: address ranges and interrupt numbers for virtual machine monitors. C99 and C++.
 *
 * An allocator lives in a block of 64-bit words that the caller lends: `mem` points to `words` of them. Nothing else is kept anywhere,
 * and a block holds no pointer: a copy of its words is a copy of the allocator. A function touches no word outside the block.
 *
 * Every function is total: any numbers and any contents of the block are answered or refused. What is asked of a caller is what C asks
 * of any pointer:
 *   - `mem` points to `words` words, and may be NULL only where `words` is 0;
 *   - an out-parameter is not NULL, and lies neither in the block nor on another out-parameter;
 *   - two blocks of one call do not overlap;
 *   - while a function runs that may change a block, no other thread uses that block.
 *
 * A function that makes or changes an allocator returns a reason, 0 for done. AFTER A REFUSAL THE BLOCK IS WORD FOR WORD AS IT WAS, AND SO
 * IS EACH OUT-PARAMETER. There are two exceptions. Where several things are asked for at once, *refused then tells whose refusal it was, and a
 * block from which an earlier thing had to be given back holds just the state that it held, though not in the same words. Where bytes are
 * read that are no saved allocator, *at then tells the place of the flaw. What each
 * function promises is proved of its source, for every input; its contract stands in the crates whose names begin with `rangekeeper`, under
 * the same name.
 */
#ifndef RANGEKEEPER_H
#define RANGEKEEPER_H

#include <stddef.h>
#include <stdint.h>

#ifdef __cplusplus
extern "C" {
#endif

/* The reasons. The numbers never change. */
#define RK_DONE 0u
#define RK_OVERFLOW 1u               /* an end would lie beyond 2^64 - 1, or no id follows 2^32 - 1 */
#define RK_OUT_OF_RANGE 2u           /* not an id of the interval, or not an address of the pool */
#define RK_ALREADY_RELEASED 3u       /* the id was granted once, and is not granted now */
#define RK_NEVER_ALLOCATED 4u        /* the id was never granted */
#define RK_RESOURCE_NOT_AVAILABLE 5u /* there is no place, no id is left, or the range is not granted */
#define RK_INVALID_RANGE 6u          /* the end lies before the start, or the range is all of the 64-bit addresses */
#define RK_INVALID_ALIGNMENT 7u      /* not a power of two */
#define RK_UNALIGNED_ADDRESS 8u      /* the address asked for is no multiple of the alignment */
#define RK_UNDERFLOW 9u              /* a pool of no address */
#define RK_INVALID_SIZE 10u          /* a range of no address */
#define RK_NO_ROOM 11u               /* the limit is not 1 to 4,096, too few words are lent, or the table is full */
#define RK_INVALID_POLICY 12u        /* a number that stands for no policy */
#define RK_NO_STATE 13u              /* the block holds no allocator of the kind that is asked */

/* What is wrong with bytes that are no saved allocator. The numbers never change. */
#define RK_SAVED_SHORT 101u    /* they end too early */
#define RK_SAVED_KIND 102u     /* they are of another kind */
#define RK_SAVED_VERSION 103u  /* they are of another version */
#define RK_SAVED_CHECK 104u    /* a check is not that of what stands before it */
#define RK_SAVED_BOUNDS 105u   /* no such pool, no such interval, or a next new id that does not belong to it */
#define RK_SAVED_LIMIT 106u    /* a limit above 4,096 */
#define RK_SAVED_COUNT 107u    /* no range, more ranges than the limit, or half a range */
#define RK_SAVED_STATE 108u    /* a range that is neither free nor granted */
#define RK_SAVED_ORDER 109u    /* a range that does not start where it is to; a freed id that is not above the one before, or below the lowest */
#define RK_SAVED_OUTSIDE 110u  /* a range past the pool's last address; a freed id that is not below the next new one */
#define RK_SAVED_TOUCHING 111u /* two free ranges that touch */

/* The policies of rk_address_allocate. */
#define RK_FIRST 0u /* as low as possible */
#define RK_LAST 1u  /* as high as possible */
#define RK_EXACT 2u /* at the address that is given */

/* The greatest limit. */
#define RK_MOST_RANGES 4096u

/* ---- addresses -------------------------------------------------------------------------------------------------------------------- */

/* How many words a block takes that is to hold up to `limit` ranges, free and granted together; 0 where the limit is not 1 to 4,096. */
size_t rk_address_words(size_t limit);

/* Makes an allocator of the `size` addresses from `base` on, all of them free.
 * Refused, in this order: size 0 (RK_UNDERFLOW); base + size - 1 beyond 2^64 - 1 (RK_OVERFLOW); a limit that is not 1 to 4,096, or fewer
 * words than it takes (RK_NO_ROOM). */
uint32_t rk_address_new(uint64_t *mem, size_t words, uint64_t base, uint64_t size, size_t limit);

/* Grants `size` addresses that are free, from a multiple of `alignment` on: the lowest such place for RK_FIRST, the highest for RK_LAST,
 * the one at `address` for RK_EXACT (the other two do not look at `address`). *start becomes the first of them.
 * Of any sequence of calls on a block: between two grants that share an address the whole range of the first was given back by
 * rk_address_free (calls_never_twice, crates/addresses/specs/NeverTwice.antt).
 * Refused, in this order: a policy of another number (RK_INVALID_POLICY); size 0 (RK_INVALID_SIZE); an alignment that is no power of two
 * (RK_INVALID_ALIGNMENT); for RK_EXACT an address that is no multiple of it (RK_UNALIGNED_ADDRESS); for RK_EXACT a free address from
 * which the range would end beyond 2^64 - 1 (RK_OVERFLOW); no such place (RK_RESOURCE_NOT_AVAILABLE); more ranges than the limit
 * (RK_NO_ROOM). A block that holds no allocator is refused too (RK_NO_STATE). */
uint32_t rk_address_allocate(uint64_t *mem, size_t words, uint64_t size, uint64_t alignment, uint32_t policy, uint64_t address,
                             uint64_t *start);

/* Gives back the range whose first and last address are `start` and `end`, which must be granted, just so. Free ranges that touch become
 * one.
 * Refused, in this order: a pair that is no range (RK_INVALID_RANGE); one that is not granted (RK_RESOURCE_NOT_AVAILABLE). A block that
 * holds no allocator is refused too (RK_NO_STATE). */
uint32_t rk_address_free(uint64_t *mem, size_t words, uint64_t start, uint64_t end);

/* The range that `address` lies in: *start and *end become its first and last address, *tag becomes 0 where it is free and 1 where it is
 * granted. From `base` on, each time at *end + 1, this visits all ranges in order.
 * Refused: not an address of the pool (RK_OUT_OF_RANGE); a block that holds no allocator (RK_NO_STATE). */
uint32_t rk_address_at(const uint64_t *mem, size_t words, uint64_t address, uint64_t *start, uint64_t *end, uint64_t *tag);

/* How many ranges there are, free and granted together. 0 where the block is seen to hold no allocator. */
uint64_t rk_address_count(const uint64_t *mem, size_t words);

/* The pool's first address. 0 where the block is seen to hold no allocator. */
uint64_t rk_address_base(const uint64_t *mem, size_t words);

/* The pool's last address. 0 where the block is seen to hold no allocator. */
uint64_t rk_address_end(const uint64_t *mem, size_t words);

/* What is left: *free becomes the number of the pool's addresses that are free, *largest the size of the largest free range, which is the
 * greatest size that a request with alignment 1 finds a place for; 0 and 0 where nothing is free. Both fit: a pool has at most 2^64 - 1
 * addresses, and one that is all free answers its size twice. It visits each range once. A block that holds an allocator is not refused.
 * Refused: a block that is seen to hold no allocator (RK_NO_STATE). */
uint32_t rk_address_left(const uint64_t *mem, size_t words, uint64_t *free, uint64_t *largest);

/* How many bytes the allocator takes when it is saved: 64, and 16 for each range. 0 where the block is seen to hold no allocator. */
size_t rk_address_saved_bytes(const uint64_t *mem, size_t words);

/* Writes the allocator into the first of the `length` bytes, in the format of docs/FORMAT.md; *written becomes their number. No byte behind
 * them is changed.
 * Refused, in this order: a block that holds no allocator (RK_NO_STATE); too few bytes (RK_NO_ROOM). Then no byte is changed. */
uint32_t rk_address_save(const uint64_t *mem, size_t words, uint8_t *bytes, size_t length, size_t *written);

/* Makes the block hold the allocator with which the bytes begin, whatever it held; *at becomes the number of its bytes. What is behind them is
 * not looked at. What was saved is accepted, and nothing that no sequence of operations could have made.
 * Refused: bytes that are no saved address allocator (RK_SAVED_..; *at becomes the place of the byte at which the flaw stands); a block that is
 * too short for the limit that was read (RK_NO_ROOM; *at is as it was). The bytes and the block may not overlap. */
uint32_t rk_address_load(const uint8_t *bytes, size_t length, uint64_t *mem, size_t words, size_t *at);

/* ---- ids -------------------------------------------------------------------------------------------------------------------------- */

/* How many words a block takes for the ids from `lowest` to `highest`, about one for each 63 ids; 0 where there are no such ids. */
size_t rk_id_words(uint32_t lowest, uint32_t highest);

/* Makes an allocator of the ids from `lowest` to `highest`, both included, none of them granted.
 * Refused, in this order: `highest` below `lowest` (RK_INVALID_RANGE); fewer words than it takes (RK_NO_ROOM). */
uint32_t rk_id_new(uint64_t *mem, size_t words, uint32_t lowest, uint32_t highest);

/* Grants the lowest id that is not granted. *id becomes it.
 * Of any sequence of calls on a block: between two grants of one id there was an rk_id_free of it that was done (chain_never_twice,
 * crates/ids/specs/NeverTwice.antt).
 * Refused: none is left (RK_RESOURCE_NOT_AVAILABLE; where the highest id is 2^32 - 1, RK_OVERFLOW); a block that holds no allocator
 * (RK_NO_STATE). */
uint32_t rk_id_allocate(uint64_t *mem, size_t words, uint32_t *id);

/* Takes an id back.
 * Refused, in this order: not an id of the interval (RK_OUT_OF_RANGE); never granted so far (RK_NEVER_ALLOCATED); not granted now
 * (RK_ALREADY_RELEASED). A block that holds no allocator is refused before (RK_NO_STATE). */
uint32_t rk_id_free(uint64_t *mem, size_t words, uint32_t id);

/* Whether an id is granted now: 1 where it is, 0 for every other number, those outside the interval included. 0 where the block is seen
 * to hold no allocator. */
uint32_t rk_id_is_allocated(const uint64_t *mem, size_t words, uint32_t id);

/* How many ids are not granted now, up to 2^32. A step for each 64 ids. 0 where the block is seen to hold no allocator. */
uint64_t rk_id_free_count(const uint64_t *mem, size_t words);

/* How many bytes the allocator takes when it is saved: 64, and 8 for each id that was granted and is free now. It asks for each id below the
 * next new one. 0 where the block is seen to hold no allocator. */
size_t rk_id_saved_bytes(const uint64_t *mem, size_t words);

/* As rk_address_save. */
uint32_t rk_id_save(const uint64_t *mem, size_t words, uint8_t *bytes, size_t length, size_t *written);

/* As rk_address_load, for ids. It takes a step for each id below the next new one. */
uint32_t rk_id_load(const uint8_t *bytes, size_t length, uint64_t *mem, size_t words, size_t *at);

/* ---- copies ----------------------------------------------------------------------------------------------------------------------- */

/* Makes the block `copy` hold the pool that `mem` holds, with room for `limit` ranges, which is the pool's limit or a larger one. Where the
 * limits are alike, both answer alike from then on; what is done to one does not touch the other. `mem` is not changed. It visits each
 * range once.
 * Refused, in this order: `mem` is seen to hold no allocator (RK_NO_STATE); a limit that is below the pool's or above 4,096, or fewer words
 * than it takes (RK_NO_ROOM). */
uint32_t rk_address_copy(const uint64_t *mem, size_t words, uint64_t *copy, size_t copy_words, size_t limit);

/* Makes the block `copy` hold the ids that `mem` holds: the same interval, the same ids granted, and as many ever granted. `mem` is not
 * changed.
 * Refused, in this order: `mem` is seen to hold no allocator (RK_NO_STATE); fewer words than rk_id_words says (RK_NO_ROOM). */
uint32_t rk_id_copy(const uint64_t *mem, size_t words, uint64_t *copy, size_t copy_words);

/* ---- several things or none ------------------------------------------------------------------------------------------------------- */

/* Grants a range of each of two pools, or of neither. Each is asked for as by rk_address_allocate, the first pool's first; *start1 and
 * *start2 become the first addresses.
 * Refused: the number of a policy, of the first and then of the second, stands for none (RK_INVALID_POLICY); else as rk_address_allocate
 * refuses the first request, or the second. *refused becomes 1 or 2, and *start1 and *start2 are as they were. Where the second pool refuses,
 * the first pool's range is given back, and its block holds just what it held before. */
uint32_t rk_both(uint64_t *first, size_t words1, uint64_t size1, uint64_t alignment1, uint32_t policy1, uint64_t address1,
                 uint64_t *second, size_t words2, uint64_t size2, uint64_t alignment2, uint32_t policy2, uint64_t address2,
                 uint64_t *start1, uint64_t *start2, uint32_t *refused);

/* The same with an id: all three or nothing. *id becomes the lowest id that was not granted. The id is asked for last, as by
 * rk_id_allocate, so that none is ever given back; where it is refused, *refused becomes 3. */
uint32_t rk_all_three(uint64_t *first, size_t words1, uint64_t size1, uint64_t alignment1, uint32_t policy1, uint64_t address1,
                      uint64_t *second, size_t words2, uint64_t size2, uint64_t alignment2, uint32_t policy2, uint64_t address2,
                      uint64_t *ids, size_t id_words, uint64_t *start1, uint64_t *start2, uint32_t *id, uint32_t *refused);

#ifdef __cplusplus
}
#endif

#endif
