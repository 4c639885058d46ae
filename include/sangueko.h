/*
 * Sangueko: a store of files in buffers that the caller lends. The archive is libvolume.a, which `tools/archives` writes to target/staticlib/, for
 * x86-64 and the C calling convention. Of the C library it calls memcpy and memset, and nothing else.
 *
 * A store is seven buffers, and every call is lent all of them, in this order, each as a pointer and its length in bytes:
 *
 *   image    the blocks, 1 to 65,536 of SANGUEKO_BLOCK_BYTES
 *   head     SANGUEKO_HEAD_BYTES
 *   cards    a place of SANGUEKO_CARD_BYTES for each file
 *   extents  places of SANGUEKO_EXTENT_BYTES
 *   groups   places of SANGUEKO_GROUP_BYTES
 *   used     SANGUEKO_MAP_BYTES of the number of blocks
 *   retired  the same
 *
 * The three books (cards, extents, groups) have 0 to SANGUEKO_MOST_PLACES places each. The caller chooses the lengths once, calls sangueko_fresh, and
 * lends buffers of the same lengths from then on; the buffers, kept as they are, are the store. sangueko_enter adds a file, sangueko_write and
 * sangueko_grow change it, sangueko_write_archive writes so that a file lies in fewer pieces, sangueko_write_batch makes many writes at once,
 * sangueko_read gives a file's bytes, sangueko_read_many those of many ranges at once, and sangueko_data_stretches tells which parts of it hold data.
 *
 * A call answers a number and a count. Number 0: it did its work, and the count is its answer. Any other number is one of enum sangueko_refusal: the
 * call was refused, its count is 0 and no byte of any buffer has changed; but sangueko_write_batch can also stop on the way. A call tries its refusals
 * in the order of their numbers, but 17 and 18 right behind 2, and 9 to 14 unit by unit, and gives the first that applies. It takes any bytes, lengths
 * and numbers whatever: what it cannot work on it refuses.
 *
 * A batch of writes stops at the first write that is refused. Its number is then what that write was refused by, and its count how many writes were
 * done before it: those remain, the refused one and the later ones did nothing, and this is not a refused call, not even with count 0. Number 0 says
 * that all were done, as many as the count. The batch itself was refused, and nothing was tried, just where the number is 1, 2 or 18 and the count 0.
 *
 * Proved. Of each call one equation is proved: its number, its count and every byte of the buffers after it are those that the rules give
 * (crates/rules). Of the rules, and so by the equations of these calls, one theorem is proved about every list of calls on a store that sangueko_fresh
 * made (crates/history): reads that are accepted give the bytes that plain arrays would hold after the same calls (of a batch, after the writes done),
 * every block is reserved, free, retired or at one place of one file, every file's count of blocks is right, its card says when it was created, and
 * refusals 2, 9 to 12 and 14 never come.
 * Of buffers that something else has changed the theorem says nothing; a call does with them what its equation says.
 *
 * New blocks. A call that changes a file writes to free blocks, unit by unit (64 KiB of a file, at most 16 blocks). For that the image is divided into
 * allocation groups of 16,384 blocks, 64 MiB, of which the last may be shorter. The new blocks of a unit are one run, side by side and ascending,
 * wherever an allocation group has so many free ones side by side: the first blocks of the lowest run that is long enough, in the first group that has
 * one. The search begins with the group of the block that was taken last, in a fresh store with the first, and goes around. Where no group has such a run
 * they are single free blocks, found in the same order of groups, in each from behind the highest block that the call has taken there, then around.
 * So expect a run for each unit, but not for a write of several units, which may lie apart; none over the end of an allocation group; and none that
 * takes in the old blocks that a unit keeps, which stay where they are. Retired blocks are not free: sangueko_settle before a write makes longer runs.
 * Whether there are enough blocks, refusal 13, does not depend on where they lie.
 *
 * Cards. No call gives a file's size or times: they stand on its card, which may be read. The cards lie one behind the other, ascending by object, and
 * the head says how many they are, in the 20 bits behind its first 164. A card's fields are packed, each most significant bit first: object 64 bits,
 * size 63, blocks 35, the time of the last change as seconds 63 and nanoseconds 30, the time of the creation likewise, and 36 bits that are zero.
 *
 * Older stores. Cards once had 32 bytes, without the time of the creation. Stores with such cards are not converted, and nothing in a store tells how
 * wide its cards are. One is refused by 1 where its book of cards is no multiple of SANGUEKO_CARD_BYTES, or its head counts more cards than the book
 * then has places, and else normally by 2. But one that passes 1 and 2 is read as cards of SANGUEKO_CARD_BYTES: a single card in 96 bytes passes, and
 * has creation time 0. So do not lend such stores: copy the files out with the library that they were made with.
 *
 * Pointers. A buffer that a call takes as `const` is only read. The others must not overlap any other buffer of the same call. No alignment is asked
 * for. The pointer of an empty buffer may be any that is not null.
 *
 * Threads. The library keeps no state and allocates nothing. Calls may run at the same time in any threads on stores that do not overlap, and on one
 * store where all of them take its buffers as `const`.
 *
 * Stack. No call takes more than SANGUEKO_STACK_BYTES of stack, what the dynamic linker may take to find memcpy or memset the first time left aside.
 */
#ifndef SANGUEKO_H
#define SANGUEKO_H

#include <stddef.h>
#include <stdint.h>

#ifdef __cplusplus
extern "C" {
#endif

/* Bytes of a block, of the head, and of a record in each book. */
#define SANGUEKO_BLOCK_BYTES 4096
#define SANGUEKO_HEAD_BYTES 28
#define SANGUEKO_CARD_BYTES 48
#define SANGUEKO_EXTENT_BYTES 33
#define SANGUEKO_GROUP_BYTES 1073

/* Bytes of a map of so many blocks: 8 for each 64 blocks begun. */
#define SANGUEKO_MAP_BYTES(blocks) (((size_t)(blocks) + 63) / 64 * 8)

/* Bytes of the uuid that sangueko_fresh is given. */
#define SANGUEKO_UUID_BYTES 16

/* Blocks of a store at most, and places of a book at most. */
#define SANGUEKO_MOST_BLOCKS 65536
#define SANGUEKO_MOST_PLACES 1048575

/* Bytes that one write or read takes at most; of many in one call, each of them. */
#define SANGUEKO_MOST_TRANSFER 1048576

/* Bytes of a range in a list, and ranges of a list at most. A range is three numbers of 8 bytes each, least significant byte first: object, offset and
 * length. */
#define SANGUEKO_RANGE_BYTES 24
#define SANGUEKO_MOST_RANGES 64

/* Bytes of a unit of a file, and of a stretch of units in the output of sangueko_data_stretches. A stretch is two numbers of 8 bytes each, least
 * significant byte first: its first unit and how many units it has. */
#define SANGUEKO_UNIT_BYTES 65536
#define SANGUEKO_STRETCH_BYTES 16

/* Stack that a call takes at most. */
#define SANGUEKO_STACK_BYTES 262144

/* Why a call was refused. A unit is 64 KiB of a file, from a multiple of that on; each unit that holds data has a checksum. */
enum sangueko_refusal {
    /* A buffer's length is wrong, or the head does not fit the lengths: it counts other blocks than the image's, more records than there are places, or
     * more reserved blocks than blocks. sangueko_fresh does not read the head; it tries the uuid's length and the reserved blocks that it is given. */
    SANGUEKO_WRONG_LENGTH = 1,
    /* A book or a map breaks a rule of the format: the store is damaged, or is none. */
    SANGUEKO_BROKEN_RULE = 2,
    /* There is no file of this number. */
    SANGUEKO_NO_CARD = 3,
    /* There is a file of this number already. */
    SANGUEKO_CARD_EXISTS = 4,
    /* The file would end past byte 2^63 - 1. */
    SANGUEKO_PAST_LIMIT = 5,
    /* The file is larger than the size asked for. */
    SANGUEKO_BELOW_SIZE = 6,
    /* The time has over 2^63 - 1 seconds, or 1,000,000,000 nanoseconds or more. */
    SANGUEKO_BAD_TIME = 7,
    /* Every place for a card is taken. */
    SANGUEKO_NO_CARD_PLACE = 8,
    /* A unit has blocks but no checksum. */
    SANGUEKO_NO_CHECKSUM = 9,
    /* A unit has a checksum but not all of its blocks. */
    SANGUEKO_NOT_BACKED = 10,
    /* A byte past the file's end in its last block is not zero. */
    SANGUEKO_NONZERO_PAST_END = 11,
    /* A unit's bytes do not have its checksum. */
    SANGUEKO_CHECKSUM_DIFFERS = 12,
    /* Too few blocks are free, wherever they lie. */
    SANGUEKO_NO_SPACE = 13,
    /* The card's count of blocks disagrees with the blocks, or would grow past 2^35 - 1. */
    SANGUEKO_COUNT_DISAGREES = 14,
    /* Too few places for groups. */
    SANGUEKO_NO_GROUP_PLACE = 15,
    /* Too few places for extents. */
    SANGUEKO_NO_EXTENT_PLACE = 16,
    /* A list of reads is not whole ranges, has over SANGUEKO_MOST_RANGES of them, or their lengths together exceed the output. Tried right behind 2. */
    SANGUEKO_BAD_READS = 17,
    /* A list of writes is not whole ranges, has over SANGUEKO_MOST_RANGES of them, a length exceeds SANGUEKO_MOST_TRANSFER, or the lengths do not add
     * up to the bytes. Tried right behind 2. */
    SANGUEKO_BAD_BATCH = 18,
    /* A range of units whose first unit and number of units add up to more than 2^64 - 1, or whose stretches have no place in the output. */
    SANGUEKO_BAD_RANGE = 19
};

/* What a call answers: number 0 and a count, or the number of its refusal and count 0; of a batch, what stopped it, or 0, and the writes done. */
struct sangueko_answer {
    uint32_t number;
    uint64_t count;
};

/*
 * Makes an empty store, whatever the buffers hold: no files, the first `reserved` blocks used and kept from files for good, all others free. The image
 * stays as it is. The uuid has SANGUEKO_UUID_BYTES bytes.
 * Count: 0. Refused by 1.
 */
struct sangueko_answer sangueko_fresh(
    const uint8_t *image, size_t image_len,
    uint8_t *head, size_t head_len,
    uint8_t *cards, size_t cards_len,
    uint8_t *extents, size_t extents_len,
    uint8_t *groups, size_t groups_len,
    uint8_t *used, size_t used_len,
    uint8_t *retired, size_t retired_len,
    const uint8_t *uuid, size_t uuid_len,
    uint64_t reserved);

/*
 * Adds the file `object`, of size 0 and without blocks, created and last changed at the time given. Any number may name a file.
 * Count: 0. Refused, in this order, by 1, 2, 4 (there is such a file), 7 (the time), 8 (no place for its card).
 */
struct sangueko_answer sangueko_enter(
    const uint8_t *image, size_t image_len,
    uint8_t *head, size_t head_len,
    uint8_t *cards, size_t cards_len,
    const uint8_t *extents, size_t extents_len,
    const uint8_t *groups, size_t groups_len,
    const uint8_t *used, size_t used_len,
    const uint8_t *retired, size_t retired_len,
    uint64_t object, uint64_t seconds, uint64_t nanoseconds);

/*
 * Writes `bytes` into the file from `offset` on, over what was there: all of them, or the first SANGUEKO_MOST_TRANSFER. Past its end the file grows,
 * and what lies between reads as zeros. The time of its last change becomes the one given; that of its creation stays. New bytes go to free blocks, for
 * each unit side by side where so many are ("New blocks" above); the blocks whose place they take stay used, as retired ones, until sangueko_settle.
 * Empty `bytes` change nothing, not even the time.
 * Count: the bytes taken; the rest is left to another call. 0 where `bytes` is empty. Refused, in this order, by 1, 2, 3 (no such file), 5 (where
 * the bytes that are taken end), 7 (the time), unit by unit by 9 to 12 (if old bytes of it stay) and by 13 and 14, and at last by 15 and 16. Empty
 * `bytes` are refused by 1, 2 and 3 alone.
 */
struct sangueko_answer sangueko_write(
    uint8_t *image, size_t image_len,
    uint8_t *head, size_t head_len,
    uint8_t *cards, size_t cards_len,
    uint8_t *extents, size_t extents_len,
    uint8_t *groups, size_t groups_len,
    uint8_t *used, size_t used_len,
    uint8_t *retired, size_t retired_len,
    uint64_t object, uint64_t offset,
    const uint8_t *bytes, size_t bytes_len,
    uint64_t seconds, uint64_t nanoseconds);

/*
 * Writes as sangueko_write does, for files that are read end to end: what the file then holds, its size, its times and the count are the same, and only
 * where its bytes lie can differ. A write rewrites a unit in new blocks. The old ones that it writes no byte into, and that the file fills before and
 * after it, stay if the unit then has few runs; else none does. A run is blocks of the unit side by side that are all new, or all kept and side by side
 * in the image too. sangueko_write, each write of a batch and sangueko_grow keep blocks at four runs or fewer, and this call at two or fewer. So it
 * leaves at most one run of old blocks in a unit that it rewrites. Where the new ones are side by side ("New blocks" above) the unit then lies in at most
 * two pieces, and by the others in at most four; else each new block may be a piece of its own.
 * What it costs: a byte written inside a unit of 16 blocks in one piece takes 1 new block by sangueko_write and 16 by this call; in the first or the last
 * of the 16 it takes 1 by both. As many old ones are retired until sangueko_settle. So 13 can come where sangueko_write is accepted; and 16 can come by
 * one of the two alone, as the number of extents that they leave differs. Both may be called on one store, and on one file, in any order.
 * Count: the bytes taken; the rest is left to another call. 0 where `bytes` is empty. Refused by the numbers of sangueko_write, in the same order.
 */
struct sangueko_answer sangueko_write_archive(
    uint8_t *image, size_t image_len,
    uint8_t *head, size_t head_len,
    uint8_t *cards, size_t cards_len,
    uint8_t *extents, size_t extents_len,
    uint8_t *groups, size_t groups_len,
    uint8_t *used, size_t used_len,
    uint8_t *retired, size_t retired_len,
    uint64_t object, uint64_t offset,
    const uint8_t *bytes, size_t bytes_len,
    uint64_t seconds, uint64_t nanoseconds);

/*
 * Makes the file `size` bytes long. The new bytes read as zeros; only those in the unit that the file ended in take blocks. The time of its last change
 * becomes the one given; that of its creation stays. Its present size changes nothing, not even the time; files do not shrink.
 * Count: 0. Refused, in this order, by 1, 2, 3 (no such file), 5 (the size), 6 (a smaller size); where the size changes, by 7 (the time) and, if the
 * file ended within a unit that has data, by 9 to 14 on that unit, 15 and 16.
 */
struct sangueko_answer sangueko_grow(
    uint8_t *image, size_t image_len,
    uint8_t *head, size_t head_len,
    uint8_t *cards, size_t cards_len,
    uint8_t *extents, size_t extents_len,
    uint8_t *groups, size_t groups_len,
    uint8_t *used, size_t used_len,
    uint8_t *retired, size_t retired_len,
    uint64_t object, uint64_t size,
    uint64_t seconds, uint64_t nanoseconds);

/*
 * Lets the retired blocks go: those that files have given up, but that stay used until this call. They are free afterwards.
 * Count: how many they were. Refused, in this order, by 1, 2.
 */
struct sangueko_answer sangueko_settle(
    const uint8_t *image, size_t image_len,
    const uint8_t *head, size_t head_len,
    const uint8_t *cards, size_t cards_len,
    const uint8_t *extents, size_t extents_len,
    const uint8_t *groups, size_t groups_len,
    uint8_t *used, size_t used_len,
    uint8_t *retired, size_t retired_len);

/*
 * Tells how full the store is; changes nothing.
 * Count, 0 to 1,000: of the blocks that are not reserved the used ones, retired ones among them, times 1,000, divided by how many are not reserved,
 * rounded down; 0 where every block is reserved. Refused, in this order, by 1, 2.
 */
struct sangueko_answer sangueko_fill(
    const uint8_t *image, size_t image_len,
    const uint8_t *head, size_t head_len,
    const uint8_t *cards, size_t cards_len,
    const uint8_t *extents, size_t extents_len,
    const uint8_t *groups, size_t groups_len,
    const uint8_t *used, size_t used_len,
    const uint8_t *retired, size_t retired_len);

/*
 * Reads the file's bytes from `offset` on to the head of `out`: as many as it has room for, as there are before the file's end, and at most
 * SANGUEKO_MOST_TRANSFER. The rest of `out` stays as it is. What was never written reads as zeros. Every unit of 64 KiB that a byte of the answer lies
 * in is checked whole against its checksum before the first byte is handed out.
 * Count: the bytes read; 0 at or past the end, or where `out` is empty. Refused, in this order, by 1, 2, 3 (no such file), and unit by unit by 9 to 12.
 */
struct sangueko_answer sangueko_read(
    const uint8_t *image, size_t image_len,
    const uint8_t *head, size_t head_len,
    const uint8_t *cards, size_t cards_len,
    const uint8_t *extents, size_t extents_len,
    const uint8_t *groups, size_t groups_len,
    const uint8_t *used, size_t used_len,
    const uint8_t *retired, size_t retired_len,
    uint64_t object, uint64_t offset,
    uint8_t *out, size_t out_len);

/*
 * Makes the reads of a list in one call: `list` has up to SANGUEKO_MOST_RANGES ranges of SANGUEKO_RANGE_BYTES each, of one file or of several, in any
 * order, equal or overlapping ones too. `out` is cut into pieces that lie one after another in list order, each as long as its range. A piece becomes
 * what sangueko_read from the range's offset gives in a buffer of its length: so where the file ends before the range does, or it has more than
 * SANGUEKO_MOST_TRANSFER bytes, the rest of the piece stays as it is, and the next piece does not move up. What lies behind the last piece stays as it
 * is. The store is tested once for all of the reads, and every unit once, however many of them have bytes there; no byte is handed out before the last
 * unit is checked.
 * Count: the different units in which bytes of the answer lie, those that were never written too; the same unit number in two files is two units. 0 for
 * an empty list. How many bytes a piece got is not told: it follows from the file's size. Refused, in this order, by 1, 2, 17 (the list), and then
 * range by range as its read would be: by 3 (no such file, also for a length of 0), and unit by unit by 9 to 12.
 */
struct sangueko_answer sangueko_read_many(
    const uint8_t *image, size_t image_len,
    const uint8_t *head, size_t head_len,
    const uint8_t *cards, size_t cards_len,
    const uint8_t *extents, size_t extents_len,
    const uint8_t *groups, size_t groups_len,
    const uint8_t *used, size_t used_len,
    const uint8_t *retired, size_t retired_len,
    const uint8_t *list, size_t list_len,
    uint8_t *out, size_t out_len);

/*
 * Makes the writes of a list in one call, each as sangueko_write would: `list` has up to SANGUEKO_MOST_RANGES ranges of SANGUEKO_RANGE_BYTES each, of
 * one file or of several, in any order, equal or overlapping ones too. `bytes` is cut into pieces that lie one after another in list order, each as
 * long as its range, of at most SANGUEKO_MOST_TRANSFER bytes; together they are all of `bytes`. The writes are made in list order, and the later one
 * stands over the earlier; each of them retires the blocks whose place it takes, also those that an earlier one of the batch took. All have the one
 * time given, and set that of the last change alone.
 * Number and count: as is said above, the writes done and what stopped it. An empty piece is a write, and counts. 0 and 0 for an empty list. Refused,
 * in this order, by 1, 2, 18 (the list). Stopped by whatever a write would be refused by, 1 and 2 too, which are tried again before each of them: where
 * something has changed the buffers so that two places have the same block, a write over the one leaves a store that 2 refuses. Where no two places
 * have one, as in every store that these calls have made, the store is tested once for all of the writes.
 */
struct sangueko_answer sangueko_write_batch(
    uint8_t *image, size_t image_len,
    uint8_t *head, size_t head_len,
    uint8_t *cards, size_t cards_len,
    uint8_t *extents, size_t extents_len,
    uint8_t *groups, size_t groups_len,
    uint8_t *used, size_t used_len,
    uint8_t *retired, size_t retired_len,
    const uint8_t *list, size_t list_len,
    const uint8_t *bytes, size_t bytes_len,
    uint64_t seconds, uint64_t nanoseconds);

/*
 * Tells which of `units` units of the file, from unit `first` on, hold data: which have a checksum and begin before the file's end. `out` gets them as
 * stretches of SANGUEKO_STRETCH_BYTES each, one behind the other and ascending: each is all units with data that follow one another within the range,
 * whichever groups their checksums stand in. The rest of `out` stays as it is. A unit that is in no stretch reads as zeros, or is past the end; or it has
 * blocks but no checksum, which no list of calls leads to, and a read of it is refused by 9. No unit is read here: its bytes are not compared with its
 * checksum. The range may be any, as from 0 with 2^64 - 1 units for the whole file; what it costs depends on the file's groups, not on the range.
 * Count: the stretches. They are at most half of `units`, rounded up, and at most 128 for each group of the file: with SANGUEKO_STRETCH_BYTES for each of
 * these `out` is always long enough. Refused, in this order, by 1, 2, 3 (no such file), 19 (the range, or too little room for all stretches).
 */
struct sangueko_answer sangueko_data_stretches(
    const uint8_t *image, size_t image_len,
    const uint8_t *head, size_t head_len,
    const uint8_t *cards, size_t cards_len,
    const uint8_t *extents, size_t extents_len,
    const uint8_t *groups, size_t groups_len,
    const uint8_t *used, size_t used_len,
    const uint8_t *retired, size_t retired_len,
    uint64_t object, uint64_t first, uint64_t units,
    uint8_t *out, size_t out_len);

#ifdef __cplusplus
}
#endif

#endif
