/*
 * The library from C: a store of 8 blocks with 1 reserved, a file that is written and grown, where its new blocks lie, and each refusal that the calls
 * give; and one of 40 blocks, in which a file of one unit is written by both calls that write. A buffer that a call takes as `const`, and every buffer of a
 * call that is to be refused, stands in pages that cannot be written meanwhile: a write there ends the program. Every byte of the store is compared after
 * each change. Exits with 1 at any difference.
 */
#define _DEFAULT_SOURCE

#include "checksum.h"
#include "sangueko.h"

#include <stdio.h>
#include <stdlib.h>
#include <string.h>
#include <sys/mman.h>

#define BLOCKS 8
#define CARDS 2
#define EXTENTS 4
#define GROUPS 1

/* The seven buffers, in the order in which they are lent. */
enum { IMAGE, HEAD, CARD, EXTENT, GROUP, USED, RETIRED, BUFFERS };

static const size_t lengths[BUFFERS] = {
    BLOCKS * SANGUEKO_BLOCK_BYTES,
    SANGUEKO_HEAD_BYTES,
    CARDS * SANGUEKO_CARD_BYTES,
    EXTENTS * SANGUEKO_EXTENT_BYTES,
    GROUPS * SANGUEKO_GROUP_BYTES,
    SANGUEKO_MAP_BYTES(BLOCKS),
    SANGUEKO_MAP_BYTES(BLOCKS),
};

struct store {
    uint8_t *at[BUFFERS];
    size_t len[BUFFERS];
};

/* The buffers of a call, each as a pointer and its length. */
#define ONE(s, i) (s)->at[i], (s)->len[i]
#define LENT(s) ONE(s, 0), ONE(s, 1), ONE(s, 2), ONE(s, 3), ONE(s, 4), ONE(s, 5), ONE(s, 6)

static int differences;

#define EXPECT(what, holds)                             \
    do {                                                \
        if (!(holds)) {                                 \
            printf("%s: it is not so: %s\n", what, #holds); \
            differences++;                              \
        }                                               \
    } while (0)

/* Memory that starts and ends with a page. */
static uint8_t *pages(size_t len)
{
    void *at = mmap(NULL, len, PROT_READ | PROT_WRITE, MAP_PRIVATE | MAP_ANONYMOUS, -1, 0);
    if (at == MAP_FAILED) {
        perror("mmap");
        exit(2);
    }
    return at;
}

static void protect(void *at, size_t len, int access)
{
    if (mprotect(at, len, access) != 0) {
        perror("mprotect");
        exit(2);
    }
}

static void allow(struct store *s, int buffer, int access)
{
    protect(s->at[buffer], s->len[buffer], access);
}

static void close_all(struct store *s)
{
    for (int i = 0; i < BUFFERS; i++)
        allow(s, i, PROT_READ);
}

static void open_all(struct store *s)
{
    for (int i = 0; i < BUFFERS; i++)
        allow(s, i, PROT_READ | PROT_WRITE);
}

/* The buffers that a call may change are opened, and no other. */
static void open_for(struct store *s, const int *buffers, int n)
{
    close_all(s);
    for (int i = 0; i < n; i++)
        allow(s, buffers[i], PROT_READ | PROT_WRITE);
}

static const uint8_t uuid[SANGUEKO_UUID_BYTES] = { 1, 2, 3, 4, 5, 6, 7, 8, 9, 10, 11, 12, 13, 14, 15, 16 };

static struct sangueko_answer fresh(struct store *s, size_t uuid_len, uint64_t reserved)
{
    return sangueko_fresh(LENT(s), uuid, uuid_len, reserved);
}

static struct sangueko_answer enter(struct store *s, uint64_t object, uint64_t seconds, uint64_t nanoseconds)
{
    return sangueko_enter(LENT(s), object, seconds, nanoseconds);
}

/* The head of the output, 0x77 all over before the call. */
static uint8_t out[16];

static struct sangueko_answer read_at(struct store *s, uint64_t object, uint64_t offset, size_t len)
{
    memset(out, 0x77, sizeof out);
    return sangueko_read(LENT(s), object, offset, out, len);
}

struct range {
    uint64_t object, offset, length;
};

/* A list of ranges as bytes, in pages that cannot be written during the call. It has place for a range more than a list may have. */
#define LIST ((SANGUEKO_MOST_RANGES + 1) * SANGUEKO_RANGE_BYTES)
static uint8_t *list;

static void put_number(uint8_t *at, uint64_t number)
{
    for (int i = 0; i < 8; i++)
        at[i] = (uint8_t)(number >> 8 * i);
}

static void put_list(const struct range *ranges, size_t n)
{
    protect(list, LIST, PROT_READ | PROT_WRITE);
    for (size_t i = 0; i < n; i++) {
        uint8_t *at = list + i * SANGUEKO_RANGE_BYTES;
        put_number(at, ranges[i].object);
        put_number(at + 8, ranges[i].offset);
        put_number(at + 16, ranges[i].length);
    }
    protect(list, LIST, PROT_READ);
}

/* The reads of so many ranges, of whose list so many bytes are lent. */
static struct sangueko_answer read_list(struct store *s, const struct range *ranges, size_t n, size_t list_len, size_t len)
{
    put_list(ranges, n);
    memset(out, 0x77, sizeof out);
    return sangueko_read_many(LENT(s), list, list_len, out, len);
}

static struct sangueko_answer read_many(struct store *s, const struct range *ranges, size_t n)
{
    return read_list(s, ranges, n, n * SANGUEKO_RANGE_BYTES, sizeof out);
}

/* What is written, in pages that cannot be. One byte more than a write takes. */
#define BYTES (SANGUEKO_MOST_TRANSFER + 1)
static uint8_t *bytes;

static struct sangueko_answer write_at(struct store *s, uint64_t object, uint64_t offset, size_t len, uint64_t seconds, uint64_t nanoseconds)
{
    return sangueko_write(LENT(s), object, offset, bytes, len, seconds, nanoseconds);
}

static struct sangueko_answer archive_at(struct store *s, uint64_t object, uint64_t offset, size_t len, uint64_t seconds, uint64_t nanoseconds)
{
    return sangueko_write_archive(LENT(s), object, offset, bytes, len, seconds, nanoseconds);
}

/* The writes of so many ranges, of whose list and bytes so many are lent. */
static struct sangueko_answer write_list(struct store *s, const struct range *ranges, size_t n, size_t list_len, size_t len, uint64_t seconds)
{
    put_list(ranges, n);
    return sangueko_write_batch(LENT(s), list, list_len, bytes, len, seconds, 0);
}

/* The same with the whole list and the bytes that it wants. */
static struct sangueko_answer write_batch(struct store *s, const struct range *ranges, size_t n, uint64_t seconds)
{
    size_t len = 0;
    for (size_t i = 0; i < n; i++)
        len += ranges[i].length;
    return write_list(s, ranges, n, n * SANGUEKO_RANGE_BYTES, len, seconds);
}

struct stretch {
    uint64_t first, units;
};

/* The output of stretches, 0x77 all over before the call: there is place for three of them, and for some bytes more. */
static uint8_t pairs[3 * SANGUEKO_STRETCH_BYTES + 8];

static struct sangueko_answer stretches(struct store *s, uint64_t object, uint64_t first, uint64_t units, size_t len)
{
    memset(pairs, 0x77, sizeof pairs);
    return sangueko_data_stretches(LENT(s), object, first, units, pairs, len);
}

static struct sangueko_answer grow(struct store *s, uint64_t object, uint64_t size, uint64_t seconds, uint64_t nanoseconds)
{
    return sangueko_grow(LENT(s), object, size, seconds, nanoseconds);
}

static void accepted(const char *what, struct sangueko_answer answer, uint64_t count)
{
    if (answer.number != 0 || answer.count != count) {
        printf("%s: number %u count %llu, not 0 and %llu\n", what, (unsigned)answer.number, (unsigned long long)answer.count,
               (unsigned long long)count);
        differences++;
    }
}

/* A batch that stops after so many writes. */
static void stopped(const char *what, struct sangueko_answer answer, enum sangueko_refusal number, uint64_t count)
{
    if (answer.number != (uint32_t)number || answer.count != count) {
        printf("%s: number %u count %llu, not %d and %llu\n", what, (unsigned)answer.number, (unsigned long long)answer.count, (int)number,
               (unsigned long long)count);
        differences++;
    }
}

static void refused(const char *what, struct sangueko_answer answer, enum sangueko_refusal number)
{
    stopped(what, answer, number, 0);
}

static void keep(struct store *s, uint8_t *kept[BUFFERS])
{
    for (int i = 0; i < BUFFERS; i++)
        memcpy(kept[i], s->at[i], s->len[i]);
}

/* Whether every byte of the store is as it was kept. */
static void unchanged(const char *what, struct store *s, uint8_t *kept[BUFFERS])
{
    for (int i = 0; i < BUFFERS; i++)
        if (memcmp(kept[i], s->at[i], s->len[i]) != 0) {
            printf("%s: buffer %d has changed\n", what, i);
            differences++;
        }
}

static int all(const uint8_t *at, size_t len, uint8_t byte)
{
    for (size_t i = 0; i < len; i++)
        if (at[i] != byte)
            return 0;
    return 1;
}

/* Refused, and no byte handed out. */
static void unread(const char *what, struct sangueko_answer answer, enum sangueko_refusal number)
{
    refused(what, answer, number);
    EXPECT(what, all(out, sizeof out, 0x77));
}

/* Accepted with these stretches, and what is behind them as it was. */
static void listed(const char *what, struct sangueko_answer answer, const struct stretch *expected, size_t n)
{
    uint8_t bytes[sizeof pairs];
    memset(bytes, 0x77, sizeof bytes);
    for (size_t i = 0; i < n; i++) {
        put_number(bytes + i * SANGUEKO_STRETCH_BYTES, expected[i].first);
        put_number(bytes + i * SANGUEKO_STRETCH_BYTES + 8, expected[i].units);
    }
    accepted(what, answer, n);
    EXPECT(what, memcmp(pairs, bytes, sizeof pairs) == 0);
}

/* Refused, and no byte of the output changed. */
static void unlisted(const char *what, struct sangueko_answer answer, enum sangueko_refusal number)
{
    refused(what, answer, number);
    EXPECT(what, all(pairs, sizeof pairs, 0x77));
}

/* Lists of reads that are refused by 17 although there is no file 9, and by 3 where they are lists. */
static void bad_lists(struct store *s)
{
    const size_t whole = SANGUEKO_RANGE_BYTES;
    static const struct range nothing[SANGUEKO_MOST_RANGES + 1]; /* of file 0, which there is not */
    unread("many reads, half a range", read_list(s, nothing, 2, whole + 1, sizeof out), SANGUEKO_BAD_READS);
    unread("many reads, one too many", read_many(s, nothing, SANGUEKO_MOST_RANGES + 1), SANGUEKO_BAD_READS);
    unread("many reads, as many as may be", read_many(s, nothing, SANGUEKO_MOST_RANGES), SANGUEKO_NO_CARD);

    const struct range more[] = { { 9, 0, 15 }, { 9, 0, 2 } };
    unread("many reads, too little room", read_many(s, more, 2), SANGUEKO_BAD_READS);
    unread("many reads, just room enough", read_list(s, more + 1, 1, whole, 2), SANGUEKO_NO_CARD);
    /* lengths whose sum is 2^64 + 16: in 64 bits it would fit */
    const struct range wide[] = { { 9, 0, UINT64_MAX }, { 9, 0, 17 } };
    unread("many reads, a sum past 64 bits", read_many(s, wide, 2), SANGUEKO_BAD_READS);
}

/* Batches that are refused by 18 although there is no file 9, and those that are lists and stop before their first write. */
static void bad_batches(struct store *s)
{
    const size_t whole = SANGUEKO_RANGE_BYTES;
    static const struct range nothing[SANGUEKO_MOST_RANGES + 1]; /* of file 0, which there is not */
    refused("batch, half a range", write_list(s, nothing, 2, whole + 1, 0, 0), SANGUEKO_BAD_BATCH);
    refused("batch, one too many", write_batch(s, nothing, SANGUEKO_MOST_RANGES + 1, 0), SANGUEKO_BAD_BATCH);
    stopped("batch, as many as may be", write_batch(s, nothing, SANGUEKO_MOST_RANGES, 0), SANGUEKO_NO_CARD, 0);

    const struct range two[] = { { 9, 0, 15 }, { 9, 0, 2 } };
    refused("batch, a byte too few", write_list(s, two, 2, 2 * whole, 16, 0), SANGUEKO_BAD_BATCH);
    refused("batch, a byte too many", write_list(s, two, 2, 2 * whole, 18, 0), SANGUEKO_BAD_BATCH);
    stopped("batch, just the bytes", write_list(s, two, 2, 2 * whole, 17, 0), SANGUEKO_NO_CARD, 0);
    refused("no batch, but a byte", write_list(s, NULL, 0, 0, 1, 0), SANGUEKO_BAD_BATCH);
    /* lengths whose sum is 2^64 + 2: in 64 bits it would be the bytes */
    const struct range wide[] = { { 7, 0, 5 }, { 7, 0, UINT64_MAX - 2 } };
    refused("batch, a sum past 64 bits", write_list(s, wide, 2, 2 * whole, 2, 0), SANGUEKO_BAD_BATCH);
    const struct range more[] = { { 9, 0, SANGUEKO_MOST_TRANSFER + 1 } }, most[] = { { 9, 0, SANGUEKO_MOST_TRANSFER } };
    refused("batch, a write too long", write_batch(s, more, 1, 0), SANGUEKO_BAD_BATCH);
    stopped("batch, as long as may be", write_batch(s, most, 1, 0), SANGUEKO_NO_CARD, 0);
}

/* Refused calls on a store, which all of them leave as it was. */
static void refusals(struct store *s, uint8_t *kept[BUFFERS])
{
    const uint64_t most = INT64_MAX;
    keep(s, kept);
    close_all(s);

    for (int i = 0; i < BUFFERS; i++) {
        s->len[i]--;
        refused("fresh, a buffer one byte short", fresh(s, sizeof uuid, 1), SANGUEKO_WRONG_LENGTH);
        refused("enter, a buffer one byte short", enter(s, 8, 0, 0), SANGUEKO_WRONG_LENGTH);
        refused("settle, a buffer one byte short", sangueko_settle(LENT(s)), SANGUEKO_WRONG_LENGTH);
        refused("fill, a buffer one byte short", sangueko_fill(LENT(s)), SANGUEKO_WRONG_LENGTH);
        refused("write, a buffer one byte short", write_at(s, 7, 0, 1, 0, 0), SANGUEKO_WRONG_LENGTH);
        refused("archive, a buffer one byte short", archive_at(s, 7, 0, 1, 0, 0), SANGUEKO_WRONG_LENGTH);
        refused("grow, a buffer one byte short", grow(s, 7, 1, 0, 0), SANGUEKO_WRONG_LENGTH);
        refused("batch, a buffer one byte short", write_list(s, NULL, 0, 1, 0, 0), SANGUEKO_WRONG_LENGTH);
        unread("read, a buffer one byte short", read_at(s, 7, 0, sizeof out), SANGUEKO_WRONG_LENGTH);
        unread("many reads, a buffer one byte short", read_list(s, NULL, 0, 1, sizeof out), SANGUEKO_WRONG_LENGTH);
        unlisted("stretches, a buffer one byte short", stretches(s, 9, UINT64_MAX, 1, 0), SANGUEKO_WRONG_LENGTH);
        s->len[i]++;
    }
    refused("fresh, a short uuid", fresh(s, sizeof uuid - 1, 1), SANGUEKO_WRONG_LENGTH);
    refused("fresh, more reserved than blocks", fresh(s, sizeof uuid, BLOCKS + 1), SANGUEKO_WRONG_LENGTH);

    /* 4 before 7 before 8: the book of cards is full here */
    refused("enter, a file that there is", enter(s, 7, most + 1, 1000000000), SANGUEKO_CARD_EXISTS);
    refused("enter, too many seconds", enter(s, 9, most + 1, 0), SANGUEKO_BAD_TIME);
    refused("enter, too many nanoseconds", enter(s, 9, most, 1000000000), SANGUEKO_BAD_TIME);
    refused("enter, no place", enter(s, 9, most, 999999999), SANGUEKO_NO_CARD_PLACE);

    /* 3 before 5 before 7 */
    refused("write, no such file", write_at(s, 9, most, 1, most + 1, 0), SANGUEKO_NO_CARD);
    refused("write of nothing, no such file", write_at(s, 9, 0, 0, 0, 0), SANGUEKO_NO_CARD);
    refused("write, past the limit", write_at(s, 7, most - 1, 2, most + 1, 0), SANGUEKO_PAST_LIMIT);
    refused("write, too many seconds", write_at(s, 7, most - 1, 1, most + 1, 0), SANGUEKO_BAD_TIME);
    refused("write, too many nanoseconds", write_at(s, 7, 0, 1, most, 1000000000), SANGUEKO_BAD_TIME);
    refused("write, too few blocks", write_at(s, 7, 0, 7 * SANGUEKO_BLOCK_BYTES + 1, most, 999999999), SANGUEKO_NO_SPACE);
    refused("archive, no such file", archive_at(s, 9, most, 1, most + 1, 0), SANGUEKO_NO_CARD);
    refused("archive of nothing, no such file", archive_at(s, 9, 0, 0, 0, 0), SANGUEKO_NO_CARD);
    refused("archive, past the limit", archive_at(s, 7, most - 1, 2, most + 1, 0), SANGUEKO_PAST_LIMIT);
    refused("archive, too many seconds", archive_at(s, 7, most - 1, 1, most + 1, 0), SANGUEKO_BAD_TIME);
    refused("archive, too many nanoseconds", archive_at(s, 7, 0, 1, most, 1000000000), SANGUEKO_BAD_TIME);
    refused("archive, too few blocks", archive_at(s, 7, 0, 7 * SANGUEKO_BLOCK_BYTES + 1, most, 999999999), SANGUEKO_NO_SPACE);
    refused("grow, no such file", grow(s, 9, most + 1, most + 1, 0), SANGUEKO_NO_CARD);
    refused("grow, past the limit", grow(s, 7, most + 1, most + 1, 0), SANGUEKO_PAST_LIMIT);
    refused("grow, too many seconds", grow(s, 7, most, most + 1, 0), SANGUEKO_BAD_TIME);
    refused("grow, too many nanoseconds", grow(s, 7, 1, most, 1000000000), SANGUEKO_BAD_TIME);

    unread("read, no such file", read_at(s, 9, 0, sizeof out), SANGUEKO_NO_CARD);

    /* 3 before 19 */
    unlisted("stretches, no such file", stretches(s, 9, UINT64_MAX, 1, 0), SANGUEKO_NO_CARD);
    unlisted("stretches of nothing, no such file", stretches(s, 9, 0, 0, sizeof pairs), SANGUEKO_NO_CARD);
    unlisted("stretches, a sum past 64 bits", stretches(s, 7, UINT64_MAX, 1, sizeof pairs), SANGUEKO_BAD_RANGE);
    listed("stretches of an empty file", stretches(s, 7, 0, UINT64_MAX, 0), NULL, 0);

    bad_lists(s);
    bad_batches(s);
    /* not refused, but nothing is done: the first write stops it, or there are only empty ones, which may have any time */
    stopped("batch, past the limit", write_batch(s, (const struct range[]){ { 7, most, 1 }, { 7, 0, 1 } }, 2, 0), SANGUEKO_PAST_LIMIT, 0);
    stopped("batch, a bad time", write_batch(s, (const struct range[]){ { 7, 0, 1 } }, 1, most + 1), SANGUEKO_BAD_TIME, 0);
    stopped("batch, a bad time later", write_batch(s, (const struct range[]){ { 7, 0, 0 }, { 7, 0, 1 } }, 2, most + 1), SANGUEKO_BAD_TIME, 1);
    accepted("batch of nothing", write_batch(s, (const struct range[]){ { 7, UINT64_MAX, 0 }, { 5, 0, 0 } }, 2, most + 1), 2);
    accepted("no batch", write_batch(s, NULL, 0, most + 1), 0);
    open_all(s);
    unchanged("refused calls", s, kept);
}

/* A store with a bit that breaks a rule: a retired block that is not used. */
static void broken(struct store *s, uint8_t *kept[BUFFERS])
{
    s->at[RETIRED][0] |= 0x80;
    keep(s, kept);
    close_all(s);
    refused("enter, a broken rule", enter(s, 7, 0, 0), SANGUEKO_BROKEN_RULE);
    refused("settle, a broken rule", sangueko_settle(LENT(s)), SANGUEKO_BROKEN_RULE);
    refused("fill, a broken rule", sangueko_fill(LENT(s)), SANGUEKO_BROKEN_RULE);
    refused("write, a broken rule", write_at(s, 9, 0, 0, 0, 0), SANGUEKO_BROKEN_RULE);
    refused("archive, a broken rule", archive_at(s, 9, 0, 0, 0, 0), SANGUEKO_BROKEN_RULE);
    refused("grow, a broken rule", grow(s, 9, 0, 0, 0), SANGUEKO_BROKEN_RULE);
    refused("batch, a broken rule", write_list(s, NULL, 0, 1, 0, 0), SANGUEKO_BROKEN_RULE);
    refused("batch of one, a broken rule", write_batch(s, (const struct range[]){ { 7, 0, 1 } }, 1, 0), SANGUEKO_BROKEN_RULE);
    refused("read, a broken rule", read_at(s, 7, 0, sizeof out), SANGUEKO_BROKEN_RULE);
    unread("many reads, a broken rule", read_list(s, NULL, 0, 1, sizeof out), SANGUEKO_BROKEN_RULE);
    unlisted("stretches, a broken rule", stretches(s, 9, UINT64_MAX, 1, 0), SANGUEKO_BROKEN_RULE);
    open_all(s);
    unchanged("a broken rule", s, kept);
    s->at[RETIRED][0] &= 0x7f;
}

/* Many reads of file 5, of 20 bytes that were never written, and of file 7, which is empty. */
static void many_reads_of_zeros(struct store *s)
{
    accepted("no reads", read_many(s, NULL, 0), 0);
    /* pieces of 3, 4, 0 and 5 bytes: 3 are read into the second, which reaches past the end, and none into the last */
    const struct range ranges[] = { { 5, 8, 3 }, { 5, 17, 4 }, { 5, 0, 0 }, { 5, 20, 5 } };
    accepted("many reads", read_many(s, ranges, 4), 1);
    EXPECT("many reads", all(out, 6, 0) && all(out + 6, 10, 0x77));
    accepted("many reads that touch nothing", read_many(s, (const struct range[]){ { 5, UINT64_MAX, 8 }, { 7, 0, 8 } }, 2), 0);
    EXPECT("many reads that touch nothing", all(out, sizeof out, 0x77));

    /* the last of them refused: nothing of the first is handed out */
    unread("many reads, no such file", read_many(s, (const struct range[]){ { 5, 8, 3 }, { 9, 0, 1 } }, 2), SANGUEKO_NO_CARD);
    unread("many reads, nothing of no file", read_many(s, (const struct range[]){ { 5, 8, 3 }, { 9, 0, 0 } }, 2), SANGUEKO_NO_CARD);
}

/* File 5, with 20 bytes that were never written: reads of them, and a block without a checksum. */
static void reads(struct store *s, uint8_t *kept[BUFFERS])
{
    open_all(s);
    s->at[CARD][15] = 40; /* 63 bits of size from byte 8 on */
    keep(s, kept);
    close_all(s);
    accepted("read", read_at(s, 5, 8, sizeof out), 12);
    EXPECT("read", all(out, 12, 0) && all(out + 12, 4, 0x77));
    accepted("read, little room", read_at(s, 5, 8, 3), 3);
    EXPECT("read, little room", all(out, 3, 0) && all(out + 3, 13, 0x77));
    accepted("read, no room", read_at(s, 5, 8, 0), 0);
    accepted("read at the end", read_at(s, 5, 20, sizeof out), 0);
    accepted("read far past the end", read_at(s, 5, UINT64_MAX, sizeof out), 0);
    EXPECT("read far past the end", all(out, sizeof out, 0x77));
    many_reads_of_zeros(s);
    open_all(s);
    unchanged("reads", s, kept);

    /* 65,536 bytes more, and 4 of file 7: a read that lies in two units, one in the first of them again, and one in the other file's first */
    uint8_t *seven = s->at[CARD] + SANGUEKO_CARD_BYTES;
    s->at[CARD][13] = 2;
    seven[15] = 8;
    close_all(s);
    accepted("many reads of three units", read_many(s, (const struct range[]){ { 5, 65530, 8 }, { 5, 0, 4 }, { 7, 0, 4 } }, 3), 3);
    EXPECT("many reads of three units", all(out, sizeof out, 0));
    open_all(s);
    s->at[CARD][13] = seven[15] = 0;

    /* block 3 mapped, and no checksum for its unit */
    static const uint8_t extent[SANGUEKO_EXTENT_BYTES] = { [7] = 5, [8] = 3, [17] = 3, [25] = 1 };
    memcpy(s->at[EXTENT], extent, sizeof extent);
    s->at[HEAD][25] = 0x10; /* 20 bits of the number of extents */
    s->at[USED][0] |= 8;
    close_all(s);
    unread("read, no checksum", read_at(s, 5, 8, sizeof out), SANGUEKO_NO_CHECKSUM);
    /* file 7 is empty: its read hands out nothing, and the one behind it is refused */
    unread("many reads, no checksum", read_many(s, (const struct range[]){ { 7, 0, 4 }, { 5, 8, 4 }, { 9, 0, 1 } }, 3), SANGUEKO_NO_CHECKSUM);
    open_all(s);
    memset(s->at[EXTENT], 0, sizeof extent);
    s->at[HEAD][25] = 0;
    s->at[USED][0] &= 0xf7;
    s->at[CARD][15] = 0;
}

/* A field of so many bits, most significant first, from a bit on. */
static void put_bits(uint8_t *at, unsigned from, unsigned width, uint64_t value)
{
    for (unsigned i = 0; i < width; i++) {
        unsigned bit = from + i;
        at[bit / 8] &= (uint8_t)~(0x80 >> bit % 8);
        if (value >> (width - 1 - i) & 1)
            at[bit / 8] |= (uint8_t)(0x80 >> bit % 8);
    }
}

static uint64_t get_bits(const uint8_t *at, unsigned from, unsigned width)
{
    uint64_t value = 0;
    for (unsigned bit = from; bit < from + width; bit++)
        value = value << 1 | (at[bit / 8] >> (7 - bit % 8) & 1);
    return value;
}

/* The fields of a card behind those of the file's size and blocks: the first bit and how many. */
#define CHANGED_SECONDS 162, 63
#define CHANGED_NANOSECONDS 225, 30
#define CREATED_SECONDS 255, 63
#define CREATED_NANOSECONDS 318, 30
#define SPARE_FROM 348

/* The records of file 7 as they are to be: its card is the second of two, and says when the file was created as it was kept. */
static void expect_card(uint8_t *kept[BUFFERS], uint64_t size, uint64_t blocks, uint64_t seconds, uint64_t nanoseconds)
{
    uint8_t *card = kept[CARD] + SANGUEKO_CARD_BYTES;
    put_bits(card, 64, 63, size);
    put_bits(card, 127, 35, blocks);
    put_bits(card, CHANGED_SECONDS, seconds);
    put_bits(card, CHANGED_NANOSECONDS, nanoseconds);
}

struct times {
    uint64_t created[2], changed[2];
};

/* Seconds and nanoseconds on the card of file 7. */
static void expect_times(const char *what, const struct store *s, struct times times)
{
    const uint8_t *card = s->at[CARD] + SANGUEKO_CARD_BYTES;
    EXPECT(what, get_bits(card, CREATED_SECONDS) == times.created[0]);
    EXPECT(what, get_bits(card, CREATED_NANOSECONDS) == times.created[1]);
    EXPECT(what, get_bits(card, CHANGED_SECONDS) == times.changed[0]);
    EXPECT(what, get_bits(card, CHANGED_NANOSECONDS) == times.changed[1]);
}

/* A store that is refused by 2, or not at all, for what a card says. */
static void card_tried(const char *what, struct store *s, uint8_t *kept[BUFFERS], int is_refused)
{
    keep(s, kept);
    close_all(s);
    struct sangueko_answer fill = sangueko_fill(LENT(s)), write = write_at(s, 7, 0, 0, 0, 0);
    EXPECT(what, fill.number == (is_refused ? SANGUEKO_BROKEN_RULE : 0));
    EXPECT(what, write.number == fill.number);
    open_all(s);
    unchanged(what, s, kept);
}

/* What refusal 2 asks of the time of the creation, and of each bit behind it. */
static void cards(struct store *s, uint8_t *kept[BUFFERS])
{
    open_all(s);
    uint8_t *card = s->at[CARD] + SANGUEKO_CARD_BYTES;
    put_bits(card, CREATED_NANOSECONDS, 999999999);
    card_tried("created, the most nanoseconds", s, kept, 0);
    put_bits(card, CREATED_NANOSECONDS, 1000000000);
    card_tried("created, too many nanoseconds", s, kept, 1);
    put_bits(card, CREATED_NANOSECONDS, 6);
    put_bits(card, CREATED_SECONDS, INT64_MAX);
    card_tried("created, the most seconds", s, kept, 0);
    put_bits(card, CREATED_SECONDS, 5);
    for (unsigned bit = SPARE_FROM; bit < 8 * SANGUEKO_CARD_BYTES; bit++) {
        put_bits(card, bit, 1, 1);
        card_tried("a spare bit", s, kept, 1);
        put_bits(card, bit, 1, 0);
    }
}

struct run {
    uint8_t logical, physical, count;
};

static void expect_extents(uint8_t *kept[BUFFERS], const struct run *runs, uint8_t n)
{
    memset(kept[EXTENT], 0, lengths[EXTENT]);
    for (uint8_t i = 0; i < n; i++) {
        uint8_t *extent = kept[EXTENT] + i * SANGUEKO_EXTENT_BYTES;
        extent[7] = 7; /* the file, most significant byte first */
        extent[8] = 3;
        extent[16] = runs[i].logical;
        extent[17] = runs[i].physical; /* least significant byte first */
        extent[25] = runs[i].count;
    }
    put_bits(kept[HEAD], 184, 20, n);
}

/* Its one group, with a checksum for unit 0, whose first `len` bytes are the file. */
static void expect_group(uint8_t *kept[BUFFERS], const uint8_t *file, uint32_t len)
{
    uint8_t *group = kept[GROUP];
    uint32_t crc = unit_checksum(uuid, 7, 0, file, len);
    memset(group, 0, lengths[GROUP]);
    group[7] = 7;
    group[8] = 4;
    group[17] = 1;
    for (int i = 0; i < 4; i++)
        group[49 + i] = (uint8_t)(crc >> 8 * i);
    put_bits(kept[HEAD], 204, 20, 1);
}

/* A block of the image as it is to be. */
static void expect_block(uint8_t *kept[BUFFERS], unsigned block, const uint8_t *file, unsigned logical)
{
    memcpy(kept[IMAGE] + block * SANGUEKO_BLOCK_BYTES, file + logical * SANGUEKO_BLOCK_BYTES, SANGUEKO_BLOCK_BYTES);
}

/* The file, read whole in pieces of the output, is these bytes. */
static void reads_as(const char *what, struct store *s, const uint8_t *file, size_t len)
{
    for (size_t at = 0; at < len; at += sizeof out) {
        size_t n = len - at < sizeof out ? len - at : sizeof out;
        accepted(what, read_at(s, 7, at, sizeof out), n);
        EXPECT(what, memcmp(out, file + at, n) == 0 && all(out + n, sizeof out - n, 0x77));
    }
}

/* Ranges of file 7, of 20,000 bytes, out of order, overlapping and equal: their pieces lie in list order. */
static void reads_in_pieces(const char *what, struct store *s, const uint8_t *file)
{
    const struct range ranges[] = { { 7, 19998, 5 }, { 5, 0, 1 }, { 7, 4094, 4 }, { 7, 4095, 2 }, { 7, 4094, 4 } };
    accepted(what, read_many(s, ranges, 5), 1);
    EXPECT(what, memcmp(out, file + 19998, 2) == 0 && all(out + 2, 4, 0x77));
    EXPECT(what, memcmp(out + 6, file + 4094, 4) == 0 && memcmp(out + 10, file + 4095, 2) == 0);
    EXPECT(what, memcmp(out + 12, file + 4094, 4) == 0);
}

/* A write of a byte and a grow of file 7, of 20,000 bytes, that are both refused, and change nothing. */
static void both_refused(const char *what, struct store *s, uint8_t *kept[BUFFERS], enum sangueko_refusal number)
{
    keep(s, kept);
    close_all(s);
    refused(what, write_at(s, 7, 1, 1, 0, 0), number);
    refused(what, grow(s, 7, 20001, 0, 0), number);
    open_all(s);
    unchanged(what, s, kept);
}

/* The same of a unit that is damaged, and a write of the call for archives too; no read gets past it: neither one alone nor the second of three, before
 * the third is tried. */
static void damaged(const char *what, struct store *s, uint8_t *kept[BUFFERS], enum sangueko_refusal number)
{
    both_refused(what, s, kept, number);
    close_all(s);
    refused(what, archive_at(s, 7, 1, 1, 0, 0), number);
    unread(what, read_at(s, 7, 0, 1), number);
    unread(what, read_many(s, (const struct range[]){ { 5, 0, 1 }, { 7, 0, 1 }, { 9, 0, 1 } }, 3), number);
    open_all(s);
}

/* File 7 written and grown as in document 01's program `layout`, and the refusals that its records bring about. */
static void changes(struct store *s, uint8_t *kept[BUFFERS])
{
    static uint8_t file[5 * SANGUEKO_BLOCK_BYTES]; /* zeros past its end */
    open_all(s);
    keep(s, kept);
    expect_times("entered", s, (struct times){ .created = { 5, 6 }, .changed = { 5, 6 } });

    accepted("write 9,000", write_at(s, 7, 0, 9000, 10, 20), 9000);
    memcpy(file, bytes, 9000);
    expect_card(kept, 9000, 3, 10, 20);
    expect_extents(kept, (const struct run[]){ { 0, 1, 3 } }, 1);
    expect_group(kept, file, 9000);
    for (unsigned i = 0; i < 3; i++)
        expect_block(kept, 1 + i, file, i);
    kept[USED][0] = 0x0f;
    unchanged("write 9,000", s, kept);
    expect_times("write 9,000", s, (struct times){ .created = { 5, 6 }, .changed = { 10, 20 } });
    reads_as("write 9,000", s, file, 9000);

    close_all(s);
    accepted("write of nothing", write_at(s, 7, UINT64_MAX, 0, UINT64_MAX, UINT64_MAX), 0);
    accepted("archive of nothing", archive_at(s, 7, UINT64_MAX, 0, UINT64_MAX, UINT64_MAX), 0);
    accepted("grow to the same size", grow(s, 7, 9000, UINT64_MAX, UINT64_MAX), 0);
    refused("grow to less", grow(s, 7, 8999, UINT64_MAX, 0), SANGUEKO_BELOW_SIZE);
    open_all(s);
    unchanged("calls that change nothing", s, kept);

    /* block 0 of the file stays where it is; the last is not full, and does not */
    accepted("write 10", write_at(s, 7, 5000, 10, 11, 21), 10);
    memcpy(file + 5000, bytes, 10);
    expect_card(kept, 9000, 3, 11, 21);
    expect_extents(kept, (const struct run[]){ { 0, 1, 1 }, { 1, 4, 2 } }, 2);
    expect_group(kept, file, 9000);
    expect_block(kept, 4, file, 1);
    expect_block(kept, 5, file, 2);
    kept[USED][0] = 0x3f;
    kept[RETIRED][0] = 0x0c;
    unchanged("write 10", s, kept);
    reads_as("write 10", s, file, 9000);

    close_all(s);
    refused("grow, too few blocks", grow(s, 7, 20000, 12, 22), SANGUEKO_NO_SPACE);
    refused("write, too few blocks", write_at(s, 7, 9000, 11000, 12, 22), SANGUEKO_NO_SPACE);
    open_all(s);
    unchanged("too few blocks", s, kept);

    accepted("settle", sangueko_settle(LENT(s)), 2);
    accepted("grow to 20,000", grow(s, 7, 20000, 12, 22), 0);
    expect_card(kept, 20000, 5, 12, 22);
    expect_extents(kept, (const struct run[]){ { 0, 1, 1 }, { 1, 4, 1 }, { 2, 2, 2 }, { 4, 6, 1 } }, 4);
    expect_group(kept, file, 20000);
    expect_block(kept, 2, file, 2);
    expect_block(kept, 3, file, 3);
    expect_block(kept, 6, file, 4);
    kept[USED][0] = 0x7f;
    kept[RETIRED][0] = 0x20;
    unchanged("grow to 20,000", s, kept);
    expect_times("grow to 20,000", s, (struct times){ .created = { 5, 6 }, .changed = { 12, 22 } });
    reads_as("grow to 20,000", s, file, 20000);
    reads_in_pieces("many reads", s, file);
    accepted("fill, six of seven", sangueko_fill(LENT(s)), 857);

    close_all(s);
    refused("write, no place for a group", write_at(s, 5, 0, 1, 0, 0), SANGUEKO_NO_GROUP_PLACE);
    refused("archive, no place for a group", archive_at(s, 5, 0, 1, 0, 0), SANGUEKO_NO_GROUP_PLACE);
    open_all(s);
    accepted("settle", sangueko_settle(LENT(s)), 1);
    kept[USED][0] = 0x5f;
    kept[RETIRED][0] = 0;
    close_all(s);
    refused("write, no place for an extent", write_at(s, 7, 3 * SANGUEKO_BLOCK_BYTES, 1, 0, 0), SANGUEKO_NO_EXTENT_PLACE);
    /* of the four runs that a write keeps, this call keeps none: it wants five blocks, and two are free */
    refused("archive, four runs", archive_at(s, 7, 3 * SANGUEKO_BLOCK_BYTES, 1, 0, 0), SANGUEKO_NO_SPACE);
    open_all(s);
    unchanged("no places", s, kept);

    /* a count of no blocks */
    uint8_t *card = s->at[CARD] + SANGUEKO_CARD_BYTES;
    put_bits(card, 127, 35, 0);
    both_refused("a wrong count", s, kept, SANGUEKO_COUNT_DISAGREES);
    reads_in_pieces("many reads, a wrong count", s, file);
    put_bits(card, 127, 35, 5);

    /* a byte of the file, and one past its end in its last block */
    s->at[IMAGE][4 * SANGUEKO_BLOCK_BYTES] ^= 1;
    damaged("a changed byte", s, kept, SANGUEKO_CHECKSUM_DIFFERS);
    s->at[IMAGE][6 * SANGUEKO_BLOCK_BYTES + 20000 % SANGUEKO_BLOCK_BYTES] ^= 1;
    damaged("a byte past the end", s, kept, SANGUEKO_NONZERO_PAST_END);

    /* its last block not mapped, and then no checksum */
    memset(s->at[EXTENT] + 3 * SANGUEKO_EXTENT_BYTES, 0, SANGUEKO_EXTENT_BYTES);
    put_bits(s->at[HEAD], 184, 20, 3);
    damaged("a block that is not there", s, kept, SANGUEKO_NOT_BACKED);
    memset(s->at[GROUP] + 17, 0, SANGUEKO_GROUP_BYTES - 17);
    damaged("no checksum", s, kept, SANGUEKO_NO_CHECKSUM);
}

/* A fresh store again: batches that do all of their writes, that stop, and that find a block at two places. */
static void batches(struct store *s, uint8_t *kept[BUFFERS])
{
    static uint8_t file[3 * SANGUEKO_BLOCK_BYTES]; /* zeros past its end */
    open_all(s);
    accepted("fresh again", fresh(s, sizeof uuid, 1), 0);
    accepted("enter 7 again", enter(s, 7, 8, 9), 0);
    accepted("enter 5 again", enter(s, 5, 0, 0), 0);
    keep(s, kept);

    /* two writes, of which the second retires two blocks of the first */
    accepted("batch", write_batch(s, (const struct range[]){ { 7, 0, 9000 }, { 7, 5000, 10 } }, 2, 10), 2);
    memcpy(file, bytes, 9000);
    for (unsigned i = 0; i < 3; i++)
        expect_block(kept, 1 + i, file, i);
    memcpy(file + 5000, bytes + 9000, 10);
    expect_card(kept, 9000, 3, 10, 0);
    expect_extents(kept, (const struct run[]){ { 0, 1, 1 }, { 1, 4, 2 } }, 2);
    expect_group(kept, file, 9000);
    expect_block(kept, 4, file, 1);
    expect_block(kept, 5, file, 2);
    kept[USED][0] = 0x3f;
    kept[RETIRED][0] = 0x0c;
    unchanged("batch", s, kept);
    expect_times("batch", s, (struct times){ .created = { 8, 9 }, .changed = { 10, 0 } });
    reads_as("batch", s, file, 9000);

    /* the first write is done, the second is of no file, and the third is not made */
    stopped("batch that stops", write_batch(s, (const struct range[]){ { 7, 5000, 2 }, { 9, 0, 1 }, { 7, 0, 1 } }, 3, 11), SANGUEKO_NO_CARD, 1);
    memcpy(file + 5000, bytes, 2);
    expect_card(kept, 9000, 3, 11, 0);
    expect_extents(kept, (const struct run[]){ { 0, 1, 1 }, { 1, 6, 2 } }, 2);
    expect_group(kept, file, 9000);
    expect_block(kept, 6, file, 1);
    expect_block(kept, 7, file, 2);
    kept[USED][0] = 0xff;
    kept[RETIRED][0] = 0x3c;
    unchanged("batch that stops", s, kept);
    reads_as("batch that stops", s, file, 9000);

    /* no block is free: an empty write counts all the same */
    close_all(s);
    stopped("batch, too few blocks", write_batch(s, (const struct range[]){ { 7, 0, 1 }, { 5, 0, 0 } }, 2, 12), SANGUEKO_NO_SPACE, 0);
    stopped("batch, too few blocks later", write_batch(s, (const struct range[]){ { 5, 0, 0 }, { 7, 0, 1 } }, 2, 12), SANGUEKO_NO_SPACE, 1);
    open_all(s);
    unchanged("batch, too few blocks", s, kept);

    /* block 1 at the start of file 5, too, which no rule forbids; a write over it in file 7 retires it, and that is forbidden */
    accepted("settle behind batches", sangueko_settle(LENT(s)), 4);
    static const uint8_t extent[SANGUEKO_EXTENT_BYTES] = { [7] = 5, [8] = 3, [17] = 1, [25] = 1 };
    memmove(s->at[EXTENT] + sizeof extent, s->at[EXTENT], 2 * sizeof extent);
    memcpy(s->at[EXTENT], extent, sizeof extent);
    put_bits(s->at[HEAD], 184, 20, 3);
    put_bits(s->at[CARD], 64, 63, SANGUEKO_BLOCK_BYTES);
    put_bits(s->at[CARD], 127, 35, 1);
    const struct range shared[] = { { 7, 0, 9000 }, { 5, 0, 1 } };
    stopped("batch, a block at two places", write_batch(s, shared, 2, 13), SANGUEKO_BROKEN_RULE, 1);
    EXPECT("batch, a block at two places", s->at[USED][0] == 0xdf && s->at[RETIRED][0] == 0xc2);
    keep(s, kept);
    close_all(s);
    refused("batch behind it", write_batch(s, shared + 1, 1, 13), SANGUEKO_BROKEN_RULE);
    open_all(s);
    unchanged("batch behind it", s, kept);
}

/* The bits of the blocks from one to another, set in a map. */
static void set_blocks(uint8_t *map, unsigned first, unsigned last)
{
    for (unsigned block = first; block <= last; block++)
        map[block / 8] |= (uint8_t)(1 << block % 8);
}

/* A store put back to what was kept. */
static void put_back(struct store *s, uint8_t *kept[BUFFERS])
{
    for (int i = 0; i < BUFFERS; i++)
        memcpy(s->at[i], kept[i], s->len[i]);
}

/* Blocks of the larger store. The maps of 40 and of 8 blocks have the same length. */
#define WIDE 40

/* What a write into file 7, of one unit in blocks 1 to 16, has to leave: its new bytes in the file and on the card, and the unit's checksum. */
static void expect_write(uint8_t *kept[BUFFERS], uint8_t *file, size_t at, size_t len, uint64_t seconds)
{
    memcpy(file + at, bytes, len);
    expect_card(kept, SANGUEKO_UNIT_BYTES, 16, seconds, 0);
    expect_group(kept, file, SANGUEKO_UNIT_BYTES);
}

/* Logical blocks of the file in blocks of the image, one behind the other. */
static void expect_blocks(uint8_t *kept[BUFFERS], const uint8_t *file, struct run run)
{
    for (unsigned i = 0; i < run.count; i++)
        expect_block(kept, run.physical + i, file, run.logical + i);
    set_blocks(kept[USED], run.physical, run.physical + run.count - 1u);
}

/* A file of one unit, written by both calls: what each of them keeps of it, and that they may follow each other. */
static void archives(struct store *s, uint8_t *kept[BUFFERS])
{
    static uint8_t file[SANGUEKO_UNIT_BYTES], first[SANGUEKO_UNIT_BYTES];
    const size_t len = WIDE * SANGUEKO_BLOCK_BYTES, middle = 30000;
    struct store wide = *s;
    uint8_t *due[BUFFERS], *whole[BUFFERS];
    for (int i = 0; i < BUFFERS; i++) {
        due[i] = kept[i];
        whole[i] = pages(i == IMAGE ? len : lengths[i]);
    }
    open_all(s);
    wide.at[IMAGE] = pages(len);
    due[IMAGE] = pages(len);
    wide.len[IMAGE] = len;
    accepted("fresh for archives", fresh(&wide, sizeof uuid, 1), 0);
    accepted("enter 5 for archives", enter(&wide, 5, 0, 0), 0);
    accepted("enter 7 for archives", enter(&wide, 7, 8, 9), 0);
    keep(&wide, due);

    /* a whole unit of a new file */
    accepted("archive, a unit", archive_at(&wide, 7, 0, SANGUEKO_UNIT_BYTES, 10, 0), SANGUEKO_UNIT_BYTES);
    expect_write(due, file, 0, SANGUEKO_UNIT_BYTES, 10);
    expect_extents(due, (const struct run[]){ { 0, 1, 16 } }, 1);
    expect_blocks(due, file, (struct run){ 0, 1, 16 });
    unchanged("archive, a unit", &wide, due);
    keep(&wide, whole);
    memcpy(first, file, sizeof file);

    /* four bytes within block 7: kept, new and kept are three runs, of which a write keeps the two old ones, in a batch too */
    accepted("write in the middle", write_at(&wide, 7, middle, 4, 11, 0), 4);
    expect_write(due, file, middle, 4, 11);
    expect_extents(due, (const struct run[]){ { 0, 1, 7 }, { 7, 17, 1 }, { 8, 9, 8 } }, 3);
    expect_blocks(due, file, (struct run){ 7, 17, 1 });
    set_blocks(due[RETIRED], 8, 8);
    unchanged("write in the middle", &wide, due);
    reads_as("write in the middle", &wide, file, sizeof file);
    put_back(&wide, whole);
    accepted("batch in the middle", write_batch(&wide, (const struct range[]){ { 7, middle, 4 } }, 1, 11), 1);
    unchanged("batch in the middle", &wide, due);

    /* and the call for archives none: all 16 are new */
    put_back(&wide, whole);
    keep(&wide, due);
    accepted("archive in the middle", archive_at(&wide, 7, middle, 4, 11, 0), 4);
    expect_write(due, file, middle, 4, 11);
    expect_extents(due, (const struct run[]){ { 0, 17, 16 } }, 1);
    expect_blocks(due, file, (struct run){ 0, 17, 16 });
    set_blocks(due[RETIRED], 1, 16);
    unchanged("archive in the middle", &wide, due);
    expect_times("archive in the middle", &wide, (struct times){ .created = { 8, 9 }, .changed = { 11, 0 } });
    reads_as("archive in the middle", &wide, file, sizeof file);

    /* seven blocks are free: too few for this call, and one is enough for a write, which goes on where it left off */
    close_all(&wide);
    refused("archive, too few blocks for a unit", archive_at(&wide, 7, middle, 4, 12, 0), SANGUEKO_NO_SPACE);
    open_all(&wide);
    unchanged("archive, too few blocks for a unit", &wide, due);
    accepted("write behind it", write_at(&wide, 7, middle, 9, 12, 0), 9);
    expect_write(due, file, middle, 9, 12);
    expect_extents(due, (const struct run[]){ { 0, 17, 7 }, { 7, 33, 1 }, { 8, 25, 8 } }, 3);
    expect_blocks(due, file, (struct run){ 7, 33, 1 });
    set_blocks(due[RETIRED], 24, 24);
    unchanged("write behind it", &wide, due);

    /* block 0 of a unit in three pieces: four runs. A count of no blocks is found behind the free ones */
    accepted("settle behind both", sangueko_settle(LENT(&wide)), 17);
    memset(due[RETIRED], 0, lengths[RETIRED]);
    memset(due[USED], 0, lengths[USED]);
    set_blocks(due[USED], 0, 0);
    set_blocks(due[USED], 17, 23);
    set_blocks(due[USED], 25, 33);
    unchanged("settle behind both", &wide, due);
    uint8_t *card = wide.at[CARD] + SANGUEKO_CARD_BYTES;
    put_bits(card, 127, 35, 0);
    close_all(&wide);
    refused("archive, a wrong count", archive_at(&wide, 7, 0, 1, 13, 0), SANGUEKO_COUNT_DISAGREES);
    open_all(&wide);
    put_bits(card, 127, 35, 16);
    unchanged("archive, a wrong count", &wide, due);
    accepted("archive, four runs", archive_at(&wide, 7, 0, 1, 13, 0), 1);
    expect_write(due, file, 0, 1, 13);
    expect_extents(due, (const struct run[]){ { 0, 1, 16 } }, 1);
    expect_blocks(due, file, (struct run){ 0, 1, 16 });
    set_blocks(due[RETIRED], 17, 23);
    set_blocks(due[RETIRED], 25, 33);
    unchanged("archive, four runs", &wide, due);
    reads_as("archive, four runs", &wide, file, sizeof file);

    /* of a unit in one piece the first block, the last and the last two: two runs, and one kept */
    static const struct {
        size_t at, len;
        struct run new, old;
    } edges[] = { { 100, 4, { 0, 17, 1 }, { 1, 2, 15 } },
                  { SANGUEKO_UNIT_BYTES - 4, 4, { 15, 17, 1 }, { 0, 1, 15 } },
                  { SANGUEKO_UNIT_BYTES - 5000, 5000, { 14, 17, 2 }, { 0, 1, 14 } } };
    for (size_t i = 0; i < sizeof edges / sizeof edges[0]; i++) {
        struct run new = edges[i].new, old = edges[i].old;
        for (int archive = 0; archive < 2; archive++) {
            put_back(&wide, whole);
            keep(&wide, due);
            memcpy(file, first, sizeof file);
            struct sangueko_answer (*call)(struct store *, uint64_t, uint64_t, size_t, uint64_t, uint64_t) = archive ? archive_at : write_at;
            accepted("an edge", call(&wide, 7, edges[i].at, edges[i].len, 14, 0), edges[i].len);
            expect_write(due, file, edges[i].at, edges[i].len, 14);
            const struct run ascending[] = { new.logical < old.logical ? new : old, new.logical < old.logical ? old : new };
            expect_extents(due, ascending, 2);
            expect_blocks(due, file, new);
            set_blocks(due[RETIRED], 1u + new.logical, new.logical + new.count);
            unchanged("an edge", &wide, due);
        }
    }
    reads_as("the last edge", &wide, file, sizeof file);
}

/* Three new blocks: side by side where so many are free, though single ones are lower; and single ones where no three are. */
static void one_run(struct store *s, uint8_t *kept[BUFFERS])
{
    static uint8_t file[3 * SANGUEKO_BLOCK_BYTES];
    static const struct {
        uint8_t used, n;
        struct run runs[3];
    } maps[] = { { 0x15, 1, { { 0, 5, 3 } } }, { 0x55, 3, { { 0, 1, 1 }, { 1, 3, 1 }, { 2, 5, 1 } } } };
    const size_t len = 9000;
    memcpy(file, bytes, len);
    open_all(s);
    for (size_t i = 0; i < sizeof maps / sizeof maps[0]; i++) {
        accepted("fresh for runs", fresh(s, sizeof uuid, 1), 0);
        accepted("enter 5 for runs", enter(s, 5, 0, 0), 0);
        accepted("enter 7 for runs", enter(s, 7, 0, 0), 0);
        /* used blocks of no file, which no rule forbids */
        s->at[USED][0] = maps[i].used;
        keep(s, kept);
        accepted("write among used blocks", write_at(s, 7, 0, len, 10, 0), len);
        expect_card(kept, len, 3, 10, 0);
        expect_group(kept, file, (uint32_t)len);
        expect_extents(kept, maps[i].runs, maps[i].n);
        for (uint8_t n = 0; n < maps[i].n; n++)
            expect_blocks(kept, file, maps[i].runs[n]);
        unchanged("write among used blocks", s, kept);
    }
}

/* The books may have no place: any pointer that is not null will do. */
static void no_places(struct store *s)
{
    struct store bare = *s;
    for (int i = CARD; i <= GROUP; i++) {
        bare.at[i] = (uint8_t *)1;
        bare.len[i] = 0;
    }
    accepted("fresh, no places", fresh(&bare, sizeof uuid, 8), 0);
    accepted("fill, every block reserved", sangueko_fill(LENT(&bare)), 0);
    accepted("settle, no places", sangueko_settle(LENT(&bare)), 0);
    refused("enter, no places", enter(&bare, 7, 0, 0), SANGUEKO_NO_CARD_PLACE);
    refused("write, no places", write_at(&bare, 7, 0, 1, 0, 0), SANGUEKO_NO_CARD);
    refused("archive, no places", archive_at(&bare, 7, 0, 1, 0, 0), SANGUEKO_NO_CARD);
    refused("grow, no places", grow(&bare, 7, 1, 0, 0), SANGUEKO_NO_CARD);
    accepted("no batch, no places", write_batch(&bare, NULL, 0, 0), 0);
    stopped("batch, no places", write_batch(&bare, (const struct range[]){ { 7, 0, 1 } }, 1, 0), SANGUEKO_NO_CARD, 0);
    accepted("no reads, no places", read_many(&bare, NULL, 0), 0);
    unread("many reads, no places", read_many(&bare, (const struct range[]){ { 7, 0, 1 } }, 1), SANGUEKO_NO_CARD);
    unlisted("stretches, no places", stretches(&bare, 7, 0, 1, sizeof pairs), SANGUEKO_NO_CARD);
}

/* A group of a file, without checksums. */
static void put_group(uint8_t *group, uint8_t object, uint64_t number)
{
    memset(group, 0, SANGUEKO_GROUP_BYTES);
    group[7] = object;
    group[8] = 4;
    put_bits(group, 72, 64, number);
}

/* Checksums, of any value, for its units from one slot to another. */
static void put_slots(uint8_t *group, unsigned first, unsigned last)
{
    for (unsigned slot = first; slot <= last; slot++) {
        group[17 + slot / 8] |= (uint8_t)(1 << slot % 8);
        group[49 + 4 * slot] = 1;
    }
}

/*
 * Which units of file 7 hold data. Nothing is asked of the image, so that there need not be any: the book of groups has checksums of units 3, 254 to
 * 257 and 511 to 514 of it, which ends with the first byte of unit 514, and of units far behind its end; and one of file 5.
 */
static void holes(struct store *s, uint8_t *kept[BUFFERS])
{
    const uint64_t most = UINT64_MAX;
    struct store wide = *s;
    const size_t len = 6 * SANGUEKO_GROUP_BYTES;
    uint8_t *groups = wide.at[GROUP] = pages(len);
    wide.len[GROUP] = len;
    open_all(s);
    accepted("fresh for stretches", fresh(&wide, sizeof uuid, 1), 0);
    accepted("enter 5 for stretches", enter(&wide, 5, 0, 0), 0);
    accepted("enter 7 for stretches", enter(&wide, 7, 0, 0), 0);
    put_group(groups, 5, 0);
    put_slots(groups, 4, 4);
    for (unsigned i = 0; i < 3; i++)
        put_group(groups + (1 + i) * SANGUEKO_GROUP_BYTES, 7, i);
    put_slots(groups + 1 * SANGUEKO_GROUP_BYTES, 3, 3);
    put_slots(groups + 1 * SANGUEKO_GROUP_BYTES, 254, 255);
    put_slots(groups + 2 * SANGUEKO_GROUP_BYTES, 0, 1);
    put_slots(groups + 2 * SANGUEKO_GROUP_BYTES, 255, 255);
    put_slots(groups + 3 * SANGUEKO_GROUP_BYTES, 0, 5);
    /* the last unit that a number can have, and one more, which in 64 bits would be unit 0 */
    put_group(groups + 4 * SANGUEKO_GROUP_BYTES, 7, most / 256);
    put_slots(groups + 4 * SANGUEKO_GROUP_BYTES, 254, 255);
    put_group(groups + 5 * SANGUEKO_GROUP_BYTES, 7, most / 256 + 1);
    put_slots(groups + 5 * SANGUEKO_GROUP_BYTES, 0, 255);
    put_bits(wide.at[HEAD], 204, 20, 6);
    uint8_t *card = wide.at[CARD] + SANGUEKO_CARD_BYTES;
    put_bits(card, 64, 63, 514 * (uint64_t)SANGUEKO_UNIT_BYTES + 1);
    keep(s, kept);
    close_all(s);
    protect(groups, len, PROT_READ);

    const struct stretch all_of_it[] = { { 3, 1 }, { 254, 4 }, { 511, 4 } };
    listed("stretches of all", stretches(&wide, 7, 0, most, sizeof pairs), all_of_it, 3);
    listed("stretches of all, just room enough", stretches(&wide, 7, 0, 515, 48), all_of_it, 3);
    unlisted("stretches of all, a byte too few", stretches(&wide, 7, 0, 515, 47), SANGUEKO_BAD_RANGE);
    unlisted("stretches of all, no room", stretches(&wide, 7, 0, most, 0), SANGUEKO_BAD_RANGE);
    unlisted("stretches, a sum past 64 bits", stretches(&wide, 7, 1, most, sizeof pairs), SANGUEKO_BAD_RANGE);
    listed("stretches, the largest sum", stretches(&wide, 7, 512, most - 512, sizeof pairs), (const struct stretch[]){ { 512, 3 } }, 1);
    listed("stretches of file 5, which is empty", stretches(&wide, 5, 0, most, sizeof pairs), NULL, 0);

    /* the range's first unit and its last cut a stretch, within a group and where two meet */
    listed("stretches, cut in front", stretches(&wide, 7, 255, 257, sizeof pairs), (const struct stretch[]){ { 255, 3 }, { 511, 1 } }, 2);
    listed("stretches, cut behind", stretches(&wide, 7, 4, 252, sizeof pairs), (const struct stretch[]){ { 254, 2 } }, 1);
    listed("stretches, cut on both sides", stretches(&wide, 7, 512, 2, sizeof pairs), (const struct stretch[]){ { 512, 2 } }, 1);
    listed("stretches, one unit of four", stretches(&wide, 7, 256, 1, sizeof pairs), (const struct stretch[]){ { 256, 1 } }, 1);

    /* one stretch, and none */
    unlisted("one stretch, 15 bytes", stretches(&wide, 7, 0, 254, 15), SANGUEKO_BAD_RANGE);
    listed("one stretch, 16 bytes", stretches(&wide, 7, 0, 254, 16), all_of_it, 1);
    listed("no stretch, 15 bytes", stretches(&wide, 7, 4, 250, 15), NULL, 0);
    listed("no stretch, no room", stretches(&wide, 7, 258, 253, 0), NULL, 0);
    listed("no units", stretches(&wide, 7, 255, 0, sizeof pairs), NULL, 0);

    /* past the end there are checksums, and no units */
    listed("stretches past the end", stretches(&wide, 7, 515, most - 515, sizeof pairs), NULL, 0);
    listed("the last unit of all, past the end", stretches(&wide, 7, most - 1, 1, sizeof pairs), NULL, 0);
    listed("no units from the last number on", stretches(&wide, 7, most, 0, sizeof pairs), NULL, 0);
    unlisted("a unit from the last number on", stretches(&wide, 7, most, 1, sizeof pairs), SANGUEKO_BAD_RANGE);
    unlisted("no room, from the last number on", stretches(&wide, 7, most, most, 0), SANGUEKO_BAD_RANGE);

    /* the file a byte shorter ends with unit 513; with no byte it has no unit; with the most bytes it has 2^47 */
    open_all(s);
    put_bits(card, 64, 63, 514 * (uint64_t)SANGUEKO_UNIT_BYTES);
    listed("stretches, whole units", stretches(&wide, 7, 258, most - 258, sizeof pairs), (const struct stretch[]){ { 511, 3 } }, 1);
    put_bits(card, 64, 63, 0);
    listed("stretches of no bytes", stretches(&wide, 7, 0, most, sizeof pairs), NULL, 0);
    put_bits(card, 64, 63, INT64_MAX);
    listed("stretches of the largest file", stretches(&wide, 7, 258, most - 258, sizeof pairs), (const struct stretch[]){ { 511, 7 } }, 1);
    put_bits(card, 64, 63, 514 * (uint64_t)SANGUEKO_UNIT_BYTES + 1);
    unchanged("stretches", s, kept);

    /* block 3 at unit 4, which has no checksum: it is in no stretch, and a read of it is refused */
    static const uint8_t extent[SANGUEKO_EXTENT_BYTES] = { [7] = 7, [8] = 3, [16] = 64, [17] = 3, [25] = 1 };
    memcpy(wide.at[EXTENT], extent, sizeof extent);
    put_bits(wide.at[HEAD], 184, 20, 1);
    wide.at[USED][0] |= 8;
    listed("a block without a checksum", stretches(&wide, 7, 0, 10, sizeof pairs), all_of_it, 1);
    unread("a read of it", read_at(&wide, 7, 4 * (uint64_t)SANGUEKO_UNIT_BYTES, 1), SANGUEKO_NO_CHECKSUM);
}

int main(void)
{
    struct store s;
    uint8_t *kept[BUFFERS];
    for (int i = 0; i < BUFFERS; i++) {
        s.at[i] = pages(lengths[i]);
        s.len[i] = lengths[i];
        kept[i] = pages(lengths[i]);
        memset(s.at[i], 0xa5, lengths[i]);
    }
    bytes = pages(BYTES);
    for (size_t i = 0; i < BYTES; i++)
        bytes[i] = (uint8_t)(i * 7 + i / 256 + 1);
    protect(bytes, BYTES, PROT_READ);
    list = pages(LIST);

    /* a fresh store in buffers of anything */
    open_for(&s, (const int[]){ HEAD, CARD, EXTENT, GROUP, USED, RETIRED }, 6);
    accepted("fresh", fresh(&s, sizeof uuid, 1), 0);
    /* behind the uuid: 17 bits of blocks, 17 reserved, 2 of the hint, 20 for each number of records */
    static const uint8_t none[12] = { 0x00, 0x04, 0x00, 0x00, 0x40 };
    EXPECT("fresh", memcmp(s.at[HEAD], uuid, 16) == 0);
    EXPECT("fresh", memcmp(s.at[HEAD] + 16, none, 12) == 0);
    EXPECT("fresh", all(s.at[IMAGE], lengths[IMAGE], 0xa5));
    for (int i = CARD; i <= GROUP; i++)
        EXPECT("fresh", all(s.at[i], lengths[i], 0));
    EXPECT("fresh", s.at[USED][0] == 1 && all(s.at[USED] + 1, 7, 0));
    EXPECT("fresh", all(s.at[RETIRED], 8, 0));

    /* file 7, and file 5 before it in the book */
    open_for(&s, (const int[]){ HEAD, CARD }, 2);
    accepted("enter 7", enter(&s, 7, 5, 6), 0);
    static const uint8_t one[12] = { 0x00, 0x04, 0x00, 0x00, 0x40, 0x00, 0x01 };
    /* 5 seconds and 6 nanoseconds, twice: last changed and created */
    static const uint8_t seven[SANGUEKO_CARD_BYTES] = { [7] = 7, [27] = 0x02, [28] = 0x80, [31] = 0x0c, [39] = 0x14, [43] = 0x60 };
    EXPECT("enter 7", memcmp(s.at[HEAD], uuid, 16) == 0);
    EXPECT("enter 7", memcmp(s.at[HEAD] + 16, one, 12) == 0);
    EXPECT("enter 7", memcmp(s.at[CARD], seven, sizeof seven) == 0);
    EXPECT("enter 7", all(s.at[CARD] + sizeof seven, sizeof seven, 0));
    accepted("enter 5", enter(&s, 5, 0, 0), 0);
    EXPECT("enter 5", s.at[HEAD][22] == 2 && s.at[CARD][7] == 5 && all(s.at[CARD] + 8, sizeof seven - 8, 0));
    EXPECT("enter 5", memcmp(s.at[CARD] + sizeof seven, seven, sizeof seven) == 0);

    close_all(&s);
    accepted("fill, none of seven", sangueko_fill(LENT(&s)), 0);

    /* blocks 2 and 5 retired, as a write would */
    open_all(&s);
    s.at[USED][0] = 0x25;
    s.at[RETIRED][0] = 0x24;
    keep(&s, kept);
    close_all(&s);
    accepted("fill, two of seven, both retired", sangueko_fill(LENT(&s)), 285);
    open_for(&s, (const int[]){ USED, RETIRED }, 2);
    accepted("settle", sangueko_settle(LENT(&s)), 2);
    kept[USED][0] = 1;
    kept[RETIRED][0] = 0;
    unchanged("settle", &s, kept);
    accepted("settle again", sangueko_settle(LENT(&s)), 0);
    unchanged("settle again", &s, kept);

    refusals(&s, kept);
    reads(&s, kept);
    broken(&s, kept);
    cards(&s, kept);
    accepted("fill at the end", sangueko_fill(LENT(&s)), 0);
    changes(&s, kept);
    batches(&s, kept);
    archives(&s, kept);
    one_run(&s, kept);
    no_places(&s);
    holes(&s, kept);

    if (differences != 0) {
        printf("store: %d differences\n", differences);
        return 1;
    }
    printf("store: the eleven calls as asked; each of the nineteen refusals changes nothing\n");
    return 0;
}
