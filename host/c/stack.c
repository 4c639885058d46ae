/*
 * How much stack each call takes: it runs on a stack filled with one byte, and the lowest byte that changed is sought. The store has a file with a
 * block and a checksum, so that every test is made; both writes, batch and grow keep old bytes and fill a unit. Exits with 1 where a call takes more than
 * the header says.
 */
#define _XOPEN_SOURCE 700
#define _DEFAULT_SOURCE

#include "checksum.h"
#include "sangueko.h"

#include <pthread.h>
#include <stdio.h>
#include <stdlib.h>
#include <string.h>
#include <sys/mman.h>

#define STACK (2 * SANGUEKO_STACK_BYTES)
#define PAINT 0x5a
#define BLOCKS 64

static uint8_t image[BLOCKS * SANGUEKO_BLOCK_BYTES];
static uint8_t head[SANGUEKO_HEAD_BYTES];
static uint8_t cards[4 * SANGUEKO_CARD_BYTES];
static uint8_t extents[4 * SANGUEKO_EXTENT_BYTES];
static uint8_t groups[2 * SANGUEKO_GROUP_BYTES];
static uint8_t used[SANGUEKO_MAP_BYTES(BLOCKS)];
static uint8_t retired[SANGUEKO_MAP_BYTES(BLOCKS)];
static const uint8_t uuid[SANGUEKO_UUID_BYTES] = { 1 };

#define LENT                                                                                                                       \
    image, sizeof image, head, sizeof head, cards, sizeof cards, extents, sizeof extents, groups, sizeof groups, used, sizeof used, \
        retired, sizeof retired

static struct sangueko_answer fresh(void)
{
    return sangueko_fresh(LENT, uuid, sizeof uuid, 1);
}

static struct sangueko_answer enter(void)
{
    return sangueko_enter(LENT, 5, 1, 2);
}

static struct sangueko_answer settle(void)
{
    return sangueko_settle(LENT);
}

static struct sangueko_answer fill(void)
{
    return sangueko_fill(LENT);
}

static struct sangueko_answer read_file(void)
{
    static uint8_t out[SANGUEKO_BLOCK_BYTES];
    return sangueko_read(LENT, 7, 0, out, sizeof out);
}

/* As many reads as a list has, each of another byte of the one unit. */
static struct sangueko_answer read_many(void)
{
    static uint8_t list[SANGUEKO_MOST_RANGES * SANGUEKO_RANGE_BYTES];
    static uint8_t out[SANGUEKO_MOST_RANGES];
    for (uint8_t i = 0; i < SANGUEKO_MOST_RANGES; i++) {
        uint8_t *range = list + i * SANGUEKO_RANGE_BYTES;
        range[0] = 7;
        range[8] = i;
        range[16] = 1;
    }
    return sangueko_read_many(LENT, list, sizeof list, out, sizeof out);
}

/* The one stretch of the one group. */
static struct sangueko_answer stretches(void)
{
    static uint8_t out[SANGUEKO_STRETCH_BYTES];
    return sangueko_data_stretches(LENT, 7, 0, UINT64_MAX, out, sizeof out);
}

/* Most of unit 0, and some of unit 1. */
static struct sangueko_answer write_file(void)
{
    static const uint8_t bytes[70000] = { 3 };
    return sangueko_write(LENT, 7, SANGUEKO_BLOCK_BYTES - 10, bytes, sizeof bytes, 1, 2);
}

/* The same. */
static struct sangueko_answer write_archive(void)
{
    static const uint8_t bytes[70000] = { 3 };
    return sangueko_write_archive(LENT, 7, SANGUEKO_BLOCK_BYTES - 10, bytes, sizeof bytes, 1, 2);
}

/* As many writes as a list has: the last one as above, the others of no byte. */
static struct sangueko_answer write_batch(void)
{
    static uint8_t list[SANGUEKO_MOST_RANGES * SANGUEKO_RANGE_BYTES];
    static const uint8_t bytes[70000] = { 3 };
    for (uint8_t i = 0; i < SANGUEKO_MOST_RANGES; i++)
        list[i * SANGUEKO_RANGE_BYTES] = 7;
    uint8_t *last = list + (SANGUEKO_MOST_RANGES - 1) * SANGUEKO_RANGE_BYTES;
    last[8] = (SANGUEKO_BLOCK_BYTES - 10) & 255;
    last[9] = (SANGUEKO_BLOCK_BYTES - 10) >> 8;
    for (int i = 0; i < 3; i++)
        last[16 + i] = (uint8_t)(sizeof bytes >> 8 * i);
    return sangueko_write_batch(LENT, list, sizeof list, bytes, sizeof bytes, 1, 2);
}

/* All of unit 0, and some of unit 1. */
static struct sangueko_answer grow_file(void)
{
    return sangueko_grow(LENT, 7, 70000, 1, 2);
}

/* A store of file 7 with one block, its checksum, and a retired block. */
static void prepare(void)
{
    sangueko_fresh(LENT, uuid, sizeof uuid, 1);
    sangueko_enter(LENT, 7, 0, 0);
    cards[14] = 0x20; /* size 4,096: 63 bits from byte 8 on */
    cards[20] = 0x40; /* one block: 35 bits behind them */
    extents[7] = groups[7] = 7;
    extents[8] = 3;
    extents[17] = extents[25] = 1; /* from block 1 on, one block */
    groups[8] = 4;
    groups[17] = 1; /* slot 0 */
    uint32_t crc = unit_checksum(uuid, 7, 0, image + SANGUEKO_BLOCK_BYTES, SANGUEKO_BLOCK_BYTES);
    for (int i = 0; i < 4; i++)
        groups[49 + i] = (uint8_t)(crc >> 8 * i);
    head[25] |= 0x10; /* one extent */
    head[27] |= 1;    /* one group */
    used[0] = 7;
    retired[0] = 4;
}

struct job {
    struct sangueko_answer (*call)(void);
    struct sangueko_answer answer;
    uint8_t *from;
};

static void *run(void *lent)
{
    struct job *job = lent;
    job->from = __builtin_frame_address(0);
    job->answer = job->call();
    return NULL;
}

/* Bytes of stack below the caller of the call. */
static size_t depth(struct job *job)
{
    pthread_attr_t attributes;
    pthread_t thread;
    uint8_t *stack = mmap(NULL, STACK, PROT_READ | PROT_WRITE, MAP_PRIVATE | MAP_ANONYMOUS, -1, 0);
    if (stack == MAP_FAILED) {
        perror("mmap");
        exit(2);
    }
    memset(stack, PAINT, STACK);
    if (pthread_attr_init(&attributes) != 0 || pthread_attr_setstack(&attributes, stack, STACK) != 0 ||
        pthread_create(&thread, &attributes, run, job) != 0 || pthread_join(thread, NULL) != 0) {
        fprintf(stderr, "no thread\n");
        exit(2);
    }
    uint8_t *lowest = stack;
    while (lowest < job->from && *lowest == PAINT)
        lowest++;
    return (size_t)(job->from - lowest);
}

int main(void)
{
    static const struct {
        const char *name;
        struct sangueko_answer (*call)(void);
        uint64_t count;
    } calls[] = { { "fresh", fresh, 0 }, { "enter", enter, 0 }, { "settle", settle, 1 }, { "fill", fill, 31 },
                  { "read", read_file, SANGUEKO_BLOCK_BYTES }, { "read_many", read_many, 1 }, { "data_stretches", stretches, 1 },
                  { "write", write_file, 70000 }, { "write_archive", write_archive, 70000 },
                  { "write_batch", write_batch, SANGUEKO_MOST_RANGES }, { "grow", grow_file, 0 } };
    int failed = 0;
    printf("stack:");
    for (size_t i = 0; i < sizeof calls / sizeof calls[0]; i++) {
        struct job job = { .call = calls[i].call };
        prepare();
        size_t bytes = depth(&job);
        printf(" %s %zu", calls[i].name, bytes);
        if (job.answer.number != 0 || job.answer.count != calls[i].count) {
            printf(" (number %u)", (unsigned)job.answer.number);
            failed = 1;
        }
        if (bytes > SANGUEKO_STACK_BYTES)
            failed = 1;
    }
    printf(" bytes, of %d at most%s\n", SANGUEKO_STACK_BYTES, failed ? ": failed" : "");
    return failed;
}
