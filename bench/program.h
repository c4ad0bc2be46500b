/* What the two runners in C share: the machine, the checks once a call, jobs, and the program itself, which a runner completes by its `run` and `back`.
 *
 *     PROGRAM ROUNDS CELLS BACK < JOB
 */
#include <stdint.h>
#include <stdio.h>
#include <stdlib.h>
#include <string.h>

enum { PC = 255, MOST_CELLS = 16384, MOST_ENTRIES = 65536, BUDGET = 65536, MOST_BYTES = 131072 };
enum { CARRY = 1, BORROW = 2, OVERFLOW = 4, UNDERFLOW = 8, DIVIDE_BY_ZERO = 16, INVALID = 32, ILLEGAL = 128, TERMINATION = 256 };
enum { NEAREST = 3, NOT_A_NUMBER = 0x7FC00000 };
enum stop { DONE, ENDED, TRAP, INTERRUPT, FETCH, FAULT, FLOATS, FULL, START, DAMAGED, UNSETTLED, DEEP, CELLS, WILD };

#define FIRST_SPECIAL 0xFFFF0000u
#define MASK_ADDRESS 0xFFFF0001u
#define MODE_ADDRESS 0xFFFF0002u
#define FIRST_WORD 0xFFFF0300u
#define LAST_WORD 0xFFFF0304u

struct machine {
    uint32_t regs[256];
    uint32_t flags, mask, mode, depth;
    uint32_t words[5]; /* given at load */
};

/* What a call leaves beside the machine; value and imm are INT's. */
struct ran {
    enum stop stop;
    uint32_t value, imm;
    uint64_t count;
};

static uint32_t se(uint32_t x) { return (uint32_t)(int32_t)(int16_t)x; }

static uint32_t ex(uint32_t x)
{
    uint32_t sign = x >> 15 << 31, exponent = x >> 10 & 31, fraction = x & 1023;
    if (exponent == 31)
        return fraction == 0 ? sign | 0x7F800000 : 0x7FC00000;
    if (exponent != 0)
        return sign | (112 + exponent) << 23 | fraction << 13;
    if (fraction == 0)
        return sign;
    uint32_t up = __builtin_clz(fraction) - 21;
    return sign | (113 - up) << 23 | (fraction << up & 1023) << 13;
}

/* Floats are the compiler's own: IEEE 754's binary32, rounded to nearest, ties to even. */
static float float_of(uint32_t bits)
{
    float f;
    memcpy(&f, &bits, sizeof f);
    return f;
}

static uint32_t bits_of(float f)
{
    uint32_t bits;
    memcpy(&bits, &f, sizeof bits);
    return bits;
}

static int infinite_or_nan(uint32_t bits) { return (bits & 0x7F800000) == 0x7F800000; }

/* Once a call: 12, 10, 11; DONE if none of them. */
static enum stop check(const struct machine *m, size_t size, uint32_t capacity)
{
    if (size == 0 || size > MOST_CELLS)
        return CELLS;
    if (m->flags > 511 || m->mask > 511 || m->mode > 3)
        return UNSETTLED;
    return m->depth > capacity ? DEEP : DONE;
}

static uint32_t capacity_of(size_t words) { return words / 8 < MOST_ENTRIES ? words / 8 : MOST_ENTRIES; }

static int faults(uint32_t p, size_t size) { return p >= size && p < FIRST_SPECIAL; }

static int illegal_load(uint32_t p) { return p > MODE_ADDRESS && !(p >= FIRST_WORD && p <= LAST_WORD); }

static int illegal_store(uint32_t p, uint32_t v)
{
    return p >= FIRST_SPECIAL && !(p == MASK_ADDRESS && v < 512) && !(p == MODE_ADDRESS && v < 4);
}

__attribute__((noinline)) static struct ran run(struct machine *m, uint32_t *cells, size_t size, uint32_t *journal, size_t words, uint64_t budget);
__attribute__((noinline)) static struct ran back(struct machine *m, uint32_t *cells, size_t size, const uint32_t *journal, size_t words, uint64_t number);

static uint32_t little(const uint8_t *p, int n)
{
    uint32_t x = 0;
    while (n-- > 0)
        x = x << 8 | p[n];
    return x;
}

/* A kind's place in the order 1, 2, 3, 5, 4; 0 for a kind that is unknown. */
static uint32_t rank_of(uint32_t kind) { return kind > 5 ? 0 : kind == 5 ? 4 : kind == 4 ? 5 : kind; }

/* Loads a job that keeps the rules of the format; answers 0 for one that does not. The words are zeros unless the job has others. */
static int load(struct machine *m, uint32_t *cells, size_t size, const uint8_t *job, size_t bytes)
{
    size_t at = 0, end = 0;
    uint32_t rank = 0, least = 0;
    memset(m, 0, sizeof *m);
    m->mode = NEAREST;
    memset(cells, 0, size * sizeof *cells);
    for (;;) {
        if (bytes - at < 6)
            return 0;
        uint32_t length = little(job + at, 4), now = little(job + at + 4, 2);
        const uint8_t *payload = job + at + 6;
        if (rank_of(now) == 0 || rank_of(now) < rank || length > bytes - at - 6)
            return 0;
        if (now == 1) {
            uint32_t base = length < 6 ? 0 : little(payload, 2), count = (length - 2) / 4;
            if (length < 6 || length % 4 != 2 || length > 65538 || base < end || base + count > size)
                return 0;
            for (uint32_t i = 0; i < count; i++)
                cells[base + i] = little(payload + 2 + 4 * i, 4);
            end = base + count;
        } else if (now == 2) {
            if (length != 5 || payload[0] < least)
                return 0;
            m->regs[payload[0]] = little(payload + 1, 4);
            least = payload[0] + 1u;
        } else if (now == 3) {
            if (length != 5 || rank == rank_of(3))
                return 0;
            m->flags = little(payload, 2);
            m->mask = little(payload + 2, 2);
            m->mode = payload[4];
            if (m->flags > 511 || m->mask > 511 || m->mode > 3)
                return 0;
        } else if (now == 5) {
            if (length != 20 || rank == rank_of(5))
                return 0;
            for (int i = 0; i < 5; i++)
                m->words[i] = little(payload + 4 * i, 4);
        } else {
            return length == 0 && at + 6 == bytes;
        }
        rank = rank_of(now);
        at += 6 + length;
    }
}

static uint8_t job[MOST_BYTES];

int main(int argc, char **argv)
{
    static struct machine m;
    uint32_t *cells = malloc(MOST_CELLS * 4), *journal = malloc(32 * MOST_ENTRIES);
    uint32_t rounds = argc > 1 ? strtoul(argv[1], 0, 10) : 1;
    size_t size = argc > 2 ? strtoul(argv[2], 0, 10) : MOST_CELLS;
    uint64_t number = argc > 3 ? strtoul(argv[3], 0, 10) : MOST_ENTRIES;
    if (size > MOST_CELLS)
        size = MOST_CELLS;
    size_t bytes = fread(job, 1, sizeof job, stdin);
    if (size == 0 || !load(&m, cells, size, job, bytes)) {
        puts("refused");
        return 0;
    }
    struct ran ran = {DONE, 0, 0, 0};
    uint64_t forward = 0, backward = 0;
    uint32_t sum = 0;
    for (; rounds > 0; rounds--) {
        ran = run(&m, cells, size, journal, 8 * MOST_ENTRIES, BUDGET);
        forward += ran.count;
        for (int i = 0; i < 256; i++)
            sum = sum * 31 + m.regs[i];
        backward += back(&m, cells, size, journal, 8 * MOST_ENTRIES, number).count;
    }
    printf("stop %d forward %llu back %llu sum %u\n", ran.stop, (unsigned long long)forward, (unsigned long long)backward, sum);
    return 0;
}
