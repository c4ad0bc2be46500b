/* The program `bench` in C once more, tuned: the rules, the journal and the line of bench/twin.c, written for few x86-64 instructions in plain
 * scalar C, with no vectors, computed gotos or tail calls. The twin is how one writes a runner; this is how little it need cost. It shares
 * nothing with the crates.
 *
 * What makes it cheap:
 * - Settings stay packed, as word 1 of an entry has them, for a whole run; the flags are their low bits.
 * - The place in the journal is the only counter: a run's last place is by the lesser of its budget and J less depth.
 * - One flat switch, whose arms write entry, register and flags themselves. An instruction's fields are read from the cell's bytes.
 * - PC advances between the entry and the operands, so that nobody asks which register is R255.
 * - A step tells only what is out of the ordinary, and the mask is looked at only then.
 * - PC below M is the one test before a step; what stopped a run is told apart after the loop, and flag 256 set there.
 * - Going back restores PC and settings once, from the last entry taken back, and tries an entry of one register first.
 *
 * The lowest byte of a word is taken to come first, as on x86-64.
 */
#include "program.h"

/* What a step tells: 0 if it simply goes on, the flags that it raised (below 512), or one of these. The last three did nothing. */
enum { TOLD_INTERRUPT = 512, TOLD_FAULT = 1024, TOLD_FLOATS = 2048, TOLD_WILD = 4096 };

#define mostly(condition) __builtin_expect(condition, 1)

/* A step before it is done; settings are those of an entry's word 1. */
struct step {
    uint32_t *entry, *regs;
    const uint8_t *cell; /* l, r, n, opcode */
    uint32_t pc, settings;
};

/* What a step leaves beside what it wrote. */
struct after {
    uint32_t settings, told;
};

struct operands {
    uint32_t n, x, y;
};

static inline uint32_t imm_of(const uint8_t *cell) { return cell[0] | cell[1] << 8; }

static inline void enter(struct step t, uint32_t ab, uint32_t a, uint32_t b, uint32_t address, uint32_t old, uint32_t uses)
{
    t.entry[0] = t.pc;
    t.entry[1] = t.settings;
    t.entry[2] = ab;
    t.entry[3] = a;
    t.entry[4] = b;
    t.entry[5] = address;
    t.entry[6] = old;
    t.entry[7] = uses;
}

static inline void advance(struct step t) { t.regs[PC] = t.pc + 1; }

static inline void enter_none(struct step t)
{
    enter(t, 0, 0, 0, 0, 0, 0);
    advance(t);
}

/* The entry of an instruction that writes Rn alone, with Rn from before the step. */
static inline uint32_t enter_one(struct step t)
{
    uint32_t n = t.cell[2];
    enter(t, n, t.regs[n], 0, 0, 0, 1);
    advance(t);
    return n;
}

/* Operands are read once PC has advanced: R255 reads as PC+1. */
static inline struct operands registers(struct step t)
{
    uint32_t n = enter_one(t);
    return (struct operands){n, t.regs[t.cell[1]], t.regs[t.cell[0]]};
}

static inline struct operands immediate(struct step t)
{
    uint32_t n = enter_one(t);
    return (struct operands){n, t.regs[n], se(imm_of(t.cell))};
}

static inline struct operands immediate_float(struct step t)
{
    uint32_t n = enter_one(t);
    return (struct operands){n, t.regs[n], ex(imm_of(t.cell))};
}

/* From here on: an instruction is done, and the settings after it are the answer. */
static inline uint32_t put(struct step t, struct operands o, uint32_t value)
{
    t.regs[o.n] = value;
    return t.settings;
}

static inline uint32_t put_flags(struct step t, uint32_t *told, struct operands o, uint32_t value, uint32_t governed, uint32_t raised)
{
    t.regs[o.n] = value;
    if (raised) {
        *told = raised;
        return (t.settings & ~governed) | raised;
    }
    return t.settings & ~governed;
}

static inline uint32_t add(struct step t, uint32_t *told, struct operands o)
{
    uint32_t value = o.x + o.y;
    return put_flags(t, told, o, value, CARRY | OVERFLOW, value < o.x ? CARRY | OVERFLOW : 0);
}

static inline uint32_t adc(struct step t, uint32_t *told, struct operands o)
{
    uint64_t whole = (uint64_t)o.x + o.y + (t.settings & CARRY);
    return put_flags(t, told, o, (uint32_t)whole, CARRY | OVERFLOW, whole >> 32 ? CARRY | OVERFLOW : 0);
}

static inline uint32_t sub(struct step t, uint32_t *told, struct operands o)
{
    return put_flags(t, told, o, o.x - o.y, BORROW | OVERFLOW, o.x < o.y ? BORROW | OVERFLOW : 0);
}

static inline uint32_t sbb(struct step t, uint32_t *told, struct operands o)
{
    uint64_t whole = (uint64_t)o.y + (t.settings >> 1 & 1);
    return put_flags(t, told, o, o.x - (uint32_t)whole, BORROW | OVERFLOW, o.x < whole ? BORROW | OVERFLOW : 0);
}

static inline uint32_t mul(struct step t, uint32_t *told, struct operands o)
{
    uint64_t whole = (uint64_t)o.x * o.y;
    return put_flags(t, told, o, (uint32_t)whole, OVERFLOW, whole >> 32 ? OVERFLOW : 0);
}

/* Rn is kept as it reads now: R255 stays at PC+1. */
static inline uint32_t by_zero(struct step t, uint32_t *told, struct operands o, uint32_t governed)
{
    return put_flags(t, told, o, t.regs[o.n], governed, DIVIDE_BY_ZERO);
}

static inline uint32_t udiv(struct step t, uint32_t *told, struct operands o)
{
    return o.y ? put_flags(t, told, o, o.x / o.y, DIVIDE_BY_ZERO, 0) : by_zero(t, told, o, DIVIDE_BY_ZERO);
}

static inline uint32_t mod(struct step t, uint32_t *told, struct operands o)
{
    return o.y ? put_flags(t, told, o, o.x % o.y, DIVIDE_BY_ZERO, 0) : by_zero(t, told, o, DIVIDE_BY_ZERO);
}

static inline uint32_t sdiv(struct step t, uint32_t *told, struct operands o)
{
    if (o.y == 0)
        return by_zero(t, told, o, DIVIDE_BY_ZERO | OVERFLOW);
    if (o.x == 0x80000000u && o.y == 0xFFFFFFFFu)
        return put_flags(t, told, o, o.x, DIVIDE_BY_ZERO | OVERFLOW, OVERFLOW);
    return put_flags(t, told, o, (uint32_t)((int32_t)o.x / (int32_t)o.y), DIVIDE_BY_ZERO | OVERFLOW, 0);
}

static inline uint32_t lsh(struct step t, uint32_t *told, struct operands o)
{
    return o.y > 31 ? put_flags(t, told, o, 0, OVERFLOW, OVERFLOW) : put_flags(t, told, o, o.x << o.y, OVERFLOW, 0);
}

static inline uint32_t ursh(struct step t, uint32_t *told, struct operands o)
{
    return o.y > 31 ? put_flags(t, told, o, 0, UNDERFLOW, UNDERFLOW) : put_flags(t, told, o, o.x >> o.y, UNDERFLOW, 0);
}

static inline uint32_t srsh(struct step t, uint32_t *told, struct operands o)
{
    int32_t x = (int32_t)o.x;
    return o.y > 31 ? put_flags(t, told, o, (uint32_t)(x >> 31), UNDERFLOW, UNDERFLOW)
                    : put_flags(t, told, o, (uint32_t)(x >> o.y), UNDERFLOW, 0);
}

static inline uint32_t and(struct step t, struct operands o) { return put(t, o, o.x & o.y); }
static inline uint32_t or(struct step t, struct operands o) { return put(t, o, o.x | o.y); }
static inline uint32_t xor(struct step t, struct operands o) { return put(t, o, o.x ^ o.y); }
static inline uint32_t nand(struct step t, struct operands o) { return put(t, o, ~(o.x & o.y)); }
static inline uint32_t lnand(struct step t, struct operands o) { return put(t, o, o.x == 0 || o.y == 0); }
static inline uint32_t ugt(struct step t, struct operands o) { return put(t, o, o.x > o.y); }
static inline uint32_t sgt(struct step t, struct operands o) { return put(t, o, (int32_t)o.x > (int32_t)o.y); }
static inline uint32_t eq(struct step t, struct operands o) { return put(t, o, o.x == o.y); }
static inline uint32_t ult(struct step t, struct operands o) { return put(t, o, o.x < o.y); }
static inline uint32_t slt(struct step t, struct operands o) { return put(t, o, (int32_t)o.x < (int32_t)o.y); }

static inline uint32_t ldli(struct step t, struct operands o) { return put(t, o, (o.x & 0xFFFF0000u) | (o.y & 65535)); }
static inline uint32_t ldui(struct step t, struct operands o) { return put(t, o, o.y << 16 | (o.x & 65535)); }
static inline uint32_t ldliz(struct step t, struct operands o) { return put(t, o, o.y & 65535); }
static inline uint32_t ldlise(struct step t, struct operands o) { return put(t, o, o.y); }
static inline uint32_t ldlif(struct step t, struct operands o) { return put(t, o, ex(o.y & 65535)); }

/* The flags of an infinite or NaN result. */
__attribute__((noinline)) static uint32_t odd_flags(uint32_t x, uint32_t y, uint32_t bits, int divides)
{
    if (bits & 0x7FFFFF)
        return INVALID;
    if (infinite_or_nan(x) || infinite_or_nan(y))
        return 0;
    return divides && (y & 0x7FFFFFFF) == 0 ? DIVIDE_BY_ZERO : OVERFLOW;
}

/* The result of float arithmetic: a finite one raises nothing. */
static inline uint32_t put_float(struct step t, uint32_t *told, struct operands o, float result, int divides)
{
    uint32_t bits = bits_of(result), governed = INVALID | DIVIDE_BY_ZERO | OVERFLOW;
    if (mostly(!infinite_or_nan(bits))) {
        t.regs[o.n] = bits;
        return t.settings & ~governed;
    }
    return put_flags(t, told, o, result != result ? NOT_A_NUMBER : bits, governed, odd_flags(o.x, o.y, bits, divides));
}

static inline uint32_t fadd(struct step t, uint32_t *told, struct operands o) { return put_float(t, told, o, float_of(o.x) + float_of(o.y), 0); }
static inline uint32_t fsub(struct step t, uint32_t *told, struct operands o) { return put_float(t, told, o, float_of(o.x) - float_of(o.y), 0); }
static inline uint32_t fmul(struct step t, uint32_t *told, struct operands o) { return put_float(t, told, o, float_of(o.x) * float_of(o.y), 0); }
static inline uint32_t fdiv(struct step t, uint32_t *told, struct operands o) { return put_float(t, told, o, float_of(o.x) / float_of(o.y), 1); }
static inline uint32_t feq(struct step t, struct operands o) { return put(t, o, float_of(o.x) == float_of(o.y)); }

static inline uint32_t fgt(struct step t, uint32_t *told, struct operands o)
{
    float x = float_of(o.x), y = float_of(o.y);
    return put_flags(t, told, o, x > y, INVALID, __builtin_isunordered(x, y) ? INVALID : 0);
}

static inline uint32_t flt(struct step t, uint32_t *told, struct operands o) { return fgt(t, told, (struct operands){o.n, o.y, o.x}); }

static inline uint32_t no_float(struct step t, uint32_t *told)
{
    *told = TOLD_FLOATS;
    return t.settings;
}

/* A float in the mode that rounds to nearest, which is in the highest bits of the settings; in another it does not run. */
#define nearest(done) (t.settings >= NEAREST << 18 ? (done) : no_float(t, told))

static inline uint32_t cpswp(struct step t)
{
    uint32_t n = t.cell[2], r = t.cell[1], l = t.cell[0];
    enter(t, n | l << 8, t.regs[n], t.regs[l], 0, 0, 3);
    advance(t);
    uint32_t rn = t.regs[n], rr = t.regs[r];
    t.regs[l] = rn;
    t.regs[n] = rr;
    return t.settings;
}

static inline uint32_t split(struct step t, uint32_t (*extend)(uint32_t))
{
    uint32_t n = t.cell[2], r = t.cell[1], l = t.cell[0];
    enter(t, r | l << 8, t.regs[r], t.regs[l], 0, 0, 3);
    advance(t);
    uint32_t rn = t.regs[n];
    t.regs[r] = extend(rn & 65535);
    t.regs[l] = extend(rn >> 16);
    return t.settings;
}

static inline uint32_t bz(struct step t, uint32_t *told)
{
    advance(t);
    if (t.regs[t.cell[2]] == 0) {
        int32_t target = (int32_t)t.pc + 1 + (int16_t)imm_of(t.cell); /* no wrap: PC is below M */
        if (target < 0) {
            *told = TOLD_WILD;
            return t.settings;
        }
        t.regs[PC] = target;
    }
    enter(t, 0, 0, 0, 0, 0, 0);
    return t.settings;
}

static inline uint32_t interrupt(struct step t, uint32_t *told)
{
    enter_none(t);
    *told = TOLD_INTERRUPT;
    return t.settings;
}

static inline uint32_t illegal(struct step t, uint32_t *told)
{
    enter_none(t);
    *told = ILLEGAL;
    return t.settings | ILLEGAL;
}

/* What a load pointer that neither faults nor is illegal reads; 0 reads nothing. */
static uint32_t loaded(const uint32_t *cells, const uint32_t *words, uint32_t settings, uint32_t p)
{
    if (p < FIRST_SPECIAL)
        return cells[p];
    if (p >= FIRST_WORD)
        return words[p - FIRST_WORD];
    return p == FIRST_SPECIAL ? settings & 511 : p == MASK_ADDRESS ? settings >> 9 & 511 : settings >> 18;
}

/* LDST by any pointers, once PC has advanced. */
__attribute__((noinline)) static struct after transfer(uint32_t *entry, uint32_t *regs, uint32_t *cells, size_t size, uint32_t pc, uint32_t settings,
                                                       const uint32_t *words)
{
    struct step t = {entry, regs, (const uint8_t *)(cells + pc), pc, settings};
    uint32_t n = t.cell[2], rn = regs[n], x = regs[t.cell[1]], y = regs[t.cell[0]];
    struct after after = {settings, 0};
    if (faults(y, size) || faults(x, size)) {
        after.told = TOLD_FAULT;
        return after;
    }
    if (illegal_load(y) || illegal_store(x, rn)) {
        after.settings = illegal(t, &after.told);
        return after;
    }
    uint32_t value = loaded(cells, words, settings, y);
    enter(t, y ? n : 0, y == 0 ? 0 : n == PC ? pc : rn, 0, 0, 0, y != 0);
    if (x == MASK_ADDRESS) {
        after.settings = (settings & ~(511u << 9)) | rn << 9;
    } else if (x == MODE_ADDRESS) {
        after.settings = (settings & ~(3u << 18)) | rn << 18;
    } else if (x) {
        entry[5] = x;
        entry[6] = cells[x];
        entry[7] += 4;
        cells[x] = rn;
    }
    if (y)
        regs[n] = value;
    return after;
}

/* LDST: a load or a store of memory alone is done here, the rest by `transfer`. */
static inline uint32_t ldst(struct step t, uint32_t *told, uint32_t *cells, size_t size, const uint32_t *words)
{
    uint32_t n = t.cell[2], old = t.regs[n];
    advance(t);
    uint32_t x = t.regs[t.cell[1]], y = t.regs[t.cell[0]];
    if (x == 0 && y != 0 && y < size) {
        enter(t, n, old, 0, 0, 0, 1);
        t.regs[n] = cells[y];
        return t.settings;
    }
    if (y == 0 && x != 0 && x < size) {
        enter(t, 0, 0, 0, x, cells[x], 4);
        cells[x] = t.regs[n];
        return t.settings;
    }
    struct after after = transfer(t.entry, t.regs, cells, size, t.pc, t.settings, words);
    *told = after.told;
    return after.settings;
}

/* One step, but for what its fetch can refuse. */
static inline uint32_t execute(struct step t, uint32_t *told, uint32_t *cells, size_t size, const uint32_t *words)
{
    switch (t.cell[3]) {
    case 0: return cpswp(t);
    case 1: return ldst(t, told, cells, size, words);
    case 3: return ldli(t, immediate(t));
    case 4: return ldui(t, immediate(t));
    case 5: return ldliz(t, immediate(t));
    case 6: return ldlise(t, immediate(t));
    case 7: return ldlif(t, immediate(t));
    case 16: return add(t, told, registers(t));
    case 17: return adc(t, told, registers(t));
    case 18: return sub(t, told, registers(t));
    case 19: return sbb(t, told, registers(t));
    case 20: return mul(t, told, registers(t));
    case 21: return udiv(t, told, registers(t));
    case 22: return sdiv(t, told, registers(t));
    case 23: return mod(t, told, registers(t));
    case 24: return and(t, registers(t));
    case 25: return or(t, registers(t));
    case 26: return xor(t, registers(t));
    case 27: return nand(t, registers(t));
    case 28: return lnand(t, registers(t));
    case 29: return lsh(t, told, registers(t));
    case 30: return ursh(t, told, registers(t));
    case 31: return srsh(t, told, registers(t));
    case 32: return ugt(t, registers(t));
    case 33: return sgt(t, registers(t));
    case 34: return eq(t, registers(t));
    case 35: return add(t, told, immediate(t));
    case 36: return adc(t, told, immediate(t));
    case 37: return sub(t, told, immediate(t));
    case 38: return sbb(t, told, immediate(t));
    case 39: return mul(t, told, immediate(t));
    case 40: return udiv(t, told, immediate(t));
    case 41: return sdiv(t, told, immediate(t));
    case 42: return mod(t, told, immediate(t));
    case 43: return and(t, immediate(t));
    case 44: return or(t, immediate(t));
    case 45: return xor(t, immediate(t));
    case 46: return lsh(t, told, immediate(t));
    case 47: return ursh(t, told, immediate(t));
    case 48: return srsh(t, told, immediate(t));
    case 49: return ugt(t, immediate(t));
    case 50: return sgt(t, immediate(t));
    case 51: return eq(t, immediate(t));
    case 52: return ult(t, immediate(t));
    case 53: return slt(t, immediate(t));
    case 54: return split(t, se);
    case 80: return nearest(fadd(t, told, registers(t)));
    case 81: return nearest(fsub(t, told, registers(t)));
    case 82: return nearest(fmul(t, told, registers(t)));
    case 83: return nearest(fdiv(t, told, registers(t)));
    case 89: return nearest(fgt(t, told, registers(t)));
    case 90: return nearest(feq(t, registers(t)));
    case 93: return nearest(fadd(t, told, immediate_float(t)));
    case 94: return nearest(fsub(t, told, immediate_float(t)));
    case 95: return nearest(fmul(t, told, immediate_float(t)));
    case 96: return nearest(fdiv(t, told, immediate_float(t)));
    case 102: return nearest(fgt(t, told, immediate_float(t)));
    case 103: return nearest(feq(t, immediate_float(t)));
    case 104: return nearest(flt(t, told, immediate_float(t)));
    case 84 ... 88: case 91: case 92: case 97 ... 101: case 105: case 106: return no_float(t, told);
    case 107: return split(t, ex);
    case 121: return bz(t, told);
    case 122: return interrupt(t, told);
    default: return illegal(t, told);
    }
}

static uint32_t lesser(uint64_t number, uint32_t most) { return number < most ? number : most; }

static void unpack(struct machine *m, uint32_t settings)
{
    m->flags = settings & 511;
    m->mask = settings >> 9 & 511;
    m->mode = settings >> 18;
}

/* Why a run stopped, by what its last step told. */
static enum stop stop_of(uint32_t told, uint32_t pc, uint64_t count, uint64_t budget, size_t size)
{
    if (told == TOLD_FAULT)
        return FAULT;
    if (told == TOLD_FLOATS)
        return FLOATS;
    if (told == TOLD_WILD)
        return WILD;
    if (pc >= FIRST_SPECIAL && count > 0)
        return ENDED;
    if (told)
        return told == TOLD_INTERRUPT ? INTERRUPT : TRAP;
    if (count == budget)
        return DONE;
    return pc >= FIRST_SPECIAL ? ENDED : pc >= size ? FETCH : FULL;
}

/* What a run leaves, from its last step: a refused one takes PC's advance back, another one counts. */
static inline struct ran finish(struct machine *m, struct step t, uint32_t told, const uint32_t *start, uint64_t budget, size_t size)
{
    if (told >= TOLD_FAULT)
        t.regs[PC] = t.pc;
    else if (told)
        t.entry += 8;
    struct ran ran = {DONE, 0, 0, (t.entry - start) / 8};
    if (told == TOLD_INTERRUPT) {
        ran.value = t.regs[t.cell[2]];
        ran.imm = imm_of(t.cell);
    }
    ran.stop = stop_of(told, t.regs[PC], ran.count, budget, size);
    if (ran.stop == ENDED && ran.count > 0)
        t.settings |= TERMINATION;
    memcpy(m->regs, t.regs, sizeof m->regs);
    unpack(m, t.settings);
    m->depth += ran.count;
    return ran;
}

static struct ran run(struct machine *m, uint32_t *cells, size_t size, uint32_t *journal, size_t words, uint64_t budget)
{
    uint32_t capacity = capacity_of(words), told = 0;
    enum stop stop = check(m, size, capacity);
    if (stop != DONE)
        return (struct ran){stop, 0, 0, 0};
    uint32_t regs[256];
    memcpy(regs, m->regs, sizeof regs);
    uint32_t *start = journal + 8 * (size_t)m->depth, *end = start + 8 * (size_t)lesser(budget, capacity - m->depth);
    struct step t = {start, regs, 0, 0, m->flags + 512 * m->mask + 262144 * m->mode};
    while (t.entry != end) {
        t.pc = regs[PC];
        if (t.pc >= size)
            break;
        t.cell = (const uint8_t *)(cells + t.pc);
        t.settings = execute(t, &told, cells, size, m->words);
        if (told) {
            if (told >= TOLD_INTERRUPT || (told & t.settings >> 9))
                break;
            told = 0;
        }
        t.entry += 8;
    }
    return finish(m, t, told, start, budget, size);
}

/* An entry of any kind is taken back, its first three words being sound; answers 0 if it is damaged. */
__attribute__((noinline)) static int restore(uint32_t *regs, uint32_t *cells, size_t size, const uint32_t *entry)
{
    uint32_t ab = entry[2], address = entry[5], uses = entry[7];
    if (uses > 7 || ((uses & 4) && (address == 0 || address >= size)))
        return 0;
    if (uses & 1)
        regs[ab & 255] = entry[3];
    if (uses & 2)
        regs[ab >> 8] = entry[4];
    if (uses & 4)
        cells[address] = entry[6];
    return 1;
}

/* The last step is taken back, but for PC and settings; answers 0 if its entry is damaged. */
static inline int undo(uint32_t *regs, uint32_t *cells, size_t size, const uint32_t *entry)
{
    uint32_t a = *(const uint8_t *)(entry + 2);
    uint64_t words; /* 1 and 2, whose bounds are powers of two: one test for both */
    memcpy(&words, entry + 1, sizeof words);
    if (entry[0] >= size || (words & 0xFFFF0000FFF00000u))
        return 0;
    if (mostly(entry[7] == 1)) {
        regs[a] = entry[3];
        return 1;
    }
    return entry[7] == 0 || restore(regs, cells, size, entry);
}

static struct ran back(struct machine *m, uint32_t *cells, size_t size, const uint32_t *journal, size_t words, uint64_t number)
{
    struct ran ran = {check(m, size, capacity_of(words)), 0, 0, 0};
    if (ran.stop != DONE)
        return ran;
    uint32_t regs[256];
    memcpy(regs, m->regs, sizeof regs);
    const uint32_t *start = journal + 8 * (size_t)m->depth, *entry = start, *end = start - 8 * (size_t)lesser(number, m->depth);
    while (entry != end && undo(regs, cells, size, entry - 8))
        entry -= 8;
    ran.stop = entry != end ? DAMAGED : number > m->depth ? START : DONE;
    ran.count = (start - entry) / 8;
    if (ran.count > 0) {
        regs[PC] = entry[0];
        unpack(m, entry[1]);
    }
    memcpy(m->regs, regs, sizeof regs);
    m->depth -= ran.count;
    return ran;
}
