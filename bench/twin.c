/* The twin of the program `bench`, as one writes it plainly in C, with no proof: the same rules, the same journal, the same line.
 * It only serves to set the proved runner's cost beside it, and shares nothing with the crates.
 */
#include "program.h"

/* An entry's words that depend on the instruction; the others are PC and settings. */
static void enter(uint32_t *entry, uint32_t ab, uint32_t a, uint32_t b, uint32_t address, uint32_t old, uint32_t uses)
{
    entry[2] = ab;
    entry[3] = a;
    entry[4] = b;
    entry[5] = address;
    entry[6] = old;
    entry[7] = uses;
}

/* A register's value before the step, once PC has advanced. */
static uint32_t old(const uint32_t *regs, uint32_t i, uint32_t pc) { return i == PC ? pc : regs[i]; }

/* What a load above memory reads: the settings or a word. */
static uint32_t special(const struct machine *m, uint32_t p)
{
    if (p >= FIRST_WORD)
        return m->words[p - FIRST_WORD];
    return p == FIRST_SPECIAL ? m->flags : p == MASK_ADDRESS ? m->mask : m->mode;
}

/* What an instruction on floats gives. */
struct outcome {
    uint32_t value, governed, raised;
};

/* An instruction on floats; those that are not arithmetic compare. */
static struct outcome calculate(uint32_t opcode, uint32_t x, uint32_t y)
{
    float a = float_of(x), b = float_of(y), c = 0;
    uint32_t governed = INVALID | DIVIDE_BY_ZERO | OVERFLOW, raised = 0;
    switch (opcode) {
    case 80: case 93: c = a + b; break;
    case 81: case 94: c = a - b; break;
    case 82: case 95: c = a * b; break;
    case 83: case 96: c = a / b; break;
    case 90: case 103: return (struct outcome){a == b, 0, 0};
    default: return (struct outcome){opcode == 104 ? b > a : a > b, INVALID, a != a || b != b ? INVALID : 0};
    }
    if (c != c)
        return (struct outcome){NOT_A_NUMBER, governed, INVALID};
    if (infinite_or_nan(bits_of(c)) && !infinite_or_nan(x) && !infinite_or_nan(y))
        raised = (opcode == 83 || opcode == 96) && b == 0 ? DIVIDE_BY_ZERO : OVERFLOW;
    return (struct outcome){bits_of(c), governed, raised};
}

/* One step. Answers DONE if the run goes on. PC advances first, so that R255 reads as PC+1; a refused step takes that back. */
static inline enum stop step(struct machine *m, uint32_t *cells, size_t size, uint32_t *journal, uint32_t capacity, struct ran *ran)
{
    uint32_t *regs = m->regs, pc = regs[PC];
    if (pc >= FIRST_SPECIAL)
        return ENDED;
    if (pc >= size)
        return FETCH;
    if (m->depth >= capacity)
        return FULL;

    uint32_t cell = cells[pc], opcode = cell >> 24, n = cell >> 16 & 255, r = cell >> 8 & 255, l = cell & 255, imm = cell & 65535;
    uint32_t next = pc + 1;
    regs[PC] = next;
    uint32_t rn = regs[n];
    uint32_t x, y; /* the operation's operands */
    if (opcode >= 35 && opcode <= 53) {
        x = rn;
        y = se(imm);
    } else {
        x = regs[r];
        y = regs[l];
    }

    uint32_t *entry = journal + 8 * (size_t)m->depth;
    uint32_t settings = m->flags + 512 * m->mask + 262144 * m->mode;
    uint32_t value = 0, governed = 0, raised = 0;
    uint64_t whole;
    struct outcome outcome;
    enum stop after = DONE;

    switch (opcode) {
    case 0:
        enter(entry, n | l << 8, old(regs, n, pc), old(regs, l, pc), 0, 0, 3);
        regs[l] = rn;
        regs[n] = x;
        goto done;
    case 1:
        if (faults(y, size) || faults(x, size))
            goto fault;
        if (illegal_load(y) || illegal_store(x, rn))
            goto illegal;
        value = y < FIRST_SPECIAL ? cells[y] : special(m, y);
        enter(entry, y ? n : 0, y ? old(regs, n, pc) : 0, 0, 0, 0, y != 0);
        if (x == MASK_ADDRESS) {
            m->mask = rn;
        } else if (x == MODE_ADDRESS) {
            m->mode = rn;
        } else if (x) {
            entry[5] = x;
            entry[6] = cells[x];
            entry[7] += 4;
            cells[x] = rn;
        }
        if (y)
            regs[n] = value;
        goto done;
    case 3: value = (rn & 0xFFFF0000u) | imm; break;
    case 4: value = imm << 16 | (rn & 65535); break;
    case 5: value = imm; break;
    case 6: value = se(imm); break;
    case 7: value = ex(imm); break;
    case 16: case 35: whole = (uint64_t)x + y; goto sum;
    case 17: case 36: whole = (uint64_t)x + y + (m->flags & CARRY); goto sum;
    sum:
        value = (uint32_t)whole;
        governed = CARRY | OVERFLOW;
        raised = whole >> 32 ? governed : 0;
        break;
    case 18: case 37: whole = y; goto difference;
    case 19: case 38: whole = (uint64_t)y + (m->flags >> 1 & 1); goto difference;
    difference:
        value = x - (uint32_t)whole;
        governed = BORROW | OVERFLOW;
        raised = x < whole ? governed : 0;
        break;
    case 20: case 39:
        whole = (uint64_t)x * y;
        value = (uint32_t)whole;
        governed = OVERFLOW;
        raised = whole >> 32 ? governed : 0;
        break;
    case 21: case 40:
        governed = DIVIDE_BY_ZERO;
        value = y ? x / y : rn;
        raised = y ? 0 : governed;
        break;
    case 22: case 41:
        governed = DIVIDE_BY_ZERO | OVERFLOW;
        if (y == 0) {
            value = rn;
            raised = DIVIDE_BY_ZERO;
        } else if (x == 0x80000000u && y == 0xFFFFFFFFu) {
            value = x;
            raised = OVERFLOW;
        } else {
            value = (uint32_t)((int32_t)x / (int32_t)y);
        }
        break;
    case 23: case 42:
        governed = DIVIDE_BY_ZERO;
        value = y ? x % y : rn;
        raised = y ? 0 : governed;
        break;
    case 24: case 43: value = x & y; break;
    case 25: case 44: value = x | y; break;
    case 26: case 45: value = x ^ y; break;
    case 27: value = ~(x & y); break;
    case 28: value = x == 0 || y == 0; break;
    case 29: case 46:
        governed = OVERFLOW;
        value = y > 31 ? 0 : x << y;
        raised = y > 31 ? governed : 0;
        break;
    case 30: case 47:
        governed = UNDERFLOW;
        value = y > 31 ? 0 : x >> y;
        raised = y > 31 ? governed : 0;
        break;
    case 31: case 48:
        governed = UNDERFLOW;
        value = (uint32_t)((int32_t)x >> (y > 31 ? 31 : y));
        raised = y > 31 ? governed : 0;
        break;
    case 32: case 49: value = x > y; break;
    case 33: case 50: value = (int32_t)x > (int32_t)y; break;
    case 34: case 51: value = x == y; break;
    case 52: value = y > x; break;
    case 53: value = (int32_t)y > (int32_t)x; break;
    case 54:
    case 107:
        enter(entry, r | l << 8, old(regs, r, pc), old(regs, l, pc), 0, 0, 3);
        regs[r] = opcode == 54 ? se(rn) : ex(rn & 65535);
        regs[l] = opcode == 54 ? se(rn >> 16) : ex(rn >> 16);
        goto done;
    case 93: case 94: case 95: case 96: case 102: case 103: case 104:
        x = rn;
        y = ex(imm);
        goto calculation;
    case 80: case 81: case 82: case 83: case 89: case 90:
    calculation:
        if (m->mode != NEAREST)
            goto floats;
        outcome = calculate(opcode, x, y);
        value = outcome.value;
        governed = outcome.governed;
        raised = outcome.raised;
        break;
    case 121:
        if (rn == 0) {
            int32_t target = (int32_t)next + (int16_t)imm; /* no wrap: PC is below M */
            if (target < 0)
                goto wild;
            regs[PC] = target;
        }
        enter(entry, 0, 0, 0, 0, 0, 0);
        goto done;
    case 122:
        enter(entry, 0, 0, 0, 0, 0, 0);
        ran->value = rn;
        ran->imm = imm;
        after = INTERRUPT;
        goto done;
    default:
        if (opcode >= 80 && opcode <= 106)
            goto floats;
    illegal:
        enter(entry, 0, 0, 0, 0, 0, 0);
        m->flags |= ILLEGAL;
        raised = ILLEGAL;
        goto done;
    }

    /* one register */
    enter(entry, n, old(regs, n, pc), 0, 0, 0, 1);
    regs[n] = value;
    m->flags = (m->flags & ~governed) | raised;
done:
    entry[0] = pc;
    entry[1] = settings;
    m->depth++;
    if (regs[PC] >= FIRST_SPECIAL) {
        m->flags |= TERMINATION;
        return ENDED;
    }
    return after == DONE && (raised & m->mask) ? TRAP : after;
fault:
    regs[PC] = pc;
    return FAULT;
floats:
    regs[PC] = pc;
    return FLOATS;
wild:
    regs[PC] = pc;
    return WILD;
}

static struct ran run(struct machine *m, uint32_t *cells, size_t size, uint32_t *journal, size_t words, uint64_t budget)
{
    uint32_t capacity = capacity_of(words);
    struct ran ran = {check(m, size, capacity), 0, 0, 0};
    struct machine here = *m;
    while (ran.stop == DONE && ran.count < budget) {
        uint32_t depth = here.depth;
        ran.stop = step(&here, cells, size, journal, capacity, &ran);
        ran.count += here.depth - depth;
    }
    *m = here;
    return ran;
}

/* The last step is taken back. */
static inline enum stop undo(struct machine *m, uint32_t *cells, size_t size, const uint32_t *journal)
{
    if (m->depth == 0)
        return START;
    const uint32_t *entry = journal + 8 * (size_t)(m->depth - 1);
    uint32_t settings = entry[1], ab = entry[2], uses = entry[7];
    if (entry[0] >= size || settings >= 1u << 20 || ab >= 65536 || uses > 7)
        return DAMAGED;
    if (uses & 4) {
        if (entry[5] == 0 || entry[5] >= size)
            return DAMAGED;
        cells[entry[5]] = entry[6];
    }
    if (uses & 1)
        m->regs[ab & 255] = entry[3];
    if (uses & 2)
        m->regs[ab >> 8] = entry[4];
    m->flags = settings & 511;
    m->mask = settings >> 9 & 511;
    m->mode = settings >> 18;
    m->regs[PC] = entry[0];
    m->depth--;
    return DONE;
}

static struct ran back(struct machine *m, uint32_t *cells, size_t size, const uint32_t *journal, size_t words, uint64_t number)
{
    struct ran ran = {check(m, size, capacity_of(words)), 0, 0, 0};
    struct machine here = *m;
    while (ran.stop == DONE && ran.count < number) {
        ran.stop = undo(&here, cells, size, journal);
        ran.count += ran.stop == DONE;
    }
    *m = here;
    return ran;
}
