#include "yardstick.h"

#include <string.h>

/* PC, the cycle count and an access are moved as little-endian words. */
#if __BYTE_ORDER__ != __ORDER_LITTLE_ENDIAN__
#error "the host is not little-endian"
#endif

#define INLINE static inline __attribute__((always_inline))

/* One source, two builds. The plain one has one step and one run, which ask for the part wherever parts differ: what a
   programmer would write, and what time is held against. With PER_PART each part gets a step and a run of its own, in
   which every such question is settled: it shows what is left to gain by hand. */
#ifdef PER_PART
#define STEP per_part_step
#define RUN per_part_run
#else
#define STEP yardstick_step
#define RUN yardstick_run
#endif

/* The record's bytes. */
enum { PART, A, X, Y, S, P, PC, PCH, REGISTER_0, REGISTER_1, LEVEL, PAGES, COUNT, RECORD = 16 };

enum { N = 0x80, V = 0x40, BIT5 = 0x20, BIT4 = 0x10, D = 0x08, I = 0x04, Z = 0x02, CARRY = 0x01 };
enum { RES = 1, NMI = 2, IRQ = 4 };
enum { NMI_VECTOR = 0xFFFA, RES_VECTOR = 0xFFFC, IRQ_VECTOR = 0xFFFE };
enum { ACCESS = 8, ROOM = 56 };
enum purpose { OPCODE = 1, OPERAND, WASTED, POINTER, DATA, STACK, VECTOR }; /* of an access */

struct core {
    int part;
    uint8_t *record;
    uint8_t *image;
    size_t image_len;
    uint8_t *memory; /* the selected bank */
    uint64_t bank;   /* its number, where an access holds it */
    uint8_t *next;   /* where the next access is listed */
    uint8_t pins;
    uint16_t pc;
};

INLINE uint16_t word(uint8_t low, uint8_t high)
{
    return (uint16_t)(low | high << 8);
}

INLINE uint64_t access_of(const struct core *c, enum purpose purpose, uint16_t address, uint8_t value, int written)
{
    return address | c->bank | (uint64_t)value << 24 | (uint64_t)written << 32 | (uint64_t)purpose << 40;
}

INLINE void list(struct core *c, enum purpose purpose, uint16_t address, uint8_t value, int written)
{
    uint64_t access = access_of(c, purpose, address, value, written);
    memcpy(c->next, &access, ACCESS);
    c->next += ACCESS;
}

INLINE void select_bank(struct core *c, uint8_t bank)
{
    c->bank = (uint64_t)bank << 16;
    c->memory = c->image + (((size_t)bank << 16) & (c->image_len - 1));
}

INLINE uint8_t *cell(const struct core *c, uint16_t address)
{
    return c->memory + (c->part == 8 && address < 0x0200 ? address & 0x00FF : address);
}

INLINE int is_register(const struct core *c, uint16_t address)
{
    return c->part != 2 && address < 2;
}

INLINE int is_protected(const struct core *c, uint16_t address)
{
    return (address >> 8) + c->record[PAGES] >= 0x100;
}

INLINE uint8_t peek(const struct core *c, uint16_t address)
{
    if (!is_register(c, address))
        return *cell(c, address);
    if (c->part == 8 && address == 1) {
        uint8_t direction = c->record[REGISTER_0];
        return (uint8_t)((c->record[REGISTER_1] & direction) | (c->pins & ~direction));
    }
    return c->record[REGISTER_0 + address];
}

INLINE uint8_t read(struct core *c, enum purpose purpose, uint16_t address)
{
    uint8_t value = peek(c, address);
    list(c, purpose, address, value, 0);
    return value;
}

/* The bank is not selected anew: after a write to 0000 a step accesses at most 0000 once more, and there
   the first write was of the value just read. */
INLINE void write(struct core *c, enum purpose purpose, uint16_t address, uint8_t value)
{
    list(c, purpose, address, value, 1);
    if (is_protected(c, address))
        return;
    if (is_register(c, address))
        c->record[REGISTER_0 + address] = c->part == 9 ? value & 0x0F : value;
    else
        *cell(c, address) = value;
}

INLINE uint8_t fetch(struct core *c, enum purpose purpose)
{
    return read(c, purpose, c->pc++);
}

INLINE uint8_t operand(struct core *c)
{
    return fetch(c, OPERAND);
}

INLINE uint8_t data(struct core *c, uint16_t address)
{
    return read(c, DATA, address);
}

INLINE void store(struct core *c, uint16_t address, uint8_t value)
{
    write(c, DATA, address, value);
}

INLINE uint16_t stack(const struct core *c)
{
    return (uint16_t)(0x0100 | c->record[S]);
}

INLINE void push(struct core *c, uint8_t value)
{
    write(c, STACK, stack(c), value);
    c->record[S]--;
}

INLINE void push_pc(struct core *c)
{
    push(c, (uint8_t)(c->pc >> 8));
    push(c, (uint8_t)c->pc);
}

INLINE uint8_t pull(struct core *c)
{
    c->record[S]++;
    return read(c, STACK, stack(c));
}

INLINE void pull_pc(struct core *c)
{
    uint8_t low = pull(c);
    c->pc = word(low, pull(c));
}

/* The vector is read and I is set. */
INLINE void enter(struct core *c, uint16_t vector)
{
    uint8_t low = read(c, VECTOR, vector);
    c->pc = word(low, read(c, VECTOR, (uint16_t)(vector + 1)));
    c->record[P] |= I;
}

INLINE void interrupt(struct core *c, uint16_t vector)
{
    read(c, WASTED, c->pc);
    read(c, WASTED, c->pc);
    push_pc(c);
    push(c, c->record[P]);
    enter(c, vector);
}

INLINE void reset(struct core *c)
{
    read(c, WASTED, c->pc);
    read(c, WASTED, c->pc);
    for (int i = 0; i < 3; i++) {
        read(c, STACK, stack(c));
        c->record[S]--;
    }
    enter(c, RES_VECTOR);
}

/* Addressing: the address of the data. */

INLINE uint16_t absolute(struct core *c)
{
    uint8_t low = operand(c);
    return word(low, operand(c));
}

INLINE uint16_t zero_indexed(struct core *c, uint8_t index)
{
    uint8_t base = operand(c);
    read(c, WASTED, base);
    return (uint8_t)(base + index);
}

/* Both bytes lie in one page. */
INLINE uint16_t pointer(struct core *c, uint16_t at)
{
    uint8_t low = read(c, POINTER, at);
    return word(low, read(c, POINTER, word((uint8_t)(at + 1), (uint8_t)(at >> 8))));
}

INLINE uint16_t indexed_indirect(struct core *c)
{
    return pointer(c, zero_indexed(c, c->record[X]));
}

INLINE uint16_t indirect(struct core *c)
{
    return pointer(c, operand(c));
}

INLINE uint16_t indirect_banked(struct core *c)
{
    uint16_t base = indirect(c);
    if (c->part == 9)
        select_bank(c, c->record[REGISTER_1]);
    return base;
}

/* a,X, a,Y and (z),Y of an instruction that writes. */
INLINE uint16_t indexed(struct core *c, uint16_t base, uint8_t index)
{
    uint16_t sum = (uint16_t)(base + index);
    read(c, WASTED, (uint16_t)((base & 0xFF00) | (sum & 0x00FF)));
    return sum;
}

/* a,X, a,Y and (z),Y of an instruction that only reads. */
INLINE uint8_t load_indexed(struct core *c, uint16_t base, uint8_t index)
{
    uint16_t sum = (uint16_t)(base + index);
    if (((base ^ sum) & 0xFF00) != 0)
        read(c, WASTED, (uint16_t)(sum - 0x0100));
    return data(c, sum);
}

/* Operations. */

INLINE void set_nz(struct core *c, uint8_t value)
{
    c->record[P] = (uint8_t)((c->record[P] & ~(N | Z)) | (value & N) | (value == 0 ? Z : 0));
}

INLINE void load(struct core *c, uint8_t *to, uint8_t value)
{
    *to = value;
    set_nz(c, value);
}

INLINE void lda(struct core *c, uint8_t value) { load(c, &c->record[A], value); }
INLINE void ldx(struct core *c, uint8_t value) { load(c, &c->record[X], value); }
INLINE void ldy(struct core *c, uint8_t value) { load(c, &c->record[Y], value); }
INLINE void ora(struct core *c, uint8_t value) { load(c, &c->record[A], c->record[A] | value); }
INLINE void and(struct core *c, uint8_t value) { load(c, &c->record[A], c->record[A] & value); }
INLINE void eor(struct core *c, uint8_t value) { load(c, &c->record[A], c->record[A] ^ value); }

INLINE void compare(struct core *c, uint8_t from, uint8_t value)
{
    set_nz(c, (uint8_t)(from - value));
    c->record[P] = (uint8_t)((c->record[P] & ~CARRY) | (from >= value));
}

INLINE void cmp(struct core *c, uint8_t value) { compare(c, c->record[A], value); }
INLINE void cpx(struct core *c, uint8_t value) { compare(c, c->record[X], value); }
INLINE void cpy(struct core *c, uint8_t value) { compare(c, c->record[Y], value); }

INLINE void bit(struct core *c, uint8_t value)
{
    uint8_t zero = (value & c->record[A]) == 0 ? Z : 0;
    c->record[P] = (uint8_t)((c->record[P] & ~(N | V | Z)) | (value & (N | V)) | zero);
}

INLINE void add_binary(struct core *c, uint8_t value)
{
    unsigned sum = c->record[A] + value + (c->record[P] & CARRY);
    unsigned overflow = ~(c->record[A] ^ value) & (c->record[A] ^ sum) & 0x80;
    c->record[P] = (uint8_t)((c->record[P] & ~(V | CARRY)) | overflow >> 1 | sum >> 8);
    lda(c, (uint8_t)sum);
}

/* The decimal results; A is the low byte and P the high one. */
static uint16_t add_decimal(uint8_t a, uint8_t p, uint8_t value)
{
    unsigned low = (a & 0x0Fu) + (value & 0x0Fu) + (p & CARRY);
    if (low >= 10)
        low = ((low + 6) & 0x0F) + 0x10;
    unsigned sum = (a & 0xF0u) + (value & 0xF0u) + low;
    unsigned overflow = ~(a ^ value) & (a ^ sum) & 0x80;
    int zero = ((a + value + (p & CARRY)) & 0xFF) == 0;
    unsigned flags = (p & ~(N | V | Z | CARRY)) | (sum & N) | overflow >> 1 | (zero ? Z : 0);
    if (sum >= 0xA0)
        sum += 0x60;
    return word((uint8_t)sum, (uint8_t)(flags | (sum >= 0x100)));
}

static uint8_t subtract_decimal(uint8_t a, uint8_t p, uint8_t value)
{
    int low = (a & 0x0F) - (value & 0x0F) - 1 + (p & CARRY);
    if (low < 0)
        low = ((low - 6) & 0x0F) - 0x10;
    int difference = (a & 0xF0) - (value & 0xF0) + low;
    return (uint8_t)(difference < 0 ? difference - 0x60 : difference);
}

INLINE void adc(struct core *c, uint8_t value)
{
    if (c->record[P] & D) {
        uint16_t both = add_decimal(c->record[A], c->record[P], value);
        c->record[A] = (uint8_t)both;
        c->record[P] = (uint8_t)(both >> 8);
    } else {
        add_binary(c, value);
    }
}

/* The flags of a decimal subtraction are the binary ones. */
INLINE void sbc(struct core *c, uint8_t value)
{
    uint8_t decimal = c->record[P] & D ? subtract_decimal(c->record[A], c->record[P], value) : 0;
    add_binary(c, (uint8_t)~value);
    if (c->record[P] & D)
        c->record[A] = decimal;
}

INLINE uint8_t shifted(struct core *c, unsigned result, unsigned carry_out)
{
    c->record[P] = (uint8_t)((c->record[P] & ~CARRY) | carry_out);
    set_nz(c, (uint8_t)result);
    return (uint8_t)result;
}

INLINE unsigned carry(const struct core *c) { return c->record[P] & CARRY; }
INLINE uint8_t asl(struct core *c, uint8_t v) { return shifted(c, v << 1, v >> 7); }
INLINE uint8_t rol(struct core *c, uint8_t v) { return shifted(c, v << 1 | carry(c), v >> 7); }
INLINE uint8_t lsr(struct core *c, uint8_t v) { return shifted(c, v >> 1, v & 1); }
INLINE uint8_t ror(struct core *c, uint8_t v) { return shifted(c, v >> 1 | carry(c) << 7, v & 1); }

INLINE uint8_t inc(struct core *c, uint8_t v)
{
    set_nz(c, ++v);
    return v;
}

INLINE uint8_t dec(struct core *c, uint8_t v)
{
    set_nz(c, --v);
    return v;
}

INLINE void branch(struct core *c, int taken)
{
    uint8_t offset = operand(c);
    if (!taken)
        return;
    uint16_t target = (uint16_t)(c->pc + (int8_t)offset);
    read(c, WASTED, c->pc);
    if (((target ^ c->pc) & 0xFF00) != 0)
        read(c, WASTED, (uint16_t)((c->pc & 0xFF00) | (target & 0x00FF)));
    c->pc = target;
}

INLINE void implied(struct core *c)
{
    read(c, WASTED, c->pc);
}

INLINE void flag(struct core *c, uint8_t clear, uint8_t set)
{
    implied(c);
    c->record[P] = (uint8_t)((c->record[P] & ~clear) | set);
}

INLINE void transfer(struct core *c, uint8_t *to, uint8_t value)
{
    implied(c);
    load(c, to, value);
}

INLINE void pull_p(struct core *c)
{
    c->record[P] = (uint8_t)((pull(c) & ~BIT4) | BIT5);
}

/* The rows of the opcode table. (z),Y stands apart in the first: B1 and 91 have their own. */
#define READ_A(base, op) \
    case base + 0x01: op(c, data(c, indexed_indirect(c))); break; \
    case base + 0x05: op(c, data(c, operand(c))); break; \
    case base + 0x09: op(c, operand(c)); break; \
    case base + 0x0D: op(c, data(c, absolute(c))); break; \
    case base + 0x15: op(c, data(c, zero_indexed(c, c->record[X]))); break; \
    case base + 0x19: op(c, load_indexed(c, absolute(c), c->record[Y])); break; \
    case base + 0x1D: op(c, load_indexed(c, absolute(c), c->record[X])); break;

#define READ_INDIRECT_Y(opcode, op) \
    case opcode: op(c, load_indexed(c, indirect(c), c->record[Y])); break;

#define CHANGE(opcode, op, address) \
    case opcode: { \
        uint16_t at = address; \
        uint8_t value = data(c, at); \
        write(c, WASTED, at, value); \
        store(c, at, op(c, value)); \
        break; \
    }

#define CHANGES(z, a, zx, ax, op) \
    CHANGE(z, op, operand(c)) \
    CHANGE(a, op, absolute(c)) \
    CHANGE(zx, op, zero_indexed(c, c->record[X])) \
    CHANGE(ax, op, indexed(c, absolute(c), c->record[X]))

#define SHIFT_A(opcode, op) \
    case opcode: implied(c); c->record[A] = op(c, c->record[A]); break;

/* All cycles after the opcode's fetch; 0 where the opcode is undefined. */
INLINE int execute(struct core *c, uint8_t opcode)
{
    uint8_t low;

    switch (opcode) {
    READ_A(0x00, ora)
    READ_A(0x20, and)
    READ_A(0x40, eor)
    READ_A(0x60, adc)
    READ_A(0xA0, lda)
    READ_A(0xC0, cmp)
    READ_A(0xE0, sbc)

    READ_INDIRECT_Y(0x11, ora)
    READ_INDIRECT_Y(0x31, and)
    READ_INDIRECT_Y(0x51, eor)
    READ_INDIRECT_Y(0x71, adc)
    READ_INDIRECT_Y(0xD1, cmp)
    READ_INDIRECT_Y(0xF1, sbc)
    case 0xB1: lda(c, load_indexed(c, indirect_banked(c), c->record[Y])); break;

    case 0x81: store(c, indexed_indirect(c), c->record[A]); break;
    case 0x85: store(c, operand(c), c->record[A]); break;
    case 0x8D: store(c, absolute(c), c->record[A]); break;
    case 0x91: store(c, indexed(c, indirect_banked(c), c->record[Y]), c->record[A]); break;
    case 0x95: store(c, zero_indexed(c, c->record[X]), c->record[A]); break;
    case 0x99: store(c, indexed(c, absolute(c), c->record[Y]), c->record[A]); break;
    case 0x9D: store(c, indexed(c, absolute(c), c->record[X]), c->record[A]); break;

    case 0x86: store(c, operand(c), c->record[X]); break;
    case 0x8E: store(c, absolute(c), c->record[X]); break;
    case 0x96: store(c, zero_indexed(c, c->record[Y]), c->record[X]); break;
    case 0x84: store(c, operand(c), c->record[Y]); break;
    case 0x8C: store(c, absolute(c), c->record[Y]); break;
    case 0x94: store(c, zero_indexed(c, c->record[X]), c->record[Y]); break;

    CHANGES(0x06, 0x0E, 0x16, 0x1E, asl)
    CHANGES(0x26, 0x2E, 0x36, 0x3E, rol)
    CHANGES(0x46, 0x4E, 0x56, 0x5E, lsr)
    CHANGES(0x66, 0x6E, 0x76, 0x7E, ror)
    CHANGES(0xC6, 0xCE, 0xD6, 0xDE, dec)
    CHANGES(0xE6, 0xEE, 0xF6, 0xFE, inc)
    SHIFT_A(0x0A, asl)
    SHIFT_A(0x2A, rol)
    SHIFT_A(0x4A, lsr)
    SHIFT_A(0x6A, ror)

    case 0xA2: ldx(c, operand(c)); break;
    case 0xA6: ldx(c, data(c, operand(c))); break;
    case 0xAE: ldx(c, data(c, absolute(c))); break;
    case 0xB6: ldx(c, data(c, zero_indexed(c, c->record[Y]))); break;
    case 0xBE: ldx(c, load_indexed(c, absolute(c), c->record[Y])); break;
    case 0xA0: ldy(c, operand(c)); break;
    case 0xA4: ldy(c, data(c, operand(c))); break;
    case 0xAC: ldy(c, data(c, absolute(c))); break;
    case 0xB4: ldy(c, data(c, zero_indexed(c, c->record[X]))); break;
    case 0xBC: ldy(c, load_indexed(c, absolute(c), c->record[X])); break;

    case 0xE0: cpx(c, operand(c)); break;
    case 0xE4: cpx(c, data(c, operand(c))); break;
    case 0xEC: cpx(c, data(c, absolute(c))); break;
    case 0xC0: cpy(c, operand(c)); break;
    case 0xC4: cpy(c, data(c, operand(c))); break;
    case 0xCC: cpy(c, data(c, absolute(c))); break;
    case 0x24: bit(c, data(c, operand(c))); break;
    case 0x2C: bit(c, data(c, absolute(c))); break;

    case 0x10: branch(c, !(c->record[P] & N)); break;
    case 0x30: branch(c, c->record[P] & N); break;
    case 0x50: branch(c, !(c->record[P] & V)); break;
    case 0x70: branch(c, c->record[P] & V); break;
    case 0x90: branch(c, !(c->record[P] & CARRY)); break;
    case 0xB0: branch(c, c->record[P] & CARRY); break;
    case 0xD0: branch(c, !(c->record[P] & Z)); break;
    case 0xF0: branch(c, c->record[P] & Z); break;

    case 0x4C:
        c->pc = absolute(c);
        break;
    case 0x6C:
        c->pc = pointer(c, absolute(c));
        break;
    case 0x20: /* the pushes come before the high operand is read */
        low = operand(c);
        read(c, WASTED, stack(c));
        push_pc(c);
        c->pc = word(low, read(c, OPERAND, c->pc));
        break;
    case 0x60:
        implied(c);
        read(c, WASTED, stack(c));
        pull_pc(c);
        fetch(c, WASTED);
        break;
    case 0x40:
        implied(c);
        read(c, WASTED, stack(c));
        pull_p(c);
        pull_pc(c);
        break;
    case 0x00:
        fetch(c, WASTED);
        push_pc(c);
        push(c, c->record[P] | BIT4);
        enter(c, IRQ_VECTOR);
        break;
    case 0xEA:
        implied(c);
        break;

    case 0x08:
        implied(c);
        push(c, c->record[P] | BIT4);
        break;
    case 0x28:
        implied(c);
        read(c, WASTED, stack(c));
        pull_p(c);
        break;
    case 0x48:
        implied(c);
        push(c, c->record[A]);
        break;
    case 0x68:
        implied(c);
        read(c, WASTED, stack(c));
        lda(c, pull(c));
        break;

    case 0x18: flag(c, CARRY, 0); break;
    case 0x38: flag(c, 0, CARRY); break;
    case 0x58: flag(c, I, 0); break;
    case 0x78: flag(c, 0, I); break;
    case 0xB8: flag(c, V, 0); break;
    case 0xD8: flag(c, D, 0); break;
    case 0xF8: flag(c, 0, D); break;

    case 0xAA: transfer(c, &c->record[X], c->record[A]); break;
    case 0x8A: transfer(c, &c->record[A], c->record[X]); break;
    case 0xA8: transfer(c, &c->record[Y], c->record[A]); break;
    case 0x98: transfer(c, &c->record[A], c->record[Y]); break;
    case 0xBA: transfer(c, &c->record[X], c->record[S]); break;
    case 0x9A: implied(c); c->record[S] = c->record[X]; break;
    case 0xE8: transfer(c, &c->record[X], (uint8_t)(c->record[X] + 1)); break;
    case 0xC8: transfer(c, &c->record[Y], (uint8_t)(c->record[Y] + 1)); break;
    case 0xCA: transfer(c, &c->record[X], (uint8_t)(c->record[X] - 1)); break;
    case 0x88: transfer(c, &c->record[Y], (uint8_t)(c->record[Y] - 1)); break;

    default: return 0;
    }
    return 1;
}

/* The first refusal from 2 to 5 that applies, or 0. */
INLINE unsigned refusal(int part, const uint8_t *record, size_t image_len, uint8_t lines, uint8_t pins,
                        size_t accesses_len)
{
    size_t banks = image_len >> 16;

    if ((record[P] & (BIT5 | BIT4)) != BIT5)
        return 2;
    if (part != 8 && (record[REGISTER_0] | record[REGISTER_1]) > (part == 9 ? 15 : 0))
        return 2;
    if (record[LEVEL] > (part == 8 ? 0 : 1))
        return 2;
    if (part == 9 && record[PAGES] != 0)
        return 2;
    if (part == 9 && ((image_len & 0xFFFF) != 0 || banks < 1 || banks > 16 || (banks & (banks - 1)) != 0))
        return 3;
    if (part != 9 && image_len != 0x10000)
        return 3;
    if (lines > (RES | NMI | IRQ) || (part == 8 ? (lines & NMI) != 0 : pins != 0))
        return 4;
    return accesses_len < ROOM ? 5 : 0;
}

/* The refusals that a run must ask for at each step, but 6. They are not taken out of refusal: a step is then compiled
   otherwise. */
INLINE unsigned input_refusal(int part, uint8_t lines, uint8_t pins, size_t room)
{
    if (lines > (RES | NMI | IRQ) || (part == 8 ? (lines & NMI) != 0 : pins != 0))
        return 4;
    return room < ROOM ? 5 : 0;
}

/* One step; PC and the count are not yet in the record. Answers 0, or refusal 6, which moves nothing. */
INLINE uint64_t advance(struct core *c, uint8_t lines)
{
    int part = c->part;
    uint8_t *record = c->record;
    uint8_t *accesses = c->next;

    if ((lines & RES) != 0 && part != 2)
        record[REGISTER_0] = record[REGISTER_1] = part == 9 ? 15 : 0;
    if (part == 9)
        select_bank(c, record[REGISTER_0]);

    if (lines & RES) {
        reset(c);
    } else if ((lines & NMI) != 0 && record[LEVEL] == 0) {
        interrupt(c, NMI_VECTOR);
    } else if ((lines & IRQ) != 0 && (record[P] & I) == 0) {
        interrupt(c, IRQ_VECTOR);
    } else {
        /* The fetch is listed last: a refusal moves no byte. */
        uint8_t opcode = peek(c, c->pc);
        uint64_t first = access_of(c, OPCODE, c->pc, opcode, 0);
        c->pc++;
        c->next += ACCESS;
        if (!execute(c, opcode)) {
            c->pc--;
            c->next = accesses;
            return 6 | (uint64_t)opcode << 8 | (uint64_t)c->pc << 16;
        }
        memcpy(accesses, &first, ACCESS);
    }
    record[LEVEL] = (lines & NMI) >> 1;
    return 0;
}

/* Ends a step or a run of this many accesses. */
INLINE void settle(const struct core *c, uint32_t accessed)
{
    uint32_t count;
    memcpy(&count, c->record + COUNT, sizeof count);
    count += accessed;
    memcpy(c->record + COUNT, &count, sizeof count);
    memcpy(c->record + PC, &c->pc, sizeof c->pc);
}

INLINE uint64_t step(int part, uint8_t *restrict record, uint8_t *restrict image, size_t image_len,
                     uint8_t lines, uint8_t pins, uint8_t *restrict accesses, size_t accesses_len)
{
    unsigned refused = refusal(part, record, image_len, lines, pins, accesses_len);
    if (refused)
        return refused;

    struct core c = {
        .part = part,
        .record = record,
        .image = image,
        .image_len = image_len,
        .memory = image,
        .next = accesses,
        .pins = pins,
    };
    memcpy(&c.pc, record + PC, sizeof c.pc);

    uint64_t undefined = advance(&c, lines);
    if (undefined)
        return undefined;
    uint32_t accessed = (uint32_t)((size_t)(c.next - accesses) / ACCESS);
    settle(&c, accessed);
    return (uint64_t)accessed << 8;
}

INLINE uint64_t run(int part, uint8_t *restrict record, uint8_t *restrict image, size_t image_len,
                    const uint8_t *restrict script, size_t script_len, uint8_t *restrict accesses,
                    size_t accesses_len, uint64_t *restrict steps, uint64_t *restrict listed)
{
    /* 2 and 3, which no step can bring about. */
    uint64_t refused = refusal(part, record, image_len, 0, 0, ROOM);
    if (refused)
        return refused;
    if (script_len % 2 != 0)
        return 7;

    struct core c = {
        .part = part,
        .record = record,
        .image = image,
        .image_len = image_len,
        .memory = image,
        .next = accesses,
    };
    memcpy(&c.pc, record + PC, sizeof c.pc);

    const uint8_t *at = script;
    for (; at != script + script_len; at += 2) {
        refused = input_refusal(part, at[0], at[1], (size_t)(accesses + accesses_len - c.next));
        if (refused)
            break;
        c.pins = at[1];
        refused = advance(&c, at[0]);
        if (refused)
            break;
    }
    *steps = (uint64_t)(at - script) / 2;
    *listed = (uint64_t)(c.next - accesses) / ACCESS;
    settle(&c, (uint32_t)*listed);
    return refused;
}

#ifdef PER_PART
#define BY_PART(call, ...) \
    case 2: return call(2, __VA_ARGS__); \
    case 8: return call(8, __VA_ARGS__); \
    case 9: return call(9, __VA_ARGS__);
#else
#define BY_PART(call, ...) \
    case 2: \
    case 8: \
    case 9: return call(record[PART], __VA_ARGS__);
#endif

uint64_t STEP(uint8_t *record, size_t record_len, uint8_t *image, size_t image_len,
              uint8_t lines, uint8_t pins, uint8_t *accesses, size_t accesses_len)
{
    if (record_len != RECORD)
        return 1;
    switch (record[PART]) {
    BY_PART(step, record, image, image_len, lines, pins, accesses, accesses_len)
    default: return 2;
    }
}

uint64_t RUN(uint8_t *record, size_t record_len, uint8_t *image, size_t image_len,
             const uint8_t *script, size_t script_len, uint8_t *accesses, size_t accesses_len,
             uint64_t *steps, uint64_t *listed)
{
    *steps = *listed = 0;
    if (record_len != RECORD)
        return 1;
    switch (record[PART]) {
    BY_PART(run, record, image, image_len, script, script_len, accesses, accesses_len, steps, listed)
    default: return 2;
    }
}
