/* Decodes one image over and over, and prints a checksum: decode ROUNDS < IMAGE.
   It refuses the faults that the crate bpf_insn refuses, in the same order, and makes a list of the same instructions. */
#include <stdbool.h>
#include <stdint.h>
#include <stdio.h>
#include <stdlib.h>
#include <string.h>

enum { MAX_SLOTS = 1024 };

enum fault { NONE, EMPTY, TOO_LONG, TRUNCATED, UNKNOWN_OPCODE, BAD_REGISTER, NON_ZERO_FIELD, BAD_WIDTH, MEMORY };

enum form {
    UNKNOWN, SECOND, ALU, NEG, MOVSX, SWAP, JA, JA_LONG, BRANCH, CALL, EXIT, LOAD, LOAD_SX, STORE_REG, STORE_IMM, LOAD_IMM64
};

enum { ADD, SUB, MUL, DIV, OR, AND, LSH, RSH, NEG_CODE, MOD, XOR, MOV, ARSH, END, SDIV, SMOD };

enum { LE, BE, ALWAYS };

/* An instruction; of SECOND only the form counts. */
struct insn {
    uint8_t form;
    uint8_t op;     /* operation, condition, size, kind of extension, or order of bytes */
    uint8_t width;  /* 32 or 64 */
    uint8_t is_reg; /* the second operand is a register */
    uint8_t dst, src;
    int16_t off;
    union {
        int32_t imm;
        uint64_t value;
    };
};

struct program {
    uint32_t count;
    struct insn slots[];
};

static uint16_t half_at(const uint8_t *b) { return (uint16_t)(b[0] | b[1] << 8); }

static uint32_t word_at(const uint8_t *b) { return b[0] | (uint32_t)b[1] << 8 | (uint32_t)b[2] << 16 | (uint32_t)b[3] << 24; }

#ifdef TABLE
/* Of each opcode its form, and which bits of its first slot must be zero. */
static struct { struct insn insn; uint64_t zero; } opcodes[256];
#endif

/* What a field of the first slot may hold. */
enum use { ZERO, ZERO_OR_ONE, ANY };

struct uses { uint8_t dst, src, offset, imm; };

static bool alu_opcode(uint8_t opcode, uint8_t width, struct insn *insn, struct uses *uses) {
    uint8_t code = opcode >> 4;
    bool is_reg = opcode & 8;
    insn->width = width;
    insn->is_reg = is_reg;
    if (code == NEG_CODE) {
        insn->form = NEG;
        *uses = (struct uses){ANY, ZERO, ZERO, ZERO};
        return !is_reg;
    }
    if (code == END) {
        insn->form = SWAP;
        insn->op = width == 64 ? ALWAYS : is_reg ? BE : LE;
        insn->is_reg = 0;
        *uses = (struct uses){ANY, ZERO, ZERO, ANY};
        return !(is_reg && width == 64);
    }
    if (code > END) return false;
    insn->form = ALU;
    insn->op = code;
    uint8_t offset = code == DIV || code == MOD ? ZERO_OR_ONE : code == MOV && is_reg ? ANY : ZERO;
    *uses = is_reg ? (struct uses){ANY, ANY, offset, ZERO} : (struct uses){ANY, ZERO, offset, ANY};
    return true;
}

static bool jump_opcode(uint8_t opcode, uint8_t width, struct insn *insn, struct uses *uses) {
    uint8_t code = opcode >> 4;
    bool is_reg = opcode & 8;
    insn->width = width;
    insn->is_reg = is_reg;
    switch (code) {
    case 0x0:
        insn->form = width == 64 ? JA : JA_LONG;
        *uses = width == 64 ? (struct uses){ZERO, ZERO, ANY, ZERO} : (struct uses){ZERO, ZERO, ZERO, ANY};
        return !is_reg;
    case 0x8:
        insn->form = CALL;
        *uses = (struct uses){ZERO, ZERO, ZERO, ANY};
        return !is_reg && width == 64;
    case 0x9:
        insn->form = EXIT;
        *uses = (struct uses){ZERO, ZERO, ZERO, ZERO};
        return !is_reg && width == 64;
    case 0xe: case 0xf:
        return false;
    default:
        insn->form = BRANCH;
        insn->op = code;
        *uses = is_reg ? (struct uses){ANY, ANY, ANY, ZERO} : (struct uses){ANY, ZERO, ANY, ANY};
        return true;
    }
}

/* What an opcode says; false where it is none. */
static bool opcode_of(uint8_t opcode, struct insn *insn, struct uses *uses) {
    static const uint8_t sizes[4] = {4, 2, 1, 8};
    uint8_t mode = opcode >> 5;
    insn->op = sizes[opcode >> 3 & 3];
    switch (opcode & 7) {
    case 0:
        insn->form = LOAD_IMM64;
        *uses = (struct uses){ANY, ZERO, ZERO, ANY};
        return opcode == 0x18;
    case 1:
        insn->form = mode == 3 ? LOAD : LOAD_SX;
        *uses = (struct uses){ANY, ANY, ANY, ZERO};
        return mode == 3 || (mode == 4 && insn->op != 8);
    case 2:
        insn->form = STORE_IMM;
        *uses = (struct uses){ANY, ZERO, ANY, ANY};
        return mode == 3;
    case 3:
        insn->form = STORE_REG;
        *uses = (struct uses){ANY, ANY, ANY, ZERO};
        return mode == 3;
    case 4: return alu_opcode(opcode, 32, insn, uses);
    case 5: return jump_opcode(opcode, 64, insn, uses);
    case 6: return jump_opcode(opcode, 32, insn, uses);
    default: return alu_opcode(opcode, 64, insn, uses);
    }
}

#ifdef TABLE
static uint64_t zeros(enum use use, unsigned at, unsigned bits) {
    uint64_t all = ((1ull << bits) - 1) << at;
    return use == ANY ? 0 : use == ZERO ? all : all & ~(1ull << at);
}

static void fill_table(void) {
    for (int opcode = 0; opcode < 256; opcode++) {
        struct uses uses = {0};
        struct insn insn = {0};
        if (!opcode_of((uint8_t)opcode, &insn, &uses)) insn.form = UNKNOWN;
        opcodes[opcode].insn = insn;
        opcodes[opcode].zero = zeros(uses.dst, 8, 4) | zeros(uses.src, 12, 4) | zeros(uses.offset, 16, 16) | zeros(uses.imm, 32, 32);
    }
}
#else
static bool is_stray(uint8_t use, uint32_t bits) { return use == ZERO ? bits != 0 : use == ZERO_OR_ONE ? bits > 1 : false; }
#endif

/* The last part of the reading, where the offset or the immediate chooses the form. */
static enum fault choose(struct insn *insn) {
    if (insn->form == SWAP) return insn->imm == 16 || insn->imm == 32 || insn->imm == 64 ? NONE : BAD_WIDTH;
    if (insn->form != ALU) return NONE;
    if (insn->op == DIV && insn->off) insn->op = SDIV;
    if (insn->op == MOD && insn->off) insn->op = SMOD;
    if (insn->op != MOV || insn->off == 0) return NONE;
    if (insn->off != 8 && insn->off != 16 && !(insn->off == 32 && insn->width == 64)) return BAD_WIDTH;
    insn->form = MOVSX;
    return NONE;
}

/* The instruction at the front, of at most `left` bytes. */
static enum fault front(const uint8_t *b, size_t left, struct insn *to) {
    if (left < 8) return TRUNCATED;
    struct insn insn = {0};
#ifdef TABLE
    insn = opcodes[b[0]].insn;
    if (insn.form == UNKNOWN) return UNKNOWN_OPCODE;
#else
    struct uses uses;
    if (!opcode_of(b[0], &insn, &uses)) return UNKNOWN_OPCODE;
#endif
    if (insn.form == LOAD_IMM64 && left < 16) return TRUNCATED;
    insn.dst = b[1] & 15;
    insn.src = b[1] >> 4;
    if (insn.dst > 10 || insn.src > 10) return BAD_REGISTER;
    insn.off = (int16_t)half_at(b + 2);
    insn.imm = (int32_t)word_at(b + 4);
#ifdef TABLE
    if ((word_at(b) | (uint64_t)word_at(b + 4) << 32) & opcodes[b[0]].zero) return NON_ZERO_FIELD;
#else
    if (is_stray(uses.dst, insn.dst) || is_stray(uses.src, insn.src) || is_stray(uses.offset, (uint16_t)insn.off)
        || is_stray(uses.imm, (uint32_t)insn.imm))
        return NON_ZERO_FIELD;
#endif
    if (insn.form == LOAD_IMM64) {
        if (word_at(b + 8) != 0) return NON_ZERO_FIELD;
        insn.value = word_at(b + 4) | (uint64_t)word_at(b + 12) << 32;
        *to = insn;
        return NONE;
    }
    enum fault fault = choose(&insn);
    *to = insn;
    return fault;
}

/* The program of an image, or a fault and its slot. A fault of the image comes before want of memory. */
__attribute__((noinline)) static enum fault decode(const uint8_t *bytes, size_t length, struct program **to, uint32_t *slot) {
    if (length == 0) return EMPTY;
    if (length > 8 * MAX_SLOTS) return TOO_LONG;
    struct program *program = malloc(sizeof(struct program) + (length + 7) / 8 * sizeof(struct insn));
    struct insn spare;
    uint32_t count = 0;
    for (size_t at = 0; at < length; at = 8 * (size_t)count) {
        struct insn *insn = program ? &program->slots[count] : &spare;
        enum fault fault = front(bytes + at, length - at, insn);
        if (fault != NONE) {
            free(program);
            *slot = count;
            return fault;
        }
        count++;
        if (insn->form == LOAD_IMM64) {
            if (program) program->slots[count].form = SECOND;
            count++;
        }
    }
    if (!program) return MEMORY;
    program->count = count;
    *to = program;
    return NONE;
}

static uint64_t weight(const struct program *program, uint32_t slot) {
    if (slot >= program->count) return 2;
    const struct insn *insn = &program->slots[slot];
    switch (insn->form) {
    case ALU: return insn->dst + (uint64_t)(insn->is_reg ? insn->src : (uint32_t)insn->imm);
    case BRANCH: return insn->dst + (uint64_t)(uint16_t)insn->off;
    case LOAD_IMM64: return insn->value;
    case SECOND: return 2;
    default: return 1;
    }
}

/* Something of three instructions, or 0 at a refusal. */
static uint64_t round_sum(const uint8_t *image, size_t length, uint64_t round) {
    struct program *program;
    uint32_t slot;
    if (decode(image, length, &program, &slot) != NONE) return 0;
    uint64_t sum = program->count + weight(program, 0) + weight(program, (uint32_t)(round % 1024)) + weight(program, program->count - 1);
    free(program);
    return sum;
}

/* The line of an image: `ok` and its slots, or the number of its fault and the slot. For comparing refusals. */
static int tell(const uint8_t *image, size_t length) {
    struct program *program;
    uint32_t slot = 0;
    enum fault fault = decode(image, length, &program, &slot);
    if (fault == NONE) printf("ok %u\n", program->count);
    else printf("fault %d slot %u\n", fault, slot);
    return 0;
}

int main(int count, char **words) {
    static uint8_t image[8 * MAX_SLOTS + 1];
    size_t length = fread(image, 1, sizeof image, stdin);
#ifdef TABLE
    fill_table();
#endif
    if (count < 2) return tell(image, length);
    uint64_t rounds = strtoull(words[1], NULL, 10), sum = 0;
    for (uint64_t round = 0; round < rounds; round++) {
        if (length > 4) image[4] = (uint8_t)round;
        sum += round_sum(image, length, round);
    }
    printf("checksum %llu\n", (unsigned long long)sum);
    return 0;
}
