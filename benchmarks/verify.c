/* A verifier of the rules of docs/VERIFIER.md: verify [--nodes N] [--memory B] [--rounds K] < IMAGE.
 *
 * It prints the line of `clockbed verify`, or with --rounds the sum of the announced counts of K passes over one decoded program. It takes images that `verify`
 * doesn't refuse. One walk forward with joins, a row only where a jump comes, then the longest path from the last slot down. */
#include <stdbool.h>
#include <stddef.h>
#include <stdint.h>
#include <stdio.h>
#include <stdlib.h>
#include <string.h>

typedef unsigned __int128 wide;

enum { SLOTS = 1024, REGISTERS = 11, STACK = 512 };
enum kind { UNSET, NUMBER, MEM, FRAME };
enum { ADD, SUB, MUL, DIV, OR, AND, LSH, RSH, NEG, MOD, XOR, MOV, ARSH, END };
enum { JA, EQ, GT, GE, SET, NE, SGT, SGE, CALL, EXIT, LT, LE, SLT, SLE };

struct range { uint64_t lo, hi; };
struct word { enum kind kind; struct range at; };
/* `entries` has what is known of the double words of the stack whose bit is set in `some`. */
struct known { struct word regs[REGISTERS]; uint64_t marks[STACK / 64], some; struct word entries[STACK / 8]; };
struct insn { uint8_t op, dst, src, slots; int16_t off; int32_t imm; uint64_t value; };

static struct insn program[SLOTS];
static uint32_t count, nodes = 4, memory = 16;

/* ---- ranges */

static const uint64_t LOW = 0xffffffffu;
static uint64_t top(bool w64) { return w64 ? UINT64_MAX : LOW; }
static struct range of(uint64_t lo, uint64_t hi) { return (struct range){lo, hi}; }
static struct range full(bool w64) { return of(0, top(w64)); }
static bool single(struct range a) { return a.lo == a.hi; }
static uint64_t least(uint64_t a, uint64_t b) { return a < b ? a : b; }
static uint64_t most(uint64_t a, uint64_t b) { return a > b ? a : b; }
static struct range hull(struct range a, struct range b) { return of(least(a.lo, b.lo), most(a.hi, b.hi)); }
static uint64_t ones(uint64_t v) { return v == 0 ? 0 : UINT64_MAX >> __builtin_clzll(v); }
static int64_t sign(bool w64, uint64_t v) { return w64 ? (int64_t)v : (int32_t)v; }
static uint64_t sign_bit(bool w64) { return w64 ? 1ull << 63 : 1ull << 31; }

static struct range fitting(bool w64, wide lo, wide hi) { return hi <= top(w64) ? of((uint64_t)lo, (uint64_t)hi) : full(w64); }

static uint64_t exact(int code, bool off, bool w64, uint64_t a, uint64_t b) {
  a &= top(w64), b &= top(w64);
  int64_t x = sign(w64, a), y = sign(w64, b), minimum = w64 ? INT64_MIN : INT32_MIN;
  uint64_t r = 0;
  switch (code) {
  case ADD: r = a + b; break;
  case SUB: r = a - b; break;
  case MUL: r = a * b; break;
  case DIV: r = off ? (y == 0 ? 0 : x == minimum && y == -1 ? a : (uint64_t)(x / y)) : b == 0 ? 0 : a / b; break;
  case MOD: r = off ? (y == 0 ? a : x == minimum && y == -1 ? 0 : (uint64_t)(x % y)) : b == 0 ? a : a % b; break;
  case OR: r = a | b; break;
  case AND: r = a & b; break;
  case XOR: r = a ^ b; break;
  case LSH: r = a << (b % (w64 ? 64 : 32)); break;
  case RSH: r = a >> (b % (w64 ? 64 : 32)); break;
  case ARSH: r = (uint64_t)(x >> (b % (w64 ? 64 : 32))); break;
  case MOV: r = b; break;
  }
  return r & top(w64);
}

static struct range alu(int code, bool off, bool w64, struct range a, struct range b) {
  uint64_t T = top(w64), v;
  if (single(a) && single(b)) return v = exact(code, off, w64, a.lo, b.lo), of(v, v);
  if (a.hi > T) a = of(0, T);
  if (b.hi > T) b = of(0, T);
  unsigned s = b.lo % (w64 ? 64 : 32);
  switch (code) {
  case ADD: return fitting(w64, (wide)a.lo + b.lo, (wide)a.hi + b.hi);
  case SUB: return a.lo >= b.hi ? of(a.lo - b.hi, a.hi - b.lo) : full(w64);
  case MUL: return fitting(w64, (wide)a.lo * b.lo, (wide)a.hi * b.hi);
  case DIV: return off ? full(w64) : b.lo >= 1 ? of(a.lo / b.hi, a.hi / b.lo) : of(0, a.hi);
  case MOD: return off ? full(w64) : of(0, b.lo >= 1 ? least(a.hi, b.hi - 1) : a.hi);
  case AND: return of(0, least(a.hi, b.hi));
  case OR: return of(most(a.lo, b.lo), ones(most(a.hi, b.hi)));
  case XOR: return of(0, ones(most(a.hi, b.hi)));
  case LSH: return single(b) ? fitting(w64, (wide)a.lo << s, (wide)a.hi << s) : full(w64);
  case ARSH: if (a.hi >= sign_bit(w64)) return full(w64); /* fall through */
  case RSH: return single(b) ? of(a.lo >> s, a.hi >> s) : of(0, a.hi);
  default: return b;
  }
}

static bool holds(int code, bool w64, uint64_t a, uint64_t b) {
  a &= top(w64), b &= top(w64);
  int64_t x = sign(w64, a), y = sign(w64, b);
  switch (code) {
  case EQ: return a == b;
  case NE: return a != b;
  case GT: return a > b;
  case GE: return a >= b;
  case LT: return a < b;
  case LE: return a <= b;
  case SET: return (a & b) != 0;
  case SGT: return x > y;
  case SGE: return x >= y;
  case SLT: return x < y;
  default: return x <= y;
  }
}

static bool less(struct range *a, struct range *b, bool equal) {
  if (equal ? a->lo > b->hi : a->lo >= b->hi) return false;
  uint64_t one = !equal, hi = least(a->hi, b->hi - one), lo = most(b->lo, a->lo + one);
  a->hi = hi, b->lo = lo;
  return true;
}

static void unequal(struct range *a, struct range b) {
  if (!single(b) || single(*a)) return;
  if (b.lo == a->lo) a->lo++;
  else if (b.lo == a->hi) a->hi--;
}

/* What is left of both where the condition holds, or where it doesn't. */
static bool branch(int code, bool w64, struct range *a, struct range *b, bool taken) {
  static const int opposite[14] = {0, NE, LE, LT, -1, EQ, SLE, SLT, 0, 0, GE, GT, SGE, SGT};
  if (single(*a) && single(*b)) return holds(code, w64, a->lo, b->lo) == taken;
  if (a->hi > top(w64) || b->hi > top(w64)) return true;
  if (!taken) code = opposite[code];
  if (code == SGT || code == SGE || code == SLT || code == SLE) {
    if (a->hi >= sign_bit(w64) || b->hi >= sign_bit(w64)) return true;
    code = code == SGT ? GT : code == SGE ? GE : code == SLT ? LT : LE;
  }
  struct range left = *a;
  switch (code) {
  case EQ: *a = *b = of(most(a->lo, b->lo), least(a->hi, b->hi)); return a->lo <= a->hi;
  case NE: unequal(a, *b), unequal(b, left); return true;
  case LT: return less(a, b, false);
  case LE: return less(a, b, true);
  case GT: return less(b, a, false);
  case GE: return less(b, a, true);
  default: return true;
  }
}

/* ---- abstract states */

static void copy(struct known *to, const struct known *from) {
  memcpy(to, from, from->some ? sizeof *to : offsetof(struct known, entries));
}

static void join(struct known *to, const struct known *from) {
  for (int r = 0; r < REGISTERS; r++) {
    struct word *a = &to->regs[r];
    const struct word *b = &from->regs[r];
    if (a->kind != b->kind) a->kind = UNSET;
    else a->at = hull(a->at, b->at);
  }
  for (int w = 0; w < STACK / 64; w++) to->marks[w] &= from->marks[w];
  to->some &= from->some;
  for (uint64_t left = to->some; left != 0; left &= left - 1) {
    int d = __builtin_ctzll(left);
    if (to->entries[d].kind != from->entries[d].kind) to->some &= ~(1ull << d);
    else to->entries[d].at = hull(to->entries[d].at, from->entries[d].at);
  }
}

static bool marked(const struct known *k, int64_t byte) { return k->marks[byte / 64] >> (byte % 64) & 1; }
static uint32_t region(enum kind kind) { return kind == MEM ? memory : STACK; }
static bool is_pointer(struct word w) { return w.kind == MEM || w.kind == FRAME; }
static bool is_unset(const struct known *k, int r) { return k->regs[r].kind == UNSET; }

static int class_of(const struct insn *i) { return i->op & 7; }
static int code_of(const struct insn *i) { return i->op >> 4; }
static bool by_register(const struct insn *i) { return i->op & 8; }
static bool is_alu(const struct insn *i) { return class_of(i) == 4 || class_of(i) == 7; }
static bool is_jump(const struct insn *i) { return class_of(i) == 5 || class_of(i) == 6; }
static bool is_exit(const struct insn *i) { return i->op == 0x95; }
static bool is_call(const struct insn *i) { return i->op == 0x85; }
static bool is_ja(const struct insn *i) { return i->op == 0x05 || i->op == 0x06; }
static bool is_branch(const struct insn *i) { return is_jump(i) && !is_ja(i) && !is_call(i) && !is_exit(i); }
static bool is_load(const struct insn *i) { return class_of(i) == 1; }
static bool is_store(const struct insn *i) { return class_of(i) == 2 || class_of(i) == 3; }
static bool is_64(const struct insn *i) { return class_of(i) == 7 || class_of(i) == 5; }
static int bytes_of(const struct insn *i) { return "\4\2\1\10"[i->op >> 3 & 3]; }
static int base_of(const struct insn *i) { return is_load(i) ? i->src : i->dst; }

static struct word operand(const struct insn *i, const struct known *k) {
  if (by_register(i)) return k->regs[i->src];
  uint64_t v = (uint64_t)(int64_t)i->imm & top(is_64(i));
  return (struct word){NUMBER, {v, v}};
}

/* The slots to which it leads onward and by its jump, or -1. */
static int64_t onward(const struct insn *i, int64_t slot) { return is_exit(i) || is_ja(i) ? -1 : slot + i->slots; }
static int64_t distance(const struct insn *i) { return i->op == 0x06 ? i->imm : i->off; }
static bool jumps(const struct insn *i) { return is_ja(i) || is_branch(i); }

static bool begins(int64_t slot) { return 0 <= slot && slot < count && program[slot].slots != 0; }

static bool reads_unset(const struct insn *i, const struct known *k) {
  int code = code_of(i);
  if (is_exit(i)) return is_unset(k, 0);
  if (is_call(i)) return (i->imm == 2 || i->imm == 3) && (is_unset(k, 1) || (i->imm == 3 && is_unset(k, 2)));
  if (is_alu(i) && (code == NEG || code == END)) return is_unset(k, i->dst);
  if (is_alu(i) || is_branch(i)) return (by_register(i) && is_unset(k, i->src)) || (!(is_alu(i) && code == MOV) && is_unset(k, i->dst));
  if (is_load(i) || is_store(i)) return is_unset(k, base_of(i)) || (class_of(i) == 3 && is_unset(k, i->src));
  return false;
}

static bool leaves(const struct insn *i, const struct known *k) {
  if (!is_load(i) && !is_store(i)) return false;
  struct word base = k->regs[base_of(i)];
  return is_pointer(base) && ((__int128)base.at.lo + i->off < 0 || (__int128)base.at.hi + i->off + bytes_of(i) > region(base.kind));
}

/* An access takes one double word of the stack whole. */
static bool takes_dword(const struct insn *i, const struct known *k) {
  struct word base = k->regs[base_of(i)];
  return bytes_of(i) == 8 && base.kind == FRAME && single(base.at) && (base.at.lo + (uint64_t)(int64_t)i->off) % 8 == 0;
}

/* A load inside the stack may take a byte of a kept pointer. */
static bool touches(const struct insn *i, const struct known *k) {
  struct word base = k->regs[base_of(i)];
  if (k->some == 0 || base.kind != FRAME) return false;
  for (int64_t d = ((int64_t)base.at.lo + i->off) / 8; d <= ((int64_t)base.at.hi + i->off + bytes_of(i) - 1) / 8; d++)
    if ((k->some >> d & 1) && is_pointer(k->entries[d])) return true;
  return false;
}

static bool misuses(const struct insn *i, const struct known *k) {
  struct word a = k->regs[i->dst], b;
  int code = code_of(i);
  if (is_load(i)) return k->some != 0 && !leaves(i, k) && touches(i, k) && !takes_dword(i, k);
  if (class_of(i) == 3) return is_pointer(k->regs[i->src]) && !takes_dword(i, k);
  if (is_branch(i)) return is_pointer(a) || is_pointer(operand(i, k));
  if (!is_alu(i)) return false;
  if (code == NEG || code == END) return is_pointer(a);
  b = operand(i, k);
  if (code == MOV) return is_pointer(b) && (class_of(i) == 4 || i->off != 0);
  if (!is_pointer(a) && !is_pointer(b)) return false;
  if (class_of(i) == 4 || (code != ADD && code != SUB) || (is_pointer(a) && is_pointer(b)) || (code == SUB && is_pointer(b))) return true;
  return alu(code, false, true, a.at, b.at).hi > region(is_pointer(a) ? a.kind : b.kind);
}

static bool loads_unset(const struct insn *i, const struct known *k) {
  struct word base = k->regs[base_of(i)];
  if (!is_load(i) || base.kind != FRAME) return false;
  for (int64_t byte = (int64_t)base.at.lo + i->off; byte < (int64_t)base.at.hi + i->off + bytes_of(i); byte++)
    if (!marked(k, byte)) return !touches(i, k);
  return false;
}

static bool misses(const struct insn *i, const struct known *k) {
  if (!is_call(i) || (i->imm != 2 && i->imm != 3)) return false;
  if (k->regs[1].kind != NUMBER || k->regs[1].at.hi >= nodes) return true;
  return i->imm == 3 && (k->regs[2].kind != NUMBER || k->regs[2].at.hi > LOW);
}

static bool writes_frame(const struct insn *i) { return i->dst == 10 && (is_alu(i) || is_load(i) || class_of(i) == 0); }

static int broken(const struct insn *i, int64_t slot, const struct known *k) {
  int64_t on = onward(i, slot), to = slot + 1 + distance(i);
  if (jumps(i) && distance(i) < 0) return 1;
  if ((on >= 0 && !begins(on)) || (jumps(i) && !begins(to))) return 2;
  if (is_call(i) && (i->imm < 1 || i->imm > 4)) return 3;
  if (k && reads_unset(i, k)) return 4;
  if (writes_frame(i)) return 5;
  if (!k) return 0;
  if (misuses(i, k)) return 6;
  if (leaves(i, k)) return 7;
  if (loads_unset(i, k)) return 8;
  if (misses(i, k)) return 9;
  if (is_exit(i) && is_pointer(k->regs[0])) return 10;
  if ((is_load(i) || is_store(i)) && k->regs[base_of(i)].kind == NUMBER) return 11;
  return 0;
}

/* ---- outcomes */

static uint64_t swapped(const struct insn *i, uint64_t v) {
  uint64_t turned = i->imm == 16 ? __builtin_bswap16((uint16_t)v) : i->imm == 32 ? __builtin_bswap32((uint32_t)v) : __builtin_bswap64(v);
  uint64_t kept = i->imm == 16 ? v & 0xffff : i->imm == 32 ? v & LOW : v;
  return i->op == 0xd4 ? kept : turned;
}

static uint64_t extended(const struct insn *i, uint64_t v) {
  int64_t r = i->off == 8 ? (int8_t)v : i->off == 16 ? (int16_t)v : (int32_t)v;
  return (uint64_t)r & top(is_64(i));
}

static void apply_alu(const struct insn *i, struct known *k) {
  struct word *d = &k->regs[i->dst], b;
  int code = code_of(i);
  bool w64 = is_64(i);
  uint64_t v;
  if (code == NEG || code == END || (code == MOV && i->off != 0)) {
    if (code == MOV) *d = k->regs[i->src];
    if (!single(d->at)) d->at = code == END ? of(0, i->imm == 64 ? UINT64_MAX : (1ull << i->imm) - 1) : full(w64);
    else v = code == NEG ? (0 - d->at.lo) & top(w64) : code == END ? swapped(i, d->at.lo) : extended(i, d->at.lo), d->at = of(v, v);
    return;
  }
  b = operand(i, k);
  if (code == MOV && w64) *d = b;
  else if (code == MOV) *d = (struct word){NUMBER, alu(MOV, false, false, b.at, b.at)};
  else d->at = alu(code, i->off == 1, w64, d->at, b.at), d->kind = is_pointer(b) ? b.kind : d->kind;
}

static bool apply_branch(const struct insn *i, struct known *k, bool taken) {
  struct word b = operand(i, k);
  struct range x = k->regs[i->dst].at, y = b.at;
  if (!branch(code_of(i), is_64(i), &x, &y, taken)) return false;
  if (by_register(i) && i->src == i->dst) {
    x = of(most(x.lo, y.lo), least(x.hi, y.hi));
    if (x.lo > x.hi) return false;
  } else if (by_register(i)) k->regs[i->src].at = y;
  k->regs[i->dst].at = x;
  return true;
}

static void apply_store(const struct insn *i, struct known *k) {
  struct word base = k->regs[i->dst];
  if (base.kind != FRAME) return;
  int64_t first = (int64_t)base.at.lo + i->off, end = (int64_t)base.at.hi + i->off + bytes_of(i);
  bool pointer = false;
  if (takes_dword(i, k)) {
    uint64_t imm = (uint64_t)(int64_t)i->imm;
    struct word value = class_of(i) == 3 ? k->regs[i->src] : (struct word){NUMBER, {imm, imm}};
    k->entries[first / 8] = value, k->some |= 1ull << first / 8;
    pointer = is_pointer(value);
  } else
    for (int64_t d = first / 8; d <= (end - 1) / 8; d++) k->some &= ~(1ull << d);
  if (!single(base.at)) return;
  for (int64_t byte = first; byte < end; byte++) {
    uint64_t bit = 1ull << (byte % 64);
    k->marks[byte / 64] = pointer ? k->marks[byte / 64] & ~bit : k->marks[byte / 64] | bit;
  }
}

static bool apply(const struct insn *i, struct known *k, bool taken) {
  static const uint64_t answers[5] = {0, 0, 0xffffffffu, 0, 1};
  if (is_exit(i)) return false;
  if (is_branch(i)) return apply_branch(i, k, taken);
  if (is_alu(i)) apply_alu(i, k);
  else if (is_call(i)) {
    k->regs[0] = (struct word){NUMBER, {0, i->imm == 1 ? nodes - 1 : answers[i->imm]}};
    for (int r = 1; r <= 5; r++) k->regs[r].kind = UNSET;
  } else if (is_load(i)) {
    int bytes = bytes_of(i);
    bool whole = bytes == 8 || i->op >> 5 == 4;
    uint64_t d = (k->regs[i->src].at.lo + (uint64_t)(int64_t)i->off) / 8;
    if (k->some != 0 && takes_dword(i, k) && (k->some >> d & 1)) k->regs[i->dst] = k->entries[d];
    else k->regs[i->dst] = (struct word){NUMBER, {0, whole ? UINT64_MAX : (1ull << 8 * bytes) - 1}};
  } else if (is_store(i)) apply_store(i, k);
  else if (class_of(i) == 0) k->regs[i->dst] = (struct word){NUMBER, {i->value, i->value}};
  return true;
}

/* ---- the walk and the longest path */

static uint32_t longest(void) {
  static uint32_t counts[SLOTS];
  for (int64_t slot = (int64_t)count - 1; slot >= 0; slot--) {
    const struct insn *i = &program[slot];
    if (i->slots == 0) continue;
    int64_t on = onward(i, slot);
    uint32_t a = on >= 0 ? counts[on] : 0, b = jumps(i) ? counts[slot + 1 + distance(i)] : 0;
    counts[slot] = 1 + (a > b ? a : b);
  }
  return counts[0];
}

/* The rule that is broken, or 0; its slot, or the longest path. A row lives until the walk comes to its slot. */
static int verify(uint32_t *told) {
  static struct known *rows[SLOTS];
  struct known front, after;
  bool reached = true;
  memset(rows, 0, count * sizeof *rows);
  memset(&front, 0, sizeof front);
  front.regs[1] = (struct word){MEM, {0, 0}};
  front.regs[2] = (struct word){NUMBER, {0, nodes - 1}};
  front.regs[10] = (struct word){FRAME, {STACK, STACK}};
  for (uint32_t slot = 0; slot < count; slot += program[slot].slots) {
    const struct insn *i = &program[slot];
    if (rows[slot]) {
      if (reached) join(rows[slot], &front);
      copy(&front, rows[slot]), reached = true;
      free(rows[slot]), rows[slot] = NULL;
    }
    int rule = broken(i, slot, reached ? &front : NULL);
    if (rule != 0) {
      for (uint32_t s = slot; s < count; s++) free(rows[s]), rows[s] = NULL;
      return *told = slot, rule;
    }
    if (!reached) continue;
    if (jumps(i)) {
      copy(&after, &front);
      int64_t to = slot + 1 + distance(i);
      if (!apply(i, &after, true)) ;
      else if (rows[to]) join(rows[to], &after);
      else rows[to] = malloc(sizeof after), copy(rows[to], &after);
    }
    reached = onward(i, slot) >= 0 && apply(i, &front, false);
  }
  return *told = longest(), 0;
}

static void read_image(void) {
  static uint8_t image[8 * SLOTS + 1];
  count = (uint32_t)fread(image, 1, sizeof image, stdin) / 8;
  for (uint32_t s = 0; s < count; s++) {
    const uint8_t *b = image + 8 * s;
    struct insn *i = &program[s];
    i->op = b[0], i->dst = b[1] & 15, i->src = b[1] >> 4, i->slots = 1;
    memcpy(&i->off, b + 2, 2), memcpy(&i->imm, b + 4, 4);
    if (i->op == 0x18) {
      uint32_t high;
      memcpy(&high, b + 12, 4);
      i->value = (uint64_t)high << 32 | (uint32_t)i->imm, i->slots = 2;
      program[++s].slots = 0;
    }
  }
}

int main(int argc, char **argv) {
  uint64_t rounds = 0, sum = 0;
  uint32_t told;
  for (int a = 1; a + 1 < argc; a += 2) {
    if (strcmp(argv[a], "--nodes") == 0) nodes = (uint32_t)atoi(argv[a + 1]);
    else if (strcmp(argv[a], "--memory") == 0) memory = (uint32_t)atoi(argv[a + 1]);
    else rounds = strtoull(argv[a + 1], NULL, 10);
  }
  read_image();
  int rule = verify(&told);
  if (rounds == 0 && rule != 0) return printf("refused rule %d slot %u\n", rule, told), 2;
  if (rounds == 0) return printf("accepted slots %u announced %u\n", count, told), 0;
  for (uint64_t round = 0; round < rounds; round++)
    if (verify(&told) == 0) sum += told;
  printf("announced %llu\n", (unsigned long long)sum);
  return 0;
}
