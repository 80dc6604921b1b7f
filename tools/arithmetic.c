/* Runs each arithmetic instruction on this processor, on operands that a seed gives, and prints a digest of the results and of the flags
   that are defined, a line for each operation and width. `compare_arithmetic.py` runs the same operands through `cet_alu`. */
#include <setjmp.h>
#include <signal.h>
#include <stdint.h>
#include <stdio.h>
#include <stdlib.h>
#include <string.h>

typedef uint8_t u8;
typedef uint32_t u32;
typedef uint64_t u64;

enum { CF = 1, ZF = 2, SF = 4, OF = 8, ALL = 15 };

static u64 state;

static u64 next(void) {
  state ^= state << 13;
  state ^= state >> 7;
  state ^= state << 17;
  return state;
}

/* an operand: at a bound, near one, short, or any */
static u64 operand(int bits) {
  u64 mask = ~0ULL >> (64 - bits), half = 1ULL << (bits - 1), kind = next() % 16, v = next();
  u64 n;
  switch (kind) {
    case 0: n = 0; break;
    case 1: n = mask; break;
    case 2: n = half; break;
    case 3: n = half - 1; break;
    case 4: n = v >> 60; break;
    case 5: n = mask - (v >> 60); break;
    case 6: case 7: case 8: n = v >> (v % 64); break;
    default: n = v; break;
  }
  return n & mask;
}

static u64 digest;

static void note(u64 n) {
  digest = (digest ^ n) * 0x100000001b3ULL;
  digest ^= digest >> 29;
}

/* the four flags to and from EFLAGS */
static u64 word_of(u64 f) { return 2 | (f & 1) | (f >> 1 & 1) << 6 | (f >> 2 & 1) << 7 | (f >> 3 & 1) << 11; }
static u64 flags_of(u64 w) { return (w & 1) | (w >> 6 & 1) << 1 | (w >> 7 & 1) << 2 | (w >> 11 & 1) << 3; }

/* `flags` goes in and comes out; the code was compiled without a red zone */
#define WITH_FLAGS(code) "pushq %[flags]\n\tpopfq\n\t" code "\n\tpushfq\n\tpopq %[flags]"

#define TWO(name, code, type) \
  static u64 name(u64 x, u64 y, u64 *flags) { \
    type a = x, b = y; \
    __asm__ volatile(WITH_FLAGS(code " %[b], %[a]") : [a] "+&r"(a), [flags] "+&r"(*flags) : [b] "r"(b) : "cc", "memory"); \
    return a; \
  }
#define ONE(name, code, type) \
  static u64 name(u64 x, u64 y, u64 *flags) { \
    type a = x; \
    __asm__ volatile(WITH_FLAGS(code " %[a]") : [a] "+&r"(a), [flags] "+&r"(*flags) : : "cc", "memory"); \
    return a; \
  }
#define BY_CL(name, code, type) \
  static u64 name(u64 x, u64 y, u64 *flags) { \
    type a = x; \
    u8 count = y; \
    __asm__ volatile(WITH_FLAGS(code " %%cl, %[a]") : [a] "+&r"(a), [flags] "+&r"(*flags) : "c"(count) : "cc", "memory"); \
    return a; \
  }
#define EACH(kind, name) kind(name##_1, #name "b", u8) kind(name##_4, #name "l", u32) kind(name##_8, #name "q", u64)

EACH(TWO, add) EACH(TWO, or) EACH(TWO, adc) EACH(TWO, sbb) EACH(TWO, and) EACH(TWO, sub) EACH(TWO, xor) EACH(TWO, cmp)
EACH(ONE, inc) EACH(ONE, dec) EACH(ONE, not) EACH(ONE, neg)
EACH(BY_CL, rol) EACH(BY_CL, ror) EACH(BY_CL, shl) EACH(BY_CL, shr) EACH(BY_CL, sar)
TWO(imul_4, "imull", u32)
TWO(imul_8, "imulq", u64)

/* the low half in the accumulator, the high half in the data register */
#define WIDE(name, code, type) \
  static void name(u64 *low, u64 *high, u64 by, u64 *flags) { \
    type a = *low, d = *high, b = by; \
    __asm__ volatile(WITH_FLAGS(code " %[b]") : "+&a"(a), "+&d"(d), [flags] "+&r"(*flags) : [b] "r"(b) : "cc", "memory"); \
    *low = a; \
    *high = d; \
  }
WIDE(mul_4, "mull", u32) WIDE(mul_8, "mulq", u64) WIDE(imul1_4, "imull", u32) WIDE(imul1_8, "imulq", u64)
WIDE(div_4, "divl", u32) WIDE(div_8, "divq", u64) WIDE(idiv_4, "idivl", u32) WIDE(idiv_8, "idivq", u64)

typedef u64 Plain(u64, u64, u64 *);
typedef void Wide(u64 *, u64 *, u64, u64 *);

static int bits_of(int width) { return width * 8; }

/* the flags of a shift that are defined (SDM volume 2, "RCL/RCR/ROL/ROR" and "SAL/SAR/SHL/SHR") */
static u64 defined_of_shift(const char *name, int width, u64 count) {
  u64 masked = count & (width == 8 ? 63 : 31), defined = ALL;
  if (masked == 0) return ALL;
  if (masked != 1) defined &= ~OF;
  if ((!strcmp(name, "Shl") || !strcmp(name, "Shr")) && masked >= (u64)bits_of(width)) defined &= ~CF;
  return defined;
}

static void plain(const char *name, int width, Plain *run, int kind, u64 count) {
  digest = 0;
  for (u64 i = 0; i < count; i++) {
    u64 x = operand(bits_of(width)), y = operand(kind == 's' ? 8 : bits_of(width)), old = next() % 16;
    u64 flags = word_of(old), defined = kind == 's' ? defined_of_shift(name, width, y) : kind == 'i' ? CF | OF : ALL;
    u64 result = run(x, y, &flags);
    if (strcmp(name, "Cmp")) note(result);
    note(defined);
    note(flags_of(flags) & defined);
  }
  printf("%s %d %llu\n", name, width, (unsigned long long)digest);
}

static void product(const char *name, int width, Wide *run, u64 count) {
  digest = 0;
  for (u64 i = 0; i < count; i++) {
    u64 x = operand(bits_of(width)), y = operand(bits_of(width)), old = next() % 16;
    u64 flags = word_of(old), high = 0;
    run(&x, &high, y, &flags);
    note(x);
    note(high);
    note(CF | OF);
    note(flags_of(flags) & (CF | OF));
  }
  printf("%s %d %llu\n", name, width, (unsigned long long)digest);
}

static sigjmp_buf out;
static void divide_error(int signal) { siglongjmp(out, signal); }

static void quotient(const char *name, int width, Wide *run, u64 count) {
  volatile u64 none = 0;
  digest = 0;
  for (volatile u64 i = 0; i < count; i++) {
    u64 mask = ~0ULL >> (64 - bits_of(width));
    u64 high = operand(bits_of(width)), low = operand(bits_of(width)), by = operand(bits_of(width)), kind = next() % 4;
    u64 flags = 2;
    /* quotients that fit, or nearly: a high half below the divisor, or the spread sign of the low half */
    if (kind == 0 && by != 0) high = high % by;
    if (kind == 1) high = low >> (bits_of(width) - 1) ? mask : 0;
    if (kind == 2) high = high % 4;
    if (sigsetjmp(out, 1)) {
      none++;
      note(0);
      continue;
    }
    run(&low, &high, by, &flags);
    note(1);
    note(low);
    note(high);
  }
  printf("%s %d %llu\n", name, width, (unsigned long long)digest);
  fprintf(stderr, "%s %d: %llu divide errors\n", name, width, (unsigned long long)none);
}

#define SET(c) \
  { \
    u8 is; \
    __asm__ volatile("pushq %[flags]\n\tpopfq\n\tset" #c " %[is]" : [is] "=r"(is) : [flags] "r"(word_of(f)) : "cc", "memory"); \
    note(is); \
  }

static void conditions(void) {
  digest = 0;
  for (u64 f = 0; f < 16; f++) {
    SET(o) SET(no) SET(b) SET(ae) SET(e) SET(ne) SET(be) SET(a) SET(s) SET(ns) SET(l) SET(ge) SET(le) SET(g)
  }
  printf("Cond 1 %llu\n", (unsigned long long)digest);
}

#define PLAIN(name, call, kind) plain(name, 1, call##_1, kind, count); plain(name, 4, call##_4, kind, count); plain(name, 8, call##_8, kind, count);

int main(int argc, char **argv) {
  u64 count = argc > 1 ? strtoull(argv[1], 0, 10) : 50000;
  state = argc > 2 ? strtoull(argv[2], 0, 10) : 1;
  struct sigaction action = {.sa_handler = divide_error};
  sigaction(SIGFPE, &action, 0);
  PLAIN("Add", add, 'a') PLAIN("Or", or, 'a') PLAIN("Adc", adc, 'a') PLAIN("Sbb", sbb, 'a')
  PLAIN("And", and, 'a') PLAIN("Sub", sub, 'a') PLAIN("Xor", xor, 'a') PLAIN("Cmp", cmp, 'a')
  PLAIN("Inc", inc, 'u') PLAIN("Dec", dec, 'u') PLAIN("Not", not, 'u') PLAIN("Neg", neg, 'u')
  PLAIN("Rol", rol, 's') PLAIN("Ror", ror, 's') PLAIN("Shl", shl, 's') PLAIN("Shr", shr, 's') PLAIN("Sar", sar, 's')
  plain("IMul", 4, imul_4, 'i', count);
  plain("IMul", 8, imul_8, 'i', count);
  product("Mul", 4, mul_4, count);
  product("Mul", 8, mul_8, count);
  product("IMul1", 4, imul1_4, count);
  product("IMul1", 8, imul1_8, count);
  quotient("Div", 4, div_4, count);
  quotient("Div", 8, div_8, count);
  quotient("IDiv", 4, idiv_4, count);
  quotient("IDiv", 8, idiv_8, count);
  conditions();
  return 0;
}
