/* What the tests in C ask of a C library, and how a program starts and ends, on every target of tools/archive: a Linux program
   with no C library in it, or for WebAssembly a module whose `run` an engine calls. It is compiled with -fno-builtin, so that no
   loop of this file becomes a call of the function that it stands in. */
#include <stddef.h>
#include <stdint.h>
#include <stdio.h>
#include <stdlib.h>
#include <string.h>

/* ---- The machine: to write, to start and to end ---- */

#ifdef __wasm__

/* clang names main by its parameters here: a main without any takes the place of the weak one. */
__attribute__((weak)) int __main_argc_argv(int argc, char **argv);
__attribute__((weak)) int __main_void(void) { return __main_argc_argv(0, NULL); }
__attribute__((export_name("run"))) int run(void) { return __main_void(); }

__attribute__((import_module("engine"), import_name("write"))) void write_bytes(const char *bytes, size_t n);

#else

#if defined __x86_64__
enum { WRITE = 1, EXIT = 231 };
#define START "mov %rsp, %rdi; call begin"
#define CALL "mov %rdi, %rax; mov %rsi, %rdi; mov %rdx, %rsi; mov %rcx, %rdx; syscall; ret"
#elif defined __aarch64__
enum { WRITE = 64, EXIT = 94 };
#define START "mov x0, sp; bl begin"
#define CALL "mov x8, x0; mov x0, x1; mov x1, x2; mov x2, x3; svc 0; ret"
#elif defined __arm__
enum { WRITE = 4, EXIT = 248 };
#define START "mov r0, sp; bl begin"
#define CALL "push {r7, lr}; mov r7, r0; mov r0, r1; mov r1, r2; mov r2, r3; svc 0; pop {r7, pc}"
#elif defined __riscv
enum { WRITE = 64, EXIT = 94 };
#define START "mv a0, sp; call begin"
#define CALL "mv a7, a0; mv a0, a1; mv a1, a2; mv a2, a3; ecall; ret"
#endif

__attribute__((naked)) long system_call(long number, long a, const char *b, size_t c) { __asm__(CALL); }
__attribute__((naked)) void _start(void) { __asm__(START); }

static void write_bytes(const char *bytes, size_t n) { system_call(WRITE, 1, bytes, n); }

int main(int argc, char **argv);
__attribute__((used)) void begin(long *stack) {
  system_call(EXIT, main((int)stack[0], (char **)(stack + 1)), NULL, 0);
}

#endif

/* ---- Bytes ---- */

void *memcpy(void *to, const void *from, size_t n) {
  for (size_t i = 0; i < n; i++) ((uint8_t *)to)[i] = ((const uint8_t *)from)[i];
  return to;
}

void *memmove(void *to, const void *from, size_t n) {
  if ((const uint8_t *)to <= (const uint8_t *)from) return memcpy(to, from, n);
  while (n-- > 0) ((uint8_t *)to)[n] = ((const uint8_t *)from)[n];
  return to;
}

void *memset(void *to, int byte, size_t n) {
  for (size_t i = 0; i < n; i++) ((uint8_t *)to)[i] = (uint8_t)byte;
  return to;
}

int memcmp(const void *a, const void *b, size_t n) {
  const uint8_t *p = a, *q = b;
  for (; n > 0; n--, p++, q++)
    if (*p != *q) return *p - *q;
  return 0;
}

size_t strlen(const char *text) {
  size_t n = 0;
  while (text[n] != 0) n++;
  return n;
}

int strcmp(const char *a, const char *b) {
  for (; *a != 0 && *a == *b; a++) b++;
  return (uint8_t)*a - (uint8_t)*b;
}

/* ---- Room, numbers, printing ---- */

/* Room that is never given back. */
void *malloc(size_t size) {
  static uint8_t all[1 << 22];
  static size_t used;
  if (size > sizeof all - used) return NULL;
  used += size;
  return all + used - size;
}

/* Digits alone, with spaces before them. */
unsigned long strtoul(const char *text, char **end, int base) {
  unsigned long value = 0;
  const char *p = text, *first;
  while (*p == ' ') p++;
  for (first = p; *p >= '0' && *p <= '9'; p++) value = value * (unsigned long)base + (unsigned long)(*p - '0');
  if (end != NULL) *end = (char *)(p == first ? text : p);
  return value;
}

static void put(char byte) {
  static char held[256];
  static size_t used;
  held[used++] = byte;
  if (used < sizeof held && byte != '\n') return;
  write_bytes(held, used);
  used = 0;
}

/* Writes a number's digits and gives their count, by subtraction: a wide division would ask for one more function. */
static size_t digits(unsigned long long value, char out[20]) {
  size_t n = 0;
  for (int place = 19; place >= 0; place--) {
    unsigned long long one = 1;
    char digit = '0';
    for (int i = 0; i < place; i++) one *= 10;
    for (; value >= one; value -= one) digit++;
    if (n > 0 || digit > '0' || place == 0) out[n++] = digit;
  }
  return n;
}

/* What the tests use: %c, %s, %d of no negative number, %u, %lu, %llu; a width, and a minus sign before it. */
int printf(const char *format, ...) {
  __builtin_va_list all;
  __builtin_va_start(all, format);
  for (const char *p = format; *p != 0; p++) {
    char made[20];
    const char *text = made;
    size_t n = 1, width = 0, longs = 0;
    if (*p != '%') {
      put(*p);
      continue;
    }
    int left = *++p == '-';
    if (left) p++;
    for (; *p >= '0' && *p <= '9'; p++) width = 10 * width + (size_t)(*p - '0');
    for (; *p == 'l'; p++) longs++;
    if (*p == 's') n = strlen(text = __builtin_va_arg(all, const char *));
    else if (*p == 'c') made[0] = (char)__builtin_va_arg(all, int);
    else if (longs == 0) n = digits(__builtin_va_arg(all, unsigned), made);
    else if (longs == 1) n = digits(__builtin_va_arg(all, unsigned long), made);
    else n = digits(__builtin_va_arg(all, unsigned long long), made);
    size_t blanks = width > n ? width - n : 0;
    for (; !left && blanks > 0; blanks--) put(' ');
    for (size_t i = 0; i < n; i++) put(text[i]);
    for (; blanks > 0; blanks--) put(' ');
  }
  __builtin_va_end(all);
  return 0;
}

/* ---- What some ARM processors leave to functions ---- */

#ifdef __arm__

/* The quotient in the low word and the rest in the high one, which are the answer's two registers; for divisors under 2^31. */
uint64_t __aeabi_uidivmod(uint32_t n, uint32_t by) {
  uint32_t rest = 0;
  for (int bit = 0; bit < 32; bit++) {
    rest = rest << 1 | n >> 31;
    uint32_t fits = rest >= by;
    rest -= fits * by;
    n = n << 1 | fits;
  }
  return (uint64_t)rest << 32 | n;
}

uint32_t __aeabi_uidiv(uint32_t n, uint32_t by) { return (uint32_t)__aeabi_uidivmod(n, by); }

/* A wide product, with the low words multiplied by halves. */
uint64_t __aeabi_lmul(uint64_t a, uint64_t b) {
  uint32_t a0 = a & 0xFFFF, a1 = (uint32_t)a >> 16, b0 = b & 0xFFFF, b1 = (uint32_t)b >> 16;
  uint32_t low = a0 * b0, first = a1 * b0 + (low >> 16), second = a0 * b1 + (first & 0xFFFF);
  uint32_t high = a1 * b1 + (first >> 16) + (second >> 16);
  high += (uint32_t)a * (uint32_t)(b >> 32) + (uint32_t)(a >> 32) * (uint32_t)b;
  return (uint64_t)high << 32 | second << 16 | (low & 0xFFFF);
}

/* A shift that a variable counts, for the tests' own lines: the archive needs none, which tests/targets/run sees. */
uint64_t __aeabi_llsr(uint64_t a, int by) {
  uint32_t low = (uint32_t)a, high = (uint32_t)(a >> 32);
  for (; by > 0; by--) {
    low = low >> 1 | high << 31;
    high >>= 1;
  }
  return (uint64_t)high << 32 | low;
}

#endif
