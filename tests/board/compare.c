/* The archive against the plain C model: random calls, compared to the last byte of every lent buffer and the bytes
   around it. The seeds are fixed; another one comes from the command line. */
#include "linebox.h"
#include "model.h"
#include <stdio.h>
#include <stdlib.h>
#include <string.h>

/* ---- Chance ---- */

static uint64_t chance_state;

static uint64_t next(void) {
  uint64_t z = chance_state += 0x9E3779B97F4A7C15u;
  z = (z ^ (z >> 30)) * 0xBF58476D1CE4E5B9u;
  z = (z ^ (z >> 27)) * 0x94D049BB133111EBu;
  return z ^ (z >> 31);
}

static unsigned below(unsigned n) { return (unsigned)(next() >> 33) % n; }
static unsigned between(unsigned low, unsigned high) { return low + below(high - low + 1); }
static int percent(unsigned n) { return below(100) < n; }

/* ---- A call, made twice ---- */

enum { HOST, LINE, TU, FIND, KINDS };
static const char *const kind_name[KINDS] = {"host", "line", "tu", "find"};
enum { LONGEST = 70000, ROOM = 6 * LONGEST, GUARD = 25 }; /* an odd guard: nothing is aligned */

struct call {
  int kind;
  uint8_t state[LINEBOX_STATE];
  const uint8_t *in; /* null only with no bytes */
  uint64_t in_len;
  uint64_t lent[2];   /* lengths of the buffers in the order lent */
  int null_lent[2]; /* whether one of length 0 is lent as a null pointer */
};

/* Everything that a call can touch, with guards around it. */
struct side {
  uint8_t state[GUARD + LINEBOX_STATE + GUARD];
  uint64_t done[5]; /* guards at both ends */
  uint8_t *buffer[2];
  uint32_t answer;
};
static struct side archive, model;
static uint8_t *filling;
static unsigned long calls[KINDS], answers[KINDS][4], modes[12], stages[8], differences, bytes_in, bytes_out;

static void fill(struct side *s, const struct call *c) {
  memset(s->state, 0xA5, sizeof s->state);
  memcpy(s->state + GUARD, c->state, LINEBOX_STATE);
  for (int i = 0; i < 5; i++) s->done[i] = 0xD0D0D0D0D0D0D0D0u + (unsigned)i;
  for (int i = 0; i < 2; i++) memcpy(s->buffer[i], filling, c->lent[i] + 2 * GUARD);
}

static void make(const struct call *c, struct side *s, int by_model) {
  uint8_t *state = s->state + GUARD;
  uint8_t *a = c->null_lent[0] && c->lent[0] == 0 ? NULL : s->buffer[0] + GUARD;
  uint8_t *b = c->null_lent[1] && c->lent[1] == 0 ? NULL : s->buffer[1] + GUARD;
  uint64_t *done = s->done + 1;
  switch (c->kind) {
  case HOST:
    s->answer = (by_model ? model_host : linebox_host)(state, c->in, c->in_len, a, c->lent[0], b, c->lent[1], done);
    return;
  case LINE:
    s->answer = (by_model ? model_line : linebox_line)(state, c->in, c->in_len, a, c->lent[0], b, c->lent[1], done);
    return;
  case TU:
    s->answer = (by_model ? model_tu : linebox_tu)(state, c->in, c->in_len, a, c->lent[0], b, c->lent[1], done);
    return;
  default: s->answer = (by_model ? model_find : linebox_find)(c->in, c->in_len, done);
  }
}

/* Whether the model itself kept within what it was lent, so that equal bytes mean untouched guards. */
static int kept_within(const struct call *c, const struct side *s) {
  for (int i = 0; i < GUARD; i++)
    if (s->state[i] != 0xA5 || s->state[GUARD + LINEBOX_STATE + i] != 0xA5) return 0;
  int counts = c->kind == FIND ? 2 : 3;
  if (s->done[0] != 0xD0D0D0D0D0D0D0D0u) return 0;
  for (int i = counts + 1; i < 5; i++)
    if (s->done[i] != 0xD0D0D0D0D0D0D0D0u + (unsigned)i) return 0;
  for (int i = 0; i < 2; i++) {
    uint64_t written = c->kind == FIND ? 0 : s->done[2 + i];
    if (written > c->lent[i] || memcmp(s->buffer[i], filling, GUARD) != 0) return 0;
    if (memcmp(s->buffer[i] + GUARD + written, filling + GUARD + written, c->lent[i] + GUARD - written) != 0) return 0;
  }
  return s->answer != 3 || memcmp(s->state + GUARD, c->state, LINEBOX_STATE) == 0;
}

static int same(const struct call *c) {
  fill(&archive, c);
  fill(&model, c);
  make(c, &model, 1);
  make(c, &archive, 0);
  return archive.answer == model.answer && memcmp(archive.state, model.state, sizeof model.state) == 0 &&
         memcmp(archive.done, model.done, sizeof model.done) == 0 &&
         memcmp(archive.buffer[0], model.buffer[0], c->lent[0] + 2 * GUARD) == 0 &&
         memcmp(archive.buffer[1], model.buffer[1], c->lent[1] + 2 * GUARD) == 0 && kept_within(c, &model);
}

/* ---- Saying what differs ---- */

static void show_bytes(const char *name, const uint8_t *bytes, uint64_t n) {
  printf("  %s", name);
  for (uint64_t i = 0; i < n && i < 200; i++) {
    if (bytes[i] > 32 && bytes[i] < 127) printf(" %u'%c'", bytes[i], bytes[i]);
    else printf(" %u", bytes[i]);
  }
  printf(n > 200 ? " ... (%lu)\n" : "\n", (unsigned long)n);
}

static void show_side(const char *name, const struct call *c, const struct side *s) {
  printf("  %s: answer %u, done", name, s->answer);
  for (int i = 1; i < 4; i++) printf(" %llu", (unsigned long long)s->done[i]);
  printf("\n");
  for (int i = 0; i < LINEBOX_STATE; i++)
    if (s->state[GUARD + i] != c->state[i]) printf("    state[%d]: %u -> %u\n", i, c->state[i], s->state[GUARD + i]);
  for (int i = 0; i < 2 && c->kind != FIND; i++) {
    uint64_t end = c->lent[i] + GUARD, from = GUARD;
    while (end > from && s->buffer[i][end - 1] == filling[end - 1]) end--;
    if (end > from) show_bytes(i == 0 ? "  first buffer" : "  second buffer", s->buffer[i] + from, end - from);
  }
}

/* Makes a differing call smaller: fewer input bytes, and the state nearer to a fresh one. */
static void shrink(struct call *c, uint8_t *in) {
  uint8_t fresh[LINEBOX_STATE];
  int smaller = c->in_len <= 2000;
  model_fresh(fresh);
  memcpy(in, c->in, c->in_len);
  c->in = in;
  while (smaller) {
    smaller = 0;
    for (uint64_t i = 0; i < c->in_len; i++) {
      uint8_t old = in[i];
      memmove(in + i, in + i + 1, c->in_len - i - 1);
      c->in_len--;
      if (!same(c)) {
        smaller = 1;
        break;
      }
      memmove(in + i + 1, in + i, c->in_len - i);
      in[i] = old;
      c->in_len++;
    }
    for (int i = 0; i < LINEBOX_STATE && !smaller && c->kind != FIND; i++) {
      uint8_t old = c->state[i];
      if (old == fresh[i]) continue;
      c->state[i] = fresh[i];
      if (!same(c)) smaller = 1;
      else c->state[i] = old;
    }
  }
}

static void report(struct call c) {
  static uint8_t in[LONGEST];
  differences++;
  if (differences > 10) return; /* a cutting may go on for some more */
  shrink(&c, in);
  same(&c);
  printf("difference %lu, call %s:\n", differences, kind_name[c.kind]);
  if (c.kind != FIND) show_bytes("state 0-45", c.state, 46);
  for (int i = 46; i < LINEBOX_STATE; i++)
    if (c.kind != FIND && c.state[i] != 0) printf("  state[%d] = %u\n", i, c.state[i]);
  show_bytes("input", c.in, c.in_len);
  printf("  lent %lu %lu\n", (unsigned long)c.lent[0], (unsigned long)c.lent[1]);
  show_side("archive", &c, &archive);
  show_side("model", &c, &model);
}

/* Makes the call on both sides; `model` holds what came out. */
static void compare(const struct call *c) {
  calls[c->kind]++;
  if (!same(c)) {
    report(*c);
    same(c);
  }
  answers[c->kind][model.answer]++;
  if (c->kind != FIND && model.answer != 3) {
    modes[c->state[14]]++;
    stages[c->state[23]]++;
  }
  bytes_in += c->kind == FIND ? c->in_len : model.done[1];
  if (c->kind != FIND) bytes_out += model.done[2] + model.done[3];
}

/* ---- Host bytes ---- */

static const char with_code[] = "ABCDEFGHIJKLMNOPQRSTUVWXYZ0123456789-$',!:(\")2#?&.;";
static const char without_code[] = "%*+<=>@[\\]^_`{|}~\1\6\b\t\f\20\21\33\37\177\200\215\240\257\301\377";

static uint8_t text_byte(void) {
  unsigned n = below(100);
  if (n < 5) return (uint8_t)without_code[below(sizeof without_code - 1)];
  if (n < 30) return (uint8_t)('A' + below(26));
  if (n < 38) return (uint8_t)('a' + below(26));
  if (n < 56) return (uint8_t)with_code[below(sizeof with_code - 1)];
  if (n < 66) return ' ';
  if (n < 71) return 13;
  if (n < 75) return 10;
  if (n < 78) return 7;
  if (n < 80) return 0;
  if (n < 85) return 14;
  if (n < 90) return 15;
  if (n < 93) return '/';
  if (n < 95) return '.';
  if (n < 97) return (uint8_t)below(128);
  return (uint8_t)below(256);
}

/* A stand-in that 77 may hold, other than 0. */
static uint8_t stand_in(void) {
  unsigned n = below(10);
  return n == 0 ? '/' : n < 4 ? (uint8_t)('a' + below(26)) : (uint8_t)with_code[below(sizeof with_code - 1)];
}

/* One of eight codes of a string 90, mostly by its rules. */
static void string_90(uint8_t s[8]) {
  unsigned before = percent(70) ? 0 : below(4), length = before + 1 + below(8 - before);
  memset(s, 0, 8);
  for (unsigned i = 0; i < length; i++) {
    if (i < before) s[i] = (uint8_t[]){2, 27, 31}[below(3)];
    else if (i == before) s[i] = 8;
    else s[i] = percent(50) ? (uint8_t[]){8, 2, 31, 27, 4, 5}[below(6)] : (uint8_t)between(1, 31);
  }
}

/* The codes that calls are mostly made of, in strings and in text: those of A, B, X (and `/`), the shifts, a space. */
static const uint8_t few[] = {3, 25, 29, 27, 31, 4};

static uint8_t few_code(void) { return few[percent(80) ? below(3) : below(sizeof few)]; }

/* The eight codes of a string of 91 to 95: mostly short and of few codes, now and then empty or long. */
static void call_string(uint8_t s[8]) {
  unsigned n = below(100), length = n < 6 ? 0 : n < 80 ? between(1, 3) : n < 90 ? between(4, 7) : 8;
  memset(s, 0, 8);
  for (unsigned i = 0; i < length; i++) s[i] = percent(92) ? few_code() : (uint8_t)between(1, 31);
}

/* A state's bytes for a string: one number, the first code in its lowest five bits, lowest byte first; and back. */
static void put_string(uint8_t *bytes, const uint8_t s[8]) {
  memset(bytes, 0, 8);
  for (int bit = 0; bit < 40; bit++)
    if (s[bit / 5] >> bit % 5 & 1) bytes[bit / 8] |= (uint8_t)(1 << bit % 8);
}

static void get_string(uint8_t s[8], const uint8_t *bytes) {
  memset(s, 0, 8);
  for (int bit = 0; bit < 40; bit++)
    if (bytes[bit / 8] >> bit % 8 & 1) s[bit / 5] |= (uint8_t)(1 << bit % 5);
}

/* A call as it comes over the air: a string of 91 to 95 in force, or some of the few codes, now and then short of the last; how many
   codes, at least one. */
static unsigned calling(uint8_t codes[8], const uint8_t *state) {
  unsigned length = 0;
  get_string(codes, state + 64 + 8 * below(5));
  while (length < 8 && codes[length] != 0) length++;
  if (length == 0 || percent(30)) {
    length = between(1, 8);
    for (unsigned i = 0; i < length; i++) codes[i] = few_code();
  }
  return length > 1 && percent(15) ? length - 1 : length;
}

/* Eight codes that are near to a string, and often none. */
static void broken_string(uint8_t s[8], void (*string)(uint8_t s[8])) {
  string(s);
  if (percent(50)) s[below(8)] = (uint8_t)below(percent(80) ? 34 : 256);
  else s[0] = (uint8_t)below(10);
}

static uint64_t put_number(uint8_t *out, uint8_t value) {
  uint64_t n = 0;
  unsigned v = value;
  if (percent(4)) v += 256 * between(1, 300);
  if (v == 0 && percent(20)) return 0;
  if (v == 255 && percent(50)) {
    out[0] = 'X';
    return 1;
  }
  if (percent(6))
    for (unsigned zeros = between(1, 3); zeros > 0; zeros--) out[n++] = '0';
  if (v >= 10000) out[n++] = (uint8_t)('0' + v / 10000);
  if (v >= 1000) out[n++] = (uint8_t)('0' + v / 1000 % 10);
  if (v >= 100) out[n++] = (uint8_t)('0' + v / 100 % 10);
  if (v >= 10) out[n++] = (uint8_t)('0' + v / 10 % 10);
  out[n++] = (uint8_t)('0' + v % 10);
  return n;
}

/* The parameters of a write, mostly in range; how many there are. */
static unsigned values(uint8_t id, uint8_t v[8]) {
  static const uint8_t speeds[4] = {60, 66, 75, 100}, edges[] = {0, 0, 1, 14, 32, 33, 37, 126, 127, 128, 255};
  static const uint8_t powers[] = {0, 2, 4, 5, 6, 6, 1, 3, 7, 255};
  switch (id) {
  case 1: case 4:
    v[0] = (uint8_t)(percent(90) ? between(1, 3) : below(7));
    v[1] = percent(90) ? speeds[below(4)] : (uint8_t)between(58, 102);
    return 2;
  case 49: case 70: case 71: case 72: case 74: v[0] = (uint8_t)(percent(92) ? below(2) : below(256)); return 1;
  case 50: v[0] = (uint8_t)(percent(60) ? 10 : percent(70) ? between(8, 82) : below(256)); return 1;
  case 53: v[0] = powers[percent(80) ? below(6) : below(sizeof powers)]; return 1;
  case 77:
    v[0] = percent(75) ? stand_in() : percent(70) ? edges[below(sizeof edges)] : (uint8_t)below(256);
    return 1;
  case 90:
    if (percent(80)) string_90(v);
    else broken_string(v, string_90);
    return 8;
  case 91: case 92: case 93: case 94: case 95:
    if (percent(80)) call_string(v);
    else broken_string(v, call_string);
    return 8;
  default: return 0;
  }
}

static const uint8_t ids[] = {0,  1,  1,  1,  4,  4,  4,  10, 11, 49, 49, 50, 50, 53, 53, 53, 70, 70,
                              71, 71, 72, 72, 74, 74, 77, 77, 77, 90, 90, 90, 91, 92, 93, 94, 95, 250};

/* A command with its end; now and then broken. */
static uint64_t command(uint8_t *out) {
  static const char *const types[] = {"TW", "TR", "tw", "tr", "AB", "TX", "Tw", "tR", "T1", "ab", "WT", "T", "TWW"};
  uint8_t field[16] = {0}, *p = out;
  unsigned fields, type = percent(88) ? (percent(70) ? 0 : 1) : below(sizeof types / sizeof *types);
  field[0] = percent(95) ? ids[below(sizeof ids)] : (uint8_t)below(256);
  fields = 2 + (type == 1 || type == 3 ? 0 : values(field[0], field + 2));
  field[1] = (uint8_t)(fields - 2);
  if (percent(4)) field[1] = (uint8_t)below(10);
  if (percent(15)) {
    uint8_t sum = 0;
    for (unsigned i = 0; i < fields; i++) sum = (uint8_t)(sum + field[i]);
    field[fields++] = (uint8_t)(percent(80) ? sum : sum + between(1, 255));
  }
  if (percent(4)) fields = between(0, 15);
  *p++ = '/';
  *p++ = '.';
  for (const char *t = types[type]; *t != 0; t++) *p++ = (uint8_t)*t;
  for (unsigned i = 0; i < fields; i++) {
    *p++ = ',';
    p += put_number(p, field[i]);
  }
  if (percent(6)) p[-(int)between(1, (unsigned)(p - out))] = (uint8_t)(percent(50) ? text_byte() : below(256));
  if (percent(3)) p -= below((unsigned)(p - out));
  if (percent(2)) *p++ = text_byte();
  if (percent(95)) *p++ = percent(80) ? 13 : 10;
  if (percent(40)) *p++ = 10;
  return (uint64_t)(p - out);
}

enum { LONGEST_COMMAND = 200 };

/* Text that asks for a code, in letters or figures. */
static uint8_t text_of(uint8_t code) {
  static const char rows[2][33] = {"\0E\nA SIU\rDRJNFCKTZLWHYPQOBG\16MXV\17", "\0" "3\n- \a87\r$4',!:(5\")2#6019?&\16./;\17"};
  return (uint8_t)rows[percent(50)][code];
}

static uint64_t call_text(uint8_t *out, const uint8_t *state) {
  uint8_t codes[8];
  unsigned n = calling(codes, state);
  for (unsigned i = 0; i < n; i++) out[i] = text_of(codes[i]);
  return n;
}

/* Host bytes for a state: runs of text with calls and commands among them. At most `most` bytes, `most` over LONGEST_COMMAND. */
static uint64_t host_bytes(uint8_t *out, uint64_t most, const uint8_t *state) {
  uint64_t n = 0;
  unsigned of_commands = percent(50) ? 10 : below(90), of_calls = percent(50) ? 80 : 10;
  while (n + LONGEST_COMMAND < most) {
    if (percent(of_commands)) n += command(out + n);
    else if (percent(of_calls)) n += call_text(out + n, state);
    else if (percent(2)) for (unsigned k = between(1, 90); k > 0 && n + LONGEST_COMMAND < most; k--) out[n++] = 'A';
    else for (unsigned k = between(1, 12); k > 0; k--) out[n++] = text_byte();
    if (n > LONGEST_COMMAND && percent(1)) break;
  }
  return n;
}

/* ---- Codes ---- */

/* Codes for a state, and calls among them. */
static uint64_t code_bytes(uint8_t *out, uint64_t n, const uint8_t *state) {
  unsigned over = percent(15) ? 3 : 0, of_calls = percent(50) ? 50 : 3;
  uint8_t codes[8];
  for (uint64_t i = 0; i < n; i++) {
    unsigned k = below(100);
    if (percent(over)) out[i] = (uint8_t)(percent(50) ? 32 : between(32, 255));
    else if (k < 15) out[i] = 27;
    else if (k < 30) out[i] = 31;
    else if (k < 40) out[i] = 4;
    else if (k < 46) out[i] = 8;
    else if (k < 52) out[i] = 5;
    else out[i] = (uint8_t)below(32);
    if (i > 0 && percent(8)) out[i] = out[i - 1];
    if (i + 8 <= n && percent(of_calls)) {
      unsigned length = calling(codes, state);
      memcpy(out + i, codes, length);
      i += length - 1;
    }
  }
  return n;
}

/* ---- States ---- */

static void random_reader(uint8_t *s) {
  s[23] = (uint8_t)(percent(55) ? 0 : below(8));
  if (s[23] == 4) {
    s[24] = (uint8_t)below(2);
    s[25] = (uint8_t)percent(80);
  }
  if (s[23] == 5 || s[23] == 6) s[24] = (uint8_t)(percent(60) ? 1 : below(3));
  if (s[23] == 6) {
    s[25] = (uint8_t)below(3);
    s[26] = (uint8_t)below(12);
    uint8_t *field = s + 27;
    field[0] = ids[below(sizeof ids)];
    unsigned n = values(field[0], field + 2);
    field[1] = (uint8_t)(percent(90) ? n : below(10));
    for (int i = s[26] + 1; i < 11; i++) field[i] = 0;
    if (s[26] < 11 && s[25] == 0) field[s[26]] = 0;
    if (s[26] < 11 && s[25] == 2) field[s[26]] = 255;
  }
}

/* Makes a string the end of another, or the same. */
static void end_of(uint8_t s[8], const uint8_t from[8], unsigned without) {
  memset(s, 0, 8);
  memcpy(s, from + without, 8 - without);
}

/* 53, strings 91 to 95, now and then alike, and what was heard of them. */
static void random_calls(uint8_t *s) {
  static const uint8_t powers[] = {0, 2, 4, 5, 6};
  uint8_t strings[5][8], heard[8] = {0};
  for (int i = 0; i < 5; i++) call_string(strings[i]);
  if (percent(12)) end_of(strings[1], strings[2], below(2));
  if (percent(12)) end_of(strings[0], strings[1], below(2));
  if (percent(12)) end_of(strings[3], strings[2], below(3));
  if (percent(12)) end_of(strings[4], strings[3], below(3));
  if (percent(85))
    for (int i = 0; i < 5; i++) put_string(s + 64 + 8 * i, strings[i]);
  for (int i = (int)below(9); i < 8; i++) heard[i] = percent(90) ? few_code() : (uint8_t)below(32);
  put_string(s + 56, heard);
  s[39] = percent(90) ? powers[between(1, 4)] : 0;
  s[44] = (uint8_t)percent(40);
  if (!s[44]) s[45] = (uint8_t)(percent(40) ? 0 : below(10));
}

/* A sound state that a box can well be in. */
static void random_state(uint8_t *s) {
  static const uint8_t speeds[4] = {60, 66, 75, 100};
  model_fresh(s);
  s[0] = (uint8_t)below(2);
  s[1] = (uint8_t)(percent(40) ? 10 : percent(50) ? between(10, 20) : between(10, 80));
  for (int i = 2; i <= 5; i++) s[i] = (uint8_t)below(2);
  if (percent(60)) {
    uint8_t codes[8];
    string_90(codes);
    put_string(s + 6, codes);
  }
  unsigned mode = below(100);
  s[14] = mode < 50 ? 1 : mode < 85 ? 4 : mode < 92 ? 10 : 11;
  if (s[14] < 10) {
    s[15] = (uint8_t)between(1, s[14] == 1 ? 4 : 3);
    s[16] = speeds[below(4)];
  }
  s[17] = (uint8_t)below(3);
  s[18] = (uint8_t)percent(80);
  if (s[18]) s[19] = (uint8_t)(percent(50) ? s[1] - 3 + below(6) : percent(30) ? between(250, 255) : below(256));
  s[20] = (uint8_t)below(3);
  s[21] = (uint8_t)between(1, 2);
  s[22] = (uint8_t)between(1, 2);
  if (percent(50)) s[41] = stand_in();
  if (percent(70)) random_calls(s);
  random_reader(s);
}

/* Any values in the fields, which no stage forbids. */
static void any_fields(uint8_t *s) {
  for (int i = 27; i < 38; i++)
    if (percent(60)) s[i] = (uint8_t)below(256);
}

/* Bytes that hold 0. */
static int is_spare(int at) { return at == 38 || at == 40 || at == 42 || at == 43 || (at >= 46 && at < 56) || at >= 104; }

enum { BITS_90, BITS_HEARD, BITS_CALL, AFTER_0, POWER, MOTOR, CALL, CALL_ON, SPARE, ANY, DAMAGES };
static const char *const damage_name[DAMAGES] = {"upper bits of string 90",
                                                 "upper bits of the codes heard",
                                                 "upper bits of a string of 91 to 95",
                                                 "a code after a 0 in a string of 91 to 95",
                                                 "53",
                                                 "the motor's byte",
                                                 "the call's byte",
                                                 "the call's byte while the motor is on",
                                                 "a byte that is not 0",
                                                 "any bytes"};
static unsigned long refused[DAMAGES];

/* One thing wrong with a sound state, and which. */
static int damage(uint8_t *s) {
  int how = (int)below(DAMAGES), at = 0;
  uint8_t upper = (uint8_t)(1 << below(8)), codes[8];
  switch (how) {
  case BITS_90: s[between(11, 13)] |= upper; break;
  case BITS_HEARD: s[between(61, 63)] |= upper; break;
  case BITS_CALL: s[64 + 8 * below(5) + between(5, 7)] |= upper; break;
  case AFTER_0:
    at = 64 + 8 * (int)below(5);
    call_string(codes);
    codes[below(7)] = 0;
    codes[7] = (uint8_t)between(1, 31);
    put_string(s + at, codes);
    break;
  case POWER: s[39] = (uint8_t[]){1, 3, 7, 255}[below(4)]; break;
  case MOTOR: s[44] = (uint8_t)(percent(50) ? 2 : between(2, 255)); break;
  case CALL:
    s[44] = 0;
    s[45] = (uint8_t)(percent(50) ? 10 : between(10, 255));
    break;
  case CALL_ON:
    s[44] = 1;
    s[45] = (uint8_t)between(1, 9);
    break;
  case SPARE:
    while (!is_spare(at)) at = between(38, 127);
    s[at] = (uint8_t)(percent(50) ? 1 : between(1, 255));
    break;
  default:
    for (unsigned n = between(1, 3); n > 0; n--) {
      at = (int)(percent(80) ? below(46) : below(LINEBOX_STATE));
      s[at] = (uint8_t)(percent(50) ? s[at] + 1u : percent(50) ? below(13) : below(256));
    }
  }
  return how;
}

/* ---- Random calls ---- */

static uint64_t lend(uint64_t need, int *null_lent) {
  *null_lent = percent(50);
  switch (below(10)) {
  case 0: return 0;
  case 1: return between(1, 5);
  case 2: return below((unsigned)need + 1);
  case 3: return need > 0 ? need - 1 : 0;
  case 4: case 5: return need;
  case 6: return (uint64_t[]){16, 17, 37}[below(3)];
  case 7: return need + below(45);
  default: return need + 45 + below(40);
  }
}

/* Lends buffers that fit, just fit, just don't fit, or are small. */
static void lend_both(struct call *c) {
  c->lent[0] = c->lent[1] = ROOM - 2 * GUARD;
  memcpy(model.state + GUARD, c->state, LINEBOX_STATE);
  make(c, &model, 1);
  uint64_t need[2] = {model.done[2], model.done[3]};
  for (int i = 0; i < 2; i++) {
    c->lent[i] = lend(need[i], &c->null_lent[i]);
    if (percent(50)) c->lent[i] = need[i] + 40; /* one of the two at a time is often the narrow one */
  }
  if (c->kind == TU && percent(40)) c->lent[1] = below(41);
}

static uint64_t fill_input(struct call *c, uint8_t *in, uint64_t most) {
  if (c->kind == HOST) return host_bytes(in, most, c->state);
  return code_bytes(in, below((unsigned)most / 4), c->state);
}

static int call_kind(const uint8_t *state) {
  unsigned n = below(100);
  if (state[14] == 4) return n < 40 ? HOST : n < 50 ? LINE : TU;
  return n < 75 ? HOST : n < 90 ? LINE : TU;
}

/* A box that is called some times, each call going on from the first byte not taken or with other bytes. */
static void session(void) {
  static uint8_t in[1024];
  struct call c;
  int damaged = -1;
  random_state(c.state);
  if (percent(15)) model_fresh(c.state);
  if (percent(10)) any_fields(c.state);
  if (percent(10)) damaged = damage(c.state);
  for (unsigned n = between(1, 14); n > 0; n--) {
    c.kind = call_kind(c.state);
    c.in = in;
    c.in_len = fill_input(&c, in, percent(80) ? 260 : 1000);
    if (percent(4)) c.in_len = 0;
    if (c.in_len == 0 && percent(50)) c.in = NULL;
    if (percent(30) && c.in_len > 3) c.in_len = below(4);
    for (unsigned again = 0; again < 6; again++) {
      lend_both(&c);
      compare(&c);
      memcpy(c.state, model.state + GUARD, LINEBOX_STATE);
      if (model.answer == 3 && damaged >= 0) refused[damaged]++;
      if (model.answer == 0 || model.answer == 3) break;
      uint64_t skip = model.done[1] + (model.answer == 2);
      c.in += skip;
      c.in_len -= skip;
    }
  }
}

/* One call of each kind on a state with one byte changed to any value. */
static void every_damage(void) {
  static const uint8_t host_in[] = ",1\rA~ 1/", codes[] = {27, 23, 4, 31, 5, 8, 3, 0};
  uint8_t base[LINEBOX_STATE];
  random_state(base);
  if (percent(20)) model_fresh(base);
  for (int at = 0; at < LINEBOX_STATE; at++) {
    for (unsigned value = 0; value < 256; value++) {
      struct call c = {.kind = (int)below(3), .lent = {60, 60}};
      if (is_spare(at) && value > 3 && value != 128 && value != 255) continue;
      memcpy(c.state, base, LINEBOX_STATE);
      c.state[at] = (uint8_t)value;
      c.in = c.kind == HOST ? host_in : codes;
      c.in_len = sizeof codes;
      compare(&c);
    }
  }
}

/* ---- Every cutting, every room ---- */

static void append(uint8_t *to, uint64_t *n, const uint8_t *from, uint64_t count) {
  memcpy(to + *n, from, count);
  *n += count;
}

/* The same bytes in one call and in two, cut at every place: same state, same output. */
static void every_cutting(void) {
  static uint8_t in[400], whole[2][ROOM], parts[2][ROOM];
  struct call c = {.lent = {4000, 4000}};
  random_state(c.state);
  uint8_t before[LINEBOX_STATE], after[LINEBOX_STATE];
  memcpy(before, c.state, LINEBOX_STATE);
  c.kind = call_kind(c.state);
  c.in_len = fill_input(&c, in, 240);
  for (uint64_t i = 0; i < c.in_len && c.kind != HOST; i++) in[i] &= 31;
  c.in = in;
  compare(&c);
  uint64_t n = c.in_len, made[2] = {archive.done[2], archive.done[3]};
  memcpy(after, archive.state + GUARD, LINEBOX_STATE);
  for (int i = 0; i < 2; i++) memcpy(whole[i], archive.buffer[i] + GUARD, made[i]);
  for (uint64_t cut = 0; cut <= n; cut++) {
    uint64_t got[2] = {0, 0};
    memcpy(c.state, before, LINEBOX_STATE);
    for (int part = 0; part < 2; part++) {
      c.in = in + (part == 0 ? 0 : cut);
      c.in_len = part == 0 ? cut : n - cut;
      compare(&c);
      append(parts[0], &got[0], archive.buffer[0] + GUARD, archive.done[2]);
      append(parts[1], &got[1], archive.buffer[1] + GUARD, archive.done[3]);
      memcpy(c.state, archive.state + GUARD, LINEBOX_STATE);
    }
    if (memcmp(c.state, after, LINEBOX_STATE) != 0 || got[0] != made[0] || got[1] != made[1] ||
        memcmp(parts[0], whole[0], made[0]) != 0 || memcmp(parts[1], whole[1], made[1]) != 0) {
      differences++;
      printf("difference %lu: a call and its two parts, cut at %lu\n", differences, (unsigned long)cut);
    }
  }
}

/* The same call with every size of one buffer up to more than it needs. */
static void every_room(void) {
  static uint8_t in[400];
  struct call c = {.lent = {4000, 4000}};
  random_state(c.state);
  c.kind = call_kind(c.state);
  c.in = in;
  c.in_len = fill_input(&c, in, 240);
  compare(&c);
  uint64_t need[2] = {model.done[2], model.done[3]};
  for (int i = 0; i < 2; i++) {
    for (uint64_t room = 0; room <= need[i] + 1; room++) {
      c.lent[0] = c.lent[1] = 4000;
      c.lent[i] = room;
      c.null_lent[i] = room == 0;
      compare(&c);
    }
  }
}

/* Many bytes through one box. */
static void many_bytes(int small) {
  static uint8_t in[LONGEST];
  struct call c;
  random_state(c.state);
  for (int turn = 0; turn < 3; turn++) {
    c.kind = turn == 0 ? HOST : call_kind(c.state);
    c.in = in;
    c.in_len = 0;
    uint64_t most = small ? 3000 : 64000;
    while (c.kind == HOST && c.in_len + 1000 < most) c.in_len += host_bytes(in + c.in_len, most - c.in_len, c.state);
    if (c.kind != HOST) c.in_len = code_bytes(in, most, c.state);
    for (uint64_t i = 0; i < c.in_len && c.kind != HOST; i++) in[i] &= 31;
    do {
      c.lent[0] = small ? (c.kind == LINE ? 37 : 16) : ROOM - 2 * GUARD;
      c.lent[1] = small ? (c.kind == LINE ? 1 : c.kind == TU ? 17 : 37) : ROOM - 2 * GUARD;
      c.null_lent[0] = c.null_lent[1] = 0;
      compare(&c);
      memcpy(c.state, model.state + GUARD, LINEBOX_STATE);
      c.in += model.done[1];
      c.in_len -= model.done[1];
      if (model.done[1] == 0) break;
    } while (model.answer == 1);
  }
}

/* With large buffers, then with the smallest useful ones. */
static void long_run(void) { many_bytes(0); }
static void long_run_small(void) { many_bytes(1); }

/* ---- The finder ---- */

/* A message with CR LF around it, now and then with something wrong. */
static uint64_t near_message(uint8_t *out) {
  uint8_t *p = out;
  unsigned rest = percent(90) ? below(10) : percent(50) ? 255 : below(256), said = percent(92) ? rest : below(256);
  memcpy(p, "\r\n-.TC", 6);
  p += 6;
  for (unsigned i = 0; i < rest + 2; i++) {
    unsigned v = i == 1 ? said : percent(60) ? below(12) : below(percent(97) ? 256 : 300);
    *p++ = ',';
    if (percent(1)) *p++ = '0';
    if (v >= 100) *p++ = (uint8_t)('0' + v / 100);
    if (v >= 10) *p++ = (uint8_t)('0' + v / 10 % 10);
    *p++ = (uint8_t)('0' + v % 10);
  }
  *p++ = 13;
  *p++ = 10;
  uint64_t n = (uint64_t)(p - out);
  if (percent(25)) out[below((unsigned)n)] = (uint8_t)("\r\n-.TC,0129 /"[below(13)]);
  if (percent(10)) n -= between(1, 3);
  return n;
}

static void finder(void) {
  static uint8_t in[8192];
  struct call c = {.kind = FIND, .in = in};
  unsigned way = below(3);
  if (way == 0) {
    c.in_len = below(80);
    for (uint64_t i = 0; i < c.in_len; i++)
      in[i] = (uint8_t)(percent(98) ? "\r\n\r\n-.TC,0,1,2,255"[below(18)] : below(256));
  } else {
    for (unsigned k = between(1, 5); k > 0; k--) {
      c.in_len += near_message(in + c.in_len);
      if (percent(30)) c.in_len -= 2; /* its CR LF is shared with the next */
      if (percent(20)) in[c.in_len++] = text_byte();
    }
  }
  if (percent(1)) c.in_len = 0;
  if (c.in_len == 0) c.in = NULL;
  compare(&c);
}

/* ---- */

static void *room(uint64_t size) {
  void *p = malloc(size);
  if (p == NULL) printf("no memory\n");
  return p;
}

/* Ten differences are enough to look at. */
static void times(int n, void (*test)(void)) {
  for (int i = 0; i < n && differences < 10; i++) test();
}

static void run(uint64_t seed) {
  chance_state = seed;
  for (int i = 0; i < ROOM + 2 * GUARD; i++) filling[i] = (uint8_t)next();
  times(12000, session);
  times(8, every_damage);
  times(150, every_cutting);
  times(100, every_room);
  times(3, long_run);
  times(40, long_run_small);
  times(40000, finder);
}

static int summary(void) {
  unsigned long all = 0;
  int thin = 0;
  static const char *const events[] = {
#define EVENT_TEXT(name, text) text,
      MODEL_EVENTS(EVENT_TEXT)};
  for (int k = 0; k < KINDS; k++) {
    all += calls[k];
    printf("%-5s %7lu calls, answers", kind_name[k], calls[k]);
    for (int a = 0; a < 4; a++)
      if (answers[k][a] > 0) printf("  %d: %lu", a, answers[k][a]);
    printf("\n");
  }
  printf("%lu bytes taken, %lu written\nsound states by mode  ", bytes_in, bytes_out);
  for (int m = 0; m < 12; m++)
    if (modes[m] > 0) printf("  %d: %lu", m, modes[m]);
  printf("\nby stage of the reader");
  for (int i = 0; i < 8; i++) {
    printf("  %d: %lu", i, stages[i]);
    if (stages[i] < 100) thin = 1;
  }
  printf("\n");
  for (int e = 0; e < SEEN_EVENTS; e++) {
    printf("%9lu  %s\n", model_seen[e], events[e]);
    if (model_seen[e] < 100) thin = 1;
  }
  for (int d = 0; d < DAMAGES; d++) {
    printf("%9lu  states refused for %s\n", refused[d], damage_name[d]);
    if (refused[d] < 100) thin = 1;
  }
  if (thin) printf("something was met fewer than 100 times\n");
  printf("compare: %lu calls, %lu differences\n", all, differences);
  return differences != 0 || thin || all < 100000;
}

int main(int argc, char **argv) {
  static const uint64_t seeds[] = {1, 20040908};
  for (int i = 0; i < 2; i++) {
    archive.buffer[i] = room(ROOM + 2 * GUARD);
    model.buffer[i] = room(ROOM + 2 * GUARD);
  }
  filling = room(ROOM + 2 * GUARD);
  if (argc > 1) run(strtoul(argv[1], NULL, 10));
  else for (unsigned i = 0; i < sizeof seeds / sizeof *seeds; i++) run(seeds[i]);
  return summary();
}
