/* The traced lines of the requirements, the firmware paper's tables and command examples, and one line for each reading
   of them, through the C calls; what is expected is written by hand. */
#include "box.h"
#include <stdio.h>
#include <stdlib.h>
#include <string.h>

static unsigned passed, failed;

static void check(int good, const char *name, const char *expected, const char *got) {
  if (good) passed++;
  else failed++;
  if (!good) printf("failed: %s\n  expected: %s\n  got:      %s\n", name, expected, got);
}

/* ---- Feeding a box and writing down what comes out ---- */

enum { ROOM = 4096 };
static uint8_t state[LINEBOX_STATE], first[ROOM], second[ROOM]; /* the buffers in the order lent */
static uint64_t done[3];

static void host(const char *bytes) {
  uint64_t n = strlen(bytes);
  uint32_t answer = linebox_host(state, (const uint8_t *)bytes, n, first, ROOM, second, ROOM, done);
  if (answer != 0 || done[0] != n) check(0, bytes, "all taken", "not all taken");
}

static void start(const char *setup) {
  if (linebox_fresh(state) != 0) check(0, "fresh", "0", "not 0");
  host(setup);
}

/* Codes in decimal, with a space between them. */
static const char *decimals(const uint8_t *codes, uint64_t n) {
  static char out[4 * ROOM];
  uint64_t at = 0;
  for (uint64_t i = 0; i < n; i++) {
    if (i > 0) out[at++] = ' ';
    if (codes[i] >= 100) out[at++] = (char)('0' + codes[i] / 100);
    if (codes[i] >= 10) out[at++] = (char)('0' + codes[i] / 10 % 10);
    out[at++] = (char)('0' + codes[i] % 10);
  }
  out[at] = 0;
  return out;
}

static uint64_t parse(const char *numbers, uint8_t *out) {
  uint64_t n = 0;
  char *end;
  for (const char *p = numbers; *p != 0; p = end) {
    unsigned long value = strtoul(p, &end, 10);
    if (end == p) break;
    out[n++] = (uint8_t)value;
  }
  return n;
}

static const char *shown(const uint8_t *bytes, uint64_t n) {
  static char out[2 * ROOM];
  uint64_t at = 0;
  for (uint64_t i = 0; i < n; i++) {
    if (bytes[i] == 13 || bytes[i] == 10) out[at++] = '\\';
    out[at++] = bytes[i] == 13 ? 'r' : bytes[i] == 10 ? 'n' : (char)bytes[i];
  }
  out[at] = 0;
  return out;
}

/* ---- The tables of lines ---- */

#define MODE_1 "/.TW,1,2,1,60\r"
#define MODE_4 "/.TW,4,2,1,60\r"
#define ON(id) "/.TW," id ",1,1\r"
#define LIMIT_10 ON("49") "/.TW,50,1,10\r"
#define STRING(codes) "/.TW,90,8," codes "\r"
#define STAND_IN(value) "/.TW,77,1," value "\r"
#define POWER(value) "/.TW,53,1," value "\r"
#define CALL(id, codes) "/.TW," id ",8," codes "\r"
#define TEN "\rABCDEFGHIJ" /* a return and ten letters */

struct trace {
  const char *name, *setup, *input, *expected;
};

/* Host text, and the codes that go to the line. */
static const struct trace host_lines[] = {
    /* the requirements' traced lines */
    {"fresh mode 1, a1 2", MODE_1, "a1 2", "31 3 27 23 4 19"},
    {"the same, 70 on", MODE_1 ON("70"), "a1 2", "31 3 27 23 4 31 27 19"},
    {"71 on, 1 CR 2", MODE_1 ON("71"), "1\r2", "27 23 8 31 27 19"},
    {"70 on, first text a space", MODE_1 ON("70"), " ", "4 31"},
    {"fresh, /A", MODE_1, "/A", "27 29 31 3"},
    {"limit 10, ten letters after a CR", MODE_1 LIMIT_10, TEN, "8 31 3 25 14 9 1 13 26 20 6 11"},
    {"then K", MODE_1 LIMIT_10 TEN, "K", "8 8 2 31 31 15"},
    {"there 5 instead", MODE_1 LIMIT_10 TEN, "5", "8 8 2 31 31 27 16"},
    {"there BEL instead", MODE_1 LIMIT_10 TEN, "\a", "27 5"},
    {"eleven letters with no CR yet", MODE_1 LIMIT_10, "ABCDEFGHIJK", "31 3 25 14 9 1 13 26 20 6 11 15"},
    {"the log sheet's example", "", MODE_1 "TTY1", "31 16 16 21 27 23"},
    /* slips to shut out */
    {"a figure after a space, 70 on", MODE_1 ON("70"), "1 2", "27 23 4 31 27 19"},
    {"the ending's two LTRS with 72 on", MODE_1 LIMIT_10 ON("72") TEN "\017", "K", "8 8 2 31 31 15"},
    {"BEL and shifts take no column", MODE_1 LIMIT_10 "\rABCDEFGHI\a\017\016\a", "JK", "31 11 8 8 2 31 31 15"},
    {"the LF of a command's CR LF", MODE_1, ON("70") "\nA", "31 3"},
    /* sending */
    {"small letters are capitals", MODE_1, "abz", "31 3 25 17"},
    {"LF, BLANK by their codes", MODE_1, "A\n\nB", "31 3 2 2 25"},
    {"bytes without a code", MODE_1, "A%\001\177\200\377*B", "31 3 25"},
    {"SO and SI are explicit shifts", MODE_1, "\016\0161\017A", "27 27 23 31 3"},
    {"72 drops the same shift again", MODE_1 ON("72"), "\016\016\017\017\016", "27 31 27"},
    {"72 looks at items, not at the record", MODE_1 ON("72"), "1\0161", "27 23 27 23"},
    {"72 switched on between two SO", MODE_1 "\016" ON("72"), "\016", ""},
    {"SO / SO sends both", MODE_1 ON("72"), "\016/\016", "27 29 27"},
    {"a byte without a code is no item", MODE_1 ON("72"), "\016%\016", "27"},
    {"connecting forgets the last item", MODE_1 ON("72") "\016", MODE_1 "\016", "27"},
    {"connecting makes the record unknown", MODE_1 "A", MODE_1 "A", "31 3"},
    {"a connection that errs changes nothing", MODE_1 "A", "/.TW,1,2,5,60\rA", "3"},
    {"250 leaves record and connection", MODE_1 ON("70") "1", "/.TW,250,0\r1 1", "23 4 23"},
    {"option 70 in letters", MODE_1 ON("70") "A", " A", "4 3"},
    {"option 71, first text CR", MODE_1 ON("71"), "\r\r", "8 31 8"},
    {"ending before a space", MODE_1 LIMIT_10 TEN, " ", "8 8 2 31 31 4"},
    {"no ending before CR, LF, shift", MODE_1 LIMIT_10 TEN, "\n\016\r", "2 27 8"},
    {"an ending at the limit once, then ten more", MODE_1 LIMIT_10 TEN "K", "LMNOPQRSTU",
     "18 28 12 24 22 23 10 5 16 8 8 2 31 31 7"},
    {"ending obeys 71", MODE_1 LIMIT_10 ON("71") "\r1111111111", "1", "8 31 8 2 31 31 27 23"},
    {"ending with a space obeys 70", MODE_1 LIMIT_10 ON("70") STRING("8,27,4,0,0,0,0,0") TEN, "A", "8 27 4 31 3"},
    {"ending's letter code in the case on record", MODE_1 LIMIT_10 STRING("8,3,0,0,0,0,0,0") "\r1111111111", "1",
     "8 3 23"},
    {"ending's letter code takes a column", MODE_1 LIMIT_10 STRING("8,3,0,0,0,0,0,0") TEN "ABCDEFGHI", "J",
     "8 3 11"},
    {"ending's code 5 in figures is BELL", MODE_1 LIMIT_10 STRING("8,5,0,0,0,0,0,0") "\r1111111111" "111111111", "11",
     "23 8 5 23"},
    {"ending with the case unknown", MODE_1 LIMIT_10 STRING("8,3,0,0,0,0,0,0") "\r          ", "1",
     "8 31 3 27 23"},
    {"column stays at 255 and is known", MODE_1 "\r0000000000000000000000000000000000000000000000000000000000000000"
     "0000000000000000000000000000000000000000000000000000000000000000000000000000000000000000000000000000"
     "0000000000000000000000000000000000000000000000000000000000000000000000000000000000000000000000000000"
     ON("49"), "00", "8 8 2 31 31 27 22 22"},
    {"mode 11 drops text", "", "ABC", ""},
    {"mode 4 drops text", MODE_4, "ABC 1\r", ""},
    /* the command reader's text */
    {"two slashes", MODE_1, "//A", "27 29 29 31 3"},
    {"// and a command", MODE_1, "/" ON("70"), "27 29"},
    {"/ and CR LF is text", MODE_1, "/\r\n", "27 29 8 2"},
    {"/ inside a command, then text", MODE_1, "/.TW,4/A\r\n", "27 29 31 3 8 2"},
    {"an LF ends a command and arms nothing", MODE_1, "/.TW,70,1,1\n\nA", "2 31 3"},
    {"only one LF is swallowed", MODE_1, "/.TW,70,1,1\r\n\nA", "2 31 3"},
    {"an LF is swallowed after a discarded command", MODE_1, "/.?\r\nA", "31 3"},
    {"and after one in its type", MODE_1, "/.T\r\nA", "31 3"},
    {"not after a byte between", MODE_1, "/.TW,49\rA\nB", "31 3 2 25"},
    {"not after a byte without a code between", MODE_1, "/.TW,49\r%\nB", "2 31 25"},
    {"a command between does not touch the record", MODE_1 "1", "/.TR,0,0\r1", "23"},
    /* the stand-in */
    {"12~34 with 77 at -", MODE_1 STAND_IN("45"), "12~34", "27 23 19 3 1 10"},
    {"and with 77 at 0", MODE_1 STAND_IN("45") STAND_IN("0"), "12~34", "27 23 19 1 10"},
    {"a control, DEL, 128 and 255", MODE_1 STAND_IN("63"), "A\021\177\200\377B", "31 3 27 25 25 25 25 31 25"},
    {"bytes with a code are not replaced", MODE_1 STAND_IN("45"), "a1\a ?\r\n", "31 3 27 23 5 4 25 8 2"},
    {"a small letter stands in as its capital", MODE_1 STAND_IN("120"), "1~a", "27 23 31 29 3"},
    {"/ as the stand-in is not held", MODE_1 STAND_IN("47"), "~", "27 29"},
    {"and begins no command", MODE_1 STAND_IN("47"), "~.T\r\n", "27 29 28 31 16 8 2"},
    {"a held / before a replaced byte", MODE_1 STAND_IN("45"), "/~", "27 29 3"},
    {"/ held and / for a replaced byte, then .", MODE_1 STAND_IN("47"), "/~.", "27 29 29 28"},
    {"SO ~ SO sends both, 77 set", MODE_1 ON("72") STAND_IN("45"), "\016~\016", "27 3 27"},
    {"SO ~ SO sends one, 77 at 0", MODE_1 ON("72") STAND_IN("0"), "\016~\016", "27"},
    {"a stand-in takes its shift after a space, 70 on", MODE_1 ON("70") STAND_IN("45"), "~ ~", "27 3 4 31 27 3"},
    {"an ending before a stand-in", MODE_1 LIMIT_10 STAND_IN("45") TEN, "~", "8 8 2 31 31 27 3"},
    {"none before a dropped byte", MODE_1 LIMIT_10 TEN, "~", ""},
    {"a stand-in takes a column", MODE_1 LIMIT_10 STAND_IN("75") "\rABCDEFGHI", "~L", "15 8 8 2 31 31 18"},
    {"the most codes of a byte, the second replaced",
     MODE_1 LIMIT_10 ON("71") STRING("27,8,27,8,27,8,27,8") STAND_IN("65") TEN "/", "~",
     "27 8 31 27 8 31 27 8 31 27 8 31 27 29 31 3"},
    {"the bytes of a discarded command are no text", MODE_1 STAND_IN("45"), "/.T~%\200\177\r\nA", "31 3"},
    {"nor is a swallowed LF", MODE_1 STAND_IN("45"), "/.TR,0,0\r\n~", "27 3"},
    {"a byte replaced after a command's CR, then LF", MODE_1 STAND_IN("45"), "/.TR,0,0\r~\n", "27 3 2"},
    {"connecting leaves 77", STAND_IN("45"), MODE_1 "~", "27 3"},
    {"250 puts 77 back to 0", MODE_1 STAND_IN("45") "/.TW,250,0\r", "1~2", "27 23 19"},
    {"a refused value leaves 77", MODE_1 STAND_IN("45") STAND_IN("37"), "~", "27 3"},
    {"mode 11 drops all text, 77 set", STAND_IN("45"), "A~", ""},
    {"mode 4 too", MODE_4 STAND_IN("45"), "A~", ""},
};

/* TU codes, and the codes that go to the line. */
static const struct trace tu_lines[] = {
    {"fresh mode 4, 70 on", MODE_4 ON("70"), "27 23 4 23", "27 23 4 31 23"},
    {"fresh mode 4, 72 on", MODE_4 ON("72"), "31 31 31 5", "31 5"},
    {"figures after an ending that holds LTRS", MODE_4 LIMIT_10, "8 27 23 23 23 23 23 23 23 23 23 23 23",
     "8 27 23 23 23 23 23 23 23 23 23 23 8 8 2 31 31 27 23"},
    {"71 on", MODE_4 ON("71"), "27 23 8 23", "27 23 8 31 23"},
    {"70 off", MODE_4, "27 23 4 23", "27 23 4 23"},
    {"a dropped shift sets the incoming case", MODE_4 ON("72") ON("70"), "27 4 27 23", "27 4 31 27 23"},
    {"first a letter", MODE_4, "3 23 0 2", "31 3 23 0 2"},
    {"BELL takes no column, S does", MODE_4 LIMIT_10, "8 3 3 3 3 3 3 3 3 3 27 5 31 5 5",
     "8 31 3 3 3 3 3 3 3 3 3 27 5 31 5 8 8 2 31 31 5"},
    {"mode 1 drops TU codes", "/.TW,1,2,4,60\r", "3 27 31", ""},
    {"mode 10 too", "/.TW,10,0\r", "3 27 31", ""},
    {"77 is not asked of TU codes", MODE_4 STAND_IN("45"), "0 3 27 3", "0 31 3 27 3"},
};

/* Line codes, and the host bytes. */
static const struct trace line_lines[] = {
    {"27 23 31 23 give 1Q", MODE_1, "27 23 31 23", "1Q"},
    {"74 on", MODE_1 ON("74"), "27 23 31 23", "\0161\017Q"},
    {"space and CR do not unshift by themselves", MODE_1, "27 23 4 23 8 23", "1 1\r1"},
    {"a space unshifts with 70 on, and a CR does not", MODE_1 ON("70"), "27 23 8 23 4 23", "1\r1 Q"},
    {"a CR unshifts with 71 on, and a space does not", MODE_1 ON("71"), "27 23 4 23 8 23", "1 1\rQ"},
    {"no SI for it with 74 on", MODE_1 ON("70") ON("71") ON("74"), "27 23 4 23 27 8 23", "\0161 Q\016\rQ"},
    {"250 turns 70 off", MODE_1 ON("70") "/.TW,250,0\r", "27 23 4 23", "1 1"},
    {"a connection puts the case back", MODE_1, "23", "Q"},
    {"mode 11 drops", "", "27 23 31 23", ""},
    {"mode 4 gives the host nothing", MODE_4, "27 23 31 23", ""},
};

/* A command, and what it answers between CR LF and CR LF (nothing: silent). */
static const struct trace commands[] = {
    /* the requirements' traced lines */
    {"checksum", "", "/.TW,4,2,1,75,82", "-.TC,4,2,1,75"},
    {"wrong checksum", "", "/.TW,4,2,1,75,83", "-.TC,255,2,4,4"},
    {"50 below", "", "/.TW,50,1,9", "-.TC,255,2,50,5"},
    {"50 least", "", "/.TW,50,1,10", "-.TC,50,1,10"},
    {"50 most", "", "/.TW,50,1,80", "-.TC,50,1,80"},
    {"50 above", "", "/.TW,50,1,81", "-.TC,255,2,50,5"},
    {"reduced to a byte", "", "/.TW,49,1,257", "-.TC,49,1,1"},
    {"one field", "", "/.TW,49", ""},
    {"neither TW nor TR", "", "/.AB,1,0", "-.TC,255,2,1,1"},
    /* the firmware paper's commands */
    {"000 page 9", "", "/.TW,1,2,4,66", "-.TC,1,2,4,66"},
    {"000 checksum, none", "", "/.TW,4,2,1,75", "-.TC,4,2,1,75"},
    {"000 mode 3 is not built", "", "/.TW,3,3,4,248,8", "-.TC,255,2,3,2"},
    {"000 mode 3, total checksum", "", "/.TW,3,3,4,248,8,265", "-.TC,255,2,3,2"},
    {"000 mode 3, truncated checksum", "", "/.TW,3,3,4,248,8,10", "-.TC,255,2,3,2"},
    {"000 current connection", "/.TW,1,2,1,60\r", "/.TR,1,0", "-.TC,1,2,1,60"},
    {"000 current connection, mode 4", "/.TW,4,2,3,100\r", "/.TR,1,0", "-.TC,4,2,3,100"},
    {"000 current connection, mode 10", "/.TW,10,0\r", "/.TR,1,0", "-.TC,10,0"},
    {"000 current connection, mode 11", "", "/.TR,1,0", "-.TC,11,0"},
    {"000 HV2 at 100", "", "/.TW,1,2,2,100", "-.TC,1,2,2,100"},
    {"000 mode 2 is not built", "", "/.TW,2,1,3", "-.TC,255,2,2,2"},
    {"000 TU to HV2 at 75", "", "/.TW,4,2,2,75", "-.TC,4,2,2,75"},
    {"000 mode 5 is not built", "", "/.TW,5,2,60,1", "-.TC,255,2,5,2"},
    {"000 mode 6 is not built", "", "/.TW,6,4,4,75,1,60", "-.TC,255,2,6,2"},
    {"000 mode 10", "", "/.TW,10,0", "-.TC,10,0"},
    {"000 mode 11", "", "/.TW,11,0", "-.TC,11,0"},
    {"000 motor is not built", "", "/.TW,20,1,1", "-.TC,255,2,20,2"},
    {"000 motor off is not built", "", "/.TW,20,3,0", "-.TC,255,2,20,2"},
    {"000 40 is not built", "", "/.TW,40,1,1", "-.TC,255,2,40,2"},
    {"000 41 is not built", "", "/.TW,41,1,0", "-.TC,255,2,41,2"},
    {"000 49", "", "/.TW,49,1,1", "-.TC,49,1,1"},
    {"000 49 read", ON("49"), "/.TR,49,0", "-.TC,49,1,1"},
    {"000 50 read, factory", "", "/.TR,50,0", "-.TC,50,1,72"},
    {"000 52 is not built", "", "/.TR,52,0", "-.TC,255,2,52,2"},
    {"000 53", "", "/.TW,53,1,2", "-.TC,53,1,2"},
    {"000 53 read, factory", "", "/.TR,53,0", "-.TC,53,1,0"},
    {"000 70", "", "/.TW,70,1,1", "-.TC,70,1,1"},
    {"000 70 read", "", "/.TR,70,0", "-.TC,70,1,0"},
    {"000 71", "", "/.TW,71,1,1", "-.TC,71,1,1"},
    {"000 71 read", ON("71"), "/.TR,71,0", "-.TC,71,1,1"},
    {"000 72", "", "/.TW,72,1,0", "-.TC,72,1,0"},
    {"000 72 read", ON("72"), "/.TR,72,0", "-.TC,72,1,1"},
    {"000 73 is not built", "", "/.TW,73,1,1", "-.TC,255,2,73,2"},
    {"000 74", "", "/.TW,74,1,1", "-.TC,74,1,1"},
    {"000 74 read", ON("74"), "/.TR,74,0", "-.TC,74,1,1"},
    {"000 75 is not built", "", "/.TR,75,0", "-.TC,255,2,75,2"},
    {"000 90", "", "/.TW,90,8,8,8,2,31,31,0,0,0", "-.TC,90,8,8,8,2,31,31,0,0,0"},
    {"000 90 read, factory", "", "/.TR,90,0", "-.TC,90,8,8,8,2,31,31,0,0,0"},
    {"000 note 20, a string with no CR", "", "/.TW,90,8,31,16,16,21,27,23,0,0", "-.TC,255,2,90,5"},
    {"000 91 read, factory", "", "/.TR,91,0", "-.TC,91,8,4,4,4,4,4,8,8,2"},
    {"000 92", "", "/.TW,92,8,2,12,12,12,12,0,0,0", "-.TC,92,8,2,12,12,12,12,0,0,0"},
    {"000 92 read, factory", "", "/.TR,92,0", "-.TC,92,8,2,12,12,12,12,0,0,0"},
    {"000 93 read, factory", "", "/.TR,93,0", "-.TC,93,8,4,4,4,4,4,8,8,2"},
    {"000 94 read, factory", "", "/.TR,94,0", "-.TC,94,8,16,16,21,14,24,12,12,0"},
    {"000 95 read, factory", "", "/.TR,95,0", "-.TC,95,8,17,14,17,14,0,0,0,0"},
    {"000 note 20, its second string", "", "/.TW,94,8,31,16,16,21,27,23,0,0", "-.TC,94,8,31,16,16,21,27,23,0,0"},
    {"000 250", "", "/.TW,250,0", "-.TC,250,0"},
    {"000 250 puts 50 back", "/.TW,50,1,20\r/.TW,250,0\r", "/.TR,50,0", "-.TC,50,1,72"},
    {"000 appendix 8, version", "", "/.TR,0,0", "-.TC,0,4,0,0,1,0"},
    {"000 leading zeros", "", "/.TW,049,001,0001", "-.TC,49,1,1"},
    {"000 small letters", "", "/.tw,70,1,1", "-.TC,70,1,1"},
    {"000 small letters, read", "", "/.tr,70,0", "-.TC,70,1,0"},
    {"000 mixed letters", "", "/.Tw,70,1,1", ""},
    {"000 mixed letters, small first", "", "/.tR,70,0", ""},
    {"000 a null parameter is 0", "", "/.TW,70,1,", "-.TC,70,1,0"},
    {"000 X is 255", "", "/.TR,X,0", "-.TC,255,2,255,2"},
    {"000 a space is no digit", "", "/.TW,70,1, 1", ""},
    {"000 another delimiter", "", "/.TW,70;1,1", ""},
    {"000 truncated by /", "", "/.TW,70/.TW,71,1,1", "-.TC,71,1,1"},
    {"000 total checksum over 255", "", "/.TW,90,8,8,8,2,31,31,31,31,31,271", "-.TC,90,8,8,8,2,31,31,31,31,31"},
    {"000 the same truncated", "", "/.TW,90,8,8,8,2,31,31,31,31,31,15", "-.TC,90,8,8,8,2,31,31,31,31,31"},
    /* readings */
    {"small x", "", "/.TR,x,0", ""},
    {"X and a digit", "", "/.TR,X1,0", ""},
    {"a digit and X", "", "/.TR,1X,0", ""},
    {"XX", "", "/.TR,XX,0", ""},
    {"small other type", "", "/.ab,1,0", "-.TC,255,2,1,1"},
    {"mixed other type", "", "/.Ab,1,0", ""},
    {"type with a digit", "", "/.T1,1,0", ""},
    {"type of one letter", "", "/.T,1,0", ""},
    {"type of three letters", "", "/.TWW,10,0", ""},
    {"two fields by a comma", "", "/.TW,10,", "-.TC,10,0"},
    {"a third by a comma is a checksum", "", "/.TW,10,0,", "-.TC,255,2,10,4"},
    {"one empty field", "", "/.TW,", ""},
    {"no field", "", "/.TW", ""},
    {"id and number reduced", "", "/.TW,305,257,1", "-.TC,49,1,1"},
    {"read with a checksum", "", "/.TR,49,0,49", "-.TC,49,1,0"},
    {"read with a wrong checksum", "", "/.TR,49,0,48", "-.TC,255,2,49,4"},
    {"checksum modulo 256 of a reduced field", "", "/.TW,305,257,1,51", "-.TC,49,1,1"},
    {"reading 4", "", "/.TR,4,0", "-.TC,255,2,4,2"},
    {"reading 10", "", "/.TR,10,0", "-.TC,255,2,10,2"},
    {"reading 11", "", "/.TR,11,0", "-.TC,255,2,11,2"},
    {"reading 250", "", "/.TR,250,0", "-.TC,255,2,250,2"},
    {"writing 0", "", "/.TW,0,0", "-.TC,255,2,0,2"},
    {"error 1 before 2", "", "/.TX,99,0", "-.TC,255,2,99,1"},
    {"error 2 before 3", "", "/.TW,99,5,1", "-.TC,255,2,99,2"},
    {"error 3 before 4", "", "/.TW,49,2,5,0", "-.TC,255,2,49,3"},
    {"error 3, parameters missing", "", "/.TW,49,1", "-.TC,255,2,49,3"},
    {"error 3, two too many", "", "/.TW,49,1,1,51,1", "-.TC,255,2,49,3"},
    {"error 3, a read with a number", "", "/.TR,49,1", "-.TC,255,2,49,3"},
    {"error 4 before 5", "", "/.TW,50,1,9,1", "-.TC,255,2,50,4"},
    {"error 5 with a right checksum", "", "/.TW,50,1,9,60", "-.TC,255,2,50,5"},
    {"eleven fields", "", "/.TW,90,8,8,0,0,0,0,0,0,0,106", "-.TC,90,8,8,0,0,0,0,0,0,0"},
    {"twelve fields", "", "/.TW,90,8,8,0,0,0,0,0,0,0,106,0", "-.TC,255,2,90,3"},
    {"thirteen fields", "", "/.TW,90,8,8,0,0,0,0,0,0,0,106,0,0", "-.TC,255,2,90,3"},
    {"too many fields, type first", "", "/.AB,90,8,8,0,0,0,0,0,0,0,106,0,0", "-.TC,255,2,90,1"},
    {"too many fields, then a bad byte", "", "/.TW,90,8,8,0,0,0,0,0,0,0,106,0,0,x", ""},
    {"a bad form in the twelfth field", "", "/.TW,90,8,8,0,0,0,0,0,0,0,106,1X", ""},
    {"port 0", "", "/.TW,1,2,0,60", "-.TC,255,2,1,5"},
    {"port 5", "", "/.TW,1,2,5,60", "-.TC,255,2,1,5"},
    {"port 4 in mode 4", "", "/.TW,4,2,4,60", "-.TC,255,2,4,5"},
    {"speed 67", "", "/.TW,1,2,1,67", "-.TC,255,2,1,5"},
    {"speed 66", "", "/.TW,1,2,1,66", "-.TC,1,2,1,66"},
    {"an option 2", "", "/.TW,72,1,2", "-.TC,255,2,72,5"},
    {"90, code over 31", "", "/.TW,90,8,8,32,0,0,0,0,0,0", "-.TC,255,2,90,5"},
    {"90, a code after a 0", "", "/.TW,90,8,8,0,8,0,0,0,0,0", "-.TC,255,2,90,5"},
    {"90, empty", "", "/.TW,90,8,0,0,0,0,0,0,0,0", "-.TC,255,2,90,5"},
    {"90, a letter before the 8", "", "/.TW,90,8,3,8,0,0,0,0,0,0", "-.TC,255,2,90,5"},
    {"90, LF and shifts before the 8", "", "/.TW,90,8,2,27,31,8,3,4,5,6", "-.TC,90,8,2,27,31,8,3,4,5,6"},
    {"an error changes nothing", "/.TW,50,1,33\r/.TW,50,1,81\r", "/.TR,50,0", "-.TC,50,1,33"},
    {"250 leaves the connection", "/.TW,4,2,2,66\r/.TW,250,0\r", "/.TR,1,0", "-.TC,4,2,2,66"},
    {"250 puts 90 back", STRING("8,2,0,0,0,0,0,0") "/.TW,250,0\r", "/.TR,90,0", "-.TC,90,8,8,8,2,31,31,0,0,0"},
    /* the stand-in */
    {"77 read, factory", "", "/.TR,77,0", "-.TC,77,1,0"},
    {"77 read", STAND_IN("45"), "/.TR,77,0", "-.TC,77,1,45"},
    {"77 read, a small letter", STAND_IN("97"), "/.TR,77,0", "-.TC,77,1,97"},
    {"77, 0", STAND_IN("45"), "/.TW,77,1,0", "-.TC,77,1,0"},
    {"77, a control without a code", "", "/.TW,77,1,1", "-.TC,255,2,77,5"},
    {"77, BEL", "", "/.TW,77,1,7", "-.TC,255,2,77,5"},
    {"77, SO", "", "/.TW,77,1,14", "-.TC,255,2,77,5"},
    {"77, a space", "", "/.TW,77,1,32", "-.TC,255,2,77,5"},
    {"77 least", "", "/.TW,77,1,33", "-.TC,77,1,33"},
    {"77, %", "", "/.TW,77,1,37", "-.TC,255,2,77,5"},
    {"77, /", "", "/.TW,77,1,47", "-.TC,77,1,47"},
    {"77 most", "", "/.TW,77,1,122", "-.TC,77,1,122"},
    {"77, ~", "", "/.TW,77,1,126", "-.TC,255,2,77,5"},
    {"77, DEL", "", "/.TW,77,1,127", "-.TC,255,2,77,5"},
    {"77, 128", "", "/.TW,77,1,128", "-.TC,255,2,77,5"},
    {"77, X", "", "/.TW,77,1,X", "-.TC,255,2,77,5"},
    {"77 reduced to a byte", "", "/.TW,77,1,301", "-.TC,77,1,45"},
    {"77 with a checksum", "", "/.TW,77,1,45,123", "-.TC,77,1,45"},
    {"77, error 4 before 5", "", "/.TW,77,1,37,123", "-.TC,255,2,77,4"},
    {"77, error 3", "", "/.TW,77,2,45,45", "-.TC,255,2,77,3"},
    {"77, an error changes nothing", STAND_IN("45") STAND_IN("37"), "/.TR,77,0", "-.TC,77,1,45"},
    {"250 puts 77 back", STAND_IN("45") "/.TW,250,0\r", "/.TR,77,0", "-.TC,77,1,0"},
    /* the motor */
    {"53 read", POWER("6"), "/.TR,53,0", "-.TC,53,1,6"},
    {"53, 1", "", "/.TW,53,1,1", "-.TC,255,2,53,5"},
    {"53, 3", "", "/.TW,53,1,3", "-.TC,255,2,53,5"},
    {"53 most", "", "/.TW,53,1,6", "-.TC,53,1,6"},
    {"53 above", "", "/.TW,53,1,7", "-.TC,255,2,53,5"},
    {"53, error 4 before 5", "", "/.TW,53,1,7,1", "-.TC,255,2,53,4"},
    {"53, an error changes nothing", POWER("4") POWER("3"), "/.TR,53,0", "-.TC,53,1,4"},
    {"91 empty", "", "/.TW,91,8,0,0,0,0,0,0,0,0", "-.TC,91,8,0,0,0,0,0,0,0,0"},
    {"92, a code over 31", "", "/.TW,92,8,3,32,0,0,0,0,0,0", "-.TC,255,2,92,5"},
    {"93, a code after a 0", "", "/.TW,93,8,3,0,3,0,0,0,0,0", "-.TC,255,2,93,5"},
    {"94, the last after a 0", "", "/.TW,94,8,0,0,0,0,0,0,0,3", "-.TC,255,2,94,5"},
    {"95, eight codes", "", "/.TW,95,8,31,30,29,28,27,1,2,31", "-.TC,95,8,31,30,29,28,27,1,2,31"},
    {"91 read, the longest message", CALL("91", "16,17,18,19,20,21,22,23"), "/.TR,91,0", "-.TC,91,8,16,17,18,19,20,21,22,23"},
    {"95, seven parameters", "", "/.TW,95,7,3,0,0,0,0,0,0", "-.TC,255,2,95,3"},
    {"each string has its own place", CALL("93", "1,0,0,0,0,0,0,0") CALL("95", "2,0,0,0,0,0,0,0"), "/.TR,94,0",
     "-.TC,94,8,16,16,21,14,24,12,12,0"},
    {"94, an error changes nothing", CALL("94", "3,0,0,0,0,0,0,0") CALL("94", "32,0,0,0,0,0,0,0"), "/.TR,94,0",
     "-.TC,94,8,3,0,0,0,0,0,0,0"},
    {"250 puts 53 back", POWER("5") "/.TW,250,0\r", "/.TR,53,0", "-.TC,53,1,0"},
    {"250 puts 95 back", CALL("95", "3,0,0,0,0,0,0,0") "/.TW,250,0\r", "/.TR,95,0", "-.TC,95,8,17,14,17,14,0,0,0,0"},
    {"connecting leaves 53", POWER("5") MODE_1, "/.TR,53,0", "-.TC,53,1,5"},
    {"20 read is not built", "", "/.TR,20,0", "-.TC,255,2,20,2"},
    {"96 is not built", "", "/.TR,96,0", "-.TC,255,2,96,2"},
    {"76 is not built", "", "/.TW,76,1,0", "-.TC,255,2,76,2"},
    {"76 read is not built", "", "/.TR,76,0", "-.TC,255,2,76,2"},
    {"78 is not built", "", "/.TW,78,1,0", "-.TC,255,2,78,2"},
    {"78 read is not built", "", "/.TR,78,0", "-.TC,255,2,78,2"},
    {"79 is not built", "", "/.TW,79,1,0", "-.TC,255,2,79,2"},
    {"79 read is not built", "", "/.TR,79,0", "-.TC,255,2,79,2"},
};

/* 91 is AB, 92 DE, 93 CC, 94 AD, 95 BD. */
#define CALLS                                                                                                          \
  CALL("91", "3,25,0,0,0,0,0,0") CALL("92", "9,1,0,0,0,0,0,0") CALL("93", "14,14,0,0,0,0,0,0")                         \
  CALL("94", "3,9,0,0,0,0,0,0") CALL("95", "25,9,0,0,0,0,0,0")
#define A_CALL(id, codes) MODE_1 CALLS POWER("2") CALL(id, codes)
#define A_STATION(id, codes) MODE_1 CALLS POWER("4") CALL(id, codes)

/* Host bytes, and the same with + after one on which the motor starts, - where it stops, ? for any other message. */
static const struct trace heard_text[] = {
    {"53 at 0 hears nothing", MODE_1 CALLS, "ABDECCADE", "ABDECCADE"},
    {"53 at 2 starts on 91, 92 stops", MODE_1 CALLS POWER("2"), "ABDEAB", "AB+DE-AB+"},
    {"53 at 2, not on 94 or 95", MODE_1 CALLS POWER("2"), "CCADCCBD", "CCADCCBD"},
    {"53 at 4 starts on 94 after 93", MODE_1 CALLS POWER("4"), "CCADE", "CCAD+E-"},
    {"53 at 4, not on 91 or 95", MODE_1 CALLS POWER("4"), "ABCCBDAB", "ABCCBDAB"},
    {"53 at 5 starts on 95 after 93", MODE_1 CALLS POWER("5"), "CCADBDE", "CCADBD+E-"},
    {"53 at 6 starts on either", MODE_1 CALLS POWER("6"), "CCADECCBDE", "CCAD+E-CCBD+E-"},
    {"53 at 6, not without 93", MODE_1 CALLS POWER("6"), "ADBDAB", "ADBDAB"},
    {"the factory's strings, 53 at 2", MODE_1 POWER("2"), "     \r\r\n\nNNNN", "     \\r\\r\\n+\\nNNNN-"},
    {"the factory's strings, 53 at 4", MODE_1 POWER("4"), "     \r\r\nTTYCONN\nNNNN", "     \\r\\r\\nTTYCONN+\\nNNNN-"},
    {"the factory's strings, 53 at 5", MODE_1 POWER("5"), "     \r\r\nZCZC\nNNNN", "     \\r\\r\\nZCZC+\\nNNNN-"},
    /* what counts */
    {"a 94 begun before the 93 ended", A_STATION("93", "14,3,0,0,0,0,0,0"), "CADAD", "CADAD+"},
    {"codes between 93 and 94", MODE_1 CALLS POWER("4"), "CCFFFFFFFFFFFFFFFFFFFFAD", "CCFFFFFFFFFFFFFFFFFFFFAD+"},
    {"a 94 of eight codes, right after", A_STATION("94", "3,3,3,3,3,3,3,3"), "ACCAAAAAAAA", "ACCAAAAAAAA+"},
    {"a 91 of eight codes, each of them counts", A_CALL("91", "14,3,3,3,3,3,3,3"), "BAAAAAAACAAAAAAA", "BAAAAAAACAAAAAAA+"},
    {"the first 93 serves", A_STATION("94", "14,14,3,0,0,0,0,0"), "CCCCA", "CCCCA+"},
    {"but not one code of it", A_STATION("94", "14,14,3,0,0,0,0,0"), "CCCA", "CCCA"},
    {"a 93 serves once", MODE_1 CALLS POWER("4"), "CCADEADCCAD", "CCAD+E-ADCCAD+"},
    {"a 93 heard while on does not count", MODE_1 CALLS POWER("4"), "CCADCCDEAD", "CCAD+CCDE-AD"},
    {"a 93 begun before the stop counts", A_STATION("93", "1,14,0,0,0,0,0,0"), "ECADECAD", "ECAD+E-CAD+"},
    {"one on the stop's own code does not", A_STATION("93", "9,1,0,0,0,0,0,0"), "DEADEADDEAD", "DEAD+E-ADDEAD+"},
    {"nor a longer one", A_STATION("93", "3,9,1,0,0,0,0,0"), "ADEADEADADEAD", "ADEAD+E-ADADEAD+"},
    {"a stop that uses codes from before the start", A_CALL("92", "3,25,14,0,0,0,0,0"), "ABC", "AB+C-"},
    {"a start that uses codes of the stop", A_CALL("91", "1,25,0,0,0,0,0,0"), "EBDEB", "EB+DE-B+"},
    {"91 and 92 alike", A_CALL("91", "9,1,0,0,0,0,0,0"), "DEDEDE", "DE+DE-DE+"},
    {"91 empty", A_CALL("91", "0,0,0,0,0,0,0,0"), "AB", "AB"},
    {"92 empty", A_CALL("92", "0,0,0,0,0,0,0,0"), "ABDE", "AB+DE"},
    {"93 empty", A_STATION("93", "0,0,0,0,0,0,0,0"), "CCAD", "CCAD"},
    /* what is heard */
    {"the case is not compared", A_CALL("91", "3,23,0,0,0,0,0,0"), "A1aQ", "A1+aQ"},
    {"an added shift is not heard", A_CALL("91", "3,25,23,0,0,0,0,0"), "AB1", "AB1+"},
    {"nor LTRS after a space", ON("70") A_CALL("91", "4,3,0,0,0,0,0,0"), "1 A", "1 A+"},
    {"nor an ending", LIMIT_10 A_CALL("91", "11,15,0,0,0,0,0,0"), TEN "K", "\\rABCDEFGHIJK+"},
    {"not even the start in it", LIMIT_10 A_CALL("91", "8,2,31,31,0,0,0,0"), TEN "K", "\\rABCDEFGHIJK"},
    {"SO and SI are heard", A_CALL("91", "27,31,0,0,0,0,0,0"), "\016\017", "\016\017+"},
    {"even one dropped by 72", ON("72") A_CALL("91", "27,27,0,0,0,0,0,0"), "\016\016", "\016\016+"},
    {"a byte without a code is not", A_CALL("91", "3,25,0,0,0,0,0,0"), "A~B", "A~B+"},
    {"its stand-in is", STAND_IN("45") A_CALL("91", "3,3,0,0,0,0,0,0"), "A~", "A~+"},
    {"port 4 hears nothing", "/.TW,1,2,4,60\r" CALLS POWER("2"), "ABDE", "ABDE"},
    {"mode 11 neither", CALLS POWER("2"), "ABDE", "ABDE"},
    {"nor the host's text in mode 4", MODE_4 CALLS POWER("2"), "ABDE", "ABDE"},
    /* / and its follower */
    {"two messages from one byte", A_CALL("91", "29,0,0,0,0,0,0,0") CALL("92", "3,0,0,0,0,0,0,0"), "/A", "/A+-"},
    {"on and off again", A_CALL("91", "29,0,0,0,0,0,0,0") CALL("92", "29,0,0,0,0,0,0,0"), "//A", "//+A-"},
    {"a / that begins a command is not heard", A_CALL("91", "29,0,0,0,0,0,0,0"), "/.TR,0,0\r", "/.TR,0,0\\r?"},
    /* what is forgotten */
    {"a read forgets nothing", MODE_1 CALLS POWER("2"), "A/.TR,91,0\rB/.TR,53,0\rDE", "A/.TR,91,0\\r?B+/.TR,53,0\\r?DE-"},
    {"nor writing another setting", MODE_1 CALLS POWER("2"), "A" ON("49") "B" STRING("8,2,0,0,0,0,0,0") "DE",
     "A/.TW,49,1,1\\r?B+/.TW,90,8,8,2,0,0,0,0,0,0\\r?DE-"},
    {"a refused 53 neither", MODE_1 CALLS POWER("2"), "A" POWER("3") "B" POWER("7") "DE", "A/.TW,53,1,3\\r?B+/.TW,53,1,7\\r?DE-"},
    {"a refused string neither", MODE_1 CALLS POWER("2"), "AB" CALL("92", "32,0,0,0,0,0,0,0") "DE",
     "AB+/.TW,92,8,32,0,0,0,0,0,0,0\\r?DE-"},
    {"a refused connection neither", MODE_1 CALLS POWER("2"), "AB/.TW,1,2,5,60\rDE", "AB+/.TW,1,2,5,60\\r?DE-"},
    {"53 written as it was", MODE_1 CALLS POWER("2"), "AB" POWER("2") "DEA" POWER("2") "BAB",
     "AB+/.TW,53,1,2\\r?DEA/.TW,53,1,2\\r?BAB+"},
    {"a 93 is forgotten", MODE_1 CALLS POWER("4"), "CC" POWER("4") "ADCCAD", "CC/.TW,53,1,4\\r?ADCCAD+"},
    {"a connection as it was", MODE_1 CALLS POWER("2"), "AB" MODE_1 "DEA" MODE_1 "B",
     "AB+/.TW,1,2,1,60\\r?DEA/.TW,1,2,1,60\\r?B"},
    {"mode 10 and back", MODE_1 CALLS POWER("2"), "AB/.TW,10,0\r" MODE_1 "DE", "AB+/.TW,10,0\\r?/.TW,1,2,1,60\\r?DE"},
    {"250", MODE_1 CALLS POWER("2"), "AB/.TW,250,0\rDE", "AB+/.TW,250,0\\r?DE"},
};

/* TU codes, and the same with + and -. */
static const struct trace heard_codes[] = {
    {"mode 4", MODE_4 CALLS POWER("4"), "14 14 3 9 1", "14 14 3 9+ 1-"},
    {"mode 4, 53 at 0", MODE_4 CALLS, "3 25 9 1", "3 25 9 1"},
    {"BLANK is heard", MODE_4 CALLS POWER("2"), "3 0 25 3 25", "3 0 25 3 25+"},
    {"shifts are heard", MODE_4 CALLS POWER("2"), "3 31 25 3 25", "3 31 25 3 25+"},
    {"even those dropped by 72", MODE_4 ON("72") CALLS POWER("2") CALL("91", "31,31,31,0,0,0,0,0"), "31 31 31", "31 31 31+"},
    {"the case is not compared, mode 4", MODE_4 CALLS POWER("2"), "27 3 25 27 9 1", "27 3 25+ 27 9 1-"},
    {"an ending is not heard, mode 4", MODE_4 LIMIT_10 CALLS POWER("2"), "8 5 5 5 5 5 5 5 5 5 3 25", "8 5 5 5 5 5 5 5 5 5 3 25+"},
    {"mode 1 hears no TU codes", MODE_1 CALLS POWER("2"), "3 25", "3 25"},
};

/* "ASCII-67 to Baudot-USTTY": row i is for bytes i, 32 + i, 64 + i and 96 + i; L and F after a shift, N without. */
static const char *const ascii_table[32] = {
    "N0 N4 -- --", "-- F13 L3 L3", "-- F17 L25 L25", "-- F20 L14 L14", "-- F9 L9 L9", "-- -- L1 L1",
    "-- F26 L13 L13", "F5 F11 L26 L26", "-- F15 L20 L20", "-- F18 L6 L6", "N2 -- L11 L11", "-- -- L15 L15",
    "-- F12 L18 L18", "N8 F3 L28 L28", "N27 F28 L12 L12", "N31 F29 L24 L24", "-- F22 L22 L22", "-- F23 L23 L23",
    "-- F19 L10 L10", "-- F1 L5 L5", "-- F10 L16 L16", "-- F16 L7 L7", "-- F21 L30 L30", "-- F7 L19 L19",
    "-- F6 L29 L29", "-- F24 L21 L21", "-- F14 L17 L17", "-- F30 -- --", "-- -- -- --", "-- -- -- --",
    "-- -- -- --", "-- F25 -- --"};

/* "Baudot-USTTY to ASCII-67": the column LTRS, then the column FIGS. */
static const uint8_t baudot_table[2][32] = {
    {0x00, 0x45, 0x0A, 0x41, 0x20, 0x53, 0x49, 0x55, 0x0D, 0x44, 0x52, 0x4A, 0x4E, 0x46, 0x43, 0x4B,
     0x54, 0x5A, 0x4C, 0x57, 0x48, 0x59, 0x50, 0x51, 0x4F, 0x42, 0x47, 0x0E, 0x4D, 0x58, 0x56, 0x0F},
    {0x00, 0x33, 0x0A, 0x2D, 0x20, 0x07, 0x38, 0x37, 0x0D, 0x24, 0x34, 0x27, 0x2C, 0x21, 0x3A, 0x28,
     0x35, 0x22, 0x29, 0x32, 0x23, 0x36, 0x30, 0x31, 0x39, 0x3F, 0x26, 0x0E, 0x2E, 0x2F, 0x3B, 0x0F}};

/* Bytes, and the message found in them (nothing: none). */
static const struct trace finds[] = {
    {"one message", "", "\r\n-.TC,1,2,1,60\r\n", "-.TC,1,2,1,60"},
    {"no parameters", "", "\r\n-.TC,10,0\r\n", "-.TC,10,0"},
    {"the first of two", "", "\r\n-.TC,10,0\r\n\r\n-.TC,11,0\r\n", "-.TC,10,0"},
    {"the CR LF of a broken one opens the next", "", "\r\n-.TC,10,1\r\n-.TC,11,0\r\n", "-.TC,11,0"},
    {"after text", "", "RYRY\r\r\n-.TC,250,0\r\nRY", "-.TC,250,0"},
    {"no CR before", "", "\n-.TC,10,0\r\n", ""},
    {"no LF before", "", "\r-.TC,10,0\r\n", ""},
    {"no LF after", "", "\r\n-.TC,10,0\r", ""},
    {"no CR after", "", "\r\n-.TC,10,0\n", ""},
    {"one number", "", "\r\n-.TC,10\r\n", ""},
    {"too few", "", "\r\n-.TC,10,2,1\r\n", ""},
    {"too many", "", "\r\n-.TC,10,1,1,1\r\n", ""},
    {"a leading zero", "", "\r\n-.TC,10,1,01\r\n", ""},
    {"zero", "", "\r\n-.TC,0,1,0\r\n", "-.TC,0,1,0"},
    {"255", "", "\r\n-.TC,255,1,255\r\n", "-.TC,255,1,255"},
    {"256", "", "\r\n-.TC,255,1,256\r\n", ""},
    {"four digits", "", "\r\n-.TC,255,1,1000\r\n", ""},
    {"an empty number", "", "\r\n-.TC,255,1,\r\n", ""},
    {"small letters", "", "\r\n-.tc,10,0\r\n", ""},
    {"a command", "", "\r\n/.TW,10,0\r\n", ""},
    {"a byte after the numbers", "", "\r\n-.TC,10,0 \r\n", ""},
    {"nothing", "", "", ""},
};

/* ---- Running them ---- */

static void run_host_line(const struct trace *t) {
  start(t->setup);
  host(t->input);
  const char *got = decimals(first, done[1]);
  check(strcmp(got, t->expected) == 0, t->name, t->expected, got);
}

static void run_tu_line(const struct trace *t) {
  uint8_t codes[ROOM];
  uint64_t n = parse(t->input, codes);
  start(t->setup);
  uint32_t answer = linebox_tu(state, codes, n, first, ROOM, second, ROOM, done);
  const char *got = decimals(first, done[1]);
  int good = answer == 0 && done[0] == n && done[2] == 0 && strcmp(got, t->expected) == 0;
  check(good, t->name, t->expected, got);
}

/* The messages in the second buffer as +, - and ?, for port 1. */
static const char *changes(void) {
  static char out[8];
  uint64_t n = 0;
  for (uint64_t at = 0; at < done[2] && n < 7; at += 17) {
    int whole = done[2] - at >= 17;
    if (whole && memcmp(second + at, "\r\n-.TC,20,2,1,1\r\n", 17) == 0) out[n++] = '+';
    else if (whole && memcmp(second + at, "\r\n-.TC,20,2,1,0\r\n", 17) == 0) out[n++] = '-';
    else return "?";
  }
  out[n] = 0;
  return out;
}

static void add(char *to, const char *text) { memcpy(to + strlen(to), text, strlen(text) + 1); }

static void run_heard_text(const struct trace *t) {
  char got[ROOM] = "";
  start(t->setup);
  for (const char *p = t->input; *p != 0; p++) {
    uint32_t answer = linebox_host(state, (const uint8_t *)p, 1, first, ROOM, second, ROOM, done);
    add(got, shown((const uint8_t *)p, 1));
    add(got, answer == 0 && done[0] == 1 ? changes() : "!");
  }
  check(strcmp(got, t->expected) == 0, t->name, t->expected, got);
}

static void run_heard_codes(const struct trace *t) {
  uint8_t codes[ROOM];
  uint64_t n = parse(t->input, codes);
  char got[ROOM] = "";
  start(t->setup);
  for (uint64_t i = 0; i < n; i++) {
    uint32_t answer = linebox_tu(state, codes + i, 1, first, ROOM, second, ROOM, done);
    if (i > 0) add(got, " ");
    add(got, decimals(codes + i, 1));
    add(got, answer == 0 && done[0] == 1 ? changes() : "!");
  }
  check(strcmp(got, t->expected) == 0, t->name, t->expected, got);
}

static void run_line_line(const struct trace *t) {
  uint8_t codes[ROOM];
  uint64_t n = parse(t->input, codes);
  start(t->setup);
  uint32_t answer = linebox_line(state, codes, n, first, ROOM, second, ROOM, done);
  int same = done[1] == strlen(t->expected) && memcmp(first, t->expected, done[1]) == 0;
  check(answer == 0 && done[0] == n && same, t->name, t->expected, shown(first, done[1]));
}

static void run_command(const struct trace *t) {
  char expected[ROOM];
  uint64_t n = strlen(t->expected);
  memcpy(expected, "\r\n", 2);
  memcpy(expected + 2, t->expected, n);
  memcpy(expected + 2 + n, "\r\n", 2);
  n = n == 0 ? 0 : n + 4;
  start(t->setup);
  host(t->input);
  uint64_t early = done[2];
  host("\r");
  check(early == 0 && done[2] == n && memcmp(second, expected, n) == 0, t->name, t->expected, shown(second, done[2]));
}

static void run_find(const struct trace *t) {
  const uint8_t *bytes = (const uint8_t *)t->input;
  uint64_t n = strlen(t->expected);
  uint64_t at[2] = {99, 99};
  uint32_t answer = linebox_find(bytes, strlen(t->input), at);
  int good = n == 0 ? answer == 0 && at[0] == 0 && at[1] == 0
                    : answer == 1 && at[1] == n && memcmp(bytes + at[0], t->expected, n) == 0;
  check(good, t->name, t->expected, answer ? shown(bytes + at[0], at[1]) : "none");
}

/* The table's entry of a byte. */
static const char *ascii_entry(int byte) {
  const char *entry = byte < 128 ? ascii_table[byte % 32] : "--";
  for (int column = 0; byte < 128 && column < byte / 32; entry++) column += *entry == ' ';
  return entry;
}

/* An entry's codes as the first text after connecting, and that of a NUL after it. */
static void codes_of(const char *entry, char *out) {
  uint8_t codes[3] = {*entry == 'F' ? 27 : 31, (uint8_t)strtoul(entry + 1, NULL, 10), 0};
  int from = *entry == '-' ? 2 : *entry == 'N' ? 1 : 0;
  const char *text = decimals(codes + from, 3 - (uint64_t)from);
  memcpy(out, text, strlen(text) + 1);
}

static void three_digits(char *out, int n) {
  out[0] = (char)('0' + n / 100), out[1] = (char)('0' + n / 10 % 10), out[2] = (char)('0' + n % 10);
}

/* Each byte as the first text after connecting, with a NUL after it so that `/` is released. `none` is the entry of the
   stand-in, for bytes without one. */
static void run_ascii_table(const char *setup, const char *none) {
  unsigned with_code = 0;
  for (int byte = 0; byte < 256; byte++) {
    uint8_t in[2] = {(uint8_t)byte, 0};
    char name[] = "ASCII value ...", expected[12];
    const char *entry = ascii_entry(byte);
    three_digits(name + 12, byte);
    codes_of(*entry == '-' ? none : entry, expected);
    if (*entry != '-') with_code++;
    start(setup);
    if (byte == 10) host(" "); /* the LF of a command's CR LF is no text */
    linebox_host(state, in, 2, first, ROOM, second, ROOM, done);
    const char *got = decimals(first, done[1]);
    check(done[0] == 2 && strcmp(got, expected) == 0, name, expected, got);
  }
  check(with_code == 84, "ASCII values with a code", "84", "another count");
}

/* Each value in 77: written by the command, then put into the state's byte 41, and sent for a byte without a code. */
static void run_stand_ins(void) {
  static const uint8_t in[2] = {'~', 0};
  unsigned allowed = 0;
  for (int value = 0; value < 256; value++) {
    const char *entry = ascii_entry(value);
    int good = value == 0 || (value >= 33 && value <= 126 && *entry != '-');
    char name[] = "77 at ...", command[] = STAND_IN("..."), expected[12];
    three_digits(name + 6, value);
    three_digits(command + 10, value);
    codes_of(value == 0 ? "--" : entry, expected);
    if (good) allowed++;
    start(MODE_1);
    host(command);
    check(state[41] == (good ? value : 0), name, good ? "written" : "refused", "the other");
    state[41] = (uint8_t)value;
    uint32_t answer = linebox_host(state, in, 2, first, ROOM, second, ROOM, done);
    const char *got = decimals(first, done[1]);
    if (good) check(answer == 0 && done[0] == 2 && strcmp(got, expected) == 0, name, expected, got);
    else check(answer == 3 && done[0] == 0 && done[1] == 0 && state[41] == value, name, "3: 0 0 0", got);
    answer = linebox_line(state, NULL, 0, NULL, 0, NULL, 0, done);
    check(answer == (good ? 0 : 3), name, good ? "a line call's 0" : "a line call's 3", "another");
    answer = linebox_tu(state, NULL, 0, NULL, 0, NULL, 0, done);
    check(answer == (good ? 0 : 3), name, good ? "a TU call's 0" : "a TU call's 3", "another");
  }
  check(allowed == 78, "values that 77 may have", "78", "another count");
  start(MODE_1 STAND_IN("45"));
  for (uint64_t room = 0; room < 3; room++) {
    uint32_t answer = linebox_host(state, in, 1, first, room, NULL, 0, done);
    check(answer == (room < 2) && done[0] == room / 2 && done[1] == room / 2 * 2, "a stand-in needs room",
          "1: 0 0, then 0: 1 2", "another");
  }
}

static void run_baudot_table(void) {
  for (int figures = 0; figures < 2; figures++) {
    for (uint8_t code = 0; code < 32; code++) {
      uint8_t in[2] = {figures ? 27 : 31, code};
      start(MODE_1 ON("74"));
      linebox_line(state, in, 2, first, ROOM, second, ROOM, done);
      int good = done[1] == 2 && first[0] == (figures ? 14 : 15) && first[1] == baudot_table[figures][code];
      check(good, figures ? "Baudot table, figures" : "Baudot table, letters", "the paper's byte", shown(first, done[1]));
    }
  }
}

/* How a call ends: the four answers, what was taken and written, and that nothing else is touched. */
static void run_answers(void) {
  start(MODE_1);
  uint32_t answer = linebox_host(state, (const uint8_t *)"A1", 2, first, 3, second, 0, done);
  check(answer == 1 && done[0] == 1 && done[1] == 2 && done[2] == 0, "room for A, not for 1", "1: 1 2 0", "another");
  answer = linebox_host(state, (const uint8_t *)"1", 1, first, 2, second, 0, done);
  check(answer == 0 && done[0] == 1 && done[1] == 2, "the byte not taken goes on", "0: 1 2 0", "another");
  answer = linebox_host(state, (const uint8_t *)"%/.TR,0,0", 9, NULL, 0, NULL, 0, done);
  check(answer == 0 && done[0] == 9, "no output needs no room", "0: 9 0 0", "another");
  answer = linebox_host(state, (const uint8_t *)"\r", 1, NULL, 0, second, 19, done);
  check(answer == 1 && done[0] == 0 && done[2] == 0, "a message of 20 bytes in 19", "1: 0 0 0", "another");
  answer = linebox_host(state, (const uint8_t *)"\r", 1, NULL, 0, second, 20, done);
  check(answer == 0 && done[0] == 1 && done[2] == 20, "and in 20", "0: 1 0 20", "another");
  answer = linebox_host(state, NULL, 0, NULL, 0, NULL, 0, done);
  check(answer == 0 && done[0] == 0, "an empty call", "0: 0 0 0", "another");
  answer = linebox_line(state, (const uint8_t[]){1, 32}, 2, first, 1, NULL, 0, done);
  check(answer == 2 && done[0] == 1 && done[1] == 1 && done[2] == 0, "a line code of 32, no room", "2: 1 1 0", "another");
  answer = linebox_line(state, (const uint8_t[]){1, 2, 32}, 3, first, 1, NULL, 0, done);
  check(answer == 1 && done[0] == 1 && done[1] == 1, "no room before a 32", "1: 1 1 0", "another");
  answer = linebox_tu(state, (const uint8_t[]){1, 255}, 2, NULL, 0, NULL, 0, done);
  check(answer == 2 && done[0] == 1 && done[1] == 0 && done[2] == 0, "a TU code of 255 in mode 1", "2: 1 0 0", "another");
  for (int at = 38; at < LINEBOX_STATE; at++) {
    if (at == 39 || at == 41 || at == 44 || at == 45 || (at >= 56 && at < 104)) continue;
    state[at] = 1;
    answer = linebox_host(state, NULL, 0, NULL, 0, NULL, 0, done);
    check(answer == 3 && state[at] == 1, "each spare byte of 1", "3", "another");
    state[at] = 0;
  }
  state[127] = 1;
  done[0] = done[1] = done[2] = 7;
  answer = linebox_host(state, (const uint8_t *)"A", 1, first, ROOM, second, ROOM, done);
  check(answer == 3 && done[0] == 0 && done[1] == 0 && done[2] == 0 && state[127] == 1, "a spare byte of 1", "3: 0 0 0",
        "another");
  answer = linebox_tu(state, (const uint8_t[]){255}, 1, NULL, 0, NULL, 0, done);
  check(answer == 3 && done[0] == 0 && done[1] == 0 && done[2] == 0, "3 comes before 2", "3: 0 0 0", "another");
}

/* A keyboard that unshifts: 70 switched on between two calls, and a space that is not taken. */
static void run_typed(void) {
  start(MODE_1);
  linebox_line(state, (const uint8_t[]){27, 23, 4}, 3, first, ROOM, second, ROOM, done);
  host(ON("70"));
  linebox_line(state, (const uint8_t[]){23}, 1, first, ROOM, second, ROOM, done);
  check(done[1] == 1 && first[0] == '1', "figures go on when 70 is switched on", "1", shown(first, done[1]));
  uint32_t answer = linebox_line(state, (const uint8_t[]){4}, 1, first, 0, second, ROOM, done);
  check(answer == 1 && state[21] == 2, "a space that is not taken", "1, figures", "another");
  linebox_line(state, (const uint8_t[]){23, 4, 23}, 3, first, ROOM, second, ROOM, done);
  check(done[1] == 3 && memcmp(first, "1 Q", 3) == 0, "and then one that is", "1 Q", shown(first, done[1]));
}

/* The number in eight of the state's bytes, as the header has it. */
static uint64_t word_at(int at) {
  uint64_t number = 0;
  for (int i = 7; i >= 0; i--) number = number << 8 | state[at + i];
  return number;
}

static uint64_t word(void) { return word_at(6); }

/* A code in a place of string 90, LFs and a CR before it or a CR after it: written, found in the state's number, and sent in an
   ending; or refused, where it is no code or may not stand there. */
static void run_place(int place, int code) {
  char name[] = "string 90, place .: ...", command[] = STRING("...,...,...,...,...,...,...,...");
  int good = code < 32 && (place > 0 || code == 2 || code == 8 || code == 27 || code == 31), cr = place == 0;
  name[17] = (char)('0' + place);
  three_digits(name + 20, code);
  for (int i = 0; i < 8; i++) three_digits(command + 10 + 4 * i, i == place ? code : i == cr ? 8 : i < place ? 2 : 0);
  start(MODE_1 LIMIT_10);
  uint64_t before = word();
  host(command);
  if (!good) {
    check(word() == before, name, "refused", "another");
    return;
  }
  check(word() >> 40 == 0 && (word() >> 5 * place & 31) == (unsigned)code, name, "in its five bits", "another");
  host(TEN "K");
  check(first[12 + place] == code, name, "sent in its place", decimals(first, done[1]));
}

/* String 90 as one number: each code in each place; each upper bit; what an older box kept. */
static void run_strings(void) {
  static const uint8_t kept[8] = {72, 12, 82, 204, 249};
  start(MODE_1 STRING("8,2,3,4,5,6,7,31"));
  check(memcmp(state + 6, kept, 8) == 0, "8 2 3 4 5 6 7 31 as bytes", "72 12 82 204 249 0 0 0", decimals(state + 6, 8));
  for (int place = 0; place < 8; place++)
    for (int code = 1; code < 34; code++) run_place(place, code);
  start(MODE_1);
  for (int bit = 40; bit < 64; bit++) {
    uint8_t *byte = state + 6 + bit / 8, flag = (uint8_t)(1 << bit % 8);
    *byte = flag;
    uint32_t answer = linebox_host(state, (const uint8_t *)"A", 1, first, ROOM, second, ROOM, done);
    check(answer == 3 && done[0] == 0 && *byte == flag, "an upper bit, host call", "3: 0 0 0", "another");
    answer = linebox_line(state, NULL, 0, NULL, 0, NULL, 0, done);
    check(answer == 3 && *byte == flag, "an upper bit, line call", "3: 0 0 0", "another");
    answer = linebox_tu(state, NULL, 0, NULL, 0, NULL, 0, done);
    check(answer == 3 && *byte == flag, "an upper bit, TU call", "3: 0 0 0", "another");
    *byte = 0;
  }
  /* an older box kept a byte a code: its factory string is now none by the rules, its 8,2 another one */
  memcpy(state + 6, (const uint8_t[]){8, 8, 2, 31, 31, 0, 0, 0}, 8);
  check(linebox_host(state, NULL, 0, NULL, 0, NULL, 0, done) == 3, "an older box's factory string", "3", "another");
  memcpy(state + 6, (const uint8_t[]){8, 2, 0, 0, 0, 0, 0, 0}, 8);
  host("/.TR,90,0\r");
  check(strcmp(shown(second, done[2]), "\\r\\n-.TC,90,8,8,16,0,0,0,0,0,0\\r\\n") == 0, "an older box's 8,2", "8,16",
        shown(second, done[2]));
}

/* Each write that turns the motor off: it says nothing but its own answer, and all that was heard is forgotten. */
static void run_forgetting(void) {
  static const char *const writes[] = {POWER("2"), POWER("0"), CALL("91", "3,25,0,0,0,0,0,0"), CALL("92", "9,1,0,0,0,0,0,0"),
                                       CALL("93", "14,14,0,0,0,0,0,0"), CALL("94", "3,9,0,0,0,0,0,0"),
                                       CALL("95", "25,9,0,0,0,0,0,0"), MODE_1, MODE_4, "/.TW,10,0\r", "/.TW,11,0\r",
                                       "/.TW,250,0\r"};
  for (uint64_t i = 0; i < sizeof writes / sizeof *writes; i++) {
    uint64_t n = strlen(writes[i]);
    start(MODE_1 CALLS POWER("2"));
    host("CCAB");
    check(state[44] == 1 && state[45] == 0 && word_at(56) != 0, writes[i], "on before it", "another");
    host(writes[i]);
    int own = done[2] == n + 3 && memcmp(second, "\r\n-.TC", 6) == 0 && memcmp(second + 6, writes[i] + 4, n - 5) == 0;
    check(own && state[44] == 0 && state[45] == 0 && word_at(56) == 0, writes[i], "off, forgotten, its own answer",
          shown(second, done[2]));
    host("DE");
    check(done[2] == 0, writes[i], "nothing to stop", shown(second, done[2]));
    start(MODE_1 CALLS POWER("4"));
    host("CC");
    check(state[44] == 0 && state[45] == 1, writes[i], "called before it", "another");
    host(writes[i]);
    check(state[45] == 0 && word_at(56) == 0, writes[i], "the call forgotten", "another");
  }
}

/* What was heard in the state's bytes, and the message of the other ports. */
static void run_heard(void) {
  start(MODE_1 CALLS POWER("2"));
  host("AC");
  check(strcmp(decimals(state + 56, 8), "0 0 0 192 112 0 0 0") == 0, "A and C heard", "14 and 3 in the top ten of forty bits",
        decimals(state + 56, 8));
  host("C");
  check(state[45] == 1, "93 is followed with 53 at 2", "1", decimals(state + 45, 1));
  for (int since = 1; since < 20; since++) {
    host("F");
    check(state[45] == (since < 8 ? since + 1 : 9), "codes since 93", "one more, staying at 9", decimals(state + 45, 1));
  }
  host("AB");
  check(state[44] == 1 && state[45] == 0 && word_at(56) >> 30 == (25 << 5 | 3), "started", "on, no call, B last", "another");
  start(MODE_1 CALLS POWER("2"));
  linebox_host(state, (const uint8_t[]){'A', 0, 'B'}, 3, first, ROOM, second, ROOM, done);
  check(done[2] == 0 && word_at(56) >> 25 == (25 << 10 | 3), "BLANK in text is heard", "3 0 25", shown(second, done[2]));
  start("/.TW,1,2,2,60\r" CALLS POWER("2"));
  host("AB");
  check(strcmp(shown(second, done[2]), "\\r\\n-.TC,20,2,2,1\\r\\n") == 0, "port 2", "-.TC,20,2,2,1", shown(second, done[2]));
  start("/.TW,4,2,3,60\r" CALLS POWER("2"));
  linebox_tu(state, (const uint8_t[]){3, 25, 9, 1}, 4, first, ROOM, second, ROOM, done);
  check(strcmp(shown(second, done[2]), "\\r\\n-.TC,20,2,3,1\\r\\n\\r\\n-.TC,20,2,3,0\\r\\n") == 0, "port 3, mode 4",
        "-.TC,20,2,3,1 and -.TC,20,2,3,0", shown(second, done[2]));
}

/* The last byte or code of a call with less room than it needs takes nothing; with enough it is taken. */
static void run_rooms(int tu, uint8_t byte, uint64_t line_need, uint64_t host_need, const char *name) {
  uint8_t before[LINEBOX_STATE];
  memcpy(before, state, LINEBOX_STATE);
  for (uint64_t room = 0; room <= line_need + host_need; room++) {
    uint64_t line_room = room < host_need ? line_need : room - host_need, host_room = room < host_need ? room : host_need;
    uint32_t answer = (tu ? linebox_tu : linebox_host)(state, &byte, 1, first, line_room, second, host_room, done);
    int last = room == line_need + host_need, kept = memcmp(before, state, LINEBOX_STATE) == 0;
    if (last) check(answer == 0 && done[0] == 1 && done[1] == line_need && done[2] == host_need, name, "taken", "another");
    else check(answer == 1 && done[0] == 0 && done[1] == 0 && done[2] == 0 && kept, name, "no room: nothing", "another");
  }
}

static void run_motor_rooms(void) {
  start(MODE_4 CALLS POWER("2"));
  linebox_tu(state, (const uint8_t[]){3}, 1, first, ROOM, NULL, 0, done);
  run_rooms(1, 25, 1, 17, "a start needs 17 host bytes");
  linebox_tu(state, (const uint8_t[]){27, 9}, 2, first, ROOM, NULL, 0, done);
  run_rooms(1, 1, 1, 17, "and so does a stop");
  start(A_CALL("91", "3,0,0,0,0,0,0,0"));
  run_rooms(0, 'A', 2, 17, "a start by text");
  start(A_CALL("91", "29,0,0,0,0,0,0,0") CALL("92", "3,0,0,0,0,0,0,0") "/");
  run_rooms(0, 'A', 4, 34, "two messages from one byte need 34");
  check(strcmp(changes(), "+-") == 0, "the two messages", "+-", changes());
  start(CALL("91", "16,17,18,19,20,21,22,23") "/.TR,91,0");
  run_rooms(0, '\r', 0, 37, "the longest message needs 37");
}

/* Whether the state is sound, to each of the calls. */
static void run_sound(int good, const char *name) {
  uint8_t before[LINEBOX_STATE];
  memcpy(before, state, LINEBOX_STATE);
  uint32_t by_host = linebox_host(state, (const uint8_t *)"A", (uint64_t)!good, first, ROOM, second, ROOM, done);
  uint32_t by_line = linebox_line(state, (const uint8_t[]){3}, (uint64_t)!good, first, ROOM, second, ROOM, done);
  uint32_t by_tu = linebox_tu(state, (const uint8_t[]){3}, (uint64_t)!good, first, ROOM, second, ROOM, done);
  uint32_t expected = good ? 0 : 3;
  check(by_host == expected && by_line == expected && by_tu == expected && memcmp(before, state, LINEBOX_STATE) == 0, name,
        good ? "0 from each call" : "3 from each call", "another");
}

/* Each value of the motor's bytes; each bit of the codes heard and of strings 91 to 95. */
static void run_motor_bytes(void) {
  start(MODE_1);
  for (int value = 0; value < 256; value++) {
    state[39] = (uint8_t)value;
    run_sound(value == 0 || value == 2 || value == 4 || value == 5 || value == 6, "53 in the state");
    state[39] = 0;
    state[44] = (uint8_t)value;
    run_sound(value <= 1, "the motor in the state");
    state[44] = 0;
    state[45] = (uint8_t)value;
    run_sound(value <= 9, "the call in the state");
    state[44] = 1;
    run_sound(value == 0, "the call while the motor is on");
    state[44] = state[45] = 0;
  }
  for (int at = 56; at < 104; at += 8) {
    for (int bit = 0; bit < 64; bit++) { /* all bits below it set: as a string, no 0 before a code */
      memset(state + at, 0, 8);
      for (int i = 0; i <= bit; i++) state[at + i / 8] |= (uint8_t)(1 << i % 8);
      run_sound(bit < 40, at == 56 ? "codes heard" : "string of 91 to 95");
      if (bit >= 40 || bit % 5 != 0) continue;
      for (int i = 0; i < bit; i++) state[at + i / 8] &= (uint8_t)~(1 << i % 8);
      run_sound(at == 56 || bit == 0, at == 56 ? "one code heard" : "a code after a 0 in a string");
    }
    memset(state + at, 0, 8);
    run_sound(1, "nothing heard, or an empty string");
  }
}

/* A motor handed in as on: where nothing is heard it stays so, and elsewhere 92 stops it. */
static void run_handed_in(void) {
  static const char *const deaf[] = {MODE_1, "/.TW,1,2,4,60\r" POWER("2"), POWER("2"), MODE_4 POWER("2")};
  for (uint64_t i = 0; i < sizeof deaf / sizeof *deaf; i++) {
    start(deaf[i]);
    state[44] = 1;
    host("A\nNNNN");
    check(done[2] == 0 && state[44] == 1 && word_at(56) == 0, deaf[i], "on, nothing heard", shown(second, done[2]));
  }
  start(MODE_1 POWER("2"));
  state[44] = 1;
  host("A\nNNNN");
  check(strcmp(changes(), "-") == 0 && state[44] == 0, "a motor handed in as on", "-", shown(second, done[2]));
}

/* A fresh box byte by byte, and line codes to the TU in mode 4. */
static void run_fresh(void) {
  static const uint8_t expected[LINEBOX_STATE] = {
      [1] = 72, [6] = 8, 137, 255, 1, [14] = 11, [21] = 1, 1, [64] = 132, 16, 66, 16, 18, [72] = 130, 49, 198,
      [80] = 132, 16, 66, 16, 18, [88] = 16, 86, 135, 25, 3, [96] = 209, 69, 7};
  memset(state, 255, LINEBOX_STATE);
  uint32_t answer = linebox_fresh(state);
  check(answer == 0 && memcmp(state, expected, LINEBOX_STATE) == 0, "a fresh box", "by the published offsets",
        decimals(state, LINEBOX_STATE));
  start(MODE_4 ON("70") ON("71"));
  answer = linebox_line(state, (const uint8_t[]){27, 23, 4, 23, 8, 31, 0}, 7, first, ROOM, second, ROOM, done);
  check(answer == 0 && done[0] == 7 && done[1] == 0 && strcmp(decimals(second, done[2]), "27 23 4 23 8 31 0") == 0,
        "line codes to the TU in mode 4", "27 23 4 23 8 31 0", decimals(second, done[2]));
}

#define EACH(table, run)                                                                                               \
  for (uint64_t i = 0; i < sizeof table / sizeof *table; i++) run(&table[i])

int main(void) {
  EACH(host_lines, run_host_line);
  EACH(tu_lines, run_tu_line);
  EACH(line_lines, run_line_line);
  EACH(heard_text, run_heard_text);
  EACH(heard_codes, run_heard_codes);
  EACH(commands, run_command);
  EACH(finds, run_find);
  run_ascii_table(MODE_1, "--");
  run_ascii_table(MODE_1 STAND_IN("45"), "F3");
  run_stand_ins();
  run_baudot_table();
  run_answers();
  run_typed();
  run_strings();
  run_forgetting();
  run_heard();
  run_motor_rooms();
  run_motor_bytes();
  run_handed_in();
  run_fresh();
  printf("lines: %u passed, %u failed\n", passed, failed);
  return failed != 0;
}
