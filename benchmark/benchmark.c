/* The archive and the plain C model on the same megabytes, side by side: the best of some rounds of each, and the ratio
   of their times (below 1: the archive is quicker). */
#include "linebox.h"
#include "model.h"
#include <stdio.h>
#include <stdlib.h>
#include <string.h>
#include <time.h>

enum { SIZE = 2 << 20, ROOM = 16 * 16384 + 40, ROUNDS = 15 };
static uint8_t *input, line[ROOM], host[ROOM];

/* ---- What is fed ---- */

static uint64_t put(uint64_t at, const char *text) {
  for (; *text != 0 && at < SIZE; text++) input[at++] = (uint8_t)*text;
  return at;
}

static uint64_t put_2(uint64_t at, unsigned n) {
  char two[3] = {(char)('0' + n / 10 % 10), (char)('0' + n % 10), 0};
  return put(at, two);
}

/* A night's log of a timing room: a time, a lane, what happened. */
static void night(void) {
  static const char *const what[] = {"start ok", "lap", "finish", "false start - recall", "split", "judge's time"};
  unsigned second = 0;
  for (uint64_t at = 0; at < SIZE;) {
    second += 7 + second % 5;
    at = put(put_2(at, second / 3600 % 24), ":");
    at = put(put_2(at, second / 60 % 60), ":");
    at = put(put_2(at, second % 60), "  LANE ");
    at = put(put_2(at, 1 + second % 8), "  ");
    at = put(put(at, what[second % 6]), "  ");
    at = put(put_2(at, second % 59), ".");
    at = put(put_2(at, second % 97), " S\r\n");
  }
}

static void repeat(const char *text) {
  for (uint64_t at = 0; at < SIZE;) at = put(at, text);
}

static void shifts(void) { repeat("A1B2C3D4E5F6G7H8I9J0"); }
static void letters(void) { repeat("THE QUICK BROWN FOX JUMPS OVER THE LAZY DOG "); }
static void commands(void) {
  repeat("/.TW,1,2,1,60\r\n/.TR,90,0\r\n/.TW,50,1,72\r\n/.TR,0,0\r\n/.TW,70,1,1,142\r\n/.TW,49,1,5\r\n/.AB,1,0\r\n"
         "/.TW,90,8,8,8,2,31,31,0,0,0\r\n/.TW,72\r\n/.TR,1,0\r\n");
}
static void messages(void) { repeat("\r\n-.TC,90,8,8,8,2,31,31,0,0,1 RYRYRYRYRYRYRYRY\r\n-.TC,49,2,1\r\n"); }
static void codes(void) {
  letters();
  for (uint64_t i = 0; i < SIZE; i++) input[i] = (uint8_t)((input[i] * 7 + i) % 32);
}

/* ---- Feeding it ---- */

typedef uint32_t call_3(uint8_t *, const uint8_t *, uint64_t, uint8_t *, uint64_t, uint8_t *, uint64_t, uint64_t *);
typedef uint32_t call_find(const uint8_t *, uint64_t, uint64_t *);
enum { HOST, LINE, TU, FIND };

struct work {
  const char *name, *setup;
  void (*make)(void);
  int kind;
  uint64_t a_call; /* input bytes in a call */
};

/* A sum over all that came out, so that both sides are seen to give the same. */
static uint64_t feed(const struct work *w, int by_model) {
  call_3 *const three[] = {[HOST] = by_model ? model_host : linebox_host,
                           [LINE] = by_model ? model_line : linebox_line,
                           [TU] = by_model ? model_tu : linebox_tu};
  call_find *find = by_model ? model_find : linebox_find;
  uint8_t state[LINEBOX_STATE];
  uint64_t done[3] = {0, 0, 0}, sum = 0;
  model_fresh(state);
  model_host(state, (const uint8_t *)w->setup, strlen(w->setup), line, ROOM, host, ROOM, done);
  for (uint64_t at = 0; at < SIZE; at += w->a_call) {
    uint64_t n = SIZE - at < w->a_call ? SIZE - at : w->a_call;
    uint32_t answer;
    done[2] = 0;
    if (w->kind == FIND) answer = find(input + at, n, done);
    else answer = three[w->kind](state, input + at, n, line, ROOM, host, ROOM, done);
    sum = sum * 31 + answer + done[0] + done[1] * 3 + done[2] * 7 + line[done[1] / 2] + state[19];
  }
  return sum;
}

static double seconds(void) {
  struct timespec now;
  clock_gettime(CLOCK_PROCESS_CPUTIME_ID, &now);
  return (double)now.tv_sec + (double)now.tv_nsec / 1e9;
}

#define MODE_1 "/.TW,1,2,1,60\r"
#define ON(id) "/.TW," id ",1,1\r"

static const struct work works[] = {
    {"a night's log", MODE_1 ON("49") ON("70") ON("71"), night, HOST, 16384},
    {"a shift at every character", MODE_1, shifts, HOST, 16384},
    {"endings on, limit 10", MODE_1 ON("49") "/.TW,50,1,10\r\r", letters, HOST, 16384},
    {"commands only", "", commands, HOST, 16384},
    {"a night's log, 16 bytes a call", MODE_1 ON("49") ON("70") ON("71"), night, HOST, 16},
    {"TU codes in mode 4", "/.TW,4,2,1,60\r" ON("49") ON("70"), codes, TU, 16384},
    {"line codes to the host", MODE_1, codes, LINE, 16384},
    {"finding no message", "", messages, FIND, 16384},
    {"a night's log, 53 at 6", MODE_1 ON("49") ON("70") ON("71") "/.TW,53,1,6\r", night, HOST, 16384},
};

int main(int argc, char **argv) {
  double rounds = argc > 1 ? (double)strtoul(argv[1], NULL, 10) : ROUNDS;
  int unlike = 0;
  input = malloc(SIZE);
  printf("%-32s %10s %10s %8s\n", "", "archive", "model", "ratio");
  for (uint64_t i = 0; i < sizeof works / sizeof *works; i++) {
    double best[2] = {1e9, 1e9};
    uint64_t sum[2] = {0, 0};
    works[i].make();
    for (int round = 0; round < rounds; round++) {
      for (int by_model = 0; by_model < 2; by_model++) {
        double from = seconds();
        sum[by_model] = feed(&works[i], by_model);
        double took = seconds() - from;
        if (took < best[by_model]) best[by_model] = took;
      }
    }
    if (sum[0] != sum[1]) unlike = 1;
    printf("%-32s %5.0f MB/s %5.0f MB/s %8.2f%s\n", works[i].name, SIZE / best[0] / 1e6, SIZE / best[1] / 1e6,
           best[0] / best[1], sum[0] == sum[1] ? "" : "  (results differ)");
  }
  return unlike;
}
