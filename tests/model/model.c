/* A plain C model of the line box, written from the requirements and the firmware paper and not from the proved code.
   The tests compare the archive with it byte by byte, and the benchmark sets the archive's time against its time. */
#include "model.h"
#include <stddef.h>
#include <string.h>

#ifdef MODEL_SEEN
unsigned long model_seen[SEEN_EVENTS];
#define SEEN(event) (model_seen[SEEN_##event]++)
#else
#define SEEN(event) ((void)0)
#endif

enum { ALL_TAKEN, NO_ROOM, BAD_CODE, NOT_SOUND }; /* the four answers */
enum { UNKNOWN, LETTERS, FIGURES };                /* a case; as the last item: any other, LTRS, FIGS */
enum { FIGS = 27, LTRS = 31 };
enum { MOST = 40 }; /* one byte never makes more than this many codes or host bytes */

/* A programmable string: its codes with zeros after them, and how many there are. */
struct string {
  uint8_t code[8], length;
};

/* The state: up to `motor` in the order of its published offsets, then what the box remembers in a form of the model's own (`load`,
   `save`). A string and the codes heard are eight codes here, and one number in the 128 bytes (`unpack`, `pack`). */
enum { FIELDS = 11 };
enum { SOM, EOM, CONDITIONING, STATION, ALL, CALLS }; /* strings 91 to 95, as the paper calls them */
struct box {
  uint8_t endings, limit, on_space, on_return, filter, report, string[8]; /* 49, 50, 70, 71, 72, 74, 90 */
  uint8_t mode, port, speed;
  uint8_t printer, known, column; /* the record: the printer's case and its column */
  uint8_t last, reading, incoming;
  uint8_t stage, note, form, count; /* the command reader */
  uint8_t field[FIELDS];
  uint8_t id_52, power, id_76; /* 53, the motor power mode; the others are 0 */
  uint8_t stand_in;            /* 77: what text bytes without a code are replaced by, 0 if they are dropped */
  uint8_t id_78, id_79;        /* 0 */
  uint8_t motor;               /* whether it is on */
  uint8_t called, since;       /* whether string 93 has come, and how many of the codes heard came after the first */
  uint8_t heard[8];            /* the last one last, 0 where none was heard */
  struct string call[CALLS];
};
_Static_assert(offsetof(struct box, mode) == 14 && offsetof(struct box, printer) == 17 && offsetof(struct box, stage) == 23 &&
                   offsetof(struct box, field) == 27 && offsetof(struct box, power) == 39 &&
                   offsetof(struct box, stand_in) == 41 && offsetof(struct box, motor) == 44,
               "the published offsets");
enum { AT_STRING = 6, AT_CALLED = 45, AT_HEARD = 56, AT_CALL = 64, AT_END = AT_CALL + 8 * CALLS }; /* 46 to 55 hold 0 */

/* The stages of the command reader. `note` is in LETTER_1 whether the letter is small, later the type; `form` is in
   LETTER_1 whether the letter is T, in FIELD what the field holds so far; `count` is the field's place, 11 for too many. */
enum { TEXT, AFTER_CR, SLASH, BEGUN, LETTER_1, LETTER_2, FIELD, DISCARD };
enum { OTHER_TYPE, TW, TR };
enum { NOTHING, DIGITS, X_ALONE };

/* ---- The code ---- */

/* What a code does to the printer. The first three may need an ending before them, and move the carriage. */
enum { LETTER, FIGURE, SPACE, BELL, RETURN, PLAIN, SHIFT, NO_CODE };
struct code {
  uint8_t code, kind;
};

/* Codes to host bytes, by case: the paper's table "Baudot-USTTY to ASCII-67". */
static const uint8_t to_byte[3][32] = {
    [LETTERS] = {0,   'E', 10,  'A', ' ', 'S', 'I', 'U', 13,  'D', 'R', 'J', 'N', 'F', 'C', 'K',
                 'T', 'Z', 'L', 'W', 'H', 'Y', 'P', 'Q', 'O', 'B', 'G', 14,  'M', 'X', 'V', 15},
    [FIGURES] = {0,   '3', 10,  '-', ' ', 7,   '8', '7', 13,  '$', '4', '\'', ',', '!', ':', '(',
                 '5', '"', ')', '2', '#', '6', '0', '1', '9', '?', '&', 14,   '.', '/', ';', 15}};

/* What a code does, by the case that it is meant in. */
#define KINDS(of_case, of_5)                                                                                           \
  {PLAIN,   of_case, PLAIN,   of_case, SPACE,   of_5,    of_case, of_case, RETURN,  of_case, of_case,                  \
   of_case, of_case, of_case, of_case, of_case, of_case, of_case, of_case, of_case, of_case, of_case,                  \
   of_case, of_case, of_case, of_case, of_case, SHIFT,   of_case, of_case, of_case, SHIFT}
static const uint8_t kind_of[3][32] = {[LETTERS] = KINDS(LETTER, LETTER), [FIGURES] = KINDS(FIGURE, BELL)};

/* Host text to codes: the paper's table "ASCII-67 to Baudot-USTTY", found by looking through the letters and then the figures, as
   one would for a board without room for a table of 128 entries. A small letter is sent as its capital. */
static inline struct code of_byte(uint8_t byte) {
  if (byte >= 'a' && byte <= 'z') byte -= 32;
  for (int of_case = LETTERS; of_case <= FIGURES; of_case++)
    for (uint8_t code = 0; code < 32; code++)
      if (to_byte[of_case][code] == byte) return (struct code){code, kind_of[of_case][code]};
  return (struct code){0, NO_CODE};
}

/* ---- Sending to the line: each function puts codes at `out` and hands back the place after them ---- */

static inline void move(struct box *box) {
  if (!box->known) return;
  if (box->column < 255) box->column++;
  else SEEN(COLUMN_255);
}

static inline uint8_t *unshift(struct box *box, uint8_t *out) {
  box->printer = LETTERS;
  *out++ = LTRS;
  return out;
}

/* One code with what it needs, but no ending. */
static inline uint8_t *put(struct box *box, uint8_t *out, uint8_t code, uint8_t kind) {
  if (kind == LETTER || kind == FIGURE || kind == BELL) {
    uint8_t wanted = kind == LETTER ? LETTERS : FIGURES;
    if (box->printer != wanted) {
      SEEN(SHIFT_ADDED);
      *out++ = wanted == LETTERS ? LTRS : FIGS;
      box->printer = wanted;
    }
    *out++ = code;
    if (kind != BELL) move(box);
    else SEEN(BELL_SENT);
    return out;
  }
  *out++ = code;
  if (kind == SPACE) {
    move(box);
    if (box->on_space && box->printer != LETTERS) {
      SEEN(UNSHIFT_SPACE);
      return unshift(box, out);
    }
  } else if (kind == RETURN) {
    box->known = 1;
    box->column = 0;
    if (box->on_return && box->printer != LETTERS) {
      SEEN(UNSHIFT_RETURN);
      return unshift(box, out);
    }
  } else if (kind == SHIFT) {
    box->printer = code == LTRS ? LETTERS : FIGURES;
  }
  return out;
}

/* String 90. Its codes are meant in the case on record; if there is none, LTRS goes before one that needs a case. */
static uint8_t *ending(struct box *box, uint8_t *out) {
  SEEN(ENDING);
  for (int i = 0; i < 8 && box->string[i] != 0; i++) {
    uint8_t code = box->string[i];
    if (box->printer == UNKNOWN && kind_of[LETTERS][code] == LETTER) {
      SEEN(ENDING_LTRS);
      out = unshift(box, out);
    }
    uint8_t kind = kind_of[box->printer == FIGURES ? FIGURES : LETTERS][code];
    if (kind == BELL) SEEN(ENDING_BELL);
    out = put(box, out, code, kind);
  }
  return out;
}

/* One item, host text in mode 1 or a TU code in mode 4: filter, ending, shift, code. */
static inline uint8_t *item(struct box *box, uint8_t *out, uint8_t code, uint8_t kind) {
  if (kind == SHIFT) {
    uint8_t shift = code == LTRS ? LETTERS : FIGURES;
    if (box->filter && box->last == shift) {
      SEEN(FILTERED);
      if (box->power != 0 && box->port != 4) SEEN(FILTERED_HEARD);
      return out;
    }
    SEEN(SHIFT_SENT);
    box->last = shift;
  } else {
    box->last = UNKNOWN;
    if (kind <= SPACE && box->endings && box->known && box->column >= box->limit) out = ending(box, out);
  }
  return put(box, out, code, kind);
}

/* ---- Messages to the host: each function puts bytes at `out` and hands back the place after them ---- */

static uint8_t *number(uint8_t *out, uint8_t n) {
  *out++ = ',';
  if (n >= 100) *out++ = (uint8_t)('0' + n / 100);
  if (n >= 10) *out++ = (uint8_t)('0' + n / 10 % 10);
  *out++ = (uint8_t)('0' + n % 10);
  return out;
}

static uint8_t *message(uint8_t *out, uint8_t id, uint8_t count, const uint8_t *value) {
  memcpy(out, "\r\n-.TC", 6);
  out = number(number(out + 6, id), count);
  for (int i = 0; i < count; i++) out = number(out, value[i]);
  *out++ = '\r';
  *out++ = '\n';
  return out;
}

/* ---- The motor ---- */

/* Whether the last codes heard are the string's. */
static inline int ended(const struct box *box, int which) {
  const struct string *string = &box->call[which];
  if (string->length == 0) return 0;
  for (int i = 1; i <= string->length; i++)
    if (box->heard[8 - i] != string->code[string->length - i]) return 0;
  return 1;
}

/* Whether the string just ended, and all its codes came after string 93. */
static inline int ended_after_call(const struct box *box, int which) {
  if (!ended(box, which)) return 0;
  if (box->called && box->call[which].length <= box->since) return 1;
  SEEN(NOT_CALLED);
  return 0;
}

/* Whether the motor, which is off, starts on the code just heard. */
static inline int starts(const struct box *box) {
  if (box->power == 2) {
    if (!ended(box, SOM)) return 0;
    SEEN(STARTED_2);
    return 1;
  }
  if (box->power != 5 && ended_after_call(box, STATION)) {
    if (box->power == 4) SEEN(STARTED_4);
    else SEEN(STARTED_6_94);
    return 1;
  }
  if (box->power != 4 && ended_after_call(box, ALL)) {
    if (box->power == 5) SEEN(STARTED_5);
    else SEEN(STARTED_6_95);
    return 1;
  }
  return 0;
}

/* The motor goes on or off, and the host is told. */
static uint8_t *switch_motor(struct box *box, uint8_t *out, uint8_t on) {
  if (!on) SEEN(STOPPED);
  if (!on && ended(box, CONDITIONING)) SEEN(CALLED_ON_STOP);
  box->motor = on;
  box->called = box->since = 0;
  return message(out, 20, 2, (const uint8_t[]){box->port, on});
}

/* A code asked for while 53 is not 0, and what it tells the host. */
static uint8_t *listen(struct box *box, uint8_t *out, uint8_t code) {
  if (box->port == 4) {
    SEEN(PORT_4);
    return out;
  }
  memmove(box->heard, box->heard + 1, 7);
  box->heard[7] = code;
  if (box->motor) return ended(box, EOM) ? switch_motor(box, out, 0) : out;
  if (box->called) {
    if (box->since < 8) box->since++;
  } else if (ended(box, CONDITIONING)) {
    SEEN(CALLED);
    box->called = 1;
  }
  return starts(box) ? switch_motor(box, out, 1) : out;
}

/* A code asked for in mode 1 or 4. In most boxes nobody listens. */
static inline uint8_t *hear(struct box *box, uint8_t *out, uint8_t code) {
  return __builtin_expect(box->power == 0, 1) ? out : listen(box, out, code);
}

/* The motor goes off and the codes heard are forgotten, with nothing said. */
static void forget(struct box *box) {
  box->motor = box->called = box->since = 0;
  memset(box->heard, 0, 8);
}

/* ---- Text and TU codes: what each asks for is heard, then sent ---- */

static inline void text(struct box *box, uint8_t byte, uint8_t **line, uint8_t **host) {
  struct code c = of_byte(byte);
  if (box->mode != 1) {
    SEEN(NOT_CARRIED);
    return;
  }
  if (__builtin_expect(c.kind == NO_CODE, 0)) { /* seldom: text with a code goes straight on */
    if (box->stand_in == 0) {
      SEEN(DROPPED);
      return;
    }
    SEEN(REPLACED);
    c = of_byte(box->stand_in);
  }
  *host = hear(box, *host, c.code);
  *line = item(box, *line, c.code, c.kind);
}

/* A TU code in mode 4, meant in the incoming reading case. */
static inline void tu_code(struct box *box, uint8_t code, uint8_t **line, uint8_t **host) {
  uint8_t kind = kind_of[box->incoming][code];
  *host = hear(box, *host, code);
  *line = item(box, *line, code, kind);
  if (kind == SHIFT) {
    box->incoming = code == LTRS ? LETTERS : FIGURES;
  } else if ((kind == SPACE && box->on_space) || (kind == RETURN && box->on_return)) {
    if (box->incoming == FIGURES) SEEN(INCOMING_BACK);
    box->incoming = LETTERS;
  }
}

/* ---- Settings ---- */

static const uint8_t factory[14] = {0, 72, 0, 0, 0, 0, 8, 8, 2, 31, 31, 0, 0, 0}; /* and 53 and 77 are 0 */
static const uint8_t factory_call[CALLS][8] = {{4, 4, 4, 4, 4, 8, 8, 2},
                                               {2, 12, 12, 12, 12, 0, 0, 0},
                                               {4, 4, 4, 4, 4, 8, 8, 2},
                                               {16, 16, 21, 14, 24, 12, 12, 0},
                                               {17, 14, 17, 14, 0, 0, 0, 0}};

static int is_speed(uint8_t n) { return n == 60 || n == 66 || n == 75 || n == 100; }

static int is_power(uint8_t n) { return n == 0 || n == 2 || (n >= 4 && n <= 6); }

static int length_of(const uint8_t s[8]) {
  int length = 0;
  while (length < 8 && s[length] != 0) length++;
  return length;
}

/* Strings 91 to 95: codes, and nothing but zeros from the first 0 on. */
static int is_call(const uint8_t s[8]) {
  for (int i = 0; i < 8; i++)
    if (s[i] > 31 || (i > 0 && s[i - 1] == 0 && s[i] != 0)) return 0;
  return 1;
}

/* String 90: such a string, with a first 8 and only LF and shifts before it. */
static int is_string(const uint8_t s[8]) {
  int length = length_of(s), before = 0;
  if (!is_call(s)) return 0;
  while (before < length && (s[before] == 2 || s[before] == FIGS || s[before] == LTRS)) before++;
  return before < length && s[before] == 8;
}

/* Setting 77: 0, or an ASCII value from 33 to 126 that has a code. */
static int is_stand_in(uint8_t n) { return n == 0 || (n >= 33 && n <= 126 && of_byte(n).kind != NO_CODE); }

/* Where a setting of one value is kept, or none. */
static uint8_t *setting(struct box *box, uint8_t id) {
  switch (id) {
  case 49: return &box->endings;
  case 50: return &box->limit;
  case 53: return &box->power;
  case 70: return &box->on_space;
  case 71: return &box->on_return;
  case 72: return &box->filter;
  case 74: return &box->report;
  case 77: return &box->stand_in;
  default: return NULL;
  }
}

/* How many parameters a command has, or -1 if its id is undefined for that type. */
static int parameters(uint8_t type, uint8_t id) {
  switch (id) {
  case 0: return type == TR ? 0 : -1;
  case 1: return type == TR ? 0 : 2;
  case 4: return type == TR ? -1 : 2;
  case 10: case 11: case 250: return type == TR ? -1 : 0;
  case 49: case 50: case 53: case 70: case 71: case 72: case 74: case 77: return type == TR ? 0 : 1;
  case 90: case 91: case 92: case 93: case 94: case 95: return type == TR ? 0 : 8;
  default: return -1;
  }
}

static int in_range(uint8_t id, const uint8_t *value) {
  switch (id) {
  case 1: return value[0] >= 1 && value[0] <= 4 && is_speed(value[1]);
  case 4: return value[0] >= 1 && value[0] <= 3 && is_speed(value[1]);
  case 49: case 70: case 71: case 72: case 74: return value[0] <= 1;
  case 50: return value[0] >= 10 && value[0] <= 80;
  case 53: return is_power(value[0]);
  case 77: return is_stand_in(value[0]);
  case 90: return is_string(value);
  case 91: case 92: case 93: case 94: case 95: return is_call(value);
  default: return 1;
  }
}

static uint8_t *error(uint8_t *out, uint8_t id, uint8_t n) {
  const uint8_t value[2] = {id, n};
  return message(out, 255, 2, value);
}

static void connect(struct box *box, uint8_t mode, uint8_t port, uint8_t speed) {
  SEEN(CONNECTED);
  if (box->motor) SEEN(OFF_BY_CONNECTION);
  forget(box);
  box->mode = mode;
  box->port = port;
  box->speed = speed;
  box->printer = UNKNOWN;
  box->known = box->column = 0;
  box->last = UNKNOWN;
  box->reading = box->incoming = LETTERS;
}

static uint8_t *read_command(struct box *box, uint8_t *out, uint8_t id) {
  SEEN(READ_DONE);
  if (id == 0) return message(out, 0, 4, (const uint8_t[]){0, 0, 1, 0});
  if (id == 1) return message(out, box->mode, box->mode < 10 ? 2 : 0, &box->port);
  if (id == 90) return message(out, 90, 8, box->string);
  if (id > 90) return message(out, id, 8, box->call[id - 91].code);
  return message(out, id, 1, setting(box, id));
}

static void set_call(struct box *box, int which, const uint8_t codes[8]) {
  memcpy(box->call[which].code, codes, 8);
  box->call[which].length = (uint8_t)length_of(codes);
}

/* What 53 or a string of 91 to 95 is set to; the motor goes off even if it is what was there. */
static void write_call(struct box *box, uint8_t id, const uint8_t *value) {
  if (box->motor && id == 53) SEEN(OFF_BY_53);
  if (box->motor && id != 53) SEEN(OFF_BY_STRING);
  forget(box);
  if (id == 53) box->power = value[0];
  else set_call(box, id - 91, value);
}

static void restore(struct box *box) {
  forget(box);
  memcpy(box, factory, sizeof factory);
  box->power = box->stand_in = 0;
  for (int i = 0; i < CALLS; i++) set_call(box, i, factory_call[i]);
}

static uint8_t *write_command(struct box *box, uint8_t *out, uint8_t id, uint8_t count, const uint8_t *value) {
  if (id == 1 || id == 4) {
    connect(box, id, value[0], value[1]);
  } else if (id == 10 || id == 11) {
    connect(box, id, 0, 0);
  } else if (id == 90) {
    SEEN(STRING_WRITTEN);
    memcpy(box->string, value, 8);
  } else if (id == 53 || (id >= 91 && id <= 95)) {
    SEEN(CALL_WRITTEN);
    write_call(box, id, value);
  } else if (id == 250) {
    SEEN(FACTORY);
    if (box->motor) SEEN(OFF_BY_250);
    restore(box);
  } else {
    SEEN(SETTING_WRITTEN);
    if (id == 77 && value[0] != 0) SEEN(STAND_IN_WRITTEN);
    *setting(box, id) = value[0];
  }
  return message(out, id, count, value);
}

static void see_refused(const struct box *box, uint8_t id) {
  if (id == 53) SEEN(POWER_REFUSED);
  if (id == 77) SEEN(STAND_IN_REFUSED);
  if (id == 90) SEEN(STRING_REFUSED);
  if (id > 90) SEEN(CALL_REFUSED);
  if (box->motor && (id < 49 || id == 53 || id > 90)) SEEN(KEPT_ON);
}

/* A command with at least two fields, and what it answers. */
static uint8_t *obey(struct box *box, uint8_t *out) {
  const uint8_t *field = box->field;
  uint8_t type = box->note, id = field[0];
  int fields = box->count + 1; /* twelve for too many */
  if (fields > FIELDS) SEEN(TOO_MANY);
  if (type == OTHER_TYPE) {
    SEEN(ERROR_1);
    return error(out, id, 1);
  }
  int count = parameters(type, id);
  if (count < 0) {
    SEEN(ERROR_2);
    return error(out, id, 2);
  }
  if (field[1] != count || (fields != count + 2 && fields != count + 3)) {
    SEEN(ERROR_3);
    return error(out, id, 3);
  }
  if (fields == count + 3) {
    uint8_t sum = 0;
    for (int i = 0; i < count + 2; i++) sum = (uint8_t)(sum + field[i]);
    if (sum != field[count + 2]) {
      SEEN(ERROR_4);
      return error(out, id, 4);
    }
    SEEN(CHECKED);
  }
  if (type == TR) return read_command(box, out, id);
  if (!in_range(id, field + 2)) {
    SEEN(ERROR_5);
    see_refused(box, id);
    return error(out, id, 5);
  }
  return write_command(box, out, id, (uint8_t)count, field + 2);
}

/* ---- The command reader ---- */

/* Goes to a stage that keeps nothing of a command. The fields mean nothing there, and model_host clears them. */
static void leave(struct box *box, uint8_t stage) {
  box->stage = stage;
  box->note = box->form = box->count = 0;
}

static void clear_fields(struct box *box) { memset(box->field, 0, FIELDS); }

/* One byte of a field. */
static void field_byte(struct box *box, uint8_t byte) {
  uint8_t at = box->count;
  if (byte == ',') {
    if (at < FIELDS) box->count++;
    if (at + 1 < FIELDS) box->field[at + 1] = 0;
    box->form = NOTHING;
  } else if (byte >= '0' && byte <= '9' && box->form != X_ALONE) {
    box->form = DIGITS;
    if (at < FIELDS) box->field[at] = (uint8_t)(box->field[at] * 10 + (byte - '0'));
  } else if (byte == 'X' && box->form == NOTHING) {
    box->form = X_ALONE;
    if (at < FIELDS) box->field[at] = 255;
  } else {
    leave(box, DISCARD);
  }
}

/* One byte after `/.` that ends no command. */
static void command_byte(struct box *box, uint8_t byte) {
  int small = byte >= 'a' && byte <= 'z', letter = small || (byte >= 'A' && byte <= 'Z');
  uint8_t capital = small ? byte - 32 : byte;
  switch (box->stage) {
  case BEGUN:
    if (!letter) {
      leave(box, DISCARD);
      return;
    }
    box->stage = LETTER_1;
    box->note = (uint8_t)small;
    box->form = capital == 'T';
    return;
  case LETTER_1:
    if (!letter || small != box->note) {
      leave(box, DISCARD);
      return;
    }
    box->stage = LETTER_2;
    box->note = !box->form ? OTHER_TYPE : capital == 'W' ? TW : capital == 'R' ? TR : OTHER_TYPE;
    box->form = 0;
    return;
  case LETTER_2:
    if (byte != ',') {
      leave(box, DISCARD);
      return;
    }
    box->stage = FIELD;
    clear_fields(box);
    return;
  case FIELD: field_byte(box, byte); return;
  default: return; /* DISCARD */
  }
}

/* One host byte when it is not plain text in stage TEXT. */
static void reader_byte(struct box *box, uint8_t byte, uint8_t **line, uint8_t **host) {
  if (box->stage == TEXT) {
    box->stage = SLASH;
    return;
  }
  if (box->stage == AFTER_CR) {
    box->stage = byte == '/' ? SLASH : TEXT;
    if (byte == 10) SEEN(SWALLOWED);
    else if (byte != '/') text(box, byte, line, host);
    return;
  }
  if (box->stage == SLASH) {
    if (byte == '.') {
      box->stage = BEGUN;
      return;
    }
    uint8_t *before = *host;
    SEEN(SLASH_TEXT);
    text(box, '/', line, host);
    if (byte == '/') return;
    box->stage = TEXT;
    text(box, byte, line, host);
    if (*host - before > 17) SEEN(TWO_MESSAGES);
    return;
  }
  if (byte == '/') {
    SEEN(SLASH_AGAIN);
    leave(box, SLASH);
  } else if (byte == 13 || byte == 10) {
    if (box->stage == FIELD && box->count == 0) SEEN(SHORT);
    if (box->stage == FIELD && box->count >= 1) *host = obey(box, *host);
    else SEEN(SILENT);
    leave(box, byte == 13 ? AFTER_CR : TEXT);
  } else {
    command_byte(box, byte);
  }
}

static inline void host_byte(struct box *box, uint8_t byte, uint8_t **line, uint8_t **host) {
  if (box->stage == TEXT && byte != '/') text(box, byte, line, host);
  else reader_byte(box, byte, line, host);
}

/* ---- The state ---- */

static int is_reader(const struct box *box) {
  int note = box->stage == LETTER_1 ? 1 : box->stage == LETTER_2 || box->stage == FIELD ? TR : 0;
  int form = box->stage == LETTER_1 ? 1 : box->stage == FIELD ? X_ALONE : 0;
  int count = box->stage == FIELD ? FIELDS : 0;
  return box->stage <= DISCARD && box->note <= note && box->form <= form && box->count <= count;
}

static int is_connection(const struct box *box) {
  if (box->mode == 10 || box->mode == 11) return box->port == 0 && box->speed == 0;
  return (box->mode == 1 || box->mode == 4) && in_range(box->mode, &box->port);
}

/* A string's eight codes, five bits each, of a number that has the first code lowest and stands in bytes, lowest first. Whether the
   number's upper 24 bits are zero. */
static int unpack(uint8_t codes[8], const uint8_t bytes[8]) {
  uint64_t number = 0;
  for (int i = 7; i >= 0; i--) number = number << 8 | bytes[i];
  for (int i = 0; i < 8; i++) codes[i] = number >> 5 * i & 31;
  return number >> 40 == 0;
}

static void pack(uint8_t bytes[8], const uint8_t codes[8]) {
  uint64_t number = 0;
  for (int i = 0; i < 8; i++) number |= (uint64_t)codes[i] << 5 * i;
  for (int i = 0; i < 8; i++) bytes[i] = (uint8_t)(number >> 8 * i);
}

static int is_motor(const struct box *box) {
  for (int i = 0; i < CALLS; i++)
    if (!is_call(box->call[i].code)) return 0;
  return is_power(box->power) && box->motor <= 1 && box->since <= 8 && !(box->motor && box->called);
}

/* Whether all is sound but what the struct has not: a number's upper bits and the bytes that hold 0. */
static int is_sound(const struct box *box) {
  if (box->id_52 != 0 || box->id_76 != 0 || box->id_78 != 0 || box->id_79 != 0) return 0;
  return box->endings <= 1 && box->limit >= 10 && box->limit <= 80 && box->on_space <= 1 && box->on_return <= 1 &&
         box->filter <= 1 && box->report <= 1 && is_string(box->string) && is_stand_in(box->stand_in) && is_connection(box) &&
         box->printer <= 2 && box->known <= 1 && (box->known || box->column == 0) && box->last <= 2 && box->reading >= 1 &&
         box->reading <= 2 && box->incoming >= 1 && box->incoming <= 2 && is_reader(box) && is_motor(box);
}

/* Whether 128 bytes spell a sound state, and which. */
static int load(struct box *box, const uint8_t state[MODEL_STATE]) {
  memcpy(box, state, AT_CALLED);
  box->called = state[AT_CALLED] != 0;
  box->since = box->called ? state[AT_CALLED] - 1 : 0;
  int upper_zero = unpack(box->string, state + AT_STRING);
  if (!unpack(box->heard, state + AT_HEARD)) upper_zero = 0;
  for (int i = 0; i < CALLS; i++) {
    if (!unpack(box->call[i].code, state + AT_CALL + 8 * i)) upper_zero = 0;
    box->call[i].length = (uint8_t)length_of(box->call[i].code);
  }
  for (int i = AT_CALLED + 1; i < AT_HEARD; i++)
    if (state[i] != 0) return 0;
  for (int i = AT_END; i < MODEL_STATE; i++)
    if (state[i] != 0) return 0;
  return upper_zero && is_sound(box);
}

static void save(uint8_t state[MODEL_STATE], const struct box *box) {
  memcpy(state, box, AT_CALLED);
  state[AT_CALLED] = box->called ? box->since + 1 : 0;
  pack(state + AT_STRING, box->string);
  pack(state + AT_HEARD, box->heard);
  for (int i = 0; i < CALLS; i++) pack(state + AT_CALL + 8 * i, box->call[i].code);
}

/* ---- The calls ---- */

uint32_t model_fresh(uint8_t state[MODEL_STATE]) {
  struct box box;
  memset(&box, 0, sizeof box);
  restore(&box);
  box.mode = 11;
  box.reading = box.incoming = LETTERS;
  memset(state, 0, MODEL_STATE);
  save(state, &box);
  return 0;
}

/* The two buffers lent to a host or TU call, and how much of each is written. */
struct lent {
  uint8_t *line, *host;
  uint64_t line_len, host_len, lines, hosts;
};

/* Whether anything that one byte makes fits. */
static inline int is_roomy(const struct lent *to) {
  return to->line_len - to->lines >= MOST && to->host_len - to->hosts >= MOST;
}

/* With little room a byte's output is made apart and put here; if it does not fit, nothing is put. A null buffer is never touched. */
static inline int put_apart(struct lent *to, const uint8_t *codes, uint64_t n, const uint8_t *bytes, uint64_t m) {
  if (n > to->line_len - to->lines || m > to->host_len - to->hosts) {
    SEEN(NO_ROOM);
    if (n > 0 && m > to->host_len - to->hosts) SEEN(NO_MESSAGE_ROOM);
    return 0;
  }
  for (uint64_t i = 0; i < n; i++) to->line[to->lines++] = codes[i];
  for (uint64_t i = 0; i < m; i++) to->host[to->hosts++] = bytes[i];
  return 1;
}

uint32_t model_host(uint8_t state[MODEL_STATE], const uint8_t *in, uint64_t in_len, uint8_t *line, uint64_t line_len,
                    uint8_t *host, uint64_t host_len, uint64_t done[3]) {
  struct box box;
  struct lent to = {line, host, line_len, host_len, 0, 0};
  uint64_t taken = 0;
  done[0] = done[1] = done[2] = 0;
  if (!load(&box, state)) return NOT_SOUND;
  for (; taken < in_len; taken++) {
    if (is_roomy(&to)) {
      uint8_t *l = line + to.lines, *h = host + to.hosts;
      host_byte(&box, in[taken], &l, &h);
      to.lines = (uint64_t)(l - line);
      to.hosts = (uint64_t)(h - host);
    } else {
      struct box before = box;
      uint8_t codes[MOST], bytes[MOST], *l = codes, *h = bytes;
      host_byte(&box, in[taken], &l, &h);
      if (!put_apart(&to, codes, (uint64_t)(l - codes), bytes, (uint64_t)(h - bytes))) {
        box = before;
        break;
      }
    }
  }
  if (taken > 0 && box.stage != FIELD) clear_fields(&box);
  save(state, &box);
  done[0] = taken;
  done[1] = to.lines;
  done[2] = to.hosts;
  return taken < in_len ? NO_ROOM : ALL_TAKEN;
}

uint32_t model_line(uint8_t state[MODEL_STATE], const uint8_t *codes, uint64_t codes_len, uint8_t *host,
                    uint64_t host_len, uint8_t *tu, uint64_t tu_len, uint64_t done[3]) {
  struct box box;
  uint64_t taken = 0, hosts = 0, tus = 0;
  uint32_t answer = ALL_TAKEN;
  done[0] = done[1] = done[2] = 0;
  if (!load(&box, state)) return NOT_SOUND;
  for (; taken < codes_len; taken++) {
    uint8_t code = codes[taken];
    if (code > 31) {
      SEEN(OVER_31);
      answer = BAD_CODE;
      break;
    }
    int shift = code == LTRS || code == FIGS;
    int to_host = box.mode == 1 && (!shift || box.report), to_tu = box.mode == 4;
    if ((to_host && hosts == host_len) || (to_tu && tus == tu_len)) {
      SEEN(NO_ROOM);
      answer = NO_ROOM;
      break;
    }
    if (box.mode >= 10) SEEN(NOT_CARRIED);
    if (to_tu) {
      SEEN(TO_TU);
      tu[tus++] = code;
    }
    if (to_host) {
      if (shift) SEEN(REPORT);
      SEEN(TO_HOST);
      host[hosts++] = to_byte[box.reading][code];
    }
    if (box.mode == 1 && shift) {
      box.reading = code == LTRS ? LETTERS : FIGURES;
    } else if (box.mode == 1 && ((code == 4 && box.on_space) || (code == 8 && box.on_return))) {
      if (box.reading == FIGURES) SEEN(READING_BACK);
      box.reading = LETTERS;
    }
  }
  save(state, &box);
  done[0] = taken;
  done[1] = hosts;
  done[2] = tus;
  return answer;
}

uint32_t model_tu(uint8_t state[MODEL_STATE], const uint8_t *codes, uint64_t codes_len, uint8_t *line, uint64_t line_len,
                  uint8_t *host, uint64_t host_len, uint64_t done[3]) {
  struct box box;
  struct lent to = {line, host, line_len, host_len, 0, 0};
  uint64_t taken = 0;
  done[0] = done[1] = done[2] = 0;
  if (!load(&box, state)) return NOT_SOUND;
  for (; taken < codes_len && codes[taken] <= 31; taken++) {
    if (box.mode != 4) {
      SEEN(NOT_CARRIED);
    } else if (is_roomy(&to)) {
      uint8_t *l = line + to.lines, *h = host + to.hosts;
      tu_code(&box, codes[taken], &l, &h);
      to.lines = (uint64_t)(l - line);
      to.hosts = (uint64_t)(h - host);
    } else {
      struct box before = box;
      uint8_t out[MOST], bytes[MOST], *l = out, *h = bytes;
      tu_code(&box, codes[taken], &l, &h);
      if (!put_apart(&to, out, (uint64_t)(l - out), bytes, (uint64_t)(h - bytes))) {
        box = before;
        break;
      }
    }
  }
  save(state, &box);
  done[0] = taken;
  done[1] = to.lines;
  done[2] = to.hosts;
  if (taken == codes_len) return ALL_TAKEN;
  if (codes[taken] <= 31) return NO_ROOM;
  SEEN(OVER_31);
  return BAD_CODE;
}

/* ---- Finding a message ---- */

/* The length of the message whose `-` is at the start of these bytes, CR LF before it; 0 if there is none. */
static uint64_t message_length(const uint8_t *bytes, uint64_t len) {
  uint64_t at = 4, numbers = 0, rest = 0;
  if (len < 4 || memcmp(bytes, "-.TC", 4) != 0) return 0;
  while (at < len && bytes[at] == ',') {
    uint64_t first = ++at;
    unsigned value = 0;
    while (at < len && bytes[at] >= '0' && bytes[at] <= '9' && at - first < 3) value = value * 10 + (bytes[at++] - '0');
    if (at == first || value > 255 || (bytes[first] == '0' && at - first > 1)) return 0;
    if (++numbers == 2) rest = value;
  }
  if (numbers < 2 || numbers - 2 != rest) return 0;
  return at + 1 < len && bytes[at] == 13 && bytes[at + 1] == 10 ? at : 0;
}

uint32_t model_find(const uint8_t *bytes, uint64_t len, uint64_t at[2]) {
  at[0] = at[1] = 0;
  for (uint64_t i = 2; i < len; i++) {
    if (bytes[i] != '-' || bytes[i - 1] != 10 || bytes[i - 2] != 13) continue;
    uint64_t n = message_length(bytes + i, len - i);
    if (n == 0) continue;
    at[0] = i;
    at[1] = n;
    return 1;
  }
  return 0;
}
