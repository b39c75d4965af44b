/* A board's C on a target, compiled and linked and not run. POINTER is the bytes of a pointer there. */
#include "linebox.h"

typedef __UINT64_TYPE__ wide;
_Static_assert(sizeof(wide) == 8 && sizeof(uint64_t) == 8, "lengths and counts are 64 bits wide");
_Static_assert(sizeof(void *) == POINTER, "a pointer is as wide as the target's");
_Static_assert(sizeof(uint32_t) == 4 && sizeof(uint8_t) == 1 && LINEBOX_STATE == 128, "an answer, a byte, a state");

/* Each call with its parameters to the letter; and the link has to find it. */
uint32_t (*const fresh)(uint8_t *) = linebox_fresh;
uint32_t (*const host)(uint8_t *, const uint8_t *, wide, uint8_t *, wide, uint8_t *, wide, wide *) = linebox_host;
uint32_t (*const line)(uint8_t *, const uint8_t *, wide, uint8_t *, wide, uint8_t *, wide, wide *) = linebox_line;
uint32_t (*const tu)(uint8_t *, const uint8_t *, wide, uint8_t *, wide, uint8_t *, wide, wide *) = linebox_tu;
uint32_t (*const find)(const uint8_t *, wide, wide *) = linebox_find;

/* The functions that a board without a C library has to supply, SUPPLY(name) for each; here with nothing in them. */
#define SUPPLY(name) void name(void) {}
LIBRARY
