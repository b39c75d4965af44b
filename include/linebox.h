/* The line box for the boards' C. Link libboard.a, which `tools/archive TARGET [SIZE|SPEED]` writes to target/TARGET/, for x86_64,
 * aarch64, armv7, thumbv7em, thumbv6m, riscv32 and riscv64; for wasm32 it writes linebox.wasm. docs/TARGETS.md says more of each.
 *
 * The caller keeps the box's state as 128 bytes. Calls keep nothing between them: a copy of the 128 bytes is a copy of the box, and
 * two states are two boxes.
 *
 * Answers of the three calls:
 *   0  every byte was taken.
 *   1  the next byte's output does not fit: go on from the first byte not taken, with more room.
 *   2  the next byte of a code stream is over 31, and is no code; it was not taken.
 *   3  the 128 bytes are not the spelling of a sound state: nothing was taken and nothing was changed.
 *
 * done[0] is how many bytes were taken; done[1] and done[2] how many were written to each lent buffer, in the order lent. They are
 * written with every answer, and all 0 with answer 3. Of a lent buffer only that many bytes at its front are written; the others
 * keep what they held.
 *
 * One byte makes at most 16 codes for the line and 37 bytes for the host, so the smallest useful buffers are 16 and 37 bytes
 * (LINEBOX_LINE_LEAST and LINEBOX_HOST_LEAST): with these the next byte always fits an empty buffer. A TU code makes at most 14 codes
 * for the line and 17 bytes for the host, a line code one byte, for the host or for the TU.
 *
 * What may not overlap: the state, done (or at) and the lent buffers are written, and each of them shares no byte with any other
 * argument. Inputs are only read.
 *
 * Lengths and counts are uint64_t and not size_t: the calls take and write 64 bits on every processor, also where a pointer, and with it
 * size_t, has 32.
 *
 * A null pointer goes with length 0. The state, done and at are never null.
 *
 * The archive has no data but constants, and calls no function but these; a board without a C library supplies those that its linker
 * asks for:
 *   needed on every target:              memcpy memmove memset
 *   needed on armv7 and thumbv6m, SIZE:  __aeabi_uidiv __aeabi_uidivmod
 *
 * On Thumb (v7-M) the archive takes 18.5 kB of program memory if made for SIZE, and 31.8 kB for SPEED, and a call takes at most 2,700 bytes of
 * stack beside those of the functions above (SPEED: 2,200; v6-M: 2,800 and 2,600). `benchmark/size` measures both.
 *
 * With 53 at 2, 4, 5 or 6 the box listens for strings 91 to 95 in the codes asked for on ports 1 to 3. With the message
 * `-.TC,20,2,port,1` the motor of that port is to run, with `-.TC,20,2,port,0` to stop. Writing 53, one of these strings or a
 * connection, and 250, turn it off too, with no message but their own answer: offset 44 says how it is to stand. Codes go to the line
 * whether the motor runs or not: what a stopped machine misses is the board's care.
 *
 * After a power cut, the board writes the connection again before any text: the printer may have moved, and only writing a connection
 * makes the record unknown. */
#ifndef LINEBOX_H
#define LINEBOX_H

#include <stdint.h>

#ifdef __cplusplus
extern "C" {
#endif

enum { LINEBOX_STATE = 128 };

/* The smallest useful buffers for codes to the line and for bytes to the host. */
enum { LINEBOX_LINE_LEAST = 16, LINEBOX_HOST_LEAST = 37 };

/* The state's bytes. A board may show them and keep them; bytes that spell no sound state are answer 3.
 *
 *   offset    field                                                    values
 *   0         option 49, line endings                                  0, 1
 *   1         option 50, limit                                         10 to 80
 *   2         option 70, unshift on space                              0, 1
 *   3         option 71, unshift on return                             0, 1
 *   4         option 72, filter                                        0, 1
 *   5         option 74, SI/SO reports                                 0, 1
 *   6 to 13   string 90 as one number, lowest byte first               its codes by their rules, the upper 24 bits 0
 *   14        connection's mode                                        1, 4, 10, 11
 *   15        port (0 in modes 10 and 11)                              1 to 4 (mode 1), 1 to 3 (mode 4)
 *   16        speed (0 in modes 10 and 11)                             60, 66, 75, 100
 *   17        record: case                                             0 unknown, 1 letters, 2 figures
 *   18        record: whether the column is known                      0, 1
 *   19        record: column (0 while unknown)                         0 to 255
 *   20        last item                                                0 any other or none, 1 LTRS, 2 FIGS
 *   21        reading case, of the next line code in mode 1; back to   1 letters, 2 figures
 *             letters after a space (70 on) and a return (71 on)
 *   22        incoming reading case                                    1 letters, 2 figures
 *   23        command reader's stage                                   0 text, 1 text after a command's CR (an LF is swallowed),
 *                                                                      2 `/` held, 3 `/.` came, 4 one letter, 5 both letters,
 *                                                                      6 in a field, 7 discarding
 *   24        stage 4: 1 if the letter is small;
 *             stages 5 and 6: type, 0 other, 1 TW, 2 TR; else 0
 *   25        stage 4: 1 if the letter is T; stage 6: field's form,
 *             0 nothing yet, 1 digits, 2 X; else 0
 *   26        stage 6: which field is read, 0 to 11, 11 for too
 *             many; else 0
 *   27 to 37  fields read, eleven bytes                                0 to 255
 *   38                                                                 0
 *   39        option 53, motor power mode                              0, 2, 4, 5, 6
 *   40                                                                 0
 *   41        option 77, stand-in for text bytes without a code        0, or 33 to 126 with a code
 *   42, 43                                                             0
 *   44        motor                                                    0 off, 1 on
 *   45        call: 0, or one more than the codes heard since the      0 to 9; 0 while the motor is on
 *             first string 93 that counts, staying at 9
 *   46 to 55                                                           0
 *   56 to 63  last eight codes heard as one number, lowest byte first  the upper 24 bits 0
 *   64 to 103 strings 91 to 95, eight bytes each, as string 90         only 0 after a code 0, the upper 24 bits 0
 *   104 to 127                                                         0
 *
 * Each number has eight codes of five bits: of a string the first one lowest, of the codes heard the last one highest, with 0 where none
 * was heard. A board reads code i (0 to 7, the lowest first) of the number at an offset so:
 *
 *     uint64_t word = 0;
 *     for (int k = 7; k >= 0; k--) word = word << 8 | state[offset + k];
 *     uint8_t code = word >> 5 * i & 31;
 *
 * A state kept from an older box is not to be used: its strings 91 to 95 would be empty, which is sound but not the factory's, and in
 * still older ones string 90 has a byte for each code. The board begins with linebox_fresh and writes its settings again.
 *
 * Later requests have their homes in the bytes that are 0 here. They hold 0 until the request lands; any other value is answer 3.
 *
 *   38          id 52
 *   40          id 76
 *   42, 43      ids 78, 79
 *   46          case record of the way to the TU: 0 unknown, 1 letters, 2 figures
 *   47 to 55    spare
 *   104 to 127  spare
 */
enum {
    LINEBOX_AT_ENDINGS = 0,
    LINEBOX_AT_LIMIT = 1,
    LINEBOX_AT_UNSHIFT_SPACE = 2,
    LINEBOX_AT_UNSHIFT_RETURN = 3,
    LINEBOX_AT_FILTER = 4,
    LINEBOX_AT_REPORTS = 5,
    LINEBOX_AT_STRING = 6,
    LINEBOX_AT_MODE = 14,
    LINEBOX_AT_PORT = 15,
    LINEBOX_AT_SPEED = 16,
    LINEBOX_AT_CASE = 17,
    LINEBOX_AT_COLUMN_KNOWN = 18,
    LINEBOX_AT_COLUMN = 19,
    LINEBOX_AT_LAST = 20,
    LINEBOX_AT_READING = 21,
    LINEBOX_AT_INCOMING = 22,
    LINEBOX_AT_STAGE = 23,
    LINEBOX_AT_TYPE = 24,
    LINEBOX_AT_FORM = 25,
    LINEBOX_AT_FIELD = 26,
    LINEBOX_AT_FIELDS = 27,
    LINEBOX_AT_POWER = 39,
    LINEBOX_AT_STAND_IN = 41,
    LINEBOX_AT_MOTOR = 44,
    LINEBOX_AT_CALL = 45,
    LINEBOX_AT_HEARD = 56,
    LINEBOX_AT_STRING_91 = 64,
    LINEBOX_AT_SPARE = 104
};

/* A fresh box: factory settings, mode 11, nothing held. Answers 0. */
uint32_t linebox_fresh(uint8_t state[LINEBOX_STATE]);

/* Bytes from the host: text goes to the line, commands are obeyed and answered to the host, and it is told when the motor changes. */
uint32_t linebox_host(uint8_t state[LINEBOX_STATE], const uint8_t *in, uint64_t in_len,
                      uint8_t *line, uint64_t line_len, uint8_t *host, uint64_t host_len, uint64_t done[3]);

/* Codes from the line: to the host in mode 1, to the TU in mode 4. */
uint32_t linebox_line(uint8_t state[LINEBOX_STATE], const uint8_t *codes, uint64_t codes_len,
                      uint8_t *host, uint64_t host_len, uint8_t *tu, uint64_t tu_len, uint64_t done[3]);

/* Codes from the TU: to the line in mode 4; the host is told when the motor changes, and gets nothing while 53 is 0. */
uint32_t linebox_tu(uint8_t state[LINEBOX_STATE], const uint8_t *codes, uint64_t codes_len,
                    uint8_t *line, uint64_t line_len, uint8_t *host, uint64_t host_len, uint64_t done[3]);

/* Where the earliest complete message stands in bytes: 1, with at[0] its start and at[1] its length, from the hyphen to the last
 * digit; or 0 with both 0. */
uint32_t linebox_find(const uint8_t *bytes, uint64_t len, uint64_t at[2]);

#ifdef __cplusplus
}
#endif

#endif
