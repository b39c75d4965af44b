/* The line box again, in plain C: the calls of include/linebox.h under other names. */
#ifndef MODEL_H
#define MODEL_H
#include <stdint.h>

enum { MODEL_STATE = 128 };

uint32_t model_fresh(uint8_t state[MODEL_STATE]);
uint32_t model_host(uint8_t state[MODEL_STATE], const uint8_t *in, uint64_t in_len, uint8_t *line, uint64_t line_len,
                    uint8_t *host, uint64_t host_len, uint64_t done[3]);
uint32_t model_line(uint8_t state[MODEL_STATE], const uint8_t *codes, uint64_t codes_len, uint8_t *host,
                    uint64_t host_len, uint8_t *tu, uint64_t tu_len, uint64_t done[3]);
uint32_t model_tu(uint8_t state[MODEL_STATE], const uint8_t *codes, uint64_t codes_len, uint8_t *line, uint64_t line_len,
                  uint8_t *host, uint64_t host_len, uint64_t done[3]);
uint32_t model_find(const uint8_t *bytes, uint64_t len, uint64_t at[2]);

/* What the model came across, counted in builds with -DMODEL_SEEN, so that a test can say what it covered. */
#define MODEL_EVENTS(EVENT)                                                                                             \
  EVENT(ENDING, "endings")                                                                                              \
  EVENT(ENDING_LTRS, "LTRS put before a code of an ending")                                                             \
  EVENT(ENDING_BELL, "BELL in an ending")                                                                               \
  EVENT(SHIFT_ADDED, "shifts added")                                                                                    \
  EVENT(UNSHIFT_SPACE, "LTRS after a space")                                                                            \
  EVENT(UNSHIFT_RETURN, "LTRS after a return")                                                                          \
  EVENT(FILTERED, "shifts dropped by 72")                                                                               \
  EVENT(FILTERED_HEARD, "shifts dropped by 72 and heard")                                                               \
  EVENT(SHIFT_SENT, "shifts asked for and sent")                                                                        \
  EVENT(BELL_SENT, "BELL sent")                                                                                         \
  EVENT(COLUMN_255, "moves at column 255")                                                                              \
  EVENT(INCOMING_BACK, "incoming case back to letters")                                                                 \
  EVENT(DROPPED, "host bytes without a code dropped")                                                                   \
  EVENT(REPLACED, "host bytes without a code replaced by the stand-in")                                                 \
  EVENT(NOT_CARRIED, "text or codes that the mode does not carry")                                                      \
  EVENT(SLASH_TEXT, "/ released as text")                                                                               \
  EVENT(SLASH_AGAIN, "/ ending a command")                                                                              \
  EVENT(SWALLOWED, "LF swallowed")                                                                                      \
  EVENT(SILENT, "commands ended silently")                                                                              \
  EVENT(SHORT, "commands with fewer than two fields")                                                                   \
  EVENT(TOO_MANY, "commands with too many fields")                                                                      \
  EVENT(CHECKED, "commands with a right checksum")                                                                      \
  EVENT(ERROR_1, "error 1")                                                                                             \
  EVENT(ERROR_2, "error 2")                                                                                             \
  EVENT(ERROR_3, "error 3")                                                                                             \
  EVENT(ERROR_4, "error 4")                                                                                             \
  EVENT(ERROR_5, "error 5")                                                                                             \
  EVENT(STAND_IN_REFUSED, "error 5 for a stand-in")                                                                     \
  EVENT(STRING_REFUSED, "error 5 for string 90")                                                                        \
  EVENT(POWER_REFUSED, "error 5 for 53")                                                                                \
  EVENT(CALL_REFUSED, "error 5 for a string of 91 to 95")                                                               \
  EVENT(KEPT_ON, "error 5 for a write that would have turned the motor off")                                            \
  EVENT(READ_DONE, "reads answered")                                                                                    \
  EVENT(SETTING_WRITTEN, "settings written")                                                                            \
  EVENT(STAND_IN_WRITTEN, "stand-ins written")                                                                          \
  EVENT(STRING_WRITTEN, "string 90 written")                                                                            \
  EVENT(CALL_WRITTEN, "53 or a string of 91 to 95 written")                                                             \
  EVENT(CONNECTED, "connections written")                                                                               \
  EVENT(FACTORY, "settings back to factory")                                                                            \
  EVENT(STARTED_2, "motor started by setting 2")                                                                        \
  EVENT(STARTED_4, "motor started by setting 4")                                                                        \
  EVENT(STARTED_5, "motor started by setting 5")                                                                        \
  EVENT(STARTED_6_94, "motor started by setting 6 on string 94")                                                        \
  EVENT(STARTED_6_95, "motor started by setting 6 on string 95")                                                        \
  EVENT(STOPPED, "motor stopped")                                                                                       \
  EVENT(CALLED, "string 93 that counted")                                                                               \
  EVENT(CALLED_ON_STOP, "string 93 on the stop's code")                                                                 \
  EVENT(NOT_CALLED, "string 94 or 95 not all after a string 93")                                                        \
  EVENT(TWO_MESSAGES, "two messages of the motor from one byte")                                                        \
  EVENT(NO_MESSAGE_ROOM, "messages of the motor that did not fit")                                                      \
  EVENT(OFF_BY_53, "motor turned off by writing 53")                                                                    \
  EVENT(OFF_BY_STRING, "motor turned off by writing a string of 91 to 95")                                              \
  EVENT(OFF_BY_CONNECTION, "motor turned off by a connection")                                                          \
  EVENT(OFF_BY_250, "motor turned off by 250")                                                                          \
  EVENT(PORT_4, "codes not heard on port 4")                                                                            \
  EVENT(READING_BACK, "reading case back to letters")                                                                   \
  EVENT(REPORT, "SO or SI to the host")                                                                                 \
  EVENT(TO_HOST, "line codes to the host")                                                                              \
  EVENT(TO_TU, "line codes to the TU")                                                                                  \
  EVENT(NO_ROOM, "bytes that did not fit")                                                                              \
  EVENT(OVER_31, "codes over 31")

#define MODEL_EVENT_NAME(name, text) SEEN_##name,
enum { MODEL_EVENTS(MODEL_EVENT_NAME) SEEN_EVENTS };
#ifdef MODEL_SEEN
extern unsigned long model_seen[SEEN_EVENTS];
#endif
#endif
