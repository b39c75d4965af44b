/* Connects a box to a printer, switches line endings on, sends a line of text and prints the codes for the line. */
#include "linebox.h"
#include <stdio.h>
#include <string.h>

int main(void) {
  const char *text = "/.TW,1,2,1,60\r/.TW,49,1,1\r/.TW,50,1,10\r\rLAP 7 IN 58.31 S\r\n";
  uint8_t state[LINEBOX_STATE], line[64], host[64];
  uint64_t done[3]; /* taken, written to line, written to host */
  uint64_t at = 0, len = strlen(text);
  uint32_t answer = linebox_fresh(state);
  do { /* answer 1 is a full buffer: use what was written, then go on with the first byte not taken */
    answer = linebox_host(state, (const uint8_t *)text + at, len - at, line, sizeof line, host, sizeof host, done);
    for (uint64_t i = 0; i < done[1]; i++) printf("%u ", line[i]);
    at += done[0];
  } while (answer == 1);
  printf("\n");
  return answer != 0;
}
