/* Replays the trace of a file, and prints the report, or the line of the refusal: replay_a_trace TRACE */
#include "paldwosk.h"
#include <stdio.h>

int main(int count, char **words) {
  static char trace[1 << 20], report[1 << 16];
  FILE *file = count == 2 ? fopen(words[1], "rb") : NULL;
  if (!file) return 3;
  size_t written = 0, length = fread(trace, 1, sizeof trace, file);
  int whole = feof(file); /* else the file is longer than the room, or it can't be read */
  if (fclose(file) || !whole) return 3;
  paldwosk_status status = paldwosk_replay(trace, length, report, sizeof report, &written);
  if (status == PALDWOSK_STATUS_SHORT) return 3; /* written says how much room it takes */
  fwrite(report, 1, written, status == PALDWOSK_STATUS_DONE ? stdout : stderr);
  return (int)status;
}
