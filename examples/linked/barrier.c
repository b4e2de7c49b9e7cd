/* Two tasks meet at a barrier with a sum, once. One thread plays both. */
#include "paldwosk.h"
#include <inttypes.h>
#include <stdio.h>

int main(void) {
  const paldwosk_limits limits = PALDWOSK_DEFAULT_LIMITS;
  const paldwosk_operator sum = PALDWOSK_SUM;
  paldwosk_phaser phaser = PALDWOSK_NO_PHASER;
  paldwosk_answer answer = paldwosk_new(&phaser, &limits, &sum, 1, 0);
  uint32_t phase = 0;
  int64_t value = 0;
  if (answer == PALDWOSK_DONE) answer = paldwosk_make(&phaser, 0, PALDWOSK_SIG_WAIT);
  if (answer == PALDWOSK_DONE) answer = paldwosk_register(&phaser, 0, 1, PALDWOSK_SIG_WAIT);
  for (uint32_t task = 0; answer == PALDWOSK_DONE && task < 2; task++) {
    answer = paldwosk_send(&phaser, task, 0, 20 + (int32_t)task);
    if (answer == PALDWOSK_DONE) answer = paldwosk_signal(&phaser, task);
    if (answer == PALDWOSK_DONE && task == 0 && paldwosk_pass(&phaser, 0, &phase) == PALDWOSK_NOT_YET)
      puts("task 0 waits for task 1");
  }
  if (answer == PALDWOSK_DONE) answer = paldwosk_pass(&phaser, 0, &phase);
  if (answer == PALDWOSK_DONE) answer = paldwosk_look(&phaser, 0, 0, &value);
  if (answer == PALDWOSK_DONE) printf("phase %" PRIu32 " came to %" PRId64 "\n", phase, value);
  paldwosk_free(&phaser);
  return (int)answer;
}
