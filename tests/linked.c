/* The program by which tests/linked calls the checked core from C.
 *
 * linked replay FILE, linked events FILE: what the checker writes, on standard output or, of a refusal, on standard error,
 *   with its status; each is called with no room first, which must change nothing, and then with just enough.
 * linked calls: the calls that standard input lists, one on each line, on one phaser; a line for each reply, as the program
 *   prints it. The first three lines are the limits, the operators and the bound.
 * linked wrong: wrong pointers, numbers and rooms, each of which must be answered so, and change nothing.
 * linked judge: lists of events, each of which the judge must answer as was worked out by hand.
 * linked lacking: events of a judge, each of which is handed over again if memory was refused to it.
 * linked told: the text of each answer; the version is printed.
 * Status 4: something wasn't as it must be; it is named on standard error. */
#include "../include/paldwosk.h"

#include <inttypes.h>
#include <stdio.h>
#include <stdlib.h>
#include <string.h>

static int faults;

#define MUST(holds)                                                            \
  do {                                                                         \
    if (!(holds)) {                                                            \
      fprintf(stderr, "linked: line %d: %s\n", __LINE__, #holds);              \
      faults = 1;                                                              \
    }                                                                          \
  } while (0)

static char *read_file(const char *name, size_t *length) {
  FILE *file = fopen(name, "rb");
  char *text = NULL;
  size_t size = 0, got;
  if (!file) exit(3);
  *length = 0;
  do {
    if (*length == size) text = realloc(text, size = 2 * size + 4096);
    if (!text) exit(3);
    got = fread(text + *length, 1, size - *length, file);
    *length += got;
  } while (got);
  fclose(file);
  return text;
}

/* ---- The checker */

typedef paldwosk_status check(const char *, size_t, char *, size_t, size_t *);

static int checked(check *function, const char *name) {
  size_t length, written = 0, again = 0;
  char *text = read_file(name, &length), *room;
  paldwosk_status status = function(text, length, NULL, 0, &written);
  if (status == PALDWOSK_STATUS_SHORT) MUST(written > 0);
  else MUST(status == PALDWOSK_STATUS_DONE && written == 0); /* an events file without calls has no lines */
  room = malloc(written + 1);
  if (!room) exit(3);
  memset(room, '#', written + 1);
  if (written > 0) {
    MUST(function(text, length, room, written - 1, &again) == PALDWOSK_STATUS_SHORT && again == written);
    for (size_t at = 0; at <= written; at++) MUST(room[at] == '#');
  }
  status = function(text, length, room, written, &again);
  MUST(again == written && room[written] == '#');
  MUST(status == PALDWOSK_STATUS_DONE || status == PALDWOSK_STATUS_REFUSED);
  fwrite(room, 1, written, status == PALDWOSK_STATUS_DONE ? stdout : stderr);
  free(room);
  free(text);
  return (int)status;
}

/* ---- One phaser */

static const char *const NAMES[] = {
    "",           "NotRegistered", "NoSignal",      "NoWait",     "NoSingle",        "AlreadySignalled", "NotSignalled",
    "SingleMismatch", "OnePhaserOnly", "NoAccumulator", "NoPhaseYet", "MoreThanParent", "OutsideScope",  "RegisteredTwice",
    "RegsFull",   "HistoryFull",   "PhasersFull",   "TasksFull",  "FinishesFull",    "ActsFull",         "FinishOpen",
    "NoFinish",   "NotNow",        "Memory"};

/* Prints the line of a reply; `more` is what a DONE says after its `ok`. */
static void print_line(paldwosk_answer answer, const char *more, uint32_t number) {
  if (answer == PALDWOSK_DONE) printf("ok%s\n", more);
  else if (answer == PALDWOSK_CLAIMED) printf("claim %" PRIu32 "\n", number);
  else if (answer == PALDWOSK_NOTHING) printf("none\n");
  else if (answer == PALDWOSK_NOT_YET) printf("not yet\n");
  else if (answer <= PALDWOSK_MEMORY) printf("refused %d %s\n", (int)answer, NAMES[answer]);
  else printf("answer %d\n", (int)answer);
}

/* Makes the call of a line: its name, how many numbers it has, and those. */
static void call(paldwosk_phaser *phaser, const char *name, const long long *n, int count) {
  uint32_t task = (uint32_t)n[0], second = (uint32_t)n[1], number = 77;
  int64_t value = 77;
  char more[40] = "";
  paldwosk_answer answer;
  if (!strcmp(name, "make")) answer = paldwosk_make(phaser, task, (paldwosk_mode)second);
  else if (!strcmp(name, "reg")) answer = paldwosk_register(phaser, task, second, (paldwosk_mode)n[2]);
  else if (!strcmp(name, "sig") && count == 1) answer = paldwosk_signal(phaser, task);
  else if (!strcmp(name, "sig")) answer = paldwosk_signal_single(phaser, task, second);
  else if (!strcmp(name, "did")) answer = paldwosk_single_done(phaser, task);
  else if (!strcmp(name, "send")) answer = paldwosk_send(phaser, task, second, (int32_t)n[2]);
  else if (!strcmp(name, "drop")) answer = paldwosk_drop(phaser, task);
  else if (!strcmp(name, "pass")) {
    answer = paldwosk_pass(phaser, task, &number);
    if (answer == PALDWOSK_DONE) snprintf(more, sizeof more, " phase %" PRIu32, number);
    else if (answer != PALDWOSK_CLAIMED) MUST(number == 77);
  } else if (!strcmp(name, "look")) {
    answer = paldwosk_look(phaser, task, second, &value);
    if (answer == PALDWOSK_DONE) {
      printf("value %" PRId64 "\n", value);
      return;
    }
    MUST(value == 77);
  } else exit(3);
  print_line(answer, more, number);
}

static int calls(void) {
  paldwosk_phaser phaser = PALDWOSK_NO_PHASER;
  paldwosk_limits limits;
  paldwosk_operator operators[4];
  char line[200], name[20];
  size_t count = 0;
  uint32_t bound;
  int at = 0, used = 0, operator;
  if (!fgets(line, sizeof line, stdin)) exit(3);
  if (sscanf(line, "%" SCNu32 " %" SCNu32 " %" SCNu32 " %" SCNu32 " %" SCNu32 " %" SCNu32, &limits.acts, &limits.finishes,
             &limits.history, &limits.phasers, &limits.regs, &limits.tasks) != 6)
    exit(3);
  if (!fgets(line, sizeof line, stdin)) exit(3);
  for (; count < 4 && sscanf(line + at, "%d%n", &operator, &used) == 1; at += used)
    operators[count++] = (paldwosk_operator)operator;
  if (!fgets(line, sizeof line, stdin) || sscanf(line, "%" SCNu32, &bound) != 1) exit(3);
  MUST(paldwosk_new(&phaser, &limits, operators, count, bound) == PALDWOSK_DONE);
  while (fgets(line, sizeof line, stdin)) {
    long long n[3] = {0, 0, 0};
    int found = sscanf(line, "%19s %lld %lld %lld", name, &n[0], &n[1], &n[2]);
    if (found > 0) call(&phaser, name, n, found - 1);
  }
  paldwosk_free(&phaser);
  return 0;
}

/* ---- What is wrong is answered so */

static const paldwosk_limits LIMITS = PALDWOSK_DEFAULT_LIMITS;

static void wrong_pointers(void) {
  paldwosk_phaser phaser = PALDWOSK_NO_PHASER;
  uint32_t number = 77;
  int64_t value = 77;
  size_t written = 77;
  char room[4];
  MUST(paldwosk_replay(NULL, 1, room, sizeof room, &written) == PALDWOSK_STATUS_NULL);
  MUST(paldwosk_replay("{}", 2, NULL, 1, &written) == PALDWOSK_STATUS_NULL);
  MUST(paldwosk_replay("{}", 2, room, sizeof room, NULL) == PALDWOSK_STATUS_NULL);
  MUST(paldwosk_events(NULL, 1, room, sizeof room, &written) == PALDWOSK_STATUS_NULL);
  MUST(paldwosk_events("{}", 2, NULL, 1, &written) == PALDWOSK_STATUS_NULL);
  MUST(paldwosk_events("{}", 2, room, sizeof room, NULL) == PALDWOSK_STATUS_NULL);
  MUST(paldwosk_new(NULL, &LIMITS, NULL, 0, 0) == PALDWOSK_NULL);
  MUST(paldwosk_new(&phaser, NULL, NULL, 0, 0) == PALDWOSK_NULL);
  MUST(paldwosk_new(&phaser, &LIMITS, NULL, 1, 0) == PALDWOSK_NULL);
  MUST(paldwosk_make(NULL, 0, PALDWOSK_SIG) == PALDWOSK_NULL);
  MUST(paldwosk_register(NULL, 0, 1, PALDWOSK_SIG) == PALDWOSK_NULL);
  MUST(paldwosk_signal(NULL, 0) == PALDWOSK_NULL);
  MUST(paldwosk_signal_single(NULL, 0, 7) == PALDWOSK_NULL);
  MUST(paldwosk_pass(NULL, 0, &number) == PALDWOSK_NULL);
  MUST(paldwosk_pass(&phaser, 0, NULL) == PALDWOSK_NULL);
  MUST(paldwosk_single_done(NULL, 0) == PALDWOSK_NULL);
  MUST(paldwosk_send(NULL, 0, 0, 1) == PALDWOSK_NULL);
  MUST(paldwosk_look(NULL, 0, 0, &value) == PALDWOSK_NULL);
  MUST(paldwosk_look(&phaser, 0, 0, NULL) == PALDWOSK_NULL);
  MUST(paldwosk_drop(NULL, 0) == PALDWOSK_NULL);
  MUST(paldwosk_is_closed(NULL, 0, &number) == PALDWOSK_NULL);
  MUST(paldwosk_is_closed(&phaser, 0, NULL) == PALDWOSK_NULL);
  MUST(paldwosk_is_full(NULL, &number) == PALDWOSK_NULL);
  MUST(paldwosk_is_full(&phaser, NULL) == PALDWOSK_NULL);
  MUST(paldwosk_fold_at(NULL, 0, 0, &value) == PALDWOSK_NULL);
  MUST(paldwosk_fold_at(&phaser, 0, 0, NULL) == PALDWOSK_NULL);
  MUST(paldwosk_compared(NULL, &number) == PALDWOSK_NULL);
  MUST(paldwosk_compared(&phaser, NULL) == PALDWOSK_NULL);
  MUST(paldwosk_event_count(NULL, &number) == PALDWOSK_NULL);
  MUST(paldwosk_event_count(&phaser, NULL) == PALDWOSK_NULL);
  MUST(paldwosk_history_text(NULL, 0, NULL, 0, room, sizeof room, &written) == PALDWOSK_NULL);
  MUST(paldwosk_history_text(&phaser, 0, NULL, 1, room, sizeof room, &written) == PALDWOSK_NULL);
  MUST(paldwosk_history_text(&phaser, 0, NULL, 0, NULL, 1, &written) == PALDWOSK_NULL);
  MUST(paldwosk_history_text(&phaser, 0, NULL, 0, room, sizeof room, NULL) == PALDWOSK_NULL);
  paldwosk_free(NULL);
  MUST(number == 77 && value == 77 && written == 77 && phaser.held == NULL);
}

/* Each call on a paldwosk_phaser that holds none. */
static void no_phaser(paldwosk_phaser *phaser) {
  uint32_t number = 77;
  int64_t value = 77;
  size_t written = 77;
  char room[4];
  MUST(paldwosk_make(phaser, 0, PALDWOSK_SIG) == PALDWOSK_CLOSED);
  MUST(paldwosk_register(phaser, 0, 1, PALDWOSK_SIG) == PALDWOSK_CLOSED);
  MUST(paldwosk_signal(phaser, 0) == PALDWOSK_CLOSED);
  MUST(paldwosk_signal_single(phaser, 0, 7) == PALDWOSK_CLOSED);
  MUST(paldwosk_pass(phaser, 0, &number) == PALDWOSK_CLOSED);
  MUST(paldwosk_single_done(phaser, 0) == PALDWOSK_CLOSED);
  MUST(paldwosk_send(phaser, 0, 0, 1) == PALDWOSK_CLOSED);
  MUST(paldwosk_look(phaser, 0, 0, &value) == PALDWOSK_CLOSED);
  MUST(paldwosk_drop(phaser, 0) == PALDWOSK_CLOSED);
  MUST(paldwosk_is_closed(phaser, 0, &number) == PALDWOSK_CLOSED);
  MUST(paldwosk_is_full(phaser, &number) == PALDWOSK_CLOSED);
  MUST(paldwosk_fold_at(phaser, 0, 0, &value) == PALDWOSK_CLOSED);
  MUST(paldwosk_compared(phaser, &number) == PALDWOSK_CLOSED);
  MUST(paldwosk_event_count(phaser, &number) == PALDWOSK_CLOSED);
  MUST(paldwosk_history_text(phaser, 0, NULL, 0, room, sizeof room, &written) == PALDWOSK_CLOSED);
  MUST(number == 77 && value == 77 && written == 77 && phaser->held == NULL);
}

/* Numbers from which no phaser is made, in the order in which they are looked at. */
static void wrong_numbers(void) {
  paldwosk_phaser phaser = PALDWOSK_NO_PHASER;
  paldwosk_limits few = LIMITS;
  const paldwosk_operator five[5] = {PALDWOSK_SUM}, strange[2] = {PALDWOSK_SUM, (paldwosk_operator)3};
  few.history = 3;
  MUST(paldwosk_new(&phaser, &few, strange, 2, 65537) == PALDWOSK_BAD_LIMITS);
  MUST(paldwosk_new(&phaser, &LIMITS, strange, 2, 65537) == PALDWOSK_BAD_OPERATORS);
  MUST(paldwosk_new(&phaser, &LIMITS, five, 5, 65537) == PALDWOSK_BAD_OPERATORS);
  MUST(paldwosk_new(&phaser, &LIMITS, five, 4, 65537) == PALDWOSK_BAD_BOUND);
  no_phaser(&phaser);
}

/* A phaser of three events, and what is asked of it. */
static void asked(paldwosk_phaser *phaser) {
  const paldwosk_operator operators[2] = {PALDWOSK_SUM, PALDWOSK_LEAST};
  uint32_t number = 77;
  int64_t value = 77;
  MUST(paldwosk_new(phaser, &LIMITS, operators, 2, 0) == PALDWOSK_DONE);
  MUST(paldwosk_new(phaser, &LIMITS, operators, 2, 0) == PALDWOSK_OPEN);
  MUST(paldwosk_make(phaser, 0, (paldwosk_mode)4) == PALDWOSK_BAD_MODE);
  MUST(paldwosk_make(phaser, 0, PALDWOSK_SIG_WAIT) == PALDWOSK_DONE);
  MUST(paldwosk_register(phaser, 0, 1, (paldwosk_mode)4) == PALDWOSK_BAD_MODE);
  MUST(paldwosk_is_closed(phaser, 0, &number) == PALDWOSK_DONE && number == 0);
  MUST(paldwosk_send(phaser, 0, 0, -5) == PALDWOSK_DONE);
  MUST(paldwosk_send(phaser, 0, 256, -5) == PALDWOSK_NO_ACCUMULATOR);
  MUST(paldwosk_signal(phaser, 0) == PALDWOSK_DONE);
  MUST(paldwosk_is_closed(phaser, 0, &number) == PALDWOSK_DONE && number == 1);
  MUST(paldwosk_is_full(phaser, &number) == PALDWOSK_DONE && number == 0);
  MUST(paldwosk_fold_at(phaser, 0, 0, &value) == PALDWOSK_DONE && value == -5);
  value = 77;
  MUST(paldwosk_fold_at(phaser, 1, 0, &value) == PALDWOSK_NOTHING && value == 77);
  MUST(paldwosk_fold_at(phaser, 2, 0, &value) == PALDWOSK_NOT_KEPT && value == 77);
  MUST(paldwosk_fold_at(phaser, 256, 0, &value) == PALDWOSK_NOT_KEPT && value == 77);
  MUST(paldwosk_fold_at(phaser, 0, 4096, &value) == PALDWOSK_NOT_KEPT && value == 77);
  MUST(paldwosk_compared(phaser, &number) == PALDWOSK_DONE && number <= 9);
  MUST(paldwosk_event_count(phaser, &number) == PALDWOSK_DONE && number == 3);
}

/* The text of its history, in a room that is too small and in one that is just large enough. */
static void written_history(paldwosk_phaser *phaser) {
  const uint64_t tickets[3] = {4, 7, 18446744073709551615u};
  const char *text = "{\"events\":[[4,\"p\",9,\"make\",0,\"SIG_WAIT\",[\"sum\",\"least\"],null],[7,\"p\",9,\"send\",0,0,-5],"
                     "[18446744073709551615,\"p\",9,\"sig\",0]],\"limits\":{\"acts\":4096,\"finishes\":64,\"history\":4096,"
                     "\"phasers\":64,\"regs\":256,\"tasks\":256},\"version\":2}";
  size_t length = strlen(text), written = 0;
  char room[400];
  memset(room, '#', sizeof room);
  MUST(paldwosk_history_text(phaser, 9, tickets, 2, room, sizeof room, &written) == PALDWOSK_BAD_TICKETS);
  MUST(written == 0);
  MUST(paldwosk_history_text(phaser, 9, tickets, 3, room, length - 1, &written) == PALDWOSK_SHORT);
  MUST(written == length && room[0] == '#');
  MUST(paldwosk_history_text(phaser, 9, tickets, 3, room, length, &written) == PALDWOSK_DONE);
  MUST(written == length && !memcmp(room, text, length) && room[length] == '#');
}

static int wrong(void) {
  paldwosk_phaser phaser = PALDWOSK_NO_PHASER;
  wrong_pointers();
  no_phaser(&phaser);
  wrong_numbers();
  asked(&phaser);
  written_history(&phaser);
  paldwosk_free(&phaser);
  no_phaser(&phaser);
  paldwosk_free(&phaser);
  return 0;
}

/* ---- The judge */

#define MOST UINT64_MAX
#define HALF ((uint64_t)1 << 63)

static paldwosk_judged_event happened(uint64_t phaser, paldwosk_judged_kind kind, uint64_t task) {
  paldwosk_judged_event event;
  memset(&event, 0xa5, sizeof event); /* what its kind doesn't have isn't looked at */
  event.phaser = phaser;
  event.kind = (uint32_t)kind;
  event.task = task;
  return event;
}

static paldwosk_answer judge_act(paldwosk_judge *judge, uint64_t phaser, paldwosk_judged_kind kind, uint64_t task) {
  const paldwosk_judged_event event = happened(phaser, kind, task);
  return paldwosk_judge_event(judge, &event);
}

static paldwosk_judged_event made_with(uint64_t phaser, uint64_t task, paldwosk_mode mode, paldwosk_operator operator) {
  paldwosk_judged_event event = happened(phaser, PALDWOSK_JUDGED_MAKE, task);
  event.mode = (uint32_t)mode;
  event.bound = 2;
  event.operator_count = 1;
  event.operators[0] = (uint32_t)operator;
  return event;
}

static paldwosk_answer judge_make(paldwosk_judge *judge, uint64_t phaser, uint64_t task, paldwosk_mode mode) {
  const paldwosk_judged_event event = made_with(phaser, task, mode, PALDWOSK_SUM);
  return paldwosk_judge_event(judge, &event);
}

static paldwosk_answer judge_reg(paldwosk_judge *judge, uint64_t phaser, uint64_t parent, uint64_t child,
                                 paldwosk_mode mode) {
  paldwosk_judged_event event = happened(phaser, PALDWOSK_JUDGED_REG, parent);
  event.child = child;
  event.mode = (uint32_t)mode;
  return paldwosk_judge_event(judge, &event);
}

static paldwosk_answer judge_single(paldwosk_judge *judge, uint64_t phaser, uint64_t task, uint32_t single) {
  paldwosk_judged_event event = happened(phaser, PALDWOSK_JUDGED_SIG_SINGLE, task);
  event.single = single;
  return paldwosk_judge_event(judge, &event);
}

static paldwosk_answer judge_send(paldwosk_judge *judge, uint64_t phaser, uint64_t task, uint32_t accumulator,
                                  int32_t value) {
  paldwosk_judged_event event = happened(phaser, PALDWOSK_JUDGED_SEND, task);
  event.accumulator = accumulator;
  event.value = value;
  return paldwosk_judge_event(judge, &event);
}

static paldwosk_answer judge_look(paldwosk_judge *judge, uint64_t phaser, uint64_t task, int64_t seen) {
  paldwosk_judged_event event = happened(phaser, PALDWOSK_JUDGED_LOOK, task);
  event.accumulator = 0;
  event.seen = seen;
  return paldwosk_judge_event(judge, &event);
}

static paldwosk_answer judge_nothing(paldwosk_judge *judge, uint64_t phaser, uint64_t task) {
  paldwosk_judged_event event = happened(phaser, PALDWOSK_JUDGED_LOOK_NOTHING, task);
  event.accumulator = 0;
  return paldwosk_judge_event(judge, &event);
}

/* Whether these are the counts, in the order of the struct. */
static int counts(paldwosk_judge *judge, const uint64_t wanted[8], uint32_t over) {
  paldwosk_judged_totals told;
  memset(&told, 0xa5, sizeof told);
  MUST(paldwosk_judge_totals(judge, &told) == PALDWOSK_DONE);
  const uint64_t got[8] = {told.events, told.made,   told.there, told.registrations,
                           told.signals, told.passes, told.drops, told.sends};
  return !memcmp(got, wanted, sizeof got) && told.over == over;
}

static void renewed(paldwosk_judge *judge) {
  paldwosk_judge_free(judge);
  MUST(paldwosk_judge_new(judge) == PALDWOSK_DONE);
}

/* Two tasks make, turn and leave a barrier of the greatest number. One of them has the number 2^63. */
static void judged_barrier(paldwosk_judge *judge) {
  MUST(judge_make(judge, MOST, HALF, PALDWOSK_SIG_WAIT) == PALDWOSK_DONE);
  MUST(judge_reg(judge, MOST, HALF, 0, PALDWOSK_SIG_WAIT) == PALDWOSK_DONE);
  MUST(judge_act(judge, MOST, PALDWOSK_JUDGED_SIG, HALF) == PALDWOSK_DONE);
  MUST(counts(judge, (const uint64_t[8]){3, 1, 1, 2, 1, 0, 0, 0}, 0));
  MUST(judge_act(judge, MOST, PALDWOSK_JUDGED_SIG, 0) == PALDWOSK_DONE);
  MUST(judge_act(judge, MOST, PALDWOSK_JUDGED_PASS, HALF) == PALDWOSK_DONE);
  MUST(judge_act(judge, MOST, PALDWOSK_JUDGED_PASS, 0) == PALDWOSK_DONE);
  MUST(judge_act(judge, MOST, PALDWOSK_JUDGED_DROP, HALF) == PALDWOSK_DONE);
  MUST(judge_act(judge, MOST, PALDWOSK_JUDGED_DROP, 0) == PALDWOSK_DONE);
  MUST(counts(judge, (const uint64_t[8]){8, 1, 0, 2, 2, 2, 2, 0}, 0));
}

/* The first task passes before the second has signalled: that event is refused, and from then on each is. */
static void early_pass(paldwosk_judge *judge) {
  MUST(judge_make(judge, 7, 1, PALDWOSK_SIG_WAIT) == PALDWOSK_DONE);
  MUST(judge_reg(judge, 7, 1, 2, PALDWOSK_SIG_WAIT) == PALDWOSK_DONE);
  MUST(judge_act(judge, 7, PALDWOSK_JUDGED_SIG, 1) == PALDWOSK_DONE);
  MUST(judge_act(judge, 7, PALDWOSK_JUDGED_PASS, 1) == PALDWOSK_HAD_TO_WAIT);
  MUST(judge_act(judge, 7, PALDWOSK_JUDGED_SIG, 2) == PALDWOSK_OVER);
  MUST(judge_make(judge, 8, 1, PALDWOSK_SIG_WAIT) == PALDWOSK_OVER);
  MUST(judge_act(judge, 8, (paldwosk_judged_kind)11, 1) == PALDWOSK_BAD_KIND);
  paldwosk_judged_totals told;
  MUST(paldwosk_judge_totals(judge, &told) == PALDWOSK_DONE && told.over == 1);
  MUST(told.events == 3 && told.made == 1 && told.registrations == 2 && told.signals == 1 && told.passes == 0);
}

/* Whether the event is answered so, and *why says this phase, so many tasks, and these of them. */
static int waited(paldwosk_judge *judge, paldwosk_judged_kind kind, uint64_t task, paldwosk_answer wanted, uint64_t phase,
                  uint64_t count, const uint64_t tasks[PALDWOSK_MOST_NAMED]) {
  const paldwosk_judged_event event = happened(7, kind, task);
  paldwosk_judged_why why;
  memset(&why, 0xa5, sizeof why); /* each number is written at each answer */
  const paldwosk_answer answer = paldwosk_judge_event_with_owing(judge, &event, &why);
  return answer == wanted && why.phase == phase && why.count == count && !memcmp(why.tasks, tasks, sizeof why.tasks);
}

static int waited_for_none(paldwosk_judge *judge, paldwosk_judged_kind kind, uint64_t task, paldwosk_answer wanted) {
  return waited(judge, kind, task, wanted, 0, 0, (const uint64_t[PALDWOSK_MOST_NAMED]){0});
}

/* Task 1 passes phase 0 with all others, and phase 1 before two of them have signalled that. Task 5 only waits. */
static void early_pass_told(paldwosk_judge *judge) {
  const uint64_t others[] = {MOST, 3, HALF};
  MUST(judge_make(judge, 7, 1, PALDWOSK_SIG_WAIT) == PALDWOSK_DONE);
  for (int at = 0; at < 3; at++) MUST(judge_reg(judge, 7, 1, others[at], PALDWOSK_SIG_WAIT) == PALDWOSK_DONE);
  MUST(judge_reg(judge, 7, 1, 5, PALDWOSK_WAIT) == PALDWOSK_DONE);
  MUST(waited_for_none(judge, PALDWOSK_JUDGED_SIG, 1, PALDWOSK_DONE));
  for (int at = 0; at < 3; at++) MUST(waited_for_none(judge, PALDWOSK_JUDGED_SIG, others[at], PALDWOSK_DONE));
  MUST(waited_for_none(judge, PALDWOSK_JUDGED_PASS, 1, PALDWOSK_DONE));
  MUST(waited_for_none(judge, PALDWOSK_JUDGED_PASS, 3, PALDWOSK_DONE));
  MUST(waited_for_none(judge, PALDWOSK_JUDGED_SIG, 3, PALDWOSK_DONE));
  MUST(waited_for_none(judge, PALDWOSK_JUDGED_SIG, 1, PALDWOSK_DONE));
  MUST(waited_for_none(judge, (paldwosk_judged_kind)11, 1, PALDWOSK_BAD_KIND));
  MUST(waited(judge, PALDWOSK_JUDGED_PASS, 1, PALDWOSK_HAD_TO_WAIT, 1, 2, (const uint64_t[PALDWOSK_MOST_NAMED]){MOST, HALF}));
  MUST(waited_for_none(judge, PALDWOSK_JUDGED_PASS, 1, PALDWOSK_OVER));
  MUST(counts(judge, (const uint64_t[8]){13, 1, 1, 5, 6, 2, 0, 0}, 1));
}

/* Sixteen tasks are named, in the order of their registration, and a seventeenth is counted. */
static void many_told(paldwosk_judge *judge) {
  MUST(judge_make(judge, 7, 99, PALDWOSK_SIG_WAIT) == PALDWOSK_DONE);
  for (uint64_t child = 17; child > 0; child--) MUST(judge_reg(judge, 7, 99, child, PALDWOSK_SIG) == PALDWOSK_DONE);
  MUST(waited_for_none(judge, PALDWOSK_JUDGED_SIG, 99, PALDWOSK_DONE));
  MUST(waited(judge, PALDWOSK_JUDGED_PASS, 99, PALDWOSK_HAD_TO_WAIT, 0, 17,
              (const uint64_t[PALDWOSK_MOST_NAMED]){17, 16, 15, 14, 13, 12, 11, 10, 9, 8, 7, 6, 5, 4, 3, 2}));
}

/* A claim waits for those who owe the phase. A pass of a closed phase whose single isn't done waits for none of them. By the
 * bound of 2 a third signal waits, and names nobody. Another refusal names nobody either. */
static void singles_told(paldwosk_judge *judge) {
  MUST(judge_make(judge, 7, 1, PALDWOSK_SINGLE) == PALDWOSK_DONE);
  MUST(judge_reg(judge, 7, 1, 2, PALDWOSK_SINGLE) == PALDWOSK_DONE);
  MUST(judge_single(judge, 7, 1, 4) == PALDWOSK_DONE);
  MUST(waited(judge, PALDWOSK_JUDGED_CLAIM, 1, PALDWOSK_HAD_TO_WAIT, 0, 1, (const uint64_t[PALDWOSK_MOST_NAMED]){2}));
  renewed(judge);
  MUST(judge_make(judge, 7, 1, PALDWOSK_SINGLE) == PALDWOSK_DONE);
  MUST(judge_reg(judge, 7, 1, 2, PALDWOSK_SINGLE) == PALDWOSK_DONE);
  for (uint64_t task = 1; task <= 2; task++) MUST(judge_act(judge, 7, PALDWOSK_JUDGED_SIG, task) == PALDWOSK_DONE);
  for (uint64_t task = 1; task <= 2; task++) MUST(judge_act(judge, 7, PALDWOSK_JUDGED_PASS, task) == PALDWOSK_DONE);
  for (uint64_t task = 1; task <= 2; task++) MUST(judge_single(judge, 7, task, 4) == PALDWOSK_DONE);
  MUST(waited_for_none(judge, PALDWOSK_JUDGED_CLAIM, 2, PALDWOSK_DONE));
  MUST(waited(judge, PALDWOSK_JUDGED_PASS, 1, PALDWOSK_HAD_TO_WAIT, 1, 0, (const uint64_t[PALDWOSK_MOST_NAMED]){0}));
  renewed(judge);
  MUST(judge_make(judge, 7, 1, PALDWOSK_SIG_WAIT) == PALDWOSK_DONE);
  MUST(judge_reg(judge, 7, 1, 2, PALDWOSK_SIG) == PALDWOSK_DONE);
  for (int at = 0; at < 2; at++) {
    MUST(waited_for_none(judge, PALDWOSK_JUDGED_SIG, 2, PALDWOSK_DONE));
    MUST(waited_for_none(judge, PALDWOSK_JUDGED_PASS, 2, PALDWOSK_DONE));
  }
  MUST(waited_for_none(judge, PALDWOSK_JUDGED_SIG, 2, PALDWOSK_HAD_TO_WAIT));
  renewed(judge);
  MUST(waited_for_none(judge, PALDWOSK_JUDGED_PASS, 1, PALDWOSK_NOT_MADE));
}

/* A task's number, and then the phaser's, are used again after they were freed, and not before. */
static void used_again(paldwosk_judge *judge) {
  MUST(judge_make(judge, 7, 1, PALDWOSK_SIG_WAIT) == PALDWOSK_DONE);
  MUST(judge_reg(judge, 7, 1, 2, PALDWOSK_SIG_WAIT) == PALDWOSK_DONE);
  MUST(judge_act(judge, 7, PALDWOSK_JUDGED_DROP, 2) == PALDWOSK_DONE);
  MUST(judge_reg(judge, 7, 1, 2, PALDWOSK_WAIT) == PALDWOSK_DONE);
  MUST(judge_act(judge, 7, PALDWOSK_JUDGED_DROP, 1) == PALDWOSK_DONE);
  MUST(judge_act(judge, 7, PALDWOSK_JUDGED_DROP, 2) == PALDWOSK_DONE);
  MUST(judge_make(judge, 7, 2, PALDWOSK_SIG) == PALDWOSK_DONE);
  MUST(counts(judge, (const uint64_t[8]){7, 2, 1, 4, 0, 0, 3, 0}, 0));
  MUST(judge_make(judge, 7, 3, PALDWOSK_SIG) == PALDWOSK_MADE_ALREADY);
  renewed(judge);
  MUST(judge_make(judge, 7, 1, PALDWOSK_SIG_WAIT) == PALDWOSK_DONE);
  MUST(judge_reg(judge, 7, 1, 1, PALDWOSK_SIG_WAIT) == PALDWOSK_REGISTERED_ALREADY);
  renewed(judge);
  MUST(judge_make(judge, 7, 1, PALDWOSK_SIG_WAIT) == PALDWOSK_DONE);
  MUST(judge_act(judge, 7, PALDWOSK_JUDGED_DROP, 1) == PALDWOSK_DONE);
  MUST(judge_act(judge, 7, PALDWOSK_JUDGED_SIG, 1) == PALDWOSK_NOT_MADE);
}

/* A single, of two tasks. */
static void judged_single(paldwosk_judge *judge) {
  MUST(judge_make(judge, 7, 1, PALDWOSK_SINGLE) == PALDWOSK_DONE);
  MUST(judge_reg(judge, 7, 1, 2, PALDWOSK_SINGLE) == PALDWOSK_DONE);
  MUST(judge_single(judge, 7, 1, UINT32_MAX) == PALDWOSK_DONE);
  MUST(judge_single(judge, 7, 2, UINT32_MAX) == PALDWOSK_DONE);
  MUST(judge_act(judge, 7, PALDWOSK_JUDGED_CLAIM, 2) == PALDWOSK_DONE);
  MUST(judge_act(judge, 7, PALDWOSK_JUDGED_DID, 2) == PALDWOSK_DONE);
  MUST(judge_act(judge, 7, PALDWOSK_JUDGED_PASS, 1) == PALDWOSK_DONE);
  MUST(judge_act(judge, 7, PALDWOSK_JUDGED_CLAIM, 2) == PALDWOSK_PASSES_INSTEAD);
  renewed(judge);
  MUST(judge_make(judge, 7, 1, PALDWOSK_SINGLE) == PALDWOSK_DONE);
  MUST(judge_single(judge, 7, 1, 0) == PALDWOSK_DONE);
  MUST(judge_act(judge, 7, PALDWOSK_JUDGED_PASS, 1) == PALDWOSK_CLAIMS_INSTEAD);
}

/* Sends and looks: what is seen is the fold of the phase before. */
static void judged_values(paldwosk_judge *judge) {
  const paldwosk_judged_event least = made_with(8, 1, PALDWOSK_SIG_WAIT, PALDWOSK_LEAST);
  MUST(judge_make(judge, 7, 1, PALDWOSK_SIG_WAIT) == PALDWOSK_DONE);
  MUST(judge_send(judge, 7, 1, 0, INT32_MIN) == PALDWOSK_DONE);
  MUST(judge_send(judge, 7, 1, 0, INT32_MIN) == PALDWOSK_DONE);
  MUST(judge_act(judge, 7, PALDWOSK_JUDGED_SIG, 1) == PALDWOSK_DONE);
  MUST(judge_act(judge, 7, PALDWOSK_JUDGED_PASS, 1) == PALDWOSK_DONE);
  MUST(judge_look(judge, 7, 1, -((int64_t)1 << 32)) == PALDWOSK_DONE);
  MUST(paldwosk_judge_event(judge, &least) == PALDWOSK_DONE);
  MUST(judge_act(judge, 8, PALDWOSK_JUDGED_SIG, 1) == PALDWOSK_DONE);
  MUST(judge_act(judge, 8, PALDWOSK_JUDGED_PASS, 1) == PALDWOSK_DONE);
  MUST(judge_nothing(judge, 8, 1) == PALDWOSK_DONE);
  MUST(counts(judge, (const uint64_t[8]){10, 2, 2, 2, 2, 2, 0, 2}, 0));
  MUST(judge_look(judge, 7, 1, -((int64_t)1 << 32) + 1) == PALDWOSK_SAW_OTHER);
}

/* The answers of a phaser itself. */
static void judged_rules(paldwosk_judge *judge) {
  MUST(judge_make(judge, 7, 1, PALDWOSK_SIG_WAIT) == PALDWOSK_DONE);
  MUST(judge_act(judge, 7, PALDWOSK_JUDGED_SIG, 2) == PALDWOSK_NOT_REGISTERED);
  renewed(judge);
  MUST(judge_make(judge, 7, 1, PALDWOSK_SIG_WAIT) == PALDWOSK_DONE);
  MUST(judge_act(judge, 7, PALDWOSK_JUDGED_SIG, 1) == PALDWOSK_DONE);
  MUST(judge_act(judge, 7, PALDWOSK_JUDGED_SIG, 1) == PALDWOSK_ALREADY_SIGNALLED);
  renewed(judge);
  MUST(judge_make(judge, 7, 1, PALDWOSK_SIG) == PALDWOSK_DONE);
  MUST(judge_reg(judge, 7, 1, 2, PALDWOSK_SIG_WAIT) == PALDWOSK_MORE_THAN_PARENT);
  renewed(judge);
  MUST(judge_make(judge, 7, 1, PALDWOSK_SIG_WAIT) == PALDWOSK_DONE);
  MUST(judge_send(judge, 7, 1, 256, 1) == PALDWOSK_NO_ACCUMULATOR);
}

/* Numbers that are no event's, in the order in which they are looked at. They change nothing. */
static void judged_numbers(paldwosk_judge *judge) {
  paldwosk_judged_event event = made_with(7, 1, (paldwosk_mode)4, (paldwosk_operator)3);
  event.bound = 65537;
  event.kind = 11;
  MUST(paldwosk_judge_event(judge, &event) == PALDWOSK_BAD_KIND);
  event.kind = PALDWOSK_JUDGED_MAKE;
  MUST(paldwosk_judge_event(judge, &event) == PALDWOSK_BAD_MODE);
  event.mode = PALDWOSK_SIG;
  MUST(paldwosk_judge_event(judge, &event) == PALDWOSK_BAD_OPERATORS);
  event.operators[0] = PALDWOSK_GREATEST;
  event.operator_count = 5;
  MUST(paldwosk_judge_event(judge, &event) == PALDWOSK_BAD_OPERATORS);
  event.operator_count = 1;
  MUST(paldwosk_judge_event(judge, &event) == PALDWOSK_BAD_BOUND);
  MUST(judge_reg(judge, 7, 1, 2, (paldwosk_mode)4) == PALDWOSK_BAD_MODE);
  MUST(counts(judge, (const uint64_t[8]){0}, 0));
  event.bound = 65536;
  MUST(paldwosk_judge_event(judge, &event) == PALDWOSK_DONE);
  event.phaser = 8;
  event.operator_count = 0;
  event.bound = 0;
  MUST(paldwosk_judge_event(judge, &event) == PALDWOSK_DONE);
  MUST(counts(judge, (const uint64_t[8]){2, 2, 2, 2, 0, 0, 0, 0}, 0));
}

/* No judge, and NULL. */
static void no_judge(paldwosk_judge *judge) {
  const paldwosk_judged_event event = made_with(7, 1, PALDWOSK_SIG, PALDWOSK_SUM);
  paldwosk_judged_totals told;
  paldwosk_judged_why why;
  memset(&told, 0x77, sizeof told);
  memset(&why, 0x77, sizeof why);
  const paldwosk_judged_totals before = told;
  const paldwosk_judged_why unwritten = why;
  MUST(paldwosk_judge_new(NULL) == PALDWOSK_NULL);
  MUST(paldwosk_judge_event(NULL, &event) == PALDWOSK_NULL);
  MUST(paldwosk_judge_event(judge, NULL) == PALDWOSK_NULL);
  MUST(paldwosk_judge_event_with_owing(NULL, &event, &why) == PALDWOSK_NULL);
  MUST(paldwosk_judge_event_with_owing(judge, NULL, &why) == PALDWOSK_NULL);
  MUST(paldwosk_judge_event_with_owing(judge, &event, NULL) == PALDWOSK_NULL);
  MUST(paldwosk_judge_totals(NULL, &told) == PALDWOSK_NULL);
  MUST(paldwosk_judge_totals(judge, NULL) == PALDWOSK_NULL);
  MUST(paldwosk_judge_event(judge, &event) == PALDWOSK_CLOSED);
  MUST(waited_for_none(judge, PALDWOSK_JUDGED_PASS, 1, PALDWOSK_CLOSED));
  MUST(paldwosk_judge_totals(judge, &told) == PALDWOSK_CLOSED);
  paldwosk_judge_free(NULL);
  paldwosk_judge_free(judge);
  MUST(!memcmp(&told, &before, sizeof told) && !memcmp(&why, &unwritten, sizeof why) && judge->held == NULL);
}

static int judge(void) {
  void (*const parts[])(paldwosk_judge *) = {judged_barrier, early_pass,   early_pass_told, many_told,     singles_told,
                                             used_again,     judged_single, judged_values,  judged_rules, judged_numbers};
  paldwosk_judge held = PALDWOSK_NO_JUDGE;
  no_judge(&held);
  MUST(paldwosk_judge_new(&held) == PALDWOSK_DONE);
  MUST(counts(&held, (const uint64_t[8]){0}, 0));
  MUST(paldwosk_judge_new(&held) == PALDWOSK_OPEN);
  for (size_t at = 0; at < sizeof parts / sizeof *parts; at++, renewed(&held)) parts[at](&held);
  paldwosk_judge_free(&held);
  no_judge(&held);
  return 0;
}

/* The events of a barrier of two tasks, of one made with the greatest bound, and of one with an early pass. An event to which
 * memory is refused changes nothing, and is handed over again. Status 1: memory is refused twice in a row. */
static int lacking(void) {
  const paldwosk_judged_kind turns[] = {PALDWOSK_JUDGED_SIG, PALDWOSK_JUDGED_PASS, PALDWOSK_JUDGED_DROP};
  paldwosk_judge held = PALDWOSK_NO_JUDGE;
  paldwosk_judged_event events[13] = {made_with(7, 1, PALDWOSK_SIG_WAIT, PALDWOSK_SUM)};
  const paldwosk_judged_event early = happened(9, PALDWOSK_JUDGED_PASS, 1);
  paldwosk_judged_totals before, told;
  size_t count = 0;
  if (paldwosk_judge_new(&held) && paldwosk_judge_new(&held)) return 1;
  events[++count] = happened(7, PALDWOSK_JUDGED_REG, 1);
  events[count].child = 2;
  events[count].mode = PALDWOSK_SIG_WAIT;
  events[++count] = made_with(8, 1, PALDWOSK_SIG, PALDWOSK_LEAST);
  events[count++].bound = 65536;
  for (int at = 0; at < 6; at++) events[count++] = happened(7, turns[at / 2], 1 + (uint64_t)at % 2);
  events[count++] = happened(8, PALDWOSK_JUDGED_DROP, 1);
  events[count++] = made_with(9, 1, PALDWOSK_SIG_WAIT, PALDWOSK_SUM);
  events[count] = events[1];
  events[count++].phaser = 9;
  events[count++] = happened(9, PALDWOSK_JUDGED_SIG, 1);
  for (size_t at = 0; at < count; at++) {
    MUST(paldwosk_judge_totals(&held, &before) == PALDWOSK_DONE);
    paldwosk_answer answer = paldwosk_judge_event(&held, &events[at]);
    if (answer == PALDWOSK_MEMORY) {
      MUST(paldwosk_judge_totals(&held, &told) == PALDWOSK_DONE && told.events == at && told.over == 0);
      MUST(told.made == before.made && told.there == before.there && told.registrations == before.registrations);
      answer = paldwosk_judge_event(&held, &events[at]);
      if (answer == PALDWOSK_MEMORY) {
        paldwosk_judge_free(&held);
        return 1;
      }
    }
    MUST(answer == PALDWOSK_DONE);
  }
  paldwosk_judged_why why;
  paldwosk_answer answer = paldwosk_judge_event_with_owing(&held, &early, &why);
  if (answer == PALDWOSK_MEMORY) {
    MUST(counts(&held, (const uint64_t[8]){13, 3, 1, 5, 3, 2, 3, 0}, 0) && why.phase == 0 && why.count == 0);
    answer = paldwosk_judge_event_with_owing(&held, &early, &why);
    if (answer == PALDWOSK_MEMORY) {
      paldwosk_judge_free(&held);
      return 1;
    }
  }
  MUST(answer == PALDWOSK_HAD_TO_WAIT && why.phase == 0 && why.count == 1 && why.tasks[0] == 2);
  MUST(counts(&held, (const uint64_t[8]){13, 3, 1, 5, 3, 2, 3, 0}, 1));
  paldwosk_judge_free(&held);
  return 0;
}

/* ---- What answers say */

typedef struct answer_name {
  int number;
  const char *name;
} answer_name;

static const answer_name OTHERS[] = {
    {0, "Done"},        {24, "BadText"},    {25, "NotExplained"}, {26, "SharesDiffer"}, {32, "NotYet"},
    {33, "Claimed"},    {34, "Nothing"},    {35, "NotKept"},      {36, "TooGreat"},     {48, "TimedOut"},
    {64, "Null"},       {65, "Closed"},     {66, "Open"},         {67, "Short"},        {68, "BadMode"},
    {69, "BadLimits"},  {70, "BadOperators"}, {71, "BadBound"},   {72, "BadTickets"},   {73, "BadKind"},
    {80, "NotMade"},    {81, "MadeAlready"}, {82, "RegisteredAlready"}, {83, "HadToWait"}, {84, "ClaimsInstead"},
    {85, "PassesInstead"}, {86, "SawOther"}, {87, "Over"}};

/* It begins with the name and the number, and has two parts: what the answer means, and what to do. */
static void answer_text(int number, const char *name) {
  char wanted[40];
  int length = snprintf(wanted, sizeof wanted, "%s (%d): ", name, number);
  const char *text = paldwosk_answer_text((paldwosk_answer)number);
  MUST(!strncmp(text, wanted, (size_t)length) && strlen(text) > (size_t)length + 20 && !strchr(text, '\n'));
  MUST(strstr(text, "; ") != NULL);
}

static int told(void) {
  const int others = sizeof OTHERS / sizeof *OTHERS;
  const char *unknown = paldwosk_answer_text((paldwosk_answer)-1);
  int named = 0;
  for (int number = 1; number <= 23; number++) answer_text(number, NAMES[number]);
  for (int at = 0; at < others; at++) answer_text(OTHERS[at].number, OTHERS[at].name);
  for (int number = 0; number < 1000; number++) named += paldwosk_answer_text((paldwosk_answer)number) != unknown;
  MUST(unknown != NULL && !strchr(unknown, '(') && named == 23 + others);
  MUST(!strcmp(paldwosk_answer_text(PALDWOSK_REGS_FULL),
               "RegsFull (14): as many tasks are registered as the limits allow; let one leave first"));
  MUST(PALDWOSK_VERSION == 10000 * PALDWOSK_VERSION_MAJOR + 100 * PALDWOSK_VERSION_MINOR + PALDWOSK_VERSION_PATCH);
  printf("%d.%d.%d %s\n", PALDWOSK_VERSION_MAJOR, PALDWOSK_VERSION_MINOR, PALDWOSK_VERSION_PATCH, PALDWOSK_VERSION_TEXT);
  return 0;
}

int main(int count, char **words) {
  int status = 3;
  if (count == 3 && !strcmp(words[1], "replay")) status = checked(paldwosk_replay, words[2]);
  else if (count == 3 && !strcmp(words[1], "events")) status = checked(paldwosk_events, words[2]);
  else if (count == 2 && !strcmp(words[1], "calls")) status = calls();
  else if (count == 2 && !strcmp(words[1], "wrong")) status = wrong();
  else if (count == 2 && !strcmp(words[1], "judge")) status = judge();
  else if (count == 2 && !strcmp(words[1], "lacking")) status = lacking();
  else if (count == 2 && !strcmp(words[1], "told")) status = told();
  return faults ? 4 : status;
}
