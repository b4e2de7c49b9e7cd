/* The functions of the headers as symbols, for programs that can't include C. The shared library has them for Python, Go, C#
 * and dlopen; libpaldwosk.a has them for the Rust crate, whose calls that wait are these. paldwosk_so_NAME is paldwosk_NAME of the header: it takes, answers and asks for the same. A mode, an operator, an
 * answer and a status are numbers of 32 bits.
 *
 * Memory for a barrier has to be zeroed, aligned to 16 and paldwosk_so_barrier_size() bytes long. A task is a
 * pointer, a number of 64 bits and one of 32. A barrier is used by these functions alone, or by those of one header
 * alone.
 *
 * Tested by tests/packages, tests/python_package and the tests of the Rust crate, not proved. */
#include "paldwosk_barrier.h"

#pragma GCC visibility push(default)

size_t paldwosk_so_barrier_size(void) { return sizeof(paldwosk_barrier); }

paldwosk_answer paldwosk_so_barrier_new(paldwosk_barrier *barrier, uint32_t bound, const paldwosk_operator *operators,
                                        size_t count) {
  return paldwosk_barrier_new(barrier, bound, operators, count);
}

paldwosk_answer paldwosk_so_barrier_new_traced(paldwosk_barrier *barrier, uint32_t bound,
                                               const paldwosk_operator *operators, size_t count) {
  return paldwosk_barrier_new_traced(barrier, bound, operators, count);
}

paldwosk_answer paldwosk_so_barrier_init(paldwosk_barrier *barrier, uint32_t bound, const paldwosk_operator *operators,
                                         size_t count) {
  return paldwosk_barrier_init(barrier, bound, operators, count);
}

paldwosk_answer paldwosk_so_barrier_init_traced(paldwosk_barrier *barrier, uint32_t bound,
                                                const paldwosk_operator *operators, size_t count) {
  return paldwosk_barrier_init_traced(barrier, bound, operators, count);
}

paldwosk_answer paldwosk_so_barrier_free(paldwosk_barrier *barrier) { return paldwosk_barrier_free(barrier); }

paldwosk_answer paldwosk_so_barrier_make(paldwosk_barrier *barrier, paldwosk_mode mode, paldwosk_task *task) {
  return paldwosk_barrier_make(barrier, mode, task);
}

paldwosk_answer paldwosk_so_barrier_join(const paldwosk_task *parent, paldwosk_mode mode, paldwosk_task *task) {
  return paldwosk_barrier_join(parent, mode, task);
}

paldwosk_answer paldwosk_so_barrier_next(const paldwosk_task *task, uint64_t *phase) {
  return paldwosk_barrier_next(task, phase);
}

paldwosk_answer paldwosk_so_barrier_next_for(const paldwosk_task *task, uint32_t milliseconds, uint64_t *phase) {
  return paldwosk_barrier_next_for(task, milliseconds, phase);
}

paldwosk_answer paldwosk_so_barrier_try_next(const paldwosk_task *task, uint64_t *phase) {
  return paldwosk_barrier_try_next(task, phase);
}

paldwosk_answer paldwosk_so_barrier_signal(const paldwosk_task *task) { return paldwosk_barrier_signal(task); }

paldwosk_answer paldwosk_so_barrier_signal_for(const paldwosk_task *task, uint32_t milliseconds) {
  return paldwosk_barrier_signal_for(task, milliseconds);
}

paldwosk_answer paldwosk_so_barrier_try_signal(const paldwosk_task *task) { return paldwosk_barrier_try_signal(task); }

paldwosk_answer paldwosk_so_barrier_wait(const paldwosk_task *task, uint64_t *phase) {
  return paldwosk_barrier_wait(task, phase);
}

paldwosk_answer paldwosk_so_barrier_wait_for(const paldwosk_task *task, uint32_t milliseconds, uint64_t *phase) {
  return paldwosk_barrier_wait_for(task, milliseconds, phase);
}

paldwosk_answer paldwosk_so_barrier_try_wait(const paldwosk_task *task, uint64_t *phase) {
  return paldwosk_barrier_try_wait(task, phase);
}

paldwosk_answer paldwosk_so_barrier_send(const paldwosk_task *task, uint32_t accumulator, int32_t value) {
  return paldwosk_barrier_send(task, accumulator, value);
}

paldwosk_answer paldwosk_so_barrier_look(const paldwosk_task *task, uint32_t accumulator, int64_t *value) {
  return paldwosk_barrier_look(task, accumulator, value);
}

paldwosk_answer paldwosk_so_barrier_single(const paldwosk_task *task, uint32_t number, void (*run)(void *data),
                                           void *data, uint64_t *phase) {
  return paldwosk_barrier_single(task, number, run, data, phase);
}

paldwosk_answer paldwosk_so_barrier_single_for(const paldwosk_task *task, uint32_t number, uint32_t milliseconds,
                                               void (*run)(void *data), void *data, uint64_t *phase) {
  return paldwosk_barrier_single_for(task, number, milliseconds, run, data, phase);
}

paldwosk_answer paldwosk_so_barrier_try_single(const paldwosk_task *task, uint32_t number, void (*run)(void *data),
                                               void *data, uint64_t *phase) {
  return paldwosk_barrier_try_single(task, number, run, data, phase);
}

paldwosk_answer paldwosk_so_barrier_leave(const paldwosk_task *task) { return paldwosk_barrier_leave(task); }

paldwosk_answer paldwosk_so_barrier_spin(paldwosk_barrier *barrier, uint32_t most) {
  return paldwosk_barrier_spin(barrier, most);
}

paldwosk_answer paldwosk_so_barrier_missing(paldwosk_barrier *barrier, uint64_t *tasks, size_t room, size_t *count) {
  return paldwosk_barrier_missing(barrier, tasks, room, count);
}

const char *paldwosk_so_answer_text(paldwosk_answer answer) { return paldwosk_answer_text(answer); }

paldwosk_answer paldwosk_so_barrier_trace(paldwosk_barrier *barrier, char *text, size_t room, size_t *written) {
  return paldwosk_barrier_trace(barrier, text, room, written);
}

int paldwosk_so_barrier_trace_ended(paldwosk_barrier *barrier) { return paldwosk_barrier_trace_ended(barrier); }

paldwosk_status paldwosk_so_replay(const char *trace, size_t length, char *report, size_t room, size_t *written) {
  return paldwosk_replay(trace, length, report, room, written);
}

paldwosk_status paldwosk_so_events(const char *file, size_t length, char *lines, size_t room, size_t *written) {
  return paldwosk_events(file, length, lines, room, written);
}

paldwosk_answer paldwosk_so_judge_new(paldwosk_judge *judge) { return paldwosk_judge_new(judge); }

void paldwosk_so_judge_free(paldwosk_judge *judge) { paldwosk_judge_free(judge); }

paldwosk_answer paldwosk_so_judge_event(paldwosk_judge *judge, const paldwosk_judged_event *event) {
  return paldwosk_judge_event(judge, event);
}

paldwosk_answer paldwosk_so_judge_event_with_owing(paldwosk_judge *judge, const paldwosk_judged_event *event,
                                                   paldwosk_judged_why *why) {
  return paldwosk_judge_event_with_owing(judge, event, why);
}

paldwosk_answer paldwosk_so_judge_totals(paldwosk_judge *judge, paldwosk_judged_totals *totals) {
  return paldwosk_judge_totals(judge, totals);
}

paldwosk_answer paldwosk_so_new(paldwosk_phaser *phaser, const paldwosk_limits *limits,
                                const paldwosk_operator *operators, size_t count, uint32_t bound) {
  return paldwosk_new(phaser, limits, operators, count, bound);
}

void paldwosk_so_free(paldwosk_phaser *phaser) { paldwosk_free(phaser); }

paldwosk_answer paldwosk_so_make(paldwosk_phaser *phaser, uint32_t task, paldwosk_mode mode) {
  return paldwosk_make(phaser, task, mode);
}

paldwosk_answer paldwosk_so_register(paldwosk_phaser *phaser, uint32_t parent, uint32_t child, paldwosk_mode mode) {
  return paldwosk_register(phaser, parent, child, mode);
}

paldwosk_answer paldwosk_so_signal(paldwosk_phaser *phaser, uint32_t task) { return paldwosk_signal(phaser, task); }

paldwosk_answer paldwosk_so_signal_single(paldwosk_phaser *phaser, uint32_t task, uint32_t number) {
  return paldwosk_signal_single(phaser, task, number);
}

paldwosk_answer paldwosk_so_pass(paldwosk_phaser *phaser, uint32_t task, uint32_t *number) {
  return paldwosk_pass(phaser, task, number);
}

paldwosk_answer paldwosk_so_single_done(paldwosk_phaser *phaser, uint32_t task) {
  return paldwosk_single_done(phaser, task);
}

paldwosk_answer paldwosk_so_send(paldwosk_phaser *phaser, uint32_t task, uint32_t accumulator, int32_t value) {
  return paldwosk_send(phaser, task, accumulator, value);
}

paldwosk_answer paldwosk_so_look(paldwosk_phaser *phaser, uint32_t task, uint32_t accumulator, int64_t *value) {
  return paldwosk_look(phaser, task, accumulator, value);
}

paldwosk_answer paldwosk_so_drop(paldwosk_phaser *phaser, uint32_t task) { return paldwosk_drop(phaser, task); }

paldwosk_answer paldwosk_so_is_closed(paldwosk_phaser *phaser, uint32_t phase, uint32_t *closed) {
  return paldwosk_is_closed(phaser, phase, closed);
}

paldwosk_answer paldwosk_so_is_full(paldwosk_phaser *phaser, uint32_t *full) {
  return paldwosk_is_full(phaser, full);
}

paldwosk_answer paldwosk_so_fold_at(paldwosk_phaser *phaser, uint32_t accumulator, uint32_t phase, int64_t *value) {
  return paldwosk_fold_at(phaser, accumulator, phase, value);
}

paldwosk_answer paldwosk_so_compared(paldwosk_phaser *phaser, uint32_t *count) {
  return paldwosk_compared(phaser, count);
}

paldwosk_answer paldwosk_so_event_count(paldwosk_phaser *phaser, uint32_t *count) {
  return paldwosk_event_count(phaser, count);
}

paldwosk_answer paldwosk_so_history_text(paldwosk_phaser *phaser, uint32_t number, const uint64_t *tickets,
                                         size_t count, char *text, size_t room, size_t *written) {
  return paldwosk_history_text(phaser, number, tickets, count, text, room, written);
}

#pragma GCC visibility pop
