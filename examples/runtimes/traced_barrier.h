/* A barrier of pthreads that leaves a trace of its run: include this after <pthread.h>. With OpenMP write
   traced_omp_barrier() for `#pragma omp barrier`. For std::barrier of C++20 see traced_barrier.hpp. It is C11 and C++17,
   by gcc and clang.

   The trace is written when the barrier is destroyed, and else when the program ends by exit, a return from main,
   SIGINT, SIGQUIT or SIGTERM. The environment variable PHASER_TRACE names the file, else it is trace.json; that of the
   program's second barrier has the ending .2, and so on. Older files of these names are removed where the first barrier
   is made. After PHASER_TRACE_AFTER seconds, and at the signals, standard error says who waits, and who is missing.

   If PHASER_TRACE is fd:N, or names a pipe, or ends in .jsonl, the log is written line by line as it comes, for
   `phaser_run judge`: all barriers in one log, each a phaser of its own, and of any length. So a run is judged while it
   goes on: `mkfifo log; phaser_run judge log & PHASER_TRACE=log ./program`.

   Each call draws a ticket before it arrives, and one after its wait: so in the order of tickets an arrival never stands
   after a pass that it let go. The log is an array by ticket. Which task of the trace a call is, is settled when the
   trace is written. What can't be told changes nothing in the program: there is no trace then, and it is said. Lines
   have one counter of tickets for all barriers, and a ring by ticket, which a thread of its own empties in order. If
   the ring is full the program waits for the reader. If the reader is gone the program goes on without a log. */
#ifndef TRACED_LOG_H
#define TRACED_LOG_H

#include <errno.h>
#include <fcntl.h>
#include <poll.h>
#include <pthread.h>
#include <sched.h>
#include <signal.h>
#include <stdarg.h>
#include <stdint.h>
#include <stdlib.h>
#include <string.h>
#include <sys/stat.h>
#include <time.h>
#include <unistd.h>

#define TRACED_VERSION 2
#define TRACED_UNBOUNDED ",null" /* the last item of a make, since version 2 */
#define TRACED_BOUND ",2"        /* the same in lines: nobody is further ahead, and a judge needs less room */
#define TRACED_ENDING "],\"limits\":{\"acts\":65536,\"history\":65536},\"version\":#}\n"
#define TRACED_TICKETS (((uint64_t)1 << 48) - 1)

enum { TRACED_PARTIES = 255, TRACED_EVENTS = 65536, TRACED_PATH = 4000, TRACED_PATIENCE = 1000 /* milliseconds */ };
enum { TRACED_AT_ONCE = 256 /* tasks of a phaser of lines */, TRACED_SLOTS = 65536, TRACED_LINE = 128 /* bytes at most */ };
/* What an entry is of. Its other bits are the thread's number, of a pass the ticket of its arrival. The last two are of
   lines alone: the barrier is made, of so many parties, and destroyed. */
enum { TRACED_ARRIVE = 1, TRACED_SIGNAL, TRACED_LEAVE, TRACED_PASS, TRACED_MAKE, TRACED_CLOSE };
/* Whose turn an arrival is: that of any party that waits for none, that of any party, that of the party of its number. */
enum { TRACED_BY_THREADS, TRACED_BY_COUNT, TRACED_BY_NUMBER };
enum { TRACED_FREE, TRACED_TAKEN, TRACED_LIVE };
/* In the place of a party: a later arrival told this pass already; it can't be told whose the arrival is. */
enum { TRACED_KNOWN = -1, TRACED_UNTOLD = -2 };

/* A party of the barrier as its log is read: task 1 is the first. */
struct traced_party {
    uint64_t owner, last; /* the thread that it is, and its last arrival */
    uint64_t signals, passes;
    int is_waiting, can_wait, has_left;
};

struct traced_log {
    struct traced_log *next;
    int state, rule;
    unsigned parties;
    unsigned long number;
    uint64_t key; /* of a team of OpenMP */
    pid_t process;
    const char *untold; /* why there is no trace */
    uint32_t room, *entries;
    int is_told; /* by lines */
    int is_early, is_full; /* what reading found */
    unsigned char passed[TRACED_EVENTS / 8]; /* by the ticket of an arrival */
    struct traced_party party[TRACED_AT_ONCE];
    char before[64]; /* what all threads write stands on a line of its own */
    uint64_t drawn; /* tickets, and above 48 bits how many calls are under way */
    char after[64];
};

struct traced_out { int file, has_failed; size_t length; char text[TRACED_PATH + 64]; };

/* `filled` is one more than the ticket that the slot was filled for. */
struct traced_slot { uint64_t filled, entry; struct traced_log *log; };

struct traced_lines {
    int is_asked; /* the log is written by lines */
    int is_on, is_ending, says_who;
    struct traced_slot *slots;
    struct traced_out out;
    unsigned long written;
    char before[64];
    uint64_t drawn; /* tickets */
    char between[64];
    uint64_t told; /* how many slots were emptied */
    char after[64];
};

/* Of all files of a program there is one of each. */
__attribute__((weak)) struct traced_log *traced_first;
__attribute__((weak)) pthread_once_t traced_once = PTHREAD_ONCE_INIT;
__attribute__((weak)) unsigned long traced_made;
__attribute__((weak)) uint64_t traced_threads;
__attribute__((weak)) __thread uint64_t traced_self;
__attribute__((weak)) char traced_path[TRACED_PATH];
__attribute__((weak)) struct timespec traced_after;
__attribute__((weak)) struct traced_lines traced_lines;

/* ---- in the turns */

static inline uint64_t traced_who(void) {
    if (traced_self == 0)
        traced_self = __atomic_add_fetch(&traced_threads, 1, __ATOMIC_RELAXED);
    return traced_self;
}

/* Waits until the ring has room for the ticket. Whether there is a log still. */
static inline int traced_has_room(struct traced_lines *lines, uint64_t ticket) {
    int error = errno, state;
    pthread_setcancelstate(PTHREAD_CANCEL_DISABLE, &state);
    while (__atomic_load_n(&lines->is_on, __ATOMIC_ACQUIRE)
            && ticket - __atomic_load_n(&lines->told, __ATOMIC_ACQUIRE) >= TRACED_SLOTS)
        poll(NULL, 0, 1);
    pthread_setcancelstate(state, NULL);
    errno = error;
    return __atomic_load_n(&lines->is_on, __ATOMIC_ACQUIRE);
}

static inline uint64_t traced_draw_line(struct traced_lines *lines, struct traced_log *log, uint64_t entry) {
    if (!__atomic_load_n(&lines->is_on, __ATOMIC_RELAXED))
        return 0;
    uint64_t ticket = __atomic_fetch_add(&lines->drawn, 1, __ATOMIC_RELEASE);
    if (ticket - __atomic_load_n(&lines->told, __ATOMIC_ACQUIRE) >= TRACED_SLOTS && !traced_has_room(lines, ticket))
        return 0;
    struct traced_slot *slot = &lines->slots[ticket % TRACED_SLOTS];
    slot->entry = entry, slot->log = log;
    __atomic_store_n(&slot->filled, ticket + 1, __ATOMIC_RELEASE);
    return ticket;
}

/* It orders nothing between the threads that the barrier doesn't. After its last store the log may be gone. */
static inline uint64_t traced_draw(struct traced_log *log, uint32_t kind, uint64_t of, int more_inside) {
    if (log == NULL)
        return 0;
    if (traced_lines.is_asked)
        return traced_draw_line(&traced_lines, log, of << 3 | kind);
    uint32_t room = log->room, *entries = log->entries;
    uint64_t ticket = __atomic_fetch_add(&log->drawn, 1 + ((uint64_t)more_inside << 48), __ATOMIC_RELEASE) & TRACED_TICKETS;
    if (ticket < room)
        __atomic_store_n(&entries[ticket], (uint32_t)of << 3 | kind, __ATOMIC_RELEASE);
    return ticket < room ? ticket : room;
}

/* ---- writing, by calls alone that a handler of a signal may make */

static inline void traced_flush(struct traced_out *out) {
    for (size_t at = 0; at < out->length && !out->has_failed;) {
        ssize_t wrote = write(out->file, out->text + at, out->length - at);
        struct pollfd room = {out->file, POLLOUT, 0};
        if (wrote > 0)
            at += (size_t)wrote;
        else if (wrote < 0 && errno == EAGAIN)
            poll(&room, 1, -1);
        else if (wrote == 0 || errno != EINTR)
            out->has_failed = wrote < 0 ? errno : EIO;
    }
    out->length = 0;
}

static inline void traced_put(struct traced_out *out, char letter) {
    if (out->length == sizeof out->text)
        traced_flush(out);
    out->text[out->length++] = letter;
}

/* In the form # stands for an unsigned long, and % for a text. */
static inline void traced_print(struct traced_out *out, const char *form, ...) {
    va_list values;
    va_start(values, form);
    for (; *form; form++) {
        char digits[24] = "";
        const char *text = digits + 23;
        if (*form == '#') {
            unsigned long number = va_arg(values, unsigned long);
            char *digit = digits + 23;
            do *--digit = (char)('0' + number % 10); while (number /= 10);
            text = digit;
        } else if (*form == '%')
            text = va_arg(values, const char *);
        else
            traced_put(out, *form);
        while (*text)
            traced_put(out, *text++);
    }
    va_end(values);
}

static inline void traced_name(unsigned long number, struct traced_out *name) {
    int is_phaser = traced_lines.is_asked && number > 0;
    name->length = 0;
    traced_print(name, is_phaser ? "%, phaser #" : number > 1 ? "%.#" : "%", traced_path, number - (unsigned long)is_phaser);
    traced_put(name, 0);
}

static inline void traced_say(unsigned long number, const char *first, const char *second) {
    struct traced_out name = {-1, 0, 0, ""}, out = {2, 0, 0, ""};
    traced_name(number, &name);
    traced_print(&out, "traced_barrier: %: %%\n", name.text, first, second);
    traced_flush(&out);
}

/* Removes what an earlier run left; a device or a pipe stays. Whether there was a file. */
static inline int traced_remove(unsigned long number) {
    struct traced_out name = {-1, 0, 0, ""};
    struct stat is;
    traced_name(number, &name);
    if (stat(name.text, &is) != 0 || !S_ISREG(is.st_mode) || strncmp(name.text, "/dev/", 5) == 0)
        return 0;
    if (unlink(name.text) != 0 && truncate(name.text, 0) != 0)
        traced_say(number, "an older trace can't be removed", "");
    return 1;
}

/* ---- reading the log */

static inline int traced_choice(struct traced_log *log, uint64_t who) {
    int takes_busy = log->rule == TRACED_BY_COUNT || log->parties == 1, best = TRACED_UNTOLD;
    uint64_t least = ~(uint64_t)0;
    if (log->rule == TRACED_BY_NUMBER)
        return log->party[who].signals == log->party[who].passes ? (int)who : TRACED_UNTOLD;
    for (unsigned at = 0; at < log->parties; at++) {
        struct traced_party *party = &log->party[at];
        int is_own = party->owner == who, is_idle = party->signals == party->passes;
        if (party->has_left || (!is_idle && !takes_busy))
            continue;
        if (is_own && is_idle)
            return (int)at;
        uint64_t score = 4 * party->signals + (is_own ? 0 : !is_idle ? 3 : party->owner == 0 ? 1 : 2);
        if (score < least)
            least = score, best = (int)at;
    }
    return best;
}

/* The party that an entry is of. */
static inline int traced_whose(struct traced_log *log, uint32_t kind, uint64_t of) {
    if (kind != TRACED_PASS)
        return traced_choice(log, of);
    for (unsigned number = 0; number < log->parties; number++)
        if (log->party[number].last == of && log->party[number].signals > log->party[number].passes)
            return (int)number;
    return TRACED_KNOWN;
}

static inline const char *traced_why_untold(struct traced_log *log) {
    return log->rule == TRACED_BY_NUMBER ? "two regions of one size are at their barriers at once"
        : "more threads than parties are at the barrier at once";
}

/* Takes an entry into account. An arrival passes first what its party hasn't passed. */
static inline void traced_step(struct traced_party *party, uint32_t kind, uint64_t of, uint64_t at) {
    party->passes += kind == TRACED_PASS || party->signals > party->passes;
    party->is_waiting = kind == TRACED_ARRIVE;
    party->can_wait |= kind == TRACED_PASS || kind == TRACED_ARRIVE;
    if (kind != TRACED_PASS)
        party->owner = of, party->last = at, party->signals++, party->has_left = kind == TRACED_LEAVE;
}

static inline void traced_fresh(struct traced_log *log, int keeps_can_wait) {
    for (unsigned number = 0; number < log->parties; number++) {
        struct traced_party fresh = {0, 0, 0, 0, 0, keeps_can_wait ? log->party[number].can_wait : 0, 0};
        log->party[number] = fresh;
    }
}

/* Reads entries up to the end, or the first that can't be told; writes their events where there is a file. The first
   time `passed` is found, which the second needs. How many were read. */
static inline uint32_t traced_read(struct traced_log *log, uint32_t end, struct traced_out *out, unsigned long *ticket) {
    uint32_t at, left = TRACED_EVENTS - 2 * log->parties - 2;
    traced_fresh(log, out != NULL);
    for (at = 0; at < end; at++) {
        uint32_t entry = __atomic_load_n(&log->entries[at], __ATOMIC_ACQUIRE), kind = entry & 7, of = entry >> 3;
        int chosen = traced_whose(log, kind, of), is_pass = kind == TRACED_PASS;
        if (chosen == TRACED_KNOWN)
            continue;
        if (chosen == TRACED_UNTOLD) {
            log->untold = traced_why_untold(log);
            break;
        }
        struct traced_party *party = &log->party[chosen];
        int passes = is_pass || party->signals > party->passes;
        unsigned long task = (unsigned long)chosen + 1;
        if (left < (uint32_t)(passes + !is_pass)) {
            log->is_full = 1;
            break;
        }
        left -= (uint32_t)(passes + !is_pass);
        if (is_pass)
            for (unsigned number = 0; number < log->parties; number++)
                log->is_early |= log->party[number].signals <= party->passes && !log->party[number].has_left;
        if (passes)
            log->passed[party->last / 8] |= (unsigned char)(1 << party->last % 8);
        if (passes && out)
            traced_print(out, "[#,\"p\",0,\"pass\",#],\n", (*ticket)++, task);
        traced_step(party, kind, of, at);
        if (is_pass)
            continue;
        if (out == NULL)
            continue;
        const char *act = log->passed[at / 8] >> at % 8 & 1 ? "next" : "signal";
        traced_print(out, "[#,\"t\",#,\"begin\",[\"%\"]],\n", (*ticket)++, task, act);
        traced_print(out, "[#,\"p\",0,\"sig\",#],\n", (*ticket)++, task);
        if (kind == TRACED_LEAVE) {
            traced_print(out, "[#,\"t\",#,\"begin\",[\"end\"]],\n", (*ticket)++, task);
            traced_print(out, "[#,\"p\",0,\"drop\",#],\n", (*ticket)++, task);
            traced_print(out, "[#,\"f\",0,\"ended\",#],\n", (*ticket)++, task);
        }
    }
    return at;
}

/* The making of the barrier, the turns, and the leaving of all. */
static inline void traced_events(struct traced_log *log, uint32_t end, struct traced_out *out) {
    unsigned long ticket = 1;
    traced_print(out, "{\"events\":[\n[#,\"p\",0,\"make\",0,\"SIG_WAIT\",[]" TRACED_UNBOUNDED "],\n", ticket++);
    for (unsigned long task = 1; task <= log->parties; task++) {
        struct traced_party *party = &log->party[task - 1];
        const char *mode = party->signals && !party->can_wait ? "SIG" : "SIG_WAIT";
        traced_print(out, "[#,\"t\",0,\"begin\",[\"async\",#,[[0,\"%\"]]]],\n", ticket++, task, mode);
        traced_print(out, "[#,\"p\",0,\"reg\",0,#,\"%\"],\n", ticket++, task, mode);
        traced_print(out, "[#,\"f\",0,\"spawned\",#],\n", ticket++, task);
    }
    traced_print(out, "[#,\"t\",0,\"begin\",[\"end\"]],\n[#,\"p\",0,\"drop\",0],\n", ticket, ticket + 1);
    ticket += 2;
    traced_read(log, end, out, &ticket);
    for (unsigned long task = 1; task <= log->parties; task++) {
        if (log->party[task - 1].has_left)
            continue;
        traced_print(out, "[#,\"t\",#,\"begin\",[\"end\"]],\n", ticket++, task);
        traced_print(out, "[#,\"p\",0,\"drop\",#],\n[#,\"f\",0,\"ended\",#],\n", ticket, task, ticket + 1, task);
        ticket += 2;
    }
    traced_print(out, "[#,\"f\",0,\"shut\"]" TRACED_ENDING, ticket, (unsigned long)TRACED_VERSION);
    traced_flush(out);
}

/* Who waits in the least phase in which somebody does, and who is missing there. */
static inline void traced_say_who(struct traced_log *log) {
    struct traced_out name = {-1, 0, 0, ""}, out = {2, 0, 0, ""};
    uint64_t phase = ~(uint64_t)0;
    int is_missing = 0;
    for (unsigned at = 0; at < log->parties; at++)
        if (log->party[at].is_waiting && log->party[at].passes < phase)
            phase = log->party[at].passes;
    if (phase == ~(uint64_t)0)
        return;
    traced_name(log->number, &name);
    traced_print(&out, "traced_barrier: %: tasks that wait in phase #:", name.text, (unsigned long)phase);
    for (unsigned long task = 1; task <= log->parties; task++)
        if (log->party[task - 1].is_waiting && log->party[task - 1].passes == phase)
            traced_print(&out, " #", task);
    for (unsigned long task = 1; task <= log->parties; task++)
        if (log->party[task - 1].signals <= phase && !log->party[task - 1].has_left) {
            traced_print(&out, is_missing++ ? " #%" : "; missing: #%", task, log->party[task - 1].signals ? "" : " (nobody yet)");
        }
    traced_print(&out, is_missing ? "\n" : "; nobody is missing\n");
    traced_flush(&out);
}

/* The trace so far; the caller has taken the log. What was drawn and isn't stored yet is waited for. */
static inline void traced_write(struct traced_log *log, int says_who) {
    uint64_t drawn = __atomic_load_n(&log->drawn, __ATOMIC_ACQUIRE) & TRACED_TICKETS;
    uint32_t end = drawn < log->room ? (uint32_t)drawn : log->room, stored = 0;
    struct traced_out out = {-1, 0, 0, ""};
    log->is_early = 0, log->is_full = drawn > log->room;
    for (int waits = 0; stored < end && waits < TRACED_PATIENCE;)
        if (__atomic_load_n(&log->entries[stored], __ATOMIC_ACQUIRE))
            stored++;
        else
            poll(NULL, 0, 1), waits++;
    for (uint32_t at = stored; at < end && log->untold == NULL; at++)
        if (__atomic_load_n(&log->entries[at], __ATOMIC_ACQUIRE))
            log->untold = "a thread was stopped while it logged";
    memset(log->passed, 0, sizeof log->passed);
    end = traced_read(log, stored, NULL, NULL);
    if (says_who && !log->untold && !log->is_full)
        traced_say_who(log);
    if (log->untold && !log->is_early) { /* a pass that was early before that is told all the same */
        traced_remove(log->number);
        traced_say(log->number, "no trace is written: ", log->untold);
        return;
    }
    struct traced_out name = {-1, 0, 0, ""};
    traced_name(log->number, &name);
    out.file = open(name.text, O_WRONLY | O_CREAT | O_TRUNC | O_CLOEXEC, 0666);
    if (out.file >= 0)
        traced_events(log, end, &out);
    if (out.file < 0 || (close(out.file) != 0) | out.has_failed)
        traced_say(log->number, "the trace can't be written", "");
    else if (log->is_full)
        traced_say(log->number, "the log was full: the trace ends before the run", "");
}

/* Takes the log from LIVE, or by force where whoever has it doesn't go on: a handler may have interrupted it. */
static inline int traced_take(struct traced_log *log, int by_force) {
    for (int waits = 0; waits < TRACED_PATIENCE; waits++, poll(NULL, 0, 1)) {
        int state = TRACED_LIVE;
        if (__atomic_compare_exchange_n(&log->state, &state, TRACED_TAKEN, 0, __ATOMIC_ACQUIRE, __ATOMIC_RELAXED))
            return 1;
        if (state == TRACED_FREE)
            return 0;
    }
    return by_force;
}

/* ---- lines as they come */

/* Whole lines are written, and by no more bytes at once than a pipe takes at once: so none is ever cut. */
static inline void traced_line(struct traced_log *log, const char *form, unsigned long task) {
    struct traced_out *out = &traced_lines.out;
    if (out->length > sizeof out->text - TRACED_LINE)
        traced_flush(out);
    traced_print(out, "[#,\"p\",#,\"", ++traced_lines.written, log->number - 1);
    traced_print(out, form, task);
}

/* The lines of an entry. The parties register at the making, and who hasn't left does so when the barrier is destroyed. */
static inline void traced_tell(struct traced_log *log, uint32_t kind, uint64_t of, uint64_t at) {
    int chosen = kind == TRACED_MAKE || kind == TRACED_CLOSE || !log->is_told ? TRACED_KNOWN : traced_whose(log, kind, of);
    unsigned long task = (unsigned long)chosen + 1;
    if (kind == TRACED_MAKE) {
        log->is_told = 1, log->parties = (unsigned)of;
        traced_fresh(log, 0);
        for (task = 1; task <= of; task++)
            traced_line(log, task == 1 ? "make\",#,\"SIG_WAIT\",[]" TRACED_BOUND "]\n" : "reg\",1,#,\"SIG_WAIT\"]\n", task);
    } else if (kind == TRACED_CLOSE) {
        for (task = 1; log->is_told && task <= log->parties; task++)
            if (!log->party[task - 1].has_left)
                traced_line(log, "drop\",#]\n", task);
        log->is_told = 0;
        __atomic_store_n(&log->state, TRACED_FREE, __ATOMIC_RELEASE);
    } else if (chosen == TRACED_UNTOLD) {
        log->is_told = 0;
        traced_say(log->number, "its log ends: ", traced_why_untold(log));
    } else if (chosen >= 0) {
        struct traced_party *party = &log->party[chosen];
        if (kind == TRACED_PASS || party->signals > party->passes)
            traced_line(log, "pass\",#]\n", task);
        traced_step(party, kind, of, at);
        if (kind != TRACED_PASS)
            traced_line(log, "sig\",#]\n", task);
        if (kind == TRACED_LEAVE)
            traced_line(log, "drop\",#]\n", task);
    }
}

/* Writes what was filled in order, up to the first slot that isn't. Whether it was anything. */
static inline int traced_empty(struct traced_lines *lines) {
    uint64_t first = lines->told, told = first;
    struct traced_slot *slot = &lines->slots[told % TRACED_SLOTS];
    while (__atomic_load_n(&slot->filled, __ATOMIC_ACQUIRE) == told + 1 && !lines->out.has_failed) {
        traced_tell(slot->log, slot->entry & 7, slot->entry >> 3, told);
        slot = &lines->slots[++told % TRACED_SLOTS];
        if (told % 1024 == 0)
            __atomic_store_n(&lines->told, told, __ATOMIC_RELEASE);
    }
    traced_flush(&lines->out);
    __atomic_store_n(&lines->told, told, __ATOMIC_RELEASE);
    return told != first;
}

/* Whether main has ended by pthread_exit, and each other thread but this one has ended too. It is known on Linux alone. */
static inline int traced_is_alone(void) {
    char text[1024];
    int file = open("/proc/self/stat", O_RDONLY | O_CLOEXEC);
    ssize_t length = file < 0 ? 0 : read(file, text, sizeof text - 1);
    if (file >= 0)
        close(file);
    text[length > 0 ? length : 0] = 0;
    const char *at = strrchr(text, ')'); /* what follows is the state, and 17 items later how many threads there are */
    if (at == NULL || strncmp(at, ") Z", 3) != 0)
        return 0;
    for (int items = 0; items < 18 && at; items++)
        at = strchr(at + 1, ' ');
    return at != NULL && atoi(at) == 2;
}

static inline void traced_say_all(void) {
    for (struct traced_log *log = __atomic_load_n(&traced_first, __ATOMIC_ACQUIRE); log; log = log->next)
        if (log->is_told)
            traced_say_who(log);
}

/* The thread that writes: each some milliseconds, until the end of the program, or of the log. */
static inline void *traced_write_lines(void *unused) {
    struct traced_lines *lines = &traced_lines;
    uint64_t end = ~(uint64_t)0; /* what was drawn when the program ended */
    const char *why = NULL;
    int pause = 1, idle = 0, open_for = 0; /* milliseconds; the last, for which a slot that was drawn wasn't filled */
    while (why == NULL && lines->told < end) {
        if (end == ~(uint64_t)0 && __atomic_load_n(&lines->is_ending, __ATOMIC_ACQUIRE))
            end = __atomic_load_n(&lines->drawn, __ATOMIC_ACQUIRE);
        int says_who = __atomic_load_n(&lines->says_who, __ATOMIC_ACQUIRE);
        uint64_t drawn = __atomic_load_n(&lines->drawn, __ATOMIC_ACQUIRE);
        int wrote = traced_empty(lines), is_open = drawn > lines->told;
        if (says_who && (!is_open || lines->told >= end)) {
            __atomic_store_n(&lines->says_who, 0, __ATOMIC_RELEASE);
            traced_say_all();
        }
        pause = wrote ? 1 : pause < 16 ? 2 * pause : 16;
        idle = wrote || idle > 250 ? 0 : idle + pause;
        open_for = wrote || !is_open ? 0 : open_for + pause;
        if (lines->out.has_failed)
            why = lines->out.has_failed == EPIPE ? "its reader is gone" : strerror(lines->out.has_failed);
        else if (open_for > (end == ~(uint64_t)0 ? 10 : 1) * TRACED_PATIENCE)
            why = "a thread was stopped while it logged";
        else if (idle > 250 && traced_is_alone())
            break;
        else if (lines->told < end)
            poll(NULL, 0, pause);
    }
    if (why != NULL)
        traced_say(0, "the log ends: ", why);
    close(lines->out.file);
    __atomic_store_n(&lines->is_on, 0, __ATOMIC_RELEASE);
    if (why == NULL && lines->told < end)
        exit(0); /* as the last thread of a program does */
    return unused;
}

/* Has all written that was drawn. At a signal it doesn't wait for a reader that takes nothing. */
static inline void traced_end_lines(int is_signal) {
    uint64_t told = 0;
    __atomic_store_n(&traced_lines.is_ending, 1, __ATOMIC_RELEASE);
    for (int waits = 0; __atomic_load_n(&traced_lines.is_on, __ATOMIC_ACQUIRE); waits++) {
        uint64_t now = __atomic_load_n(&traced_lines.told, __ATOMIC_ACQUIRE);
        waits = now != told ? 0 : waits;
        if (is_signal && waits > 2 * TRACED_PATIENCE)
            return;
        told = now;
        poll(NULL, 0, 1);
    }
}

/* A forked child logs nothing. */
static inline void traced_child(void) {
    if (__atomic_exchange_n(&traced_lines.is_on, 0, __ATOMIC_ACQ_REL))
        close(traced_lines.out.file);
}

/* Starts a thread that gets no signal. */
static inline int traced_start(void *(*work)(void *)) {
    pthread_t thread;
    sigset_t all, old;
    sigfillset(&all);
    pthread_sigmask(SIG_SETMASK, &all, &old);
    int status = pthread_create(&thread, NULL, work, NULL);
    if (status == 0)
        pthread_detach(thread);
    pthread_sigmask(SIG_SETMASK, &old, NULL);
    return status;
}

/* Begins a log by lines, if the name asks for one. Whether it does. */
static inline int traced_begin_lines(const char *name) {
    struct traced_lines *lines = &traced_lines;
    struct stat is;
    size_t length = strlen(name);
    int is_number = strncmp(name, "fd:", 3) == 0 && length > 3 && strspn(name + 3, "0123456789") == length - 3;
    int number = is_number ? atoi(name + 3) : -1;
    int is_pipe = stat(name, &is) == 0 && S_ISFIFO(is.st_mode);
    if (!is_number && !is_pipe && (length < 6 || strcmp(name + length - 6, ".jsonl") != 0))
        return 0;
    lines->is_asked = 1;
    strncpy(traced_path, name, TRACED_PATH - 1);
    lines->out.file = is_number ? fcntl(number, F_DUPFD_CLOEXEC, 3) : open(name, O_WRONLY | O_CREAT | O_TRUNC | O_CLOEXEC, 0666);
    if (number > 2)
        close(number); /* else its reader wouldn't see the end of the log before that of the program */
    lines->slots = (struct traced_slot *)calloc(TRACED_SLOTS, sizeof *lines->slots);
    traced_print(&lines->out, "{\"version\":#}\n", (unsigned long)TRACED_VERSION);
    lines->is_on = lines->out.file >= 0 && lines->slots != NULL;
    if (!lines->is_on || traced_start(traced_write_lines) != 0) {
        lines->is_on = 0;
        traced_say(0, "the log can't be written", "");
    }
    pthread_atfork(NULL, NULL, traced_child);
    return 1;
}

/* ---- the beginning and the end of the program */

static inline void traced_write_all(int says_who, int by_force) {
    if (traced_lines.is_asked) {
        __atomic_store_n(&traced_lines.says_who, says_who, __ATOMIC_RELEASE);
        if (by_force)
            traced_end_lines(says_who);
        return;
    }
    for (struct traced_log *log = __atomic_load_n(&traced_first, __ATOMIC_ACQUIRE); log; log = log->next)
        if (__atomic_load_n(&log->state, __ATOMIC_ACQUIRE) != TRACED_FREE && traced_take(log, by_force)) {
            if (log->process == getpid()) /* a forked child writes no trace of its parent's barriers */
                traced_write(log, says_who);
            __atomic_store_n(&log->state, TRACED_LIVE, __ATOMIC_RELEASE);
        }
}

static inline void traced_end(void) {
    traced_write_all(0, 1);
}

static inline void traced_signal(int number) {
    traced_write_all(1, 1);
    signal(number, SIG_DFL);
    raise(number);
}

static inline void *traced_watch(void *unused) {
    while (nanosleep(&traced_after, &traced_after) != 0 && errno == EINTR)
        ;
    traced_write_all(1, 0);
    return unused;
}

static inline void traced_begin(void) {
    const char *name = getenv("PHASER_TRACE"), *after = getenv("PHASER_TRACE_AFTER");
    const int numbers[] = {SIGINT, SIGQUIT, SIGTERM};
    name = name ? name : "trace.json";
    int is_whole = !traced_begin_lines(name);
    if (is_whole && name[0] != '/' && getcwd(traced_path, TRACED_PATH) == NULL)
        traced_path[0] = 0;
    size_t length = name[0] == '/' ? 0 : strlen(traced_path);
    if (is_whole && length + strlen(name) + 2 <= TRACED_PATH) /* else the folder is no file, and that is said */
        strcpy(traced_path + length, length ? "/" : ""), strcat(traced_path, name);
    for (unsigned long number = 1; is_whole && (traced_remove(number) || number < 100); number++)
        ;
    atexit(traced_end);
    for (int at = 0; at < 3; at++) {
        struct sigaction old, now;
        memset(&now, 0, sizeof now);
        now.sa_handler = traced_signal;
        sigfillset(&now.sa_mask);
        if (sigaction(numbers[at], NULL, &old) == 0 && !(old.sa_flags & SA_SIGINFO) && old.sa_handler == SIG_DFL)
            sigaction(numbers[at], &now, NULL);
    }
    double seconds = after ? strtod(after, NULL) : 0;
    if (seconds > 0 && seconds < 1e9) {
        traced_after.tv_sec = (time_t)seconds;
        traced_after.tv_nsec = (long)(1e9 * (seconds - (double)traced_after.tv_sec));
        traced_start(traced_watch);
    }
}

static inline struct traced_log *traced_make_lines(struct traced_log *log, unsigned long number, unsigned long parties,
        int rule, uint64_t key, const char *untold) {
    if (log == NULL || parties > TRACED_AT_ONCE)
        untold = log ? "a phaser has room for 256 tasks" : "there is no memory for it";
    if (untold)
        traced_say(number, "it isn't logged: ", untold);
    if (log == NULL)
        return NULL;
    log->rule = rule, log->key = key, log->number = number;
    __atomic_store_n(&log->state, TRACED_LIVE, __ATOMIC_RELEASE);
    if (!untold)
        traced_draw(log, TRACED_MAKE, parties, 0);
    return log;
}

/* Where there is no memory for a log there is none. A log stays where it is, and serves another barrier later. */
static inline struct traced_log *traced_make(unsigned long parties, int rule, uint64_t key, const char *untold) {
    pthread_once(&traced_once, traced_begin);
    if (traced_lines.is_asked && !__atomic_load_n(&traced_lines.is_on, __ATOMIC_ACQUIRE))
        return NULL;
    struct traced_log *log = __atomic_load_n(&traced_first, __ATOMIC_ACQUIRE);
    for (int state = TRACED_FREE; log; log = log->next, state = TRACED_FREE)
        if (__atomic_compare_exchange_n(&log->state, &state, TRACED_TAKEN, 0, __ATOMIC_ACQUIRE, __ATOMIC_RELAXED))
            break;
    unsigned long number = __atomic_add_fetch(&traced_made, 1, __ATOMIC_RELAXED);
    if (log == NULL && (log = (struct traced_log *)calloc(1, sizeof *log)) != NULL) {
        log->state = TRACED_TAKEN;
        log->next = __atomic_load_n(&traced_first, __ATOMIC_RELAXED);
        while (!__atomic_compare_exchange_n(&traced_first, &log->next, log, 0, __ATOMIC_RELEASE, __ATOMIC_RELAXED))
            ;
    }
    if (traced_lines.is_asked)
        return traced_make_lines(log, number, parties, rule, key, untold);
    traced_remove(number);
    if (log == NULL) {
        traced_say(number, "no trace is written: there is no memory for it", "");
        return NULL;
    }
    if (parties > TRACED_PARTIES)
        untold = "a trace has room for 255 parties";
    log->parties = untold ? 0 : (unsigned)parties;
    log->rule = rule, log->key = key, log->number = number, log->process = getpid();
    __atomic_store_n(&log->drawn, 0, __ATOMIC_RELAXED);
    log->entries = (uint32_t *)(untold ? NULL : calloc(TRACED_EVENTS, sizeof *log->entries));
    log->untold = untold ? untold : log->entries ? NULL : "there is no memory for it";
    log->room = log->entries ? TRACED_EVENTS - 2 * log->parties - 2 : 0;
    __atomic_store_n(&log->state, TRACED_LIVE, __ATOMIC_RELEASE);
    return log;
}

/* Once the barrier itself is gone: calls that it let go may still draw, and are waited for. */
static inline void traced_close(struct traced_log *log) {
    int state = TRACED_FREE;
    if (log == NULL)
        return;
    if (traced_lines.is_asked) {
        traced_draw(log, TRACED_CLOSE, 0, 0);
        return;
    }
    for (int waits = 0; waits < 2 * TRACED_PATIENCE && __atomic_load_n(&log->drawn, __ATOMIC_ACQUIRE) > TRACED_TICKETS; waits++)
        waits < TRACED_PATIENCE ? sched_yield() : poll(NULL, 0, 1);
    if (!traced_take(log, 0))
        return;
    if (log->process == getpid())
        traced_write(log, 0);
    if (__atomic_load_n(&log->drawn, __ATOMIC_ACQUIRE) > TRACED_TICKETS)
        state = TRACED_LIVE; /* somebody still waits: it is written again at the end */
    else
        free(log->entries), log->entries = NULL, log->room = 0;
    __atomic_store_n(&log->state, state, __ATOMIC_RELEASE);
}
#endif

#if !defined(TRACED_BARRIER_H) && !defined(TRACED_LOG_ALONE)
#define TRACED_BARRIER_H

typedef struct {
    pthread_barrier_t real;
    struct traced_log *log;
} traced_barrier_t;

static inline int traced_barrier_init(traced_barrier_t *barrier, const pthread_barrierattr_t *how, unsigned parties) {
    int shared = PTHREAD_PROCESS_PRIVATE, status = pthread_barrier_init(&barrier->real, how, parties);
    if (how != NULL)
        pthread_barrierattr_getpshared(how, &shared);
    barrier->log = NULL;
    if (status == 0 && shared == PTHREAD_PROCESS_SHARED)
        traced_make(parties, TRACED_BY_THREADS, 0, "it is a barrier of several processes");
    else if (status == 0)
        barrier->log = traced_make(parties, TRACED_BY_THREADS, 0, NULL);
    return status;
}

static inline int traced_barrier_wait(traced_barrier_t *barrier) {
    struct traced_log *log = barrier->log; /* after the wait the barrier may be gone */
    uint64_t arrival = traced_draw(log, TRACED_ARRIVE, traced_who(), 1);
    int answer = pthread_barrier_wait(&barrier->real);
    traced_draw(log, TRACED_PASS, arrival, -1);
    return answer;
}

static inline int traced_barrier_destroy(traced_barrier_t *barrier) {
    struct traced_log *log = barrier->log;
    int status = pthread_barrier_destroy(&barrier->real);
    if (status == 0)
        traced_close(log);
    return status;
}

/* From here on the program's calls are these. One in parentheses, as (pthread_barrier_wait)(..), is that of pthreads. */
#define pthread_barrier_t traced_barrier_t
#define pthread_barrier_init(barrier, how, parties) traced_barrier_init(barrier, how, parties)
#define pthread_barrier_wait(barrier) traced_barrier_wait(barrier)
#define pthread_barrier_destroy(barrier) traced_barrier_destroy(barrier)

#ifdef _OPENMP
#include <omp.h>

/* The log of this thread's team; a team of one has none. Regions of one size that the same thread begins, one after the
   other, share one, and a thread of the same number is the same task in each. */
static inline struct traced_log *traced_team(void) {
    static __thread uint64_t last_key;
    static __thread struct traced_log *last;
    int level = omp_get_level(), size = omp_get_num_threads();
    uint64_t key = (uint64_t)size;
    for (int above = 1; above < level; above++)
        key = level > 7 ? 0 : key * 256 + (uint64_t)omp_get_ancestor_thread_num(above) + 1;
    if (size == 1)
        return NULL;
    if (last != NULL && last_key == key)
        return last;
#pragma omp critical(traced_team)
    {
        for (last = __atomic_load_n(&traced_first, __ATOMIC_ACQUIRE); last; last = last->next)
            if (last->rule == TRACED_BY_NUMBER && last->key == key)
                break;
        const char *untold = level > 7 ? "regions are nested more than 7 deep"
            : omp_get_cancellation() ? "where regions may be cancelled, a barrier may be left" : NULL;
        if (last == NULL)
            last = traced_make((unsigned long)size, TRACED_BY_NUMBER, key, untold);
    }
    last_key = key;
    return last;
}

static inline void traced_omp_barrier(void) {
    struct traced_log *log = traced_team();
    uint64_t arrival = traced_draw(log, TRACED_ARRIVE, (uint64_t)omp_get_thread_num(), 1);
#pragma omp barrier
    traced_draw(log, TRACED_PASS, arrival, -1);
}
#endif
#endif
