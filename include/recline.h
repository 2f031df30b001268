/* A process of a computation that recline coordinates: its clock, its reports, and what it hands to others.
 *
 * A process, a message, the start of a child and a retirement are texts of one line, without LF: "process a 0 2 (1,0);(1,1,0)".
 * docs/FORMATS.md of recline has their grammar, and docs/CLIENTS.md a client. Whoever calls keeps the state of its process as such a text.
 * Each call takes the state and what was handed to the process, and gives texts, each ended by LF, in this order: the new state, the line of
 * the report, and what is to be handed to others. So the state that was kept with a checkpoint is still there to be returned to.
 *
 * The answer of each call:
 *   n >= 0   The texts have n bytes in all. Where n <= out_len they stand in the first n bytes of out, and its rest is as it was. Where
 *            n > out_len nothing was written: call again with room for n bytes, until it is enough. That call gives
 *            the same texts, or RECLINE_MEMORY. Of recline_fork_small it is left open which of the deepest leaves it cuts, so n may differ then.
 *   n < 0    A fault of recline_fault. Nothing was written, and the process stays as it was.
 *
 * No pointer is null, also where the length is 0. out shares no byte with what is handed in. Nothing ends with a NUL. Nothing is kept between
 * calls, so any threads may call at once, each with an out of its own. What a call takes of malloc it has freed when it answers. It is not to be
 * called from a signal handler, nor from the forked child of a process with threads before that has called exec.
 */
#ifndef RECLINE_H
#define RECLINE_H

#include <stddef.h>
#include <stdint.h>

#ifdef __cplusplus
extern "C" {
#endif

/* Why a call is refused. Where several apply the first of this list is answered, but for RECLINE_MEMORY, which may come in place of any. */
enum recline_fault {
    RECLINE_MEMORY = -1,        /* memory is wanting: try again */
    RECLINE_NO_STATE = -2,      /* the state is the text of no process */
    RECLINE_NO_TEXT = -3,       /* what was handed over is the text of no message, start, retirement or process, whichever the call takes */
    RECLINE_NO_NAME = -4,       /* the bytes are no name: 1 to 32 of a to z, 0 to 9, _ and -, the first a letter */
    RECLINE_SELF_TARGET = -5,   /* the process is to retire into itself */
    RECLINE_NAME_TAKEN = -6,    /* the child is to have the name of the process */
    RECLINE_NOT_WAITING = -7,   /* the retirement is into another process, or this one's own */
    RECLINE_OLDER = -8,         /* it is of an older epoch, so it may be undone: drop a message; recline_absorb_kept takes a retirement that was kept */
    RECLINE_NEWER = -9,         /* it is of a newer epoch: keep it until this process has returned, too */
    RECLINE_WORN = -10,         /* the process made 4,294,967,295 reports */
    RECLINE_NOTHING_OWNED = -11, /* the id owns nothing; no process that began as the root or from a start of a fork has such an id */
    RECLINE_CLOCK_FULL = -12,   /* a value would be greater than 4,294,967,295 */
    RECLINE_TOO_DEEP = -13,     /* an id would be deeper than 40, or there is no leaf of the depth that is asked for */
    RECLINE_OVERLAP = -14,      /* the process and the retired one own a point in common: one of them is not what it was */
    RECLINE_OTHER_PROCESS = -15, /* the state that was kept is another process's */
    RECLINE_NOT_KNOWN = -16     /* the message tells what the process does not know: it did not send it, or that is undone */
};

/* Room that is enough as long as no line is longer than the 8,192 bytes that recline takes. */
#define RECLINE_ROOM 32768

/* The root of a computation begins. Gives: its state, and the line "BEGIN name". */
int64_t recline_root(const char *name, size_t name_len, char *out, size_t out_len);

/* A child begins with the start that its parent handed over; one child is born of a start. Gives: its state. */
int64_t recline_born(const char *start, size_t start_len, char *out, size_t out_len);

/* The process works on, which is not reported, and may be left out. Gives: the new state. */
int64_t recline_work(const char *state, size_t state_len, char *out, size_t out_len);

/* A checkpoint. Gives: the new state, which is kept with the checkpoint, and the line "CHECK ..", reported once that is on disk. */
int64_t recline_check(const char *state, size_t state_len, char *out, size_t out_len);

/* The present state is told. Gives: the new state, and the line "PRESENT ..". The next step has to be one that is reported. */
int64_t recline_present(const char *state, size_t state_len, char *out, size_t out_len);

/* A message is sent. Gives: the new state, and the text that goes with the message. */
int64_t recline_send(const char *state, size_t state_len, char *out, size_t out_len);

/* A message that the process sent, or that one sent which it absorbed, is handed over once more, by the text that went with it: behind a settlement,
 * where it was sent by the sender's position and not received by that of the receiver. Gives: the state, which stays as it is, and the text that goes
 * with the message now, of the epoch of the process. RECLINE_NEWER: it is of a newer epoch than the process. RECLINE_NOT_KNOWN: it tells what the
 * process does not know, as where its sending is undone; where the process went on, or received it, and so knows as much, that does not show. */
int64_t recline_again(const char *state, size_t state_len, const char *message, size_t message_len, char *out, size_t out_len);

/* A message of this epoch is received, by the text that came with it. Gives: the new state. RECLINE_OLDER: drop it; where it is not undone it is
 * handed over once more, by recline_again. RECLINE_NEWER: it waits until this process has returned. */
int64_t recline_receive(const char *state, size_t state_len, const char *message, size_t message_len, char *out, size_t out_len);

/* A child is made of a name that no other process has or had. Gives: the new state, the line "FORK ..", and the start of the child, to be
 * handed over once the line was answered OK. Each gets half of the id: the 41st fork of a root that takes nothing back is RECLINE_TOO_DEEP. */
int64_t recline_fork(const char *state, size_t state_len, const char *child, size_t child_len, char *out, size_t out_len);

/* The same, but the child gets a leaf of this depth, of 1 to 40, and the process keeps the rest: so at most 2^depth - 1 children may live at
 * once, and ids get no deeper, as long as these retire into this process. */
int64_t recline_fork_small(const char *state, size_t state_len, const char *child, size_t child_len, uint8_t depth, char *out, size_t out_len);

/* The process ends, and hands what it is to the target. Gives: the line "RETIRE ..", and the retirement, for the target. Where the line is answered
 * NO 10 the process has not ended: call once more, with the same state and another target, and the line has the same number and stamp. */
int64_t recline_retire(const char *state, size_t state_len, const char *target, size_t target_len, char *out, size_t out_len);

/* A retirement into this process, of its epoch, is absorbed, once. Gives: the new state, and the line "ABSORB ..". */
int64_t recline_absorb(const char *state, size_t state_len, const char *retirement, size_t retirement_len, char *out, size_t out_len);

/* The same for one of this epoch or an older one, of a process that is at "retired" in the line of each settlement since. */
int64_t recline_absorb_kept(const char *state, size_t state_len, const char *retirement, size_t retirement_len, char *out, size_t out_len);

/* The process returns from the state that it has now to the one that was kept at its position in the line of the settlement of this epoch.
 * Gives: the new state, of that epoch. RECLINE_OLDER: one of the two states has this epoch, or a later one. */
int64_t recline_return_to(const char *state, size_t state_len, const char *kept, size_t kept_len, uint32_t epoch, char *out, size_t out_len);

/* The same for a process that has no state any more, as it crashed, or retired and that was undone: the state is the one that was kept. Whether
 * it had returned to this settlement and gone on by then, or to a later one, is the caller's to know. RECLINE_OLDER: the state has this epoch, or
 * a later one. */
int64_t recline_returned(const char *state, size_t state_len, uint32_t epoch, char *out, size_t out_len);

#ifdef __cplusplus
}
#endif

#endif
