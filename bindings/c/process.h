/* A process in C: recline.h with texts that end with NUL, in memory that grows as they need.
 *
 *     Process a = {0};
 *     process_root(&a, "a");      a.line is "BEGIN a"
 *     process_send(&a);           a.handed is what goes with the message
 *
 * Each call answers 0, and then state is the new state, line the line of the report, and handed what is to be handed to others, where the call
 * gives these, and else null. They stay until the next call. Or it answers a fault of recline_fault, and everything stays as it was.
 * A process is restored by process_restore from a state that was kept, which is one line, and let go by process_free. Behind a settlement it
 * returns by process_return_to, or, where it crashed and has no state any more, by process_restore and process_returned; and a message that is in
 * flight then is handed over once more by process_again.
 */
#ifndef RECLINE_PROCESS_H
#define RECLINE_PROCESS_H

#include "recline.h"

#ifdef __cplusplus
extern "C" {
#endif

typedef struct {
    char *state, *line, *handed;
    char *texts; /* where these stand */
} Process;

int process_restore(Process *process, const char *state);
int process_root(Process *process, const char *name);
int process_born(Process *process, const char *start);
int process_work(Process *process);
int process_check(Process *process);
int process_present(Process *process);
int process_send(Process *process);
int process_again(Process *process, const char *message);
int process_receive(Process *process, const char *message);
int process_fork(Process *process, const char *child);
int process_fork_small(Process *process, const char *child, uint8_t depth);
int process_retire(Process *process, const char *target);
int process_absorb(Process *process, const char *retirement);
int process_absorb_kept(Process *process, const char *retirement);
int process_return_to(Process *process, const char *kept, uint32_t epoch);
int process_returned(Process *process, uint32_t epoch);
void process_free(Process *process);

#ifdef __cplusplus
}
#endif

#endif
