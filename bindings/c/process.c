/* The calls of process.h. */
#include "process.h"
#include <stdlib.h>
#include <string.h>

/* The texts that a call gives, in this order. */
enum { STATE = 1, LINE = 2, HANDED = 4 };

/* Cuts the next of the texts off, where it is one that the call gives. */
static char *cut(char **rest, int is_given) {
    char *text = *rest;
    if (!is_given) return NULL;
    *rest = strchr(text, '\n');
    *(*rest)++ = '\0';
    return text;
}

/* The process goes on with the n bytes of these texts, which are its own from now on. */
static int go_on(Process *process, char *texts, int64_t n, int given) {
    char *rest = texts;
    if (n < 0) {
        free(texts);
        return (int)n;
    }
    texts[n] = '\0';
    free(process->texts);
    process->texts = texts;
    process->state = cut(&rest, given & STATE);
    process->line = cut(&rest, given & LINE);
    process->handed = cut(&rest, given & HANDED);
    return 0;
}

/* Calls with room for the texts, and once more with as much as is wanted. What is handed in may stand in the old texts. */
#define CALL(given, call, ...)                                            \
    size_t room = 1024;                                                   \
    for (;;) {                                                            \
        char *texts = malloc(room + 1);                                   \
        int64_t n = texts ? call(__VA_ARGS__, texts, room) : RECLINE_MEMORY; \
        if (n <= (int64_t)room) return go_on(process, texts, n, given);   \
        free(texts);                                                      \
        room = (size_t)n;                                                 \
    }

/* A text and its length; the text of a process that has none is that of no process. */
#define TEXT(text) (text) ? (text) : "", (text) ? strlen(text) : 0

int process_root(Process *process, const char *name) { CALL(STATE | LINE, recline_root, TEXT(name)) }
int process_born(Process *process, const char *start) { CALL(STATE, recline_born, TEXT(start)) }
int process_work(Process *process) { CALL(STATE, recline_work, TEXT(process->state)) }
int process_check(Process *process) { CALL(STATE | LINE, recline_check, TEXT(process->state)) }
int process_present(Process *process) { CALL(STATE | LINE, recline_present, TEXT(process->state)) }
int process_send(Process *process) { CALL(STATE | HANDED, recline_send, TEXT(process->state)) }
int process_again(Process *process, const char *message) { CALL(STATE | HANDED, recline_again, TEXT(process->state), TEXT(message)) }
int process_receive(Process *process, const char *message) { CALL(STATE, recline_receive, TEXT(process->state), TEXT(message)) }
int process_fork(Process *process, const char *child) { CALL(STATE | LINE | HANDED, recline_fork, TEXT(process->state), TEXT(child)) }
int process_fork_small(Process *process, const char *child, uint8_t depth) {
    CALL(STATE | LINE | HANDED, recline_fork_small, TEXT(process->state), TEXT(child), depth)
}
int process_retire(Process *process, const char *target) { CALL(LINE | HANDED, recline_retire, TEXT(process->state), TEXT(target)) }
int process_absorb(Process *process, const char *retirement) { CALL(STATE | LINE, recline_absorb, TEXT(process->state), TEXT(retirement)) }
int process_absorb_kept(Process *process, const char *retirement) { CALL(STATE | LINE, recline_absorb_kept, TEXT(process->state), TEXT(retirement)) }
int process_return_to(Process *process, const char *kept, uint32_t epoch) {
    CALL(STATE, recline_return_to, TEXT(process->state), TEXT(kept), epoch)
}
int process_returned(Process *process, uint32_t epoch) { CALL(STATE, recline_returned, TEXT(process->state), epoch) }

/* The state is read at the next call. It is one line. */
int process_restore(Process *process, const char *state) {
    size_t size = state ? strlen(state) : 0;
    char *texts;
    if (!state || strchr(state, '\n')) return RECLINE_NO_STATE;
    texts = malloc(size + 2);
    if (!texts) return RECLINE_MEMORY;
    memcpy(texts, state, size);
    texts[size] = '\n';
    return go_on(process, texts, (int64_t)size + 1, STATE);
}

void process_free(Process *process) {
    free(process->texts);
    memset(process, 0, sizeof *process);
}
