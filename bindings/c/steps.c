/* Takes the steps that standard input says, and writes the line of each that reports; of one that is refused "FAULT n". tests/suites/bindings says
 * what the steps are. */
#define _POSIX_C_SOURCE 200809L
#include "process.h"
#include <stdio.h>
#include <stdlib.h>
#include <string.h>

/* Processes by their names, and what was handed out or kept by its name, of one family. */
enum { MOST = 4096, WORDS = 4 };
static struct { char *name; Process process; } processes[MOST];
static struct { char *name, *text; } texts[MOST];
static int born, put;

static Process *process_of(const char *name) {
    int k = 0;
    while (k < born && strcmp(processes[k].name, name)) k++;
    if (k == MOST) exit(2);
    if (k == born) processes[born++].name = strdup(name);
    return &processes[k].process;
}

static const char *text_of(const char *name) {
    for (int k = put - 1; k >= 0; k--) if (!strcmp(texts[k].name, name)) return texts[k].text;
    return "";
}

static void keep(const char *name, const char *text) {
    if (put == MOST) exit(2);
    texts[put].name = strdup(name);
    texts[put++].text = strdup(text);
}

static void forget_all(void) {
    while (born) free(processes[--born].name), process_free(&processes[born].process);
    while (put) free(texts[--put].name), free(texts[put].text);
}

static int step(char *words[WORDS]) {
    const char *kind = words[0], *object = words[2] ? words[2] : "", *more = words[3];
    Process *p;
    int answer;
    if (!strcmp(kind, "root")) forget_all();
    p = process_of(words[1]);
    if (!strcmp(kind, "root")) return process_root(p, words[1]);
    if (!strcmp(kind, "work")) return process_work(p);
    if (!strcmp(kind, "check")) return process_check(p);
    if (!strcmp(kind, "present")) return process_present(p);
    if (!strcmp(kind, "receive")) return process_receive(p, text_of(object));
    if (!strcmp(kind, "absorb")) return process_absorb(p, text_of(object));
    if (!strcmp(kind, "absorb_kept")) return process_absorb_kept(p, text_of(object));
    if (!strcmp(kind, "keep")) return keep(object, p->state), process_restore(p, text_of(object));
    if (!strcmp(kind, "return_to")) return process_return_to(p, text_of(object), (uint32_t)atoi(more));
    if (!strcmp(kind, "return")) return process_restore(p, text_of(object)) ? RECLINE_MEMORY : process_returned(p, (uint32_t)atoi(more));
    if (!strcmp(kind, "send")) {
        if (!(answer = process_send(p))) keep(object, p->handed);
        return answer;
    }
    if (!strcmp(kind, "again")) {
        if (!(answer = process_again(p, text_of(object)))) keep(object, p->handed);
        return answer;
    }
    if (!strcmp(kind, "retire")) {
        if (!(answer = process_retire(p, object))) keep(words[1], p->handed);
        return answer;
    }
    if (!strcmp(kind, "fork")) {
        answer = more ? process_fork_small(p, object, (uint8_t)atoi(more)) : process_fork(p, object);
        if (!answer) process_born(process_of(object), p->handed);
        return answer;
    }
    exit(2);
}

int main(void) {
    char line[512];
    while (fgets(line, sizeof line, stdin)) {
        char *words[WORDS] = {0};
        int n = 0, answer;
        for (char *word = strtok(line, " \n"); word && n < WORDS; word = strtok(NULL, " \n")) words[n++] = word;
        if (n < 2) return 2;
        answer = step(words);
        if (answer < 0) printf("FAULT %d\n", answer);
        else if (process_of(words[1])->line) puts(process_of(words[1])->line);
    }
    forget_all();
    return 0;
}
