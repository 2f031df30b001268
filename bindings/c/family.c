/* Four processes over pipes, whose reports go to standard output: family | recline run. A message goes round them three times, and each takes a
 * checkpoint after each receipt. Then b, c and d retire into a. */
#include "process.h"
#include <stdio.h>
#include <stdlib.h>
#include <string.h>
#include <unistd.h>

static void must(int answer) { if (answer < 0) exit(fprintf(stderr, "family: fault %d\n", answer)); }
static void tell(int to, const char *text) { if (dprintf(to, "%s\n", text) < 0) exit(1); }
static char *hear(FILE *from) {
    static char text[RECLINE_ROOM];
    return fgets(text, sizeof text, from) ? strtok(text, "\n") : (exit(1), NULL);
}
static void pass_on(Process *p, int from, int to) {
    FILE *messages = fdopen(from, "r");
    for (int round = 0; round < 3; round++) {
        must(process_receive(p, hear(messages)));
        must(process_check(p)), tell(STDOUT_FILENO, p->line);
        must(process_send(p)), tell(to, p->handed);
    }
}
int main(void) {
    Process p = {0};
    int ring[5][2]; /* ring[k] leads to process k, and the last one brings retirements to a */
    for (int k = 0; k < 5; k++) if (pipe(ring[k])) return 1;
    must(process_root(&p, "a")), tell(STDOUT_FILENO, p.line);
    for (int k = 1; k < 4; k++) {
        must(process_fork(&p, (char[]){'a' + k, 0})), tell(STDOUT_FILENO, p.line);
        if (fork()) continue;
        must(process_born(&p, p.handed)), pass_on(&p, ring[k][0], ring[(k + 1) % 4][1]);
        must(process_retire(&p, "a")), tell(STDOUT_FILENO, p.line), tell(ring[4][1], p.handed);
        return 0;
    }
    must(process_send(&p)), tell(ring[1][1], p.handed), pass_on(&p, ring[0][0], ring[1][1]);
    FILE *retirements = fdopen(ring[4][0], "r");
    for (int k = 1; k < 4; k++) must(process_absorb(&p, hear(retirements))), tell(STDOUT_FILENO, p.line);
    return 0;
}
