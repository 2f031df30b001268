/* Tests the calls of recline.h, and those of process.h over them. Prints what fails, and "N passed, M failed". */
#include "process.h"
#include <stdio.h>
#include <stdlib.h>
#include <string.h>

static int passed, failed;

static void expect(const char *what, int holds) {
    if (holds) {
        passed++;
    } else {
        failed++;
        printf("bindings/c: %s FAILED\n", what);
    }
}

static void expect_text(const char *what, const char *text, const char *wanted) {
    expect(what, wanted ? text && !strcmp(text, wanted) : !text);
    if (text && wanted && strcmp(text, wanted)) printf("  %s\n  %s was wanted\n", text, wanted);
}

/* What stands in docs/STAMPING.md: two processes, two messages, and an end. */
static void try_example(void) {
    Process a = {0}, b = {0};
    char kept[RECLINE_ROOM], kept_b[RECLINE_ROOM];
    expect("a begins", !process_root(&a, "a"));
    expect_text("BEGIN", a.line, "BEGIN a");
    expect_text("the state of a root", a.state, "process a 0 0 1;0");
    expect("a forks b", !process_fork(&a, "b") && !process_born(&b, a.handed));
    expect_text("FORK", a.line, "FORK a 1 1;1 (1,0) b (0,1)");
    expect_text("the start of b", a.handed, "start b 0 (0,1);1");
    expect_text("the state of b", b.state, "process b 0 0 (0,1);1");
    strcpy(kept_b, b.state);
    expect("a checks", !process_check(&a));
    expect_text("CHECK", a.line, "CHECK a 2 (1,0);(1,1,0)");
    strcpy(kept, a.state);
    expect("b sends, and a receives", !process_send(&b) && !process_receive(&a, b.handed));
    expect_text("a message", b.handed, "message 0 (1,0,1)");
    expect_text("no line of a receipt", a.line, NULL);
    expect("a checks again", !process_check(&a));
    expect_text("the second CHECK", a.line, "CHECK a 3 (1,0);(2,2,0)");
    expect("a sends, and b receives", !process_send(&a) && !process_receive(&b, a.handed));
    expect("b checks", !process_check(&b));
    expect_text("CHECK of b", b.line, "CHECK b 1 (0,1);(5,0,1)");
    expect("b retires into a", !process_retire(&b, "a"));
    expect_text("RETIRE", b.line, "RETIRE b 2 (0,1);(5,0,2) a");
    expect_text("a retirement", b.handed, "retirement b 0 a (0,1);(5,0,2)");
    expect_text("no state of a process that ended", b.state, NULL);
    expect("a process that ended makes no step", process_check(&b) == RECLINE_NO_STATE);
    expect("a absorbs b", !process_absorb(&a, b.handed));
    expect_text("ABSORB", a.line, "ABSORB a 4 1;(6,0,1) b");
    expect("it absorbs it once", process_absorb(&a, b.handed) == RECLINE_OVERLAP);
    expect_text("what is refused changes nothing", a.line, "ABSORB a 4 1;(6,0,1) b");
    expect("a does not return to a state of b", process_return_to(&a, kept_b, 1) == RECLINE_OTHER_PROCESS);
    expect_text("what is refused changes no state", a.state, "process a 0 4 1;(6,0,1)");
    expect("a returns to its first checkpoint", !process_return_to(&a, kept, 1));
    expect_text("the state of a process that returned", a.state, "process a 1 2 (1,0);(1,1,0)");
    expect_text("no line of a return", a.line, NULL);
    expect("it returns once", process_return_to(&a, kept, 1) == RECLINE_OLDER);
    expect_text("it stays as it returned", a.state, "process a 1 2 (1,0);(1,1,0)");
    expect("b ended, and has no live state", process_return_to(&b, kept_b, 1) == RECLINE_NO_STATE);
    expect("b returns to its birth", !process_restore(&b, kept_b) && !process_returned(&b, 1));
    expect_text("the state of b that returned", b.state, "process b 1 0 (0,1);1");
    expect("a hands over once more what it sent before its position", !process_again(&a, "message 0 (1,1,0)"));
    expect_text("the message of the new epoch", a.handed, "message 1 (1,1,0)");
    expect_text("a hand-over is no step", a.state, "process a 1 2 (1,0);(1,1,0)");
    expect("a message that it sent behind its position", process_again(&a, "message 0 (2,3,0)") == RECLINE_NOT_KNOWN);
    expect_text("what is refused hands over nothing else", a.handed, "message 1 (1,1,0)");
    expect("a checks behind the settlement", !process_check(&a));
    expect_text("CHECK with a mark", a.line, "CHECK@1 a 3 (1,0);(1,2,0)");
    expect("a tells its present state", !process_present(&a) && !strncmp(a.line, "PRESENT@1 a 4 ", 14));
    expect("a works", !process_work(&a) && !a.line);
    process_free(&a);
    process_free(&b);
}

/* A state that is restored is one line. */
static void try_restore(void) {
    Process a = {0};
    expect("a state", !process_restore(&a, "process a 0 0 1;0"));
    expect("no state at all", process_restore(&a, NULL) == RECLINE_NO_STATE);
    expect("a state with a line behind it", process_restore(&a, "process a 0 1 1;1\nCHECK a 1 1;1") == RECLINE_NO_STATE);
    expect("a state with its LF", process_restore(&a, "process a 0 1 1;1\n") == RECLINE_NO_STATE);
    expect_text("what is refused changes nothing", a.state, "process a 0 0 1;0");
    expect("a text of no process is restored", !process_restore(&a, "process a"));
    expect("and shows at the next call", process_work(&a) == RECLINE_NO_STATE);
    process_free(&a);
}

/* A process whose retirement was refused retires anew, from the state that it had: with the same number and stamp, into another target. */
static void try_other_target(void) {
    Process a = {0};
    expect("a process", !process_restore(&a, "process a 0 1 (1,0);1"));
    expect("it retires", !process_retire(&a, "b"));
    expect_text("RETIRE", a.line, "RETIRE a 2 (1,0);(1,1,0) b");
    expect("its state was kept", !process_restore(&a, "process a 0 1 (1,0);1"));
    expect("it retires into another one", !process_retire(&a, "c"));
    expect_text("RETIRE with another target", a.line, "RETIRE a 2 (1,0);(1,1,0) c");
    expect_text("the retirement for that", a.handed, "retirement a 0 c (1,0);(1,1,0)");
    process_free(&a);
}

static int64_t call(int64_t (*one)(const char *, size_t, const char *, size_t, char *, size_t), const char *state, const char *handed) {
    char out[RECLINE_ROOM];
    return one(state, strlen(state), handed, strlen(handed), out, sizeof out);
}

static int64_t return_to(const char *state, const char *kept, uint32_t epoch) {
    char out[RECLINE_ROOM];
    return recline_return_to(state, strlen(state), kept, strlen(kept), epoch, out, sizeof out);
}

static void try_faults(void) {
    static const char a[] = "process a 1 1 (1,0);1", full[] = "process a 0 0 1;4294967295", worn[] = "process a 0 4294967295 1;0";
    char out[64], long_name[] = "abcdefghijklmnopqrstuvwxyz0123456";
    expect("a name of 33 bytes", recline_root(long_name, 33, out, sizeof out) == RECLINE_NO_NAME);
    expect("a name of 32 bytes", recline_root(long_name, 32, out, 0) == 18 + 2 * 32 + 6);
    expect("a capital letter", recline_root("A", 1, out, sizeof out) == RECLINE_NO_NAME);
    expect("no name at all", recline_root("", 0, out, sizeof out) == RECLINE_NO_NAME);
    expect("a state with its LF", recline_work("process a 0 0 1;0\n", 18, out, sizeof out) == RECLINE_NO_STATE);
    expect("a state with a zero in front of a number", recline_work("process a 00 0 1;0", 18, out, sizeof out) == RECLINE_NO_STATE);
    expect("a state that is not in normal form", recline_work("process a 0 0 (1,1);0", 21, out, sizeof out) == RECLINE_NO_STATE);
    expect("the state of a message", recline_work("message 0 1", 11, out, sizeof out) == RECLINE_NO_STATE);
    expect("a start that is none", recline_born(a, strlen(a), out, sizeof out) == RECLINE_NO_TEXT);
    expect("a message that is none", call(recline_receive, a, "message 1 ") == RECLINE_NO_TEXT);
    expect("a retirement that is none", call(recline_absorb, a, a) == RECLINE_NO_TEXT);
    expect("of two faults the first", call(recline_receive, "", "") == RECLINE_NO_STATE);
    expect("a child without a name", call(recline_fork, a, "B") == RECLINE_NO_NAME);
    expect("a target without a name", call(recline_retire, a, "") == RECLINE_NO_NAME);
    expect("a retirement into itself", call(recline_retire, a, "a") == RECLINE_SELF_TARGET);
    expect("a child of its own name", call(recline_fork, a, "a") == RECLINE_NAME_TAKEN);
    expect("a retirement into another one", call(recline_absorb, a, "retirement b 1 c (0,1);2") == RECLINE_NOT_WAITING);
    expect("a retirement into itself that is absorbed", call(recline_absorb, a, "retirement a 1 a (0,1);2") == RECLINE_NOT_WAITING);
    expect("one that was kept", call(recline_absorb_kept, a, "retirement a 0 a (0,1);2") == RECLINE_NOT_WAITING);
    expect("an older message", call(recline_receive, a, "message 0 9") == RECLINE_OLDER);
    expect("a newer message", call(recline_receive, a, "message 2 9") == RECLINE_NEWER);
    expect("a message once more", call(recline_again, a, "message 0 1") == 22 + 12);
    expect("one of this epoch", call(recline_again, a, "message 1 0") == 22 + 12);
    expect("one of a newer epoch", call(recline_again, a, "message 2 1") == RECLINE_NEWER);
    expect("one that it does not know", call(recline_again, a, "message 0 (1,0,1)") == RECLINE_NOT_KNOWN);
    expect("one of a newer epoch that it does not know", call(recline_again, a, "message 2 9") == RECLINE_NEWER);
    expect("what is no message", call(recline_again, a, "message 0 ") == RECLINE_NO_TEXT);
    expect("of no process", call(recline_again, "", "message 0 1") == RECLINE_NO_STATE);
    expect("an older retirement", call(recline_absorb, a, "retirement b 0 a (0,1);2") == RECLINE_OLDER);
    expect("a newer retirement", call(recline_absorb, a, "retirement b 2 a (0,1);2") == RECLINE_NEWER);
    expect("an older retirement that was kept", call(recline_absorb_kept, a, "retirement b 0 a (0,1);2") > 0);
    expect("a newer retirement that was kept", call(recline_absorb_kept, a, "retirement b 2 a (0,1);2") == RECLINE_NEWER);
    expect("no number left", recline_check(worn, strlen(worn), out, sizeof out) == RECLINE_WORN);
    expect("nothing owned", recline_work("process a 0 0 0;1", 17, out, sizeof out) == RECLINE_NOTHING_OWNED);
    expect("the clock is full", recline_send(full, strlen(full), out, sizeof out) == RECLINE_CLOCK_FULL);
    expect("a leaf deeper than 40", recline_fork_small(a, strlen(a), "b", 1, 41, out, sizeof out) == RECLINE_TOO_DEEP);
    expect("the only leaf", recline_fork_small(a, strlen(a), "b", 1, 1, out, sizeof out) == RECLINE_TOO_DEEP);
    expect("a point in common", call(recline_absorb, a, "retirement b 1 a (1,0);2") == RECLINE_OVERLAP);
    expect("the same epoch once more", recline_returned(a, strlen(a), 1, out, sizeof out) == RECLINE_OLDER);
    expect("a return", return_to(a, "process a 0 7 1;0", 2) == 18);
    expect("a return to a state of the same epoch", return_to(a, "process a 1 0 1;0", 2) == 18);
    expect("a return of no process", return_to("process a", "process a", 2) == RECLINE_NO_STATE);
    expect("a return to no process", return_to(a, "message 0 1", 2) == RECLINE_NO_TEXT);
    expect("the epoch of the live state", return_to(a, "process a 0 0 1;0", 1) == RECLINE_OLDER);
    expect("an epoch before that of the live state", return_to("process a 3 1 1;0", "process a 0 0 1;0", 2) == RECLINE_OLDER);
    expect("the epoch of the state that was kept", return_to("process a 0 0 1;0", a, 1) == RECLINE_OLDER);
    expect("an older epoch of another process", return_to(a, "process b 0 0 1;0", 1) == RECLINE_OLDER);
    expect("another process", return_to(a, "process b 0 0 1;0", 2) == RECLINE_OTHER_PROCESS);
    expect("a name that is longer", return_to(a, "process ab 0 0 1;0", 2) == RECLINE_OTHER_PROCESS);
}

/* Room for no byte too few, and not one byte more is written. */
static void try_room(void) {
    static const char state[] = "process a 0 0 1;0", wanted[] = "process a 0 1 1;1\nCHECK a 1 1;1\n";
    const int64_t size = (int64_t)strlen(wanted);
    char out[64];
    for (size_t room = 0; room < sizeof out; room++) {
        memset(out, '#', sizeof out);
        expect("the size", recline_check(state, strlen(state), out, room) == size);
        size_t written = room >= (size_t)size ? (size_t)size : 0;
        expect("the texts", !memcmp(out, wanted, written));
        expect("the rest", strspn(out + written, "#") >= sizeof out - written);
    }
    memset(out, '#', sizeof out);
    expect("a fault", recline_check(state, 3, out, sizeof out) == RECLINE_NO_STATE && out[0] == '#' && !memcmp(out, out + 1, sizeof out - 1));
}

int main(void) {
    try_example();
    try_restore();
    try_other_target();
    try_faults();
    try_room();
    printf("%d passed, %d failed\n", passed, failed);
    return failed != 0;
}
