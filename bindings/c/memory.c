/* Refuses memory to the calls of recline.h: the n-th request alone, and all from the n-th on, for n = 1, 2 and on, until a call meets no refusal.
 * It is linked with -Wl,--wrap=malloc,--wrap=realloc,--wrap=free, which leads the requests of the library and of process.c here. Prints what fails,
 * and "N passed, M failed"; each run counts once. */
#include "process.h"
#include <stdio.h>
#include <stdlib.h>
#include <string.h>

/* The names that the linker gives. */
void *__real_malloc(size_t size);
void __real_free(void *bytes);
void *__wrap_malloc(size_t size);
void *__wrap_realloc(void *bytes, size_t size);
void __wrap_free(void *bytes);

/* The blocks that are not freed, and the requests, which are counted from 1. Those from first to last are refused. */
enum { MOST = 1024 };
static struct { void *bytes; size_t size; } blocks[MOST];
static int left, misused;
static long requests, first, last;

static int is_refused(void) {
    requests++;
    return first <= requests && requests <= last;
}

/* What is in a new block is not what anybody would wish for, nor what is in one that was freed. */
static void *hand_out(size_t size) {
    void *bytes = left < MOST ? __real_malloc(size) : NULL;
    if (!bytes) exit(2);
    blocks[left].bytes = memset(bytes, 0xA5, size);
    blocks[left++].size = size;
    return bytes;
}

static int place_of(const void *bytes) {
    int k = left - 1;
    while (k >= 0 && blocks[k].bytes != bytes) k--;
    if (k < 0) misused = 1;
    return k;
}

void *__wrap_malloc(size_t size) { return is_refused() ? NULL : hand_out(size); }

void __wrap_free(void *bytes) {
    int k = bytes ? place_of(bytes) : -1;
    if (k < 0) return;
    __real_free(memset(bytes, 0x5A, blocks[k].size));
    blocks[k] = blocks[--left];
}

/* The bytes always move. */
void *__wrap_realloc(void *bytes, size_t size) {
    void *more;
    int k;
    if (!bytes) return __wrap_malloc(size);
    k = place_of(bytes);
    if (k < 0 || is_refused()) return NULL;
    more = memcpy(hand_out(size), bytes, size < blocks[k].size ? size : blocks[k].size);
    __wrap_free(bytes);
    return more;
}

/* An id of six leaves, and events of 55 numbers; the next event fills them up, the one behind it raises a leaf. What comes of them is what
 * tests/lib/stamps.py makes of them. */
#define ID "((0,((((0,1),1),1),((1,0),0))),(0,(((((0,(((0,(0,1)),0),0)),0),(((0,1),0),0)),0),0)))"
#define EVENTS \
    "(4,(3,5,(0,(0,(0,(0,2,0),0),6),(6,(0,1,0),0))),(0,(5,(0,(0,(3,0,(0,(1,7,0),0)),0),0),0),(0,(0,(1,(0,(1,0,(2,(1,(1,0," \
    "(1,0,2)),0),0)),0),(2,(1,(2,0,4),0),0)),0),2)))"
#define FILLED \
    "(4,(5,3,(0,(0,0,4),(4,(0,1,0),0))),(0,(5,(0,(0,(3,0,(0,(1,7,0),0)),0),0),0),(0,(0,(1,(0,(1,0,(2,(1,(1,0,(1,0,2)),0)," \
    "0)),0),(2,(1,(2,0,4),0),0)),0),2)))"
#define GROWN \
    "(4,(5,3,(0,(0,0,5),(4,(0,1,0),0))),(0,(5,(0,(0,(3,0,(0,(1,7,0),0)),0),0),0),(0,(0,(1,(0,(1,0,(2,(1,(1,0,(1,0,2)),0)," \
    "0)),0),(2,(1,(2,0,4),0),0)),0),2)))"
#define HALF "((0,((((0,1),1),1),((1,0),0))),0)"
#define OTHER_HALF "(0,(0,(((((0,(((0,(0,1)),0),0)),0),(((0,1),0),0)),0),0)))"
#define LEAF "(0,(0,(((0,(((0,((1,0),0)),0),0)),0),0)))"
#define REST "((0,((((0,1),1),1),((1,0),0))),(0,(((((0,(((0,(0,1)),0),0)),0),(((0,((0,1),1)),0),0)),0),0)))"
/* Another process: what comes of its message, and of its retirement. */
#define OTHER_ID "((0,((((1,0),0),0),0)),(0,(((((1,(((0,(((0,1),0),0)),0),0)),1),0),1),1)))"
#define OTHER_EVENTS \
    "(6,(1,1,(0,(0,(0,(0,2,0),0),1),5)),(0,(3,(0,(0,1,0),0),0),(0,(0,(0,(4,(0,0,(0,(0,(0,0,(1,(5,(2,0,1),0),0)),1),3)),0)," \
    "0),0),9)))"
#define RECEIVED \
    "(6,(3,3,(0,(0,0,4),(4,(0,1,0),0))),(0,(3,(0,(0,(3,0,(0,(1,7,0),0)),0),0),0),(0,(0,(1,(3,(0,0,(0,(0,(0,0,(6,(0,(2,0,1)," \
    "0),0)),1),3)),0),(0,(1,(2,0,4),0),0)),0),9)))"
#define JOINED \
    "(6,(3,3,(0,(0,0,4),(4,(0,1,0),0))),(0,(3,(0,(0,(3,0,(0,(1,7,0),0)),0),0),0),(0,(0,(1,(3,(0,0,(0,(0,(0,0,(3,(3,(2,0,1)," \
    "0),0)),1),3)),0),(0,(1,(2,0,4),0),0)),0),9)))"
#define SUM "((0,(1,((1,0),0))),(0,(((((1,(((0,(((0,1),0),1)),0),0)),1),(((0,1),0),0)),1),1)))"

#define TEN(text) text text text text text text text text text text
#define FORTY(text) TEN(text) TEN(text) TEN(text) TEN(text)
#define DEEPEST FORTY("(") "1" FORTY(",0)")

#define SMALL "process a 0 0 1;0"
#define MIDDLE "process a 3 41 " ID ";" EVENTS
#define LATER "process a 4 57 " SUM ";" JOINED

typedef int64_t One(const char *, size_t, char *, size_t);
typedef int64_t Two(const char *, size_t, const char *, size_t, char *, size_t);
typedef int64_t Carving(const char *, size_t, const char *, size_t, uint8_t, char *, size_t);
typedef int64_t Return(const char *, size_t, uint32_t, char *, size_t);
typedef int64_t ReturnTo(const char *, size_t, const char *, size_t, uint32_t, char *, size_t);

/* A call, what is handed in, and the texts that it gives or its fault. */
typedef struct {
    const char *name;
    One *one;
    Two *two;
    Carving *carving;
    Return *returns;
    ReturnTo *returns_to;
    const char *a, *b;
    uint32_t number;
    const char *texts;
    int64_t fault;
} Call;

#define ONE(call) .name = #call, .one = call
#define TWO(call) .name = #call, .two = call
#define CARVING(call) .name = #call, .carving = call
#define RETURN(call) .name = #call, .returns = call
#define RETURN_TO(call) .name = #call, .returns_to = call

static const Call calls[] = {
    {ONE(recline_root), .a = "a", .texts = "process a 0 0 1;0\nBEGIN a\n"},
    {ONE(recline_root), .a = "A", .fault = RECLINE_NO_NAME},
    {ONE(recline_born), .a = "start b 2 (0,1);1", .texts = "process b 2 0 (0,1);1\n"},
    {ONE(recline_born), .a = "start b 3 " ID ";" EVENTS, .texts = "process b 3 0 " ID ";" EVENTS "\n"},
    {ONE(recline_born), .a = "start b 3 " ID ";" EVENTS ")", .fault = RECLINE_NO_TEXT},
    {ONE(recline_work), .a = SMALL, .texts = "process a 0 0 1;1\n"},
    {ONE(recline_work), .a = MIDDLE, .texts = "process a 3 41 " ID ";" FILLED "\n"},
    {ONE(recline_work), .a = "process a 3 41 " ID ";" FILLED, .texts = "process a 3 41 " ID ";" GROWN "\n"},
    {ONE(recline_work), .a = MIDDLE ")", .fault = RECLINE_NO_STATE},
    {ONE(recline_work), .a = "process a 0 0 0;1", .fault = RECLINE_NOTHING_OWNED},
    {ONE(recline_work), .a = "process a 0 0 1;4294967295", .fault = RECLINE_CLOCK_FULL},
    {ONE(recline_check), .a = SMALL, .texts = "process a 0 1 1;1\nCHECK a 1 1;1\n"},
    {ONE(recline_check), .a = MIDDLE, .texts = "process a 3 42 " ID ";" FILLED "\nCHECK@3 a 42 " ID ";" FILLED "\n"},
    {ONE(recline_check), .a = "process a 3 4294967295 " ID ";" EVENTS, .fault = RECLINE_WORN},
    {ONE(recline_present), .a = SMALL, .texts = "process a 0 1 1;1\nPRESENT a 1 1;1\n"},
    {ONE(recline_present), .a = MIDDLE, .texts = "process a 3 42 " ID ";" FILLED "\nPRESENT@3 a 42 " ID ";" FILLED "\n"},
    {ONE(recline_send), .a = SMALL, .texts = "process a 0 0 1;1\nmessage 0 1\n"},
    {ONE(recline_send), .a = MIDDLE, .texts = "process a 3 41 " ID ";" FILLED "\nmessage 3 " FILLED "\n"},
    {TWO(recline_again), .a = "process a 1 0 1;2", .b = "message 0 1", .texts = "process a 1 0 1;2\nmessage 1 1\n"},
    {TWO(recline_again), .a = LATER, .b = "message 2 " OTHER_EVENTS, .texts = LATER "\nmessage 4 " OTHER_EVENTS "\n"},
    {TWO(recline_again), .a = LATER, .b = "message 2 " OTHER_EVENTS ")", .fault = RECLINE_NO_TEXT},
    {TWO(recline_again), .a = LATER, .b = "message 5 " OTHER_EVENTS, .fault = RECLINE_NEWER},
    {TWO(recline_again), .a = MIDDLE, .b = "message 2 " OTHER_EVENTS, .fault = RECLINE_NOT_KNOWN},
    {TWO(recline_receive), .a = SMALL, .b = "message 0 4", .texts = "process a 0 0 1;5\n"},
    {TWO(recline_receive), .a = MIDDLE, .b = "message 3 " OTHER_EVENTS, .texts = "process a 3 41 " ID ";" RECEIVED "\n"},
    {TWO(recline_receive), .a = MIDDLE, .b = "message 3 " OTHER_EVENTS ")", .fault = RECLINE_NO_TEXT},
    {TWO(recline_receive), .a = MIDDLE, .b = "message 2 " OTHER_EVENTS, .fault = RECLINE_OLDER},
    {TWO(recline_receive), .a = MIDDLE, .b = "message 4 " OTHER_EVENTS, .fault = RECLINE_NEWER},
    {TWO(recline_fork), .a = SMALL, .b = "b", .texts = "process a 0 1 (1,0);1\nFORK a 1 1;1 (1,0) b (0,1)\nstart b 0 (0,1);1\n"},
    {TWO(recline_fork), .a = MIDDLE, .b = "b", .texts = "process a 3 42 " HALF ";" FILLED "\nFORK@3 a 42 " ID ";" FILLED " " HALF " b " OTHER_HALF
        "\nstart b 3 " OTHER_HALF ";" FILLED "\n"},
    {TWO(recline_fork), .a = MIDDLE, .b = "a", .fault = RECLINE_NAME_TAKEN},
    {TWO(recline_fork), .a = "process a 0 0 " DEEPEST ";0", .b = "b", .fault = RECLINE_TOO_DEEP},
    {CARVING(recline_fork_small), .a = SMALL, .b = "b", .number = 2, .texts = "process a 0 1 ((0,1),1);1\nFORK a 1 1;1 ((0,1),1) b ((1,0),0)\n"
        "start b 0 ((1,0),0);1\n"},
    {CARVING(recline_fork_small), .a = MIDDLE, .b = "b", .number = 10, .texts = "process a 3 42 " REST ";" FILLED "\nFORK@3 a 42 " ID ";" FILLED
        " " REST " b " LEAF "\nstart b 3 " LEAF ";" FILLED "\n"},
    {CARVING(recline_fork_small), .a = MIDDLE, .b = "b", .number = 3, .fault = RECLINE_TOO_DEEP},
    {TWO(recline_retire), .a = SMALL, .b = "b", .texts = "RETIRE a 1 1;1 b\nretirement a 0 b 1;1\n"},
    {TWO(recline_retire), .a = MIDDLE, .b = "b", .texts = "RETIRE@3 a 42 " ID ";" FILLED " b\nretirement a 3 b " ID ";" FILLED "\n"},
    {TWO(recline_retire), .a = MIDDLE, .b = "a", .fault = RECLINE_SELF_TARGET},
    {TWO(recline_absorb), .a = "process a 0 0 (1,0);1", .b = "retirement b 0 a (0,1);2", .texts = "process a 0 1 1;2\nABSORB a 1 1;2 b\n"},
    {TWO(recline_absorb), .a = MIDDLE, .b = "retirement b 3 a " OTHER_ID ";" OTHER_EVENTS, .texts = "process a 3 42 " SUM ";" JOINED
        "\nABSORB@3 a 42 " SUM ";" JOINED " b\n"},
    {TWO(recline_absorb), .a = MIDDLE, .b = "retirement b 3 a " OTHER_ID ";" OTHER_EVENTS ")", .fault = RECLINE_NO_TEXT},
    {TWO(recline_absorb), .a = MIDDLE, .b = "retirement b 3 c " OTHER_ID ";" OTHER_EVENTS, .fault = RECLINE_NOT_WAITING},
    {TWO(recline_absorb), .a = MIDDLE, .b = "retirement a 3 a " OTHER_ID ";" OTHER_EVENTS, .fault = RECLINE_NOT_WAITING},
    {TWO(recline_absorb), .a = MIDDLE, .b = "retirement b 2 a " OTHER_ID ";" OTHER_EVENTS, .fault = RECLINE_OLDER},
    {TWO(recline_absorb), .a = MIDDLE, .b = "retirement b 3 a " ID ";" OTHER_EVENTS, .fault = RECLINE_OVERLAP},
    {TWO(recline_absorb_kept), .a = "process a 3 0 (1,0);1", .b = "retirement b 0 a (0,1);2", .texts = "process a 3 1 1;2\nABSORB@3 a 1 1;2 b\n"},
    {TWO(recline_absorb_kept), .a = MIDDLE, .b = "retirement b 2 a " OTHER_ID ";" OTHER_EVENTS, .texts = "process a 3 42 " SUM ";" JOINED
        "\nABSORB@3 a 42 " SUM ";" JOINED " b\n"},
    {TWO(recline_absorb_kept), .a = MIDDLE, .b = "retirement b 4 a " OTHER_ID ";" OTHER_EVENTS, .fault = RECLINE_NEWER},
    {TWO(recline_absorb_kept), .a = MIDDLE, .b = "retirement b 2 a " ID ";" OTHER_EVENTS, .fault = RECLINE_OVERLAP},
    {RETURN_TO(recline_return_to), .a = "process a 0 2 1;3", .b = SMALL, .number = 1, .texts = "process a 1 0 1;0\n"},
    {RETURN_TO(recline_return_to), .a = LATER, .b = MIDDLE, .number = 5, .texts = "process a 5 41 " ID ";" EVENTS "\n"},
    {RETURN_TO(recline_return_to), .a = LATER ")", .b = MIDDLE, .number = 5, .fault = RECLINE_NO_STATE},
    {RETURN_TO(recline_return_to), .a = LATER, .b = MIDDLE ")", .number = 5, .fault = RECLINE_NO_TEXT},
    {RETURN_TO(recline_return_to), .a = LATER, .b = MIDDLE, .number = 4, .fault = RECLINE_OLDER},
    {RETURN_TO(recline_return_to), .a = LATER, .b = "process b 3 41 " ID ";" EVENTS, .number = 5, .fault = RECLINE_OTHER_PROCESS},
    {RETURN(recline_returned), .a = SMALL, .number = 1, .texts = "process a 1 0 1;0\n"},
    {RETURN(recline_returned), .a = MIDDLE, .number = 5, .texts = "process a 5 41 " ID ";" EVENTS "\n"},
    {RETURN(recline_returned), .a = MIDDLE, .number = 3, .fault = RECLINE_OLDER},
};

static int64_t make(const Call *call, char *out, size_t room) {
    size_t a = strlen(call->a), b = call->b ? strlen(call->b) : 0;
    if (call->one) return call->one(call->a, a, out, room);
    if (call->two) return call->two(call->a, a, call->b, b, out, room);
    if (call->carving) return call->carving(call->a, a, call->b, b, (uint8_t)call->number, out, room);
    if (call->returns) return call->returns(call->a, a, call->number, out, room);
    return call->returns_to(call->a, a, call->b, b, call->number, out, room);
}

static int passed, failed;

static void expect(const char *name, int holds, const char *what) {
    if (holds) {
        passed++;
    } else if (failed++ < 10) {
        printf("bindings/c: %s FAILED with the requests %ld to %ld refused: %s\n", name, first, last, what);
    }
}

/* No request has this number. */
enum { NEVER = 1000000 };

static void refuse(long from, long to) {
    requests = 0;
    first = from;
    last = to;
}

/* Makes a call to which some requests are refused, and says whether one of these was met. */
static int try_call(const Call *call, size_t room, long from, long to) {
    static char out[4096]; /* the last byte is a NUL */
    const int64_t right = call->texts ? (int64_t)strlen(call->texts) : call->fault;
    int64_t answer;
    size_t written = 0;
    memset(out, '#', sizeof out - 1);
    refuse(from, to);
    answer = make(call, out, room);
    if (answer >= 0 && answer <= (int64_t)room) written = (size_t)answer;
    if (answer != right && (answer != RECLINE_MEMORY || requests < from)) expect(call->name, 0, "the answer");
    else if (written && memcmp(out, call->texts, written)) expect(call->name, 0, "the texts");
    else if (strspn(out + written, "#") < sizeof out - written - 1) expect(call->name, 0, "the rest of out");
    else if (left) expect(call->name, 0, "what is left of memory");
    else expect(call->name, !misused, "a block that is none");
    if (call->texts && from == NEVER) expect(call->name, requests > 0, "it asks for memory");
    if (call->texts && from == 1 && to == NEVER) expect(call->name, answer == RECLINE_MEMORY, "it cannot do without");
    while (left) __wrap_free(blocks[left - 1].bytes);
    misused = 0;
    return requests >= from;
}

/* With room for the texts, and for one byte too few. */
static void try_calls(void) {
    for (size_t k = 0; k < sizeof calls / sizeof *calls; k++) {
        const Call *call = &calls[k];
        const size_t enough = call->texts ? strlen(call->texts) : 1;
        for (size_t room = enough - 1; room <= enough; room++) {
            try_call(call, room, NEVER, NEVER);
            for (long n = 1; try_call(call, room, n, n); n++) try_call(call, room, n, NEVER);
        }
    }
}

/* The calls of process.h take memory, too: what is refused leaves the process as it was, and keeps no block. */
static void try_process(void) {
    Process process = {0};
    char *state;
    int answer;
    refuse(NEVER, NEVER);
    expect("process_restore", !process_restore(&process, MIDDLE) && left == 1, "the answer");
    state = process.state;
    refuse(1, 1);
    expect("process_restore", process_restore(&process, SMALL) == RECLINE_MEMORY && process.state == state && left == 1, "the process");
    for (long n = 1; ; n++) {
        refuse(n, n);
        answer = process_fork(&process, "b");
        if (requests < n) break;
        expect("process_fork", answer == RECLINE_MEMORY && process.state == state && !strcmp(state, MIDDLE) && left == 1, "the process");
        if (!answer) break;
    }
    expect("process_fork", !answer && !strcmp(process.handed, "start b 3 " OTHER_HALF ";" FILLED) && left == 1, "the answer");
    process_free(&process);
    expect("process_free", !left && !misused, "what is left of memory");
}

int main(void) {
    try_calls();
    try_process();
    printf("%d passed, %d failed\n", passed, failed);
    return failed != 0;
}
