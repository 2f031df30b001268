// Shapes and fails the calls that a program makes of the system (put in front of it by LD_PRELOAD), as these variables say:
//
//   READ_MOST, WRITE_MOST    so many bytes at most are given by a read of standard input or of a connection, or taken by a write
//   READ_END, WRITE_END      behind so many bytes in all a read or a write fails
//   ACCEPT                   the first call that takes a connection fails with the error of this number
//   ACCEPT_WAITS             only calls count for that at which a connection waits, if this is 1, or at which none waits, if it is 0
//   ACCEPT_CALL              the one of this number of these calls fails, and not the first one
//   SEND_END                 behind so many bytes in all a write to a connection fails
//   WRITE_NOTHING            in place of failing such a write takes nothing
//   READ_LINES               standard input has no end: lines of so many letters x
//   CALL, DONE               the call of this number of those for the record file fails, from 1, and with DONE it is done all the same
//   CALLS                    the file to which the names of the calls for the record file are written, a line each, and `behind` for each
//                            read of standard input and each write to standard output behind one that failed or took nothing
//   OTHER                    the call of this number shows other bytes, where it is a read, or a length that is one less
//   GONE                     from the call of this number on each measure shows that the record file has no name
//   POLL_MOST                so many events at most are told by a wait at a poller of many clients, and the others by later waits
//   POLL_ALL                 each event says that everything happened
//   POLL_TWICE               each event comes twice at once, and again with the next answer, but for those of standard input
//   POLL_STRANGE             so many events come with each answer that never were: of all places in turn, and of places that cannot be
//   POLL_NONE                each wait whose number this divides answers at once, with nothing of what happened
//   POLL_SIGNAL              each wait whose number this divides fails at once, as if a signal came
//   POLL_ENDLESS             no wait is limited in time
//   POLL_END                 from the wait of this number on, from 1, each one fails; looks without waiting that find nothing do not count
//   WATCH                    the call of this number, from 1, that has a poller tell of something fails, as if the system took no more
//   NO_BELL                  no thread ends the wait of another one
//   FOLDERS                  the file to which the path of each folder that is synced is written, a line each
//   IMAGE                    the file that has what the device has of the record file, which is what the system shows of it. Of the pages
//                            of PAGE bytes that were written since the last sync, a sync writes each to the device
//   SYNC                     and the sync of this number fails: it writes none, and they count as written, as they do for the system
//
// The calls for the record file are those by which it is read, written, measured, cut and synced.
typedef unsigned long size_t;
typedef long ssize_t;
typedef long off_t;

extern void *dlsym(void *, const char *);
extern char *getenv(const char *);
extern int *__errno_location(void);
extern int open(const char *, int, ...);
extern int close(int);
extern off_t lseek(int, off_t, int);
extern ssize_t readlink(const char *, char *, size_t);
extern int poll(void *, unsigned long, int);

enum { SIGNALLED = 4, FAILED = 5, NO_FILE = 9, NO_SPACE = 28 };
enum { APPENDED = 02001, MADE = 0100, WRITTEN = 1, END = 2 };
enum { NO_LIMIT = -1 };
// The most pages of an image, and the greatest page.
enum { PAGES = 1 << 20, LARGEST = 1 << 16 };
// Where the number of names and the length are in what a measure tells.
enum { NAMES = 16, LENGTH = 40 };
// What a poller calls standard input, above all else. No wrong event is of it: who is told of its bytes waits for them.
enum { INPUT = 4098 };
// All that a poller tells of a client: it has bytes, takes some, failed, is gone, and sends no more.
enum { READABLE = 0x1, ALL = READABLE | 0x4 | 0x8 | 0x10 | 0x2000 };
// A call that has a poller tell of one thing more.
enum { ADDS = 1 };
// So many events happened at most. There is room for four times as many, or else the poller is not that of many clients.
enum { EVENTS = 256, ROOM = 4 * EVENTS };
// The length of what a thread writes to end the wait of another one.
enum { BELL = 8 };

// What happened to something, as a poller tells it.
struct event {
    unsigned flags;
    unsigned long token;
}
#ifdef __x86_64__
__attribute__((packed))
#endif
;

static ssize_t (*given_read)(int, void *, size_t), (*given_recv)(int, void *, size_t, int);
static ssize_t (*given_write)(int, const void *, size_t), (*given_send)(int, const void *, size_t, int);
static ssize_t (*given_pread)(int, void *, size_t, off_t), (*given_pwrite)(int, const void *, size_t, off_t);
static int (*given_fsync)(int), (*given_fdatasync)(int), (*given_ftruncate)(int, off_t);
static int (*given_statx)(int, const char *, int, unsigned, void *);
static int (*given_accept)(int, void *, void *), (*given_accept4)(int, void *, void *, int);
static int (*given_epoll_wait)(int, struct event *, int, int), (*given_epoll_ctl)(int, int, int, struct event *);
static long read_most, write_most, read_end, write_end, send_end, read_lines, call, was_read, was_written, was_sent, calls;
static long other, gone, sync_number, page, syncs, accept_error, accept_waits, accept_call, accepts;
static long poll_most, strange, none, signal, poll_end, watch, waits, vain, watches, next_strange;
static int is_all, is_twice, is_endless, is_bell_silent;
// The events of the last answer.
static struct event last[EVENTS];
static int lasts;
// Whether a standard stream broke.
static int is_broken;
// Which pages were written since the last sync.
static unsigned char written[PAGES];

static long number(const char *name)
{
    const char *digits = getenv(name);
    long value = 0;
    if (!digits)
        return NO_LIMIT;
    while (*digits)
        value = 10 * value + *digits++ - '0';
    return value;
}

__attribute__((constructor)) static void begin(void)
{
    void *next = (void *)-1;
    given_read = dlsym(next, "read");
    given_recv = dlsym(next, "recv");
    given_write = dlsym(next, "write");
    given_send = dlsym(next, "send");
    given_pread = dlsym(next, "pread");
    given_pwrite = dlsym(next, "pwrite");
    given_fsync = dlsym(next, "fsync");
    given_fdatasync = dlsym(next, "fdatasync");
    given_ftruncate = dlsym(next, "ftruncate");
    given_statx = dlsym(next, "statx");
    given_accept = dlsym(next, "accept");
    given_accept4 = dlsym(next, "accept4");
    given_epoll_wait = dlsym(next, "epoll_wait");
    given_epoll_ctl = dlsym(next, "epoll_ctl");
    poll_most = number("POLL_MOST");
    strange = number("POLL_STRANGE");
    none = number("POLL_NONE");
    signal = number("POLL_SIGNAL");
    poll_end = number("POLL_END");
    watch = number("WATCH");
    is_all = getenv("POLL_ALL") != 0;
    is_twice = getenv("POLL_TWICE") != 0;
    is_endless = getenv("POLL_ENDLESS") != 0;
    is_bell_silent = getenv("NO_BELL") != 0;
    accept_waits = number("ACCEPT_WAITS");
    accept_call = number("ACCEPT_CALL");
    accept_error = number("ACCEPT");
    read_most = number("READ_MOST");
    write_most = number("WRITE_MOST");
    read_end = number("READ_END");
    write_end = number("WRITE_END");
    send_end = number("SEND_END");
    read_lines = number("READ_LINES");
    call = number("CALL");
    other = number("OTHER");
    gone = number("GONE");
    sync_number = number("SYNC");
    page = number("PAGE");
}

static int fail_with(int error)
{
    *__errno_location() = error;
    return -1;
}

static int fail(void)
{
    return fail_with(FAILED);
}

// How many bytes a call may give or take, of so many that are asked for, where so many were before.
static size_t within(size_t asked, long most, long end, long before)
{
    if (most != NO_LIMIT && asked > (size_t)most)
        asked = most;
    if (end != NO_LIMIT && asked > (size_t)(end - before))
        asked = end - before;
    return asked;
}

// Adds a line to the file that a variable names, if it is there.
static void add_line(const char *variable, const char *name)
{
    const char *path = getenv(variable);
    if (!path)
        return;
    int file = open(path, APPENDED | MADE, 0600);
    size_t length = 0;
    while (name[length])
        length++;
    given_write(file, name, length);
    given_write(file, "\n", 1);
    close(file);
}

static void note(const char *name)
{
    add_line("CALLS", name);
}

// A standard stream breaks, or is used once one broke.
static void use(int breaks)
{
    if (is_broken)
        note("behind");
    is_broken |= breaks;
}

// ---- streams and connections

static ssize_t give_lines(char *bytes, size_t asked)
{
    for (size_t i = 0; i < asked; i++)
        bytes[i] = was_read++ % (read_lines + 1) == read_lines ? '\n' : 'x';
    return asked;
}

ssize_t read(int file, void *bytes, size_t asked)
{
    if (file != 0)
        return given_read(file, bytes, asked);
    size_t most = within(asked, read_most, read_end, was_read);
    use(asked && !most);
    if (asked && !most)
        return fail();
    if (read_lines != NO_LIMIT)
        return give_lines(bytes, most);
    ssize_t got = given_read(file, bytes, most);
    was_read += got > 0 ? got : 0;
    return got;
}

ssize_t recv(int file, void *bytes, size_t asked, int flags)
{
    return given_recv(file, bytes, within(asked, read_most, NO_LIMIT, 0), flags);
}

ssize_t write(int file, const void *bytes, size_t asked)
{
    if (is_bell_silent && file > 2 && asked == BELL)
        return fail();
    if (file != 1)
        return given_write(file, bytes, asked);
    size_t most = within(asked, write_most, write_end, was_written);
    use(asked && !most);
    if (asked && !most)
        return getenv("WRITE_NOTHING") ? 0 : fail();
    ssize_t took = given_write(file, bytes, most);
    was_written += took > 0 ? took : 0;
    return took;
}

ssize_t send(int file, const void *bytes, size_t asked, int flags)
{
    size_t most = within(asked, write_most, send_end, was_sent);
    if (asked && !most)
        return fail();
    ssize_t sent = given_send(file, bytes, most, flags);
    was_sent += sent > 0 ? sent : 0;
    return sent;
}

// ---- the record file

// Makes a call, and answers what it answers, unless it is the one that fails.
#define CALLED(name, made)                      \
    do {                                        \
        note(name);                             \
        if (++calls != call)                    \
            return made;                        \
        if (getenv("DONE"))                     \
            (void)!(made);                      \
        return fail();                          \
    } while (0)

// A call that shows something else than what is so.
static int is_other(void)
{
    return calls == other;
}

ssize_t pread(int file, void *bytes, size_t asked, off_t at)
{
    note("read");
    if (++calls == call)
        return fail();
    ssize_t got = given_pread(file, bytes, asked, at);
    if (got > 0 && is_other())
        ((char *)bytes)[got - 1] ^= 1;
    return got;
}

// The pages of these bytes were written.
static void mark(off_t at, ssize_t put)
{
    for (off_t number = at / page; put > 0 && number <= (at + put - 1) / page; number++)
        written[number] = 1;
}

ssize_t pwrite(int file, const void *bytes, size_t asked, off_t at)
{
    if (!getenv("IMAGE"))
        CALLED("write", given_pwrite(file, bytes, asked, at));
    ssize_t put = given_pwrite(file, bytes, asked, at);
    mark(at, put);
    return put;
}

// Writes the pages that were written since the last sync to the device, and their length; or none, where the sync fails.
static int sync_image(int file)
{
    static char bytes[LARGEST];
    int fails = ++syncs == sync_number, image = open(getenv("IMAGE"), WRITTEN);
    for (off_t number = 0; number < PAGES; number++) {
        ssize_t got = written[number] && !fails ? given_pread(file, bytes, page, number * page) : 0;
        if (got > 0)
            given_pwrite(image, bytes, got, number * page);
        written[number] = 0;
    }
    if (!fails)
        given_ftruncate(image, lseek(file, 0, END));
    close(image);
    return fails ? fail() : 0;
}

// Notes the path of a folder that is synced.
static void note_folder(int file)
{
    char link[32] = "/proc/self/fd/", path[4096], *end = link + 14;
    int power = 1;
    while (file / power >= 10)
        power *= 10;
    for (; power; power /= 10)
        *end++ = '0' + file / power % 10;
    *end = 0;
    ssize_t length = readlink(link, path, sizeof path - 1);
    path[length > 0 ? length : 0] = 0;
    add_line("FOLDERS", path);
}

int fsync(int file)
{
    note_folder(file);
    CALLED("sync", given_fsync(file));
}

int fdatasync(int file)
{
    if (getenv("IMAGE"))
        return sync_image(file);
    CALLED("sync_data", given_fdatasync(file));
}

int ftruncate(int file, off_t length)
{
    CALLED("cut", given_ftruncate(file, length));
}

// A file that is open is measured by its number, with no path.
int statx(int file, const char *path, int flags, unsigned asked, void *told)
{
    if (path && *path)
        return given_statx(file, path, flags, asked, told);
    note("length");
    if (++calls == call)
        return fail();
    int answer = given_statx(file, path, flags, asked, told);
    if (is_other())
        *(unsigned long *)((char *)told + LENGTH) -= 1;
    if (gone != NO_LIMIT && calls >= gone)
        *(unsigned *)((char *)told + NAMES) = 0;
    return answer;
}

// ---- clients that come

// Whether a connection waits to be taken.
static int has_client(int socket)
{
    struct {
        int file;
        short asked, told;
    } look = {socket, READABLE, 0};
    return poll(&look, 1, 0) > 0;
}

// Whether this call that takes a connection fails. Only one thread at a time takes connections.
static int is_refused(int socket)
{
    if (accept_error == NO_LIMIT)
        return 0;
    if (accept_waits != NO_LIMIT && accept_waits != has_client(socket))
        return 0;
    if (accept_call != NO_LIMIT && ++accepts != accept_call)
        return 0;
    fail_with(accept_error);
    accept_error = NO_LIMIT;
    return 1;
}

int accept(int socket, void *address, void *length)
{
    return is_refused(socket) ? -1 : given_accept(socket, address, length);
}

int accept4(int socket, void *address, void *length, int flags)
{
    return is_refused(socket) ? -1 : given_accept4(socket, address, length, flags);
}

// ---- a poller, at which only one thread at a time waits

static int divides(long number, long count)
{
    return number != NO_LIMIT && count % number == 0;
}

// Copies so many events, but for those of standard input, and answers how many these are.
static int copy(struct event *to, const struct event *from, int count)
{
    int copied = 0;
    for (int i = 0; i < count; i++)
        if (from[i].token != INPUT)
            to[copied++] = from[i];
    return copied;
}

// The next place of which nothing happened. After all that can be there come some that cannot.
static unsigned long next_place(void)
{
    static const unsigned long beyond[] = {INPUT + 1, 2 * INPUT, 1ul << 32, 1ul << 63, ~0ul};
    long count = sizeof beyond / sizeof *beyond, at = next_strange++ % (INPUT + count);
    return at < INPUT ? (unsigned long)at : beyond[at - INPUT];
}

// Tells what did not happen beside these events, and answers how many there are then.
static int tell_more(struct event *events, int count)
{
    int told = count;
    if (is_twice) {
        told += copy(events + told, events, count);
        told += copy(events + told, last, lasts);
        lasts = copy(last, events, count);
    }
    for (long i = 0; i < strange && i < EVENTS; i++)
        events[told++] = (struct event){ALL, next_place()};
    for (int i = 0; is_all && i < told; i++)
        events[i].flags = ALL;
    return told;
}

// What happened and is not told stays with the poller.
int epoll_wait(int poller, struct event *events, int most, int milliseconds)
{
    waits++;
    if (poll_end != NO_LIMIT && waits - vain >= poll_end)
        return fail_with(NO_FILE);
    if (divides(signal, waits))
        return fail_with(SIGNALLED);
    if (is_endless && milliseconds > 0)
        milliseconds = NO_LIMIT;
    if (most < ROOM)
        return given_epoll_wait(poller, events, most, milliseconds);
    int asked = within(EVENTS, poll_most, NO_LIMIT, 0);
    int count = divides(none, waits) ? 0 : given_epoll_wait(poller, events, asked, milliseconds);
    if (count == 0 && milliseconds == 0)
        vain++;
    return count < 0 ? count : tell_more(events, count);
}

int epoll_ctl(int poller, int what, int file, struct event *event)
{
    if (what == ADDS && ++watches == watch)
        return fail_with(NO_SPACE);
    return given_epoll_ctl(poller, what, file, event);
}
