/* Stands before the calls of a program that have descriptors: the call of number FAIL_AT of those of the name FAIL_CALL, counted
 * from 1, fails with the number FAIL_WITH, and where FAIL_ON is set each one behind it too. A receive or an accept that would
 * find nothing is not counted, so that the numbers do not depend on time; the sockets are ones that do not wait. A close that
 * fails has closed, as it does on Linux. Where the program ends, the file CALL_LOG gets a line for each name with the number of
 * its calls, and how many failed calls, descriptors left open, and closes of what was not open there were. No header is needed,
 * so that the toolchain's own compiler builds it; the numbers are those of x86-64. */
typedef unsigned long size;
typedef long ssize;
extern long syscall(long, ...);
extern int *__errno_location(void);
extern char *getenv(const char *);
extern int strcmp(const char *, const char *), dprintf(int, const char *, ...);
extern size strtoul(const char *, char **, int);

enum { READ, WRITE, CLOSE, SENDTO, RECVFROM, SOCKET, CONNECT, ACCEPT4, BIND, LISTEN, SHUTDOWN, SETSOCKOPT, GETSOCKOPT,
       GETPEERNAME, GETSOCKNAME, CALLS };
static const struct { const char *name; long number; } calls[CALLS] = {
    {"read", 0}, {"write", 1}, {"close", 3}, {"send", 44}, {"recv", 45}, {"socket", 41}, {"connect", 42}, {"accept", 288},
    {"bind", 49}, {"listen", 50}, {"shutdown", 48}, {"setsockopt", 54}, {"getsockopt", 55}, {"getpeername", 52},
    {"getsockname", 51}};
static size counts[CALLS], wanted, failed, not_open;
static int call = -1, with, goes_on;

__attribute__((constructor)) static void start(void) {
    const char *name = getenv("FAIL_CALL"), *number = getenv("FAIL_AT"), *error = getenv("FAIL_WITH");
    for (int i = 0; name && number && error && i < CALLS; i++)
        if (!strcmp(name, calls[i].name)) call = i;
    if (call < 0) return;
    wanted = strtoul(number, 0, 10);
    with = (int)strtoul(error, 0, 10);
    goes_on = getenv("FAIL_ON") != 0;
}

__attribute__((destructor)) static void end(void) {
    const char *name = getenv("CALL_LOG");
    size open = 0;
    for (long fd = 3; fd < 1024; fd++)
        if (syscall(72, fd, 1L) >= 0) open++; /* fcntl, F_GETFD */
    long file = name ? syscall(2, name, 01L | 0100L | 01000L, 0644L) : -1; /* write, create, truncate */
    if (file < 0) return;
    for (int i = 0; i < CALLS; i++) dprintf((int)file, "%s %lu\n", calls[i].name, counts[i]);
    dprintf((int)file, "failed %lu\nopen %lu\nnot-open %lu\n", failed, open, not_open);
    syscall(3, file);
}

static int fails(int what) {
    counts[what]++;
    if (what != call || !(counts[what] == wanted || (goes_on && counts[what] > wanted))) return 0;
    failed++;
    *__errno_location() = with;
    return 1;
}

/* Whether there is something to read, or an end. */
static int is_ready(int fd) {
    struct { int fd; short events, found; } look = {fd, 1, 0};
    return syscall(7, &look, 1L, 0L) != 0;
}

/* Whether a call that takes something fails. One that would find nothing, on a socket that does not wait, is answered here. */
static int fails_to_take(int what, int fd) {
    if (call == what && goes_on && counts[what] >= wanted) return fails(what);
    if (is_ready(fd)) return fails(what);
    *__errno_location() = 11; /* EAGAIN */
    return 1;
}

ssize read(int fd, void *to, size most) { return fails(READ) ? -1 : syscall(0, (long)fd, to, most); }
ssize recvfrom(int fd, void *to, size most, int flags, void *from, void *length) {
    return fails_to_take(RECVFROM, fd) ? -1 : syscall(45, (long)fd, to, most, (long)flags, from, length);
}
ssize recv(int fd, void *to, size most, int flags) { return recvfrom(fd, to, most, flags, 0, 0); }
ssize write(int fd, const void *bytes, size count) { return fails(WRITE) ? -1 : syscall(1, (long)fd, bytes, count); }
ssize writev(int fd, const void *parts, int count) { return fails(WRITE) ? -1 : syscall(20, (long)fd, parts, (long)count); }
ssize sendto(int fd, const void *bytes, size count, int flags, const void *to, unsigned length) {
    return fails(SENDTO) ? -1 : syscall(44, (long)fd, bytes, count, (long)flags, to, (long)length);
}
ssize send(int fd, const void *bytes, size count, int flags) { return sendto(fd, bytes, count, flags, 0, 0); }
int close(int fd) {
    int is_failing = fails(CLOSE);
    long answer = syscall(3, (long)fd);
    if (answer < 0) not_open++;
    if (!is_failing) return (int)answer;
    *__errno_location() = with;
    return -1;
}
int socket(int family, int type, int protocol) {
    return fails(SOCKET) ? -1 : (int)syscall(41, (long)family, (long)type, (long)protocol);
}
int connect(int fd, const void *address, unsigned length) {
    return fails(CONNECT) ? -1 : (int)syscall(42, (long)fd, address, (long)length);
}
int accept4(int fd, void *address, void *length, int flags) {
    return fails_to_take(ACCEPT4, fd) ? -1 : (int)syscall(288, (long)fd, address, length, (long)flags);
}
int bind(int fd, const void *address, unsigned length) {
    return fails(BIND) ? -1 : (int)syscall(49, (long)fd, address, (long)length);
}
int listen(int fd, int most) { return fails(LISTEN) ? -1 : (int)syscall(50, (long)fd, (long)most); }
int shutdown(int fd, int how) { return fails(SHUTDOWN) ? -1 : (int)syscall(48, (long)fd, (long)how); }
int setsockopt(int fd, int level, int name, const void *value, unsigned length) {
    return fails(SETSOCKOPT) ? -1 : (int)syscall(54, (long)fd, (long)level, (long)name, value, (long)length);
}
int getsockopt(int fd, int level, int name, void *value, void *length) {
    return fails(GETSOCKOPT) ? -1 : (int)syscall(55, (long)fd, (long)level, (long)name, value, length);
}
int getpeername(int fd, void *address, void *length) {
    return fails(GETPEERNAME) ? -1 : (int)syscall(52, (long)fd, address, length);
}
int getsockname(int fd, void *address, void *length) {
    return fails(GETSOCKNAME) ? -1 : (int)syscall(51, (long)fd, address, length);
}
