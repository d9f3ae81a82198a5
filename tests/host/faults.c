/* Faults for the counter program, which this library is loaded into by LD_PRELOAD. Programs of other names are left alone.
 *
 *     FAULT_PROGRAM=NAME    another program than the counter
 *     FAULT_READ=N:ERROR    the N-th read of standard input fails with ERROR: EINTR, EAGAIN, EIO, ENOSPC
 *     FAULT_WRITE=N:ERROR   the N-th write to standard output, likewise; with ERROR NOTHING it takes nothing and names no error
 *     FAULT_FILE=N:ERROR    the N-th write to any other descriptor but standard error, likewise
 *     FAULT_SYNC=N:ERROR    the N-th sync of a file or folder; FAULT_RENAME=N:ERROR the N-th renaming
 *     FAULT_SHORT=N         no read or write of these moves more than N bytes
 *     FAULT_NONBLOCK=FD     the descriptor does not block
 *     FAULT_WAITS=FILE      gets the process's number once a call would have to wait, after others have moved bytes
 *     FAULT_SIGPIPE=1       a write that nobody reads ends the program, whatever it was started with and asks for */
#define _GNU_SOURCE
#include <errno.h>
#include <fcntl.h>
#include <signal.h>
#include <stdio.h>
#include <stdlib.h>
#include <string.h>
#include <sys/syscall.h>
#include <unistd.h>

static const struct {
    const char *name;
    int number;
} errors[] = {{"NOTHING", 0}, {"EINTR", EINTR}, {"EAGAIN", EAGAIN}, {"EIO", EIO}, {"ENOSPC", ENOSPC}};

/* Of standard input, standard output and each sort of call on files: the calls and bytes so far, and which call fails, with what. */
enum { INPUT, OUTPUT, FILES, SYNCS, RENAMES, SORTS };
static struct {
    long calls;
    long moved;
    long failing;
    int error;
} ends[SORTS];
static size_t most = (size_t)-1;
static const char *waits;
static int ends_by_signal;

/* A test that asks for what there is not must fail, and not run without the fault. */
static void refuse(const char *setting) {
    fprintf(stderr, "faults: cannot read %s\n", setting);
    _exit(3);
}

static void choose(int end, const char *setting) {
    char *rest;
    if (setting == NULL)
        return;
    ends[end].failing = strtol(setting, &rest, 10);
    for (size_t i = 0; i < sizeof errors / sizeof errors[0]; i++) {
        if (*rest == ':' && strcmp(rest + 1, errors[i].name) == 0) {
            ends[end].error = errors[i].number;
            return;
        }
    }
    refuse(setting);
}

__attribute__((constructor)) static void start(void) {
    const char *program = getenv("FAULT_PROGRAM");
    if (strcmp(program_invocation_short_name, program == NULL ? "counter" : program) != 0) {
        most = 0;
        return;
    }
    choose(INPUT, getenv("FAULT_READ"));
    choose(OUTPUT, getenv("FAULT_WRITE"));
    choose(FILES, getenv("FAULT_FILE"));
    choose(SYNCS, getenv("FAULT_SYNC"));
    choose(RENAMES, getenv("FAULT_RENAME"));
    if (getenv("FAULT_SHORT") != NULL)
        most = strtoul(getenv("FAULT_SHORT"), NULL, 10);
    if (getenv("FAULT_NONBLOCK") != NULL) {
        int fd = atoi(getenv("FAULT_NONBLOCK"));
        if (fcntl(fd, F_SETFL, fcntl(fd, F_GETFL) | O_NONBLOCK) != 0)
            refuse("FAULT_NONBLOCK");
    }
    waits = getenv("FAULT_WAITS");
    ends_by_signal = getenv("FAULT_SIGPIPE") != NULL;
    if (ends_by_signal)
        signal(SIGPIPE, SIG_DFL);
}

/* By this call a program of Rattle sets the signal aside when it starts. */
sighandler_t __sysv_signal(int number, sighandler_t handler) {
    return number == SIGPIPE && ends_by_signal ? SIG_DFL : signal(number, handler);
}

static void tell(void) {
    int fd = open(waits, O_WRONLY | O_CREAT | O_TRUNC, 0600);
    if (fd < 0 || dprintf(fd, "%ld\n", (long)getpid()) < 0)
        refuse(waits);
    close(fd);
    waits = NULL;
}

/* Whether the call, one more of its sort, is the one that fails. */
static int fails(int sort) {
    if (most == 0 || ++ends[sort].calls != ends[sort].failing)
        return 0;
    errno = ends[sort].error;
    return 1;
}

static ssize_t move(long call, int fd, void *bytes, size_t size) {
    int sort = call == SYS_read ? INPUT : fd == 1 ? OUTPUT : FILES;
    if (most == 0 || fd == 2 || (sort == INPUT && fd != 0))
        return syscall(call, fd, bytes, size);
    if (fails(sort))
        return errno == 0 ? 0 : -1;
    ssize_t moved = syscall(call, fd, bytes, size < most ? size : most);
    if (moved > 0)
        ends[sort].moved += moved;
    else if (moved < 0 && errno == EAGAIN && waits != NULL && ends[sort].moved > 0) {
        tell();
        errno = EAGAIN;
    }
    return moved;
}

ssize_t read(int fd, void *bytes, size_t size) {
    return move(SYS_read, fd, bytes, size);
}

ssize_t write(int fd, const void *bytes, size_t size) {
    return move(SYS_write, fd, (void *)bytes, size);
}

int fsync(int fd) {
    return fails(SYNCS) ? -1 : (int)syscall(SYS_fsync, fd);
}

int rename(const char *from, const char *to) {
    return fails(RENAMES) ? -1 : renameat(AT_FDCWD, from, AT_FDCWD, to);
}
