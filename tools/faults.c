/* Stands in front of the C library's calls, and has one of them fail. The environment says which:

   FAULT=KIND   the calls that are counted: memory (requests for it), read (of standard input), write (to standard output),
                error (writes to standard error), file (open, read, write, fchmod, fsync, chown, rename and unlink, of files)
   AT=N         the Nth of them fails; with ON=1 each one after it too; with KILL=1 the process is killed there instead
   BYTE=1       each read of standard input and each write to standard output or standard error moves one byte
   INTERRUPT=1  each of them is interrupted three times before it is made
   ERROR=N      what fails has this number in errno, in place of EIO or ENOMEM
   LOG=FILE     gets an x for each call that fails, or without AT for each that is counted; and a - where memory was refused and the
                next request is for no more: a growth ahead of need is done without

   Built by tools/faults: cc -shared -fPIC -O2 -o faults.so faults.c, and loaded by LD_PRELOAD. What the loader does isn't counted. */

#include <errno.h>
#include <linux/fcntl.h>
#include <signal.h>
#include <stdlib.h>
#include <string.h>
#include <sys/syscall.h>
#include <sys/types.h>
#include <unistd.h>

extern void *__libc_malloc(size_t size);
extern void *__libc_calloc(size_t count, size_t size);
extern void *__libc_realloc(void *room, size_t size);
extern void *__libc_memalign(size_t alignment, size_t size);

static long number(const char *name) { return getenv(name) ? atol(getenv(name)) : 0; }

/* Writes a byte to the log, which is opened anew each time: the program's own files are never touched. */
static void log_byte(const char *byte)
{
    long file = syscall(SYS_openat, AT_FDCWD, getenv("LOG"), O_WRONLY | O_APPEND, 0);
    syscall(SYS_write, file, byte, 1);
    syscall(SYS_close, file);
}

/* Counts a call of a kind, and returns whether it fails; errno is then the given one. */
static int fails(const char *kind, int error)
{
    static const char *fault = NULL;
    static long at, on, kills, calls = 0;
    if (!fault) {
        fault = getenv("FAULT") ? getenv("FAULT") : "none";
        at = number("AT"), on = number("ON"), kills = number("KILL");
    }
    if (strcmp(kind, fault) != 0)
        return 0;
    calls += 1;
    if (at != 0 && calls != at && !(on && calls > at))
        return 0;
    if (at != 0 && kills)
        kill(getpid(), SIGKILL);
    log_byte("x");
    errno = number("ERROR") ? (int)number("ERROR") : error;
    return at != 0;
}

/* Counts a request for memory, and returns whether it fails. */
static int refuses(size_t size)
{
    static size_t refused = 0;
    int fault = fails("memory", ENOMEM);
    if (!fault && size <= refused)
        log_byte("-");
    refused = fault ? size : 0;
    return fault;
}

void *malloc(size_t size) { return refuses(size) ? NULL : __libc_malloc(size); }
void *calloc(size_t count, size_t size) { return refuses(count * size) ? NULL : __libc_calloc(count, size); }
void *realloc(void *room, size_t size) { return refuses(size) ? NULL : __libc_realloc(room, size); }
void *aligned_alloc(size_t alignment, size_t size) { return refuses(size) ? NULL : __libc_memalign(alignment, size); }

int posix_memalign(void **room, size_t alignment, size_t size)
{
    void *found = aligned_alloc(alignment, size);
    return found ? (*room = found, 0) : ENOMEM;
}

/* Returns whether a call on a standard stream is interrupted: three of four are. */
static int interrupts(int file)
{
    static int turns[3];
    if (file < 0 || file > 2 || !number("INTERRUPT"))
        return 0;
    turns[file] = (turns[file] + 1) % 4;
    errno = EINTR;
    return turns[file] != 0;
}

ssize_t read(int file, void *bytes, size_t count)
{
    if (interrupts(file))
        return -1;
    count = file == 0 && count > 1 && number("BYTE") ? 1 : count;
    return fails(file == 0 ? "read" : "file", EIO) ? -1 : syscall(SYS_read, file, bytes, count);
}

ssize_t write(int file, const void *bytes, size_t count)
{
    if (interrupts(file))
        return -1;
    const char *kind = file == 1 ? "write" : file == 2 ? "error" : "file";
    count = (file == 1 || file == 2) && count > 1 && number("BYTE") ? 1 : count;
    return fails(kind, EIO) ? -1 : syscall(SYS_write, file, bytes, count);
}

/* A call on files. Those that open one may be called without the mode. */
#define CALL(name, parameters, ...) \
    int name parameters { return fails("file", EIO) ? -1 : (int)syscall(SYS_##name, __VA_ARGS__); }

CALL(open, (const char *path, int flags, mode_t mode), path, flags, mode)
CALL(openat, (int folder, const char *path, int flags, mode_t mode), folder, path, flags, mode)
CALL(fchmod, (int file, mode_t mode), file, mode)
CALL(fsync, (int file), file)
CALL(chown, (const char *path, uid_t owner, gid_t group), path, owner, group)
CALL(rename, (const char *from, const char *to), from, to)
CALL(unlink, (const char *path), path)
