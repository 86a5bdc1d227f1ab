/* Stands between a program and the C library, by LD_PRELOAD: tells of each call that touches the log,
 * its folder, standard input or standard output, makes calls fail, kills the program, and tells what of the log
 * the disk would be sure to hold then. For tools/checks/disk_calls.py.
 *
 * The environment says what is done; a number counts such calls from 0.
 *
 *     CALLS_LOG=NAME     the log is the file of that name; `chain.log` where it is left out. An open file is still
 *                        the log once its name is removed
 *     CALLS_FILE=PATH    a line for each call is written there:
 *                        NUMBER NAME WHAT OFFSET SIZE RESULT, RESULT being -1 where it failed
 *     CALLS_FAIL=N       call N is not made, and fails with EIO, or with the error CALLS_ERROR
 *     CALLS_TIMES=K      so do the next K - 1 calls of its name
 *     CALLS_SHORT=N      call N, a read or a write, moves one byte and no more
 *     CALLS_NOTHING=N    call N, a write, takes nothing
 *     CALLS_NO_MEMORY=N  the request for memory of that number, from 0, fails
 *     CALLS_NO_MORE=N    so does each from that number on
 *     CALLS_NO_RANDOM=1  no request for random bytes is met
 *     CALLS_REQUESTS=PATH  how many requests there were is written there at the end
 *     CALLS_BEFORE=N     before call N the log is changed, as CALLS_CHANGE says: `make` (or nothing said) puts the
 *                        file CALLS_OTHER there where there is none, `remove` takes its name away, `replace` puts
 *                        CALLS_OTHER in its place, `renew` a file with the same bytes, `cut` takes its last byte
 *                        away, `empty` takes all away, `extend` puts a byte behind it.
 *                        What was opened is CALLS_KEPT then, too
 *     CALLS_BACK=M       before call M that gets its name back
 *     CALLS_KILL=N       before call N the program is killed
 *     CALLS_DISK=PATH    what the disk is sure to hold is read there, and written there at the end: a byte,
 *                        1 where the folder is sure to name the log, else 0; a byte, how many writes are not
 *                        synced; of each its offset and its size, in four bytes each, and its bytes; then
 *                        the bytes of the log that were synced. Numbers are in the order of the machine
 *
 * Of `open`, OFFSET has the flags, in octal, and SIZE the mode of a file that it makes; of `flock`, OFFSET has what is
 * asked. A look at a path is `statx`, and one at an open file `fstat`. */
#define _GNU_SOURCE
#include <errno.h>
#include <fcntl.h>
#include <signal.h>
#include <stdarg.h>
#include <stdint.h>
#include <stdio.h>
#include <stdlib.h>
#include <string.h>
#include <sys/file.h>
#include <sys/mman.h>
#include <sys/stat.h>
#include <sys/syscall.h>
#include <unistd.h>

enum { NEVER = -1, FIRST_FREE = 500, MAX_LOG_BYTES = 1 << 22, MAX_WRITES = 100, BROKEN = 99 };
enum action { MAKE, FAIL, SHORT, NOTHING };

static const char *log_name = "chain.log";
static int told = -1;
static long calls, allocations;
static long failing = NEVER, times = 1, shorter = NEVER, nothing = NEVER;
static long before = NEVER, back = NEVER;
static long no_memory = NEVER, no_more = NEVER, no_random = NEVER;
static long killing = NEVER, error = EIO;
static const char *other, *change, *kept_as, *disk, *requests;

static void read_disk(void);

static long number_of(const char *name)
{
    const char *value = getenv(name);
    return value ? atol(value) : NEVER;
}

__attribute__((constructor)) static void begin(void)
{
    const char *path = getenv("CALLS_FILE");
    if (!path)
        return;
    if (getenv("CALLS_LOG"))
        log_name = getenv("CALLS_LOG");
    failing = number_of("CALLS_FAIL");
    times = getenv("CALLS_TIMES") ? number_of("CALLS_TIMES") : 1;
    shorter = number_of("CALLS_SHORT");
    nothing = number_of("CALLS_NOTHING");
    before = number_of("CALLS_BEFORE");
    back = number_of("CALLS_BACK");
    killing = number_of("CALLS_KILL");
    no_random = number_of("CALLS_NO_RANDOM");
    error = getenv("CALLS_ERROR") ? number_of("CALLS_ERROR") : EIO;
    other = getenv("CALLS_OTHER");
    change = getenv("CALLS_CHANGE") ? getenv("CALLS_CHANGE") : "make";
    kept_as = getenv("CALLS_KEPT");
    disk = getenv("CALLS_DISK");
    /* Out of the way of the program's own descriptors. */
    long file = syscall(SYS_openat, AT_FDCWD, path, O_WRONLY | O_APPEND | O_CREAT, 0666);
    told = syscall(SYS_fcntl, file, F_DUPFD_CLOEXEC, FIRST_FREE);
    syscall(SYS_close, file);
    if (disk)
        read_disk();
    requests = getenv("CALLS_REQUESTS");
    allocations = 0;
    no_more = number_of("CALLS_NO_MORE");
    no_memory = number_of("CALLS_NO_MEMORY");
}

/* ---- what a call touches; nothing where it is not to be told of */

static int is_log(const char *path)
{
    const char *slash = strrchr(path, '/');
    return !strcmp(slash ? slash + 1 : path, log_name);
}

/* What the system puts behind the path of an open file whose name was removed. */
static const char removed[] = " (deleted)";

/* Takes that away from a path of so many bytes. */
static void without_mark(char *path, size_t size)
{
    size_t mark = sizeof removed - 1;
    if (size > mark && !strcmp(path + size - mark, removed))
        path[size - mark] = 0;
}

/* Whether a path is that of the log's folder, which is the present one. */
static int is_folder(const char *path)
{
    struct stat found, present;
    return !stat(path, &found) && !stat(".", &present) && found.st_dev == present.st_dev
        && found.st_ino == present.st_ino;
}

static const char *at_path(const char *path)
{
    return is_log(path) ? "log" : is_folder(path) ? "folder" : NULL;
}

static const char *at_file(int file)
{
    char link[64], path[4096];
    snprintf(link, sizeof link, "/proc/self/fd/%d", file);
    long size = syscall(SYS_readlinkat, AT_FDCWD, link, path, sizeof path - 1);
    if (size < 0)
        return file == STDIN_FILENO ? "input" : file == STDOUT_FILENO ? "output" : NULL;
    path[size] = 0;
    without_mark(path, size);
    if (is_log(path))
        return "log";
    if (file <= STDERR_FILENO)
        return file == STDIN_FILENO ? "input" : file == STDOUT_FILENO ? "output" : NULL;
    return is_folder(path) ? "folder" : NULL;
}

/* ---- the disk below the system's memory of the log */

/* A write since the last sync: its place in the log, and where its bytes are kept. */
struct written {
    size_t at, size, kept;
};

/* What was synced; the bytes of the writes since. */
static char synced[MAX_LOG_BYTES], kept[MAX_LOG_BYTES];
static size_t synced_size, kept_size;
static struct written writes[MAX_WRITES];
static size_t write_count;
static int is_named;

static void die(const char *what)
{
    perror(what);
    syscall(SYS_exit_group, BROKEN);
}

/* The bytes of a file, as far as there is room; NEVER where there is none. */
static long read_file(const char *path, char *to, size_t room)
{
    long file = syscall(SYS_openat, AT_FDCWD, path, O_RDONLY | O_CLOEXEC, 0);
    if (file < 0)
        return NEVER;
    long size = syscall(SYS_pread64, file, to, room, 0);
    syscall(SYS_close, file);
    if (size < 0 || (size_t)size == room)
        die("disk_calls: a log that is too long");
    return size;
}

static void add_write(size_t at, const char *bytes, size_t size)
{
    if (write_count == MAX_WRITES || kept_size + size > MAX_LOG_BYTES || at + size > MAX_LOG_BYTES)
        die("disk_calls: too many writes");
    memcpy(kept + kept_size, bytes, size);
    writes[write_count++] = (struct written){ at, size, kept_size };
    kept_size += size;
}

/* What runs before this one have written and not synced is there still. */
static void read_disk(void)
{
    long size = read_file(disk, synced, sizeof synced), at = 2;
    if (size < at)
        die("disk_calls: the disk");
    is_named = synced[0];
    for (int count = synced[1]; count > 0; count--) {
        uint32_t place[2];
        memcpy(place, synced + at, sizeof place);
        at += sizeof place;
        add_write(place[0], synced + at, place[1]);
        at += place[1];
    }
    synced_size = size - at;
    memmove(synced, synced + at, synced_size);
}

static void put(long file, const void *bytes, size_t size)
{
    if (syscall(SYS_write, file, bytes, size) != (long)size)
        die("disk_calls: the disk");
}

static void write_disk(void)
{
    long file = syscall(SYS_openat, AT_FDCWD, disk, O_WRONLY | O_CREAT | O_TRUNC | O_CLOEXEC, 0666);
    char first[] = { is_named, write_count };
    put(file, first, sizeof first);
    for (size_t n = 0; n < write_count; n++) {
        uint32_t place[] = { writes[n].at, writes[n].size };
        put(file, place, sizeof place);
        put(file, kept + writes[n].kept, writes[n].size);
    }
    put(file, synced, synced_size);
    syscall(SYS_close, file);
}

/* The log is synced: all that it holds is sure to be on the disk. */
static void sync_log(void)
{
    long size = read_file(log_name, synced, sizeof synced);
    synced_size = size < 0 ? 0 : size;
    write_count = kept_size = 0;
}

__attribute__((destructor)) static void end(void)
{
    if (told >= 0 && disk)
        write_disk();
    if (told >= 0 && requests) {
        char count[32];
        int length = snprintf(count, sizeof count, "%ld", allocations);
        long file = syscall(SYS_openat, AT_FDCWD, requests, O_WRONLY | O_CREAT | O_TRUNC | O_CLOEXEC, 0666);
        put(file, count, length);
        syscall(SYS_close, file);
    }
}

/* ---- what another program does to the log */

static void add_to_size(int bytes)
{
    struct stat found;
    if (stat(log_name, &found) || syscall(SYS_truncate, log_name, found.st_size + bytes))
        die("disk_calls: the log's size");
}

/* Puts a file with the same bytes in the place of the log. */
static void renew(void)
{
    static char copied[MAX_LOG_BYTES];
    static const char *renewed = "renewed";
    long size = read_file(log_name, copied, sizeof copied);
    long file = syscall(SYS_openat, AT_FDCWD, renewed, O_WRONLY | O_CREAT | O_EXCL | O_CLOEXEC, 0666);
    put(file, copied, size < 0 ? 0 : size);
    syscall(SYS_close, file);
    syscall(SYS_rename, renewed, log_name);
}

static void change_log(void)
{
    if (kept_as)
        syscall(SYS_linkat, AT_FDCWD, log_name, AT_FDCWD, kept_as, 0);
    if (!strcmp(change, "make"))
        syscall(SYS_linkat, AT_FDCWD, other, AT_FDCWD, log_name, 0);
    else if (!strcmp(change, "remove"))
        syscall(SYS_unlink, log_name);
    else if (!strcmp(change, "replace"))
        syscall(SYS_rename, other, log_name);
    else if (!strcmp(change, "renew"))
        renew();
    else if (!strcmp(change, "empty"))
        syscall(SYS_truncate, log_name, 0);
    else
        add_to_size(strcmp(change, "cut") ? 1 : -1);
}

/* ---- telling, and deciding */

/* What is done with a call of this name. */
static enum action next(const char *name, const char *what)
{
    static const char *failed;
    if (told < 0 || !what)
        return MAKE;
    if (calls == killing) {
        end();
        syscall(SYS_kill, syscall(SYS_getpid), SIGKILL);
    }
    if (calls == before)
        change_log();
    if (calls == back)
        syscall(SYS_rename, kept_as, log_name);
    if (calls == failing)
        failed = name;
    if (failed && !strcmp(name, failed) && times-- > 0)
        return FAIL;
    return calls == shorter ? SHORT : calls == nothing ? NOTHING : MAKE;
}

static long tell(const char *name, const char *what, const char *format, long at, long size, long result)
{
    int before_it = errno;
    char place[32], line[128];
    if (told < 0 || !what)
        return result;
    snprintf(place, sizeof place, format, at);
    int length = snprintf(line, sizeof line, "%ld %s %s %s %ld %ld\n", calls++, name, what, place, size, result);
    syscall(SYS_write, told, line, length);
    errno = before_it;
    return result;
}

static long fail(void)
{
    errno = error;
    return -1;
}

/* ---- the calls */

static long move(long call, const char *name, int file, void *bytes, size_t size, off_t at)
{
    const char *what = at_file(file);
    enum action action = next(name, what);
    size_t count = action == SHORT && size ? 1 : size;
    long result = action == FAIL ? fail() : action == NOTHING ? 0 : syscall(call, file, bytes, count, at);
    return tell(name, what, "%ld", at, size, result);
}

static int file_call(long call, const char *name, int file, long word)
{
    const char *what = at_file(file);
    long result = next(name, what) == FAIL ? fail() : syscall(call, file, word);
    return tell(name, what, "%ld", 0, word, result);
}

ssize_t read(int file, void *bytes, size_t size)
{
    return move(SYS_read, "read", file, bytes, size, 0);
}

ssize_t write(int file, const void *bytes, size_t size)
{
    return move(SYS_write, "write", file, (void *)bytes, size, 0);
}

ssize_t pread(int file, void *bytes, size_t size, off_t at)
{
    return move(SYS_pread64, "pread", file, bytes, size, at);
}

/* Of the log what was written is kept until it is synced. */
ssize_t pwrite(int file, const void *bytes, size_t size, off_t at)
{
    ssize_t count = move(SYS_pwrite64, "pwrite", file, (void *)bytes, size, at);
    const char *what = disk && count > 0 ? at_file(file) : NULL;
    if (what && !strcmp(what, "log"))
        add_write(at, bytes, count);
    return count;
}

static int sync_call(long call, const char *name, int file)
{
    int result = file_call(call, name, file, 0);
    const char *what = disk && !result ? at_file(file) : NULL;
    if (what && !strcmp(what, "log"))
        sync_log();
    else if (what && !strcmp(what, "folder"))
        is_named = 1;
    return result;
}

int fsync(int file)
{
    return sync_call(SYS_fsync, "fsync", file);
}

int fdatasync(int file)
{
    return sync_call(SYS_fdatasync, "fdatasync", file);
}

/* What a loss of power leaves of a log that was cut is not said here. */
int ftruncate(int file, off_t size)
{
    if (disk)
        die("disk_calls: the log is cut");
    return file_call(SYS_ftruncate, "ftruncate", file, size);
}

int openat(int folder, const char *path, int flags, ...)
{
    va_list rest;
    va_start(rest, flags);
    long mode = flags & (O_CREAT | O_TMPFILE) ? va_arg(rest, int) : 0;
    va_end(rest);
    const char *what = at_path(path);
    long result = next("open", what) == FAIL ? fail() : syscall(SYS_openat, folder, path, flags, mode);
    return tell("open", what, "%lo", flags, mode, result);
}

int open(const char *path, int flags, ...)
{
    va_list rest;
    va_start(rest, flags);
    int mode = flags & (O_CREAT | O_TMPFILE) ? va_arg(rest, int) : 0;
    va_end(rest);
    return openat(AT_FDCWD, path, flags, mode);
}

int statx(int folder, const char *path, int flags, unsigned mask, struct statx *found)
{
    const char *what = *path ? at_path(path) : at_file(folder), *name = *path ? "statx" : "fstat";
    long result = next(name, what) == FAIL ? fail() : syscall(SYS_statx, folder, path, flags, mask, found);
    return tell(name, what, "%ld", 0, 0, result);
}

int fcntl(int file, int command, ...)
{
    va_list rest;
    va_start(rest, command);
    long word = va_arg(rest, long);
    va_end(rest);
    const char *what = command == F_DUPFD_CLOEXEC ? at_file(file) : NULL;
    long result = next("dup", what) == FAIL ? fail() : syscall(SYS_fcntl, file, command, word);
    return tell("dup", what, "%ld", 0, 0, result);
}

int fchmod(int file, mode_t mode)
{
    return file_call(SYS_fchmod, "fchmod", file, mode);
}

int flock(int file, int asked)
{
    const char *what = at_file(file);
    long result = next("flock", what) == FAIL ? fail() : syscall(SYS_flock, file, asked);
    return tell("flock", what, "%ld", asked, 0, result);
}

int unlink(const char *path)
{
    const char *what = at_path(path);
    long result = next("unlink", what) == FAIL ? fail() : syscall(SYS_unlink, path);
    return tell("unlink", what, "%ld", 0, 0, result);
}

/* The other names that the C library has for the same calls. */
#define SAME(name, as) extern __typeof(as) name __attribute__((alias(#as)))
SAME(pread64, pread);
SAME(pwrite64, pwrite);
SAME(ftruncate64, ftruncate);
SAME(openat64, openat);
SAME(open64, open);
SAME(fcntl64, fcntl);
SAME(__read, read);
SAME(__write, write);
SAME(__open, open);
SAME(__open64, open);
SAME(__pread64, pread);
SAME(__pwrite64, pwrite);
SAME(__fcntl, fcntl);

/* ---- random bytes */

int getentropy(void *bytes, size_t size)
{
    if (no_random != NEVER) {
        errno = EIO;
        return -1;
    }
    return syscall(SYS_getrandom, bytes, size, 0) == (long)size ? 0 : -1;
}

/* ---- memory */

extern void *__libc_malloc(size_t);
extern void *__libc_calloc(size_t, size_t);
extern void *__libc_realloc(void *, size_t);
extern void *__libc_memalign(size_t, size_t);

/* Whether this request is to be refused. */
static int lacks_memory(void)
{
    long number = allocations++;
    if (number != no_memory && (no_more == NEVER || number < no_more))
        return 0;
    errno = ENOMEM;
    return 1;
}

void *malloc(size_t size)
{
    return lacks_memory() ? NULL : __libc_malloc(size);
}

void *calloc(size_t count, size_t size)
{
    return lacks_memory() ? NULL : __libc_calloc(count, size);
}

void *realloc(void *block, size_t size)
{
    return lacks_memory() ? NULL : __libc_realloc(block, size);
}

void *memalign(size_t alignment, size_t size)
{
    return lacks_memory() ? NULL : __libc_memalign(alignment, size);
}

void *aligned_alloc(size_t alignment, size_t size)
{
    return memalign(alignment, size);
}

int posix_memalign(void **block, size_t alignment, size_t size)
{
    void *made = memalign(alignment, size);
    if (!made)
        return ENOMEM;
    *block = made;
    return 0;
}

/* Memory that is no file; the C library takes its own otherwise. */
void *mmap(void *at, size_t size, int rights, int flags, int file, off_t offset)
{
    if (flags & MAP_ANONYMOUS && lacks_memory())
        return MAP_FAILED;
    return (void *)syscall(SYS_mmap, at, size, rights, flags, file, offset);
}

SAME(mmap64, mmap);
