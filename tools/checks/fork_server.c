/* Runs a program over many cases, one after another, each in a fork of its own. Loaded before the program by
 * LD_PRELOAD, it stops it before `main`, and each fork goes on from there with the words, the input and the log
 * of its case. So what a start costs is paid once. For tools/checks/fork_server.py.
 *
 *     SERVER_CASES=FILE    the number of the descriptor from which cases are read
 *     SERVER_RESULTS=FILE  the number of the one to which results are written
 *     SERVER_SECONDS=N     how much time of the processor a case may take
 *
 * The program is started with as many words as a case may have; the log is the file chain.log of the present
 * folder. Cases come in batches: how many there are, and then of each, with numbers of four bytes in the order of
 * the machine: how many words there are, the program's own name not counted; each word and the input, with its
 * length before it; the log in the same way, or NO_LOG; and how many kibibytes of memory the case may have. A batch
 * is answered, in one piece, when all of it has run: of each case the status as wait(2) gives it; the greatest
 * memory in kibibytes; how much of the input was read; what was printed, with its length; and the log after it:
 * SAME, NO_LOG, or its length and its bytes. */
#define _GNU_SOURCE
#include <errno.h>
#include <fcntl.h>
#include <signal.h>
#include <stdint.h>
#include <stdio.h>
#include <stdlib.h>
#include <string.h>
#include <sys/mman.h>
#include <sys/resource.h>
#include <sys/stat.h>
#include <sys/wait.h>
#include <unistd.h>

enum { MAX_WORDS = 16, FIRST_FREE = 500, WALL_TIMES = 30, MAX_FILE_BYTES = 1 << 28 };
#define NO_LOG UINT32_MAX
#define SAME (UINT32_MAX - 1)

static const char log_name[] = "chain.log";
static int cases = -1, results = -1, input = -1, output = -1;
static rlim_t seconds;

static void die(const char *what)
{
    perror(what);
    _exit(1);
}

/* ---- bytes that come and go */

struct bytes {
    char *at;
    size_t size, room;
};

/* The place of so many more bytes at the end; what is there moves. */
static char *more(struct bytes *bytes, size_t count)
{
    if (bytes->size + count > bytes->room) {
        bytes->room = 2 * (bytes->size + count);
        bytes->at = realloc(bytes->at, bytes->room);
        if (!bytes->at)
            die("fork_server: memory");
    }
    bytes->size += count;
    return bytes->at + bytes->size - count;
}

static void add_number(struct bytes *bytes, uint32_t number)
{
    memcpy(more(bytes, sizeof number), &number, sizeof number);
}

static void add_file(struct bytes *bytes, int file, size_t size)
{
    add_number(bytes, size);
    if (pread(file, more(bytes, size), size, 0) != (ssize_t)size)
        die("fork_server: pread");
}

/* Reads so many bytes; no more cases are to come where there is none of them. */
static void read_all(void *to, size_t size)
{
    for (size_t got = 0; got < size;) {
        ssize_t count = read(cases, (char *)to + got, size - got);
        if (count == 0)
            _exit(0);
        if (count < 0 && errno != EINTR)
            die("fork_server: read");
        got += count > 0 ? count : 0;
    }
}

static uint32_t read_number(void)
{
    uint32_t number;
    read_all(&number, sizeof number);
    return number;
}

/* A piece with its length before it, and a zero behind it. */
static struct bytes read_piece(uint32_t size)
{
    struct bytes piece = { NULL, 0, 0 };
    char *to = more(&piece, (size_t)size + 1);
    read_all(to, size);
    to[size] = 0;
    piece.size = size;
    return piece;
}

static void write_all(int file, const char *from, size_t size)
{
    while (size) {
        ssize_t count = write(file, from, size);
        if (count < 0 && errno != EINTR)
            die("fork_server: write");
        from += count > 0 ? count : 0;
        size -= count > 0 ? count : 0;
    }
}

/* Makes a file hold these bytes, and be read and written from its first one. */
static void fill(int file, const char *from, size_t size)
{
    if (ftruncate(file, 0) || lseek(file, 0, SEEK_SET))
        die("fork_server: fill");
    write_all(file, from, size);
    if (lseek(file, 0, SEEK_SET))
        die("fork_server: seek");
}

/* ---- a case */

static void put_log(const struct bytes *log)
{
    if (!log->at) {
        unlink(log_name);
        return;
    }
    int file = open(log_name, O_WRONLY | O_CREAT | O_TRUNC | O_CLOEXEC, 0666);
    if (file < 0)
        die("fork_server: open");
    write_all(file, log->at, log->size);
    close(file);
}

static void tell_log(struct bytes *told, const struct bytes *before)
{
    struct stat found;
    int file = open(log_name, O_RDONLY | O_CLOEXEC);
    if (file < 0 || fstat(file, &found)) {
        add_number(told, before->at ? NO_LOG : SAME);
        return;
    }
    size_t start = told->size;
    add_file(told, file, found.st_size);
    close(file);
    const char *after = told->at + start + sizeof(uint32_t);
    if (before->at && before->size == (size_t)found.st_size && !memcmp(before->at, after, before->size)) {
        told->size = start;
        add_number(told, SAME);
    }
}

static void limit(int of, rlim_t to)
{
    struct rlimit both = { to, to };
    if (setrlimit(of, &both))
        die("fork_server: setrlimit");
}

/* What a fork does before it goes on as the program. */
static void begin_case(uint32_t kibibytes)
{
    if (dup2(input, STDIN_FILENO) < 0 || dup2(output, STDOUT_FILENO) < 0)
        die("fork_server: dup2");
    for (int file = FIRST_FREE; file <= output; file++)
        close(file);
    struct rlimit time = { seconds, seconds + 1 };
    if (setrlimit(RLIMIT_CPU, &time))
        die("fork_server: setrlimit");
    limit(RLIMIT_CORE, 0);
    limit(RLIMIT_FSIZE, MAX_FILE_BYTES);
    alarm(WALL_TIMES * seconds);
    limit(RLIMIT_AS, (rlim_t)kibibytes << 10);
}

/* Runs the next case: true in the fork that is to go on as the program. */
static int run_case(char **argv, struct bytes *told)
{
    struct bytes words[MAX_WORDS], source, log = { NULL, 0, 0 };
    uint32_t count = read_number();
    if (count > MAX_WORDS)
        die("fork_server: too many words");
    for (uint32_t n = 0; n < count; n++)
        words[n] = read_piece(read_number());
    source = read_piece(read_number());
    uint32_t size = read_number();
    if (size != NO_LOG)
        log = read_piece(size);
    uint32_t kibibytes = read_number();
    fill(input, source.at, source.size);
    fill(output, NULL, 0);
    put_log(&log);
    pid_t fork_id = fork();
    if (fork_id < 0)
        die("fork_server: fork");
    if (fork_id == 0) {
        begin_case(kibibytes);
        /* On the stack the number of the words stands before them, and `_start` reads it from there. */
        ((long *)argv)[-1] = 1 + count;
        for (uint32_t n = 0; n < count; n++)
            argv[1 + n] = words[n].at;
        argv[1 + count] = NULL;
        return 1;
    }
    int status;
    struct rusage used;
    while (wait4(fork_id, &status, 0, &used) < 0)
        if (errno != EINTR)
            die("fork_server: wait");
    struct stat printed;
    if (fstat(output, &printed))
        die("fork_server: stat");
    add_number(told, status);
    add_number(told, used.ru_maxrss);
    add_number(told, lseek(input, 0, SEEK_CUR));
    add_file(told, output, printed.st_size);
    tell_log(told, &log);
    for (uint32_t n = 0; n < count; n++)
        free(words[n].at);
    free(source.at);
    free(log.at);
    return 0;
}

static int file_of(const char *name)
{
    const char *number = getenv(name);
    int file = number ? fcntl(atoi(number), F_DUPFD_CLOEXEC, FIRST_FREE) : -1;
    if (number)
        close(atoi(number));
    return file;
}

/* Serves batches until there are no more; comes back in each fork. */
__attribute__((constructor)) static void serve(int argc, char **argv)
{
    (void)argc;
    cases = file_of("SERVER_CASES");
    if (cases < 0)
        return;
    results = file_of("SERVER_RESULTS");
    seconds = atoi(getenv("SERVER_SECONDS"));
    int made = memfd_create("input", 0);
    input = fcntl(made, F_DUPFD, FIRST_FREE);
    close(made);
    made = memfd_create("output", 0);
    output = fcntl(made, F_DUPFD, FIRST_FREE);
    close(made);
    if (results < 0 || input < 0 || output < 0)
        die("fork_server: descriptors");
    struct bytes told = { NULL, 0, 0 };
    for (;;) {
        told.size = 0;
        uint32_t count = read_number();
        for (uint32_t n = 0; n < count; n++)
            if (run_case(argv, &told))
                return;
        write_all(results, told.at, told.size);
    }
}
