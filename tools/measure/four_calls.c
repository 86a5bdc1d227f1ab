/* Appends the frames of a block file to a log by the four calls that the log needs for each (write,
 * sync, write, sync), and nothing else: no block is read, run or told. For tools/measure/measure-log.
 *
 *     four_calls LOG < BLOCKS */
#include <fcntl.h>
#include <stdint.h>
#include <stdio.h>
#include <unistd.h>

enum { LENGTH_BYTES = 4, MAX_BLOCK_BYTES = 1048576 };

static const uint8_t open_gate = 0xa5;

static void die(const char *what)
{
    perror(what);
    _exit(1);
}

static void put(int file, const void *bytes, size_t count, off_t at)
{
    if (pwrite(file, bytes, count, at) != (ssize_t)count)
        die("write");
    if (fdatasync(file) != 0)
        die("sync");
}

int main(int count, char **words)
{
    static uint8_t record[LENGTH_BYTES + MAX_BLOCK_BYTES + 1];
    int file = count == 2 ? open(words[1], O_RDWR | O_CREAT | O_EXCL, 0644) : -1;
    if (file < 0)
        die("open");
    put(file, "\0", 1, 0);
    put(file, "LCLOG1\n", 8, 1);
    put(file, &open_gate, 1, 0);
    off_t gate = 8;
    while (fread(record, 1, LENGTH_BYTES, stdin) == LENGTH_BYTES) {
        size_t length = (size_t)record[0] << 24 | record[1] << 16 | record[2] << 8 | record[3];
        if (length > MAX_BLOCK_BYTES || fread(record + LENGTH_BYTES, 1, length, stdin) != length)
            return 1;
        record[LENGTH_BYTES + length] = 0;
        put(file, record, LENGTH_BYTES + length + 1, gate + 1);
        put(file, &open_gate, 1, gate);
        gate += 1 + LENGTH_BYTES + length;
    }
    return 0;
}
