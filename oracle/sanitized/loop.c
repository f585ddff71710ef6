// Runs the log program once for each log of a pack on standard input, in one process, and holds what it writes to the answer beside the log.
// A pack is made by `compare --logs N --pack FILE`: for each log two lengths of eight bytes, the log and the answer; at its end two of 2^64 - 1.
#define _GNU_SOURCE
#include <stdint.h>
#include <stdio.h>
#include <stdlib.h>
#include <string.h>
#include <sys/mman.h>
#include <unistd.h>

// The program's `main` under another name.
int framelog(void);

static void fail(const char *what, uint64_t log) {
    fprintf(stderr, "sanitized: %s at log %llu\n", what, (unsigned long long)log);
    exit(1);
}

static uint8_t *part(FILE *pack, uint64_t size, uint64_t log) {
    uint8_t *bytes = malloc(size + 1);
    if (!bytes || fread(bytes, 1, size, pack) != size) fail("the pack ends early", log);
    return bytes;
}

// An empty file in memory in place of standard input or output.
static void replace(int with, int fd) {
    if (ftruncate(with, 0) || lseek(with, 0, SEEK_SET) || dup2(with, fd) != fd) fail("no file in memory", 0);
}

int main(void) {
    FILE *pack = fdopen(dup(0), "rb"), *told = fdopen(dup(1), "w");
    int input = memfd_create("input", 0), output = memfd_create("output", 0);
    if (!pack || !told || input < 0 || output < 0) fail("no files", 0);
    uint64_t logs = 0, sizes[2];
    for (;; logs++) {
        if (fread(sizes, 8, 2, pack) != 2) fail("the pack ends early", logs);
        if (sizes[0] == UINT64_MAX) break;
        uint8_t *log = part(pack, sizes[0], logs), *answer = part(pack, sizes[1], logs);
        replace(input, 0);
        replace(output, 1);
        if (write(input, log, sizes[0]) != (ssize_t)sizes[0] || lseek(input, 0, SEEK_SET)) fail("the log is not written", logs);
        framelog();
        uint8_t *wrote = malloc(sizes[1] + 1);
        if (!wrote || pread(output, wrote, sizes[1] + 1, 0) != (ssize_t)sizes[1] || memcmp(wrote, answer, sizes[1])) fail("another answer than the Rust's", logs);
        free(log);
        free(answer);
        free(wrote);
    }
    fprintf(told, "%llu logs, the same bytes as the Rust's\n", (unsigned long long)logs);
    return fclose(told);
}
