/* What `serve --journal --sync` asks of a disk, without a server: blocks of 32 KiB to one file and their notes of 52
   bytes to another, each file synced after so many blocks. Prints MB/s of the blocks, and with one argument how many
   milliseconds a sync takes.

   sync FOLDER                     a sync of one byte, the middle of 101
   sync FOLDER BLOCKS A_COMMIT */
#define _GNU_SOURCE
#include <fcntl.h>
#include <stdio.h>
#include <stdlib.h>
#include <string.h>
#include <time.h>
#include <unistd.h>

enum { BLOCK = 32768, NOTE = 52, TIMES = 101 };

static double now(void) {
    struct timespec t;
    clock_gettime(CLOCK_MONOTONIC, &t);
    return (double)t.tv_sec + (double)t.tv_nsec / 1e9;
}

static int made(const char *folder, const char *name) {
    char path[4096];
    snprintf(path, sizeof path, "%s/%s", folder, name);
    int file = open(path, O_CREAT | O_TRUNC | O_WRONLY, 0666);
    if (file < 0) { perror(path); exit(1); }
    return file;
}

static void put(int file, const void *bytes, size_t len) {
    if (write(file, bytes, len) != (ssize_t)len) { perror("write"); exit(1); }
}

static void keep(int file) {
    if (fdatasync(file)) { perror("fdatasync"); exit(1); }
}

static int shorter(const void *a, const void *b) {
    double x = *(const double *)a, y = *(const double *)b;
    return (x > y) - (x < y);
}

int main(int count, char **words) {
    if (count != 2 && count != 4) return 2;
    int takes = made(words[1], "blocks"), notes = made(words[1], "notes");
    static unsigned char block[BLOCK], note[NOTE * 64];
    memset(block, 7, sizeof block);
    memset(note, 9, sizeof note);
    if (count == 2) {
        double took[TIMES];
        for (int i = 0; i < TIMES; i++) {
            double start = now();
            put(notes, note, 1);
            keep(notes);
            took[i] = now() - start;
        }
        qsort(took, TIMES, sizeof *took, shorter);
        printf("%.2f\n", 1000 * took[TIMES / 2]);
        return 0;
    }
    long blocks = atol(words[2]), a_commit = atol(words[3]);
    if (a_commit < 1 || a_commit > 64) return 2;
    double start = now();
    for (long i = 0; i < blocks; i += a_commit) {
        for (long j = 0; j < a_commit; j++) put(takes, block, BLOCK);
        keep(takes);
        put(notes, note, (size_t)(NOTE * a_commit));
        keep(notes);
    }
    printf("%.1f\n", (double)blocks * BLOCK / (now() - start) / 1e6);
    return 0;
}
