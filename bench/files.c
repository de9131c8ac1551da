/*
 * What bench/files.sh needs.
 *
 *     files header BYTES       prints the header of a WAV file with so many bytes of samples, of one channel of 16 bits
 *                              at 48 kHz: of RF64 (EBU Tech 3306) where they don't fit into RIFF
 *     files delay A B MS       makes a network device `far` in each of the network namespaces A and B, and forwards what
 *                              one sends to the other MS milliseconds later, until it is ended
 *
 * A frame that finds the queue full is dropped, as a router would.
 */
#define _GNU_SOURCE
#include <fcntl.h>
#include <linux/if.h>
#include <linux/if_tun.h>
#include <poll.h>
#include <sched.h>
#include <stdint.h>
#include <stdio.h>
#include <stdlib.h>
#include <string.h>
#include <sys/ioctl.h>
#include <time.h>
#include <unistd.h>

enum { LONGEST_FRAME = 9216, MOST_FRAMES = 16384, RIFF_HEAD = 36, RF64_HEAD = 72 };

static void fail(const char *what) {
    perror(what);
    exit(1);
}

static void put(uint64_t number, int width) {
    for (int i = 0; i < width; i++) putchar((int)(number >> (8 * i) & 255));
}

static void print_header(uint64_t bytes) {
    int is_long = bytes + RIFF_HEAD > UINT32_MAX;
    fputs(is_long ? "RF64" : "RIFF", stdout);
    put(is_long ? UINT32_MAX : bytes + RIFF_HEAD, 4);
    fputs("WAVE", stdout);
    if (is_long) {
        fputs("ds64", stdout);
        put(28, 4);
        put(bytes + RF64_HEAD, 8);
        put(bytes, 8);
        put(bytes / 2, 8);
        put(0, 4);
    }
    fputs("fmt ", stdout);
    put(16, 4);
    put(1, 2);
    put(1, 2);
    put(48000, 4);
    put(96000, 4);
    put(2, 2);
    put(16, 2);
    fputs("data", stdout);
    put(is_long ? UINT32_MAX : bytes, 4);
}

static int device_in(const char *space) {
    char path[256];
    snprintf(path, sizeof path, "/var/run/netns/%s", space);
    int file = open(path, O_RDONLY);
    if (file < 0 || setns(file, CLONE_NEWNET)) fail(path);
    close(file);
    struct ifreq wanted = {.ifr_flags = IFF_TAP | IFF_NO_PI};
    strcpy(wanted.ifr_name, "far");
    int device = open("/dev/net/tun", O_RDWR | O_NONBLOCK);
    if (device < 0 || ioctl(device, TUNSETIFF, &wanted)) fail("/dev/net/tun");
    return device;
}

static int64_t now(void) {
    struct timespec time;
    clock_gettime(CLOCK_MONOTONIC, &time);
    return time.tv_sec * 1000000000LL + time.tv_nsec;
}

struct frame {
    int64_t due;
    ssize_t length;
    uint8_t bytes[LONGEST_FRAME];
};

/* The frames that are under way in one direction, the first at `first`. */
struct line {
    int from;
    int to;
    size_t first;
    size_t count;
    struct frame *frames;
};

static void take_frames(struct line *line, int64_t delay) {
    static uint8_t dropped[LONGEST_FRAME];
    for (;;) {
        struct frame *next = &line->frames[(line->first + line->count) % MOST_FRAMES];
        int is_full = line->count == MOST_FRAMES;
        ssize_t length = read(line->from, is_full ? dropped : next->bytes, LONGEST_FRAME);
        if (length <= 0) return;
        if (is_full) continue;
        next->length = length;
        next->due = now() + delay;
        line->count++;
    }
}

static void bring_frames(struct line *line) {
    int64_t time = now();
    while (line->count && line->frames[line->first].due <= time) {
        struct frame *frame = &line->frames[line->first];
        if (write(line->to, frame->bytes, (size_t)frame->length) < 0) { /* it is dropped */
        }
        line->first = (line->first + 1) % MOST_FRAMES;
        line->count--;
    }
}

static void forward(int a, int b, int64_t delay) {
    struct line lines[2] = {{.from = a, .to = b}, {.from = b, .to = a}};
    for (int i = 0; i < 2; i++) {
        lines[i].frames = malloc(MOST_FRAMES * sizeof(struct frame));
        if (!lines[i].frames) fail("memory");
    }
    for (;;) {
        int64_t wait = 100000000, time = now();
        for (int i = 0; i < 2; i++) {
            if (!lines[i].count) continue;
            int64_t left = lines[i].frames[lines[i].first].due - time;
            if (left < wait) wait = left < 0 ? 0 : left;
        }
        struct pollfd files[2] = {{.fd = a, .events = POLLIN}, {.fd = b, .events = POLLIN}};
        struct timespec most = {.tv_nsec = wait};
        ppoll(files, 2, &most, 0);
        for (int i = 0; i < 2; i++) {
            take_frames(&lines[i], delay);
            bring_frames(&lines[i]);
        }
    }
}

int main(int count, char **words) {
    if (count == 3 && !strcmp(words[1], "header")) {
        print_header(strtoull(words[2], 0, 10));
        return 0;
    }
    if (count == 5 && !strcmp(words[1], "delay")) {
        int a = device_in(words[2]);
        forward(a, device_in(words[3]), (int64_t)(strtod(words[4], 0) * 1e6));
    }
    return 1;
}
