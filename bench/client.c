/*
 * Sends takes to a server on 127.0.0.1, each over a connection of its own and all at once: OPEN, so many blocks, CLOSE
 * and BYE, with at most 16 messages in flight. It reads verdicts while it writes. Messages and replies are those of
 * docs/FORMATS.md.
 *
 *     client PORT NAME BLOCKS SIZE [RECORDERS [RATE]]
 *
 * The samples are 16 bits wide, so that SIZE is even. With RECORDERS, at most 256, the takes are NAME-0 and so on, and
 * every connection is made before the first byte is sent. With RATE each recorder has so many bytes a second, as a
 * live one does: its messages come at equal times. Recorders begin one after another within the first second, so that
 * they don't all end at once either. Prints how many seconds it took from the first byte to the last verdict, and how
 * fast the slowest recorder was, where the mean of all is 1; with RATE also how many milliseconds a verdict took from
 * its message: half of them, 99 of 100, and all took no more. Where a verdict isn't Stored or a connection breaks, it
 * prints a line and has status 1.
 */
#include <arpa/inet.h>
#include <errno.h>
#include <fcntl.h>
#include <netinet/tcp.h>
#include <poll.h>
#include <stdint.h>
#include <stdio.h>
#include <stdlib.h>
#include <string.h>
#include <sys/socket.h>
#include <time.h>
#include <unistd.h>

enum { WINDOW = 16, LONGEST_BLOCK = 32768, LONGEST_NAME = 32, MOST_NUMBERS = 16777216, MOST_RECORDERS = 256 };
enum { OPEN = 1, BLOCK = 2, CLOSE = 5, BYE = 9, VERDICT = 0x81, STORED = 0, SAMPLE_BYTES = 2 };

static uint8_t samples[LONGEST_BLOCK];

struct take {
    char name[LONGEST_NAME + 1];
    size_t name_length;
    uint32_t blocks;
    size_t size;
};

/* Bytes that wait to be written, from `done` on. */
struct outgoing {
    uint8_t bytes[LONGEST_BLOCK + LONGEST_NAME + 64];
    size_t length;
    size_t done;
};

struct incoming {
    uint8_t bytes[4096];
    size_t length;
};

/* A take on its way: how many of its messages were sent, and how many reported as stored. */
struct recorder {
    struct take take;
    int peer;
    uint32_t sent;
    uint32_t stored;
    struct outgoing out;
    struct incoming in;
    double taken;
    double first;          /* when its first message may be sent */
    double interval;       /* from one message to the next, 0 where it waits for none */
    double begun[WINDOW];  /* when each message under way was */
};

/* How long each verdict took, in seconds. */
static double *waits;
static size_t wait_count;

static void fail(const char *why) {
    fprintf(stderr, "client: %s\n", why);
    exit(1);
}

static void put_number(uint8_t *place, uint64_t value, int bytes) {
    for (int i = 0; i < bytes; i++) {
        place[i] = (uint8_t)(value >> (8 * i));
    }
}

static uint32_t number_at(const uint8_t *place) {
    return place[0] | (uint32_t)place[1] << 8 | (uint32_t)place[2] << 16 | (uint32_t)place[3] << 24;
}

/* Puts the frame of a message with this number: OPEN, then the blocks, then CLOSE. */
static void put_message(struct outgoing *out, const struct take *take, uint32_t number) {
    uint8_t *payload = out->bytes + 4 + 2 + take->name_length + 4;
    uint8_t kind;
    size_t length;
    if (number == 0) {
        kind = OPEN;
        length = 10;
        put_number(payload, 48000, 4);
        put_number(payload + 4, 1, 2);
        put_number(payload + 6, 8 * SAMPLE_BYTES, 2);
        put_number(payload + 8, 0, 2);
    } else if (number <= take->blocks) {
        kind = BLOCK;
        length = take->size;
        memcpy(payload, samples, length);
    } else {
        kind = CLOSE;
        length = 8;
        put_number(payload, (uint64_t)take->blocks * take->size / SAMPLE_BYTES, 8);
    }
    size_t body = 2 + take->name_length + 4 + length;
    put_number(out->bytes, body, 4);
    out->bytes[4] = kind;
    out->bytes[5] = (uint8_t)take->name_length;
    memcpy(out->bytes + 6, take->name, take->name_length);
    put_number(out->bytes + 6 + take->name_length, number, 4);
    out->length = 4 + body;
    out->done = 0;
}

static void put_bye(struct outgoing *out) {
    put_number(out->bytes, 1, 4);
    out->bytes[4] = BYE;
    out->length = 5;
    out->done = 0;
}

static int has_more(const struct outgoing *out) {
    return out->done < out->length;
}

/* Writes what the connection takes now. */
static void write_some(int peer, struct outgoing *out) {
    ssize_t count = send(peer, out->bytes + out->done, out->length - out->done, MSG_NOSIGNAL);
    if (count >= 0) {
        out->done += (size_t)count;
    } else if (errno != EAGAIN) {
        fail("the connection breaks while it is written to");
    }
}

/* Reads what is there. Returns 0 where the server has ended. */
static int read_some(int peer, struct incoming *in) {
    ssize_t count = recv(peer, in->bytes + in->length, sizeof in->bytes - in->length, 0);
    if (count < 0 && errno != EAGAIN) {
        fail("the connection breaks while it is read");
    }
    in->length += count > 0 ? (size_t)count : 0;
    return count != 0;
}

/* Takes out the whole replies, each of which must be the verdict Stored of the next number. */
static uint32_t take_verdicts(struct incoming *in, const struct take *take, uint32_t stored) {
    size_t frame = 4 + 2 + take->name_length + 5;
    size_t place = 0;
    for (; in->length - place >= frame; place += frame, stored++) {
        const uint8_t *reply = in->bytes + place;
        if (number_at(reply) != frame - 4 || reply[4] != VERDICT || number_at(reply + 6 + take->name_length) != stored
            || reply[frame - 1] != STORED) {
            fail("a reply isn't the verdict Stored of the next number");
        }
    }
    memmove(in->bytes, in->bytes + place, in->length - place);
    in->length -= place;
    return stored;
}

static int is_done(const struct recorder *one) {
    return one->stored == one->take.blocks + 2;
}

static double seconds(void) {
    struct timespec now;
    clock_gettime(CLOCK_MONOTONIC, &now);
    return (double)now.tv_sec + (double)now.tv_nsec / 1e9;
}

/* Whether a message is left that the window holds. */
static int may_send(const struct recorder *one) {
    return !has_more(&one->out) && one->sent < one->take.blocks + 2 && one->sent - one->stored < WINDOW;
}

/* When its next message may be sent. */
static double next_time(const struct recorder *one) {
    return one->first + one->interval * one->sent;
}

/* What there is to wait for: nothing where all is stored. */
static struct pollfd waited_for(struct recorder *one, double now) {
    if (may_send(one) && next_time(one) <= now) {
        one->begun[one->sent % WINDOW] = now;
        put_message(&one->out, &one->take, one->sent++);
    }
    short events = (short)(POLLIN | (has_more(&one->out) ? POLLOUT : 0));
    return (struct pollfd){.fd = is_done(one) ? -1 : one->peer, .events = events};
}

/* Goes on with a recorder whose connection is ready so. After the last verdict BYE is sent. */
static void go_on(struct recorder *one, short ready) {
    if (ready & POLLOUT) {
        write_some(one->peer, &one->out);
    }
    if (ready & (POLLIN | POLLERR | POLLHUP)) {
        if (!read_some(one->peer, &one->in)) {
            fail("the server ends too early");
        }
        uint32_t before = one->stored;
        one->stored = take_verdicts(&one->in, &one->take, before);
        for (double now = seconds(); before < one->stored; before++) {
            waits[wait_count++] = now - one->begun[before % WINDOW];
        }
    }
    if (is_done(one)) {
        put_bye(&one->out);
        write_some(one->peer, &one->out);
    }
}

/* For how many milliseconds to wait at most: until the next message of a recorder, without end where none waits. */
static int patience(const struct recorder *recorders, size_t count, double now) {
    double next = -1;
    for (size_t i = 0; i < count; i++) {
        if (may_send(&recorders[i]) && (next < 0 || next_time(&recorders[i]) < next)) {
            next = next_time(&recorders[i]);
        }
    }
    return next < 0 ? -1 : next <= now ? 0 : (int)(1000 * (next - now)) + 1;
}

/* Sends all takes, notes how long each of them took, and returns how long all of them took. */
static double send_takes(struct recorder *recorders, size_t count) {
    static struct pollfd ready[MOST_RECORDERS];
    double start = seconds();
    for (size_t i = 0; i < count; i++) {
        recorders[i].first = start + (recorders[i].interval > 0 ? (double)i / (double)count : 0);
    }
    for (size_t left = count; left > 0;) {
        double now = seconds();
        for (size_t i = 0; i < count; i++) {
            ready[i] = waited_for(&recorders[i], now);
        }
        if (poll(ready, count, patience(recorders, count, now)) < 0) {
            fail("poll");
        }
        for (size_t i = 0; i < count; i++) {
            if (ready[i].fd >= 0 && ready[i].revents) {
                go_on(&recorders[i], ready[i].revents);
                if (is_done(&recorders[i])) {
                    recorders[i].taken = seconds() - start;
                    left--;
                }
            }
        }
    }
    return seconds() - start;
}

static int connect_to(const char *port) {
    struct sockaddr_in address = {.sin_family = AF_INET, .sin_port = htons((uint16_t)atoi(port))};
    address.sin_addr.s_addr = htonl(INADDR_LOOPBACK);
    int peer = socket(AF_INET, SOCK_STREAM, 0);
    int yes = 1;
    if (peer < 0 || connect(peer, (struct sockaddr *)&address, sizeof address) < 0) {
        fail("nobody listens");
    }
    if (setsockopt(peer, IPPROTO_TCP, TCP_NODELAY, &yes, sizeof yes) < 0 || fcntl(peer, F_SETFL, O_NONBLOCK) < 0) {
        fail("the connection can't be set up");
    }
    return peer;
}

static void make_samples(size_t size) {
    uint32_t state = 1;
    for (size_t i = 0; i < size; i++) {
        state = state * 1664525 + 1013904223;
        samples[i] = (uint8_t)(state >> 24);
    }
}

/* The take with this number of so many; one that is alone has the name as it is. */
static struct take take_of(char **words, size_t number, size_t count) {
    struct take take = {.blocks = (uint32_t)strtoul(words[3], NULL, 10), .size = strtoul(words[4], NULL, 10)};
    const char *form = count == 1 ? "%s" : "%s-%zu";
    int length = snprintf(take.name, sizeof take.name, form, words[2], number);
    if (length < 1 || length > LONGEST_NAME || strtoul(words[3], NULL, 10) > MOST_NUMBERS - 2 || take.size < 2
        || take.size > LONGEST_BLOCK || take.size % SAMPLE_BYTES != 0) {
        fail("a name, a count or a size that no take has");
    }
    take.name_length = (size_t)length;
    return take;
}

/* How fast the slowest was, where the mean of all is 1. */
static double slowest(const struct recorder *recorders, size_t count) {
    double sum = 0;
    double least = 1 / recorders[0].taken;
    for (size_t i = 0; i < count; i++) {
        double speed = 1 / recorders[i].taken;
        sum += speed;
        least = speed < least ? speed : least;
    }
    return least * (double)count / sum;
}

static int compared(const void *one, const void *other) {
    double a = *(const double *)one, b = *(const double *)other;
    return (a > b) - (a < b);
}

int main(int count, char **words) {
    static struct recorder recorders[MOST_RECORDERS];
    size_t many = count > 5 ? strtoul(words[5], NULL, 10) : 1;
    double rate = count > 6 ? strtod(words[6], NULL) : 0;
    if (count < 5 || count > 7 || many < 1 || many > MOST_RECORDERS || (count > 6 && !(rate > 0))) {
        fail("usage: client PORT NAME BLOCKS SIZE [RECORDERS [RATE]]");
    }
    for (size_t i = 0; i < many; i++) {
        recorders[i].take = take_of(words, i, many);
        recorders[i].peer = connect_to(words[1]);
        recorders[i].interval = rate > 0 ? (double)recorders[i].take.size / rate : 0;
    }
    waits = calloc(many * ((size_t)recorders[0].take.blocks + 2), sizeof *waits);
    if (!waits) {
        fail("out of memory");
    }
    make_samples(recorders[0].take.size);
    double taken = send_takes(recorders, many);
    printf("%.6f %.3f", taken, slowest(recorders, many));
    if (rate > 0) {
        qsort(waits, wait_count, sizeof *waits, compared);
        printf(" %.3f %.3f %.3f", 1e3 * waits[wait_count / 2], 1e3 * waits[wait_count * 99 / 100],
            1e3 * waits[wait_count - 1]);
    }
    printf("\n");
    for (size_t i = 0; i < many; i++) {
        close(recorders[i].peer);
    }
    return 0;
}
