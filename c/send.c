/* A recorder's client over sockets, with libbwi: sends a file of samples as a take, over as many links as it takes.
 *
 *   cc -O2 -o send send.c libbwi.a
 *   send HOST PORT NAME RATE CHANNELS BITS FILE
 *
 * Request 0 is the OPEN, each block of FILE is one, and the CLOSE is the last. Started again after it was killed, it asks
 * the server which number comes next, and goes on from there. Status 0: the CLOSE is stored, so the server has as many
 * frames as FILE. 1: a request was refused. 2: a bad command line, or FILE can't be read. */
#define _POSIX_C_SOURCE 200809L
#include "bwi.h"

#include <netdb.h>
#include <stdio.h>
#include <stdlib.h>
#include <string.h>
#include <sys/socket.h>
#include <sys/time.h>
#include <time.h>
#include <unistd.h>

/* What is kept of a request until it is settled: its frame is the head and then the payload. */
struct kept {
    uint8_t head[BWI_LONGEST_HEAD];
    size_t head_len;
    const uint8_t *payload;
    size_t payload_len;
};

static struct kept kept[BWI_WINDOW]; /* by number, modulo the window */
static bwi_sender sender;
static uint8_t in[4096]; /* bytes that were read and aren't taken yet */
static size_t in_len;
static uint8_t *samples;
static size_t samples_len, block_len, frame_len;
static uint32_t rate, total; /* how many requests there are */
static uint16_t channels, bits;

static int link_to(const char *host, const char *port)
{
    struct addrinfo hints = {.ai_socktype = SOCK_STREAM}, *found, *it;
    struct timeval patience = {.tv_sec = 10};
    int fd = -1;
    if (getaddrinfo(host, port, &hints, &found))
        return -1;
    for (it = found; it && fd < 0; it = it->ai_next) {
        fd = socket(it->ai_family, it->ai_socktype, it->ai_protocol);
        if (fd >= 0 && connect(fd, it->ai_addr, it->ai_addrlen)) {
            close(fd);
            fd = -1;
        }
    }
    freeaddrinfo(found);
    if (fd >= 0) /* a link over which nothing comes is as good as a broken one */
        setsockopt(fd, SOL_SOCKET, SO_RCVTIMEO, &patience, sizeof patience);
    in_len = 0;
    return fd;
}

static bool put(int fd, const uint8_t *bytes, size_t len)
{
    while (len > 0) {
        ssize_t n = send(fd, bytes, len, MSG_NOSIGNAL);
        if (n <= 0)
            return false;
        bytes += n;
        len -= (size_t)n;
    }
    return true;
}

/* Takes the next reply. False: the link is broken. */
static bool hear(int fd, bwi_reply *reply)
{
    for (;;) {
        size_t used = bwi_hear(&sender, in, in_len, reply);
        ssize_t n;
        if (used > 0) {
            in_len -= used;
            memmove(in, in + used, in_len);
            return true;
        }
        if (reply->kind == BWI_NO_REPLY)
            return false;
        n = recv(fd, in + in_len, sizeof in - in_len, 0);
        if (n <= 0)
            return false;
        in_len += (size_t)n;
    }
}

/* Asks which number comes next, and begins there. The CLOSE is always sent, so that its verdict is heard. */
static bool ask(int fd, const char *name)
{
    uint8_t frame[BWI_LONGEST_HEAD];
    bwi_reply reply;
    if (!put(fd, frame, bwi_ask(&sender, frame, sizeof frame)))
        return false;
    do {
        if (!hear(fd, &reply))
            return false;
    } while (reply.heard != BWI_NOTED || reply.code != BWI_NEXT);
    return bwi_begin(&sender, (const uint8_t *)name, strlen(name), reply.next < total ? reply.next : total - 1);
}

/* Offers the next request, and keeps it. */
static void offer(void)
{
    struct kept *k = &kept[sender.offered % BWI_WINDOW];
    k->payload = samples; /* of an OPEN without a history and of a CLOSE nothing follows */
    k->payload_len = 0;
    if (sender.offered == 0) {
        k->head_len = bwi_open_head(&sender, rate, channels, bits, samples, 0, k->head, sizeof k->head);
    } else if (sender.offered == total - 1) {
        k->head_len = bwi_close(&sender, samples_len / frame_len, k->head, sizeof k->head);
    } else {
        size_t at = (size_t)(sender.offered - 1) * block_len;
        k->payload = samples + at;
        k->payload_len = samples_len - at < block_len ? samples_len - at : block_len;
        k->head_len = bwi_block_head(&sender, k->payload, k->payload_len, k->head, sizeof k->head);
    }
}

static bool write_kept(int fd, uint32_t number)
{
    const struct kept *k = &kept[number % BWI_WINDOW];
    return put(fd, k->head, k->head_len) && put(fd, k->payload, k->payload_len);
}

/* Sends over one link until all is settled. False: it broke, or the server couldn't take a request now. */
static bool exchange(int fd)
{
    uint8_t bye[5];
    uint32_t n;
    bwi_reply reply;
    for (n = sender.settled; n < sender.offered; n++)
        if (bwi_is_pending(&sender, n) && !write_kept(fd, n))
            return false;
    while (sender.settled < total) {
        while (sender.offered < total && sender.offered - sender.settled < BWI_WINDOW) {
            offer();
            if (!write_kept(fd, sender.offered - 1))
                return false;
        }
        if (!hear(fd, &reply))
            return false;
        if (reply.heard == BWI_COUNTED && reply.code != BWI_STORED) {
            fprintf(stderr, "send: request %u refused, code %u\n", reply.number, reply.code);
            exit(1);
        }
        if (reply.kind == BWI_NOTICE && (reply.code == 33 || reply.code == 34)) { /* TooFar, Conflict */
            fprintf(stderr, "send: the server has another take of this name\n");
            exit(1);
        }
        if (reply.kind == BWI_BAD_FRAME || (reply.kind == BWI_NOTICE && reply.code != 32)) /* all but Held */
            return false;
    }
    put(fd, bye, bwi_bye(bye, sizeof bye)); /* the server is to see an end, and not a cut */
    return true;
}

static bool read_samples(const char *path)
{
    FILE *file = fopen(path, "rb");
    size_t room = 1 << 20, n;
    if (!file || !(samples = malloc(room)))
        return false;
    while ((n = fread(samples + samples_len, 1, room - samples_len, file)) > 0) {
        samples_len += n;
        if (samples_len == room && !(samples = realloc(samples, room *= 2)))
            return false;
    }
    return !ferror(file) && !fclose(file);
}

int main(int count, char **words)
{
    long pause_ms = 100;
    bool begun = false, done = false;
    if (count != 8 || !bwi_begin(&sender, (const uint8_t *)words[3], strlen(words[3]), 0)) {
        fprintf(stderr, "send HOST PORT NAME RATE CHANNELS BITS FILE\n");
        return 2;
    }
    rate = (uint32_t)atol(words[4]);
    channels = (uint16_t)atoi(words[5]);
    bits = (uint16_t)atoi(words[6]);
    frame_len = (size_t)channels * ((bits + 7u) / 8u);
    if (frame_len == 0 || frame_len > 32768 || !read_samples(words[7]) || samples_len % frame_len != 0) {
        fprintf(stderr, "send: no format, or no file of whole frames\n");
        return 2;
    }
    block_len = 32768 / frame_len * frame_len;
    total = 2 + (uint32_t)((samples_len + block_len - 1) / block_len);
    while (!done) {
        int fd = link_to(words[1], words[2]);
        uint32_t settled = sender.settled;
        if (fd >= 0) {
            begun = begun || ask(fd, words[3]);
            done = begun && exchange(fd);
            close(fd);
        }
        if (!done) {
            struct timespec rest = {pause_ms / 1000, pause_ms % 1000 * 1000000};
            nanosleep(&rest, NULL);
            pause_ms = sender.settled > settled ? 100 : pause_ms < 2500 ? 2 * pause_ms : 5000;
        }
    }
    printf("settled %u of %u requests\n", sender.settled, total);
    return 0;
}
