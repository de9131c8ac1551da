/*
 * Makes the system calls that `serve --recorders` makes for the takes of bench/client.c, and does nothing else: it takes
 * frames from its peers, seeks and writes the samples of each block and two sizes of the header into FOLDER/NAME.wav,
 * syncs the file at CLOSE, and replies Stored to each message. There is no digest and no check, so its rate is the most
 * that these calls allow. Messages and replies are those of docs/FORMATS.md.
 *
 *     calls PORT FOLDER EXCHANGES
 *
 * Prints `listening` once it listens, and ends after so many exchanges, at most 256.
 */
#include <arpa/inet.h>
#include <fcntl.h>
#include <netinet/tcp.h>
#include <stdint.h>
#include <stdio.h>
#include <stdlib.h>
#include <string.h>
#include <sys/epoll.h>
#include <sys/socket.h>
#include <unistd.h>

enum { MOST_PEERS = 256, PIECE = 262480, HEADER = 730, LONGEST_NAME = 32, REPLY = 4 + 2 + LONGEST_NAME + 5 };
enum { BLOCK = 2, CLOSE = 5, BYE = 9, VERDICT = 0x81 };

/* A connection: what came and isn't answered, and the file of its take. */
struct peer {
    int socket;
    int file;
    size_t held;
    uint64_t samples;
    uint8_t bytes[2 * PIECE];
};

static char *folder;

static void fail(const char *why) {
    perror(why);
    exit(1);
}

static uint32_t number_at(const uint8_t *place) {
    return place[0] | (uint32_t)place[1] << 8 | (uint32_t)place[2] << 16 | (uint32_t)place[3] << 24;
}

static void write_at(int file, uint64_t place, const void *bytes, size_t count) {
    if (lseek(file, (off_t)place, SEEK_SET) < 0 || write(file, bytes, count) != (ssize_t)count) {
        fail("the file");
    }
}

/* The file of the take of this message, with a header of zeros. */
static int file_of(const uint8_t *name, size_t length) {
    static const uint8_t header[HEADER];
    char path[4096];
    snprintf(path, sizeof path, "%s/%.*s.wav", folder, (int)length, (const char *)name);
    int file = open(path, O_WRONLY | O_CREAT | O_TRUNC, 0644);
    if (file < 0) {
        fail(path);
    }
    write_at(file, 0, header, HEADER);
    return file;
}

/* What is done with the body of a message: of a block its samples and two sizes are written. */
static void store(struct peer *peer, const uint8_t *body, size_t length) {
    size_t before = 6 + (size_t)body[1];
    if (peer->file < 0) {
        peer->file = file_of(body + 2, body[1]);
    }
    if (body[0] == BLOCK) {
        write_at(peer->file, HEADER + peer->samples, body + before, length - before);
        peer->samples += length - before;
        write_at(peer->file, 4, &peer->samples, 4);
        write_at(peer->file, HEADER - 4, &peer->samples, 4);
    } else if (body[0] == CLOSE && fsync(peer->file) < 0) {
        fail("the sync");
    }
}

/* Puts the reply Stored to a message, and returns its length. */
static size_t put_reply(uint8_t *reply, const uint8_t *body) {
    size_t length = 2 + (size_t)body[1] + 5;
    memset(reply, 0, 4 + length);
    reply[0] = (uint8_t)length;
    reply[4] = VERDICT;
    memcpy(reply + 5, body + 1, 1 + (size_t)body[1] + 4);
    return 4 + length;
}

/* Answers the whole messages that are held. Returns 0 after BYE. */
static int answer(struct peer *peer) {
    static uint8_t replies[PIECE];
    size_t place = 0, made = 0;
    int goes_on = 1;
    while (peer->held - place >= 5 && peer->held - place >= 4 + number_at(peer->bytes + place)) {
        size_t length = number_at(peer->bytes + place);
        const uint8_t *body = peer->bytes + place + 4;
        place += 4 + length;
        if (body[0] == BYE) {
            goes_on = 0;
            break;
        }
        store(peer, body, length);
        made += put_reply(replies + made, body);
        if (made > sizeof replies - REPLY) {
            break;
        }
    }
    memmove(peer->bytes, peer->bytes + place, peer->held - place);
    peer->held -= place;
    if (made > 0 && send(peer->socket, replies, made, MSG_NOSIGNAL) != (ssize_t)made) {
        fail("a reply");
    }
    return goes_on;
}

static struct peer *accept_from(int listener) {
    int yes = 1;
    struct peer *peer = calloc(1, sizeof *peer);
    if (!peer || (peer->socket = accept(listener, NULL, NULL)) < 0
        || setsockopt(peer->socket, IPPROTO_TCP, TCP_NODELAY, &yes, sizeof yes) < 0
        || fcntl(peer->socket, F_SETFL, O_NONBLOCK) < 0) {
        fail("accept");
    }
    peer->file = -1;
    return peer;
}

/* Reads a piece and answers it. Returns 0 where the connection is over. */
static int serve(struct peer *peer) {
    ssize_t count = recv(peer->socket, peer->bytes + peer->held, PIECE, 0);
    if (count > 0) {
        peer->held += (size_t)count;
        if (answer(peer)) {
            return 1;
        }
    } else if (count < 0) {
        return 1;
    }
    close(peer->socket);
    close(peer->file);
    free(peer);
    return 0;
}

static int listen_at(const char *port) {
    struct sockaddr_in address = {.sin_family = AF_INET, .sin_port = htons((uint16_t)atoi(port))};
    address.sin_addr.s_addr = htonl(INADDR_LOOPBACK);
    int listener = socket(AF_INET, SOCK_STREAM, 0);
    int yes = 1;
    if (listener < 0 || setsockopt(listener, SOL_SOCKET, SO_REUSEADDR, &yes, sizeof yes) < 0
        || bind(listener, (struct sockaddr *)&address, sizeof address) < 0 || listen(listener, MOST_PEERS) < 0) {
        fail("listen");
    }
    return listener;
}

int main(int count, char **words) {
    if (count != 4) {
        fprintf(stderr, "usage: calls PORT FOLDER EXCHANGES\n");
        return 2;
    }
    folder = words[2];
    int listener = listen_at(words[1]);
    int epoll = epoll_create1(0);
    struct epoll_event of_listener = {.events = EPOLLIN, .data.ptr = NULL};
    epoll_ctl(epoll, EPOLL_CTL_ADD, listener, &of_listener);
    printf("listening\n");
    fflush(stdout);
    for (long left = strtol(words[3], NULL, 10); left > 0;) {
        struct epoll_event ready[MOST_PEERS];
        int found = epoll_wait(epoll, ready, MOST_PEERS, -1);
        for (int i = 0; i < found; i++) {
            if (!ready[i].data.ptr) {
                struct peer *peer = accept_from(listener);
                struct epoll_event of_peer = {.events = EPOLLIN, .data.ptr = peer};
                epoll_ctl(epoll, EPOLL_CTL_ADD, peer->socket, &of_peer);
            } else if (!serve(ready[i].data.ptr)) {
                left--;
            }
        }
    }
    return 0;
}
