/* Random calls of libbwi, and random replies, against a plain account of what each should do.
 *
 *   cc -g -fsanitize=address,undefined -o random_calls random_calls.c libbwi.a
 *   random_calls COUNT SEED
 *
 * What a call may read or write ends where the next page can't be touched, so that a byte too many ends the program.
 * Half of the runs begin with a struct of any contents. Status 0: all was as it should be. */
#define _DEFAULT_SOURCE
#include "bwi.h"

#include <stdio.h>
#include <stdlib.h>
#include <string.h>
#include <sys/mman.h>

#define PAGES 65536
#define NUMBERS 16777216u

static uint64_t state;
static uint8_t *edges[3]; /* the end of what may be touched, one for each pointer of a call */
static long heads, replies, counted;

/* What a sender of one name was offered and heard: by number, from `first` on, one more than the verdict's code. */
static struct {
    uint32_t first, offered;
    uint8_t verdicts[4096];
    bool is_good;
} account;

static uint32_t any(uint32_t below)
{
    state ^= state << 13;
    state ^= state >> 7;
    state ^= state << 17;
    return (uint32_t)(state >> 20) % below;
}

static void fail(const char *what)
{
    printf("%s\n", what);
    exit(1);
}

/* So many bytes that end at an edge. */
static uint8_t *bytes_at(int edge, size_t len)
{
    return edges[edge] - len;
}

static void fill(uint8_t *bytes, size_t len)
{
    for (size_t i = 0; i < len; i++)
        bytes[i] = (uint8_t)any(256);
}

static uint32_t settled(void)
{
    uint32_t n = account.first;
    while (n < account.offered && account.verdicts[n - account.first])
        n++;
    return n;
}

static void same_counts(const bwi_sender *s, uint32_t begun)
{
    uint32_t end = settled(), stored = begun, n;
    for (n = account.first; n < end; n++)
        stored += account.verdicts[n - account.first] == 1;
    if (s->offered != account.offered || s->settled != end || s->stored != stored)
        fail("the counts");
    for (n = account.first; n < account.offered + 3; n++)
        if (bwi_is_pending(s, n) != (n < account.offered && !account.verdicts[n - account.first]))
            fail("what is pending");
}

/* Offers any request, and looks at its head. */
static void offer(bwi_sender *s)
{
    size_t room = any(60), len = any(8) ? any(300) : any(40000), n = 0, fixed = 0;
    uint8_t *out = bytes_at(0, room), *carried = bytes_at(1, len), kind = (uint8_t)(1 + any(5));
    bool fits = true;
    bwi_sender before = *s;
    switch (kind) {
    case 1: n = bwi_open_head(s, any(200000), (uint16_t)any(9), 24, carried, len, out, room), fixed = 10, fits = len <= 4096; break;
    case 2: n = bwi_block_head(s, carried, len, out, room), fits = len >= 1 && len <= 32768; break;
    case 3: n = bwi_mark(s, any(9), any(99999), out, room), fixed = 8, len = 0; break;
    case 4: n = bwi_field_head(s, (uint8_t)any(256), carried, len, out, room), fixed = 1, fits = len <= 256; break;
    default: n = bwi_close(s, any(99999), out, room), fixed = 8, len = 0;
    }
    if (n > room || (n == 0 && memcmp(&before, s, sizeof before)))
        fail("a head");
    if (!account.is_good)
        return;
    size_t head = 10 + before.name_len + fixed, body = head - 4 + len;
    bool may = fits && before.offered < NUMBERS && before.offered - before.settled < BWI_WINDOW && head <= room;
    if (n != (may ? head : 0))
        fail("the length of a head");
    if (n == 0)
        return;
    uint32_t number = before.offered;
    uint8_t wanted[42] = {(uint8_t)body, (uint8_t)(body >> 8), 0, 0, kind, (uint8_t)before.name_len};
    memcpy(wanted + 6, before.name, before.name_len);
    for (int i = 0; i < 4; i++)
        wanted[6 + before.name_len + i] = (uint8_t)(number >> (8 * i));
    if (memcmp(wanted, out, head - fixed))
        fail("the bytes of a head");
    account.offered++;
    heads++;
}

/* Puts a reply together, maybe a damaged one, and hears it. */
static void hear(bwi_sender *s)
{
    uint8_t made[64] = {0};
    bool is_notice = any(4) == 0, is_own = any(4) != 0;
    uint32_t number = account.is_good ? settled() + any(20) - any(3) : any(NUMBERS), code = any(12);
    uint8_t name_len = is_own ? (uint8_t)(s->name_len < 32 ? s->name_len : 32) : 3, body = (uint8_t)(6 + name_len + (is_notice ? 5 : 1));
    made[0] = body, made[4] = is_notice ? 0x82 : 0x81, made[5] = name_len;
    memcpy(made + 6, is_own ? s->name : (const uint8_t *)"zzz", name_len);
    for (int i = 0; i < 4; i++)
        made[6 + name_len + i] = (uint8_t)(number >> (8 * i));
    made[10 + name_len] = (uint8_t)(is_notice ? 32 : code);
    size_t len = 4u + body;
    bool is_whole = true;
    if (any(5) == 0)
        made[any((uint32_t)len)] = (uint8_t)any(256), is_whole = false;
    if (any(5) == 0)
        len = any((uint32_t)len), is_whole = false;
    uint8_t *bytes = bytes_at(1, len);
    memcpy(bytes, made, len);
    bwi_sender before = *s;
    bwi_reply reply;
    size_t used = bwi_hear(s, bytes, len, &reply);
    if (used > len || (used > 0) != (reply.kind >= 1 && reply.kind <= 3))
        fail("how long a reply is");
    if (reply.heard != BWI_COUNTED && memcmp(&before, s, sizeof before))
        fail("a reply that isn't counted changed the sender");
    replies += used > 0;
    counted += reply.heard == BWI_COUNTED;
    if (!account.is_good)
        return;
    if (is_whole && number < NUMBERS && (used != len || reply.number != number || reply.code != made[10 + name_len]))
        fail("what a reply says");
    if (reply.heard == BWI_COUNTED) {
        if (reply.number < account.first || reply.number >= account.offered || account.verdicts[reply.number - account.first])
            fail("a verdict that doesn't count");
        account.verdicts[reply.number - account.first] = (uint8_t)(reply.code + 1);
    } else if (is_whole && is_own && !is_notice && number >= account.first && number < account.offered
               && !account.verdicts[number - account.first]) {
        fail("a verdict that counts");
    }
}

int main(int count, char **words)
{
    long runs = count == 3 ? atol(words[1]) : 0;
    state = 88172645463325252ull + (count == 3 ? strtoull(words[2], NULL, 10) : 0);
    for (int i = 0; i < 3; i++) {
        edges[i] = (uint8_t *)mmap(NULL, PAGES + 4096, PROT_READ | PROT_WRITE, MAP_PRIVATE | MAP_ANONYMOUS, -1, 0) + PAGES;
        if (mprotect(edges[i], 4096, PROT_NONE))
            return 2;
    }
    for (long done = 0; done < runs;) {
        bwi_sender *s = (bwi_sender *)bytes_at(2, sizeof *s);
        uint32_t begun = any(2) ? 0 : any(NUMBERS - 5000);
        uint8_t name[33];
        size_t name_len = 1 + any(33);
        memset(name, 'a' + (int)any(25), sizeof name);
        fill((uint8_t *)s, sizeof *s);
        account.is_good = any(2) && bwi_begin(s, name, name_len, begun);
        if (account.is_good != (name_len <= 32) && account.is_good)
            fail("a name that is too long");
        account.first = account.offered = begun;
        memset(account.verdicts, 0, sizeof account.verdicts);
        for (uint32_t calls = 50 + any(2000); calls > 0; calls--, done++) {
            if (any(2))
                offer(s);
            else
                hear(s);
            if (account.is_good)
                same_counts(s, begun);
        }
    }
    printf("%ld calls, %ld heads, %ld replies, %ld counted\n", runs, heads, replies, counted);
    return 0;
}
