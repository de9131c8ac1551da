/* A recorder's half of the protocol of docs/FORMATS.md: frames, replies, and what counts as stored.
 *
 * The library has no input or output, no heap, and no state of its own: what it keeps of a take is a bwi_sender in the
 * caller's memory. It holds no pointer, so it may be copied, saved and read again, on machines of the same byte order.
 *
 * A message's frame is its head and then its payload, which stays where the caller has it: write both, in this order.
 * Keep a request, its head and its payload, until it is settled. When a link broke, connect again and write those that
 * bwi_is_pending says are pending once more, as they were, in any order: the server takes each request once.
 *
 * What is proved of each call is stated in crates/bw_c. It rests on what a call asks of its caller:
 * - A pointer isn't NULL, even where its length is 0. `name`, `history`, `samples`, `value` and `bytes` may be read for
 *   the length after them, `out` read and written for `room` bytes. Structs are aligned as C aligns them.
 * - What is written (`s`, `out`, `reply`) overlaps nothing else that the same call is given.
 * - One call at a time uses a bwi_sender. Calls with different ones may run at once, in any threads and in handlers.
 *
 * Otherwise any contents are safe, of a bwi_sender too: where it was damaged, the counts are wrong, and nothing more.
 */
#ifndef BWI_H
#define BWI_H

#include <stdbool.h>
#include <stddef.h>
#include <stdint.h>

#ifdef __cplusplus
extern "C" {
#endif

/* A sender of one take. Only these calls may change it. */
typedef struct bwi_sender {
    uint8_t name[32];     /* the name: its first name_len bytes */
    uint32_t name_len;
    uint32_t offered;     /* how many requests were offered: the next one has this number */
    uint32_t settled;     /* how many of them are settled: the least number without a verdict */
    uint32_t stored;      /* how many of the settled ones are stored */
    uint8_t verdicts[16]; /* for `settled` and the numbers after it: 1 + the verdict's code, 0 where there is none */
} bwi_sender;

/* How many requests may be offered from the first without a verdict on. */
#define BWI_WINDOW 16

/* Room that is enough for every head. */
#define BWI_LONGEST_HEAD 52

/* Room for bytes in which every reply can become whole. */
#define BWI_LONGEST_REPLY 47

/* What a reply says. */
enum {
    BWI_PARTIAL = 0,   /* no reply is whole yet: read more */
    BWI_VERDICT = 1,   /* number and code: 0 is Stored, docs/FORMATS.md lists the others */
    BWI_NOTICE = 2,    /* number, code and next */
    BWI_BAD_FRAME = 3, /* the server read a bad frame: code is the reason, offset where the frame began */
    BWI_NO_REPLY = 4   /* these bytes are no reply: nothing more of this link can be read */
};

/* What a reply was to the sender. */
enum {
    BWI_COUNTED = 1, /* the first verdict of an offered request */
    BWI_KNOWN = 2,   /* a verdict on a request that has one */
    BWI_NOTED = 3,   /* a notice on an offered request, or the answer to an ask */
    BWI_STRANGER = 4 /* to another name, to a number that wasn't offered, or to a bad frame */
};

/* The code of the verdict on a request that is stored. */
#define BWI_STORED 0

/* The code of the notice that answers an ask. */
#define BWI_NEXT 39

typedef struct bwi_reply {
    uint32_t kind;
    uint32_t heard;
    uint32_t number;
    uint32_t code;
    uint32_t next;   /* of a notice: the least number that the server has no verdict on */
    uint64_t offset; /* of a bad frame: how many bytes of the exchange come before it */
} bwi_reply;

/* Makes a sender of a name (1 to 32 of a-z, 0-9, - and _) whose first `stored` requests, at most 16,777,216, are
 * stored; 0 for a new take. Returns false if the name or the number isn't good: nothing changed then. */
bool bwi_begin(bwi_sender *s, const uint8_t *name, size_t name_len, uint32_t stored);

/* Each of these offers a request under the next number, puts what its frame has before the payload into `out`, and
 * returns how many bytes that are. It returns 0, and nothing has changed, exactly if
 * - no message can carry the request (more bytes than below), or every number is used (16,777,216 were offered),
 * - the window is full: s->offered - s->settled is BWI_WINDOW. Hear replies first, or
 * - `room` is too small: BWI_LONGEST_HEAD is always enough. */

/* OPEN, the first request of a take: Hz, samples per frame, bits per sample, and a coding history of 0 to 4,096 bytes,
 * which follows the head. */
size_t bwi_open_head(bwi_sender *s, uint32_t rate, uint16_t channels, uint16_t bits, const uint8_t *history,
                     size_t history_len, uint8_t *out, size_t room);

/* BLOCK: 1 to 32,768 bytes of samples, whole frames, which follow the head. They aren't read. */
size_t bwi_block_head(bwi_sender *s, const uint8_t *samples, size_t samples_len, uint8_t *out, size_t room);

/* MARK: an identifier, and the frame that it marks. Nothing follows. */
size_t bwi_mark(bwi_sender *s, uint32_t id, uint32_t frame, uint8_t *out, size_t room);

/* SET_FIELD: a field of `bext`, and a value of 0 to 256 bytes, which follows the head. */
size_t bwi_field_head(bwi_sender *s, uint8_t tag, const uint8_t *value, size_t value_len, uint8_t *out, size_t room);

/* CLOSE, the last request: how many frames the take has. Nothing follows. If its verdict is Stored, the server has as
 * many. */
size_t bwi_close(bwi_sender *s, uint64_t frames, uint8_t *out, size_t room);

/* Puts the whole frame of an ask into `out`: 42 bytes at most. The answer is the notice BWI_NEXT. Returns its length,
 * or 0 if `room` is too small. */
size_t bwi_ask(const bwi_sender *s, uint8_t *out, size_t room);

/* Puts the five bytes of the frame that ends an exchange into `out`. Returns 5, or 0 if `room` is less. */
size_t bwi_bye(uint8_t *out, size_t room);

/* Shows the reply at the start of these bytes, and counts it. Returns how many bytes it has, for the caller to drop; 0
 * if no reply is there (BWI_PARTIAL and BWI_NO_REPLY). Only BWI_COUNTED changes the sender. */
size_t bwi_hear(bwi_sender *s, const uint8_t *bytes, size_t bytes_len, bwi_reply *reply);

/* Whether this number was offered and has no verdict: then its request is to be sent again over a new link. */
bool bwi_is_pending(const bwi_sender *s, uint32_t number);

#ifdef __cplusplus
}
#endif

#endif
