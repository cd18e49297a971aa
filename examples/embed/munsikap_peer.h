/* A replica of a store in your program: the calls of libpeer_c.a, in C.
 *
 * Build the library by `rt lib` in crates/peer_c. Link crates/peer_c/out/libpeer_c.a, and behind it c/liblibc_c.a of the
 * toolchain's folder, through which it calls malloc, realloc and free; build.sh beside this file shows how. It runs on
 * x86-64-v2 processors, on Linux.
 *
 * The library opens no socket, reads no file and knows no clock: it says which bytes to send, and is told which came.
 * docs/EMBEDDING.md says when to call what.
 *
 * What lies below these calls is proved, and of the calls that they are safe and return. Nothing checks this header, nor
 * what a caller hands over. A caller owes:
 *
 *   - A handle comes from MUNSIKAP_EMPTY, an initializer, or is all zero bytes; and only these calls change it. It isn't
 *     copied: a copy is no second peer. It may be moved, where the old place isn't used again.
 *   - One call at a time for a handle, all of one handle's calls on one thread, none from a signal handler, and none in a
 *     child that a process with threads forked.
 *   - No pointer is null, neither a handle's, at munsikap_free too, nor one that is written to. Bytes are handed over as a
 *     pointer and a length: so many bytes lie there, and also where the length is 0 the pointer isn't null. A buffer is the
 *     same with its room, and may be written to. A text ends with neither a newline nor a zero byte.
 *   - The pointers of one call point to different things, which nothing else writes while it runs, nor reads where it is
 *     what the call writes to.
 *   - Who replaces malloc, realloc and free: all three are one allocator's, which aligns a block to each power of two up to
 *     16 that divides its size.
 *
 * No call keeps a pointer that it is given, and none hands out memory of its own: what is handed out is copied into the
 * caller's buffer. The one thing to be released is the peer, by munsikap_free.
 *
 * Each call that answers a code answers one of those that are named at it, MUNSIKAP_NO_PEER where the handle is empty (but
 * for munsikap_create), or MUNSIKAP_NO_MEMORY. Where nothing else is said a code but MUNSIKAP_DONE says that nothing changed
 * and nothing was written; MUNSIKAP_NO_ROOM writes `count`.
 *
 * Where no frame is forged, all members keep the rules and have equal numbers, MUNSIKAP_FAR and MUNSIKAP_HELD don't come,
 * and all steps of what is heard are deliveries. */
#ifndef MUNSIKAP_PEER_H
#define MUNSIKAP_PEER_H

#include <stdbool.h>
#include <stddef.h>
#include <stdint.h>

#ifdef __cplusplus
extern "C" {
#endif

/* A peer, or none. Its fields are the library's own. */
struct munsikap_peer {
    void *at;
    bool full;
};

/* The handle of no peer: struct munsikap_peer phone = MUNSIKAP_EMPTY; */
#define MUNSIKAP_EMPTY {NULL, false}

/* No frame has more bytes. */
#define MUNSIKAP_MOST_FRAME 4214

/* What calls answer. */
enum {
    MUNSIKAP_DONE = 0,
    MUNSIKAP_NO_MEMORY = 1,   /* there is no memory: try again later */
    MUNSIKAP_NO_PEER = 2,     /* the handle is empty */
    MUNSIKAP_HAS_PEER = 3,    /* the handle isn't empty */
    MUNSIKAP_NO_ROOM = 4,     /* the buffer is too small: `count` has the bytes that it needs */
    MUNSIKAP_BAD_NUMBERS = 5, /* a number is out of its range */
    MUNSIKAP_BUSY = 6,        /* it wasn't told that `w` own operations are everywhere: try again after something was heard */
    MUNSIKAP_END = 7,         /* this member has sent `limit` messages */
    MUNSIKAP_QUIET = 8,       /* no no-op is due */
    MUNSIKAP_HELD = 9,        /* it wasn't told that 2 * (n - 1) * w + 1 own no-ops are everywhere */
    MUNSIKAP_KEPT = 10,       /* the message is kept: it waits for one that it has seen */
    MUNSIKAP_OLD = 11,        /* the message is an own one, or one of its member and number was delivered */
    MUNSIKAP_AGAIN = 12,      /* a message of its member and number waits already */
    MUNSIKAP_FAR = 13,        /* the message is too far ahead to be kept, so it has to come again later */
    MUNSIKAP_NO_FRAME = 14,   /* there are no more frames */
    MUNSIKAP_BAD_TEXT = 20,   /* 23, 25 to 28: a text is no update, or 25: no object. What is above 20 is N of `bad N`; 23
                                 says that it has fewer than two words or more than four */
    MUNSIKAP_BAD_FRAME = 40   /* 41 to 50: bytes are no frame of the store. What is above 40 is N of `bad frame N` */
};

/* Makes member `me` of a store of `n` members, 1 to 16, with a window of `w` operations, 1 to 64, and at most `limit`
 * messages a member, 1 to 1000000; members are numbered from 0, so `me` is
 * below `n`. All members are made with the same `n`, `w` and `limit`. Of `me`, `n` and `w`, and
 * of `member` below, C passes on the lowest eight bits alone: 257 is taken as 1.
 * MUNSIKAP_DONE: the handle has the peer, until munsikap_free. MUNSIKAP_HAS_PEER, MUNSIKAP_BAD_NUMBERS. */
int32_t munsikap_create(struct munsikap_peer *peer, uint8_t me, uint8_t n, uint8_t w, uint32_t limit);

/* Ends the peer and releases its memory. The handle is empty then, and may be used again. Of an empty one it does nothing.
 * A peer that was ended must not come back under its number: it has forgotten what it sent. */
void munsikap_free(struct munsikap_peer *peer);

/* Does an operation, as a script writes it behind `do r`: an object, an act and its arguments, as
 * "awset:list add milk" or "list:a ins milk head" (docs/FORMATS.md has the kinds and their acts).
 * MUNSIKAP_DONE: it is done here, and its frame goes to all other members. `count` has the frame's length. Where it is no
 * more than `room`, the frame is in `frame`; MUNSIKAP_MOST_FRAME bytes are always enough. Else nothing was written there,
 * and the frame is the last that munsikap_frame hands out, where the store has more members than this one.
 * MUNSIKAP_BUSY, MUNSIKAP_END, MUNSIKAP_BAD_TEXT and more. */
int32_t munsikap_update(struct munsikap_peer *peer, const uint8_t *text, size_t length, uint8_t *frame, size_t room, size_t *count);

/* Makes a no-op, which tells the others what was delivered here. Call it after munsikap_hear answered MUNSIKAP_DONE.
 * MUNSIKAP_DONE: its frame goes to all other members, and is handed out as munsikap_update does.
 * MUNSIKAP_QUIET, MUNSIKAP_HELD, MUNSIKAP_END. */
int32_t munsikap_beat(struct munsikap_peer *peer, uint8_t *frame, size_t room, size_t *count);

/* Takes in bytes that came, from anywhere.
 * MUNSIKAP_DONE: messages were delivered, or dropped where they don't fit what was delivered before; `delivered` has how
 * many were delivered, and `steps` how many were delivered or dropped.
 * MUNSIKAP_KEPT: the message is kept here.
 * MUNSIKAP_OLD, MUNSIKAP_AGAIN, MUNSIKAP_FAR, MUNSIKAP_BAD_FRAME and more: the bytes were let go. */
int32_t munsikap_hear(struct munsikap_peer *peer, const uint8_t *bytes, size_t length, size_t *delivered, size_t *steps);

/* Hands out what to send again: the frames of the own messages that weren't told to be everywhere yet, oldest first, by their
 * place from 0. Call it with 0, 1, .. as long as it answers MUNSIKAP_DONE; MUNSIKAP_NO_FRAME says that all were handed out. It changes nothing of the peer, and makes all of
 * these frames anew. Hear nothing between two places: what becomes stable leaves the front, and the others move up.
 * MUNSIKAP_DONE: `frame` has the frame, and `count` its length. MUNSIKAP_NO_ROOM, MUNSIKAP_NO_FRAME. */
int32_t munsikap_frame(struct munsikap_peer *peer, size_t place, uint8_t *frame, size_t room, size_t *count);

/* Hands out what an object is, by all that was delivered here, as the line that a script's `ask` replies, its newline with
 * it: "= eggs milk\n", "= on\n", "= 5\n". No zero byte follows it. It changes nothing of the peer.
 * MUNSIKAP_DONE: `line` has the line, and `count` its length. MUNSIKAP_NO_ROOM, MUNSIKAP_BAD_TEXT and more. */
int32_t munsikap_ask(struct munsikap_peer *peer, const uint8_t *object, size_t length, uint8_t *line, size_t room, size_t *count);

/* Tells how many messages of a member were delivered here. MUNSIKAP_BAD_NUMBERS: there is no such member. */
int32_t munsikap_seen(struct munsikap_peer *peer, uint8_t member, uint32_t *number);

/* Tells how many messages of a member this one was told that every member has. MUNSIKAP_BAD_NUMBERS: there is no such member. */
int32_t munsikap_stable(struct munsikap_peer *peer, uint8_t member, uint32_t *number);

#ifdef __cplusplus
}
#endif

#endif
