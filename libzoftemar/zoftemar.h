/* zoftemar.h: the proved room for C, C++ and other languages that call C. docs/EMBEDDING.md says how to build, link and use it.
 *
 *     zoftemar_room room = ZOFTEMAR_ROOM_NONE;                       // the caller's 16 bytes: no room yet
 *     uint8_t out[ZOFTEMAR_PACKET_ROOM];
 *     if (zoftemar_open(&room) != ZOFTEMAR_DONE) return 1;           // out of memory
 *     zoftemar_publish_layered(&room, 0, 1, 4, 0x11111111, 100);     // seat 0: track 1, descriptors under id 4, its SSRC, hold in ms
 *     zoftemar_join(&room, 0, 1, 1, 0x22222222, 65534, 1, 1);        // subscriber 1 of track 1, its SSRC, first sequence number, wish
 *     zoftemar_packet(&room, 0, 1, now, bytes, count);               // each packet of the publisher
 *     zoftemar_tick(&room, 0, 1, now);                               // about every 20 ms
 *     for (zoftemar_reply r; (r = zoftemar_take(&room, 0, 1, out, sizeof out)).code == ZOFTEMAR_PACKET;)
 *         send_to_subscriber(out, r.first);
 *     zoftemar_close(&room);
 *
 * A room has tracks, subscribers and bundles. A track has one publisher's packets; each subscriber joins one track. For callers that keep to "What the
 * caller owes", it is proved what each call does in the room (crates/room_core/README.md), and that these functions make those calls
 * (crates/room_c/README.md). Nothing checks a caller in C.
 *
 * Units. Moments and holds are in milliseconds. Packets and ticks use the same clock, which may start anywhere. SSRCs, sequence numbers, and the
 * numbers of tracks and subscribers are in host byte order; packets are the bytes on the wire. The caller numbers the tracks of a room: each new
 * track's number is above 0 and above the numbers of all earlier tracks. Subscribers are numbered in the same way, and so are bundles, each
 * independently of the others. A seat is any number that names the caller; it changes no reply, and 0 will do.
 *
 * Codes. Nothing aborts or throws. A call returns a zoftemar_reply, but an open returns only a code, and a close returns nothing. A refused call
 * changes nothing. Only opening, publishing, joining, bundling and zoftemar_recorder_feed can return ZOFTEMAR_NO_MEMORY.
 *
 * Ownership. The caller owns the zoftemar_room, whose bytes are all 0 at first (ZOFTEMAR_ROOM_NONE). zoftemar_open allocates a room behind it, and
 * zoftemar_close frees that room. Opening again returns ZOFTEMAR_HAS_ROOM, closing again does nothing. After a call the library keeps no pointer to a
 * packet, a buffer or a zoftemar_room.
 *
 * Threads. Make one call or question at a time on a room: put a lock around the room, or let one thread make all its calls. Rooms share nothing.
 * A room may go to another thread under a lock, or when a thread is started or joined.
 *
 * What the caller owes.
 *   - `room` points to a zoftemar_room that is all 0 or was last written by this library. It may be moved to another address; then only the new
 *     copy may be used. Using two copies of one open room is undefined behaviour, like a double free.
 *   - No pointer is NULL, except to a packet or buffer of length 0.
 *   - `bytes` can be read for `count` bytes, `out` can be written for `count` items, and they overlap nothing else that is passed.
 *   - No call from a signal handler, nor in a forked child of a process with threads.
 *   - malloc, realloc and free belong to one allocator, and align blocks as the C standard requires. heap.c is linked with the library: it defines
 *     the three functions of zoftemar_heap.h, by which the library allocates memory.
 */
#ifndef ZOFTEMAR_H
#define ZOFTEMAR_H

#include <stdbool.h>
#include <stddef.h>
#include <stdint.h>

/* The version of this header; zoftemar_version() returns the archive's. Header and archive must be of the same install. */
#define ZOFTEMAR_VERSION "0.1.0"
#define ZOFTEMAR_VERSION_MAJOR 0
#define ZOFTEMAR_VERSION_MINOR 1
#define ZOFTEMAR_VERSION_PATCH 0
#define ZOFTEMAR_VERSION_NUMBER (65536 * ZOFTEMAR_VERSION_MAJOR + 256 * ZOFTEMAR_VERSION_MINOR + ZOFTEMAR_VERSION_PATCH)

#ifdef __cplusplus
extern "C" {
#endif

/* With compilers that support it: a warning if the result of an open, a question or a call that fills `out` isn't used, or if NULL is passed where it
 * isn't allowed. A question takes a const handle, which it only reads; each other call writes to the handle. */
#ifndef ZOFTEMAR_USE
#if defined(__GNUC__)
#define ZOFTEMAR_USE __attribute__((warn_unused_result))
#define ZOFTEMAR_NONNULL(...) __attribute__((nonnull(__VA_ARGS__)))
#else
#define ZOFTEMAR_USE
#define ZOFTEMAR_NONNULL(...)
#endif
#endif

/* A room's handle. Its fields are private to the library: don't read or write them. */
typedef struct zoftemar_room {
    bool made;
    struct { void *at; } held;
} zoftemar_room;

#ifdef __cplusplus
#define ZOFTEMAR_ROOM_NONE {}
#else
#define ZOFTEMAR_ROOM_NONE { 0 }
#endif

/* What a call returns. The comment on each code says what `first` and `second` are; a number that the comment doesn't name is 0. `has` is true
 * exactly if `first` is named, unless the comment gives `has` a meaning of its own. */
typedef struct zoftemar_reply {
    uint32_t code;
    bool has;
    uint64_t first;
    uint64_t second;
} zoftemar_reply;

enum zoftemar_code {
    ZOFTEMAR_DONE = 0,
    ZOFTEMAR_PACKET = 1,            /* first: the number of bytes written to `out` */
    ZOFTEMAR_NAMES = 2,             /* first: the number of sequence numbers written to `out` */
    ZOFTEMAR_KEY = 3,               /* has: whether to request a key frame from the publisher */
    ZOFTEMAR_REACHED = 4,           /* has: whether the wish is reached */
    ZOFTEMAR_TARGET = 5,            /* has: whether the subscriber has a decode target; if so, it was written to `out` */
    ZOFTEMAR_DUE = 6,               /* has: whether a tick of the track will be due; first: the moment, if so */
    ZOFTEMAR_NEWEST = 7,            /* has: whether a whole frame of the track came; first: the newest frame's number, if so */
    ZOFTEMAR_FILE_PIECE = 8,        /* first: the number of bytes of the file that were written to `out`; second: how many are left */
    ZOFTEMAR_PUMPED = 9,            /* of the packets that were taken from the legs, first: how many are forwarded; second: how many are dropped */
    ZOFTEMAR_COUNTS = 10,           /* the counts were written to `out` */
    ZOFTEMAR_READY = 11,            /* first: how many subscribers' numbers were written to `out` */

    /* Why a frame was or wasn't forwarded to a subscriber. Frame numbers are unwrapped: they go on after 65,535. */
    ZOFTEMAR_PASSED = 16,
    ZOFTEMAR_NOT_OF_TARGET = 17,    /* the frame isn't in decode target `first`. has: false if no target is open and the wish allows none */
    ZOFTEMAR_BEHIND = 18,           /* first: how many frame numbers back the reference is; second: the frame with which the epoch began */
    ZOFTEMAR_REFERENCE = 19,        /* first: a frame that the frame refers to, and that wasn't forwarded */
    ZOFTEMAR_FULL = 20,             /* first: how many packets were queued; second: how many the frame has */
    ZOFTEMAR_LINK = 21,             /* first: the frame at which the chain broke; second: the chain's previous frame, which wasn't forwarded */
    ZOFTEMAR_UNOPENED = 22,         /* first: the frame since which no target has been open */
    ZOFTEMAR_HOLE = 23,             /* no whole frame with this number came since the join. first: the next higher number that came; has: whether a
                                     * lower number came, less than 4,096 below the newest; second: the highest such number, if so */

    /* Why a call was refused. */
    ZOFTEMAR_NO_TRACK = 32,         /* no live track has this number, or the subscriber's track has ended */
    ZOFTEMAR_NO_SUBSCRIBER = 33,    /* no live subscriber has this number */
    ZOFTEMAR_NUMBER_USED = 34,      /* the number isn't above `first`, the highest that was ever live, or that a bundle has (0 if none) */
    ZOFTEMAR_TOO_MANY = 35,         /* first: how many are live, which is the maximum: 64 tracks, 256 subscribers or 64 bundles */
    ZOFTEMAR_BAD_EXTENSION_ID = 36, /* the id is 0 or 15; for a recorder: the id is 0 */
    ZOFTEMAR_TOO_BIG = 37,          /* first: the packet's length in bytes, more than 1,500 */
    ZOFTEMAR_UNREADABLE = 38,       /* not RTP. first, the fault: 0 fewer than 12 bytes, 1 the version, 2 the CSRCs, 3 the header extension,
                                     * 4 the padding; in zoftemar_unwrap also 5: no original sequence number */
    ZOFTEMAR_WRONG_SSRC = 39,       /* first: the packet's SSRC; second: the track's SSRC */
    ZOFTEMAR_SPENT = 40,            /* the packet's unwrapped sequence number is 2^46 or more */
    ZOFTEMAR_LATE = 41,             /* first: the unwrapped sequence number that the track waits for, above the packet's */
    ZOFTEMAR_REPEAT = 42,           /* the packet is already buffered, behind a gap; once it has left the buffer: ZOFTEMAR_LATE */
    ZOFTEMAR_EMPTY = 43,            /* no packet is queued for the subscriber, or by the bundle */
    ZOFTEMAR_NOT_KEPT = 44,         /* first: the oldest kept sequence number; second: the one of the next take or draw; both of 16 bits */
    ZOFTEMAR_AHEAD = 45,            /* has: whether a frame came since the join (never on a plain track); first: the newest frame's number, if so */
    ZOFTEMAR_TOO_OLD = 46,          /* first: the lowest frame number that may be asked for */
    ZOFTEMAR_PLAIN = 47,            /* the subscriber's track is plain */
    ZOFTEMAR_NO_MEMORY = 48,        /* out of memory */
    ZOFTEMAR_NO_BUNDLE = 49,        /* no bundle has this number */
    ZOFTEMAR_NO_LEG = 50,           /* the bundle has no such leg. first: how many legs it has; they are 1 to `first` */
    ZOFTEMAR_WRONG_KIND = 51,       /* the track of a leg isn't layered, or has another id of the header extension element */
    ZOFTEMAR_BOUND = 52,            /* the subscriber is a leg of bundle `first`, or is listed twice among its legs */

    /* Errors found before the room is called: nothing changes. */
    ZOFTEMAR_NO_ROOM = 64,          /* the handle has no room */
    ZOFTEMAR_HAS_ROOM = 65,         /* zoftemar_open: the handle already has a room */
    ZOFTEMAR_NO_SPACE = 66,         /* `out` has fewer than ZOFTEMAR_PACKET_ROOM bytes or ZOFTEMAR_NAMES_ROOM sequence numbers; for a file: 0 bytes */
    ZOFTEMAR_TOO_LONG = 67,         /* a packet or datagram of more than ZOFTEMAR_PACKET_ROOM bytes; in zoftemar_wrap, of more than 2,046 */
    ZOFTEMAR_NO_SESSION = 68,       /* the handle has no session */
    ZOFTEMAR_HAS_SESSION = 69,      /* opening a session: the handle already has one */
    ZOFTEMAR_BUSY = 70,             /* the session still has a call to make: call zoftemar_session_work until ZOFTEMAR_DONE */
    ZOFTEMAR_BAD_STREAM = 71,       /* a payload type of 128 or more, or a retransmission stream with the SSRC of the media */
    ZOFTEMAR_NO_RECORDER = 72,      /* the handle has no recorder */
    ZOFTEMAR_HAS_RECORDER = 73,     /* zoftemar_recorder_open: the handle already has a recorder */
    ZOFTEMAR_FINISHED = 74,         /* the recorder is finished, and takes no packets */
    ZOFTEMAR_BAD_LEGS = 75,         /* a bundle has two or three legs */

    /* Faults of a recorder's packets. The first one is returned by each later zoftemar_recorder_feed. */
    ZOFTEMAR_UNREAD = 80,           /* not RTP; payload or descriptor missing or bad; or a structure that isn't in force, without a key frame */
    ZOFTEMAR_OTHER_SOURCE = 81,     /* first: the packet's SSRC; second: the first packet's */
    ZOFTEMAR_OUT_OF_SEQUENCE = 82,  /* first: the packet's sequence number; second: the last packet's, which should be one less */
    ZOFTEMAR_NO_STRUCTURE = 83,     /* the descriptor needs a template dependency structure, and none came */
    ZOFTEMAR_NOT_WHOLE = 84,        /* the packets of a frame don't form a whole frame */
    ZOFTEMAR_MISSING_REFERENCE = 85, /* first: the frame's 16-bit number; second: how many frame numbers back the missing frame is */
    ZOFTEMAR_NOT_OBU = 86           /* an element of the frame that the packet ends isn't an OBU (AV1, section 5.3.1) */
};

/* X(name) for each code. */
#define ZOFTEMAR_EACH_CODE(X) \
    X(ZOFTEMAR_DONE) X(ZOFTEMAR_PACKET) X(ZOFTEMAR_NAMES) X(ZOFTEMAR_KEY) X(ZOFTEMAR_REACHED) X(ZOFTEMAR_TARGET) X(ZOFTEMAR_DUE) X(ZOFTEMAR_NEWEST) \
    X(ZOFTEMAR_FILE_PIECE) X(ZOFTEMAR_PUMPED) X(ZOFTEMAR_COUNTS) X(ZOFTEMAR_READY) X(ZOFTEMAR_PASSED) X(ZOFTEMAR_NOT_OF_TARGET) X(ZOFTEMAR_BEHIND) \
    X(ZOFTEMAR_REFERENCE) X(ZOFTEMAR_FULL) X(ZOFTEMAR_LINK) X(ZOFTEMAR_UNOPENED) X(ZOFTEMAR_HOLE) X(ZOFTEMAR_NO_TRACK) X(ZOFTEMAR_NO_SUBSCRIBER) \
    X(ZOFTEMAR_NUMBER_USED) X(ZOFTEMAR_TOO_MANY) X(ZOFTEMAR_BAD_EXTENSION_ID) X(ZOFTEMAR_TOO_BIG) X(ZOFTEMAR_UNREADABLE) X(ZOFTEMAR_WRONG_SSRC) \
    X(ZOFTEMAR_SPENT) X(ZOFTEMAR_LATE) X(ZOFTEMAR_REPEAT) X(ZOFTEMAR_EMPTY) X(ZOFTEMAR_NOT_KEPT) X(ZOFTEMAR_AHEAD) X(ZOFTEMAR_TOO_OLD) \
    X(ZOFTEMAR_PLAIN) X(ZOFTEMAR_NO_MEMORY) X(ZOFTEMAR_NO_BUNDLE) X(ZOFTEMAR_NO_LEG) X(ZOFTEMAR_WRONG_KIND) X(ZOFTEMAR_BOUND) X(ZOFTEMAR_NO_ROOM) \
    X(ZOFTEMAR_HAS_ROOM) X(ZOFTEMAR_NO_SPACE) X(ZOFTEMAR_TOO_LONG) X(ZOFTEMAR_NO_SESSION) X(ZOFTEMAR_HAS_SESSION) X(ZOFTEMAR_BUSY) \
    X(ZOFTEMAR_BAD_STREAM) X(ZOFTEMAR_NO_RECORDER) X(ZOFTEMAR_HAS_RECORDER) X(ZOFTEMAR_FINISHED) X(ZOFTEMAR_BAD_LEGS) X(ZOFTEMAR_UNREAD) \
    X(ZOFTEMAR_OTHER_SOURCE) X(ZOFTEMAR_OUT_OF_SEQUENCE) X(ZOFTEMAR_NO_STRUCTURE) X(ZOFTEMAR_NOT_WHOLE) X(ZOFTEMAR_MISSING_REFERENCE) \
    X(ZOFTEMAR_NOT_OBU)

/* The name of a code, such as "ZOFTEMAR_DONE"; "ZOFTEMAR_?" for any other number. */
#if defined(__STDC_VERSION__) && __STDC_VERSION__ >= 199901L || defined(__cplusplus)
static inline const char *zoftemar_code_name(uint32_t code) {
#define ZOFTEMAR_NAME_OF(name) case name: return #name;
    switch (code) {
    ZOFTEMAR_EACH_CODE(ZOFTEMAR_NAME_OF)
    default: return "ZOFTEMAR_?";
    }
#undef ZOFTEMAR_NAME_OF
}
#endif

/* The least capacity of a buffer: in bytes, and in sequence numbers. */
#define ZOFTEMAR_PACKET_ROOM 2048
#define ZOFTEMAR_NAMES_ROOM 1024

/* Opens a room behind the handle: ZOFTEMAR_DONE, ZOFTEMAR_HAS_ROOM or ZOFTEMAR_NO_MEMORY. */
ZOFTEMAR_USE ZOFTEMAR_NONNULL(1) uint32_t zoftemar_open(zoftemar_room *room);

/* Frees the room, with all its tracks, subscribers and bundles. Does nothing if the handle has no room. */
ZOFTEMAR_NONNULL(1) void zoftemar_close(zoftemar_room *room);

/* Begins a track whose packets have this SSRC. At a gap in their sequence numbers the track waits for `hold` milliseconds. A layered track's packets
 * are AV1, with a Dependency Descriptor in the header extension element `id`, 1 to 14 or 16 to 255. */
ZOFTEMAR_NONNULL(1) zoftemar_reply zoftemar_publish_plain(zoftemar_room *room, uint32_t seat, uint32_t track, uint32_t ssrc, uint32_t hold);
ZOFTEMAR_NONNULL(1) zoftemar_reply zoftemar_publish_layered(zoftemar_room *room, uint32_t seat, uint32_t track, uint8_t id, uint32_t ssrc,
                                                            uint32_t hold);

/* Ends a track. Its subscribers stay: zoftemar_take still returns their queued packets, and zoftemar_resend their retransmissions. */
ZOFTEMAR_NONNULL(1) zoftemar_reply zoftemar_unpublish(zoftemar_room *room, uint32_t seat, uint32_t track);

/* Adds an RTP packet that arrived at `moment` to its track. The first packet begins the track: a packet with a lower number is
 * ZOFTEMAR_LATE. If a packet is 1,024 or more ahead of the number that the track waits for, the track gives up the oldest gaps. */
ZOFTEMAR_NONNULL(1) zoftemar_reply zoftemar_packet(zoftemar_room *room, uint32_t seat, uint32_t track, uint64_t moment, const uint8_t *bytes,
                                                   size_t count);

/* Advances the track's clock to `moment`: gaps at which the track has waited `hold` milliseconds are given up. Call it about every 20 ms. */
ZOFTEMAR_NONNULL(1) zoftemar_reply zoftemar_tick(zoftemar_room *room, uint32_t seat, uint32_t track, uint64_t moment);

/* Copies to `out` the sequence numbers that a track waits for (ZOFTEMAR_NAMES), for NACKs to the publisher (RFC 4585, section 6.2.1). `count` is at
 * least ZOFTEMAR_NAMES_ROOM. */
ZOFTEMAR_USE ZOFTEMAR_NONNULL(1) zoftemar_reply zoftemar_missing(zoftemar_room *room, uint32_t seat, uint32_t track, uint16_t *out, size_t count);

/* Whether to request a key frame from the track's publisher (ZOFTEMAR_KEY), by a PLI (RFC 4585, section 6.3.1): `has` is true if a plea is pending
 * or a subscriber of the track has no decode target. Always false for a plain track. */
ZOFTEMAR_USE ZOFTEMAR_NONNULL(1) zoftemar_reply zoftemar_key_wanted(zoftemar_room *room, uint32_t seat, uint32_t track);

/* Begins a subscriber of a track: packets sent to it have this SSRC, and sequence numbers from `first` on. Its wish is the highest layers that it
 * wants, spatial 0 to 3 and temporal 0 to 7; greater numbers set no limit. zoftemar_aim changes the wish from the next frame on, zoftemar_leave ends
 * the subscriber. A plain track ignores wishes. */
ZOFTEMAR_NONNULL(1) zoftemar_reply zoftemar_join(zoftemar_room *room, uint32_t seat, uint32_t subscriber, uint32_t track, uint32_t ssrc,
                                                 uint16_t first, uint8_t spatial, uint8_t temporal);
ZOFTEMAR_NONNULL(1) zoftemar_reply zoftemar_aim(zoftemar_room *room, uint32_t seat, uint32_t subscriber, uint8_t spatial, uint8_t temporal);
ZOFTEMAR_NONNULL(1) zoftemar_reply zoftemar_leave(zoftemar_room *room, uint32_t seat, uint32_t subscriber);

/* zoftemar_take moves a subscriber's oldest queued packet to `out`: ZOFTEMAR_PACKET, or ZOFTEMAR_EMPTY. zoftemar_resend copies to `out` a packet that
 * was taken before, with this sequence number, for a NACK of the subscriber (RFC 4585, section 6.2.1): ZOFTEMAR_PACKET, or ZOFTEMAR_NOT_KEPT if the
 * packet isn't among the last 1,024 taken. `count` is at least ZOFTEMAR_PACKET_ROOM. */
ZOFTEMAR_USE ZOFTEMAR_NONNULL(1) zoftemar_reply zoftemar_take(zoftemar_room *room, uint32_t seat, uint32_t subscriber, uint8_t *out, size_t count);
ZOFTEMAR_USE ZOFTEMAR_NONNULL(1) zoftemar_reply zoftemar_resend(zoftemar_room *room, uint32_t seat, uint32_t subscriber, uint16_t number,
                                                                uint8_t *out, size_t count);

/* Requests a key frame for a subscriber (RFC 4585, section 6.3.1). The plea is pending until the track's next whole key frame. ZOFTEMAR_PLAIN: the
 * track is plain. */
ZOFTEMAR_NONNULL(1) zoftemar_reply zoftemar_plead(zoftemar_room *room, uint32_t seat, uint32_t subscriber);

/* Why the frame with this unwrapped number was or wasn't forwarded to the subscriber: a code from ZOFTEMAR_PASSED to ZOFTEMAR_HOLE. */
ZOFTEMAR_USE ZOFTEMAR_NONNULL(1) zoftemar_reply zoftemar_why(zoftemar_room *room, uint32_t seat, uint32_t subscriber, uint64_t number);

/* The decode target that a subscriber is sent: its index and, if `known` is true, its highest layers at the newest frame. */
typedef struct zoftemar_target {
    uint8_t index;
    bool known;
    uint8_t spatial;
    uint8_t temporal;
    uint8_t spare[4];   /* for later use: 0 */
} zoftemar_target;

/* Two questions about a subscriber, which don't change the room. zoftemar_target_of: the decode target that the subscriber is sent, if any
 * (ZOFTEMAR_TARGET). zoftemar_reaches_wish: whether that target is the best that its wish allows, as of the newest frame (ZOFTEMAR_REACHED). If it
 * isn't, call zoftemar_plead: with most encoders a subscriber can switch to higher layers only at a key frame, and these encoders make none unasked. A
 * subscriber of a plain track has no target. */
ZOFTEMAR_USE ZOFTEMAR_NONNULL(1, 3) zoftemar_reply zoftemar_target_of(const zoftemar_room *room, uint32_t subscriber, zoftemar_target *out);
ZOFTEMAR_USE ZOFTEMAR_NONNULL(1) zoftemar_reply zoftemar_reaches_wish(const zoftemar_room *room, uint32_t subscriber);

/* Two questions about a track, which don't change the room. zoftemar_due: the earliest moment at which zoftemar_tick gives up a gap (ZOFTEMAR_DUE);
 * `has` is false if no packet is buffered behind a gap, or if the moment is 2^64 or more. zoftemar_newest_frame: the unwrapped number of the newest
 * whole frame, for zoftemar_why (ZOFTEMAR_NEWEST). A plain track has no frames. */
ZOFTEMAR_USE ZOFTEMAR_NONNULL(1) zoftemar_reply zoftemar_due(const zoftemar_room *room, uint32_t track);
ZOFTEMAR_USE ZOFTEMAR_NONNULL(1) zoftemar_reply zoftemar_newest_frame(const zoftemar_room *room, uint32_t track);

/* Writes to `out` the numbers of the track's subscribers that have packets queued, each once, in no particular order, as many as fit: ZOFTEMAR_READY.
 * If they are fewer than `count`, none is left out. A room has at most 256 subscribers. After the end of a track, its subscribers count until they leave.
 * The room isn't changed. After each zoftemar_packet and zoftemar_tick, take only for these. */
ZOFTEMAR_USE ZOFTEMAR_NONNULL(1) zoftemar_reply zoftemar_ready(const zoftemar_room *room, uint32_t track, uint32_t *out, size_t count);

/* Counts for a subscriber since its join. Each whole frame of its layered track since then has one of the verdicts of zoftemar_why, which is
 * counted; a plain track has no frames. A count stays at 2^64 - 1 once it is there. */
typedef struct zoftemar_subscriber_counts {
    uint64_t passed;        /* frames that were forwarded (ZOFTEMAR_PASSED) */
    uint64_t not_of_target; /* frames withheld because they aren't in the decode target (ZOFTEMAR_NOT_OF_TARGET): by the wish, so no fault */
    uint64_t behind;        /* frames withheld because they refer to a frame before the epoch (ZOFTEMAR_BEHIND) */
    uint64_t reference;     /* frames withheld because they refer to a frame that wasn't forwarded (ZOFTEMAR_REFERENCE) */
    uint64_t full;          /* frames withheld because the queue had no space for all their packets (ZOFTEMAR_FULL) */
    uint64_t link;          /* frames withheld because the target's chain is broken (ZOFTEMAR_LINK) */
    uint64_t unopened;      /* frames withheld because no target is open (ZOFTEMAR_UNOPENED) */
    uint64_t queued;        /* packets that were queued, also those taken since */
    uint64_t taken;         /* packets that were taken: by zoftemar_take, a session or a pump */
    uint64_t resent;        /* retransmissions: by zoftemar_resend or a session, each time; a bundle's redraws aren't counted */
    uint64_t left_out;      /* packets of a plain track that came while 512 were queued, and weren't queued */
    uint64_t waiting;       /* packets that are queued now: at most 512 */
    uint64_t spare[4];      /* 0: for later counts */
} zoftemar_subscriber_counts;

/* Counts for a track since its publish. */
typedef struct zoftemar_track_counts {
    uint64_t arrived;    /* packets that came, and left the reorder buffer in order */
    uint64_t given_up;   /* sequence numbers that were given up: no packet with such a number is accepted any more */
    uint64_t frames;     /* whole frames: 0 on a plain track */
    uint64_t key_frames; /* whole key frames */
    uint64_t unframed;   /* packets of `arrived` that are in no whole frame: of a torn or unfinished frame, unreadable, or padding; 0 on a plain track */
    uint64_t spare[3];   /* 0: for later counts */
} zoftemar_track_counts;

/* Two questions for these counts, which don't change the room: ZOFTEMAR_COUNTS. On a refusal `out` is unchanged. After the end of its track a
 * subscriber's frames stay as they are. */
ZOFTEMAR_USE ZOFTEMAR_NONNULL(1, 3) zoftemar_reply zoftemar_counts_of_subscriber(const zoftemar_room *room, uint32_t subscriber,
                                                                                 zoftemar_subscriber_counts *out);
ZOFTEMAR_USE ZOFTEMAR_NONNULL(1, 3) zoftemar_reply zoftemar_counts_of_track(const zoftemar_room *room, uint32_t track, zoftemar_track_counts *out);

/* ---- Sessions: NACKs, PLIs and retransmissions by the library
 *
 * A session handles the feedback of one publisher or one subscriber, by the rules of `sfu serve`. It has a handle of its own, and makes its calls on
 * the room that is passed to zoftemar_session_work. The caller publishes the track, or joins the subscriber, in that room as without a session.
 *
 *     zoftemar_session publisher = ZOFTEMAR_SESSION_NONE;
 *     zoftemar_open_publisher(&publisher, 1, 0x11111111);                          // of track 1, which has this SSRC
 *     zoftemar_session_received(&publisher, now, bytes, count);                    // for each datagram, RTP or RTCP
 *     zoftemar_session_waited(&publisher, now);                                    // about every 20 ms, if no datagram came
 *     while ((r = zoftemar_session_work(&publisher, &room, 0, out, sizeof out)).code == ZOFTEMAR_PACKET)
 *         send_to_publisher(out, r.first);                                         // after each of these two calls
 *
 * A turn is one zoftemar_session_received or zoftemar_session_waited, and the work after it.
 *
 * In each turn a publisher's session calls zoftemar_packet if an RTP datagram came, and then zoftemar_tick. In the first turn, and then at least
 * 20 ms apart, it sends one generic NACK for all sequence numbers of zoftemar_missing, if there are any (RFC 4585, section 6.2.1; at most 256 bytes).
 * If zoftemar_key_wanted says so, it then sends a PLI, at least 500 ms after the last one (section 6.3.1; 12 bytes). Both have the sender's SSRC 1.
 *
 * In each turn a subscriber's session reads the RTCP that came. For each packet that a NACK of its SSRC names it calls zoftemar_resend and sends the
 * retransmission; for each PLI it calls zoftemar_plead. It ignores RTCP with a fault, RTP, and feedback on other SSRCs. Then it takes and sends at
 * most 32 packets. To send all that is queued, make turns until the first zoftemar_session_work of a turn returns ZOFTEMAR_DONE. If there is an
 * RTX stream (RFC 4588), retransmissions are sent on it, numbered from 0.
 *
 * Threads. Make one call at a time on a session; zoftemar_session_work is a call on the room too. */

/* A session's handle. As with a room's, the caller owns it, its bytes are all 0 at first, and its fields are private to the library. */
typedef struct zoftemar_session {
    bool made;
    struct { void *at; } held;
} zoftemar_session;

#define ZOFTEMAR_SESSION_NONE ZOFTEMAR_ROOM_NONE

/* Opens the session of a track's publisher or of a subscriber: ZOFTEMAR_DONE, ZOFTEMAR_HAS_SESSION or ZOFTEMAR_NO_MEMORY. `ssrc` is the SSRC of the
 * publisher's packets, or of the packets sent to the subscriber. zoftemar_open_rtx_subscriber adds an RTX stream; it may return ZOFTEMAR_BAD_STREAM. */
ZOFTEMAR_USE ZOFTEMAR_NONNULL(1) uint32_t zoftemar_open_publisher(zoftemar_session *session, uint32_t track, uint32_t ssrc);
ZOFTEMAR_USE ZOFTEMAR_NONNULL(1) uint32_t zoftemar_open_subscriber(zoftemar_session *session, uint32_t subscriber, uint32_t ssrc);
ZOFTEMAR_USE ZOFTEMAR_NONNULL(1) uint32_t zoftemar_open_rtx_subscriber(zoftemar_session *session, uint32_t subscriber, uint32_t ssrc,
                                                                       uint32_t rtx_ssrc, uint8_t rtx_payload_type);

/* Frees the session; the room stays as it is. Does nothing if the handle has no session. */
ZOFTEMAR_NONNULL(1) void zoftemar_close_session(zoftemar_session *session);

/* Begins a turn of the session at `moment`: zoftemar_session_received with a datagram that came (decrypted), zoftemar_session_waited if none came.
 * ZOFTEMAR_DONE: call zoftemar_session_work next. ZOFTEMAR_BUSY, ZOFTEMAR_NO_SESSION, ZOFTEMAR_TOO_LONG: nothing changes. */
ZOFTEMAR_NONNULL(1) zoftemar_reply zoftemar_session_received(zoftemar_session *session, uint64_t moment, const uint8_t *bytes, size_t count);
ZOFTEMAR_NONNULL(1) zoftemar_reply zoftemar_session_waited(zoftemar_session *session, uint64_t moment);

/* Makes the session's calls on the room, up to the next datagram to send to its peer. ZOFTEMAR_PACKET: that datagram is in `out`. ZOFTEMAR_DONE: no
 * call is left until the next datagram or moment. `count` is at least ZOFTEMAR_PACKET_ROOM. ZOFTEMAR_NO_SESSION, ZOFTEMAR_NO_ROOM,
 * ZOFTEMAR_NO_SPACE: nothing changes. ZOFTEMAR_BOUND: the session's next call is a take from a leg of bundle `first`, and is still to be made; the calls
 * before it were made. The room's replies aren't reported: a packet that the room refuses is ignored. */
ZOFTEMAR_USE ZOFTEMAR_NONNULL(1, 2) zoftemar_reply zoftemar_session_work(zoftemar_session *session, zoftemar_room *room, uint32_t seat,
                                                                         uint8_t *out, size_t count);

/* ---- Bundles: one stream out of two or three tracks
 *
 * A publisher that sends simulcast sends each of its sizes as a track of its own. A bundle merges the packets of two or three subscribers, its legs, one
 * of each track, into one stream: one SSRC and consecutive sequence numbers. One leg at a time is active, and its packets are forwarded; the stream
 * changes to the chosen leg at that leg's next key frame. Leg 1 is the first one listed. Only its bundle takes from a leg: for a leg, zoftemar_take,
 * zoftemar_leave and the work of a session return ZOFTEMAR_BOUND. Bundles and their legs last until the room is closed.
 *
 *     const uint32_t legs[2] = { 1, 2 };                                           // subscribers of a publisher's two layered tracks, id 4
 *     zoftemar_bundle_renumbered(&room, 1, 4, 0x55555555, 10, legs, 2);            // bundle 1, its SSRC, first sequence number
 *     zoftemar_pump(&room, 1);                                                     // after packets and ticks of these tracks
 *     while ((r = zoftemar_draw(&room, 1, out, sizeof out)).code == ZOFTEMAR_PACKET)
 *         send_to_receiver(out, r.first);
 *     zoftemar_choose(&room, 1, 2);                                                // leg 2 from its next key frame on */

/* Makes a bundle of `count` legs, two or three (else ZOFTEMAR_BAD_LEGS), which are subscribers of layered tracks with descriptors under `id`. Its packets
 * have this SSRC, and sequence numbers from `first` on. Leg 1 is chosen. The first of these that applies: ZOFTEMAR_NUMBER_USED, ZOFTEMAR_TOO_MANY,
 * ZOFTEMAR_NO_SUBSCRIBER, ZOFTEMAR_BOUND (a leg has a bundle, or is listed twice), ZOFTEMAR_WRONG_KIND, ZOFTEMAR_NO_MEMORY: nothing changes.
 * zoftemar_bundle forwards each frame with the frame number that its leg gave it. zoftemar_bundle_renumbered lets frame numbers continue at a change of
 * leg, which WebRTC receivers need: a key frame that makes its leg active gets the last forwarded frame's number plus 1, modulo 65,536. */
ZOFTEMAR_NONNULL(1) zoftemar_reply zoftemar_bundle(zoftemar_room *room, uint32_t bundle, uint8_t id, uint32_t ssrc, uint16_t first,
                                                   const uint32_t *legs, size_t count);
ZOFTEMAR_NONNULL(1) zoftemar_reply zoftemar_bundle_renumbered(zoftemar_room *room, uint32_t bundle, uint8_t id, uint32_t ssrc, uint16_t first,
                                                              const uint32_t *legs, size_t count);

/* Chooses a leg, 1 to 3: ZOFTEMAR_DONE, ZOFTEMAR_NO_BUNDLE or ZOFTEMAR_NO_LEG. If the leg isn't active, this also requests a key frame of its track, as
 * zoftemar_plead does. */
ZOFTEMAR_NONNULL(1) zoftemar_reply zoftemar_choose(zoftemar_room *room, uint32_t bundle, uint8_t leg);

/* Takes the packets that are queued for the legs, and queues those that the bundle forwards, at most 512: ZOFTEMAR_PUMPED, or ZOFTEMAR_NO_BUNDLE. With 512
 * queued, packets stay with their legs. */
ZOFTEMAR_NONNULL(1) zoftemar_reply zoftemar_pump(zoftemar_room *room, uint32_t bundle);

/* zoftemar_draw moves a bundle's oldest queued packet to `out`: ZOFTEMAR_PACKET, or ZOFTEMAR_EMPTY. zoftemar_redraw copies to `out` the packet that was drawn
 * with this sequence number, for a NACK of the receiver: ZOFTEMAR_PACKET, or ZOFTEMAR_NOT_KEPT if it isn't among the last 1,024 drawn. `count` is at
 * least ZOFTEMAR_PACKET_ROOM. Either may return ZOFTEMAR_NO_BUNDLE. */
ZOFTEMAR_USE ZOFTEMAR_NONNULL(1) zoftemar_reply zoftemar_draw(zoftemar_room *room, uint32_t bundle, uint8_t *out, size_t count);
ZOFTEMAR_USE ZOFTEMAR_NONNULL(1) zoftemar_reply zoftemar_redraw(zoftemar_room *room, uint32_t bundle, uint16_t number, uint8_t *out, size_t count);

/* ---- Recording: the packets of a subscriber as a file
 *
 * A recorder makes an IVF file, as `sfu record` does, from the packets that a subscriber of a layered track takes, from its first take on. dav1d and
 * ffmpeg play it. The file stays in memory until the recorder is closed, since its header has the number of units.
 *
 *     zoftemar_recorder recorder = ZOFTEMAR_RECORDER_NONE;
 *     if (zoftemar_recorder_open(&recorder, 4) != ZOFTEMAR_DONE) return 1;         // descriptors under id 4
 *     zoftemar_recorder_feed(&recorder, out, r.first);                             // after each zoftemar_take that returns a packet
 *     while ((r = zoftemar_recorder_finish(&recorder, out, sizeof out)).code == ZOFTEMAR_FILE_PIECE)
 *         fwrite(out, 1, r.first, file);
 *     zoftemar_recorder_close(&recorder);
 *
 * Threads. One call at a time on a recorder; it has no room. */

/* A recorder's handle. As with a room's, the caller owns it, its bytes are all 0 at first, and its fields are private to the library. */
typedef struct zoftemar_recorder {
    bool made;
    struct { void *at; } held;
} zoftemar_recorder;

#define ZOFTEMAR_RECORDER_NONE ZOFTEMAR_ROOM_NONE

/* Opens a recorder of packets with descriptors in the header extension element `id`, 1 to 255: ZOFTEMAR_DONE, ZOFTEMAR_HAS_RECORDER,
 * ZOFTEMAR_NO_MEMORY or ZOFTEMAR_BAD_EXTENSION_ID. */
ZOFTEMAR_USE ZOFTEMAR_NONNULL(1) uint32_t zoftemar_recorder_open(zoftemar_recorder *recorder, uint8_t id);

/* Records the next packet. A code from ZOFTEMAR_UNREAD to ZOFTEMAR_NOT_OBU: a strict receiver finds this fault; the file has the frames before it,
 * and no more. ZOFTEMAR_NO_MEMORY, ZOFTEMAR_TOO_LONG, ZOFTEMAR_NO_RECORDER, ZOFTEMAR_FINISHED: nothing changes, and after ZOFTEMAR_NO_MEMORY the
 * packet may be passed again. Packets that one subscriber takes have no fault except possibly ZOFTEMAR_NOT_OBU. */
ZOFTEMAR_NONNULL(1) zoftemar_reply zoftemar_recorder_feed(zoftemar_recorder *recorder, const uint8_t *bytes, size_t count);

/* Finishes the recorder, and copies the next bytes of its file to `out`, `count` or all that are left: ZOFTEMAR_FILE_PIECE. ZOFTEMAR_DONE: the file
 * ended with the bytes before. The first reply has the size of the file: `first` plus `second`. ZOFTEMAR_NO_SPACE (`count` is 0): nothing
 * changes. It needs no memory. */
ZOFTEMAR_USE ZOFTEMAR_NONNULL(1) zoftemar_reply zoftemar_recorder_finish(zoftemar_recorder *recorder, uint8_t *out, size_t count);

/* Frees the recorder and its file. Does nothing if the handle has no recorder. */
ZOFTEMAR_NONNULL(1) void zoftemar_recorder_close(zoftemar_recorder *recorder);

/* ---- Without a room
 *
 * zoftemar_wrap makes the retransmission of an RTP packet of at most 2,046 bytes, with sequence number `number` on an RTX stream (RFC 4588,
 * section 4). zoftemar_unwrap restores the original packet from a publisher's retransmission. ZOFTEMAR_PACKET: the result is in `out`, with the given
 * SSRC and payload type, and without padding. `room_of_out` is at least ZOFTEMAR_PACKET_ROOM. ZOFTEMAR_NO_SPACE, ZOFTEMAR_TOO_LONG,
 * ZOFTEMAR_BAD_STREAM (a payload type of 128 or more), ZOFTEMAR_UNREADABLE: nothing is written. */
ZOFTEMAR_USE zoftemar_reply zoftemar_wrap(const uint8_t *bytes, size_t count, uint16_t number, uint32_t rtx_ssrc, uint8_t rtx_payload_type,
                                          uint8_t *out, size_t room_of_out);
ZOFTEMAR_USE zoftemar_reply zoftemar_unwrap(const uint8_t *bytes, size_t count, uint32_t ssrc, uint8_t payload_type,
                                            uint8_t *out, size_t room_of_out);

/* The archive's version: ZOFTEMAR_VERSION_NUMBER in the header of the same install. */
ZOFTEMAR_USE uint32_t zoftemar_version(void);

#ifdef __cplusplus
}
#endif

/* The sizes and offsets with which the library was built. */
#if defined(__cplusplus) && __cplusplus >= 201103L
#define ZOFTEMAR_HOLDS(name, fact) static_assert(fact, #name)
#elif defined(__STDC_VERSION__) && __STDC_VERSION__ >= 201112L
#define ZOFTEMAR_HOLDS(name, fact) _Static_assert(fact, #name)
#else
#define ZOFTEMAR_HOLDS(name, fact) typedef char zoftemar_holds_##name[(fact) ? 1 : -1]
#endif
ZOFTEMAR_HOLDS(room, sizeof(zoftemar_room) == 16 && offsetof(zoftemar_room, held) == 8);
ZOFTEMAR_HOLDS(session, sizeof(zoftemar_session) == 16 && offsetof(zoftemar_session, held) == 8);
ZOFTEMAR_HOLDS(recorder, sizeof(zoftemar_recorder) == 16 && offsetof(zoftemar_recorder, held) == 8);
ZOFTEMAR_HOLDS(reply, sizeof(zoftemar_reply) == 24 && offsetof(zoftemar_reply, has) == 4);
ZOFTEMAR_HOLDS(numbers, offsetof(zoftemar_reply, first) == 8 && offsetof(zoftemar_reply, second) == 16);
ZOFTEMAR_HOLDS(target, sizeof(zoftemar_target) == 8 && offsetof(zoftemar_target, known) == 1 && offsetof(zoftemar_target, temporal) == 3);
ZOFTEMAR_HOLDS(subscriber_counts, sizeof(zoftemar_subscriber_counts) == 128 && offsetof(zoftemar_subscriber_counts, spare) == 96);
ZOFTEMAR_HOLDS(subscriber_places, offsetof(zoftemar_subscriber_counts, queued) == 56 && offsetof(zoftemar_subscriber_counts, waiting) == 88);
ZOFTEMAR_HOLDS(track_counts, sizeof(zoftemar_track_counts) == 64 && offsetof(zoftemar_track_counts, spare) == 40);
#undef ZOFTEMAR_HOLDS

#endif
