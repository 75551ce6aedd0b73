/* edges.c: tests the codes that the library returns at its limits, each allocation failing in turn, and calls from another thread. It exits with 0 if
 * all is as the header says. With the argument `sizes` it prints how many bytes a room, a track, a subscriber, a bundle, a session and a recorder
 * allocate. */
#include <pthread.h>
#include <stdio.h>
#include <stdlib.h>
#include <string.h>
#include "zoftemar.h"
#include "zoftemar_heap.h"

#define IS(x) do { if (!(x)) { fprintf(stderr, "edges.c:%d: %s\n", __LINE__, #x); exit(1); } } while (0)

/* The allocator of heap.c, which also counts blocks and bytes, and fails after `left` more allocations (-1: never). */
static long left = -1, blocks;
static size_t bytes_taken;
static char no_bytes;

static bool may_take(size_t count) {
    if (left == 0) return false;
    if (left > 0) left--;
    bytes_taken += count;
    return true;
}

zoftemar_block rattle_alloc(size_t count, size_t align) {
    void *at = may_take(count) ? malloc(count ? count : align) : NULL;
    blocks += at != NULL;
    return (zoftemar_block){ at != NULL, at ? at : &no_bytes };
}

zoftemar_block rattle_realloc(void *old, size_t kept, size_t count, size_t align) {
    void *at = may_take(count - kept) ? realloc(old, count ? count : align) : NULL;
    return (zoftemar_block){ at != NULL, at ? at : &no_bytes };
}

void rattle_dealloc(void *at) {
    blocks--;
    free(at);
}

static uint8_t out[ZOFTEMAR_PACKET_ROOM], big[4000];
static uint16_t names[ZOFTEMAR_NAMES_ROOM];

static bool is(zoftemar_reply r, uint32_t code, bool has, uint64_t first, uint64_t second) {
    return r.code == code && r.has == has && r.first == first && r.second == second;
}

/* Track 1 is plain and has subscriber 1. */
static void who_is_ready(zoftemar_room *room) {
    const uint8_t rtp[13] = { 0x80, 96, 0, 1, 0, 0, 0, 0, 0x11, 0x11, 0x11, 0x11, 5 };
    uint32_t ready[2] = { 7, 7 };
    IS(zoftemar_join(room, 0, 2, 1, 5, 3, 0, 0).code == ZOFTEMAR_DONE);
    IS(is(zoftemar_ready(room, 1, ready, 2), ZOFTEMAR_READY, true, 0, 0) && ready[0] == 7);
    IS(zoftemar_packet(room, 0, 1, 0, rtp, sizeof rtp).code == ZOFTEMAR_DONE);
    IS(is(zoftemar_ready(room, 1, ready, 1), ZOFTEMAR_READY, true, 1, 0) && (ready[0] == 1 || ready[0] == 2) && ready[1] == 7);
    IS(is(zoftemar_ready(room, 1, ready, 2), ZOFTEMAR_READY, true, 2, 0) && ready[0] + ready[1] == 3);
    IS(zoftemar_take(room, 0, 1, out, sizeof out).code == ZOFTEMAR_PACKET);
    IS(is(zoftemar_ready(room, 1, ready, 2), ZOFTEMAR_READY, true, 1, 0) && ready[0] == 2);
    IS(zoftemar_ready(room, 2, ready, 2).first == 0 && is(zoftemar_ready(room, 1, NULL, 0), ZOFTEMAR_READY, true, 0, 0));
}

static void codes(void) {
    zoftemar_room room = ZOFTEMAR_ROOM_NONE;
    zoftemar_target target = { 7, true, 7, 7, { 7, 7, 7, 7 } };
    uint32_t ready[2] = { 7, 7 };
    IS(sizeof(zoftemar_room) == 16 && sizeof(zoftemar_reply) == 24 && sizeof(zoftemar_target) == 8);
    IS(zoftemar_tick(&room, 0, 1, 0).code == ZOFTEMAR_NO_ROOM);
    IS(zoftemar_take(&room, 0, 1, out, sizeof out).code == ZOFTEMAR_NO_ROOM);
    IS(zoftemar_reaches_wish(&room, 1).code == ZOFTEMAR_NO_ROOM);
    IS(zoftemar_due(&room, 1).code == ZOFTEMAR_NO_ROOM && zoftemar_newest_frame(&room, 1).code == ZOFTEMAR_NO_ROOM);
    IS(is(zoftemar_ready(&room, 1, ready, 2), ZOFTEMAR_NO_ROOM, false, 0, 0) && ready[0] == 7);
    zoftemar_close(&room);
    zoftemar_close(&room);
    IS(zoftemar_open(&room) == ZOFTEMAR_DONE && zoftemar_open(&room) == ZOFTEMAR_HAS_ROOM);
    IS(zoftemar_publish_layered(&room, 0, 1, 15, 1, 1).code == ZOFTEMAR_BAD_EXTENSION_ID);
    IS(zoftemar_publish_plain(&room, 0, 1, 0x11111111, 1).code == ZOFTEMAR_DONE);
    IS(zoftemar_packet(&room, 0, 1, 0, NULL, 0).code == ZOFTEMAR_UNREADABLE);
    IS(zoftemar_packet(&room, 0, 1, 0, big, 2048).code == ZOFTEMAR_TOO_BIG);
    IS(zoftemar_packet(&room, 0, 1, 0, big, 2049).code == ZOFTEMAR_TOO_LONG);
    IS(zoftemar_take(&room, 0, 1, out, 2047).code == ZOFTEMAR_NO_SPACE);
    IS(zoftemar_missing(&room, 0, 1, names, 1023).code == ZOFTEMAR_NO_SPACE);
    IS(zoftemar_target_of(&room, 1, &target).code == ZOFTEMAR_NO_SUBSCRIBER && target.index == 7);
    IS(zoftemar_join(&room, 0, 1, 1, 2, 3, 0, 0).code == ZOFTEMAR_DONE);
    IS(zoftemar_target_of(&room, 1, &target).code == ZOFTEMAR_TARGET && !zoftemar_target_of(&room, 1, &target).has);
    IS(zoftemar_reaches_wish(&room, 1).code == ZOFTEMAR_REACHED && !zoftemar_reaches_wish(&room, 1).has);
    IS(zoftemar_due(&room, 1).code == ZOFTEMAR_DUE && !zoftemar_due(&room, 1).has && zoftemar_due(&room, 2).code == ZOFTEMAR_NO_TRACK);
    IS(zoftemar_newest_frame(&room, 1).code == ZOFTEMAR_NEWEST && !zoftemar_newest_frame(&room, 1).has);
    IS(zoftemar_newest_frame(&room, 2).code == ZOFTEMAR_NO_TRACK);
    who_is_ready(&room);
    zoftemar_close(&room);
    IS(blocks == 0 && zoftemar_tick(&room, 0, 1, 0).code == ZOFTEMAR_NO_ROOM);
}

/* A packet of track 1, whose SSRC is 11111111, with this sequence number. */
static uint32_t bring(zoftemar_room *room, uint16_t number) {
    const uint8_t rtp[13] = { 0x80, 96, (uint8_t)(number >> 8), (uint8_t)number, 0, 0, 0, 0, 0x11, 0x11, 0x11, 0x11, 5 };
    return zoftemar_packet(room, 0, 1, 0, rtp, sizeof rtp).code;
}

/* Counts after a few calls. On a refusal `out` is unchanged, and what isn't counted is 0. */
static void counts(void) {
    zoftemar_room room = ZOFTEMAR_ROOM_NONE;
    zoftemar_subscriber_counts had, is;
    zoftemar_track_counts had_of_track, of_track;
    memset(&had, 7, sizeof had);
    memset(&had_of_track, 7, sizeof had_of_track);
    is = had;
    of_track = had_of_track;
    IS(zoftemar_counts_of_subscriber(&room, 1, &is).code == ZOFTEMAR_NO_ROOM && zoftemar_counts_of_track(&room, 1, &of_track).code == ZOFTEMAR_NO_ROOM);
    IS(zoftemar_open(&room) == ZOFTEMAR_DONE && zoftemar_counts_of_subscriber(&room, 1, &is).code == ZOFTEMAR_NO_SUBSCRIBER);
    IS(zoftemar_counts_of_track(&room, 1, &of_track).code == ZOFTEMAR_NO_TRACK);
    IS(memcmp(&is, &had, sizeof is) == 0 && memcmp(&of_track, &had_of_track, sizeof of_track) == 0);
    IS(zoftemar_publish_plain(&room, 0, 1, 0x11111111, 100).code == ZOFTEMAR_DONE && zoftemar_join(&room, 0, 1, 1, 2, 7, 0, 0).code == ZOFTEMAR_DONE);
    for (uint16_t number = 1; number <= 514; number++) IS(bring(&room, number) == ZOFTEMAR_DONE);
    IS(bring(&room, 514) == ZOFTEMAR_LATE && bring(&room, 517) == ZOFTEMAR_DONE); /* waits behind a gap */
    IS(zoftemar_take(&room, 0, 1, out, sizeof out).code == ZOFTEMAR_PACKET && zoftemar_take(&room, 0, 1, out, sizeof out).code == ZOFTEMAR_PACKET);
    IS(zoftemar_tick(&room, 0, 1, 100).code == ZOFTEMAR_DONE); /* gives up 515 and 516 */
    for (int i = 0; i < 3; i++) IS(zoftemar_resend(&room, 0, 1, 8, out, sizeof out).code == ZOFTEMAR_PACKET);
    IS(zoftemar_resend(&room, 0, 1, 6, out, sizeof out).code == ZOFTEMAR_NOT_KEPT);
    IS(zoftemar_counts_of_subscriber(&room, 1, &is).code == ZOFTEMAR_COUNTS && zoftemar_counts_of_track(&room, 1, &of_track).code == ZOFTEMAR_COUNTS);
    had = (zoftemar_subscriber_counts){ .queued = 513, .taken = 2, .resent = 3, .left_out = 2, .waiting = 511 };
    had_of_track = (zoftemar_track_counts){ .arrived = 515, .given_up = 2 };
    IS(memcmp(&is, &had, sizeof is) == 0 && memcmp(&of_track, &had_of_track, sizeof of_track) == 0);
    IS(zoftemar_unpublish(&room, 0, 1).code == ZOFTEMAR_DONE && zoftemar_counts_of_track(&room, 1, &of_track).code == ZOFTEMAR_NO_TRACK);
    IS(zoftemar_counts_of_subscriber(&room, 1, &is).code == ZOFTEMAR_COUNTS && memcmp(&is, &had, sizeof is) == 0);
    IS(zoftemar_leave(&room, 0, 1).code == ZOFTEMAR_DONE && zoftemar_counts_of_subscriber(&room, 1, &is).code == ZOFTEMAR_NO_SUBSCRIBER);
    zoftemar_close(&room);
    IS(blocks == 0 && strcmp(zoftemar_code_name(ZOFTEMAR_COUNTS), "ZOFTEMAR_COUNTS") == 0);
}

static uint32_t work(zoftemar_session *session, zoftemar_room *room) { return zoftemar_session_work(session, room, 0, out, sizeof out).code; }

static void sessions(void) {
    zoftemar_room room = ZOFTEMAR_ROOM_NONE;
    zoftemar_session publisher = ZOFTEMAR_SESSION_NONE, subscriber = ZOFTEMAR_SESSION_NONE;
    uint8_t rtp[13] = { 0x80, 96, 0, 1, 0, 0, 0, 0, 0x11, 0x11, 0x11, 0x11, 5 };
    const uint8_t nack[16] = { 0x81, 205, 0, 3, 0, 0, 0, 9, 0x22, 0x22, 0x22, 0x22, 0, 7, 0, 0 };
    IS(work(&publisher, &room) == ZOFTEMAR_NO_SESSION && zoftemar_session_waited(&publisher, 0).code == ZOFTEMAR_NO_SESSION);
    IS(zoftemar_session_received(&publisher, 0, NULL, 0).code == ZOFTEMAR_NO_SESSION);
    zoftemar_close_session(&publisher);
    left = 0;
    IS(zoftemar_open_publisher(&publisher, 1, 0x11111111) == ZOFTEMAR_NO_MEMORY && zoftemar_session_waited(&publisher, 0).code == ZOFTEMAR_NO_SESSION);
    left = -1;
    IS(zoftemar_open_rtx_subscriber(&subscriber, 1, 0x22222222, 0x22222222, 97) == ZOFTEMAR_BAD_STREAM);
    IS(zoftemar_open_rtx_subscriber(&subscriber, 1, 0x22222222, 0x33333333, 128) == ZOFTEMAR_BAD_STREAM);
    IS(zoftemar_open_publisher(&publisher, 1, 0x11111111) == ZOFTEMAR_DONE && zoftemar_open_subscriber(&publisher, 1, 2) == ZOFTEMAR_HAS_SESSION);
    IS(zoftemar_open_rtx_subscriber(&subscriber, 1, 0x22222222, 0x33333333, 97) == ZOFTEMAR_DONE);
    IS(zoftemar_session_received(&publisher, 0, big, 2049).code == ZOFTEMAR_TOO_LONG);
    IS(zoftemar_session_work(&publisher, &room, 0, out, 2047).code == ZOFTEMAR_NO_SPACE);
    IS(zoftemar_session_work(&publisher, &room, 0, NULL, 0).code == ZOFTEMAR_NO_SPACE && zoftemar_take(&room, 0, 1, NULL, 0).code == ZOFTEMAR_NO_SPACE);
    IS(zoftemar_session_received(&publisher, 0, rtp, sizeof rtp).code == ZOFTEMAR_DONE && zoftemar_session_waited(&publisher, 0).code == ZOFTEMAR_BUSY);
    IS(zoftemar_session_received(&publisher, 0, rtp, sizeof rtp).code == ZOFTEMAR_BUSY && work(&publisher, &room) == ZOFTEMAR_NO_ROOM);
    IS(zoftemar_open(&room) == ZOFTEMAR_DONE && zoftemar_publish_plain(&room, 0, 1, 0x11111111, 100).code == ZOFTEMAR_DONE);
    IS(zoftemar_join(&room, 0, 1, 1, 0x22222222, 7, 0, 0).code == ZOFTEMAR_DONE);
    IS(work(&publisher, &room) == ZOFTEMAR_DONE && work(&publisher, &room) == ZOFTEMAR_DONE);
    rtp[3] = 3;
    IS(zoftemar_session_received(&publisher, 20, rtp, sizeof rtp).code == ZOFTEMAR_DONE && work(&publisher, &room) == ZOFTEMAR_PACKET);
    IS(out[1] == 205 && out[3] == 3 && out[7] == 1 && out[8] == 0x11 && out[13] == 2 && out[15] == 0 && work(&publisher, &room) == ZOFTEMAR_DONE);
    IS(zoftemar_session_waited(&subscriber, 20).code == ZOFTEMAR_DONE && work(&subscriber, &room) == ZOFTEMAR_PACKET);
    IS(out[1] == 96 && out[3] == 7 && out[8] == 0x22 && out[12] == 5 && work(&subscriber, &room) == ZOFTEMAR_DONE);
    IS(zoftemar_session_received(&subscriber, 21, nack, sizeof nack).code == ZOFTEMAR_DONE && work(&subscriber, &room) == ZOFTEMAR_PACKET);
    IS(out[1] == 97 && out[3] == 0 && out[8] == 0x33 && out[13] == 7 && out[14] == 5 && work(&subscriber, &room) == ZOFTEMAR_DONE);
    zoftemar_close_session(&publisher);
    zoftemar_close_session(&publisher);
    zoftemar_close_session(&subscriber);
    zoftemar_close(&room);
    IS(blocks == 0 && strcmp(zoftemar_code_name(ZOFTEMAR_BUSY), "ZOFTEMAR_BUSY") == 0 && strcmp(zoftemar_code_name(12), "ZOFTEMAR_?") == 0);
}

/* Without a room: a packet is wrapped, and unwrapped again. */
static void wrapping(void) {
    const uint8_t rtp[13] = { 0x80, 96, 0, 9, 0, 0, 0, 0, 0x11, 0x11, 0x11, 0x11, 5 };
    uint8_t back[ZOFTEMAR_PACKET_ROOM];
    IS(zoftemar_version() == ZOFTEMAR_VERSION_NUMBER);
    IS(zoftemar_wrap(rtp, sizeof rtp, 300, 0x33333333, 97, out, 2047).code == ZOFTEMAR_NO_SPACE);
    IS(zoftemar_wrap(big, 2047, 300, 0x33333333, 97, out, sizeof out).code == ZOFTEMAR_TOO_LONG);
    IS(zoftemar_wrap(rtp, sizeof rtp, 300, 0x33333333, 128, out, sizeof out).code == ZOFTEMAR_BAD_STREAM);
    IS(zoftemar_wrap(rtp, 11, 300, 0x33333333, 97, out, sizeof out).code == ZOFTEMAR_UNREADABLE);
    IS(zoftemar_wrap(rtp, sizeof rtp, 300, 0x33333333, 97, out, sizeof out).first == 15);
    IS(out[1] == 97 && out[2] == 1 && out[3] == 44 && out[8] == 0x33 && out[12] == 0 && out[13] == 9 && out[14] == 5);
    IS(zoftemar_unwrap(out, 15, 0x11111111, 96, back, sizeof back).first == sizeof rtp && memcmp(back, rtp, sizeof rtp) == 0);
    IS(zoftemar_unwrap(out, 15, 0x11111111, 96, back, 0).code == ZOFTEMAR_NO_SPACE && zoftemar_unwrap(out, 13, 1, 96, back, sizeof back).first == 5);
    IS(zoftemar_unwrap(big, 2049, 1, 96, back, sizeof back).code == ZOFTEMAR_TOO_LONG);
    IS(zoftemar_unwrap(out, 15, 1, 128, back, sizeof back).code == ZOFTEMAR_BAD_STREAM);
}

/* A key frame of one packet, and a frame that refers to it. */
static const uint8_t key[31] = { 0x90, 0xe0, 0xff, 0xff, 0, 0, 0, 0, 0x22, 0x22, 0x22, 0x22, 0xbe, 0xde, 0, 3, 0x48, 0xc0, 0, 1, 0xc0, 0, 0x3a, 0x41, 1,
    0x40, 0, 0, 0x18, 0x30, 0 };
static const uint8_t next[23] = { 0x90, 0xe0, 0, 0, 0, 0, 0, 0, 0x22, 0x22, 0x22, 0x22, 0xbe, 0xde, 0, 1, 0x42, 0xc1, 0, 2, 0x10, 0x30, 0 };

static uint32_t record(zoftemar_recorder *recorder, const uint8_t *bytes, size_t count) { return zoftemar_recorder_feed(recorder, bytes, count).code; }

/* Two calls return the fault of the second frame when its byte at `at` is `value`; the file has the frame before it. */
static zoftemar_reply fault_of(size_t at, uint8_t value) {
    zoftemar_recorder recorder = ZOFTEMAR_RECORDER_NONE;
    uint8_t other[sizeof next];
    memcpy(other, next, sizeof next);
    other[at] = value;
    IS(zoftemar_recorder_open(&recorder, 4) == ZOFTEMAR_DONE && record(&recorder, key, sizeof key) == ZOFTEMAR_DONE);
    zoftemar_reply fault = zoftemar_recorder_feed(&recorder, other, sizeof other), again = zoftemar_recorder_feed(&recorder, next, sizeof next);
    IS(again.code == fault.code && again.has == fault.has && again.first == fault.first && again.second == fault.second);
    IS(zoftemar_recorder_finish(&recorder, out, sizeof out).first == 49 && out[24] == 1);
    zoftemar_recorder_close(&recorder);
    return fault;
}

static void recording(void) {
    zoftemar_recorder recorder = ZOFTEMAR_RECORDER_NONE;
    zoftemar_reply r;
    IS(record(&recorder, key, sizeof key) == ZOFTEMAR_NO_RECORDER && zoftemar_recorder_finish(&recorder, out, 1).code == ZOFTEMAR_NO_RECORDER);
    zoftemar_recorder_close(&recorder);
    IS(zoftemar_recorder_open(&recorder, 0) == ZOFTEMAR_BAD_EXTENSION_ID && record(&recorder, key, sizeof key) == ZOFTEMAR_NO_RECORDER);
    IS(zoftemar_recorder_open(&recorder, 4) == ZOFTEMAR_DONE && zoftemar_recorder_open(&recorder, 4) == ZOFTEMAR_HAS_RECORDER);
    IS(record(&recorder, big, 2049) == ZOFTEMAR_TOO_LONG && zoftemar_recorder_finish(&recorder, NULL, 0).code == ZOFTEMAR_NO_SPACE);
    IS(record(&recorder, key, sizeof key) == ZOFTEMAR_DONE && record(&recorder, next, sizeof next) == ZOFTEMAR_DONE);
    for (size_t at = 0; at < 52; at++) { /* one byte at a time */
        r = zoftemar_recorder_finish(&recorder, out + at, 1);
        IS(r.code == ZOFTEMAR_FILE_PIECE && r.has && r.first == 1 && r.second == 51 - at);
    }
    IS(memcmp(out, "DKIF\0\0\40\0AV01", 12) == 0 && memcmp(out + 44, "\22\0\62\1\0\62\1\0", 8) == 0);
    IS(zoftemar_recorder_finish(&recorder, out, 1).code == ZOFTEMAR_DONE && zoftemar_recorder_finish(&recorder, NULL, 0).code == ZOFTEMAR_NO_SPACE);
    IS(record(&recorder, next, sizeof next) == ZOFTEMAR_FINISHED && zoftemar_recorder_open(&recorder, 4) == ZOFTEMAR_HAS_RECORDER);
    zoftemar_recorder_close(&recorder);

    IS(zoftemar_recorder_open(&recorder, 4) == ZOFTEMAR_DONE && record(&recorder, next, sizeof next) == ZOFTEMAR_NO_STRUCTURE);
    IS(zoftemar_recorder_finish(&recorder, out, sizeof out).first == 32);
    zoftemar_recorder_close(&recorder);
    zoftemar_recorder_close(&recorder);
    IS(fault_of(0, 0x50).code == ZOFTEMAR_UNREAD && fault_of(17, 0x41).code == ZOFTEMAR_NOT_WHOLE && fault_of(21, 0xb0).code == ZOFTEMAR_NOT_OBU);
    r = fault_of(11, 0x33);
    IS(r.code == ZOFTEMAR_OTHER_SOURCE && r.first == 0x22222233 && r.second == 0x22222222);
    r = fault_of(3, 5);
    IS(r.code == ZOFTEMAR_OUT_OF_SEQUENCE && r.first == 5 && r.second == 65535);
    r = fault_of(19, 3);
    IS(r.code == ZOFTEMAR_MISSING_REFERENCE && r.first == 3 && r.second == 1 && blocks == 0);
}

/* Each allocation of a recorder fails in turn. A call that was refused succeeds afterwards. */
static void recorder_memory(void) {
    for (long n = 0;; n++) {
        zoftemar_recorder recorder = ZOFTEMAR_RECORDER_NONE;
        left = n;
        uint32_t code = zoftemar_recorder_open(&recorder, 4);
        if (code != ZOFTEMAR_DONE) {
            IS(code == ZOFTEMAR_NO_MEMORY && record(&recorder, key, sizeof key) == ZOFTEMAR_NO_RECORDER && blocks == 0);
            continue;
        }
        uint32_t first = record(&recorder, key, sizeof key);
        uint32_t second = first == ZOFTEMAR_DONE ? record(&recorder, next, sizeof next) : ZOFTEMAR_NO_MEMORY;
        left = -1;
        if (first != ZOFTEMAR_DONE) IS(first == ZOFTEMAR_NO_MEMORY && record(&recorder, key, sizeof key) == ZOFTEMAR_DONE);
        if (second != ZOFTEMAR_DONE) IS(second == ZOFTEMAR_NO_MEMORY && record(&recorder, next, sizeof next) == ZOFTEMAR_DONE);
        left = 0;
        IS(zoftemar_recorder_finish(&recorder, out, sizeof out).first == 52 && zoftemar_recorder_finish(&recorder, out, 1).code == ZOFTEMAR_DONE);
        left = -1;
        zoftemar_recorder_close(&recorder);
        IS(blocks == 0);
        if (first == ZOFTEMAR_DONE && second == ZOFTEMAR_DONE) return;
    }
}

static const uint32_t pair[2] = { 1, 2 }, lone[4] = { 1, 1, 9, 9 }, mixed[2] = { 3, 4 };

/* Opens a room with two layered tracks, a plain one, and subscribers 1 and 3 of the first, 2 of the second, 4 of the plain one. */
static void tracks(zoftemar_room *room) {
    IS(zoftemar_open(room) == ZOFTEMAR_DONE);
    IS(zoftemar_publish_layered(room, 0, 1, 4, 0x22222222, 100).code == ZOFTEMAR_DONE);
    IS(zoftemar_publish_layered(room, 0, 2, 4, 0x22222222, 100).code == ZOFTEMAR_DONE);
    IS(zoftemar_publish_plain(room, 0, 3, 5, 100).code == ZOFTEMAR_DONE);
    const uint32_t track[4] = { 1, 2, 1, 3 };
    for (uint32_t n = 0; n < 4; n++) IS(zoftemar_join(room, 0, n + 1, track[n], 5, 6, 0, 0).code == ZOFTEMAR_DONE);
}

/* The packet that is drawn next: its number, and its 16-bit frame number. */
static void drawn(zoftemar_room *room, uint32_t bundle, size_t count, int number, int frame) {
    zoftemar_reply r = zoftemar_draw(room, bundle, out, sizeof out);
    IS(r.code == ZOFTEMAR_PACKET && r.has && r.first == count && r.second == 0 && out[3] == number && out[8] == 0x55 && out[19] == frame);
}

static void bundles(void) {
    zoftemar_room room = ZOFTEMAR_ROOM_NONE;
    zoftemar_session session = ZOFTEMAR_SESSION_NONE;
    uint8_t second[sizeof next];
    IS(zoftemar_bundle(&room, 1, 4, 0x55555555, 10, pair, 2).code == ZOFTEMAR_NO_ROOM && zoftemar_pump(&room, 1).code == ZOFTEMAR_NO_ROOM);
    IS(zoftemar_bundle_renumbered(&room, 1, 4, 0x55555555, 10, pair, 2).code == ZOFTEMAR_NO_ROOM && zoftemar_choose(&room, 1, 1).code == ZOFTEMAR_NO_ROOM);
    IS(zoftemar_draw(&room, 1, out, sizeof out).code == ZOFTEMAR_NO_ROOM && zoftemar_redraw(&room, 1, 1, out, sizeof out).code == ZOFTEMAR_NO_ROOM);
    IS(zoftemar_bundle(&room, 1, 4, 0x55555555, 10, NULL, 0).code == ZOFTEMAR_BAD_LEGS && zoftemar_draw(&room, 1, out, 2047).code == ZOFTEMAR_NO_SPACE);
    tracks(&room);
    IS(is(zoftemar_bundle(&room, 0, 4, 0x55555555, 10, pair, 2), ZOFTEMAR_NUMBER_USED, true, 0, 0));
    IS(is(zoftemar_bundle(&room, 1, 4, 0x55555555, 10, lone, 1), ZOFTEMAR_BAD_LEGS, false, 0, 0));
    IS(zoftemar_bundle_renumbered(&room, 1, 4, 0x55555555, 10, lone, 4).code == ZOFTEMAR_BAD_LEGS);
    IS(is(zoftemar_bundle(&room, 1, 4, 0x55555555, 10, lone, 3), ZOFTEMAR_NO_SUBSCRIBER, false, 0, 0));
    IS(is(zoftemar_bundle(&room, 1, 4, 0x55555555, 10, lone, 2), ZOFTEMAR_BOUND, true, 1, 0));
    IS(is(zoftemar_bundle(&room, 1, 5, 0x55555555, 10, pair, 2), ZOFTEMAR_WRONG_KIND, false, 0, 0));
    IS(zoftemar_bundle_renumbered(&room, 1, 4, 0x55555555, 10, mixed, 2).code == ZOFTEMAR_WRONG_KIND);
    IS(zoftemar_pump(&room, 1).code == ZOFTEMAR_NO_BUNDLE && zoftemar_choose(&room, 1, 1).code == ZOFTEMAR_NO_BUNDLE);
    IS(zoftemar_draw(&room, 1, out, sizeof out).code == ZOFTEMAR_NO_BUNDLE && zoftemar_redraw(&room, 1, 10, out, sizeof out).code == ZOFTEMAR_NO_BUNDLE);
    IS(is(zoftemar_bundle_renumbered(&room, 1, 4, 0x55555555, 10, pair, 2), ZOFTEMAR_DONE, false, 0, 0));
    IS(is(zoftemar_bundle(&room, 1, 4, 0x55555555, 10, pair, 2), ZOFTEMAR_NUMBER_USED, true, 1, 0));
    IS(is(zoftemar_take(&room, 0, 1, out, sizeof out), ZOFTEMAR_BOUND, true, 1, 0) && zoftemar_take(&room, 0, 3, out, sizeof out).code == ZOFTEMAR_EMPTY);
    IS(is(zoftemar_leave(&room, 0, 2), ZOFTEMAR_BOUND, true, 1, 0) && is(zoftemar_choose(&room, 1, 3), ZOFTEMAR_NO_LEG, true, 2, 0));
    IS(zoftemar_open_subscriber(&session, 1, 5) == ZOFTEMAR_DONE && zoftemar_session_waited(&session, 0).code == ZOFTEMAR_DONE);
    IS(is(zoftemar_session_work(&session, &room, 0, out, sizeof out), ZOFTEMAR_BOUND, true, 1, 0) && work(&session, &room) == ZOFTEMAR_BOUND);
    IS(zoftemar_session_waited(&session, 0).code == ZOFTEMAR_BUSY);
    zoftemar_close_session(&session);

    /* Leg 1's frames 1 and 2, then leg 2's key frame 7, which gets number 3, and its frame 8, which gets 4. */
    memcpy(second, next, sizeof next);
    IS(zoftemar_packet(&room, 0, 1, 0, key, sizeof key).code == ZOFTEMAR_DONE && zoftemar_packet(&room, 0, 2, 0, key, sizeof key).code == ZOFTEMAR_DONE);
    IS(zoftemar_packet(&room, 0, 1, 0, second, sizeof second).code == ZOFTEMAR_DONE);
    IS(is(zoftemar_pump(&room, 1), ZOFTEMAR_PUMPED, true, 2, 1) && is(zoftemar_pump(&room, 1), ZOFTEMAR_PUMPED, true, 0, 0));
    IS(!zoftemar_key_wanted(&room, 0, 2).has && is(zoftemar_choose(&room, 1, 2), ZOFTEMAR_DONE, false, 0, 0) && zoftemar_key_wanted(&room, 0, 2).has);
    drawn(&room, 1, sizeof key, 10, 1);
    IS(zoftemar_draw(&room, 1, out, 2047).code == ZOFTEMAR_NO_SPACE && zoftemar_redraw(&room, 1, 10, out, 2047).code == ZOFTEMAR_NO_SPACE);
    drawn(&room, 1, sizeof next, 11, 2);
    IS(is(zoftemar_draw(&room, 1, out, sizeof out), ZOFTEMAR_EMPTY, false, 0, 0));
    uint8_t again[sizeof key];
    memcpy(again, key, sizeof key);
    again[2] = again[3] = 0; /* the sequence number after 65,535 */
    again[19] = 7;
    IS(zoftemar_packet(&room, 0, 2, 0, again, sizeof again).code == ZOFTEMAR_DONE);
    second[3] = 1;
    second[19] = 8;
    IS(zoftemar_packet(&room, 0, 2, 0, second, sizeof second).code == ZOFTEMAR_DONE);
    IS(is(zoftemar_pump(&room, 1), ZOFTEMAR_PUMPED, true, 2, 0));
    drawn(&room, 1, sizeof key, 12, 3);
    drawn(&room, 1, sizeof next, 13, 4);
    IS(is(zoftemar_redraw(&room, 1, 12, out, sizeof out), ZOFTEMAR_PACKET, true, sizeof key, 0) && out[3] == 12 && out[19] == 3);
    IS(is(zoftemar_redraw(&room, 1, 14, out, sizeof out), ZOFTEMAR_NOT_KEPT, true, 10, 14));
    zoftemar_close(&room);
    IS(blocks == 0);

    tracks(&room);
    for (uint32_t n = 0; n < 65; n++) {
        uint32_t legs[2] = { 5 + 2 * n, 6 + 2 * n };
        for (int i = 0; i < 2; i++) IS(zoftemar_join(&room, 0, legs[i], 1, 5, 6, 0, 0).code == ZOFTEMAR_DONE);
        zoftemar_reply r = zoftemar_bundle(&room, n + 1, 4, 5, 6, legs, 2);
        IS(n < 64 ? r.code == ZOFTEMAR_DONE : is(r, ZOFTEMAR_TOO_MANY, true, 64, 0));
    }
    zoftemar_close(&room);
    IS(blocks == 0);
}

/* Each allocation of a bundle fails in turn. A bundle that was refused is made afterwards, and its other calls need no memory. */
static void bundle_memory(void) {
    for (long n = 0;; n++) {
        zoftemar_room room = ZOFTEMAR_ROOM_NONE;
        tracks(&room);
        IS(zoftemar_packet(&room, 0, 1, 0, key, sizeof key).code == ZOFTEMAR_DONE);
        left = n;
        uint32_t made = zoftemar_bundle(&room, 1, 4, 0x55555555, 10, pair, 2).code;
        left = -1;
        if (made != ZOFTEMAR_DONE) {
            IS(made == ZOFTEMAR_NO_MEMORY && zoftemar_pump(&room, 1).code == ZOFTEMAR_NO_BUNDLE);
            IS(zoftemar_bundle(&room, 1, 4, 0x55555555, 10, pair, 2).code == ZOFTEMAR_DONE);
        }
        left = 0;
        IS(is(zoftemar_pump(&room, 1), ZOFTEMAR_PUMPED, true, 1, 0) && zoftemar_choose(&room, 1, 2).code == ZOFTEMAR_DONE);
        drawn(&room, 1, sizeof key, 10, 1);
        IS(zoftemar_redraw(&room, 1, 10, out, sizeof out).first == sizeof key);
        left = -1;
        zoftemar_close(&room);
        IS(blocks == 0);
        if (made == ZOFTEMAR_DONE) return;
    }
}

/* Each allocation fails in turn. A call that was refused succeeds afterwards, and all blocks are freed. */
static void memory(void) {
    zoftemar_reply publish, join;
    for (long n = 0;; n++) {
        zoftemar_room room = ZOFTEMAR_ROOM_NONE;
        left = n;
        uint32_t open = zoftemar_open(&room);
        if (open != ZOFTEMAR_DONE) {
            IS(open == ZOFTEMAR_NO_MEMORY && zoftemar_tick(&room, 0, 1, 0).code == ZOFTEMAR_NO_ROOM && blocks == 0);
            continue;
        }
        publish = zoftemar_publish_layered(&room, 0, 1, 4, 0x11111111, 100);
        join = zoftemar_join(&room, 0, 1, 1, 0x22222222, 7, 1, 1);
        left = -1;
        IS(publish.code == ZOFTEMAR_DONE || publish.code == ZOFTEMAR_NO_MEMORY);
        IS(join.code == ZOFTEMAR_DONE || join.code == (publish.code == ZOFTEMAR_DONE ? ZOFTEMAR_NO_MEMORY : ZOFTEMAR_NO_TRACK));
        if (publish.code != ZOFTEMAR_DONE) IS(zoftemar_publish_layered(&room, 0, 1, 4, 0x11111111, 100).code == ZOFTEMAR_DONE);
        if (join.code != ZOFTEMAR_DONE) IS(zoftemar_join(&room, 0, 1, 1, 0x22222222, 7, 1, 1).code == ZOFTEMAR_DONE);
        zoftemar_close(&room);
        IS(blocks == 0);
        if (publish.code == ZOFTEMAR_DONE && join.code == ZOFTEMAR_DONE) return;
    }
}

static zoftemar_room shared = ZOFTEMAR_ROOM_NONE;

static void *elsewhere(void *unused) {
    IS(zoftemar_tick(&shared, 0, 1, 5).code == ZOFTEMAR_DONE);
    IS(zoftemar_take(&shared, 0, 1, out, sizeof out).code == ZOFTEMAR_EMPTY);
    zoftemar_close(&shared);
    return unused;
}

static void threads(void) {
    pthread_t thread;
    IS(zoftemar_open(&shared) == ZOFTEMAR_DONE);
    zoftemar_publish_plain(&shared, 0, 1, 1, 1);
    zoftemar_join(&shared, 0, 1, 1, 2, 3, 0, 0);
    IS(pthread_create(&thread, NULL, elsewhere, NULL) == 0 && pthread_join(thread, NULL) == 0);
    IS(blocks == 0 && zoftemar_tick(&shared, 0, 1, 0).code == ZOFTEMAR_NO_ROOM);
}

static void size_of(const char *what) {
    printf("%s: %zu bytes\n", what, bytes_taken);
    bytes_taken = 0;
}

static void sizes(void) {
    zoftemar_room room = ZOFTEMAR_ROOM_NONE;
    bytes_taken = 0;
    IS(zoftemar_open(&room) == ZOFTEMAR_DONE);
    size_of("a room");
    zoftemar_publish_layered(&room, 0, 1, 4, 1, 1);
    size_of("a layered track");
    zoftemar_publish_plain(&room, 0, 2, 1, 1);
    size_of("a plain track");
    zoftemar_join(&room, 0, 1, 1, 2, 3, 0, 0);
    size_of("a subscriber");
    zoftemar_publish_layered(&room, 0, 3, 4, 1, 1);
    zoftemar_join(&room, 0, 2, 3, 2, 3, 0, 0);
    bytes_taken = 0;
    IS(zoftemar_bundle(&room, 1, 4, 1, 1, pair, 2).code == ZOFTEMAR_DONE);
    size_of("a bundle");
    zoftemar_session session = ZOFTEMAR_SESSION_NONE;
    IS(zoftemar_open_publisher(&session, 1, 1) == ZOFTEMAR_DONE);
    size_of("a session");
    zoftemar_close_session(&session);
    zoftemar_recorder recorder = ZOFTEMAR_RECORDER_NONE;
    IS(zoftemar_recorder_open(&recorder, 4) == ZOFTEMAR_DONE);
    size_of("a recorder");
    zoftemar_recorder_close(&recorder);
    zoftemar_close(&room);
}

int main(int argc, char **argv) {
    codes();
    counts();
    sessions();
    wrapping();
    recording();
    recorder_memory();
    bundles();
    bundle_memory();
    memory();
    threads();
    if (argc > 1 && strcmp(argv[1], "sizes") == 0) sizes();
    return blocks != 0;
}
