/* relay2.c: relays one layered AV1 track over UDP with the library's sessions, and goes on when its peers restart. Whoever sends RTP to PORT is the
 * publisher. It may restart with another SSRC, or with the same SSRC and other sequence numbers. A viewer sends `join SSRC SPATIAL TEMPORAL` to PORT until
 * packets come, the same line with other layers to change its wish, NACKs and PLIs in RTCP, and `leave` at the end. After a restart it joins with another
 * SSRC. ID is the descriptors' header extension, RTX the payload type of retransmissions. Nothing is encrypted or authenticated. usage: relay2 PORT ID RTX */
#include <string.h>
#include <unistd.h>
#include "udp.h"

enum {
    MOST = 64,      /* viewers */
    HOLD = 300,     /* how long the track waits for a missing packet, in milliseconds */
    RESTART = 500,  /* how long the publisher's packets are refused before a new track begins: more than HOLD plus the round trip */
    KEPT = 8000,    /* how long the old track's packets can still be retransmitted */
    SILENT = 10000, /* how long a viewer may send nothing */
};

typedef struct {
    uint32_t number; /* the subscriber's number in the room; 0: none */
    zoftemar_session session;
} receiver;

static struct {
    struct sockaddr_in address; /* its port is 0 if there is no viewer */
    uint32_t ssrc;
    uint8_t spatial, temporal;
    uint64_t heard, changed; /* when it last sent something, and when `old` was replaced */
    receiver current, old;   /* on this track, and on the one before */
} viewers[MOST];

static uint32_t track, tracks, receivers; /* the live track, 0 before the first packet; the last numbers used */
static uint8_t id, rtx;
static struct { struct sockaddr_in address; zoftemar_session session; } publisher;
static uint64_t refused; /* since when all packets of the publisher have been refused; 0: the last one wasn't */

static uint16_t random_number(void) {
    uint16_t number;
    if (getentropy(&number, sizeof number) != 0) exit(1);
    return number;
}

static void end(receiver *r) {
    if (r->number != 0) zoftemar_leave(&room, 0, r->number);
    zoftemar_close_session(&r->session);
    r->number = 0;
}

/* Makes viewer `v` a subscriber of the live track; its first packet gets the number `first`. If out of memory, the viewer's next line tries again. Each
 * receiver has an RTX stream of its own, numbered from 0. The stream's SSRC isn't a viewer's, since viewers' SSRCs are below 80000000. */
static void join(int v, uint16_t first) {
    receiver *r = &viewers[v].current;
    if (track == 0) return;
    if (zoftemar_join(&room, 0, ++receivers, track, viewers[v].ssrc, first, viewers[v].spatial, viewers[v].temporal).code != ZOFTEMAR_DONE) return;
    r->number = receivers;
    if (zoftemar_open_rtx_subscriber(&r->session, r->number, viewers[v].ssrc, 0x80000000 + r->number, rtx) != ZOFTEMAR_DONE) end(r);
}

static void leave(int v) {
    end(&viewers[v].current);
    end(&viewers[v].old);
    viewers[v].address.sin_port = 0;
}

/* The number of a subscriber's next packet: a resend of a number that isn't kept returns it. 0 and 32,768 aren't both among the last 1,024. */
static uint16_t next_number(uint32_t subscriber) {
    uint8_t out[ZOFTEMAR_PACKET_ROOM];
    zoftemar_reply reply = zoftemar_resend(&room, 0, subscriber, 0, out, sizeof out);
    if (reply.code != ZOFTEMAR_NOT_KEPT) reply = zoftemar_resend(&room, 0, subscriber, 32768, out, sizeof out);
    return (uint16_t)reply.second;
}

/* Begins a new track for packets of this SSRC. Each viewer keeps its SSRC, and its sequence numbers go on; its old receiver still handles NACKs for
 * earlier packets. If out of memory, nothing changes, and the next packet tries again. */
static void begin(uint32_t ssrc, uint64_t moment) {
    zoftemar_session session = ZOFTEMAR_SESSION_NONE;
    if (zoftemar_publish_layered(&room, 0, ++tracks, id, ssrc, HOLD).code != ZOFTEMAR_DONE) return;
    if (zoftemar_open_publisher(&session, tracks, ssrc) != ZOFTEMAR_DONE) {
        zoftemar_unpublish(&room, 0, tracks);
        return;
    }
    if (track != 0) zoftemar_unpublish(&room, 0, track);
    zoftemar_close_session(&publisher.session);
    publisher.session = session;
    track = tracks;
    refused = 0;
    for (int v = 0; v < MOST; v++) {
        uint16_t first = random_number();
        if (viewers[v].address.sin_port == 0) continue;
        if (viewers[v].current.number != 0) {
            flush(&viewers[v].current.session, &viewers[v].address, moment);
            first = next_number(viewers[v].current.number);
            end(&viewers[v].old);
            viewers[v].old = viewers[v].current;
            viewers[v].current = (receiver){ 0 };
            viewers[v].changed = moment;
        }
        join(v, first);
    }
}

/* Handles a packet of the publisher. The publisher has restarted if for half a second all its packets were late or had another SSRC: a few late
 * retransmissions aren't a restart. */
static void publish(const struct sockaddr_in *from, const uint8_t *bytes, size_t length, uint64_t moment) {
    if (length < 12 || is_rtcp(bytes, length)) return;
    uint32_t code = track == 0 ? ZOFTEMAR_NO_TRACK : zoftemar_packet(&room, 0, track, moment, bytes, length).code;
    bool is_other = code == ZOFTEMAR_LATE || code == ZOFTEMAR_WRONG_SSRC;
    if (is_other && refused == 0) refused = moment;
    if (code == ZOFTEMAR_NO_TRACK || (is_other && moment - refused >= RESTART)) {
        begin((uint32_t)bytes[8] << 24 | (uint32_t)bytes[9] << 16 | (uint32_t)bytes[10] << 8 | bytes[11], moment);
        code = zoftemar_packet(&room, 0, track, moment, bytes, length).code;
    }
    if (code != ZOFTEMAR_DONE) return;
    refused = 0;
    publisher.address = *from;
}

/* Handles a line of viewer `v`, or of a new viewer who gets this place. Any other text is ignored. */
static void line(int v, const struct sockaddr_in *from, const char *text, uint64_t moment) {
    uint32_t ssrc;
    unsigned char spatial, temporal;
    bool is_known = viewers[v].address.sin_port != 0;
    if (strcmp(text, "leave") == 0 && is_known) leave(v);
    if (sscanf(text, "join %8x %hhu %hhu", &ssrc, &spatial, &temporal) != 3 || ssrc >> 31 != 0) return;
    if (is_known && viewers[v].ssrc != ssrc) leave(v);
    viewers[v].address = *from;
    viewers[v].ssrc = ssrc;
    viewers[v].spatial = spatial;
    viewers[v].temporal = temporal;
    viewers[v].heard = moment;
    if (viewers[v].current.number != 0) zoftemar_aim(&room, 0, viewers[v].current.number, spatial, temporal);
    else join(v, random_number());
}

static void handle(const struct sockaddr_in *from, uint8_t *bytes, size_t length, uint64_t moment) {
    int v = 0, unused = -1;
    for (; v < MOST && !is_same(&viewers[v].address, from); v++)
        if (viewers[v].address.sin_port == 0) unused = v;
    bool is_text = bytes[0] >> 6 != 2; /* RTP and RTCP have version 2 here */
    bytes[length] = 0;
    if (is_text && (v < MOST || unused >= 0)) {
        line(v < MOST ? v : unused, from, (const char *)bytes, moment);
    } else if (!is_text && v < MOST) { /* feedback: each receiver has its own sequence numbers, and ignores the other's */
        viewers[v].heard = moment;
        zoftemar_session_received(&viewers[v].current.session, moment, bytes, length);
        work(&viewers[v].current.session, from);
        zoftemar_session_received(&viewers[v].old.session, moment, bytes, length);
        work(&viewers[v].old.session, from);
    } else if (!is_text) {
        publish(from, bytes, length, moment);
    }
}

/* Runs after each datagram and every 20 ms. */
static void turn(uint64_t moment, bool ticks) {
    zoftemar_session_waited(&publisher.session, moment);
    work(&publisher.session, &publisher.address);
    for (int v = 0; v < MOST; v++) {
        if (viewers[v].address.sin_port == 0) continue;
        if (ticks && moment - viewers[v].changed > KEPT) end(&viewers[v].old);
        if (ticks && viewers[v].current.number != 0) plead(viewers[v].current.number);
        flush(&viewers[v].current.session, &viewers[v].address, moment);
        if (moment - viewers[v].heard > SILENT) leave(v);
    }
}

int main(int argc, char **argv) {
    if (argc != 4 || zoftemar_open(&room) != ZOFTEMAR_DONE) return 2;
    id = (uint8_t)atoi(argv[2]);
    rtx = (uint8_t)atoi(argv[3]);
    if (id == 0 || id == 15 || rtx > 127) return 2;
    if (!open_port(argv[1])) return 1;
    for (uint64_t ticked = 0;;) {
        static uint8_t bytes[ZOFTEMAR_PACKET_ROOM];
        struct sockaddr_in from;
        size_t length = receive(bytes, sizeof bytes - 1, &from);
        uint64_t moment = now();
        bool ticks = moment >= ticked + EACH;
        if (length > 0) handle(&from, bytes, length, moment);
        if (length > 0 || ticks) turn(moment, ticks);
        if (ticks) ticked = moment;
    }
}
