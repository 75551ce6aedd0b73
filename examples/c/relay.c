/* relay.c: relays one layered AV1 track over UDP. The library's sessions send NACKs and PLIs to the publisher, and retransmissions (RFC 4588) to the
 * subscribers. The publisher sends RTP to PORT. Each subscriber is sent what its wish allows, and sends RTCP from the port at which it receives. ID is the
 * descriptors' header extension, RTX the payload type of retransmissions. usage: relay PORT ID SSRC RTX ADDRESS:PORT/SPATIAL/TEMPORAL.. */
#include "udp.h"

enum { TRACK = 1, HOLD = 300, MOST = 64 };
static uint32_t count; /* the subscribers are 1 to `count` */
static struct { struct sockaddr_in address; zoftemar_session session; } peers[MOST + 1]; /* peers[0] is the publisher */

static void flush_all(uint64_t moment) {
    for (uint32_t peer = 1; peer <= count; peer++) flush(&peers[peer].session, &peers[peer].address, moment);
}

/* Passes a datagram to the session of the peer from which it came. The publisher is whoever last sent a packet that the room accepted. */
static void handle(const struct sockaddr_in *from, const uint8_t *bytes, size_t length) {
    uint32_t peer = 0;
    while (peer <= count && !is_same(&peers[peer].address, from)) peer++;
    if (peer <= count) {
        zoftemar_session_received(&peers[peer].session, now(), bytes, length);
        work(&peers[peer].session, &peers[peer].address);
    } else if (!is_rtcp(bytes, length) && zoftemar_packet(&room, 0, TRACK, now(), bytes, length).code == ZOFTEMAR_DONE) {
        peers[0].address = *from;
    }
    flush_all(now());
}

static void tick(uint64_t moment) {
    for (uint32_t s = 1; s <= count; s++) plead(s);
    zoftemar_session_waited(&peers[0].session, moment);
    work(&peers[0].session, &peers[0].address);
    flush_all(moment);
}

int main(int argc, char **argv) {
    if (argc < 6 || argc > 5 + MOST || zoftemar_open(&room) != ZOFTEMAR_DONE) return 2;
    uint32_t ssrc = (uint32_t)strtoul(argv[3], NULL, 16);
    if (zoftemar_publish_layered(&room, 0, TRACK, (uint8_t)atoi(argv[2]), ssrc, HOLD).code != ZOFTEMAR_DONE) return 2;
    if (zoftemar_open_publisher(&peers[0].session, TRACK, ssrc) != ZOFTEMAR_DONE) return 2;
    for (count = 0; (int)count < argc - 5;) {
        char address[16];
        unsigned short to;
        unsigned char spatial, temporal;
        uint32_t media = 0x22222200 + count, rtx = 0x33333300 + count;
        if (sscanf(argv[5 + count++], "%15[0-9.]:%hu/%hhu/%hhu", address, &to, &spatial, &temporal) != 4) return 2;
        peers[count].address = (struct sockaddr_in){ .sin_family = AF_INET, .sin_port = htons(to), .sin_addr.s_addr = inet_addr(address) };
        if (zoftemar_join(&room, 0, count, TRACK, media, 0, spatial, temporal).code != ZOFTEMAR_DONE) return 2;
        if (zoftemar_open_rtx_subscriber(&peers[count].session, count, media, rtx, (uint8_t)atoi(argv[4])) != ZOFTEMAR_DONE) return 2;
    }
    if (!open_port(argv[1])) return 1;
    serve(handle, tick);
}
