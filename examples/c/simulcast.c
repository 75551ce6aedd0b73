/* simulcast.c: relays a publisher's simulcast over UDP, to each receiver as one stream. The publisher sends two or three sizes of one scene to PORT, the
 * smallest first: layered tracks with an SSRC each, whose bitrates are known. A receiver is sent the largest size that fits into the bandwidth of its REMB, and
 * sends RTCP from the port at which it receives. ID is the descriptors' header extension.
 * usage: simulcast PORT ID SSRC/KBPS,SSRC/KBPS[,SSRC/KBPS] ADDRESS:PORT.. */
#include <string.h>
#include "udp.h"

enum { HOLD = 300, MOST = 64, PATIENCE = 2000, NACK = 205, FEEDBACK = 206, REMB = 15 };
static uint32_t sizes, count;        /* tracks are 1 to `sizes`, receivers and their bundles 1 to `count` */
static struct sockaddr_in publisher; /* whoever last sent a packet that the room accepted */
static struct { uint32_t ssrc; uint64_t kbps; zoftemar_session session; } tracks[3 + 1];
static struct { struct sockaddr_in address; uint8_t chosen; uint64_t fits; } receivers[MOST + 1]; /* fits: since when a larger size fits */

static uint32_t word(const uint8_t *bytes) { return (uint32_t)bytes[0] << 24 | (uint32_t)bytes[1] << 16 | (uint32_t)bytes[2] << 8 | bytes[3]; }

static uint32_t media_of(uint32_t receiver) { return 0x22222200 + receiver; }

/* The subscriber that is this leg of a receiver's bundle. */
static uint32_t leg_of(uint32_t receiver, uint32_t leg) { return 3 * (receiver - 1) + leg; }

static void send_to(uint32_t receiver, const uint8_t *bytes, uint64_t length) {
    sendto(port, bytes, length, 0, (const struct sockaddr *)&receivers[receiver].address, sizeof receivers[receiver].address);
}

/* Takes what is queued on all legs, and sends what the bundles forward. */
static void forward(void) {
    uint8_t out[ZOFTEMAR_PACKET_ROOM];
    zoftemar_reply reply;
    for (uint32_t r = 1; r <= count; r++) {
        zoftemar_pump(&room, r);
        while ((reply = zoftemar_draw(&room, r, out, sizeof out)).code == ZOFTEMAR_PACKET) send_to(r, out, reply.first);
    }
}

/* Chooses the largest size that takes at most 85 % of the bandwidth: a smaller one at once, a larger one when it has fit for two seconds. The size changes
 * at the next key frame, which zoftemar_choose requests. */
static void adapt(uint32_t receiver, uint64_t kbps) {
    uint8_t best = 1;
    while (best < sizes && tracks[best + 1].kbps <= kbps * 85 / 100) best++;
    if (best <= receivers[receiver].chosen) receivers[receiver].fits = now();
    if (best == receivers[receiver].chosen || now() < receivers[receiver].fits + (best > receivers[receiver].chosen ? PATIENCE : 0)) return;
    receivers[receiver].chosen = best;
    zoftemar_choose(&room, receiver, best);
}

static void send_again(uint32_t receiver, uint16_t number) {
    uint8_t out[ZOFTEMAR_PACKET_ROOM];
    zoftemar_reply reply = zoftemar_redraw(&room, receiver, number, out, sizeof out);
    if (reply.code == ZOFTEMAR_PACKET) send_to(receiver, out, reply.first);
}

/* Reads a receiver's compound RTCP packet: generic NACKs and PLIs (RFC 4585, section 6), and REMB. A PLI asks for a key frame of the chosen size, which
 * repairs the picture even while another size is active. */
static void hear(uint32_t receiver, const uint8_t *bytes, size_t length) {
    for (size_t size; length >= 4 && (size = 4 * (1 + ((size_t)bytes[2] << 8 | bytes[3]))) <= length; bytes += size, length -= size) {
        bool is_ours = size >= 12 && word(bytes + 8) == media_of(receiver);
        unsigned format = bytes[0] & 31;
        for (size_t at = 12; is_ours && bytes[1] == NACK && format == 1 && at < size; at += 4) {
            uint32_t lost = word(bytes + at);
            send_again(receiver, (uint16_t)(lost >> 16));
            for (unsigned bit = 0; bit < 16; bit++)
                if (lost >> bit & 1) send_again(receiver, (uint16_t)((lost >> 16) + 1 + bit));
        }
        if (is_ours && bytes[1] == FEEDBACK && format == 1) zoftemar_plead(&room, 0, leg_of(receiver, receivers[receiver].chosen));
        if (bytes[1] == FEEDBACK && format == REMB && size >= 20 && memcmp(bytes + 12, "REMB", 4) == 0)
            adapt(receiver, ((uint64_t)(word(bytes + 16) & 0x3ffff) << (bytes[17] >> 2)) / 1000);
    }
}

static void handle(const struct sockaddr_in *from, const uint8_t *bytes, size_t length) {
    uint32_t receiver = 1, track = 1;
    while (receiver <= count && !is_same(&receivers[receiver].address, from)) receiver++;
    if (receiver <= count) {
        hear(receiver, bytes, length);
    } else if (!is_rtcp(bytes, length) && length >= 12) {
        while (track <= sizes && tracks[track].ssrc != word(bytes + 8)) track++;
        if (track <= sizes && zoftemar_packet(&room, 0, track, now(), bytes, length).code == ZOFTEMAR_DONE) publisher = *from;
    }
    forward();
}

/* Gives up old gaps, and asks the publisher for what is missing, and for key frames. */
static void tick(uint64_t moment) {
    for (uint32_t t = 1; t <= sizes; t++) {
        zoftemar_session_waited(&tracks[t].session, moment);
        work(&tracks[t].session, &publisher);
    }
    forward();
}

int main(int argc, char **argv) {
    if (argc < 5 || argc > 4 + MOST || zoftemar_open(&room) != ZOFTEMAR_DONE) return 2;
    uint8_t id = (uint8_t)atoi(argv[2]);
    for (char *text = strtok(argv[3], ","); text && sizes < 3; text = strtok(NULL, ",")) {
        unsigned ssrc, kbps;
        if (sscanf(text, "%x/%u", &ssrc, &kbps) != 2) return 2;
        tracks[++sizes].ssrc = ssrc, tracks[sizes].kbps = kbps;
        if (zoftemar_publish_layered(&room, 0, sizes, id, ssrc, HOLD).code != ZOFTEMAR_DONE) return 2;
        if (zoftemar_open_publisher(&tracks[sizes].session, sizes, ssrc) != ZOFTEMAR_DONE) return 2;
    }
    while ((int)count < argc - 4) {
        char address[16];
        unsigned short to;
        if (sscanf(argv[4 + count++], "%15[0-9.]:%hu", address, &to) != 2) return 2;
        receivers[count].address = (struct sockaddr_in){ .sin_family = AF_INET, .sin_port = htons(to), .sin_addr.s_addr = inet_addr(address) };
        receivers[count].chosen = 1, receivers[count].fits = now();
        const uint32_t legs[] = { leg_of(count, 1), leg_of(count, 2), leg_of(count, 3) };
        for (uint32_t leg = 0; leg < sizes; leg++) /* a leg's SSRC and sequence numbers are never sent */
            if (zoftemar_join(&room, 0, legs[leg], leg + 1, 0, 0, 3, 7).code != ZOFTEMAR_DONE) return 2;
        if (zoftemar_bundle_renumbered(&room, count, id, media_of(count), 0, legs, sizes).code != ZOFTEMAR_DONE) return 2;
    }
    if (!open_port(argv[1])) return 1;
    serve(handle, tick);
}
