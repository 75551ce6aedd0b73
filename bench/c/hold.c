/* hold.c: how many frames are forwarded where 5 % of all datagrams between publisher and room are lost, by the hold of the track and the round trip, by a
 * clock of its own. A temporal unit each 40 ms; NACKs by a session, each number sent again for each. usage: hold PACKETS, as bench/c/packets.py writes them,
 * one a frame */
#include <stdio.h>
#include <stdlib.h>
#include "zoftemar.h"

enum { MOST = 65536, UNIT = 40, TICK = 20, LAST = MOST * UNIT / 2 + 4096 };
static uint8_t bytes[MOST][1500], out[ZOFTEMAR_PACKET_ROOM];
static size_t length[MOST];
static uint32_t count, arrivals;
static struct { uint32_t packet, next; } arrival[64 * MOST]; /* from 1 on */
static uint32_t first[LAST], last[LAST];                     /* what arrives in each millisecond */
static uint64_t chance;

static bool is_lost(void) {
    chance = chance * 6364136223846793005u + 1442695040888963407u;
    return (chance >> 33) % 100 < 5;
}

static void send(uint32_t packet, uint64_t at) {
    if (is_lost() || at >= LAST || ++arrivals == 64 * MOST) return;
    arrival[arrivals].packet = packet;
    arrival[arrivals].next = 0;
    *(first[at] == 0 ? &first[at] : &arrival[last[at]].next) = arrivals;
    last[at] = arrivals;
}

/* What the session sends: NACKs are answered, PLIs aren't. */
static void work(zoftemar_session *publisher, zoftemar_room *room, uint64_t answered) {
    zoftemar_reply reply;
    while ((reply = zoftemar_session_work(publisher, room, 0, out, sizeof out)).code == ZOFTEMAR_PACKET) {
        if (out[1] != 205 || is_lost()) continue;
        for (size_t at = 12; at < reply.first; at += 4) {
            uint32_t number = (uint32_t)out[at] << 8 | out[at + 1], more = (uint32_t)out[at + 2] << 8 | out[at + 3];
            send(number, answered);
            for (uint32_t bit = 0; bit < 16; bit++)
                if (more >> bit & 1) send(number + 1 + bit, answered);
        }
    }
}

static uint32_t forwarded(uint32_t hold, uint32_t round_trip) {
    zoftemar_room room = ZOFTEMAR_ROOM_NONE;
    zoftemar_session publisher = ZOFTEMAR_SESSION_NONE;
    uint32_t frames = 0, end = count * UNIT / 2 + 2048;
    chance = 1;
    arrivals = 0;
    for (uint32_t at = 0; at < LAST; at++) first[at] = 0;
    if (zoftemar_open(&room) != ZOFTEMAR_DONE || zoftemar_open_publisher(&publisher, 1, 0x11111111) != ZOFTEMAR_DONE) exit(1);
    zoftemar_publish_layered(&room, 0, 1, 4, 0x11111111, hold);
    zoftemar_join(&room, 0, 1, 1, 0x22222222, 0, 1, 1);
    for (uint64_t now = 0; now < end; now++) {
        for (uint32_t packet = (uint32_t)(now / UNIT * 2); now % UNIT == 0 && packet < now / UNIT * 2 + 2; packet++)
            if (packet < count) send(packet, now + round_trip / 2);
        for (uint32_t came = first[now]; came != 0; came = arrival[came].next) {
            zoftemar_session_received(&publisher, now, bytes[arrival[came].packet], length[arrival[came].packet]);
            work(&publisher, &room, now + round_trip);
        }
        if (now % TICK == 0) zoftemar_session_waited(&publisher, now);
        work(&publisher, &room, now + round_trip);
        while (zoftemar_take(&room, 0, 1, out, sizeof out).code == ZOFTEMAR_PACKET) frames++;
    }
    zoftemar_close_session(&publisher);
    zoftemar_close(&room);
    return frames;
}

int main(int argc, char **argv) {
    FILE *file = argc > 1 ? fopen(argv[1], "rb") : NULL;
    if (file == NULL) return 2;
    for (int low; count < MOST && (low = getc(file)) != EOF; count++) {
        length[count] = (size_t)low | (size_t)getc(file) << 8;
        if (length[count] > sizeof bytes[0] || fread(bytes[count], 1, length[count], file) != length[count]) return 2;
    }
    static const uint32_t holds[] = { 50, 100, 200, 300, 500 }, round_trips[] = { 20, 70, 140, 240 };
    for (int h = 0; h < 5; h++) {
        printf("C, hold %u:", holds[h]);
        for (int r = 0; r < 4; r++) printf(" %.1f %% of %u frames at a round trip of %u ms;", 100.0 * forwarded(holds[h], round_trips[r]) / count, count, round_trips[r]);
        putchar('\n');
    }
}
