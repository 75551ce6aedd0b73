/* rate.c: how many calls a second. usage: rate PACKETS SUBSCRIBERS [ROUNDS] */
#include <stdio.h>
#include <stdlib.h>
#include <time.h>
#include "zoftemar.h"

static uint8_t packets[64 << 20], out[ZOFTEMAR_PACKET_ROOM];

static double now(void) {
    struct timespec time;
    clock_gettime(CLOCK_MONOTONIC, &time);
    return (double)time.tv_sec + (double)time.tv_nsec * 1e-9;
}

int main(int argc, char **argv) {
    FILE *file = argc > 2 ? fopen(argv[1], "rb") : NULL;
    if (file == NULL) return 2;
    size_t count = fread(packets, 1, sizeof packets, file);
    uint32_t subscribers = (uint32_t)atoi(argv[2]);
    int rounds = argc > 3 ? atoi(argv[3]) : 5;
    double best = 1e9;
    unsigned long long calls = 0, given = 0, bytes = 0;
    for (int round = 0; round < rounds; round++) {
        zoftemar_room room = ZOFTEMAR_ROOM_NONE;
        if (zoftemar_open(&room) != ZOFTEMAR_DONE) return 1;
        zoftemar_publish_layered(&room, 0, 1, 4, 0x11111111, 50);
        for (uint32_t s = 1; s <= subscribers; s++) zoftemar_join(&room, 0, s, 1, 0x22222200 + s, 0, 1, 1);
        calls = given = bytes = 0;
        double begin = now();
        for (size_t at = 0; at + 2 <= count;) {
            size_t length = packets[at] | (size_t)packets[at + 1] << 8;
            zoftemar_packet(&room, 0, 1, 0, packets + at + 2, length);
            at += 2 + length;
            for (uint32_t s = 1; s <= subscribers; s++) {
                zoftemar_reply reply = zoftemar_take(&room, 0, s, out, sizeof out);
                if (reply.code == ZOFTEMAR_PACKET) { given++; bytes += reply.first; }
            }
            calls += 1 + subscribers;
        }
        double took = now() - begin;
        if (took < best) best = took;
        zoftemar_close(&room);
    }
    printf("C, %u subscribers: %.2f million calls a second, %.0f ns a call, %llu packets out, %.1f Gbit/s\n", subscribers,
           (double)calls / best / 1e6, best * 1e9 / (double)calls, given, (double)bytes * 8 / best / 1e9);
    return 0;
}
