/* call.c: the memory of a call. Each of PEOPLE publishes a layered and a plain track, and subscribes to those of all others. Printed are the resident
 * memory after the last join, and after a minute of 250 packets of 1,200 bytes a second on each layered track and 50 of 120 on each plain one, which
 * each subscriber takes at once; and the processor time of all publishes and joins, and what the worst of the joins took and touched.
 * usage: call PACKETS PEOPLE, with 15,000 packets as bench/c/packets.py writes them; at most 11 people. */
#include <stdio.h>
#include <stdlib.h>
#include <sys/resource.h>
#include <time.h>
#include <unistd.h>
#include "zoftemar.h"

enum { PACKETS = 15000, BETWEEN = 4, MOST_PEOPLE = 11 }; /* one packet in 4 ms on each layered track; every fifth time one on each plain one */
static uint8_t out[ZOFTEMAR_PACKET_ROOM], layered[1500], plain[120] = { 0x80, 0x60, [8] = 0x11, 0x11, 0x11, 0x11 };

static double milliseconds(void) {
    struct timespec time;
    clock_gettime(CLOCK_THREAD_CPUTIME_ID, &time);
    return (double)time.tv_sec * 1e3 + (double)time.tv_nsec * 1e-6;
}

static double resident(void) {
    long pages = 0;
    FILE *file = fopen("/proc/self/statm", "r");
    if (file == NULL || fscanf(file, "%*s %ld", &pages) != 1) exit(1);
    fclose(file);
    return (double)(pages * sysconf(_SC_PAGESIZE)) / 1e6;
}

/* Kilobytes that were touched so far. */
static long touched(void) {
    struct rusage usage;
    getrusage(RUSAGE_SELF, &usage);
    return usage.ru_minflt * sysconf(_SC_PAGESIZE) / 1024;
}

static void check(zoftemar_reply reply) {
    if (reply.code != ZOFTEMAR_DONE) {
        fprintf(stderr, "call: %s\n", zoftemar_code_name(reply.code));
        exit(1);
    }
}

/* A packet on a track, which each of the track's `others` subscribers takes. */
static void pass(zoftemar_room *room, uint32_t track, uint32_t others, uint64_t now, const uint8_t *bytes, size_t count) {
    check(zoftemar_packet(room, 0, track, now, bytes, count));
    for (uint32_t s = (track - 1) * others + 1; s <= track * others; s++)
        while (zoftemar_take(room, 0, s, out, sizeof out).code == ZOFTEMAR_PACKET) {}
}

int main(int argc, char **argv) {
    FILE *file = argc > 2 ? fopen(argv[1], "rb") : NULL;
    uint32_t people = argc > 2 ? (uint32_t)atoi(argv[2]) : 0, tracks = 2 * people, others = people - 1;
    zoftemar_room room = ZOFTEMAR_ROOM_NONE;
    if (file == NULL || people < 2 || people > MOST_PEOPLE || zoftemar_open(&room) != ZOFTEMAR_DONE) return 2;
    double begin = milliseconds(), worst = 0;
    long most = 0;
    for (uint32_t t = 1; t <= tracks; t++) /* layered tracks have odd numbers */
        check(t % 2 ? zoftemar_publish_layered(&room, 0, t, 4, 0x11111111, 100) : zoftemar_publish_plain(&room, 0, t, 0x11111111, 100));
    for (uint32_t s = 1; s <= tracks * others; s++) {
        long before = touched();
        double start = milliseconds();
        check(zoftemar_join(&room, 0, s, (s - 1) / others + 1, 0x22222200 + s, 0, 1, 1));
        double took = milliseconds() - start;
        if (took > worst) worst = took;
        if (touched() - before > most) most = touched() - before;
    }
    double made = milliseconds() - begin, start = resident();
    for (uint32_t n = 0; n < PACKETS; n++) {
        int low = getc(file);
        size_t count = (size_t)low | (size_t)getc(file) << 8;
        if (low == EOF || count > sizeof layered || fread(layered, 1, count, file) != count) return 2;
        uint64_t now = (uint64_t)n * BETWEEN;
        for (uint32_t t = 1; t <= tracks; t += 2) pass(&room, t, others, now, layered, count);
        if (n % 5 > 0) continue;
        plain[2] = (uint8_t)(n / 5 >> 8);
        plain[3] = (uint8_t)(n / 5);
        for (uint32_t t = 2; t <= tracks; t += 2) pass(&room, t, others, now, plain, sizeof plain);
        for (uint32_t t = 1; t <= tracks; t++) check(zoftemar_tick(&room, 0, t, now));
    }
    printf("C, a call of %u, %u tracks with %u subscribers: %.1f MB resident at the start, %.1f MB after a minute; "
           "made in %.1f ms, a join in at most %.2f ms, of which it touched at most %ld KB\n",
           people, tracks, tracks * others, start, resident(), made, worst, most);
    zoftemar_close(&room);
    return 0;
}
