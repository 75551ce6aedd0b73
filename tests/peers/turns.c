/* turns.c: the turns of the runs that turns.py wrote, by the C library: one track, its publisher's session and its subscribers', in one thread. Prints `run`
 * for each run, and each datagram that a session sends: the session, the turn and the bytes. usage: turns FILE */
#include "zoftemar.h"

#include <stdio.h>
#include <stdlib.h>

enum { TRACK = 1, ID = 4, MOST = 4 };
static const uint32_t MEDIA = 0x11111111, OUT = 0x22222200, RTX = 0x33333300;
static zoftemar_room room = ZOFTEMAR_ROOM_NONE;
static zoftemar_session sessions[MOST]; /* the publisher's in place 0 */

static void must(bool holds, const char *what) {
    if (holds) return;
    fprintf(stderr, "turns: %s\n", what);
    exit(1);
}

static uint16_t word(const uint8_t *bytes) {
    return (uint16_t)(bytes[0] + 256 * bytes[1]);
}

static uint64_t moment_of(const uint8_t *bytes) {
    uint64_t moment = 0;
    for (int place = 8; place-- > 0;) moment = moment << 8 | bytes[place];
    return moment;
}

static void begin(const uint8_t *head) {
    uint16_t hold = word(head + 6);
    must(zoftemar_open(&room) == ZOFTEMAR_DONE, "no room");
    zoftemar_reply made = head[0] ? zoftemar_publish_layered(&room, 0, TRACK, ID, MEDIA, hold) : zoftemar_publish_plain(&room, 0, TRACK, MEDIA, hold);
    must(made.code == ZOFTEMAR_DONE, "no track");
    must(zoftemar_open_publisher(&sessions[0], TRACK, MEDIA) == ZOFTEMAR_DONE, "no publisher");
    for (uint32_t s = 1; s <= head[1]; s++) {
        uint8_t wish = head[2 + s];
        made = zoftemar_join(&room, 0, s, TRACK, OUT + s, word(head + 8 + 2 * s), wish >> 4, wish & 15);
        must(made.code == ZOFTEMAR_DONE, "no subscriber");
        uint32_t opened = head[2] >> (s - 1) & 1 ? zoftemar_open_rtx_subscriber(&sessions[s], s, OUT + s, RTX + s, 97)
                                                 : zoftemar_open_subscriber(&sessions[s], s, OUT + s);
        must(opened == ZOFTEMAR_DONE, "no session");
    }
}

static void end(void) {
    for (int s = 0; s < MOST; s++) zoftemar_close_session(&sessions[s]);
    zoftemar_close(&room);
}

static void turn(uint32_t session, unsigned number, bool came, uint64_t moment, const uint8_t *bytes, size_t count) {
    static uint8_t out[ZOFTEMAR_PACKET_ROOM];
    zoftemar_session *own = &sessions[session];
    zoftemar_reply reply = came ? zoftemar_session_received(own, moment, bytes, count) : zoftemar_session_waited(own, moment);
    must(reply.code == ZOFTEMAR_DONE, "a turn isn't begun");
    while ((reply = zoftemar_session_work(own, &room, session + 1, out, sizeof out)).code == ZOFTEMAR_PACKET) {
        printf("%u %u ", session, number);
        for (uint64_t place = 0; place < reply.first; place++) printf("%02x", out[place]);
        putchar('\n');
    }
    must(reply.code == ZOFTEMAR_DONE, "a turn isn't ended");
}

int main(int argc, char **argv) {
    FILE *file = argc == 2 ? fopen(argv[1], "rb") : NULL;
    must(file != NULL, "usage: turns FILE");
    for (uint8_t head[16]; fread(head, 1, sizeof head, file) == sizeof head;) {
        puts("run");
        begin(head);
        for (unsigned number = 0; number < word(head + 8); number++) {
            uint8_t given[12], bytes[ZOFTEMAR_PACKET_ROOM];
            must(fread(given, 1, sizeof given, file) == sizeof given, "a turn isn't whole");
            size_t count = word(given + 2);
            must(given[0] <= head[1] && count <= sizeof bytes && fread(bytes, 1, count, file) == count, "a datagram isn't whole");
            turn(given[0], number, given[1], moment_of(given + 4), bytes, count);
        }
        end();
    }
    return fclose(file);
}
