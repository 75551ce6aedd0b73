/* layered.c: makes the first calls of examples/layered.script with the library, then raises a wish. It prints the replies. */
#include <stdio.h>
#include "zoftemar.h"

static zoftemar_room room = ZOFTEMAR_ROOM_NONE;

static void say(zoftemar_reply reply, const uint8_t *out) {
    switch (reply.code) {
    case ZOFTEMAR_DONE: puts("ok"); break;
    case ZOFTEMAR_EMPTY: puts("empty"); break;
    case ZOFTEMAR_KEY: puts(reply.has ? "key yes" : "key no"); break;
    case ZOFTEMAR_PASSED: puts("passed"); break;
    case ZOFTEMAR_NOT_OF_TARGET: printf("notoftarget %llu\n", (unsigned long long)reply.first); break;
    case ZOFTEMAR_PACKET:
        printf("packet ");
        for (uint64_t i = 0; i < reply.first; i++) printf("%02x", out[i]);
        putchar('\n');
        break;
    default: printf("code %u\n", reply.code);
    }
}

static void packet(uint64_t moment, const char *hex) {
    uint8_t bytes[ZOFTEMAR_PACKET_ROOM];
    size_t count = 0;
    for (unsigned byte; sscanf(hex + 2 * count, "%2x", &byte) == 1; count++) bytes[count] = (uint8_t)byte;
    say(zoftemar_packet(&room, 0, 1, moment, bytes, count), NULL);
}

static void take(uint32_t subscriber) {
    uint8_t out[ZOFTEMAR_PACKET_ROOM];
    say(zoftemar_take(&room, 0, subscriber, out, sizeof out), out);
}

static void target(uint32_t subscriber) {
    zoftemar_target sent = { 0 };
    if (zoftemar_target_of(&room, subscriber, &sent).has)
        printf("target %u, layers %u %u, %s\n", sent.index, sent.spatial, sent.temporal,
               zoftemar_reaches_wish(&room, subscriber).has ? "as wished" : "less than wished");
}

int main(void) {
    if (zoftemar_open(&room) != ZOFTEMAR_DONE) return 1;
    say(zoftemar_publish_layered(&room, 0, 1, 4, 0x11111111, 100), NULL);
    say(zoftemar_join(&room, 0, 1, 1, 0x22222222, 65534, 1, 1), NULL);
    say(zoftemar_join(&room, 0, 2, 1, 0x33333333, 100, 0, 0), NULL);
    say(zoftemar_key_wanted(&room, 0, 1), NULL);
    packet(0, "906000000000000011111111100000070419c000008003187fafac4a0a0404d14109a1158008642222264000183000");
    packet(0, "90e000010000000011111111bede000142c30001103001");
    say(zoftemar_key_wanted(&room, 0, 1), NULL);
    for (int i = 0; i < 3; i++) take(1);
    for (int i = 0; i < 2; i++) take(2);
    say(zoftemar_why(&room, 0, 1, 1), NULL);
    say(zoftemar_why(&room, 0, 2, 1), NULL);
    target(1);
    target(2);
    say(zoftemar_aim(&room, 0, 2, 1, 1), NULL); /* above the layers that it is sent, so it requests a key frame */
    target(2);
    if (!zoftemar_reaches_wish(&room, 2).has) say(zoftemar_plead(&room, 0, 2), NULL);
    say(zoftemar_key_wanted(&room, 0, 1), NULL);
    zoftemar_close(&room);
    return 0;
}
