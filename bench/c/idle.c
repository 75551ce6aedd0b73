/* idle.c: takes of an empty queue, or ticks that release nothing. usage: idle take|tick CALLS */
#include <stdlib.h>
#include <string.h>
#include "zoftemar.h"

static uint8_t out[ZOFTEMAR_PACKET_ROOM];

int main(int argc, char **argv) {
    zoftemar_room room = ZOFTEMAR_ROOM_NONE;
    if (argc < 3 || zoftemar_open(&room) != ZOFTEMAR_DONE) return 2;
    zoftemar_publish_layered(&room, 0, 1, 4, 0x11111111, 50);
    zoftemar_join(&room, 0, 1, 1, 0x22222201, 0, 1, 1);
    int takes = strcmp(argv[1], "take") == 0;
    for (long call = atol(argv[2]); call > 0; call--) {
        if (takes) {
            if (zoftemar_take(&room, 0, 1, out, sizeof out).code == ZOFTEMAR_PACKET) return 1;
        } else if (zoftemar_tick(&room, 0, 1, 7).code != ZOFTEMAR_DONE) return 1;
    }
    zoftemar_close(&room);
    return 0;
}
