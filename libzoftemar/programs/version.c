/* version.c: prints the header's version twice, as a text and as numbers. It compiles as C and as C++. */
#include <stdio.h>
#include <zoftemar.h>

int main(void) {
    zoftemar_room room = ZOFTEMAR_ROOM_NONE;
    if (zoftemar_open(&room) != ZOFTEMAR_DONE) return 1;
    zoftemar_close(&room);
    printf("%s %d.%d.%d\n", ZOFTEMAR_VERSION, ZOFTEMAR_VERSION_MAJOR, ZOFTEMAR_VERSION_MINOR, ZOFTEMAR_VERSION_PATCH);
    return 0;
}
