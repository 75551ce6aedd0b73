/* record.c: records the packets on standard input, one a line in hexadecimal, with the library. It prints what `./sfu record 4` prints (the file or the
 * first fault) and exits with the same status, so that the two can be compared. The lines must be ones that `./sfu record` accepts. */
#include <stdio.h>
#include <string.h>
#include "zoftemar.h"

#define N(x) (unsigned long long)(x)

/* what is wrong with the packet of this line */
static int fault(unsigned line, zoftemar_reply r) {
    printf("line %u ", line);
    switch (r.code) {
    case ZOFTEMAR_UNREAD: puts("unread"); break;
    case ZOFTEMAR_OTHER_SOURCE: printf("othersource %08llx %08llx\n", N(r.second), N(r.first)); break;
    case ZOFTEMAR_OUT_OF_SEQUENCE: printf("sequence %llu %llu\n", N(r.second), N(r.first)); break;
    case ZOFTEMAR_NO_STRUCTURE: puts("nostructure"); break;
    case ZOFTEMAR_NOT_WHOLE: puts("notwhole"); break;
    case ZOFTEMAR_MISSING_REFERENCE: printf("missingreference %llu %llu\n", N(r.first), N(r.second)); break;
    case ZOFTEMAR_NOT_OBU: puts("obu"); return 10;
    default: puts(zoftemar_code_name(r.code)); return 6;
    }
    return 8;
}

int main(void) {
    static char line[8192];
    static uint8_t bytes[ZOFTEMAR_PACKET_ROOM], piece[100];
    zoftemar_recorder recorder = ZOFTEMAR_RECORDER_NONE;
    zoftemar_reply r = { 0 };
    int status = 0;
    if (zoftemar_recorder_open(&recorder, 4) != ZOFTEMAR_DONE) return 6;
    for (unsigned number = 1; status == 0 && fgets(line, sizeof line, stdin); number++) {
        size_t count = 0;
        if (line[0] == '\n' || line[0] == '#') continue;
        for (unsigned byte; count < sizeof bytes && sscanf(line + 2 * count, "%2x", &byte) == 1; count++) bytes[count] = (uint8_t)byte;
        if ((r = zoftemar_recorder_feed(&recorder, bytes, count)).code != ZOFTEMAR_DONE) status = fault(number, r);
    }
    while (status == 0 && (r = zoftemar_recorder_finish(&recorder, piece, sizeof piece)).code == ZOFTEMAR_FILE_PIECE)
        if (fwrite(piece, 1, r.first, stdout) != r.first) status = 4;
    zoftemar_recorder_close(&recorder);
    return status;
}
