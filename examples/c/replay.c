/* replay.c: makes each call of a script on standard input with the library. It prints what `./sfu run` prints, so that the two can be compared. The
 * script must be one that `./sfu run` accepts: replay doesn't check it. */
#include <inttypes.h>
#include <stdio.h>
#include <stdlib.h>
#include <string.h>
#include "zoftemar.h"

#define N(x) (unsigned long long)(x)

static const char *const refusals[] = { "refused notrack", "refused nosubscriber", "refused numberused", "refused toomany",
    "refused badextensionid", "refused toobig", "refused unreadable", "refused wrongssrc", "refused spent", "refused late",
    "refused repeat", "empty", "notkept", "refused ahead", "refused tooold", "refused plain", "refused nomemory" };
static const char *const verdicts[] = { "passed", "notoftarget", "behind", "reference", "full", "link", "unopened", "hole" };
static const char *const faults[] = { "short", "version", "csrc", "extension", "padding" };

static uint8_t bytes[ZOFTEMAR_PACKET_ROOM];
static uint16_t numbers[ZOFTEMAR_NAMES_ROOM];

static void optional(bool has, uint64_t number) {
    if (has) printf(" %llu", N(number)); else printf(" none");
}

static void say(zoftemar_reply r) {
    switch (r.code) {
    case ZOFTEMAR_DONE: printf("ok"); break;
    case ZOFTEMAR_PACKET: printf("packet "); for (size_t i = 0; i < r.first; i++) printf("%02x", bytes[i]); break;
    case ZOFTEMAR_NAMES: printf("missing"); for (size_t i = 0; i < r.first; i++) printf(" %u", numbers[i]); break;
    case ZOFTEMAR_KEY: printf(r.has ? "key yes" : "key no"); break;
    case ZOFTEMAR_NOT_OF_TARGET: case ZOFTEMAR_AHEAD:
        printf("%s", r.code == ZOFTEMAR_AHEAD ? "refused ahead" : "notoftarget"); optional(r.has, r.first); break;
    case ZOFTEMAR_HOLE: printf("hole"); optional(r.has, r.second); printf(" %llu", N(r.first)); break;
    case ZOFTEMAR_UNREADABLE: printf("refused unreadable %s", faults[r.first]); break;
    case ZOFTEMAR_WRONG_SSRC: printf("refused wrongssrc %08llx %08llx", N(r.first), N(r.second)); break;
    default:
        printf("%s", r.code < 32 ? verdicts[r.code - 16] : refusals[r.code - 32]);
        if (r.has) printf(" %llu", N(r.first));
        if (r.code == ZOFTEMAR_NOT_KEPT || r.code == ZOFTEMAR_BEHIND || r.code == ZOFTEMAR_FULL || r.code == ZOFTEMAR_LINK)
            printf(" %llu", N(r.second));
    }
    putchar('\n');
}

int main(void) {
    static char line[8192], hex[8192], kind[16];
    zoftemar_room room = ZOFTEMAR_ROOM_NONE;
    if (zoftemar_open(&room) != 0) return 1;
    while (fgets(line, sizeof line, stdin)) {
        uint32_t a, b, ssrc, hold; unsigned id = 0, first, s, t; uint64_t moment; int have;
        line[strcspn(line, "\n")] = 0;
        if (line[0] == 0 || line[0] == '#') continue;
        if ((have = sscanf(line, "publish %" SCNu32 " %15s %" SCNx32 " %" SCNu32 " %u", &a, kind, &ssrc, &hold, &id)) >= 4)
            say(have == 5 ? zoftemar_publish_layered(&room, 0, a, (uint8_t)id, ssrc, hold) : zoftemar_publish_plain(&room, 0, a, ssrc, hold));
        else if ((have = sscanf(line, "packet %" SCNu32 " %" SCNu64 " %8000s", &a, &moment, hex)) >= 2) {
            size_t count = 0;
            for (unsigned byte; have == 3 && count < sizeof bytes && sscanf(hex + 2 * count, "%2x", &byte) == 1; count++) bytes[count] = (uint8_t)byte;
            say(zoftemar_packet(&room, 0, a, moment, bytes, count));
        }
        else if (sscanf(line, "unpublish %" SCNu32, &a) == 1) say(zoftemar_unpublish(&room, 0, a));
        else if (sscanf(line, "tick %" SCNu32 " %" SCNu64, &a, &moment) == 2) say(zoftemar_tick(&room, 0, a, moment));
        else if (sscanf(line, "join %" SCNu32 " %" SCNu32 " %" SCNx32 " %u %u %u", &a, &b, &ssrc, &first, &s, &t) == 6)
            say(zoftemar_join(&room, 0, a, b, ssrc, (uint16_t)first, (uint8_t)s, (uint8_t)t));
        else if (sscanf(line, "leave %" SCNu32, &a) == 1) say(zoftemar_leave(&room, 0, a));
        else if (sscanf(line, "aim %" SCNu32 " %u %u", &a, &s, &t) == 3) say(zoftemar_aim(&room, 0, a, (uint8_t)s, (uint8_t)t));
        else if (sscanf(line, "take %" SCNu32, &a) == 1) say(zoftemar_take(&room, 0, a, bytes, sizeof bytes));
        else if (sscanf(line, "resend %" SCNu32 " %u", &a, &first) == 2) say(zoftemar_resend(&room, 0, a, (uint16_t)first, bytes, sizeof bytes));
        else if (sscanf(line, "missing %" SCNu32, &a) == 1) say(zoftemar_missing(&room, 0, a, numbers, ZOFTEMAR_NAMES_ROOM));
        else if (sscanf(line, "key %" SCNu32, &a) == 1) say(zoftemar_key_wanted(&room, 0, a));
        else if (sscanf(line, "plead %" SCNu32, &a) == 1) say(zoftemar_plead(&room, 0, a));
        else if (sscanf(line, "why %" SCNu32 " %" SCNu64, &a, &moment) == 2) say(zoftemar_why(&room, 0, a, moment));
        else { fprintf(stderr, "no call: %s\n", line); return 2; }
    }
    zoftemar_close(&room);
    return 0;
}
