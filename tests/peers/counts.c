/* counts.c: makes each call of a script with the library, and says which counts it changed. Each line of standard input is a number and a call of a
 * script that `sfu run` accepts. Prints the lines of tests/models/counts_model.py: a number, `subscriber` or `track`, its number, and its counts, or `none`
 * once it isn't live. It ends with 1 if a question's reply isn't as the header says. */
#include "zoftemar.h"

#include <inttypes.h>
#include <stdio.h>
#include <stdlib.h>
#include <string.h>

enum { MOST = 4096, SUBSCRIBER_WORDS = sizeof(zoftemar_subscriber_counts) / 8, TRACK_WORDS = sizeof(zoftemar_track_counts) / 8 };
static const size_t SUBSCRIBER_COUNTS = offsetof(zoftemar_subscriber_counts, spare) / 8, TRACK_COUNTS = offsetof(zoftemar_track_counts, spare) / 8;
static const uint64_t UNTOUCHED = 0xA5A5A5A5A5A5A5A5;

/* A subscriber or a track that is live, and its counts as they were printed last. */
struct known {
    uint32_t number;
    bool is_new, is_live;
    uint64_t counts[SUBSCRIBER_WORDS];
};
struct list {
    const char *word;
    size_t used;
    struct known known[MOST];
};
static struct list subscribers = { .word = "subscriber" }, tracks = { .word = "track" };
static zoftemar_room room = ZOFTEMAR_ROOM_NONE;

static void must(bool holds, const char *what) {
    if (holds) return;
    fprintf(stderr, "counts: %s\n", what);
    exit(1);
}

/* The counts of a subscriber or track: whether it is live. */
static bool ask(const struct list *list, uint32_t number, uint64_t counts[SUBSCRIBER_WORDS]) {
    bool of_subscriber = list == &subscribers;
    size_t words = of_subscriber ? SUBSCRIBER_WORDS : TRACK_WORDS, used = of_subscriber ? SUBSCRIBER_COUNTS : TRACK_COUNTS;
    union {
        zoftemar_subscriber_counts subscriber;
        zoftemar_track_counts track;
        uint64_t words[SUBSCRIBER_WORDS];
    } out;
    for (size_t place = 0; place < SUBSCRIBER_WORDS; place++) out.words[place] = UNTOUCHED;
    zoftemar_reply reply = of_subscriber ? zoftemar_counts_of_subscriber(&room, number, &out.subscriber)
                                         : zoftemar_counts_of_track(&room, number, &out.track);
    bool is_live = reply.code == ZOFTEMAR_COUNTS;
    must(is_live || reply.code == (of_subscriber ? ZOFTEMAR_NO_SUBSCRIBER : ZOFTEMAR_NO_TRACK), "another code");
    must(!reply.has && reply.first == 0 && reply.second == 0, "a number in the reply");
    for (size_t place = 0; place < SUBSCRIBER_WORDS; place++) {
        uint64_t wanted = place < used ? out.words[place] : place < words ? 0 : UNTOUCHED;
        must(out.words[place] == (is_live ? wanted : UNTOUCHED), "bytes that aren't as the header says");
    }
    memcpy(counts, out.words, sizeof out.words);
    return is_live;
}

static void add(struct list *list, uint32_t number) {
    must(list->used < MOST, "too many");
    list->known[list->used++] = (struct known){ .number = number, .is_new = true, .is_live = true };
}

/* The changes since the last call, first of those that ended. */
static void say(const struct list *list, unsigned long line, bool ended) {
    for (size_t place = 0; place < list->used; place++) {
        const struct known *own = &list->known[place];
        if (own->is_live == ended || !(ended || own->is_new)) continue;
        printf("%lu %s %" PRIu32, line, list->word, own->number);
        size_t used = list == &subscribers ? SUBSCRIBER_COUNTS : TRACK_COUNTS;
        for (size_t word = 0; word < used && !ended; word++) printf(" %" PRIu64, own->counts[word]);
        puts(ended ? " none" : "");
    }
}

static void look(struct list *list) {
    uint64_t counts[SUBSCRIBER_WORDS];
    must(!ask(list, 0, counts), "number 0 is live");
    for (size_t place = 0; place < list->used; place++) {
        struct known *own = &list->known[place];
        own->is_live = ask(list, own->number, counts);
        own->is_new = own->is_new || memcmp(own->counts, counts, sizeof counts) != 0;
        memcpy(own->counts, counts, sizeof counts);
    }
}

static void forget(struct list *list) {
    size_t kept = 0;
    for (size_t place = 0; place < list->used; place++) {
        if (!list->known[place].is_live) continue;
        list->known[kept] = list->known[place];
        list->known[kept++].is_new = false;
    }
    list->used = kept;
}

static size_t bytes_of(const char *hex, uint8_t *bytes) {
    size_t count = 0;
    for (unsigned byte; count < ZOFTEMAR_PACKET_ROOM && sscanf(hex + 2 * count, "%2x", &byte) == 1; count++) bytes[count] = (uint8_t)byte;
    return count;
}

static void call(const char *line) {
    static char kind[16], hex[8192];
    static uint8_t bytes[ZOFTEMAR_PACKET_ROOM];
    static uint16_t names[ZOFTEMAR_NAMES_ROOM];
    uint32_t a, b, ssrc, hold;
    unsigned id = 0, first, s, t;
    uint64_t moment;
    zoftemar_reply reply;
    int have = sscanf(line, "publish %" SCNu32 " %15s %" SCNx32 " %" SCNu32 " %u", &a, kind, &ssrc, &hold, &id);
    if (have >= 4) {
        reply = have == 5 ? zoftemar_publish_layered(&room, 0, a, (uint8_t)id, ssrc, hold) : zoftemar_publish_plain(&room, 0, a, ssrc, hold);
        if (reply.code == ZOFTEMAR_DONE) add(&tracks, a);
    } else if (sscanf(line, "join %" SCNu32 " %" SCNu32 " %" SCNx32 " %u %u %u", &a, &b, &ssrc, &first, &s, &t) == 6) {
        reply = zoftemar_join(&room, 0, a, b, ssrc, (uint16_t)first, (uint8_t)s, (uint8_t)t);
        if (reply.code == ZOFTEMAR_DONE) add(&subscribers, a);
    } else if (sscanf(line, "packet %" SCNu32 " %" SCNu64 " %8000s", &a, &moment, hex) == 3)
        zoftemar_packet(&room, 0, a, moment, bytes, bytes_of(hex, bytes));
    else if (sscanf(line, "unpublish %" SCNu32, &a) == 1) zoftemar_unpublish(&room, 0, a);
    else if (sscanf(line, "tick %" SCNu32 " %" SCNu64, &a, &moment) == 2) zoftemar_tick(&room, 0, a, moment);
    else if (sscanf(line, "leave %" SCNu32, &a) == 1) zoftemar_leave(&room, 0, a);
    else if (sscanf(line, "aim %" SCNu32 " %u %u", &a, &s, &t) == 3) zoftemar_aim(&room, 0, a, (uint8_t)s, (uint8_t)t);
    else if (sscanf(line, "take %" SCNu32, &a) == 1) reply = zoftemar_take(&room, 0, a, bytes, sizeof bytes);
    else if (sscanf(line, "resend %" SCNu32 " %u", &a, &first) == 2) reply = zoftemar_resend(&room, 0, a, (uint16_t)first, bytes, sizeof bytes);
    else if (sscanf(line, "missing %" SCNu32, &a) == 1) reply = zoftemar_missing(&room, 0, a, names, ZOFTEMAR_NAMES_ROOM);
    else if (sscanf(line, "key %" SCNu32, &a) == 1) reply = zoftemar_key_wanted(&room, 0, a);
    else if (sscanf(line, "plead %" SCNu32, &a) == 1) zoftemar_plead(&room, 0, a);
    else if (sscanf(line, "why %" SCNu32 " %" SCNu64, &a, &moment) == 2) reply = zoftemar_why(&room, 0, a, moment);
    else must(false, line);
    (void)reply;
}

int main(void) {
    static char line[16384];
    uint64_t counts[SUBSCRIBER_WORDS];
    zoftemar_subscriber_counts of_subscriber = { .passed = UNTOUCHED };
    must(zoftemar_counts_of_subscriber(&room, 1, &of_subscriber).code == ZOFTEMAR_NO_ROOM && of_subscriber.passed == UNTOUCHED, "counts without a room");
    must(zoftemar_open(&room) == ZOFTEMAR_DONE, "no room");
    must(!ask(&subscribers, 1, counts) && !ask(&tracks, 1, counts), "counts of an empty room");
    while (fgets(line, sizeof line, stdin)) {
        char *rest;
        unsigned long number = strtoul(line, &rest, 10);
        call(rest + 1);
        look(&subscribers);
        look(&tracks);
        say(&subscribers, number, true);
        say(&tracks, number, true);
        say(&subscribers, number, false);
        say(&tracks, number, false);
        forget(&subscribers);
        forget(&tracks);
    }
    zoftemar_close(&room);
    return 0;
}
