/* udp.h: the common part of relay.c, relay2.c and simulcast.c: the clock, one UDP port and its loop, and sending what the sessions
 * return. */
#pragma once
#include <arpa/inet.h>
#include <poll.h>
#include <stdio.h>
#include <stdlib.h>
#include <sys/socket.h>
#include <time.h>
#include "zoftemar.h"

enum { EACH = 20, TURN = 32 }; /* milliseconds between two ticks; the most packets that a subscriber's session takes in one turn */
static zoftemar_room room = ZOFTEMAR_ROOM_NONE;
static int port;

static uint64_t now(void) {
    struct timespec time;
    clock_gettime(CLOCK_MONOTONIC, &time);
    return (uint64_t)time.tv_sec * 1000 + (uint64_t)time.tv_nsec / 1000000;
}

static bool open_port(const char *number) {
    struct sockaddr_in own = { .sin_family = AF_INET, .sin_port = htons((uint16_t)atoi(number)) };
    port = socket(AF_INET, SOCK_DGRAM, 0);
    return port >= 0 && bind(port, (struct sockaddr *)&own, sizeof own) == 0;
}

/* Waits at most EACH milliseconds for a datagram, and returns its length; 0 if none came. */
static size_t receive(uint8_t *bytes, size_t most, struct sockaddr_in *from) {
    struct pollfd ready = { .fd = port, .events = POLLIN };
    socklen_t size = sizeof *from;
    if (poll(&ready, 1, EACH) <= 0) return 0;
    ssize_t length = recvfrom(port, bytes, most, 0, (struct sockaddr *)from, &size);
    return length > 0 ? (size_t)length : 0;
}

static bool is_same(const struct sockaddr_in *a, const struct sockaddr_in *b) {
    return a->sin_port == b->sin_port && a->sin_addr.s_addr == b->sin_addr.s_addr;
}

/* Handles each datagram, and ticks about every EACH milliseconds, for ever. */
static inline void serve(void (*handle)(const struct sockaddr_in *from, const uint8_t *bytes, size_t length), void (*tick)(uint64_t moment)) {
    for (uint64_t ticked = 0;;) {
        static uint8_t bytes[ZOFTEMAR_PACKET_ROOM];
        struct sockaddr_in from;
        size_t length = receive(bytes, sizeof bytes, &from);
        if (length > 0) handle(&from, bytes, length);
        if (now() >= ticked + EACH) tick(ticked = now());
    }
}

/* RTCP on the same port (RFC 5761, section 4). */
static bool is_rtcp(const uint8_t *bytes, size_t length) { return length >= 2 && bytes[1] >= 192 && bytes[1] < 224; }

/* Sends the session's datagrams to its peer, and returns how many there were. A peer with port 0 hasn't sent anything yet. */
static int work(zoftemar_session *session, const struct sockaddr_in *to) {
    uint8_t out[ZOFTEMAR_PACKET_ROOM];
    zoftemar_reply reply;
    int sent = 0;
    for (; (reply = zoftemar_session_work(session, &room, 0, out, sizeof out)).code == ZOFTEMAR_PACKET; sent++)
        if (to->sin_port != 0) sendto(port, out, reply.first, 0, (const struct sockaddr *)to, sizeof *to);
    return sent;
}

/* Sends all packets that are queued for a subscriber, up to 32 in each turn of its session. */
static inline void flush(zoftemar_session *session, const struct sockaddr_in *to, uint64_t moment) {
    do zoftemar_session_waited(session, moment); while (work(session, to) == TURN);
}

/* Requests a key frame if a subscriber has a decode target but its wish isn't reached. */
static inline void plead(uint32_t subscriber) {
    zoftemar_target target;
    if (zoftemar_target_of(&room, subscriber, &target).has && !zoftemar_reaches_wish(&room, subscriber).has) zoftemar_plead(&room, 0, subscriber);
}
