// The packets of the tests and benches over sockets, and the clock and sockets that they go by. Each packet ends with BODY bytes that say which one it is and
// when it was first sent, so that a receiver can tell whether they came as they went, and how long they took.
#ifndef PACKETS_H
#define PACKETS_H

#define _GNU_SOURCE
#include <arpa/inet.h>
#include <errno.h>
#include <netinet/in.h>
#include <poll.h>
#include <signal.h>
#include <stdint.h>
#include <stdio.h>
#include <stdlib.h>
#include <string.h>
#include <sys/prctl.h>
#include <sys/socket.h>
#include <time.h>
#include <unistd.h>

enum {
  ROOM = 2048,  // of a datagram
  SEQUENCE_NUMBERS = 65536,
  PAYLOAD_TYPE = 96,
  BODY = 64,  // bytes at a packet's end: a pattern, the packet's place in its stream, and the moment of its first send
  PATTERN = BODY - 16,
};

static inline void fail(const char *what) {
  perror(what);
  exit(1);
}

static inline uint64_t now(void) {
  struct timespec moment;
  clock_gettime(CLOCK_MONOTONIC, &moment);
  return (uint64_t)moment.tv_sec * 1000000000u + (uint64_t)moment.tv_nsec;
}

// A sleep ends when it is due, not up to 50 microseconds later.
static inline void sleep_exactly(void) {
  if (prctl(PR_SET_TIMERSLACK, 1UL) != 0) fail("timer slack");
}

static inline void sleep_until(uint64_t moment) {
  struct timespec at = {.tv_sec = (time_t)(moment / 1000000000u), .tv_nsec = (long)(moment % 1000000000u)};
  while (clock_nanosleep(CLOCK_MONOTONIC, TIMER_ABSTIME, &at, NULL) == EINTR) continue;
}

static inline void put(uint8_t *at, uint64_t number, int bytes) {
  for (int i = bytes - 1; i >= 0; i--, number >>= 8) at[i] = (uint8_t)number;
}

static inline uint64_t get(const uint8_t *at, int bytes) {
  uint64_t number = 0;
  for (int i = 0; i < bytes; i++) number = number << 8 | at[i];
  return number;
}

static inline struct sockaddr_in here(unsigned long port) {
  struct sockaddr_in address = {.sin_family = AF_INET, .sin_port = htons((uint16_t)port), .sin_addr.s_addr = htonl(INADDR_LOOPBACK)};
  return address;
}

// A socket at a port of 127.0.0.1, or at one that the system chooses where that is 0. Where `room` isn't 0 the system holds so many bytes for it.
static inline int open_at(unsigned long port, int room) {
  int socket_here = socket(AF_INET, SOCK_DGRAM, 0);
  if (socket_here < 0) fail("socket");
  if (room != 0 && setsockopt(socket_here, SOL_SOCKET, SO_RCVBUF, &room, sizeof room) != 0) fail("receive buffer");
  struct sockaddr_in address = here(port);
  if (bind(socket_here, (struct sockaddr *)&address, sizeof address) != 0) fail("bind");
  return socket_here;
}

static inline void send_to(int socket_here, const uint8_t *bytes, size_t count, const struct sockaddr_in *to) {
  while (sendto(socket_here, bytes, count, 0, (const struct sockaddr *)to, sizeof *to) < 0) {
    if (errno != EINTR && errno != EAGAIN && errno != ENOBUFS) fail("send");
  }
}

// Whether a datagram is RTCP: by its second byte.
static inline int is_rtcp(const uint8_t *bytes, size_t count) { return count >= 2 && bytes[1] >= 192 && bytes[1] <= 223; }

// The pattern in the packet at this place.
static inline void put_pattern(uint8_t *at, uint64_t place) {
  for (int i = 0; i < PATTERN; i++) at[i] = (uint8_t)(place * 7 + (uint64_t)i);
}

static inline void put_header(uint8_t *packet, uint64_t place, uint32_t timestamp, uint32_t ssrc, int extension, int marker) {
  packet[0] = (uint8_t)(extension ? 0x90 : 0x80);
  packet[1] = (uint8_t)((marker ? 0x80 : 0) | PAYLOAD_TYPE);
  put(packet + 2, place, 2);
  put(packet + 4, timestamp, 4);
  put(packet + 8, ssrc, 4);
}

// The end of a packet of so many bytes: what is between `from` and the body is 0.
static inline void put_body(uint8_t *packet, size_t from, size_t count, uint64_t place, uint64_t moment) {
  memset(packet + from, 0, count - BODY - from);
  put_pattern(packet + count - BODY, place);
  put(packet + count - 16, place, 8);
  put(packet + count - 8, moment, 8);
}

// A packet of a plain track.
static inline void make_plain(uint8_t *packet, size_t count, uint64_t place, uint32_t ssrc, uint64_t moment) {
  put_header(packet, place, (uint32_t)(3000 * place), ssrc, 0, 1);
  put_body(packet, 12, count, place, moment);
}

// A layered stream comes round after so many packets: a key unit, and then units of another kind.
enum { KEY_UNIT = 5, UNIT = 3, UNITS = 50, ROUND = KEY_UNIT + (UNITS - 1) * UNIT };

// How many packets of its temporal unit come before the one at this place.
static inline uint64_t within_unit(uint64_t place) {
  uint64_t at = place % ROUND;
  return at < KEY_UNIT ? at : (at - KEY_UNIT) % UNIT;
}

// A packet of a layered track of two spatial and two temporal layers (RTP Payload Format For AV1, Appendix A), in the order of
// tools/layered_script.py. One temporal unit in 50 is a key unit, of 3 and 2 packets; the others are of 1 and 2.
static inline void make_layered(uint8_t *packet, size_t count, uint64_t place, uint32_t ssrc, uint64_t moment) {
  // The bits of a key descriptor behind the frame number: the structure.
  static const uint8_t structure[] = {0x80, 0x03, 0x18, 0x7F, 0xAF, 0xAC, 0x4A, 0x0A, 0x04, 0x04, 0xD1,
                                      0x41, 0x09, 0xA1, 0x15, 0x80, 0x08, 0x64, 0x22, 0x22, 0x26, 0x40};
  uint64_t unit = place / ROUND * UNITS;
  unsigned at = (unsigned)(place % ROUND), spatial, step, steps, form;
  if (at < KEY_UNIT) {
    spatial = at >= 3;
    step = spatial ? at - 3 : at;
    steps = spatial ? 2 : 3;
    form = spatial ? 3 : 0;
  } else {
    unit += 1 + (at - KEY_UNIT) / UNIT;
    spatial = (at - KEY_UNIT) % UNIT > 0;
    step = spatial ? (at - KEY_UNIT) % UNIT - 1 : 0;
    steps = spatial ? 2 : 1;
    form = (spatial ? 4 : 1) + (unsigned)(unit % 2);
  }
  int first = step == 0, last = step + 1 == steps, opening = first && form == 0;
  put_header(packet, place, (uint32_t)(3000 * unit), ssrc, 1, spatial && last);
  uint8_t *extension = packet + 16, *descriptor;
  unsigned words;
  if (opening) {  // in the two-byte form
    put(packet + 12, 0x1000, 2);
    words = 7;
    memset(extension, 0, words * 4);
    extension[0] = 4;
    extension[1] = 3 + sizeof structure;
    descriptor = extension + 2;
    memcpy(descriptor + 3, structure, sizeof structure);
  } else {
    put(packet + 12, 0xBEDE, 2);
    words = 1;
    extension[0] = 0x42;
    descriptor = extension + 1;
  }
  put(packet + 14, words, 2);
  descriptor[0] = (uint8_t)((first ? 0x80 : 0) | (last ? 0x40 : 0) | form);
  put(descriptor + 1, 2 * unit + spatial, 2);
  uint8_t *payload = extension + words * 4;
  payload[0] = (uint8_t)((first ? 0 : 0x80) | (last ? 0 : 0x40) | 0x10 | (opening ? 8 : 0));
  payload[1] = first ? 0x30 : 0;  // a frame without a size
  put_body(packet, (size_t)(payload + 2 - packet), count, place, moment);
}

#endif
