// Sends what nobody wants to ports of 127.0.0.1, in turn, at an even pace, and counts what is answered. Prints how much it sent.
// usage: noise FROM KIND SSRC RATE SECONDS TO...
// FROM is a port, or 0 for one that the system chooses. SSRC in hex, RATE in datagrams a second to all ports together. KIND is one of
//   random    random bytes, up to 1,600 of them
//   mutated   the header of an RTP packet of that SSRC, with the next number, and random bytes behind a random first byte
//   rtcp      RTCP that doesn't read: lengths beyond the end, other versions, no media, feedback that is cut off
//   nacks     NACKs for numbers that were never sent, and picture loss indications for another SSRC
//   forged    what only the peer may say: RTP packets of that SSRC, NACKs and picture loss indications for it, lines that end its tracks
//   lines     lines of which none is a controller's
#include "packets.h"

static uint64_t state;

static uint32_t draw(void) {  // a linear congruential generator: the same bytes at each run
  state = state * 6364136223846793005u + 1442695040888963407u;
  return (uint32_t)(state >> 33);
}

static size_t make_random(uint8_t *bytes, size_t most) {
  size_t count = draw() % (most + 1);
  for (size_t i = 0; i < count; i++) bytes[i] = (uint8_t)draw();
  return count;
}

static size_t make_nack(uint8_t *bytes, uint32_t ssrc, uint16_t number) {
  static const uint8_t nack[] = {0x81, 205, 0, 3, 0, 0, 0, 1};
  memcpy(bytes, nack, sizeof nack);
  put(bytes + 8, ssrc, 4);
  put(bytes + 12, number, 2);
  put(bytes + 14, draw() % 65536, 2);
  return 16;
}

static size_t make_pli(uint8_t *bytes, uint32_t ssrc) {
  static const uint8_t pli[] = {0x81, 206, 0, 2, 0, 0, 0, 1};
  memcpy(bytes, pli, sizeof pli);
  put(bytes + 8, ssrc, 4);
  return 12;
}

static size_t make_line(uint8_t *bytes, const char *const *lines, unsigned count) {
  const char *line = lines[draw() % count];
  memcpy(bytes, line, strlen(line));
  return strlen(line);
}

static size_t make_rtcp(uint8_t *bytes, uint32_t ssrc) {
  size_t count = make_nack(bytes, ssrc, 0);
  switch (draw() % 6) {
    case 0: bytes[3] = 200; return count;              // longer than the datagram
    case 1: bytes[0] = 0x41; return count;             // another version
    case 2: return 2 + draw() % 10;                    // cut off
    case 3: bytes[3] = 1; return count;                // no media
    case 4: bytes[0] = 0xA1; bytes[15] = 200; return count;  // more padding than there is
    default: count = make_random(bytes + 2, 200); bytes[1] = (uint8_t)(192 + draw() % 32); return 2 + count;
  }
}

static size_t make(uint8_t *bytes, const char *kind, uint32_t ssrc, uint64_t place) {
  static const char *const ends[] = {"unpublish 1", "unpublish 2", "leave 1", "leave 2", "aim 1 0 0", "aim 2 0 0"};
  static const char *const others[] = {"take 1", "tick 1 4000000000", "missing 1", "resend 1 0", "leave 1\n", "leave 01", " leave 1", "leave 1 ", "", "#"};
  if (strcmp(kind, "random") == 0) return make_random(bytes, 1600);
  if (strcmp(kind, "rtcp") == 0) return make_rtcp(bytes, ssrc);
  if (strcmp(kind, "lines") == 0) return make_line(bytes, others, sizeof others / sizeof *others);
  if (strcmp(kind, "nacks") == 0) return draw() % 2 ? make_nack(bytes, ssrc, (uint16_t)draw()) : make_pli(bytes, ssrc + 1);
  if (strcmp(kind, "mutated") == 0) {
    size_t count = 12 + make_random(bytes + 12, 1188);
    put_header(bytes, place, (uint32_t)place, ssrc, 0, 0);
    bytes[0] = (uint8_t)draw();
    return count;
  }
  if (strcmp(kind, "forged") != 0) exit(2);
  switch (draw() % 4) {
    case 0: make_plain(bytes, 1200, draw(), ssrc, 0); return 1200;
    case 1: return make_nack(bytes, ssrc, (uint16_t)draw());
    case 2: return make_pli(bytes, ssrc);
    default: return make_line(bytes, ends, sizeof ends / sizeof *ends);
  }
}

int main(int words, char **word) {
  if (words < 7) return 2;
  int from = open_at(strtoul(word[1], NULL, 10), 0), count = words - 6;
  uint32_t ssrc = (uint32_t)strtoul(word[3], NULL, 16);
  uint64_t rate = strtoul(word[4], NULL, 10), total = rate * strtoul(word[5], NULL, 10), answers = 0, faults = 0, place = 0;
  sleep_exactly();
  uint64_t begin = now();
  for (; place < total; place++) {
    sleep_until(begin + place * 1000000000u / rate);
    uint8_t bytes[ROOM];
    size_t length = make(bytes, word[2], ssrc, place);
    struct sockaddr_in to = here(strtoul(word[6 + place % (uint64_t)count], NULL, 10));
    send_to(from, bytes, length, &to);
    uint8_t answer[ROOM];
    ssize_t got;
    while ((got = recv(from, answer, sizeof answer, MSG_DONTWAIT)) >= 0) {
      answers++;
      faults += got == 10 && memcmp(answer, "fault line", 10) == 0;
    }
  }
  printf("{\"sent\": %lu, \"seconds\": %.3f, \"answers\": %lu, \"fault_lines\": %lu}\n", place, (double)(now() - begin) / 1e9, answers, faults);
  return 0;
}
