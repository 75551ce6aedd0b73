// Sends a stream of RTP packets at an even pace from one port of 127.0.0.1 to another, each stamped with the moment of its send. Prints what it sent
// and was asked for.
// usage: send FROM TO KIND SSRC RATE SECONDS BYTES FIRST ANSWERS LEFT_OUT BURST [BESIDE]
// KIND is plain or layered, SSRC in hex, RATE in packets a second; a layered stream ends with its last whole temporal unit. FIRST is the place of the
// first packet in its stream. ANSWERS is 1 where NACKs are answered, else 0. Each LEFT_OUT-th packet is sent only when it is asked for (0: none).
// BURST packets at a time go back to back, at the same pace on the whole. BESIDE is a second port that gets the same datagrams. It ends early at SIGTERM.
#include "packets.h"

enum { KEPT = 16384 };  // packets that can be resent

static uint8_t kept[KEPT][ROOM];
static uint64_t nacks, asked, resent, indications, unread, first, answers;
static volatile sig_atomic_t stopped;

static void stop(int number) {
  (void)number;
  stopped = 1;
}

// Sends the newest packet of the sequence number again, where it is kept.
static void resend(int from, const struct sockaddr_in *to, uint64_t next, uint16_t number, size_t count) {
  asked++;
  uint64_t back = (uint16_t)((next - 1 - number) & 0xFFFF);
  if (answers == 0 || back >= next - first || back >= KEPT) return;
  send_to(from, kept[(next - 1 - back) % KEPT], count, to);
  resent++;
}

// Works off the feedback that came: generic NACKs and picture loss indications (RFC 4585).
static void hear(int from, const struct sockaddr_in *to, uint64_t next, size_t count) {
  uint8_t bytes[ROOM];
  ssize_t got;
  while ((got = recv(from, bytes, sizeof bytes, MSG_DONTWAIT)) >= 0) {
    if (got >= 16 && bytes[0] == 0x81 && bytes[1] == 205) {
      nacks++;
      for (ssize_t at = 12; at + 4 <= got; at += 4) {
        uint16_t number = (uint16_t)get(bytes + at, 2);
        unsigned behind = (unsigned)get(bytes + at + 2, 2);
        resend(from, to, next, number, count);
        for (unsigned bit = 0; bit < 16; bit++)
          if (behind >> bit & 1) resend(from, to, next, (uint16_t)(number + 1 + bit), count);
      }
    } else if (got == 12 && bytes[0] == 0x81 && bytes[1] == 206) {
      indications++;
    } else {
      unread++;
    }
  }
}

int main(int words, char **word) {
  if (words < 12) return 2;
  int layered = strcmp(word[3], "layered") == 0;
  uint32_t ssrc = (uint32_t)strtoul(word[4], NULL, 16);
  uint64_t rate = strtoul(word[5], NULL, 10), total = rate * strtoul(word[6], NULL, 10);
  uint64_t left_out = strtoul(word[10], NULL, 10), burst = strtoul(word[11], NULL, 10);
  size_t count = strtoul(word[7], NULL, 10);
  first = strtoul(word[8], NULL, 10);
  answers = strtoul(word[9], NULL, 10);
  if (layered) total -= within_unit(first + total);
  int from = open_at(strtoul(word[1], NULL, 10), 0);
  struct sockaddr_in to = here(strtoul(word[2], NULL, 10)), beside = here(words > 12 ? strtoul(word[12], NULL, 10) : 0);
  signal(SIGTERM, stop);
  sleep_exactly();
  uint64_t begin = now() + 1000000, place = first, latest = 0;
  for (; place < first + total && !stopped; place++) {
    uint64_t due = begin + (place - first) / burst * burst * 1000000000u / rate;
    for (uint64_t moment = now(); moment < due; moment = now()) {  // at a low pace too, what is asked for is sent at once
      sleep_until(due - moment > 2000000 ? moment + 1000000 : due);
      hear(from, &to, place, count);
    }
    uint64_t moment = now();
    if (moment - due > latest) latest = moment - due;
    uint8_t *packet = kept[place % KEPT];
    (layered ? make_layered : make_plain)(packet, count, place, ssrc, moment);
    if (left_out == 0 || place % left_out != left_out - 1) send_to(from, packet, count, &to);
    if (words > 12) send_to(from, packet, count, &beside);
    if (place % 16 == 0) hear(from, &to, place + 1, count);
  }
  double took = (double)(now() - begin) / 1e9;
  for (int i = 0; i < 300; i++) {  // until the last gap was asked for
    sleep_until(now() + 1000000);
    hear(from, &to, place, count);
  }
  printf("{\"sent\": %lu, \"seconds\": %.3f, \"nacks\": %lu, \"asked\": %lu, \"resent\": %lu, \"plis\": %lu, \"unread\": %lu, \"latest_us\": %lu}\n",
         place - first, took, nacks, asked, resent, indications, unread, latest / 1000);
  return 0;
}
