// Stands between two programs at ports of 127.0.0.1 and hands their datagrams on both ways, but loses some, by chance and for good. The chance is
// the same at each run.
// usage: lossy PERCENT LEFT:LEFT_AT:RIGHT_AT:RIGHT...
// LEFT and RIGHT are the ports of two programs that take LEFT_AT and RIGHT_AT for each other's.
#include "packets.h"

struct way {
  int from, back;  // where datagrams come, and whence they go on
  struct sockaddr_in to;
};

// A number below 1,000,000 (xorshift, by Marsaglia).
static unsigned chance(void) {
  static uint64_t state = 88172645463325252u;
  state ^= state << 13;
  state ^= state >> 7;
  state ^= state << 17;
  return (unsigned)(state % 1000000);
}

int main(int words, char **word) {
  if (words < 3) return 2;
  unsigned lost = (unsigned)(strtod(word[1], NULL) * 10000);
  int count = 2 * (words - 2);
  struct way *ways = calloc((size_t)count, sizeof *ways);
  struct pollfd *polls = calloc((size_t)count, sizeof *polls);
  if (ways == NULL || polls == NULL) fail("memory");
  for (int i = 0; i < count; i += 2) {
    unsigned long left, left_at, right_at, right;
    if (sscanf(word[2 + i / 2], "%lu:%lu:%lu:%lu", &left, &left_at, &right_at, &right) != 4) return 2;
    int near_left = open_at(left_at, 1 << 22), near_right = open_at(right_at, 1 << 22);
    ways[i] = (struct way){.from = near_left, .back = near_right, .to = here(right)};
    ways[i + 1] = (struct way){.from = near_right, .back = near_left, .to = here(left)};
    for (int k = i; k < i + 2; k++) polls[k] = (struct pollfd){.fd = ways[k].from, .events = POLLIN};
  }
  for (;;) {
    if (poll(polls, (nfds_t)count, -1) < 0 && errno != EINTR) fail("poll");
    for (int i = 0; i < count; i++) {
      uint8_t bytes[ROOM];
      ssize_t got;
      if ((polls[i].revents & POLLIN) == 0) continue;
      while ((got = recv(ways[i].from, bytes, sizeof bytes, MSG_DONTWAIT)) >= 0)
        if (chance() >= lost) send_to(ways[i].back, bytes, (size_t)got, &ways[i].to);
    }
  }
}
