// Sends each datagram that comes to a port of 127.0.0.1 to other ports, as it is: what a forwarder that knows nothing costs.
// usage: relay AT TO...
#include "packets.h"

int main(int words, char **word) {
  if (words < 3) return 2;
  int count = words - 2, at = open_at(strtoul(word[1], NULL, 10), 0);
  struct sockaddr_in *to = calloc((size_t)count, sizeof *to);
  if (to == NULL) fail("memory");
  for (int i = 0; i < count; i++) to[i] = here(strtoul(word[2 + i], NULL, 10));
  struct pollfd ready = {.fd = at, .events = POLLIN};
  for (;;) {
    if (poll(&ready, 1, -1) < 0 && errno != EINTR) fail("poll");
    uint8_t bytes[ROOM];
    ssize_t got;
    while ((got = recvfrom(at, bytes, sizeof bytes, MSG_DONTWAIT, NULL, NULL)) >= 0)
      for (int i = 0; i < count; i++) send_to(at, bytes, (size_t)got, &to[i]);
  }
}
