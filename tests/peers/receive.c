// Receives streams of RTP packets at ports of 127.0.0.1 until it has to end (SIGTERM), judges each packet, and prints a line for each port.
// usage: receive NACKED PLIS DUMP PORT:PEER:SSRC...
//        receive NACKED PLIS DUMP:BYTES PORT:PEER:SSRC...
// Each NACKED-th new packet is asked for again, as though it were lost (0: none), and must come again with the same bytes. A picture loss indication
// is sent each PLIS milliseconds (0: none). DUMP is a file for the first 20,000 packets of the first port in hex, one a line; or a folder, with / at the
// end of its name, for all new packets of each port, in a file PORT that is written as they come; or - for none. With BYTES it is a file for the first so
// many bytes of each of the first port's packets.
#include "packets.h"

enum { FINEST = 200000, ASKED = 64, DUMPED = 20000, SYSTEM_ROOM = 1 << 22 };

struct port {
  int socket;
  struct sockaddr_in peer;
  uint32_t ssrc;
  uint64_t received, bytes, gaps, again, wrong, skipped, first, last, nacked, resent, changed, since_nack, worst;
  uint16_t next;
  uint16_t asked[ASKED];  // the numbers that were asked for and haven't come
  size_t lengths[ASKED];
  uint8_t copies[ASKED][ROOM];
  uint32_t waits[FINEST + 1];  // how many packets took so many microseconds
  FILE *dump;                  // where all new packets go, or none
};

// The first packets of the first port, which are written at the end alone, so that those behind them don't wait for it.
static struct {
  size_t length;
  uint8_t bytes[ROOM];
} kept[DUMPED];

static volatile sig_atomic_t stopped;

static void stop(int number) {
  (void)number;
  stopped = 1;
}

static void ask(struct port *port, const uint8_t *bytes, size_t count, uint16_t number) {
  for (int i = 0; i < ASKED; i++) {
    if (port->lengths[i] != 0) continue;
    uint8_t nack[16] = {0x81, 205, 0, 3, 0, 0, 0, 1};
    put(nack + 8, port->ssrc, 4);
    put(nack + 12, number, 2);
    port->asked[i] = number;
    port->lengths[i] = count;
    memcpy(port->copies[i], bytes, count);
    port->nacked++;
    send_to(port->socket, nack, sizeof nack, &port->peer);
    return;
  }
}

// Whether the packet was asked for: then it is compared with what came first.
static int is_resent(struct port *port, const uint8_t *bytes, size_t count, uint16_t number) {
  for (int i = 0; i < ASKED; i++) {
    if (port->lengths[i] == 0 || port->asked[i] != number) continue;
    if (port->lengths[i] != count || memcmp(port->copies[i], bytes, count) != 0) port->changed++;
    port->lengths[i] = 0;
    port->resent++;
    return 1;
  }
  return 0;
}

// A line of hex.
static void write_hex(FILE *file, const uint8_t *bytes, size_t count) {
  static const char digits[] = "0123456789abcdef";
  char line[2 * ROOM + 1];
  for (size_t at = 0; at < count; at++) {
    line[2 * at] = digits[bytes[at] >> 4];
    line[2 * at + 1] = digits[bytes[at] & 15];
  }
  line[2 * count] = '\n';
  if (fwrite(line, 2 * count + 1, 1, file) != 1) fail("dump");
}

static void judge(struct port *port, const uint8_t *bytes, size_t count, uint64_t moment, uint64_t nacked) {
  if (count < 12 + BODY || bytes[0] >> 6 != 2 || (bytes[1] & 0x7F) != PAYLOAD_TYPE || get(bytes + 8, 4) != port->ssrc) {
    port->wrong++;
    return;
  }
  uint16_t number = (uint16_t)get(bytes + 2, 2);
  uint64_t place = get(bytes + count - 16, 8), wait = (moment - get(bytes + count - 8, 8)) / 1000;
  uint8_t pattern[PATTERN];
  put_pattern(pattern, place);
  if (memcmp(pattern, bytes + count - BODY, PATTERN) != 0) {
    port->wrong++;
    return;
  }
  if (port->received > 0) {
    if (is_resent(port, bytes, count, number)) return;
    uint16_t ahead = (uint16_t)(number - port->next);
    if (ahead >= SEQUENCE_NUMBERS / 2) {
      port->again++;
      return;
    }
    port->gaps += ahead;
    if (place <= port->last) port->wrong++;
    port->skipped += place - port->last - 1;
  } else {
    port->first = place;
  }
  port->received++;
  port->bytes += count;
  port->last = place;
  port->next = (uint16_t)(number + 1);
  port->waits[wait < FINEST ? wait : FINEST]++;
  if (wait > port->worst) port->worst = wait;
  if (port->dump != NULL) write_hex(port->dump, bytes, count);
  if (nacked != 0 && ++port->since_nack == nacked) {
    port->since_nack = 0;
    ask(port, bytes, count, number);
  }
}

// So many microseconds took at most this part of the packets, in thousandths.
static uint64_t share(const struct port *port, uint64_t part) {
  uint64_t count = 0;
  for (uint64_t wait = 0; wait <= FINEST; wait++) {
    count += port->waits[wait];
    if (count * 1000 >= port->received * part) return wait;
  }
  return FINEST;
}

int main(int words, char **word) {
  if (words < 5) return 2;
  uint64_t nacked = strtoul(word[1], NULL, 10), apart = strtoul(word[2], NULL, 10) * 1000000, dumped = 0;
  char *colon = strchr(word[3], ':');
  size_t cut = colon == NULL ? 0 : strtoul(colon + 1, NULL, 10);
  if (colon != NULL) *colon = 0;
  int is_folder = word[3][strlen(word[3]) - 1] == '/';
  FILE *dump = is_folder || strcmp(word[3], "-") == 0 ? NULL : fopen(word[3], "w");
  int count = words - 4;
  struct port *ports = calloc((size_t)count, sizeof *ports);
  struct pollfd *polls = calloc((size_t)count, sizeof *polls);
  if (ports == NULL || polls == NULL) fail("memory");
  for (int i = 0; i < count; i++) {
    unsigned long at, peer;
    unsigned ssrc;
    if (sscanf(word[4 + i], "%lu:%lu:%x", &at, &peer, &ssrc) != 3) return 2;
    ports[i].socket = open_at(at, SYSTEM_ROOM);
    ports[i].peer = here(peer);
    ports[i].ssrc = ssrc;
    if (is_folder) {
      char name[4096];
      snprintf(name, sizeof name, "%s%lu", word[3], at);
      if ((ports[i].dump = fopen(name, "w")) == NULL) fail(name);
    }
    polls[i] = (struct pollfd){.fd = ports[i].socket, .events = POLLIN};
  }
  signal(SIGTERM, stop);
  uint64_t pleaded = now();
  while (!stopped) {
    if (poll(polls, (nfds_t)count, 20) < 0 && errno != EINTR) fail("poll");
    for (int i = 0; i < count; i++) {
      uint8_t bytes[ROOM];
      ssize_t got;
      if ((polls[i].revents & POLLIN) == 0) continue;
      while ((got = recv(ports[i].socket, bytes, sizeof bytes, MSG_DONTWAIT)) >= 0) {
        judge(&ports[i], bytes, (size_t)got, now(), nacked);
        if (dump != NULL && i == 0 && cut != 0) write_hex(dump, bytes, (size_t)got < cut ? (size_t)got : cut);
        if (dump == NULL || i != 0 || cut != 0 || dumped == DUMPED) continue;
        kept[dumped].length = (size_t)got;
        memcpy(kept[dumped++].bytes, bytes, (size_t)got);
      }
    }
    if (apart != 0 && now() - pleaded >= apart) {
      pleaded += apart;
      for (int i = 0; i < count; i++) {
        uint8_t pli[12] = {0x81, 206, 0, 2, 0, 0, 0, 1};
        put(pli + 8, ports[i].ssrc, 4);
        send_to(ports[i].socket, pli, sizeof pli, &ports[i].peer);
      }
    }
  }
  for (uint64_t i = 0; i < dumped; i++) write_hex(dump, kept[i].bytes, kept[i].length);
  if (dump != NULL) fclose(dump);
  for (int i = 0; i < count; i++)
    if (ports[i].dump != NULL && fclose(ports[i].dump) != 0) fail("dump");
  for (int i = 0; i < count; i++) {
    const struct port *port = &ports[i];
    printf("{\"received\": %lu, \"bytes\": %lu, \"gaps\": %lu, \"again\": %lu, \"wrong\": %lu, \"skipped\": %lu, \"first\": %lu, \"last\": %lu, "
           "\"nacked\": %lu, \"resent\": %lu, \"changed\": %lu, \"p50\": %lu, \"p99\": %lu, \"p999\": %lu, \"worst\": %lu}\n",
           port->received, port->bytes, port->gaps, port->again, port->wrong, port->skipped, port->first, port->last, port->nacked, port->resent,
           port->changed, share(port, 500), share(port, 990), share(port, 999), port->worst);
  }
  return 0;
}
