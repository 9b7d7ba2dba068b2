/* Packets over UDP on the loopback, for the examples: their numbers,
 * acknowledgements and losses.
 *
 * A packet is a letter, a number of eight bytes and, after 'D', a payload. 'A'
 * acknowledges the packet of that number, and 'C' closes. The program drops
 * `loss` of a hundred packets itself, drawn from `seed`. */
#ifndef PACKETS_H
#define PACKETS_H
#define _POSIX_C_SOURCE 200809L
#include "quic_streams.h"
#include <arpa/inet.h>
#include <errno.h>
#include <poll.h>
#include <stdio.h>
#include <stdlib.h>
#include <string.h>
#include <sys/socket.h>
#include <time.h>

enum { HEADER = 9, PACKET = 1200, FLIGHT = 64 };
enum { LOST_AFTER_MS = 50, IDLE_MS = 5000 };

typedef struct {
  uint64_t number, token, sent_at;
} in_flight;

/* A session, its socket, and its packets in flight. */
typedef struct {
  qs_conn conn;
  in_flight flight[FLIGHT];
  size_t flying;
  uint64_t next_number, heard_at, seed;
  unsigned long packets, dropped, lost;
  unsigned loss;
  int fd, has_peer, is_closed;
} host;

static void die(const char *what, int32_t result) {
  const char *why = result ? qs_strerror(result) : strerror(errno);
  fprintf(stderr, "%s: %s\n", what, why);
  exit(1);
}

/* Ends the program on an error. QS_DONE and QS_END are none: a call that may
 * return one is compared with it. */
static int32_t want(const char *what, int32_t result) {
  if (result < 0)
    die(what, result);
  return result;
}

static uint64_t now_ms(void) {
  struct timespec t;
  clock_gettime(CLOCK_MONOTONIC, &t);
  return (uint64_t)t.tv_sec * 1000 + (uint64_t)t.tv_nsec / 1000000;
}

static void send_packet(host *h, uint8_t kind, uint64_t number, uint8_t *packet,
                        size_t len) {
  packet[0] = kind;
  for (int i = 8; i > 0; i--, number >>= 8)
    packet[i] = (uint8_t)number;
  h->packets++;
  h->seed = h->seed * 6364136223846793005u + 1442695040888963407u;
  if (kind != 'C' && (h->seed >> 33) % 100 < h->loss)
    h->dropped++;
  else if (send(h->fd, packet, len, 0) < 0 && errno != ECONNREFUSED)
    die("send", 0);
}

/* A packet was acknowledged or is taken to be lost: its payload is reported.
 * Without memory it stays in flight, and the rest of it is lost later. */
static void report(host *h, size_t place, int was_acked) {
  const uint64_t token = h->flight[place].token;
  const int32_t result =
      was_acked ? qs_acked(&h->conn, token) : qs_lost(&h->conn, token);
  if (result == QS_ERR_NOMEM)
    return;
  want("report", result);
  h->flight[place] = h->flight[--h->flying];
  h->lost += !was_acked;
}

/* Reports packets as lost that were not acknowledged for some time, and writes
 * payloads until nothing is pending or enough packets are in flight. */
static void send_pending(host *h) {
  const uint64_t now = now_ms();
  for (size_t i = h->flying; i-- > 0;)
    if (now - h->flight[i].sent_at > LOST_AFTER_MS)
      report(h, i, 0);
  while (h->has_peer && h->flying < FLIGHT) {
    uint8_t packet[PACKET];
    qs_payload payload;
    const int32_t result = qs_emit(&h->conn, QS_ALL, 1, packet + HEADER,
                                   PACKET - HEADER, &payload);
    if (result == QS_DONE || result == QS_ERR_NOMEM)
      return; /* without memory it is tried again soon */
    want("emit", result);
    h->flight[h->flying++] = (in_flight){h->next_number, payload.token, now};
    send_packet(h, 'D', h->next_number++, packet, HEADER + payload.len);
  }
}

static void on_payload(host *h, uint64_t number, const uint8_t *payload,
                       size_t len) {
  uint8_t ack[HEADER];
  size_t next = 0; /* the offset of the first frame */
  qs_error error;
  const int32_t result = qs_receive(&h->conn, payload, len, &next, &error);
  if (result == QS_ERR_NOMEM)
    return; /* as if it was not received: the peer sends it again */
  if (result == QS_ERR_PROTOCOL || result == QS_ERR_MALFORMED)
    fprintf(stderr, "the peer: %.*s\n", (int)error.reason_len,
            (const char *)error.reason);
  if (result != QS_OK)
    die("receive", result);
  send_packet(h, 'A', number, ack, HEADER);
}

static void on_packet(host *h, const uint8_t *packet, size_t len) {
  uint64_t number = 0;
  if (len < HEADER)
    return;
  for (int i = 1; i < HEADER; i++)
    number = number << 8 | packet[i];
  if (packet[0] == 'D')
    on_payload(h, number, packet + HEADER, len - HEADER);
  for (size_t i = h->flying; packet[0] == 'A' && i-- > 0;)
    if (h->flight[i].number == number)
      report(h, i, 1);
  h->is_closed |= packet[0] == 'C';
}

/* Waits for a packet for some milliseconds, and receives all that are there. */
static void receive_packets(host *h) {
  uint8_t packet[PACKET];
  struct sockaddr_in from;
  struct pollfd fd = {h->fd, POLLIN, 0};
  for (int wait = 5; poll(&fd, 1, wait) > 0; wait = 0) {
    socklen_t size = sizeof from;
    const ssize_t len =
        recvfrom(h->fd, packet, sizeof packet, 0, (void *)&from, &size);
    if (len <= 0 || (!h->has_peer && connect(h->fd, (void *)&from, size) < 0))
      return;
    h->has_peer = 1;
    h->heard_at = now_ms();
    on_packet(h, packet, (size_t)len);
  }
  if (now_ms() - h->heard_at > IDLE_MS)
    die("nothing was received for five seconds", QS_ERR_BLOCKED);
}

/* Opens the session and its socket: a server receives at the port, a client
 * sends to it. */
static void open_host(host *h, const qs_config *config,
                      const qs_peer_limits *limits, uint16_t port) {
  const struct sockaddr_in at = {.sin_family = AF_INET,
                                 .sin_port = htons(port),
                                 .sin_addr.s_addr = htonl(INADDR_LOOPBACK)};
  const int is_server = config->side == QS_SERVER;
  if (qs_version() >> 8 != QS_VERSION_NUM >> 8)
    die("the library has another version than its header", QS_ERR_ARGUMENT);
  want("open", qs_conn_open(&h->conn, config));
  want("limits", qs_set_peer_limits(&h->conn, limits));
  h->fd = socket(AF_INET, SOCK_DGRAM, 0);
  if ((is_server ? bind : connect)(h->fd, (const void *)&at, sizeof at) < 0)
    die("socket", 0);
  h->has_peer = !is_server;
  h->heard_at = now_ms();
}

/* Frees the session. A client closes the connection before. */
static void close_host(host *h, int is_client) {
  uint8_t last[HEADER];
  if (is_client)
    send_packet(h, 'C', 0, last, HEADER);
  qs_conn_free(&h->conn);
}
#endif
