/* The cases g, h and i of docs/performance.md through the C interface: the same
 * work as that of the crate stream_cases, done by calls of quic_streams.h
 * alone, with the same check numbers.
 *
 * Built with -DALONE it is a program: `cases g 1000000` runs one case on a
 * content of its own, and prints its number.
 */
#include "quic_streams.h"

#include <inttypes.h>
#include <stdio.h>
#include <stdlib.h>
#include <string.h>

enum {
  LIMIT = 1 << 20,
  SEGMENT = 65536,
  PIECE = 1200,
  BURST = 32,
  PERIOD = 20,
  STREAM = 1024,
  PART = 256,
  STREAMS = 1000,
  LENT = 64
};

#define REFUSED UINT64_MAX

/* The sum over bytes that were seen, and how many they are. */
typedef struct {
  uint64_t sum, bytes;
} seen;

static void see(seen *s, uint64_t offset, const uint8_t *data, size_t len) {
  size_t at = (size_t)(-offset % 256);
  uint64_t factor = offset / 256 + (offset % 256 != 0) + 1, sum = s->sum;
  for (; at < len; at += 256)
    sum += ((uint64_t)data[at] + 1) * factor++;
  s->sum = sum;
  s->bytes += len;
}

static void see_next(seen *s, const uint8_t *data, size_t len) {
  see(s, s->bytes, data, len);
}

typedef struct {
  qs_conn client, server;
  int lossy;
  uint64_t stream_len; /* the bytes of each stream, where there are several */
  seen to_server, to_client, read;
  uint64_t payloads, events, finished, ended;
  uint64_t tokens[BURST];
  int lost[BURST];
  size_t flying;
  uint64_t *ids; /* streams on which the server has something to read */
  size_t noted, room;
  qs_buffer buffer; /* the payload that is on its way */
} pair;

static int open_end(qs_conn *conn, uint32_t side, uint64_t count) {
  qs_config config = {side, count, 0, LIMIT, LIMIT, LIMIT, QS_NONE, 0, 0};
  qs_peer_limits limits = {LIMIT, 0, count, LIMIT, LIMIT, LIMIT, QS_NONE};
  return qs_conn_open(conn, &config) == QS_OK &&
         qs_set_peer_limits(conn, &limits) == QS_OK;
}

static pair *open_pair(uint64_t count, uint64_t stream_len, int lossy) {
  pair *p = calloc(1, sizeof *p);
  if (p == NULL)
    return NULL;
  p->lossy = lossy;
  p->stream_len = stream_len;
  if (open_end(&p->client, QS_CLIENT, count) &&
      open_end(&p->server, QS_SERVER, count) &&
      qs_buffer_reserve(&p->buffer, 0) == QS_OK)
    return p;
  qs_conn_free(&p->client);
  qs_conn_free(&p->server);
  free(p);
  return NULL;
}

static void close_pair(pair *p) {
  qs_conn_free(&p->client);
  qs_conn_free(&p->server);
  qs_buffer_free(&p->buffer);
  free(p->ids);
  free(p);
}

static int deliver(qs_conn *to, qs_buffer *payload) {
  size_t next = 0;
  qs_error error;
  error.code = 0;
  return qs_receive_buffer(to, payload, payload->len, &next, &error) == QS_OK;
}

/* Has the next payload of an end written, and sums its bytes. */
static int32_t emit(qs_conn *from, seen *sum, qs_buffer *payload,
                    qs_payload *head) {
  int32_t answer = qs_emit_buffer(from, QS_ALL, 1, PIECE, payload, head);
  if (answer == QS_OK)
    see_next(sum, payload->data, payload->len);
  return answer;
}

/* Up to 32 payloads of the client, which are delivered but for the lost ones.
 * Answers whether there were any. */
static int send_some(pair *p, int *some) {
  qs_payload head = {0, 0, 0};
  *some = 0;
  for (p->flying = 0; p->flying < BURST; p->flying++) {
    int32_t answer = emit(&p->client, &p->to_server, &p->buffer, &head);
    if (answer != QS_OK)
      return answer == QS_DONE;
    *some = 1;
    int lost = p->lossy && p->payloads % PERIOD == PERIOD - 1;
    p->payloads++;
    p->tokens[p->flying] = head.token;
    p->lost[p->flying] = lost;
    if (!lost && !deliver(&p->server, &p->buffer))
      return 0;
  }
  return 1;
}

static int note(pair *p, uint64_t id) {
  if (p->noted == p->room) {
    size_t room = p->room ? 2 * p->room : 64;
    uint64_t *ids = realloc(p->ids, room * sizeof *ids);
    if (ids == NULL)
      return 0;
    p->ids = ids;
    p->room = room;
  }
  p->ids[p->noted++] = id;
  return 1;
}

static int read_stream(pair *p, uint64_t id) {
  uint64_t first = p->stream_len * qs_id_index(id), offset = 0, code = 0;
  int32_t answer = QS_OK;
  while (answer == QS_OK) {
    qs_slice slices[LENT];
    size_t count = 0;
    answer = qs_stream_read_lent(&p->server, id, slices, LENT, &count, &offset,
                                 &code);
    for (size_t at = 0; at < count; at++) {
      see(&p->read, first + offset, qs_slice_data(&slices[at]), slices[at].len);
      offset += slices[at].len;
    }
  }
  p->ended += answer == QS_END;
  return answer == QS_END || answer == QS_DONE || answer == QS_ERR_NO_STREAM;
}

/* The server takes its events, and reads what came. */
static int read_all(pair *p) {
  qs_event event = {0, 0, 0, 0, 0};
  uint64_t id = 0;
  int32_t answer;
  p->noted = 0;
  while ((answer = qs_poll(&p->server, &event)) == QS_OK) {
    p->events++;
    if (event.kind == QS_EVENT_OPENED) {
      while ((answer = qs_stream_accept(&p->server, event.dir, &id)) == QS_OK)
        if (!note(p, id))
          return 0;
    } else if (event.kind == QS_EVENT_READABLE && !note(p, event.id))
      return 0;
  }
  if (answer != QS_DONE)
    return 0;
  for (size_t at = 0; at < p->noted; at++)
    if (!read_stream(p, p->ids[at]))
      return 0;
  return 1;
}

/* The server answers, which always comes. */
static int answer_all(pair *p) {
  qs_payload head = {0, 0, 0};
  int32_t answer;
  while ((answer = emit(&p->server, &p->to_client, &p->buffer, &head)) == QS_OK)
    if (!deliver(&p->client, &p->buffer) ||
        qs_acked(&p->server, head.token) != QS_OK)
      return 0;
  return answer == QS_DONE;
}

static int settle(pair *p) {
  for (size_t at = 0; at < p->flying; at++)
    if ((p->lost[at] ? qs_lost : qs_acked)(&p->client, p->tokens[at]) != QS_OK)
      return 0;
  qs_event event = {0, 0, 0, 0, 0};
  int32_t answer;
  while ((answer = qs_poll(&p->client, &event)) == QS_OK) {
    p->events++;
    p->finished += event.kind == QS_EVENT_FINISHED;
  }
  return answer == QS_DONE;
}

static int turn(pair *p, int *some) {
  return send_some(p, some) && read_all(p) && answer_all(p) && settle(p);
}

/* The number of a run in which each stream ended and each byte was read. */
static uint64_t check(const pair *p, uint64_t streams, uint64_t bytes) {
  if (p->finished != streams || p->ended != streams || p->read.bytes != bytes)
    return REFUSED;
  return p->to_server.sum + p->to_client.sum + p->read.sum +
         p->to_server.bytes + p->to_client.bytes + p->payloads + p->events;
}

static int write_some(pair *p, uint64_t id, uint64_t *written, uint64_t size,
                      const uint8_t *src) {
  while (*written < size) {
    size_t len =
               size - *written < SEGMENT ? (size_t)(size - *written) : SEGMENT,
           count = 0;
    uint64_t code = 0;
    int32_t answer = qs_stream_write(&p->client, id, src + *written % LIMIT,
                                     len, &count, &code);
    if (answer == QS_ERR_BLOCKED)
      return 1;
    if (answer != QS_OK)
      return 0;
    *written += count;
  }
  return 1;
}

static uint64_t one_stream(uint64_t size, const uint8_t *src, int lossy) {
  pair *p = open_pair(1, 0, lossy);
  uint64_t id = 0, written = 0, code = 0, number = REFUSED;
  int finished = 0, some = 0;
  if (p == NULL)
    return REFUSED;
  if (qs_stream_open(&p->client, QS_UNI, &id) != QS_OK)
    goto out;
  while (p->finished == 0 || p->ended == 0) {
    if (!write_some(p, id, &written, size, src))
      goto out;
    if (written == size && !finished) {
      if (qs_stream_finish(&p->client, id, &code) != QS_OK)
        goto out;
      finished = 1;
    }
    if (!turn(p, &some) || !some)
      goto out;
  }
  number = check(p, 1, size);
out:
  close_pair(p);
  return number;
}

static int write_part(pair *p, const uint64_t *ids, size_t count,
                      const uint8_t *src, uint64_t part) {
  for (size_t at = 0; at < count; at++) {
    uint64_t offset = STREAM * qs_id_index(ids[at]) + PART * part, code = 0;
    size_t written = 0;
    if (qs_stream_write(&p->client, ids[at], src + offset % LIMIT, PART,
                        &written, &code) != QS_OK ||
        written != PART)
      return 0;
    if (part == STREAM / PART - 1 &&
        qs_stream_finish(&p->client, ids[at], &code) != QS_OK)
      return 0;
  }
  return 1;
}

static uint64_t many_streams(uint64_t size, const uint8_t *src) {
  uint64_t total = size / STREAM + (size % STREAM != 0), opened = 0,
           number = REFUSED, ids[STREAMS];
  if (total == 0)
    return 0;
  pair *p = open_pair(STREAMS, STREAM, 0);
  if (p == NULL)
    return REFUSED;
  while (opened < total) {
    size_t count = 0;
    int32_t answer = QS_OK;
    while (count < STREAMS && opened + count < total &&
           (answer = qs_stream_open(&p->client, QS_UNI, &ids[count])) == QS_OK)
      count++;
    if (count == 0 || answer < 0)
      goto out;
    opened += count;
    for (uint64_t part = 0; part < STREAM / PART; part++) {
      int some = 1;
      if (!write_part(p, ids, count, src, part))
        goto out;
      while (some)
        if (!turn(p, &some))
          goto out;
    }
  }
  number = check(p, total, total * STREAM);
out:
  close_pair(p);
  return number;
}

uint64_t streambench_case_g(size_t size, const uint8_t *src, size_t src_len,
                            const uint32_t *perm, size_t perm_len) {
  (void)perm, (void)perm_len;
  return src_len < LIMIT + SEGMENT ? REFUSED : one_stream(size, src, 0);
}

uint64_t streambench_case_h(size_t size, const uint8_t *src, size_t src_len,
                            const uint32_t *perm, size_t perm_len) {
  (void)perm, (void)perm_len;
  return src_len < LIMIT + SEGMENT ? REFUSED : many_streams(size, src);
}

uint64_t streambench_case_i(size_t size, const uint8_t *src, size_t src_len,
                            const uint32_t *perm, size_t perm_len) {
  (void)perm, (void)perm_len;
  return src_len < LIMIT + SEGMENT ? REFUSED : one_stream(size, src, 1);
}

#ifdef ALONE
int main(int argc, char **argv) {
  static uint8_t src[LIMIT + SEGMENT];
  uint32_t state = 1;
  if (argc != 3) {
    fprintf(stderr, "usage: cases g|h|i SIZE\n");
    return 2;
  }
  for (size_t at = 0; at < LIMIT; at++) {
    state = state * 1664525 + 1013904223;
    src[at] = (uint8_t)(state >> 24);
  }
  memcpy(src + LIMIT, src, SEGMENT);
  size_t size = (size_t)strtoull(argv[2], NULL, 10);
  uint64_t (*volatile run)(size_t, const uint8_t *, size_t, const uint32_t *,
                           size_t) = argv[1][0] == 'g'   ? streambench_case_g
                                     : argv[1][0] == 'h' ? streambench_case_h
                                                         : streambench_case_i;
  uint64_t number = run(size, src, sizeof src, NULL, 0);
  printf("%s %zu %" PRIu64 "\n", argv[1], size, number);
  return number == REFUSED;
}
#endif
