/* A harness for libFuzzer and AFL++: one endpoint whose peer sends any frames,
 * in any order, while allocations fail. It keeps its own account of bytes and
 * of credit, from the frames that go over alone, and stops where the library
 * says otherwise:
 *
 * - what is read is what the peer sent, each byte once, and not beyond its
 * limits;
 * - FIN and resets are reported only if the peer sent them;
 * - an event of a stream has the host's number of it, and the event that it is
 *   over is its last one; there is neither if streams are not tracked;
 * - what is sent is what was written, within the peer's limits;
 * - the library grants no more credit than its windows and what was received;
 * - no memory is left when the session is freed.
 *
 * Build it with -Wl,--wrap=malloc,--wrap=realloc,--wrap=free, with libFuzzer:
 *
 *     clang -g -fsanitize=fuzzer -Iinclude \
 *         -Wl,--wrap=malloc,--wrap=realloc,--wrap=free \
 *         tests/fuzz/hostile_peer.c build/lib/libquic_streams.a -o fuzz
 *     ./fuzz -max_len=4096
 *
 * or with -DMAIN for AFL++, and for files that are named.
 * tests/fuzz/coverage.py prints which part of the library inputs reach. */
#include "../c/wrapped.h"
#include "input.h"
#include "quic_streams.h"

#include <string.h>

enum { IDS = 32, SPAN = 2048, FLIGHT = 32, WINDOW = 1500, STREAM_WINDOW = 600 };
enum { STREAMS_EACH = 4, PEER_DATA = 1000, PEER_STREAM_DATA = 300 };

/* What is known of a stream, from what went over. */
typedef struct {
  uint8_t received[SPAN], is_read[SPAN]; /* by offset */
  uint64_t highest, limit;               /* received; what it may reach */
  uint64_t read_to;                      /* by ordered reads */
  uint64_t written, sent, send_limit;
  /* of the peer's side, and of this one */
  int has_fin, has_reset, is_unordered, is_over, is_stopped;
  int is_finished, is_reset, has_last_event;
  uint64_t final_size, reset_code, user;
} account;

static struct {
  qs_conn conn;
  account streams[IDS];
  uint64_t tokens[FLIGHT];
  size_t flying;
  uint64_t received, sent, send_limit, stream_limit[2], opened[2];
  uint32_t side, tracks;
  int is_closed, has_stopped;
} e;

/* The library is not instrumented: what its calls return, and which frames it
 * writes, is what libFuzzer sees of it. */
#ifndef MAIN
__attribute__((section("__libfuzzer_extra_counters")))
#endif
static uint8_t counters[4096];

static int32_t seen(unsigned call, int32_t result) {
  counters[call * 64 % sizeof counters + (unsigned)(result & 63)]++;
  return result;
}

/* The byte of a stream at an offset, from either endpoint. */
static uint8_t byte_of(uint64_t id, uint64_t offset) {
  return (uint8_t)(id * 37 + offset * 11 + (offset >> 8));
}

static int is_own(uint64_t id) { return (uint32_t)(id & 1) == e.side; }

static void start(void) {
  const qs_config config = {e.side, STREAMS_EACH, STREAMS_EACH,
                            2000,   WINDOW,       STREAM_WINDOW,
                            300,    300,          e.tracks};
  const qs_peer_limits limits = {
      PEER_DATA,        STREAMS_EACH,     STREAMS_EACH, PEER_STREAM_DATA,
      PEER_STREAM_DATA, PEER_STREAM_DATA, 100};
  must(qs_conn_open(&e.conn, &config) == QS_OK);
  must(qs_set_peer_limits(&e.conn, &limits) == QS_OK);
  e.send_limit = PEER_DATA;
  e.stream_limit[0] = e.stream_limit[1] = STREAMS_EACH;
  for (size_t id = 0; id < IDS; id++) {
    e.streams[id].limit = STREAM_WINDOW;
    e.streams[id].send_limit = PEER_STREAM_DATA;
  }
}

/* The peer violated the protocol: no frame follows, as the header says. */
static int is_processed(int32_t result, const qs_error *error) {
  seen(0, result);
  must(result == QS_OK || result == QS_ERR_NOMEM || result == QS_ERR_PROTOCOL);
  if (result == QS_ERR_PROTOCOL) {
    seen(1, (int32_t)error->code);
    must(error->code > 0 && error->code <= 10 && error->reason_len <= 80);
    must(qs_conn_close(&e.conn) == QS_OK);
    e.is_closed = 1;
  }
  return result == QS_OK;
}

/* ---- frames of the peer ---------------------------------------------------
 */

/* The peer sent bytes up to an offset. On a stream that was stopped the library
 * counts them until it knows the final size: there this is an upper bound. */
static void count_to(account *s, uint64_t end) {
  if (end > s->highest) {
    e.received += end - s->highest;
    s->highest = end;
  }
}

static void on_stream(uint64_t id) {
  account *s = &e.streams[id];
  uint8_t data[256];
  const uint64_t offset = take(2) % (SPAN - 256);
  const size_t len = (size_t)take(1);
  const uint32_t fin = take(1) % 8 == 0;
  qs_error error;
  for (size_t i = 0; i < len; i++)
    data[i] = byte_of(id, offset + i);
  if (!is_processed(qs_on_stream(&e.conn, id, offset, data, len, fin,
                                 len + (size_t)take(1), &error),
                    &error) ||
      s->is_over || s->has_reset)
    return; /* a frame for a stream that has ended is dropped */
  count_to(s, offset + len);
  if (s->is_stopped)
    return;
  must(offset + len <= s->limit);
  must(!s->has_fin || offset + len <= s->final_size);
  must(!fin || !s->has_fin || offset + len == s->final_size);
  memset(s->received + offset, 1, len);
  if (fin && !s->has_fin) {
    s->has_fin = 1;
    s->final_size = offset + len;
  }
}

static void on_reset(uint64_t id) {
  account *s = &e.streams[id];
  const uint64_t size = take(2) % SPAN, code = take(1);
  qs_error error;
  if (!is_processed(qs_on_reset_stream(&e.conn, id, code, size, &error),
                    &error) ||
      s->is_over || s->has_reset)
    return;
  must(s->is_stopped || (size >= s->highest && size <= s->limit));
  must(s->is_stopped || !s->has_fin || size == s->final_size);
  count_to(s, size);
  s->final_size = size;
  s->has_fin = s->has_reset = 1;
  s->reset_code = code;
}

static void on_limits(uint64_t id, uint64_t kind) {
  qs_error error;
  const uint64_t limit = take(2) % 4096, count = take(1) % (IDS / 4);
  const uint32_t dir = (uint32_t)id % 2;
  if (kind == 0 && is_processed(qs_on_max_data(&e.conn, limit, &error), &error))
    e.send_limit = limit > e.send_limit ? limit : e.send_limit;
  if (kind == 1 &&
      is_processed(qs_on_max_stream_data(&e.conn, id, limit, &error), &error) &&
      limit > e.streams[id].send_limit)
    e.streams[id].send_limit = limit;
  if (kind == 2 &&
      is_processed(qs_on_max_streams(&e.conn, dir, count, &error), &error) &&
      count > e.stream_limit[dir])
    e.stream_limit[dir] = count;
  if (kind == 3)
    (void)is_processed(qs_on_stop_sending(&e.conn, id, limit, &error), &error);
}

/* ---- the application --------------------------------------------------------
 */

static void read_stream(uint64_t id, int ordered) {
  account *s = &e.streams[id];
  uint8_t data[300];
  uint64_t offset, code;
  size_t count;
  const size_t cap = 1 + (size_t)take(1);
  const int32_t result = (ordered ? qs_stream_read : qs_stream_read_unordered)(
      &e.conn, id, data, cap, &count, &offset, &code);
  must(result != QS_ERR_CLOSED && result != QS_ERR_ARGUMENT);
  seen(2 + (unsigned)ordered, result);
  if (result == QS_OK) {
    must(count > 0 && count <= cap && offset + count <= s->highest);
    must(!ordered || (offset == s->read_to && !s->is_unordered));
    for (size_t i = 0; i < count; i++) {
      must(data[i] == byte_of(id, offset + i));
      must(s->received[offset + i] && !s->is_read[offset + i]);
      s->is_read[offset + i] = 1;
    }
    s->read_to = ordered ? offset + count : s->read_to;
    s->is_unordered |= !ordered;
  }
  if (result == QS_END) {
    must(s->has_fin && !s->has_reset);
    for (uint64_t i = 0; i < s->final_size; i++)
      must(s->is_read[i]);
  }
  must(result != QS_ERR_RESET || (s->has_reset && code == s->reset_code));
  s->is_over |= result == QS_END || result == QS_ERR_RESET;
}

static void write_stream(uint64_t id) {
  account *s = &e.streams[id];
  uint8_t data[256];
  size_t written;
  uint64_t code;
  const size_t len = (size_t)take(1);
  if (s->written + len > SPAN)
    return;
  for (size_t i = 0; i < len; i++)
    data[i] = byte_of(id, s->written + i);
  const int32_t result =
      qs_stream_write(&e.conn, id, data, len, &written, &code);
  if (seen(4, result) != QS_OK)
    return;
  must(written <= len && (written > 0 || len == 0));
  must(!s->is_finished && !s->is_reset && !e.is_closed);
  s->written += written;
  must(s->written <= s->send_limit);
}

static void change_stream(uint64_t id, uint64_t kind) {
  account *s = &e.streams[id];
  uint64_t code;
  if (kind == 0 && seen(5, qs_stream_finish(&e.conn, id, &code)) == QS_OK) {
    must(!s->is_finished && !s->is_reset);
    s->is_finished = 1;
  }
  if (kind == 1 && seen(6, qs_stream_reset(&e.conn, id, take(1))) == QS_OK)
    s->is_reset = 1;
  if (kind == 2 && seen(7, qs_stream_stop(&e.conn, id, take(1))) == QS_OK)
    s->is_stopped = e.has_stopped = 1;
  if (kind == 3)
    (void)qs_stream_set_priority(&e.conn, id, (int32_t)take(1) - 128);
}

static void set_user(uint64_t id) {
  const uint64_t user = 3 * id + 1;
  const int32_t result = seen(13, qs_stream_set_user(&e.conn, id, user));
  if (e.tracks && result == QS_OK)
    e.streams[id].user = user;
  else
    must(result == (e.tracks ? QS_ERR_NOMEM : QS_ERR_NO_STREAM));
}

static void open_or_accept(uint32_t dir) {
  uint64_t id;
  if (seen(8, qs_stream_open(&e.conn, dir, &id)) == QS_OK) {
    must(is_own(id) && qs_id_index(id) == e.opened[dir]);
    must(++e.opened[dir] <= e.stream_limit[dir] && !e.is_closed);
    set_user(id);
  }
  if (seen(9, qs_stream_accept(&e.conn, dir, &id)) == QS_OK) {
    must(!is_own(id) && id < IDS);
    set_user(id);
  }
}

/* ---- payloads that are sent
 * --------------------------------------------------- */

static uint64_t number(const uint8_t **at, const uint8_t *end) {
  must(*at < end);
  const size_t size = (size_t)1 << (**at >> 6);
  uint64_t value = **at & 0x3f;
  must(size <= (size_t)(end - *at));
  for (size_t i = 1; i < size; i++)
    value = value << 8 | (*at)[i];
  *at += size;
  return value;
}

static const uint8_t *stream_frame(uint64_t kind, const uint8_t *at,
                                   const uint8_t *end) {
  const uint64_t id = number(&at, end);
  const uint64_t offset = kind & 4 ? number(&at, end) : 0;
  const uint64_t len = kind & 2 ? number(&at, end) : (uint64_t)(end - at);
  must(id < IDS && len <= (uint64_t)(end - at));
  account *s = &e.streams[id];
  must(offset + len <= s->written && offset + len <= s->send_limit);
  must(!s->is_reset && (is_own(id) || !qs_id_is_uni(id)));
  must(!(kind & 1) || (s->is_finished && offset + len == s->written));
  for (uint64_t i = 0; i < len; i++)
    must(at[i] == byte_of(id, offset + i));
  if (offset + len > s->sent) {
    e.sent += offset + len - s->sent;
    s->sent = offset + len;
  }
  must(e.sent <= e.send_limit);
  return at + len;
}

static const uint8_t *control_frame(uint64_t kind, const uint8_t *at,
                                    const uint8_t *end) {
  const uint64_t first = number(&at, end);
  if (kind == 0x04 || kind == 0x05)
    (void)number(&at, end); /* the code */
  if (kind == 0x04)
    must(first < IDS && number(&at, end) == e.streams[first].written);
  if (kind == 0x10)
    must(first <= WINDOW + e.received);
  if (kind == 0x11) {
    const uint64_t limit = number(&at, end);
    must(first < IDS && limit <= STREAM_WINDOW + e.streams[first].highest);
    if (limit > e.streams[first].limit)
      e.streams[first].limit = limit;
  }
  if (kind == 0x15)
    must(first < IDS && number(&at, end) <= e.streams[first].send_limit);
  must(kind != 0x14 || first <= e.send_limit);
  return at;
}

static void check_payload(const uint8_t *at, const uint8_t *end) {
  while (at < end) {
    const uint64_t kind = number(&at, end);
    seen(10, (int32_t)kind);
    if (kind >= 0x08 && kind <= 0x0f)
      at = stream_frame(kind, at, end);
    else if (kind == 0x31) {
      const uint64_t len = number(&at, end);
      must(len <= 100 && len <= (uint64_t)(end - at));
      at += len;
    } else {
      must(kind == 0x04 || kind == 0x05 || (kind >= 0x10 && kind <= 0x15));
      at = control_frame(kind, at, end);
    }
  }
}

static void emit(void) {
  uint8_t data[300];
  qs_payload payload;
  const size_t cap = (size_t)take(1) + 20;
  const uint32_t parts = 1 + (uint32_t)take(1) % QS_ALL;
  if (e.flying == FLIGHT)
    return;
  const int32_t result =
      qs_emit(&e.conn, parts, parts % 2, data, cap, &payload);
  must(result == QS_OK || result == QS_DONE || result == QS_ERR_NOMEM);
  if (result != QS_OK)
    return;
  must(payload.len > 0 && payload.len <= cap);
  check_payload(data, data + payload.len);
  e.tokens[e.flying++] = payload.token;
}

static void report(void) {
  if (e.flying == 0)
    return;
  const size_t at = (size_t)take(1) % e.flying;
  const uint64_t token = e.tokens[at];
  const int32_t result = (take(1) % 2 ? qs_acked : qs_lost)(&e.conn, token);
  seen(11, result);
  must(result == QS_OK || result == QS_ERR_NOMEM);
  if (result == QS_OK) {
    must(qs_acked(&e.conn, token) == QS_ERR_TOKEN);
    e.tokens[at] = e.tokens[--e.flying];
  }
}

static int is_of_stream(uint64_t kind) {
  return (kind >= QS_EVENT_READABLE && kind <= QS_EVENT_STOPPED) ||
         kind == QS_EVENT_CLOSED;
}

static void see(const qs_event *event) {
  const int is_over = event->kind == QS_EVENT_CLOSED;
  seen(12, (int32_t)event->kind);
  must(e.tracks || !is_over);
  if (!is_of_stream(event->kind)) {
    must(event->id == 0 && event->user == 0);
    return;
  }
  must(event->id < IDS);
  account *s = &e.streams[event->id];
  must(event->user == s->user && !s->has_last_event);
  s->has_last_event = is_over;
}

static void ask(void) {
  qs_info info;
  qs_event event;
  uint8_t data[300];
  size_t count;
  must(qs_get_info(&e.conn, &info) == QS_OK);
  must(info.payloads == e.flying && info.data_received <= e.received);
  must(e.has_stopped || info.data_received == e.received);
  must(info.data_received <= info.local_max_data);
  must(info.local_max_data <= WINDOW + info.data_received);
  if (qs_poll(&e.conn, &event) == QS_OK)
    see(&event);
  (void)qs_datagram_recv(&e.conn, data, sizeof data, &count);
}

static void step(void) {
  const uint64_t kind = take(1) % 16, id = take(1) % IDS;
  qs_error error;
  countdown = (long)take(1) % 64; /* 0: no allocation fails */
  if (kind < 4 && !e.is_closed)
    kind < 3 ? on_stream(id) : on_reset(id);
  else if (kind == 4 && !e.is_closed)
    on_limits(id, take(1) % 4);
  else if (kind == 5 && !e.is_closed)
    (void)is_processed(
        qs_on_datagram(&e.conn, (const uint8_t *)"datagram", id % 9, &error),
        &error);
  else if (kind == 6 || kind == 7)
    read_stream(id, take(1) % 8 != 0);
  else if (kind == 8 || kind == 9)
    write_stream(id);
  else if (kind == 10)
    change_stream(id, take(1) % 4);
  else if (kind == 11)
    open_or_accept((uint32_t)id % 2);
  else if (kind == 12 || kind == 13)
    emit();
  else if (kind == 14)
    report();
  else if (kind == 15) {
    (void)qs_datagram_send(&e.conn, (const uint8_t *)"datagram", id % 9,
                           id % 2);
    ask();
  }
  countdown = 0;
}

int LLVMFuzzerTestOneInput(const uint8_t *data, size_t size) {
  const long before = held;
  memset(&e, 0, sizeof e);
  input.at = data;
  input.left = size;
  const uint32_t first = (uint32_t)take(1);
  e.side = first % 2;
  e.tracks = first / 2 % 2;
  start();
  while (input.left > 0)
    step();
  qs_conn_free(&e.conn);
  must(held == before);
  return 0;
}
