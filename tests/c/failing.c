/* Each allocation of a session of two ends is refused in turn: the call answers
 * QS_ERR_NOMEM, can be made again, and all is as if it had been made once. No
 * memory is lost. Linked as wrapped.h says. */
#include "check.h"
#include "wrapped.h"

static long refused;

/* An answer, after one more call where memory ran out. */
#define ONCE_MORE(call)                                                        \
  do {                                                                         \
    int32_t answer = (call);                                                   \
    if (answer == QS_ERR_NOMEM) {                                              \
      refused++;                                                               \
      answer = (call);                                                         \
    }                                                                          \
    SAME(answer, QS_OK);                                                       \
  } while (0)

static int32_t take(qs_conn *to, const packet *p, size_t *next) {
  qs_error error = {0, 0, {0}};
  return qs_receive(to, p->data, (size_t)p->head.len, next, &error);
}

/* Writes the last bytes of a stream: where memory runs out nothing was written,
 * or the end alone is missing. */
static void write_end(qs_conn *conn, uint64_t id, const uint8_t *data,
                      size_t len) {
  uint64_t code = 0;
  size_t written = 1;
  int32_t answer = qs_stream_write_fin(conn, id, data, len, 1, &written, &code);
  if (answer == QS_ERR_NOMEM) {
    refused++;
    SAME(written == 0 || written == len, 1);
    answer = written == 0
                 ? qs_stream_write_fin(conn, id, data, len, 1, &written, &code)
                 : qs_stream_finish(conn, id, &code);
  }
  SAME(answer, QS_OK);
  SAME(written, len);
}

/* Of the streams of an end this one alone is over, and has the host's number.
 */
static void see_over(qs_conn *conn, uint64_t id, uint64_t user) {
  qs_event event;
  int count = 0;
  while (qs_poll(conn, &event) == QS_OK)
    if (event.kind == QS_EVENT_CLOSED) {
      SAME(event.id, id);
      SAME(event.user, user);
      count++;
    }
  SAME(count, 1);
}

static void session(void) {
  qs_conn a = QS_CONN_INIT, b = QS_CONN_INIT;
  const qs_config config = {QS_CLIENT, 2, 2, 4000, 4000, 2000, 500, 500, 1};
  qs_config config_b = config;
  const qs_peer_limits limits = {4000, 2, 2, 2000, 2000, 2000, 100};
  uint64_t id = 0, code = 0, offset = 0;
  size_t written = 0, count = 0, next = 0, got = 0;
  uint8_t text[1000];
  packet p;
  memset(text, 'x', sizeof text);
  config_b.side = QS_SERVER;
  ONCE_MORE(qs_conn_open(&a, &config));
  ONCE_MORE(qs_conn_open(&b, &config_b));
  ONCE_MORE(qs_set_peer_limits(&a, &limits));
  ONCE_MORE(qs_set_peer_limits(&b, &limits));
  ONCE_MORE(qs_stream_open(&a, QS_UNI, &id));
  ONCE_MORE(qs_stream_open(&a, QS_BIDI, &id));
  ONCE_MORE(qs_stream_set_priority(&a, 0, 5));
  ONCE_MORE(qs_stream_set_user(&a, 0, 7));
  ONCE_MORE(qs_stream_set_user(&a, 2, 8));
  ONCE_MORE(qs_stream_write(&a, 2, text, 900, &written, &code));
  SAME(written, 900);
  ONCE_MORE(qs_stream_write(&a, 0, text, 500, &written, &code));
  SAME(written, 500);
  write_end(&a, 2, text, 100);
  ONCE_MORE(qs_datagram_send(&a, text, 10, 0));
  ONCE_MORE(qs_stream_reset(&a, 0, 3));
  uint64_t tokens[64];
  size_t sent = 0, first = 0;
  for (;;) { /* the first three payloads are lost */
    int32_t answer = emit(&a, QS_ALL, 100, &p);
    if (answer == QS_ERR_NOMEM) {
      refused++;
      continue;
    }
    if (answer == QS_DONE) {
      if (first == 3)
        break;
      for (; first < 3; first++)
        ONCE_MORE(qs_lost(&a, tokens[first]));
      continue;
    }
    SAME(answer, QS_OK);
    SAME(sent < 64, 1);
    tokens[sent++] = p.head.token;
    if (sent > 3) {
      next = 0;
      ONCE_MORE(take(&b, &p, &next));
    }
  }
  for (size_t i = 3; i < sent; i++)
    ONCE_MORE(qs_acked(&a, tokens[i]));
  see_over(&a, 2, 8);
  ONCE_MORE(qs_stream_accept(&b, QS_UNI, &id));
  ONCE_MORE(qs_stream_set_user(&b, 2, 9));
  for (int32_t answer = QS_OK; answer != QS_END;) {
    answer = qs_stream_read(&b, 2, text, sizeof text, &count, &offset, &code);
    if (answer == QS_ERR_NOMEM)
      refused++;
    else if (answer != QS_END)
      SAME(answer, QS_OK), got += count;
  }
  SAME(got, 1000);
  ONCE_MORE(qs_stream_accept(&b, QS_BIDI, &id));
  ONCE_MORE(qs_stream_stop(&b, 0, 4) == QS_ERR_NOMEM ? QS_ERR_NOMEM : QS_OK);
  see_over(&b, 2, 9);
  ONCE_MORE(qs_set_max_concurrent(&b, QS_UNI, 9));
  qs_conn_free(&a);
  qs_conn_free(&b);
}

/* All that an end has to send goes over in a buffer. A payload that the other
 * end had no memory for is lost, and sent again. */
static void send_by(qs_buffer *buffer, qs_conn *from, qs_conn *to) {
  qs_payload head = {0, 0, 0};
  for (;;) {
    int32_t answer = qs_emit_buffer(from, QS_ALL, 1, 600, buffer, &head);
    if (answer == QS_ERR_NOMEM) {
      refused++;
      continue;
    }
    if (answer == QS_DONE)
      return;
    SAME(answer, QS_OK);
    qs_error error = {0, 0, {0}};
    size_t next = 0;
    answer = qs_receive_buffer(to, buffer, buffer->len, &next, &error);
    if (answer == QS_ERR_NOMEM) {
      refused++;
      ONCE_MORE(qs_lost(from, head.token));
      continue;
    }
    SAME(answer, QS_OK);
    ONCE_MORE(qs_acked(from, head.token));
  }
}

/* Reads a stream of one byte to its end. Answers how many there were. */
static size_t read_lent(qs_conn *conn, uint64_t id, uint8_t byte) {
  uint64_t offset = 0, code = 0;
  size_t all = 0;
  for (int32_t answer = QS_OK; answer != QS_END;) {
    qs_slice slices[8];
    size_t count = 0;
    answer = qs_stream_read_lent(conn, id, slices, 8, &count, &offset, &code);
    if (answer == QS_ERR_NOMEM)
      refused++;
    else if (answer != QS_END)
      SAME(answer, QS_OK);
    for (size_t at = 0; at < count; at++) {
      SAME(qs_slice_data(&slices[at])[0], byte);
      all += slices[at].len;
    }
  }
  return all;
}

static void session_without_copies(void) {
  qs_conn a = QS_CONN_INIT, b = QS_CONN_INIT;
  qs_buffer buffer = QS_BUFFER_INIT;
  const qs_config config = {QS_CLIENT, 2, 2, 9000, 9000, 9000, 500, 500, 0};
  qs_config config_b = config;
  const qs_peer_limits limits = {9000, 2, 2, 9000, 9000, 9000, 100};
  uint64_t id = 0, code = 0;
  size_t written = 0;
  uint8_t text[7000];
  memset(text, 'x', sizeof text);
  config_b.side = QS_SERVER;
  ONCE_MORE(qs_conn_open(&a, &config));
  ONCE_MORE(qs_conn_open(&b, &config_b));
  ONCE_MORE(qs_set_peer_limits(&a, &limits));
  ONCE_MORE(qs_set_peer_limits(&b, &limits));
  ONCE_MORE(qs_buffer_reserve(&buffer, 100));
  SAME(buffer.len, 100);
  ONCE_MORE(qs_stream_open(&a, QS_UNI, &id));
  ONCE_MORE(qs_stream_write(&a, id, text, sizeof text, &written, &code));
  SAME(written, sizeof text);
  ONCE_MORE(qs_stream_finish(&a, id, &code));
  send_by(&buffer, &a, &b);
  ONCE_MORE(qs_stream_accept(&b, QS_UNI, &id));
  SAME(read_lent(&b, id, 'x'), sizeof text);
  qs_conn_free(&a);
  qs_conn_free(&b);
  qs_buffer_free(&buffer);
}

/* Small frames that were received in much memory are copied to memory of their
 * own. If there is none, the frame is passed in again, and then its event is
 * raised. */
static void session_of_compacted_frames(void) {
  enum { FRAMES = 30, SIZE = 50, RECEIVED_IN = 100000 };
  qs_conn b = QS_CONN_INIT;
  const qs_config config = {QS_SERVER, 2, 2, 4000, 4000, 2000, 500, 500, 0};
  qs_error error = {0, 0, {0}};
  uint64_t id = 0, offset = 0, code = 0;
  size_t got = 0, count = 0;
  uint8_t text[FRAMES * SIZE];
  memset(text, 'x', sizeof text);
  ONCE_MORE(qs_conn_open(&b, &config));
  for (size_t at = 0; at < FRAMES; at++) {
    qs_event event;
    ONCE_MORE(qs_on_stream(&b, 2, at * SIZE, text, SIZE, at + 1 == FRAMES,
                           RECEIVED_IN, &error));
    SAME(qs_poll(&b, &event), QS_OK);
    SAME(event.kind, at == 0 ? QS_EVENT_OPENED : QS_EVENT_READABLE);
    SAME(qs_poll(&b, &event), QS_DONE);
    if (at == 0)
      ONCE_MORE(qs_stream_accept(&b, QS_UNI, &id));
  }
  for (int32_t answer = QS_OK; answer != QS_END;) {
    answer = qs_stream_read(&b, 2, text, sizeof text, &count, &offset, &code);
    if (answer == QS_ERR_NOMEM)
      refused++;
    else if (answer != QS_END)
      SAME(answer, QS_OK), got += count;
  }
  SAME(got, sizeof text);
  qs_conn_free(&b);
}

/* A session, and the same with each of its allocations refused. */
static void refuse_each(void (*run)(void)) {
  long total = 0;
  const long before = asked;
  run();
  const long allocations = asked - before;
  SAME(refused, 0);
  SAME(held, 0);
  SAME(allocations > 20, 1);
  for (long k = 1; k <= allocations; k++) {
    countdown = k;
    refused = 0;
    run();
    countdown = 0;
    SAME(held, 0);
    total += refused;
  }
  SAME(total > 0, 1);
  refused = 0;
  printf("failing: %ld allocations, %ld answers for lack of memory\n",
         allocations, total);
}

int main(void) {
  refuse_each(session);
  refuse_each(session_without_copies);
  refuse_each(session_of_compacted_frames);
  return 0;
}
