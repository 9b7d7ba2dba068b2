/* That a stream is over is told once, with the host's number for it, and not
 * before both of its sides are gone; and neither is there if the host did not
 * ask for it. */
#include "check.h"

static qs_conn a, b; /* a client and a server */

static void open_both_that(uint64_t tracks) {
  const qs_conn closed = QS_CONN_INIT;
  a = closed;
  b = closed;
  SAME(open_end_that(&a, QS_CLIENT, 8, 1000, 1000, tracks), QS_OK);
  SAME(open_end_that(&b, QS_SERVER, 8, 1000, 1000, tracks), QS_OK);
}

static void open_both(void) { open_both_that(1); }

static void free_both(void) {
  qs_conn_free(&a);
  qs_conn_free(&b);
}

/* The peer's limits, which a client sets again when 0-RTT was rejected. */
static void set_limits(qs_conn *conn) {
  const qs_peer_limits limits = {1000, 8, 8, 1000, 1000, 1000, QS_NONE};
  SAME(qs_set_peer_limits(conn, &limits), QS_OK);
}

/* The next event is this one. */
static void told(qs_conn *conn, uint64_t kind, uint64_t dir, uint64_t id,
                 uint64_t user) {
  qs_event event = {99, 99, 99, 99, 99};
  SAME(qs_poll(conn, &event), QS_OK);
  SAME(event.kind, kind);
  SAME(event.dir, dir);
  SAME(event.id, id);
  SAME(event.user, user);
}

static void told_none(qs_conn *conn) {
  qs_event event = {99, 99, 99, 99, 99};
  SAME(qs_poll(conn, &event), QS_DONE);
  SAME(event.kind, 99);
  SAME(event.user, 99);
}

/* What is due goes from one end to the other, and is not acknowledged yet. */
static uint64_t send_to(qs_conn *from, qs_conn *to) {
  packet p;
  SAME(emit(from, QS_ALL, 1200, &p), QS_OK);
  SAME(deliver(to, &p), QS_OK);
  return p.head.token;
}

static uint64_t opened(qs_conn *conn, uint32_t dir) {
  uint64_t id = 99;
  SAME(qs_stream_open(conn, dir, &id), QS_OK);
  return id;
}

static void accepted(qs_conn *conn, uint32_t dir, uint64_t wanted) {
  uint64_t id = 99;
  SAME(qs_stream_accept(conn, dir, &id), QS_OK);
  SAME(id, wanted);
}

static void finish_with(qs_conn *conn, uint64_t id, const char *text) {
  uint64_t code = 0;
  size_t written = 0;
  SAME(write_text(conn, id, text, strlen(text), &written), QS_OK);
  SAME(written, strlen(text));
  SAME(qs_stream_finish(conn, id, &code), QS_OK);
}

static int32_t read_all(qs_conn *conn, uint64_t id) {
  uint8_t data[100];
  size_t count = 0;
  uint64_t offset = 0, code = 0;
  int32_t result = QS_OK;
  while (result == QS_OK)
    result = qs_stream_read_many(conn, id, data, sizeof data, &count, &offset,
                                 &code);
  return result;
}

static void has_user(qs_conn *conn, uint64_t id, uint64_t wanted) {
  uint64_t user = 99;
  SAME(qs_stream_user(conn, id, &user), QS_OK);
  SAME(user, wanted);
}

static void has_no_user(qs_conn *conn, uint64_t id) {
  uint64_t user = 99;
  SAME(qs_stream_user(conn, id, &user), QS_ERR_NO_STREAM);
  SAME(qs_stream_set_user(conn, id, 1), QS_ERR_NO_STREAM);
  SAME(user, 99);
}

static void one_way(void) {
  open_both();
  uint64_t id = opened(&a, QS_UNI);
  has_user(&a, id, 0);
  has_no_user(&b, id);
  SAME(qs_stream_set_user(&a, id, 7), QS_OK);
  has_user(&a, id, 7);
  finish_with(&a, id, "hello");
  uint64_t token = send_to(&a, &b);
  told(&b, QS_EVENT_OPENED, QS_UNI, 0, 0);
  accepted(&b, QS_UNI, id);
  SAME(qs_stream_set_user(&b, id, UINT64_MAX), QS_OK);
  told_none(&b);
  SAME(read_all(&b, id), QS_END);
  told(&b, QS_EVENT_CLOSED, QS_UNI, id, UINT64_MAX);
  told_none(&b);
  has_no_user(&b, id);
  told_none(&a);
  SAME(qs_acked(&a, token), QS_OK);
  has_user(&a, id, 7);
  told(&a, QS_EVENT_FINISHED, QS_UNI, id, 7);
  told(&a, QS_EVENT_CLOSED, QS_UNI, id, 7);
  told_none(&a);
  has_no_user(&a, id);
  SAME(read_all(&b, id), QS_ERR_NO_STREAM);
  told_none(&b);
  free_both();
}

/* Of two streams each has its own number, and a stream of both directions is
 * not over while one of its sides is left. */
static void both_ways(void) {
  open_both();
  uint64_t one = opened(&a, QS_BIDI), other = opened(&a, QS_BIDI);
  SAME(qs_stream_set_user(&a, one, 11), QS_OK);
  SAME(qs_stream_set_user(&a, other, 12), QS_OK);
  SAME(qs_stream_set_user(&a, one, 13), QS_OK);
  finish_with(&a, one, "question");
  finish_with(&a, other, "question");
  uint64_t token = send_to(&a, &b);
  SAME(qs_acked(&a, token), QS_OK);
  told(&a, QS_EVENT_FINISHED, QS_BIDI, one, 13);
  told(&a, QS_EVENT_FINISHED, QS_BIDI, other, 12);
  told_none(&a);
  told(&b, QS_EVENT_OPENED, QS_BIDI, 0, 0);
  accepted(&b, QS_BIDI, one);
  accepted(&b, QS_BIDI, other);
  SAME(qs_stream_set_user(&b, other, 22), QS_OK);
  SAME(read_all(&b, other), QS_END);
  told_none(&b);
  finish_with(&b, other, "answer");
  token = send_to(&b, &a);
  told_none(&b);
  SAME(qs_acked(&b, token), QS_OK);
  told(&b, QS_EVENT_FINISHED, QS_BIDI, other, 22);
  told(&b, QS_EVENT_CLOSED, QS_BIDI, other, 22);
  told_none(&b);
  told(&a, QS_EVENT_READABLE, QS_BIDI, other, 12);
  told_none(&a);
  SAME(read_all(&a, other), QS_END);
  told(&a, QS_EVENT_CLOSED, QS_BIDI, other, 12);
  told_none(&a);
  has_user(&a, one, 13);
  has_user(&b, one, 0);
  free_both();
}

/* A reset of this endpoint's own is told when it is acknowledged, and not when
 * it is lost. The peer is told when it returned the reset. */
static void reset(void) {
  open_both();
  uint64_t id = opened(&a, QS_UNI), code = 0;
  SAME(qs_stream_set_user(&a, id, 5), QS_OK);
  SAME(qs_stream_reset(&a, id, 77), QS_OK);
  packet lost;
  SAME(emit(&a, QS_CONTROL, 1200, &lost), QS_OK);
  told_none(&a);
  SAME(qs_lost(&a, lost.head.token), QS_OK);
  told_none(&a);
  uint64_t token = send_to(&a, &b);
  SAME(qs_acked(&a, token), QS_OK);
  told(&a, QS_EVENT_CLOSED, QS_UNI, id, 5);
  told_none(&a);
  told(&b, QS_EVENT_OPENED, QS_UNI, 0, 0);
  accepted(&b, QS_UNI, id);
  told_none(&b);
  SAME(qs_stream_received_reset(&b, id, &code), QS_OK);
  SAME(code, 77);
  told(&b, QS_EVENT_CLOSED, QS_UNI, id, 0);
  told_none(&b);
  id = opened(&a, QS_UNI);
  SAME(qs_stream_reset(&a, id, 78), QS_OK);
  (void)send_to(&a, &b);
  told(&b, QS_EVENT_OPENED, QS_UNI, 0, 0);
  accepted(&b, QS_UNI, id);
  SAME(read_all(&b, id), QS_ERR_RESET);
  told(&b, QS_EVENT_CLOSED, QS_UNI, id, 0);
  told_none(&b);
  free_both();
}

/* A stream that was stopped is over when its final size is known: by FIN, by a
 * reset, or before it was stopped. */
static void stopped(void) {
  open_both();
  uint64_t ids[3];
  size_t written = 0;
  for (int i = 0; i < 3; i++) {
    ids[i] = opened(&a, QS_UNI);
    SAME(write_text(&a, ids[i], "some", 4, &written), QS_OK);
  }
  (void)send_to(&a, &b);
  told(&b, QS_EVENT_OPENED, QS_UNI, 0, 0);
  for (int i = 0; i < 3; i++) {
    accepted(&b, QS_UNI, ids[i]);
    SAME(qs_stream_set_user(&b, ids[i], 30 + (uint64_t)i), QS_OK);
  }
  for (int i = 0; i < 2; i++)
    SAME(qs_stream_stop(&b, ids[i], 4), QS_OK);
  told_none(&b);
  finish_with(&a, ids[0], "end");
  (void)send_to(&a, &b);
  told(&b, QS_EVENT_CLOSED, QS_UNI, ids[0], 30);
  told_none(&b);
  SAME(qs_stream_reset(&a, ids[1], 4), QS_OK);
  (void)send_to(&a, &b);
  told(&b, QS_EVENT_CLOSED, QS_UNI, ids[1], 31);
  told_none(&b);
  finish_with(&a, ids[2], "end");
  (void)send_to(&a, &b);
  told(&b, QS_EVENT_READABLE, QS_UNI, ids[2], 32);
  told_none(&b);
  SAME(qs_stream_stop(&b, ids[2], 4), QS_OK);
  told(&b, QS_EVENT_CLOSED, QS_UNI, ids[2], 32);
  told_none(&b);
  free_both();
}

/* The same without tracking: no number is kept, and no event is told of it. */
static void untracked(void) {
  open_both_that(0);
  uint64_t id = opened(&a, QS_BIDI);
  has_no_user(&a, id);
  finish_with(&a, id, "question");
  uint64_t token = send_to(&a, &b);
  SAME(qs_acked(&a, token), QS_OK);
  told(&a, QS_EVENT_FINISHED, QS_BIDI, id, 0);
  told(&b, QS_EVENT_OPENED, QS_BIDI, 0, 0);
  accepted(&b, QS_BIDI, id);
  has_no_user(&b, id);
  SAME(read_all(&b, id), QS_END);
  finish_with(&b, id, "answer");
  token = send_to(&b, &a);
  SAME(qs_acked(&b, token), QS_OK);
  told(&b, QS_EVENT_FINISHED, QS_BIDI, id, 0);
  told_none(&b);
  told(&a, QS_EVENT_READABLE, QS_BIDI, id, 0);
  SAME(read_all(&a, id), QS_END);
  told_none(&a);
  id = opened(&a, QS_UNI);
  SAME(qs_stream_reset(&a, id, 1), QS_OK);
  SAME(qs_acked(&a, send_to(&a, &b)), QS_OK);
  told_none(&a);
  SAME(qs_zero_rtt_rejected(&a), QS_OK);
  set_limits(&a);
  has_no_user(&a, opened(&a, QS_BIDI));
  told_none(&a);
  free_both();
}

/* Each endpoint has it as it asked for it. */
static void one_that_tracks(void) {
  const qs_conn closed = QS_CONN_INIT;
  a = closed;
  b = closed;
  SAME(open_end_that(&a, QS_CLIENT, 8, 1000, 1000, 1), QS_OK);
  SAME(open_end_that(&b, QS_SERVER, 8, 1000, 1000, 0), QS_OK);
  uint64_t id = opened(&a, QS_UNI);
  SAME(qs_stream_set_user(&a, id, 6), QS_OK);
  finish_with(&a, id, "hello");
  SAME(qs_acked(&a, send_to(&a, &b)), QS_OK);
  told(&a, QS_EVENT_FINISHED, QS_UNI, id, 6);
  told(&a, QS_EVENT_CLOSED, QS_UNI, id, 6);
  told_none(&a);
  told(&b, QS_EVENT_OPENED, QS_UNI, 0, 0);
  accepted(&b, QS_UNI, id);
  SAME(read_all(&b, id), QS_END);
  told_none(&b);
  free_both();
}

static void refusals(void) {
  open_both();
  uint64_t user = 99;
  has_no_user(&a, 0);
  SAME(qs_stream_set_user(&a, UINT64_C(1) << 62, 1), QS_ERR_ARGUMENT);
  SAME(qs_stream_user(&a, UINT64_C(1) << 62, &user), QS_ERR_ARGUMENT);
  uint64_t id = opened(&a, QS_BIDI);
  SAME(qs_stream_set_user(&a, id, 3), QS_OK);
  finish_with(&a, id, "early");
  packet early;
  SAME(emit(&a, QS_ALL, 1200, &early), QS_OK);
  SAME(qs_zero_rtt_rejected(&a), QS_OK);
  has_no_user(&a, id);
  told_none(&a);
  /* later streams are tracked: the first has the id that was discarded */
  set_limits(&a);
  SAME(opened(&a, QS_BIDI), id);
  has_user(&a, id, 0);
  SAME(qs_stream_set_user(&a, id, 4), QS_OK);
  has_user(&a, id, 4);
  qs_conn_free(&a);
  SAME(qs_stream_set_user(&a, id, 1), QS_ERR_CLOSED);
  SAME(qs_stream_user(&a, id, &user), QS_ERR_CLOSED);
  SAME(user, 99);
  free_both();
}

/* Of a thousand streams each is told once. */
static void many(void) {
  enum { ALL = 1000 };
  const qs_conn closed = QS_CONN_INIT;
  a = closed;
  SAME(open_end_that(&a, QS_CLIENT, ALL, 1 << 20, 100, 1), QS_OK);
  static int seen[4 * ALL + 4];
  for (int i = 0; i < ALL; i++) {
    uint64_t id = opened(&a, QS_UNI);
    SAME(qs_stream_set_user(&a, id, 2 * id + 1), QS_OK);
    SAME(qs_stream_reset(&a, id, 0), QS_OK);
  }
  packet p;
  while (emit(&a, QS_ALL, 1200, &p) == QS_OK)
    SAME(qs_acked(&a, p.head.token), QS_OK);
  qs_event event;
  int count = 0;
  while (qs_poll(&a, &event) == QS_OK) {
    SAME(event.kind, QS_EVENT_CLOSED);
    SAME(event.user, 2 * event.id + 1);
    SAME(seen[event.id]++, 0);
    count++;
  }
  SAME(count, ALL);
  qs_conn_free(&a);
}

int main(void) {
  one_way();
  both_ways();
  reset();
  stopped();
  untracked();
  one_that_tracks();
  refusals();
  many();
  printf("closed: 8 tests\n");
  return 0;
}
