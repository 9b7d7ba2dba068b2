/* What hosts ask: the room of a stream, writes with FIN, and a datagram that
 * stays. */
#include "check.h"

static qs_conn open_client(uint64_t window, uint64_t each) {
  qs_conn conn = QS_CONN_INIT;
  SAME(open_end(&conn, QS_CLIENT, 4, window, each), QS_OK);
  return conn;
}

static qs_conn open_server(void) {
  qs_conn conn = QS_CONN_INIT;
  SAME(open_end(&conn, QS_SERVER, 4, 1000, 1000), QS_OK);
  return conn;
}

static uint64_t opened(qs_conn *conn, uint32_t dir) {
  uint64_t id = 99;
  SAME(qs_stream_open(conn, dir, &id), QS_OK);
  return id;
}

static size_t written_of(qs_conn *conn, uint64_t id, size_t len) {
  static uint8_t zeros[1000];
  size_t written = 0;
  uint64_t code;
  SAME(qs_stream_write(conn, id, zeros, len, &written, &code), QS_OK);
  return written;
}

static void room_is(const qs_conn *conn, uint64_t id, uint64_t wanted) {
  uint64_t bytes = 99;
  SAME(qs_stream_send_room(conn, id, &bytes), QS_OK);
  SAME(bytes, wanted);
}

static void no_event(qs_conn *conn) {
  qs_event event;
  SAME(qs_poll(conn, &event), QS_DONE);
}

/* RFC 9000 section 4.1: the limit of the stream, that of all streams, and the
 * send window. */
static void the_room_of_a_stream(void) {
  qs_conn a = open_client(100, 60), closed = QS_CONN_INIT;
  qs_error error;
  size_t written;
  uint64_t bytes = 99, code = 0;
  const uint64_t one = opened(&a, QS_BIDI), two = opened(&a, QS_BIDI);
  room_is(&a, one, 60);
  SAME(written_of(&a, one, 25), 25);
  room_is(&a, one, 35);
  room_is(&a, two, 60);
  SAME(written_of(&a, two, 50), 50);
  room_is(&a, two, 10);
  room_is(&a, one, 25); /* what all streams may have */
  SAME(qs_set_send_window(&a, 80), QS_OK);
  room_is(&a, one, 5); /* what may be buffered */
  room_is(&a, two, 5);
  SAME(written_of(&a, one, 9), 5);
  room_is(&a, one, 0);
  SAME(emit(&a, QS_CONTROL, 100, &(packet){{0}, {0, 0, 0}}), QS_DONE);
  no_event(&a);
  SAME(qs_set_send_window(&a, 1000), QS_OK);
  room_is(&a, two, 10);
  SAME(qs_on_stop_sending(&a, two, 7, &error), QS_OK);
  room_is(&a, two, 0);
  SAME(qs_stream_finish(&a, one, &code), QS_OK);
  SAME(qs_stream_send_room(&a, one, &bytes), QS_ERR_NO_STREAM);
  SAME(qs_stream_send_room(&a, 8, &bytes), QS_ERR_NO_STREAM);
  SAME(qs_stream_send_room(&a, UINT64_C(1) << 62, &bytes), QS_ERR_ARGUMENT);
  SAME(qs_stream_send_room(&closed, one, &bytes), QS_ERR_CLOSED);
  SAME(bytes, 99);
  SAME(qs_conn_close(&a), QS_OK);
  room_is(&a, one, 0);
  SAME(qs_stream_write(&a, one, (const uint8_t *)"x", 1, &written, &code),
       QS_ERR_BLOCKED);
  qs_conn_free(&a);
}

static void writes_with_fin(void) {
  qs_conn a = open_client(100, 10), closed = QS_CONN_INIT;
  const qs_piece pieces[3] = {{(const uint8_t *)"ab", 2},
                              {(const uint8_t *)"", 0},
                              {(const uint8_t *)"cd", 2}};
  qs_error error;
  uint64_t code = 88;
  size_t written = 99;
  packet p;
  uint64_t id = opened(&a, QS_UNI);
  SAME(qs_stream_write_fin(&a, id, (const uint8_t *)"hello world", 11, 1,
                           &written, &code),
       QS_OK);
  SAME(written, 10); /* not all of it: it is not finished */
  SAME(emit(&a, QS_STREAMS, 100, &p), QS_OK);
  SAME_BYTES(p.data, p.head.len, "\x0a\x02\x0ahello worl");
  SAME(qs_stream_write_fin(&a, id, (const uint8_t *)"d", 1, 1, &written, &code),
       QS_ERR_BLOCKED);
  SAME(written, 0);
  SAME(qs_on_max_stream_data(&a, id, 11, &error), QS_OK);
  SAME(qs_stream_write_fin(&a, id, (const uint8_t *)"d", 1, 1, &written, &code),
       QS_OK);
  SAME(written, 1);
  SAME(emit(&a, QS_STREAMS, 100, &p), QS_OK);
  SAME_BYTES(p.data, p.head.len,
             "\x0f\x02\x0a\x01"
             "d");
  SAME(qs_stream_write_fin(&a, id, NULL, 0, 1, &written, &code),
       QS_ERR_NO_STREAM);
  id = opened(&a, QS_UNI);
  SAME(qs_stream_writev(&a, id, pieces, 3, 1, &written, &code), QS_OK);
  SAME(written, 4);
  SAME(emit(&a, QS_STREAMS, 100, &p), QS_OK);
  SAME_BYTES(p.data, p.head.len,
             "\x0b\x06\x04"
             "abcd");
  id = opened(&a, QS_UNI);
  SAME(
      qs_stream_write_fin(&a, id, (const uint8_t *)"no", 2, 0, &written, &code),
      QS_OK);
  SAME(qs_on_stop_sending(&a, id, 77, &error), QS_OK);
  SAME(code, 88);
  SAME(written, 2);
  SAME(qs_stream_write_fin(&a, id, NULL, 0, 1, &written, &code),
       QS_ERR_STOPPED);
  SAME(code, 77);
  SAME(written, 0);
  SAME(qs_stream_reset(&a, id, 77), QS_OK);
  id = opened(&a, QS_UNI);
  SAME(written_of(&a, id, 11), 10);
  SAME(qs_stream_write_fin(&a, id, NULL, 0, 0, &written, &code),
       QS_ERR_BLOCKED);
  SAME(qs_stream_write_fin(&a, id, NULL, 0, 1, &written, &code),
       QS_OK); /* an end needs no credit */
  SAME(emit(&a, QS_STREAMS, 100, &p), QS_OK);
  SAME_BYTES(p.data, p.head.len, "\x0b\x0e\x0a\0\0\0\0\0\0\0\0\0\0");
  written = 99;
  SAME(qs_stream_write_fin(&a, UINT64_C(1) << 62, NULL, 0, 1, &written, &code),
       QS_ERR_ARGUMENT);
  SAME(qs_stream_write_fin(&closed, id, NULL, 0, 1, &written, &code),
       QS_ERR_CLOSED);
  qs_conn_free(&a);
}

/* A datagram that is too long for the host's buffer can still be read: it
 * counts, and the next one raises no event. */
static void a_datagram_that_stays(void) {
  qs_conn b = open_server();
  qs_error error;
  uint8_t got[3000] = {0};
  size_t count = 99;
  qs_event event;
  SAME(qs_on_datagram(&b, got, 2000, &error), QS_OK);
  SAME(qs_poll(&b, &event), QS_OK);
  SAME(event.kind, QS_EVENT_DATAGRAM);
  no_event(&b);
  SAME(qs_datagram_recv(&b, got, 1999, &count), QS_ERR_TOO_SMALL);
  SAME(count, 2000);
  SAME(qs_on_datagram(&b, got, 5, &error), QS_OK);
  no_event(&b);
  SAME(qs_datagram_recv(&b, got, 1999, &count), QS_ERR_TOO_SMALL);
  SAME(qs_on_datagram(&b, got, 2028, &error), QS_OK); /* the oldest goes */
  SAME(qs_datagram_recv(&b, got, 4, &count), QS_ERR_TOO_SMALL);
  SAME(count, 5);
  SAME(qs_datagram_recv(&b, got, 5, &count), QS_OK);
  SAME(qs_datagram_recv(&b, got, sizeof got, &count), QS_OK);
  SAME(count, 2028);
  SAME(qs_datagram_recv(&b, got, sizeof got, &count), QS_DONE);
  SAME(count, 2028);
  qs_conn_free(&b);
}

int main(void) {
  the_room_of_a_stream();
  writes_with_fin();
  a_datagram_that_stays();
  puts("3 tests");
  return 0;
}
