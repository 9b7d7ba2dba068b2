/* Each field of each struct, and each argument, by a number of its own: where
 * two of the library's are another way round than those of the header, another
 * number comes back. */
#include "check.h"

static uint8_t zeros[1000];

static qs_conn open_server(void) {
  qs_conn server = QS_CONN_INIT;
  qs_config config;
  qs_peer_limits limits;
  config.side = QS_SERVER;
  config.max_remote_uni = 3;
  config.max_remote_bidi = 5;
  config.send_window = 700;
  config.receive_window = 900;
  config.stream_window = 400;
  config.datagram_receive = 1000;
  config.datagram_send = 500;
  config.track_streams = 1;
  limits.initial_max_data = 600;
  limits.initial_max_streams_bidi = 2;
  limits.initial_max_streams_uni = 4;
  limits.initial_max_stream_data_uni = 50;
  limits.initial_max_stream_data_bidi_local = 60;
  limits.initial_max_stream_data_bidi_remote = 70;
  limits.max_datagram = 80;
  SAME(qs_conn_open(&server, &config), QS_OK);
  SAME(qs_set_peer_limits(&server, &limits), QS_OK);
  return server;
}

static qs_info info_of(qs_conn *conn) {
  qs_info info;
  SAME(qs_get_info(conn, &info), QS_OK);
  return info;
}

/* A STREAM frame of so many zeros. */
static int32_t data(qs_conn *conn, uint64_t id, uint64_t offset, size_t len,
                    uint64_t *error_code) {
  qs_error error;
  const int32_t result =
      qs_on_stream(conn, id, offset, zeros, len, 0, len, &error);
  *error_code = result == QS_ERR_PROTOCOL ? error.code : 0;
  return result;
}

static size_t write_zeros(qs_conn *conn, uint64_t id, size_t len) {
  size_t written;
  uint64_t code;
  SAME(qs_stream_write(conn, id, zeros, len, &written, &code), QS_OK);
  return written;
}

static void a_configuration(void) {
  qs_conn server = open_server();
  uint64_t code;
  qs_info info = info_of(&server);
  SAME(info.max_concurrent_bidi, 5);
  SAME(info.max_concurrent_uni, 3);
  SAME(info.max_remote_bidi, 5);
  SAME(info.max_remote_uni, 3);
  SAME(info.local_max_data, 900);
  SAME(info.write_limit, 600);
  SAME(data(&server, 20, 0, 1, &code), QS_ERR_PROTOCOL);
  SAME(code, 4); /* STREAM_LIMIT_ERROR: a sixth bidirectional stream */
  SAME(data(&server, 14, 0, 1, &code), QS_ERR_PROTOCOL);
  SAME(code, 4); /* and a fourth unidirectional one */
  SAME(data(&server, 0, 0, 401, &code), QS_ERR_PROTOCOL);
  SAME(code, 3); /* FLOW_CONTROL_ERROR: more than a stream may have */
  SAME(data(&server, 0, 0, 400, &code), QS_OK);
  SAME(data(&server, 4, 0, 400, &code), QS_OK);
  SAME(data(&server, 8, 0, 101, &code), QS_ERR_PROTOCOL);
  SAME(code, 3); /* more than all may have */
  SAME(data(&server, 8, 0, 99, &code), QS_OK);
  SAME(data(&server, 2, 0, 1, &code), QS_OK);
  info = info_of(&server);
  SAME(info.data_received, 900);
  SAME(info.next_remote_bidi, 3);
  SAME(info.next_remote_uni, 1);
  SAME(info.remote_open_bidi, 3);
  SAME(info.remote_open_uni, 1);
  qs_conn_free(&server);
}

static void limits_of_the_peer(void) {
  qs_conn server = open_server();
  uint64_t id = 0, code;
  SAME(data(&server, 0, 0, 1, &code), QS_OK);
  SAME(qs_stream_accept(&server, QS_BIDI, &id), QS_OK);
  SAME(id, 0);
  SAME(qs_stream_accept(&server, QS_UNI, &id), QS_DONE);
  for (uint64_t index = 0; index < 2; index++) {
    SAME(qs_stream_open(&server, QS_BIDI, &id), QS_OK);
    SAME(id, qs_id(QS_SERVER, QS_BIDI, index));
  }
  SAME(qs_stream_open(&server, QS_BIDI, &id), QS_DONE);
  for (uint64_t index = 0; index < 4; index++) {
    SAME(qs_stream_open(&server, QS_UNI, &id), QS_OK);
    SAME(id, qs_id(QS_SERVER, QS_UNI, index));
  }
  SAME(qs_stream_open(&server, QS_UNI, &id), QS_DONE);
  SAME(write_zeros(&server, 3, 100), 50); /* opened here, one way */
  SAME(write_zeros(&server, 0, 100), 60); /* opened by the peer */
  SAME(write_zeros(&server, 1, 100), 70); /* opened here, both ways */
  qs_info info = info_of(&server);
  SAME(info.write_limit, 420);
  SAME(info.send_streams, 7);
  SAME(info.can_send_stream_data, 1);
  SAME(qs_set_send_window(&server, 300), QS_OK);
  SAME(info_of(&server).write_limit, 120);
  qs_conn_free(&server);
}

static void datagrams(void) {
  qs_conn server = open_server();
  qs_error error;
  qs_event event;
  uint8_t got[1000];
  size_t size = 0;
  SAME(qs_datagram_max_size(&server, &size), QS_OK);
  SAME(size, 80);
  SAME(qs_datagram_send_space(&server, &size), QS_OK);
  SAME(size, 468);
  SAME(qs_datagram_send(&server, zeros, 81, 0), QS_ERR_TOO_LARGE);
  SAME(qs_on_datagram(&server, zeros, 969, &error), QS_ERR_PROTOCOL);
  SAME(error.code, 10); /* PROTOCOL_VIOLATION (RFC 9221 section 3) */
  SAME(qs_on_datagram(&server, zeros, 968, &error), QS_OK);
  SAME(qs_poll(&server, &event), QS_OK);
  SAME(event.kind, QS_EVENT_DATAGRAM);
  SAME(qs_datagram_recv(&server, got, 967, &size), QS_ERR_TOO_SMALL);
  SAME(qs_datagram_recv(&server, got, sizeof got, &size), QS_OK);
  SAME(size, 968);
  for (int times = 0; times < 4; times++)
    SAME(qs_datagram_send(&server, zeros, 80, 0), QS_OK);
  SAME(qs_datagram_send(&server, zeros, 80, 0), QS_ERR_BLOCKED);
  SAME(qs_datagram_send(&server, zeros, 80, 1), QS_OK);
  SAME(qs_datagram_set_max_size(&server, 79), QS_OK);
  SAME(qs_poll(&server, &event), QS_OK);
  SAME(event.kind, QS_EVENT_DATAGRAM_ROOM);
  SAME(qs_datagram_set_max_size(&server, QS_NONE), QS_OK);
  SAME(qs_datagram_send(&server, zeros, 1, 0), QS_ERR_DATAGRAMS_OFF);
  qs_conn_free(&server);
}

/* Frames of RFC 9000 section 19, from numbers that differ. */
static void frames_that_are_sent(void) {
  qs_conn server = open_server();
  uint64_t code;
  packet p;
  qs_due due;
  SAME(data(&server, 4, 0, 1, &code), QS_OK);
  SAME(qs_stream_accept(&server, QS_BIDI, &code), QS_OK);
  SAME(qs_stream_accept(&server, QS_BIDI, &code), QS_OK);
  SAME(write_zeros(&server, 4, 9), 9);
  SAME(qs_stream_reset(&server, 4, 11), QS_OK);
  SAME(emit(&server, QS_CONTROL, 100, &p), QS_OK);
  SAME_BYTES(p.data, p.head.len, "\x04\x04\x0b\x09"); /* as written */
  SAME(p.head.token, 1);
  SAME(p.head.ends, 0);
  SAME(qs_stream_stop(&server, 0, 12), QS_OK);
  SAME(qs_set_max_concurrent(&server, QS_UNI, 13), QS_OK);
  SAME(qs_set_receive_window(&server, 1200), QS_OK);
  SAME(qs_get_due(&server, &due), QS_OK);
  SAME(due.control * 100 + due.datagrams * 10 + due.streams, 100);
  SAME(info_of(&server).has_pending, 1);
  SAME(emit(&server, QS_ALL, 100, &p), QS_OK);
  SAME_BYTES(p.data, p.head.len, "\x05\x00\x0c\x10\x44\xb0\x13\x0d");
  SAME(p.head.token, 2);
  SAME(info_of(&server).payloads, 2);
  SAME(info_of(&server).max_concurrent_uni, 13);
  SAME(info_of(&server).local_max_data, 1200);
  SAME(qs_datagram_send(&server, zeros, 2, 0), QS_OK);
  SAME(qs_get_due(&server, &due), QS_OK);
  SAME(due.control * 100 + due.datagrams * 10 + due.streams, 10);
  SAME(emit(&server, QS_DATAGRAMS, 100, &p), QS_OK);
  SAME_BYTES(p.data, p.head.len, "\x31\x02\x00\x00");
  SAME(qs_stream_open(&server, QS_UNI, &code), QS_OK);
  SAME(write_zeros(&server, 3, 40), 40);
  SAME(qs_get_due(&server, &due), QS_OK);
  SAME(due.control * 100 + due.datagrams * 10 + due.streams, 1);
  SAME(emit(&server, QS_STREAMS, QS_MIN_ROOM, &p), QS_OK);
  SAME(p.head.len * 10 + p.head.ends, QS_MIN_ROOM * 10 + 1);
  SAME(p.head.token, 4);
  qs_conn_free(&server);
}

static void frames_that_are_received(void) {
  qs_conn server = open_server();
  qs_event event;
  qs_error error;
  uint64_t id, code, offset;
  uint8_t got[8];
  size_t count;
  SAME(qs_stream_open(&server, QS_BIDI, &id), QS_OK);
  SAME(qs_on_stop_sending(&server, 1, 33, &error), QS_OK);
  SAME(qs_poll(&server, &event), QS_OK);
  SAME(event.kind, QS_EVENT_STOPPED);
  SAME(event.dir, QS_BIDI);
  SAME(event.id, 1);
  SAME(event.app_code, 33);
  SAME(qs_stream_stopped(&server, 1, &code), QS_OK);
  SAME(code, 33);
  SAME(qs_on_reset_stream(&server, 2, 44, 55, &error), QS_OK);
  SAME(qs_poll(&server, &event), QS_OK);
  SAME(event.kind, QS_EVENT_OPENED);
  SAME(event.dir, QS_UNI);
  SAME(qs_stream_accept(&server, QS_UNI, &id), QS_OK);
  SAME(info_of(&server).data_received, 55);
  SAME(qs_stream_read(&server, 2, got, 8, &count, &offset, &code),
       QS_ERR_RESET);
  SAME(code, 44);
  SAME(count, 0);
  SAME(data(&server, 6, 0, 3, &code), QS_OK);
  SAME(data(&server, 6, 3, 4, &code), QS_OK);
  SAME(qs_stream_accept(&server, QS_UNI, &id), QS_OK);
  SAME(qs_stream_read(&server, 6, got, 2, &count, &offset, &code), QS_OK);
  SAME(count * 10 + offset, 20);
  SAME(qs_stream_read(&server, 6, got, 8, &count, &offset, &code), QS_OK);
  SAME(offset, 2);
  SAME(qs_on_max_streams(&server, QS_UNI, 6, &error), QS_OK);
  SAME(qs_on_max_streams(&server, QS_BIDI, 9, &error), QS_OK);
  SAME(qs_on_max_data(&server, 10000, &error), QS_OK);
  SAME(info_of(&server).write_limit, 700);
  SAME(qs_stream_open(&server, QS_UNI, &id), QS_OK);
  SAME(qs_on_max_stream_data(&server, 3, 90, &error), QS_OK);
  SAME(write_zeros(&server, 3, 100), 90);
  SAME(qs_stream_set_priority(&server, 3, -7), QS_OK);
  int32_t priority;
  SAME(qs_stream_priority(&server, 3, &priority), QS_OK);
  SAME(priority, -7);
  qs_conn_free(&server);
}

/* Several pieces in one write, up to a limit, and FIN after the last. */
static void a_write_of_pieces(void) {
  qs_conn server = open_server();
  const uint8_t text[] = "abcdef";
  const qs_piece pieces[] = {{text, 2}, {NULL, 0}, {text + 2, 4}};
  const qs_piece much[] = {{zeros, 30}, {zeros, 30}};
  uint64_t id, code = 5;
  size_t written = 5;
  packet p;
  SAME(qs_stream_writev(&server, 3, pieces, 3, 1, &written, &code),
       QS_ERR_NO_STREAM);
  SAME(written, 0);
  SAME(qs_stream_open(&server, QS_UNI, &id), QS_OK);
  SAME(qs_stream_writev(&server, 3, pieces, 3, 1, &written, &code), QS_OK);
  SAME(written, 6);
  SAME(emit(&server, QS_STREAMS, 100, &p), QS_OK);
  SAME_BYTES(p.data, p.head.len,
             "\x0b\x03\x06"
             "abcdef");
  SAME(qs_stream_open(&server, QS_UNI, &id), QS_OK);
  SAME(qs_stream_writev(&server, 7, much, 2, 1, &written, &code),
       QS_ERR_BLOCKED);
  SAME(written, 50);
  SAME(qs_stream_writev(&server, 7, NULL, 0, 1, &written, &code), QS_OK);
  SAME(written, 0);
  SAME(qs_stream_writev(&server, 7, NULL, 0, 1, &written, &code),
       QS_ERR_NO_STREAM);
  qs_conn_free(&server);
}

static void names_and_numbers(void) {
  SAME(strcmp(QS_VERSION, "0.1.0"), 0);
  SAME(QS_VERSION_NUM, 0x000100);
  SAME(strcmp(qs_strerror(QS_OK), "ok"), 0);
  SAME(strcmp(qs_strerror(QS_END), "end of stream"), 0);
  SAME(strcmp(qs_strerror(QS_ERR_CLOSED), "closed handle"), 0);
  SAME(strcmp(qs_strerror(QS_ERR_ORDER), "ordered read after unordered read"),
       0);
  SAME(strcmp(qs_strerror(QS_ERR_TOO_SMALL), "buffer too small"), 0);
  SAME(strcmp(qs_strerror(-16), "unknown return value"), 0);
  SAME(strcmp(qs_strerror(INT32_MAX), "unknown return value"), 0);
  SAME(QS_WINDOW_FOR(1200, 10), 12288000);
  SAME(qs_id(QS_SERVER, QS_UNI, 5), 23);
  SAME(qs_id_index(23), 5);
  SAME(qs_id_is_uni(23) + qs_id_is_server(23), 2);
  SAME(qs_id_is_uni(4) + qs_id_is_server(4), 0);
}

int main(void) {
  a_configuration();
  limits_of_the_peer();
  datagrams();
  frames_that_are_sent();
  frames_that_are_received();
  a_write_of_pieces();
  names_and_numbers();
  printf("distinct: 7 tests\n");
  return 0;
}
