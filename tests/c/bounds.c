/* Each number at its bounds, on an open handle: what is above is refused, and
 * nothing else is. */
#include "check.h"

static const uint64_t END = UINT64_C(1) << 62; /* the first that is too great */

static void configs(void) {
  const uint64_t count_end = (UINT64_C(1) << 60) + 1;
  const qs_config good = {QS_CLIENT, 1, 1, 1, 1, 1, 1, 1, 1};
  qs_conn a = QS_CONN_INIT;
  qs_config config = good;
  const uint64_t sides[] = {2, UINT64_C(1) << 32, UINT64_MAX};
  for (size_t i = 0; i < 3; i++) {
    config.side = sides[i];
    SAME(qs_conn_open(&a, &config), QS_ERR_ARGUMENT);
  }
  uint64_t *counts[] = {&config.max_remote_uni, &config.max_remote_bidi};
  for (size_t i = 0; i < 2; i++) {
    config = good;
    *counts[i] = count_end;
    SAME(qs_conn_open(&a, &config), QS_ERR_ARGUMENT);
    *counts[i] = count_end - 1; /* there is no memory for so many */
    SAME(qs_conn_open(&a, &config), QS_ERR_NOMEM);
  }
  uint64_t *windows[] = {&config.receive_window, &config.stream_window};
  for (size_t i = 0; i < 2; i++) {
    config = good;
    *windows[i] = END;
    SAME(qs_conn_open(&a, &config), QS_ERR_ARGUMENT);
    *windows[i] = END - 1;
    SAME(qs_conn_open(&a, &config), QS_OK);
    qs_conn_free(&a);
  }
  const uint64_t tracks[] = {2, UINT64_C(1) << 32, UINT64_MAX};
  for (size_t i = 0; i < 3; i++) {
    config = good;
    config.track_streams = tracks[i];
    SAME(qs_conn_open(&a, &config), QS_ERR_ARGUMENT);
    config.track_streams = i % 2;
    SAME(qs_conn_open(&a, &config), QS_OK);
    qs_conn_free(&a);
  }
  config = good;
  config.send_window = UINT64_MAX;
  config.datagram_receive = UINT64_MAX - 1;
  config.datagram_send = UINT64_MAX;
  SAME(qs_conn_open(&a, &config), QS_OK);
  qs_conn_free(&a);
}

static void limits(qs_conn *a) {
  const qs_peer_limits good = {9, 9, 9, 9, 9, 9, 9};
  for (size_t i = 0; i < 6; i++) {
    qs_peer_limits limits = good;
    uint64_t *each = &limits.initial_max_data + i;
    /* the second and the third are stream limits (section 18.2) */
    const uint64_t most = i == 1 || i == 2 ? UINT64_C(1) << 60 : END - 1;
    *each = most + 1;
    SAME(qs_set_peer_limits(a, &limits), QS_ERR_ARGUMENT);
    *each = most;
    SAME(qs_set_peer_limits(a, &limits), QS_OK);
  }
  const uint64_t sizes[] = {END, UINT64_MAX - 1, QS_NONE, 9};
  for (size_t i = 0; i < 4; i++) {
    qs_peer_limits limits = good;
    size_t size = 0;
    limits.max_datagram = sizes[i];
    SAME(qs_set_peer_limits(a, &limits), QS_OK);
    const int32_t wanted = sizes[i] == QS_NONE ? QS_ERR_DATAGRAMS_OFF : QS_OK;
    SAME(qs_datagram_max_size(a, &size), wanted);
    SAME(size, wanted == QS_OK ? sizes[i] : 0);
  }
}

static void streams(qs_conn *a) {
  uint64_t out = 0, offset = 0, code = 0;
  size_t count = 0;
  int32_t priority = 0;
  uint8_t data[4] = {0};
  SAME(qs_stream_open(a, 2, &out), QS_ERR_ARGUMENT);
  SAME(qs_stream_open(a, UINT32_MAX, &out), QS_ERR_ARGUMENT);
  SAME(qs_stream_accept(a, 2, &out), QS_ERR_ARGUMENT);
  const uint64_t ids[] = {END - 1, END, UINT64_MAX};
  for (size_t i = 0; i < 3; i++) {
    const int32_t wanted = i ? QS_ERR_ARGUMENT : QS_ERR_NO_STREAM;
    SAME(qs_stream_write(a, ids[i], data, 4, &count, &code), wanted);
    SAME(qs_stream_finish(a, ids[i], &code), wanted);
    SAME(qs_stream_reset(a, ids[i], 0), wanted);
    SAME(qs_stream_stop(a, ids[i], 0), wanted);
    SAME(qs_stream_set_priority(a, ids[i], 0), wanted);
    SAME(qs_stream_priority(a, ids[i], &priority), wanted);
    SAME(qs_stream_stopped(a, ids[i], &code), wanted);
    SAME(qs_stream_received_reset(a, ids[i], &code), wanted);
    SAME(qs_stream_read(a, ids[i], data, 4, &count, &out, &code), wanted);
    SAME(qs_stream_read_unordered(a, ids[i], data, 4, &count, &out, &code),
         wanted);
    SAME(qs_stream_read_many(a, ids[i], data, 4, &count, &out, &code), wanted);
  }
  SAME(qs_stream_open(a, QS_BIDI, &out), QS_OK);
  SAME(qs_stream_set_priority(a, out, INT32_MIN), QS_OK);
  SAME(qs_stream_priority(a, out, &priority), QS_OK);
  SAME(priority, INT32_MIN);
  SAME(qs_stream_read(a, out, NULL, 0, &count, &offset, &code),
       QS_ERR_TOO_SMALL);
  SAME(qs_stream_read_many(a, out, NULL, 0, &count, &offset, &code),
       QS_ERR_TOO_SMALL);
  SAME(qs_stream_write(a, out, NULL, 0, &count, &code), QS_OK);
  SAME(count, 0);
  SAME(qs_stream_stop(a, out, END), QS_ERR_ARGUMENT);
  SAME(qs_stream_reset(a, out, END), QS_ERR_ARGUMENT);
  SAME(qs_stream_reset(a, out, END - 1), QS_OK);
}

static void frames(qs_conn *a) {
  qs_error error = {0, 0, {0}};
  SAME(qs_on_stream(a, END, 0, NULL, 0, 0, 0, &error), QS_ERR_ARGUMENT);
  SAME(qs_on_stream(a, 1, END, NULL, 0, 0, 0, &error), QS_ERR_ARGUMENT);
  SAME(qs_on_stream(a, 1, END - 1, (const uint8_t *)"x", 1, 0, 0, &error),
       QS_ERR_PROTOCOL); /* it ends above 2^62 - 1 */
  SAME(qs_on_reset_stream(a, END, 0, 0, &error), QS_ERR_ARGUMENT);
  SAME(qs_on_reset_stream(a, 1, END, 0, &error), QS_ERR_ARGUMENT);
  SAME(qs_on_reset_stream(a, 1, 0, END, &error), QS_ERR_ARGUMENT);
  SAME(qs_on_stop_sending(a, END, 0, &error), QS_ERR_ARGUMENT);
  SAME(qs_on_stop_sending(a, 0, END, &error), QS_ERR_ARGUMENT);
  SAME(qs_on_max_data(a, END, &error), QS_ERR_ARGUMENT);
  SAME(qs_on_max_data(a, END - 1, &error), QS_OK);
  SAME(qs_on_max_stream_data(a, END, 0, &error), QS_ERR_ARGUMENT);
  SAME(qs_on_max_stream_data(a, 0, END, &error), QS_ERR_ARGUMENT);
  SAME(qs_on_max_streams(a, 2, 0, &error), QS_ERR_ARGUMENT);
  SAME(qs_on_max_streams(a, QS_UNI, END, &error), QS_ERR_ARGUMENT);
  SAME(qs_on_max_streams(a, QS_UNI, (UINT64_C(1) << 60) + 1, &error),
       QS_ERR_PROTOCOL); /* FRAME_ENCODING_ERROR (section 19.11) */
  SAME(error.code, 7);
  SAME(qs_on_datagram(a, NULL, 0, &error), QS_OK);
}

static void rest(qs_conn *a) {
  qs_payload payload = {0, 0, 0};
  uint8_t data[64] = {0};
  size_t next = SIZE_MAX;
  qs_error error = {0, 0, {0}};
  SAME(qs_set_send_window(a, UINT64_MAX), QS_OK);
  SAME(qs_set_receive_window(a, END), QS_ERR_ARGUMENT);
  SAME(qs_set_receive_window(a, END - 1), QS_OK);
  SAME(qs_set_max_concurrent(a, 2, 0), QS_ERR_ARGUMENT);
  SAME(qs_set_max_concurrent(a, QS_UNI, END), QS_ERR_ARGUMENT);
  SAME(qs_set_max_concurrent(a, QS_UNI, 0), QS_OK);
  SAME(qs_emit(a, 0, 0, data, sizeof data, &payload), QS_ERR_ARGUMENT);
  SAME(qs_emit(a, 8, 0, data, sizeof data, &payload), QS_ERR_ARGUMENT);
  SAME(qs_emit(a, QS_ALL, 0, NULL, 0, &payload), QS_DONE);
  const uint8_t *lent = data;
  SAME(qs_emit_lent(a, 0, 0, sizeof data, &lent, &payload), QS_ERR_ARGUMENT);
  SAME(qs_emit_lent(a, 8, 0, sizeof data, &lent, &payload), QS_ERR_ARGUMENT);
  SAME(qs_emit_lent(a, QS_ALL, 0, 0, &lent, &payload), QS_DONE);
  SAME(lent == data, 1);
  qs_buffer buffer = QS_BUFFER_INIT;
  qs_slice slice = {data, 1, 1};
  uint64_t offset = 7, code = 7;
  size_t count = 7;
  SAME(qs_buffer_reserve(&buffer, SIZE_MAX), QS_ERR_NOMEM);
  SAME(qs_buffer_reserve(&buffer, 1), QS_OK);
  SAME(qs_emit_buffer(a, 0, 0, SIZE_MAX, &buffer, &payload), QS_ERR_ARGUMENT);
  SAME(qs_emit_buffer(a, UINT32_MAX, 0, 0, &buffer, &payload), QS_ERR_ARGUMENT);
  SAME(qs_emit_buffer(a, QS_ALL, 0, 0, &buffer, &payload), QS_DONE);
  SAME(qs_receive_buffer(a, &buffer, 2, &next, &error), QS_ERR_ARGUMENT);
  SAME(qs_receive_buffer(a, &buffer, SIZE_MAX, &next, &error), QS_ERR_ARGUMENT);
  SAME(qs_receive_buffer(a, &buffer, 1, &next, &error), QS_ERR_ARGUMENT);
  SAME(next == SIZE_MAX, 1);
  qs_buffer_free(&buffer);
  SAME(qs_stream_read_lent(a, END, &slice, 1, &count, &offset, &code),
       QS_ERR_ARGUMENT);
  SAME(qs_stream_read_lent(a, 0, &slice, 0, &count, &offset, &code),
       QS_ERR_TOO_SMALL);
  SAME(slice.memory == data && count + offset + code == 21, 1);
  SAME(qs_acked(a, 0), QS_ERR_TOKEN);
  SAME(qs_lost(a, UINT64_MAX), QS_ERR_TOKEN);
  SAME(qs_receive(a, (const uint8_t *)"\x10\x05", 2, &next, &error),
       QS_ERR_ARGUMENT); /* an offset behind the payload */
  SAME(next == SIZE_MAX, 1);
  next = 3;
  SAME(qs_receive(a, (const uint8_t *)"\x10\x05", 2, &next, &error),
       QS_ERR_ARGUMENT);
  next = 2;
  SAME(qs_receive(a, (const uint8_t *)"\x10\x05", 2, &next, &error), QS_OK);
  SAME(next, 2);
  SAME(qs_datagram_set_max_size(a, UINT64_MAX - 1), QS_OK);
}

/* What is pending is written with so much room, and not with less. */
static void needs(qs_conn *a, uint32_t part, size_t least) {
  packet p;
  qs_due due;
  for (size_t cap = 0; cap < least; cap++) {
    SAME(emit(a, part, cap, &p), QS_DONE);
    SAME(qs_get_due(a, &due), QS_OK);
    SAME(due.control + due.datagrams * 2 + due.streams * 4, part);
  }
  SAME(emit(a, part, least, &p), QS_OK);
}

static void rooms(void) {
  qs_conn a = QS_CONN_INIT;
  uint8_t data[20] = {0};
  uint64_t id = 0, code = 0;
  size_t written = 0;
  SAME(open_end(&a, QS_CLIENT, 4, 1000, 1000), QS_OK);
  SAME(qs_stream_open(&a, QS_BIDI, &id), QS_OK);
  SAME(qs_stream_write(&a, id, data, 1, &written, &code), QS_OK);
  needs(&a, QS_STREAMS, QS_MIN_ROOM);
  SAME(qs_stream_reset(&a, id, 0), QS_OK);
  needs(&a, QS_CONTROL, QS_MIN_ROOM);
  SAME(qs_stream_stop(&a, id, 0), QS_OK);
  needs(&a, QS_CONTROL, 18);
  SAME(qs_set_receive_window(&a, 2000), QS_OK);
  needs(&a, QS_CONTROL, 10);
  SAME(qs_set_max_concurrent(&a, QS_UNI, 9), QS_OK);
  needs(&a, QS_CONTROL, 10);
  SAME(qs_datagram_send(&a, data, 8, 0), QS_OK);
  needs(&a, QS_DATAGRAMS, 10);
  SAME(qs_datagram_send(&a, data, 20, 0), QS_OK);
  needs(&a, QS_DATAGRAMS, 22); /* its type, its length and its data */
  qs_conn_free(&a);
}

int main(void) {
  qs_conn a = QS_CONN_INIT;
  configs();
  rooms();
  SAME(open_end(&a, QS_CLIENT, 4, 1000, 1000), QS_OK);
  limits(&a);
  streams(&a);
  frames(&a);
  rest(&a);
  qs_conn_free(&a);
  printf("bounds: 6 tests\n");
  return 0;
}
