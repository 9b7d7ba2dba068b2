/* What a closed buffer shows, and writes on a stream that the peer stopped. */
#include "check.h"

/* A closed buffer has neither data nor a length, whatever is called, and a call
 * on a closed handle leaves a buffer as it is. */
static void closed_buffers_have_no_bytes(void) {
  qs_conn a = QS_CONN_INIT, closed = QS_CONN_INIT;
  qs_buffer buffer = QS_BUFFER_INIT;
  qs_payload head = {0, 0, 0};
  qs_error error = {0, 0, {0}};
  size_t next = 0;
  SAME(open_end(&a, QS_CLIENT, 4, 100, 100), QS_OK);
  SAME(qs_buffer_reserve(&buffer, SIZE_MAX), QS_ERR_NOMEM);
  SAME(buffer.data == NULL && buffer.len == 0, 1);
  SAME(qs_emit_buffer(&a, QS_ALL, 0, 100, &buffer, &head), QS_ERR_CLOSED);
  SAME(buffer.data == NULL && buffer.len == 0, 1);
  SAME(qs_receive_buffer(&a, &buffer, 0, &next, &error), QS_ERR_CLOSED);
  SAME(buffer.data == NULL && buffer.len == 0, 1);
  SAME(qs_buffer_reserve(&buffer, 20), QS_OK);
  const qs_buffer was = buffer;
  SAME(qs_emit_buffer(&closed, QS_ALL, 0, 100, &buffer, &head), QS_ERR_CLOSED);
  SAME(qs_receive_buffer(&closed, &buffer, 20, &next, &error), QS_ERR_CLOSED);
  SAME(memcmp(&was, &buffer, sizeof was), 0);
  SAME(qs_buffer_reserve(&buffer, SIZE_MAX), QS_ERR_NOMEM);
  SAME(buffer.len, 20);
  SAME(qs_buffer_reserve(&buffer, 20), QS_OK);
  qs_buffer_free(&buffer);
  SAME(buffer.data == NULL && buffer.len == 0, 1);
  qs_conn_free(&a);
}

/* A peer that cancels while the connection has no credit left is seen by the
 * writer. */
static void a_stopped_stream_is_seen_without_credit(void) {
  qs_conn a = QS_CONN_INIT;
  qs_error error = {0, 0, {0}};
  uint64_t ids[2] = {9, 9}, code = 0;
  size_t written = 0;
  packet p;
  SAME(open_end(&a, QS_CLIENT, 4, 10, 10), QS_OK);
  for (int i = 0; i < 2; i++)
    SAME(qs_stream_open(&a, QS_BIDI, &ids[i]), QS_OK);
  SAME(write_text(&a, ids[0], "hello world", 11, &written), QS_OK);
  SAME(written, 10);
  for (int i = 0; i < 2; i++)
    SAME(qs_stream_write(&a, ids[i], (const uint8_t *)"x", 1, &written, &code),
         QS_ERR_BLOCKED);
  SAME(code, 0);
  for (int i = 0; i < 2; i++)
    SAME(qs_on_stop_sending(&a, ids[i], 7 + (uint64_t)i, &error), QS_OK);
  for (int i = 0; i < 2; i++) {
    SAME(qs_stream_write(&a, ids[i], (const uint8_t *)"x", 1, &written, &code),
         QS_ERR_STOPPED);
    SAME(code, 7 + i);
  }
  SAME(written, 10);
  SAME(qs_stream_reset(&a, ids[1], 3), QS_OK);
  SAME(emit(&a, QS_CONTROL, 100, &p), QS_OK);
  SAME(p.data[0], 4); /* RESET_STREAM, with the final size */
  SAME(qs_conn_close(&a), QS_OK);
  SAME(qs_stream_write(&a, ids[0], (const uint8_t *)"x", 1, &written, &code),
       QS_ERR_STOPPED);
  qs_conn_free(&a);
}

int main(void) {
  closed_buffers_have_no_bytes();
  a_stopped_stream_is_seen_without_credit();
  printf("stopped: 2 tests\n");
  return 0;
}
