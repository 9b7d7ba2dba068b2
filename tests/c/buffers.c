/* Buffers and reads that lend: what is handed over without a copy is the same
 * as what is copied, and no call changes a buffer that it refuses. */
#include "check.h"

static int32_t give(qs_conn *conn, qs_buffer *buffer, size_t len, size_t *next,
                    qs_error *error) {
  return qs_receive_buffer(conn, buffer, len, next, error);
}

/* Two ends, of which the first opened a stream to the second. */
typedef struct {
  qs_conn a, b;
  uint64_t id;
} two;

static two open_two(void) {
  two t = {QS_CONN_INIT, QS_CONN_INIT, 0};
  SAME(open_end(&t.a, QS_CLIENT, 4, 1 << 20, 1 << 20), QS_OK);
  SAME(open_end(&t.b, QS_SERVER, 4, 1 << 20, 1 << 20), QS_OK);
  SAME(qs_stream_open(&t.a, QS_UNI, &t.id), QS_OK);
  return t;
}

static void free_two(two *t) {
  qs_conn_free(&t->a);
  qs_conn_free(&t->b);
}

static void a_buffer_grows_and_keeps_its_bytes(void) {
  qs_buffer buffer = QS_BUFFER_INIT;
  SAME(qs_buffer_reserve(&buffer, 0), QS_OK);
  SAME(buffer.live, 1);
  SAME(buffer.len, 0);
  SAME(qs_buffer_reserve(&buffer, 3), QS_OK);
  SAME_BYTES(buffer.data, buffer.len, "\0\0\0");
  memcpy(buffer.data, "abc", 3);
  SAME(qs_buffer_reserve(&buffer, 5), QS_OK);
  SAME_BYTES(buffer.data, buffer.len, "abc\0\0");
  SAME(qs_buffer_reserve(&buffer, 2), QS_OK);
  SAME_BYTES(buffer.data, buffer.len, "abc\0\0");
  SAME(qs_buffer_reserve(&buffer, SIZE_MAX), QS_ERR_NOMEM);
  SAME_BYTES(buffer.data, buffer.len, "abc\0\0");
  qs_buffer_free(&buffer);
  SAME(buffer.live, 0);
  SAME(buffer.len, 0);
  SAME(buffer.data == NULL && buffer.at == NULL, 1);
  SAME(qs_buffer_reserve(&buffer, SIZE_MAX), QS_ERR_NOMEM);
  SAME(buffer.live, 0);
  qs_buffer_free(&buffer);
}

static void a_closed_buffer_is_refused(void) {
  two t = open_two();
  qs_conn none = QS_CONN_INIT;
  qs_buffer closed = QS_BUFFER_INIT, buffer = QS_BUFFER_INIT;
  qs_payload head = {7, 7, 7};
  qs_error error = {7, 0, {0}};
  size_t next = 7, written = 0;
  SAME(write_text(&t.a, t.id, "hello", 5, &written), QS_OK);
  SAME(qs_emit_buffer(&t.a, QS_ALL, 1, 100, &closed, &head), QS_ERR_CLOSED);
  SAME(give(&t.b, &closed, 0, &next, &error), QS_ERR_CLOSED);
  SAME(qs_buffer_reserve(&buffer, 4), QS_OK);
  memcpy(buffer.data, "abcd", 4);
  SAME(qs_emit_buffer(&none, QS_ALL, 1, 100, &buffer, &head), QS_ERR_CLOSED);
  SAME(give(&none, &buffer, 4, &next, &error), QS_ERR_CLOSED);
  SAME(qs_emit_buffer(&t.a, 0, 1, 100, &buffer, &head), QS_ERR_ARGUMENT);
  SAME(qs_emit_buffer(&t.a, 8, 1, 100, &buffer, &head), QS_ERR_ARGUMENT);
  SAME(give(&t.b, &buffer, 5, &next, &error), QS_ERR_ARGUMENT);
  SAME(give(&t.b, &buffer, SIZE_MAX, &next, &error), QS_ERR_ARGUMENT);
  SAME(qs_emit_buffer(&t.b, QS_ALL, 1, 100, &buffer, &head), QS_DONE);
  SAME(qs_emit_buffer(&t.a, QS_ALL, 1, 0, &buffer, &head), QS_DONE);
  SAME_BYTES(buffer.data, buffer.len, "abcd");
  SAME(head.len + head.token + head.ends + next + error.code, 35);
  SAME(qs_emit_buffer(&t.a, QS_ALL, 1, 100, &buffer, &head), QS_OK);
  qs_buffer_free(&buffer);
  free_two(&t);
}

/* What is written into a buffer is what qs_emit writes, and is taken by the
 * other end. */
static void a_payload_goes_over_in_a_buffer(void) {
  two t = open_two();
  qs_buffer buffer = QS_BUFFER_INIT;
  qs_payload head = {0, 0, 0};
  qs_error error = {0, 0, {0}};
  uint64_t id = 0, offset = 9, code = 0;
  uint8_t text[3000], got[3000];
  size_t written = 0, next = 0, count = 0, all = 0;
  for (size_t at = 0; at < sizeof text; at++)
    text[at] = (uint8_t)(at * 7 + at / 256);
  SAME(qs_buffer_reserve(&buffer, 10), QS_OK);
  SAME(write_text(&t.a, t.id, (const char *)text, sizeof text, &written),
       QS_OK);
  SAME(written, sizeof text);
  SAME(qs_stream_finish(&t.a, t.id, &code), QS_OK);
  for (int turn = 0; turn < 3; turn++) {
    SAME(qs_emit_buffer(&t.a, QS_ALL, 1, 1200, &buffer, &head), QS_OK);
    SAME(head.len, buffer.len);
    SAME(head.token, turn + 1);
    SAME(head.ends, turn < 2);
    SAME(buffer.data[0], turn == 0 ? 0x08 : turn == 1 ? 0x0c : 0x0f);
    next = 0;
    SAME(give(&t.b, &buffer, buffer.len, &next, &error), QS_OK);
    SAME(next, head.len);
    SAME(qs_acked(&t.a, head.token), QS_OK);
  }
  SAME(qs_emit_buffer(&t.a, QS_ALL, 1, 1200, &buffer, &head), QS_DONE);
  SAME(qs_stream_accept(&t.b, QS_UNI, &id), QS_OK);
  while (qs_stream_read(&t.b, id, got + all, sizeof got - all + 1, &count,
                        &offset, &code) == QS_OK)
    all += count;
  SAME(all, sizeof text);
  SAME(memcmp(text, got, all), 0);
  qs_buffer_free(&buffer);
  free_two(&t);
}

/* The first bytes of a longer buffer are a payload, also a short one. */
static void a_payload_may_be_shorter_than_its_buffer(void) {
  two t = open_two();
  qs_buffer buffer = QS_BUFFER_INIT;
  qs_error error = {0, 0, {0}};
  uint64_t id = 0, offset = 0, code = 0;
  uint8_t got[8];
  size_t next = 0, count = 0;
  SAME(qs_buffer_reserve(&buffer, 1500), QS_OK);
  memcpy(buffer.data, "\x0b\x02\x05hello junk", 13);
  SAME(give(&t.b, &buffer, 8, &next, &error), QS_OK);
  SAME(next, 8);
  SAME(qs_stream_accept(&t.b, QS_UNI, &id), QS_OK);
  SAME(qs_stream_read(&t.b, 2, got, 8, &count, &offset, &code), QS_OK);
  SAME_BYTES(got, count, "hello");
  SAME(qs_buffer_reserve(&buffer, 1500), QS_OK);
  /* frames of 13 bytes, of which the last has no end */
  memset(buffer.data, 0x0a, buffer.len);
  SAME(buffer.len % 13 > 0, 1);
  next = 0;
  SAME(give(&t.b, &buffer, buffer.len, &next, &error), QS_ERR_MALFORMED);
  SAME(error.code, 7);
  SAME(next, 0);
  SAME(qs_buffer_reserve(&buffer, 4), QS_OK);
  memcpy(buffer.data, "\x10\x05\x10\x06", 4);
  next = 2;
  SAME(give(&t.b, &buffer, 4, &next, &error), QS_OK); /* MAX_DATA, the second */
  SAME(next, 4);
  qs_buffer_free(&buffer);
  free_two(&t);
}

static void hand(qs_conn *conn, uint64_t id, uint64_t offset, const char *text,
                 uint32_t fin) {
  qs_error error = {0, 0, {0}};
  const size_t len = strlen(text);
  SAME(qs_on_stream(conn, id, offset, (const uint8_t *)text, len, fin, len,
                    &error),
       QS_OK);
}

static int32_t lend(qs_conn *conn, uint64_t id, qs_slice *slices, size_t max,
                    size_t *count, uint64_t *offset) {
  uint64_t code = 0;
  return qs_stream_read_lent(conn, id, slices, max, count, offset, &code);
}

/* A read lends the bytes of each frame, in the order of the stream. */
static void a_read_lends_each_frame(void) {
  two t = open_two();
  qs_slice slices[4] = {{NULL, 7, 7}, {NULL, 7, 7}, {NULL, 7, 7}, {NULL, 7, 7}};
  uint64_t id = 0, offset = 9;
  size_t count = 9;
  SAME(lend(&t.b, 2, slices, 4, &count, &offset), QS_ERR_NO_STREAM);
  hand(&t.b, 2, 5, "world", 0);
  hand(&t.b, 2, 0, "hello", 0);
  hand(&t.b, 2, 3, "lo", 0);
  SAME(qs_stream_accept(&t.b, QS_UNI, &id), QS_OK);
  SAME(lend(&t.b, 2, slices, 0, &count, &offset), QS_ERR_TOO_SMALL);
  SAME(lend(&t.b, UINT64_C(1) << 62, slices, 4, &count, &offset),
       QS_ERR_ARGUMENT);
  SAME(count, 9);
  SAME(offset, 9);
  SAME(lend(&t.b, 2, slices, 1, &count, &offset), QS_OK);
  SAME(count, 1);
  SAME(offset, 0);
  SAME_BYTES(qs_slice_data(&slices[0]), slices[0].len, "hello");
  SAME(slices[1].len, 7);
  SAME(lend(&t.b, 2, slices, 4, &count, &offset), QS_DONE);
  SAME(count, 1);
  SAME(offset, 5);
  SAME_BYTES(qs_slice_data(&slices[0]), slices[0].len, "world");
  SAME(lend(&t.b, 2, slices, 4, &count, &offset), QS_DONE);
  SAME(count, 0);
  SAME(offset, 5);
  hand(&t.b, 2, 8, "ld!", 1); /* of which one byte is new */
  SAME(lend(&t.b, 2, slices, 4, &count, &offset), QS_END);
  SAME(count, 1);
  SAME(offset, 10);
  SAME_BYTES(qs_slice_data(&slices[0]), slices[0].len, "!");
  SAME(lend(&t.b, 2, slices, 4, &count, &offset), QS_ERR_NO_STREAM);
  free_two(&t);
}

/* At most 64 frames are lent in one call, and credit is given for them. */
static void a_read_lends_few(void) {
  two t = open_two();
  qs_slice slices[100];
  qs_info info;
  uint64_t id = 0, offset = 0;
  size_t count = 0;
  for (uint64_t at = 0; at < 100; at++)
    hand(&t.b, 2, 20 * at, "twenty bytes of text", 0);
  SAME(qs_stream_accept(&t.b, QS_UNI, &id), QS_OK);
  memset(&info, 0, sizeof info);
  SAME(qs_get_info(&t.b, &info), QS_OK);
  const uint64_t before = info.local_max_data;
  SAME(lend(&t.b, 2, slices, 100, &count, &offset), QS_OK);
  SAME(count, 64);
  SAME(lend(&t.b, 2, slices, 100, &count, &offset), QS_DONE);
  SAME(count, 36);
  SAME(offset, 64 * 20);
  for (size_t at = 0; at < count; at++)
    SAME_BYTES(qs_slice_data(&slices[at]), slices[at].len,
               "twenty bytes of text");
  SAME(qs_get_info(&t.b, &info), QS_OK);
  SAME(info.local_max_data - before, 2000);
  free_two(&t);
}

/* A reset is told as by the other reads, and so is a read out of order. */
static void a_read_that_lends_is_refused_as_others(void) {
  two t = open_two();
  qs_slice slices[4];
  qs_error error = {0, 0, {0}};
  uint64_t id = 0, offset = 9, code = 0;
  size_t count = 9;
  uint8_t got[8];
  hand(&t.b, 2, 0, "hello", 0);
  hand(&t.b, 6, 0, "hello", 0);
  SAME(qs_stream_accept(&t.b, QS_UNI, &id), QS_OK);
  SAME(qs_stream_accept(&t.b, QS_UNI, &id), QS_OK);
  SAME(qs_on_reset_stream(&t.b, 2, 17, 5, &error), QS_OK);
  SAME(qs_stream_read_lent(&t.b, 2, slices, 4, &count, &offset, &code),
       QS_ERR_RESET);
  SAME(code, 17);
  SAME(count, 0);
  SAME(qs_stream_read_unordered(&t.b, 6, got, 3, &count, &offset, &code),
       QS_OK);
  count = 9;
  SAME(lend(&t.b, 6, slices, 4, &count, &offset), QS_ERR_ORDER);
  SAME(count, 9);
  free_two(&t);
}

int main(void) {
  a_buffer_grows_and_keeps_its_bytes();
  a_closed_buffer_is_refused();
  a_payload_goes_over_in_a_buffer();
  a_payload_may_be_shorter_than_its_buffer();
  a_read_lends_each_frame();
  a_read_lends_few();
  a_read_that_lends_is_refused_as_others();
  printf("buffers: 7 tests\n");
  return 0;
}
