/* Payloads in which frames of the library stand between others. The bytes are
 * those of RFC 9000 section 19, encoded by hand. */
#include "check.h"

static int32_t receive(qs_conn *conn, const char *payload, size_t len,
                       size_t *next, qs_error *error) {
  return qs_receive(conn, (const uint8_t *)payload, len, next, error);
}

static uint64_t may_write(qs_conn *conn) {
  qs_info info;
  memset(&info, 0, sizeof info);
  SAME(qs_get_info(conn, &info), QS_OK);
  return info.write_limit;
}

/* Each type of a frame that is neither the library's nor skipped, in front of
 * MAX_DATA. */
static void the_host_gets_each_other_type(void) {
  size_t others = 0;
  for (unsigned type = 0; type < 256; type++) {
    const int own = type == 4 || type == 5 || (type >= 8 && type <= 0x15) ||
                    type == 0x30 || type == 0x31;
    const int skipped = type <= 1 || type == 0x16 || type == 0x17;
    qs_conn b = QS_CONN_INIT;
    qs_error error = {0, 0, {0}};
    const uint8_t payload[] = {0x10, 0x32, (uint8_t)type, 0x10, 0x33};
    size_t next = 0;
    if (own || skipped)
      continue;
    others++;
    SAME(open_end(&b, QS_SERVER, 4, 10, 10), QS_OK);
    SAME(qs_receive(&b, payload, sizeof payload, &next, &error),
         QS_OTHER_FRAME);
    SAME(next, 2);
    SAME(may_write(&b), 10); /* the send window */
    SAME(qs_receive(&b, payload, sizeof payload, &next, &error),
         QS_OTHER_FRAME);
    SAME(next, 2);
    next = 3;
    SAME(qs_receive(&b, payload, sizeof payload, &next, &error), QS_OK);
    SAME(next, sizeof payload);
    SAME(error.code, 0);
    qs_conn_free(&b);
  }
  SAME(others, 256 - 18 - 4);
}

/* PADDING, PING and STREAMS_BLOCKED are skipped, and the frames of each run are
 * processed in their order. */
static void the_library_goes_on_behind_other_frames(void) {
  qs_conn b = QS_CONN_INIT;
  qs_error error = {0, 0, {0}};
  uint64_t id = 0, offset = 0, code = 0;
  size_t next = 0, count = 0;
  uint8_t text[16] = {0};
  /* ACK | STREAM "he" | PADDING PADDING PING | STREAM "llo" |
   * STREAMS_BLOCKED 2^60 | CRYPTO "x" | STREAMS_BLOCKED 0 | STREAM "!" and FIN
   */
  const char payload[] = "\x02\x00\x00\x00\x00"
                         "\x0a\x02\x02he"
                         "\x00\x00\x01"
                         "\x0e\x02\x02\x03llo"
                         "\x17\xd0\x00\x00\x00\x00\x00\x00\x00"
                         "\x06\x00\x01x"
                         "\x16\x00"
                         "\x0d\x02\x05!";
  const size_t len = sizeof payload - 1;
  SAME(open_end(&b, QS_SERVER, 4, 100, 100), QS_OK);
  SAME(receive(&b, payload, len, &next, &error), QS_OTHER_FRAME);
  SAME(next, 0);
  next = 5;
  SAME(receive(&b, payload, len, &next, &error), QS_OTHER_FRAME);
  SAME(next, 29);
  SAME((uint8_t)payload[next], 6);
  SAME(qs_stream_accept(&b, QS_UNI, &id), QS_OK);
  SAME(id, 2);
  SAME(qs_stream_read(&b, 2, text, sizeof text, &count, &offset, &code), QS_OK);
  SAME_BYTES(text, count, "he");
  SAME(qs_stream_read(&b, 2, text, sizeof text, &count, &offset, &code), QS_OK);
  SAME_BYTES(text, count, "llo");
  SAME(qs_stream_read(&b, 2, text, sizeof text, &count, &offset, &code),
       QS_ERR_BLOCKED);
  next += 4;
  SAME(receive(&b, payload, len, &next, &error), QS_OK);
  SAME(next, len);
  SAME(qs_stream_read(&b, 2, text, sizeof text, &count, &offset, &code), QS_OK);
  SAME_BYTES(text, count, "!");
  SAME(offset, 5);
  SAME(qs_stream_read(&b, 2, text, sizeof text, &count, &offset, &code),
       QS_END);
  SAME(error.code, 0);
  qs_conn_free(&b);
}

/* Nothing of a malformed run is processed, and the runs before it are. */
static void a_malformed_run_changes_nothing(void) {
  static const struct {
    const char *payload;
    size_t len, place;
    uint64_t limit;
  } cases[] = {
      {"\x10\x05\x10\x40", 4, 0, 0},         /* MAX_DATA without its end */
      {"\x10\x05\x00\x10\x06\x10", 6, 3, 5}, /* in the second run */
      {"\x10\x05\x16", 3, 2, 5},             /* STREAMS_BLOCKED without one */
      {"\x17\xd0\x00\x00\x00\x00\x00\x00\x01", 9, 0, 0}, /* 2^60 + 1 */
      {"\x02\x10\x05\x0a\x00\x09", 6, 1, 0}, /* STREAM without its data */
  };
  for (size_t i = 0; i < sizeof cases / sizeof cases[0]; i++) {
    qs_conn b = QS_CONN_INIT;
    qs_error error = {0, 0, {0}};
    const qs_config config = {QS_SERVER, 4, 4, 100, 100, 100, 0, 0, 0};
    const qs_peer_limits limits = {0, 4, 4, 0, 0, 0, QS_NONE};
    size_t next = cases[i].payload[0] == 2; /* behind an ACK */
    SAME(qs_conn_open(&b, &config), QS_OK);
    SAME(qs_set_peer_limits(&b, &limits), QS_OK);
    SAME(receive(&b, cases[i].payload, cases[i].len, &next, &error),
         QS_ERR_MALFORMED);
    SAME(error.code, 7); /* FRAME_ENCODING_ERROR */
    SAME(next, cases[i].place);
    SAME(may_write(&b), cases[i].limit);
    qs_conn_free(&b);
  }
}

/* The frame that is rejected is named by its offset, also in a later run. */
static void a_rejected_frame_is_named_by_its_offset(void) {
  qs_conn b = QS_CONN_INIT;
  qs_error error = {0, 0, {0}};
  size_t next = 0;
  SAME(open_end(&b, QS_SERVER, 1, 10, 10), QS_OK);
  /* eleven bytes of data in the second run, where ten are permitted */
  const char many[] = "\x10\x20\x01\x10\x21\x10\x40\x22\x08\x02hello world";
  SAME(receive(&b, many, sizeof many - 1, &next, &error), QS_ERR_PROTOCOL);
  SAME(error.code, 3); /* FLOW_CONTROL_ERROR */
  SAME(next, 8);
  qs_conn_free(&b);
}

/* A buffer keeps its bytes in front of a frame of the host's. */
static void a_buffer_stays_for_the_host(void) {
  qs_conn b = QS_CONN_INIT;
  qs_buffer buffer = QS_BUFFER_INIT;
  qs_error error = {0, 0, {0}};
  uint64_t id = 0, offset = 0, code = 0;
  size_t next = 0, count = 0;
  static uint8_t text[8192]; /* several chunks are read in one call */
  SAME(open_end(&b, QS_SERVER, 4, 100, 100), QS_OK);
  SAME(qs_buffer_reserve(&buffer, 11), QS_OK);
  memcpy(buffer.data, "\x0a\x02\x02he\x1e\x0d\x02\x02lo", 11);
  const uint8_t *stood = buffer.data;
  SAME(qs_receive_buffer(&b, &buffer, 11, &next, &error), QS_OTHER_FRAME);
  SAME(next, 5);
  SAME(buffer.data == stood, 1);
  SAME_BYTES(buffer.data, buffer.len, "\x0a\x02\x02he\x1e\x0d\x02\x02lo");
  next = 6;
  SAME(qs_receive_buffer(&b, &buffer, 11, &next, &error), QS_OK);
  SAME(next, 11);
  next = 12;
  SAME(qs_receive_buffer(&b, &buffer, 11, &next, &error), QS_ERR_ARGUMENT);
  SAME(next, 12);
  SAME(qs_stream_accept(&b, QS_UNI, &id), QS_OK);
  SAME(qs_stream_read_many(&b, 2, text, sizeof text, &count, &offset, &code),
       QS_END);
  SAME_BYTES(text, count, "helo");
  qs_buffer_free(&buffer);
  SAME(buffer.data == NULL && buffer.len == 0, 1);
  qs_conn_free(&b);
}

/* The library says which version it is, and has a text for the new result. */
static void the_library_is_that_of_the_header(void) {
  SAME(qs_version(), QS_VERSION_NUM);
  SAME(strcmp(qs_strerror(QS_OTHER_FRAME), "frame of another type"), 0);
  SAME(strcmp(qs_strerror(QS_OTHER_FRAME + 1), "unknown return value"), 0);
}

int main(void) {
  the_library_is_that_of_the_header();
  the_host_gets_each_other_type();
  the_library_goes_on_behind_other_frames();
  a_malformed_run_changes_nothing();
  a_rejected_frame_is_named_by_its_offset();
  a_buffer_stays_for_the_host();
  printf("other_frames: 6 tests\n");
  return 0;
}
