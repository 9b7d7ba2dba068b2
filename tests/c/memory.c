/* The memory of what was read is used again for what comes, and there is a
 * bound on what is kept of it. Linked as wrapped.h says. */
#include "check.h"
#include "wrapped.h"

enum {
  WINDOW = 1 << 20,
  PIECE = 1100,
  SHORT = 250,
  MOST_ROOM = 2048,
  MOST_KEPT = 1024
};

static uint8_t text[1 << 16];

/* A server that may receive on a stream of the client, which it accepted. */
static void open_window(qs_conn *conn, uint64_t *offset, uint64_t window) {
  qs_error error = {0, 0, {0}};
  uint64_t id = 99;
  SAME(open_end(conn, QS_SERVER, 4, window, window), QS_OK);
  SAME(qs_on_stream(conn, 2, 0, text, 1, 0, 1, &error), QS_OK);
  SAME(qs_stream_accept(conn, QS_UNI, &id), QS_OK);
  *offset = 1;
}

static void open_reader(qs_conn *conn, uint64_t *offset) {
  open_window(conn, offset, WINDOW);
}

/* The next bytes of the stream come. */
static void take_in(qs_conn *conn, uint64_t *offset, size_t len) {
  qs_error error = {0, 0, {0}};
  SAME(qs_on_stream(conn, 2, *offset, text, len, 0, len, &error), QS_OK);
  *offset += len;
}

/* The same, in a payload: a frame of the type STREAM with an offset, that
 * reaches to the end of the payload (RFC 9000 section 19.8). */
static void take_payload(qs_conn *conn, uint64_t *offset, size_t len) {
  uint8_t payload[2000] = {0x0c, 2, 0x80};
  qs_error error = {0, 0, {0}};
  size_t next = 0;
  for (int place = 0; place < 3; place++)
    payload[3 + place] = (uint8_t)(*offset >> (16 - 8 * place));
  memcpy(payload + 6, text, len);
  SAME(qs_receive(conn, payload, len + 6, &next, &error), QS_OK);
  *offset += len;
}

/* The same, in a payload of several frames, each with its length. */
static void take_short_ones(qs_conn *conn, uint64_t *offset, size_t len) {
  uint8_t payload[2000];
  qs_error error = {0, 0, {0}};
  size_t next = 0, end = 0;
  for (int frame = 0; frame < 4; frame++) {
    const uint8_t head[] = {0x0e,
                            2,
                            0x80,
                            (uint8_t)(*offset >> 16),
                            (uint8_t)(*offset >> 8),
                            (uint8_t)*offset,
                            (uint8_t)(0x40 | len >> 8),
                            (uint8_t)len};
    memcpy(payload + end, head, sizeof head);
    memcpy(payload + end + sizeof head, text, len);
    end += sizeof head + len;
    *offset += len;
  }
  SAME(qs_receive(conn, payload, end, &next, &error), QS_OK);
}

static qs_buffer buffer = QS_BUFFER_INIT;

/* The same, in a buffer. */
static void take_buffer(qs_conn *conn, uint64_t *offset, size_t len) {
  qs_error error = {0, 0, {0}};
  size_t next = 0;
  SAME(qs_buffer_reserve(&buffer, len + 6), QS_OK);
  memcpy(buffer.data, "\x0c\x02\x80", 3);
  for (int place = 0; place < 3; place++)
    buffer.data[3 + place] = (uint8_t)(*offset >> (16 - 8 * place));
  memcpy(buffer.data + 6, text, len);
  SAME(qs_receive_buffer(conn, &buffer, len + 6, &next, &error), QS_OK);
  *offset += len;
}

static uint8_t out[1 << 16];

static void take_events(qs_conn *conn) {
  qs_event event = {0, 0, 0, 0, 0};
  while (qs_poll(conn, &event) == QS_OK)
    continue;
}

typedef int32_t reads(qs_conn *conn, uint64_t id, uint8_t *to, size_t cap,
                      size_t *count, uint64_t *offset, uint64_t *app_code);

/* All that is there is read, until the last answer; answers how many bytes. */
static size_t read_by(reads *read, int32_t last, qs_conn *conn) {
  uint64_t at = 0, code = 0;
  size_t count = 0, all = 0;
  int32_t answer = QS_OK;
  take_events(conn);
  while (answer == QS_OK) {
    answer = read(conn, 2, out, sizeof out, &count, &at, &code);
    all += count;
  }
  SAME(answer, last);
  return all;
}

static size_t read_all(qs_conn *conn) {
  return read_by(qs_stream_read_many, QS_DONE, conn);
}

/* The same, without a copy. */
static size_t read_lent(qs_conn *conn) {
  uint64_t at = 0, code = 0;
  size_t count = 0, all = 0;
  int32_t answer = QS_OK;
  qs_slice slices[64];
  take_events(conn);
  while (answer == QS_OK) {
    answer = qs_stream_read_lent(conn, 2, slices, 64, &count, &at, &code);
    for (size_t piece = 0; piece < count; piece++)
      all += slices[piece].len;
  }
  SAME(answer, QS_DONE);
  return all;
}

/* The same, piece by piece. */
static size_t read_pieces(qs_conn *conn) {
  return read_by(qs_stream_read, QS_ERR_BLOCKED, conn);
}

typedef void taken(qs_conn *conn, uint64_t *offset, size_t len);

typedef size_t seen(qs_conn *conn);

/* What comes and is read takes no memory, once as much came before. */
static void takes_none(taken *take, seen *read, size_t len) {
  qs_conn conn = QS_CONN_INIT;
  uint64_t offset = 0;
  open_reader(&conn, &offset);
  for (int round = 0; round < 20; round++) {
    long before = asked;
    for (int frame = 0; frame < 10; frame++)
      take(&conn, &offset, len + (size_t)frame % 4);
    SAME(read(&conn) >= 10 * len, 1);
    if (round > 2)
      SAME(asked - before, 0);
  }
  qs_conn_free(&conn);
  qs_buffer_free(&buffer);
  SAME(held, 0);
}

static void a_frame_takes_no_memory(void) {
  takes_none(take_in, read_all, PIECE);
  takes_none(take_in, read_lent, PIECE);
}

static void a_payload_takes_no_memory(void) {
  takes_none(take_payload, read_all, PIECE);
  takes_none(take_payload, read_lent, PIECE);
}

static void a_buffer_takes_no_memory(void) {
  takes_none(take_buffer, read_all, PIECE);
  takes_none(take_buffer, read_lent, PIECE);
}

static void short_frames_take_no_memory(void) {
  takes_none(take_in, read_all, SHORT);
  takes_none(take_in, read_lent, SHORT);
  takes_none(take_short_ones, read_all, SHORT);
  takes_none(take_short_ones, read_lent, SHORT);
}

/* So many frames come and are read; answers how many pieces of memory are held
 * then, over those before. */
static long kept_of(qs_conn *conn, uint64_t *offset, size_t frames,
                    size_t len) {
  take_events(conn);
  long before = held;
  for (size_t frame = 0; frame < frames; frame++)
    take_in(conn, offset, len);
  SAME(held - before >= (long)frames, 1);
  SAME(read_pieces(conn), frames * len);
  return held - before;
}

/* Of long pieces that were read none is kept. */
static void a_long_piece_is_not_kept(void) {
  qs_conn conn = QS_CONN_INIT;
  uint64_t offset = 0;
  open_reader(&conn, &offset);
  read_all(&conn);
  SAME(kept_of(&conn, &offset, 100, 4096) < 10, 1);
  qs_conn_free(&conn);
  SAME(held, 0);
}

/* Of others as many are kept as the receive window has room for. A smaller
 * window lets them go. */
static void a_window_of_pieces_is_kept(size_t len) {
  qs_conn conn = QS_CONN_INIT;
  uint64_t offset = 0;
  open_reader(&conn, &offset);
  read_all(&conn);
  long before = held, most = WINDOW / MOST_ROOM;
  long kept = kept_of(&conn, &offset, 900, len);
  SAME(kept >= most && kept < most + 10, 1);
  SAME(qs_set_receive_window(&conn, WINDOW / 2), QS_OK);
  SAME(held - before < 10, 1);
  qs_conn_free(&conn);
  SAME(held, 0);
}

/* Of a window that has room for more, so many are kept. */
static void few_pieces_are_kept(size_t len) {
  qs_conn conn = QS_CONN_INIT;
  uint64_t offset = 0;
  open_window(&conn, &offset, 4 * WINDOW);
  read_all(&conn);
  long kept = kept_of(&conn, &offset, 1500, len);
  SAME(kept >= MOST_KEPT && kept < MOST_KEPT + 10, 1);
  qs_conn_free(&conn);
  SAME(held, 0);
}

/* Short bytes take no long piece. */
static void a_short_frame_takes_its_own_memory(void) {
  qs_conn conn = QS_CONN_INIT;
  uint64_t offset = 0;
  open_reader(&conn, &offset);
  for (int frame = 0; frame < 10; frame++)
    take_in(&conn, &offset, PIECE);
  read_all(&conn);
  for (size_t len = 1; len < PIECE * 4 / 5; len *= 2) {
    long before = asked;
    take_in(&conn, &offset, len);
    SAME(asked - before >= 1, 1);
  }
  qs_conn_free(&conn);
  SAME(held, 0);
}

/* Frames of another length than before use the memory again, too. */
static void another_length_is_kept_in_time(void) {
  qs_conn conn = QS_CONN_INIT;
  uint64_t offset = 0;
  open_reader(&conn, &offset);
  for (size_t len = PIECE; len < 2000; len += 400) {
    for (int round = 0; round < 20; round++) {
      long before = asked;
      for (int frame = 0; frame < 10; frame++)
        take_in(&conn, &offset, len);
      SAME(read_all(&conn) >= 10 * len, 1);
      if (round > 12)
        SAME(asked - before, 0);
    }
  }
  qs_conn_free(&conn);
  SAME(held, 0);
}

int main(void) {
  a_frame_takes_no_memory();
  a_payload_takes_no_memory();
  a_buffer_takes_no_memory();
  short_frames_take_no_memory();
  a_long_piece_is_not_kept();
  a_window_of_pieces_is_kept(PIECE);
  a_window_of_pieces_is_kept(SHORT);
  few_pieces_are_kept(PIECE);
  few_pieces_are_kept(SHORT);
  a_short_frame_takes_its_own_memory();
  another_length_is_kept_in_time();
  printf("memory: 9 tests\n");
  return 0;
}
