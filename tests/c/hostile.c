/* Hostile payloads: random bytes, and frames with random fields. Whatever
 * comes, each answer is one that the header names, what is permitted is kept,
 * and the end goes on. */
#include "check.h"

static uint64_t seed = 1;

static uint64_t draw(uint64_t below) {
  seed = seed * UINT64_C(6364136223846793005) + UINT64_C(1442695040888963407);
  return (seed >> 20) % below;
}

/* A number of RFC 9000 section 16, mostly small. */
static size_t put_number(uint8_t *to) {
  const uint64_t value = draw(4) ? draw(70) : draw(UINT64_C(1) << 43) << 19;
  const unsigned width = value < 64 ? (unsigned)draw(4) : 3;
  const size_t len = (size_t)1 << width;
  for (size_t i = 0; i < len; i++)
    to[i] = (uint8_t)(value >> (8 * (len - 1 - i)));
  to[0] = (uint8_t)((to[0] & 0x3f) | width << 6);
  return len;
}

static size_t frame(uint8_t *to) {
  static const uint8_t kinds[] = {0x04, 0x05, 0x08, 0x09, 0x0a, 0x0b, 0x0c,
                                  0x0d, 0x0e, 0x0f, 0x10, 0x11, 0x12, 0x13,
                                  0x14, 0x15, 0x30, 0x31, 0x00, 0xff};
  size_t len = 1;
  to[0] = kinds[draw(sizeof kinds)];
  for (uint64_t numbers = draw(5); numbers > 0; numbers--)
    len += put_number(to + len);
  for (uint64_t bytes = draw(20); bytes > 0; bytes--)
    to[len++] = (uint8_t)draw(256);
  return len;
}

static void check_answer(int32_t answer, const qs_error *error, size_t next) {
  switch (answer) {
  case QS_OK:
    return;
  case QS_ERR_PROTOCOL:
  case QS_ERR_MALFORMED:
    SAME(error->code > 0 && error->code <= 16, 1);
    SAME(error->reason_len <= sizeof error->reason, 1);
    return;
  default:
    fprintf(stderr, "answer %d at byte %zu\n", (int)answer, next);
    exit(1);
  }
}

/* The application reads, and answers what is due. */
static void act(qs_conn *conn) {
  qs_event event = {0, 0, 0, 0, 0};
  uint64_t id = 0, offset = 0, code = 0;
  size_t count = 0;
  uint8_t data[64] = {0};
  packet p;
  while (qs_poll(conn, &event) == QS_OK)
    if (event.kind == QS_EVENT_OPENED)
      while (qs_stream_accept(conn, event.dir, &id) == QS_OK)
        (void)qs_stream_write(conn, id, data, 8, &count, &code);
    else if (event.kind == QS_EVENT_READABLE)
      (void)(draw(2)
                 ? qs_stream_read(conn, event.id, data, sizeof data, &count,
                                  &offset, &code)
                 : qs_stream_read_unordered(conn, event.id, data, sizeof data,
                                            &count, &offset, &code));
  (void)qs_datagram_recv(conn, data, sizeof data, &count);
  if (emit(conn, QS_ALL, 200, &p) == QS_OK)
    SAME(draw(2) ? qs_acked(conn, p.head.token) : qs_lost(conn, p.head.token),
         QS_OK);
}

int main(int argc, char **argv) {
  uint64_t payloads = argc > 1 ? strtoull(argv[1], NULL, 10) : 1000000;
  uint64_t taken = 0;
  qs_conn conn = QS_CONN_INIT;
  SAME(open_end(&conn, QS_SERVER, 8, 2000, 500), QS_OK);
  for (uint64_t n = 0; n < payloads; n++) {
    uint8_t payload[512];
    size_t len = 0, next = 0;
    qs_error error = {0, 0, {0}};
    if (draw(4) == 0)
      for (uint64_t bytes = draw(60); bytes > 0; bytes--)
        payload[len++] = (uint8_t)draw(256);
    else
      for (uint64_t frames = draw(6); frames > 0; frames--)
        len += frame(payload + len);
    int32_t answer = qs_receive(&conn, payload, len, &next, &error);
    while (answer == QS_OTHER_FRAME) { /* taken for a frame of one byte */
      SAME(next < len, 1);
      next++;
      answer = qs_receive(&conn, payload, len, &next, &error);
    }
    SAME(next <= len && (answer != QS_OK || next == len), 1);
    check_answer(answer, &error, next);
    taken += answer == QS_OK;
    if (draw(8) == 0)
      act(&conn);
    qs_info info;
    memset(&info, 0, sizeof info);
    SAME(qs_get_info(&conn, &info), QS_OK);
    SAME(info.data_received <= info.local_max_data, 1);
    if (draw(2000) == 0) { /* another connection */
      qs_conn_free(&conn);
      SAME(open_end(&conn, draw(2) ? QS_SERVER : QS_CLIENT, draw(20),
                    draw(5000), draw(5000)),
           QS_OK);
    }
  }
  qs_conn_free(&conn);
  SAME(payloads < 1000 || (taken > payloads / 100 && taken < payloads), 1);
  printf("hostile: %" PRIu64 " payloads, %" PRIu64 " taken whole\n", payloads,
         taken);
  return 0;
}
