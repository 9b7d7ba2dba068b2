/* What the tests of the C interface share. */
#ifndef CHECK_H
#define CHECK_H
#include "quic_streams.h"

#include <inttypes.h>
#include <stdio.h>
#include <stdlib.h>
#include <string.h>

/* The test fails, and says where and with which numbers, unless both are the
 * same. */
#define SAME(found, wanted)                                                    \
  same((int64_t)(found), (int64_t)(wanted), #found, __FILE__, __LINE__)

static inline void same(int64_t found, int64_t wanted, const char *text,
                        const char *file, int line) {
  if (found == wanted)
    return;
  fprintf(stderr, "%s:%d: %s is %" PRId64 ", not %" PRId64 "\n", file, line,
          text, found, wanted);
  exit(1);
}

static inline void same_bytes(const uint8_t *found, size_t len,
                              const char *wanted, size_t wanted_len,
                              const char *file, int line) {
  if (len == wanted_len && memcmp(found, wanted, len) == 0)
    return;
  fprintf(stderr, "%s:%d: other bytes:", file, line);
  for (size_t i = 0; i < len; i++)
    fprintf(stderr, " %02x", found[i]);
  fprintf(stderr, "\n");
  exit(1);
}

#define SAME_BYTES(found, len, wanted)                                         \
  same_bytes(found, len, wanted, sizeof(wanted) - 1, __FILE__, __LINE__)

/* An end that permits so many streams of each direction and so many bytes in
 * all and on each stream, and is permitted as much. It tracks its streams or
 * does not. */
static inline int32_t open_end_that(qs_conn *conn, uint32_t side,
                                    uint64_t count, uint64_t window,
                                    uint64_t each, uint64_t tracks) {
  qs_config config = {side, count, count, window, window,
                      each, 4096,  4096,  tracks};
  qs_peer_limits limits = {window, count, count, each, each, each, 1200};
  int32_t answer = qs_conn_open(conn, &config);
  return answer == QS_OK ? qs_set_peer_limits(conn, &limits) : answer;
}

static inline int32_t open_end(qs_conn *conn, uint32_t side, uint64_t count,
                               uint64_t window, uint64_t each) {
  return open_end_that(conn, side, count, window, each, 0);
}

/* A payload, or one of length 0 where nothing is due. */
typedef struct {
  uint8_t data[1500];
  qs_payload head;
} packet;

static inline int32_t emit(qs_conn *conn, uint32_t parts, size_t cap,
                           packet *to) {
  qs_payload none = {0, 0, 0};
  to->head = none;
  memset(to->data, 0, sizeof to->data);
  return qs_emit(conn, parts, 1, to->data, cap, &to->head);
}

static inline int32_t deliver(qs_conn *to, const packet *it) {
  size_t next = 0;
  qs_error error = {0, 0, {0}};
  return qs_receive(to, it->data, (size_t)it->head.len, &next, &error);
}

static inline int32_t write_text(qs_conn *conn, uint64_t id, const char *text,
                                 size_t len, size_t *written) {
  uint64_t code = 0;
  return qs_stream_write(conn, id, (const uint8_t *)text, len, written, &code);
}
#endif
