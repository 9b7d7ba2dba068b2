/* A harness for libFuzzer and AFL++ over two endpoints: calls and bytes of
 * payloads are drawn from the input.
 *
 * With libFuzzer:
 *
 *     clang -g -fsanitize=fuzzer,address -Iinclude tests/fuzz/two_ends.c \
 *         build/lib/libquic_streams.a -o fuzz
 *     ./fuzz -max_len=4096
 *
 * With AFL++:
 *
 *     afl-clang-fast -DMAIN -Iinclude tests/fuzz/two_ends.c \
 *         build/lib/libquic_streams.a -o two_ends
 *     afl-fuzz -i seeds -o found -- ./two_ends @@
 */
#include "input.h"
#include "quic_streams.h"

#include <string.h>

enum { HELD = 16 };

typedef struct {
  qs_conn conn;
  uint8_t packets[HELD][256];
  qs_payload heads[HELD];
  size_t held;
  qs_buffer buffer;
  uint64_t tracks;
} end;

static void open_end(end *e, uint32_t side) {
  const uint64_t first = take(1), count = first % 16, window = take(2);
  const qs_config config = {side,       count,   count,   take(2),       window,
                            window / 2, take(2), take(2), first / 16 % 2};
  e->tracks = config.track_streams;
  const qs_peer_limits limits = {window,     count,      count,  window / 2,
                                 window / 2, window / 2, take(1)};
  must(qs_conn_open(&e->conn, &config) == QS_OK);
  must(qs_buffer_reserve(&e->buffer, 0) == QS_OK);
  must(qs_set_peer_limits(&e->conn, &limits) == QS_OK);
}

/* Writes a payload into the next packet, copied by the library, from where it
 * is lent, or from a buffer. */
static int32_t emit(end *e, uint32_t parts, uint32_t fair, size_t cap,
                    uint64_t how) {
  uint8_t *packet = e->packets[e->held];
  qs_payload *head = &e->heads[e->held];
  const uint8_t *lent = NULL;
  qs_due due = {0, 0, 0};
  if (how == 0)
    return qs_emit(&e->conn, parts, fair, packet, cap, head);
  if (how == 1) {
    const int32_t answer =
        qs_emit_buffer(&e->conn, parts, fair, cap, &e->buffer, head);
    must(answer != QS_OK || e->buffer.len == head->len);
    if (answer == QS_OK)
      memcpy(packet, e->buffer.data, (size_t)head->len);
    return answer;
  }
  must(qs_get_due(&e->conn, &due) == QS_OK);
  const int32_t answer = qs_emit_lent(&e->conn, parts, fair, cap, &lent, head);
  must(answer != QS_OK || head->len <= cap);
  if (answer == QS_OK)
    memcpy(packet, lent, (size_t)head->len);
  return answer;
}

/* Receives a payload, from where it is or from a buffer. A frame of the host is
 * passed over as one byte. */
static void receive(end *e, const uint8_t *payload, size_t len, int buffered) {
  size_t next = 0;
  qs_error error = {0, 0, {0}};
  if (!buffered) {
    while (qs_receive(&e->conn, payload, len, &next, &error) == QS_OTHER_FRAME)
      must(next++ < len);
    must(next <= len);
    return;
  }
  must(qs_buffer_reserve(&e->buffer, len) == QS_OK && e->buffer.len >= len);
  if (len > 0)
    memcpy(e->buffer.data, payload, len);
  int32_t answer;
  while ((answer = qs_receive_buffer(&e->conn, &e->buffer, len, &next,
                                     &error)) == QS_OTHER_FRAME)
    must(next++ < len && e->buffer.len >= len);
  must(next <= len);
  must(answer != QS_ERR_CLOSED && answer != QS_ERR_ARGUMENT);
}

/* Reads what is lent, and looks at each byte. */
static void read_lent(end *e, uint64_t id, size_t max) {
  qs_slice slices[8];
  uint64_t offset = 0, code = 0;
  size_t count = 0;
  volatile unsigned sum = 0;
  (void)qs_stream_read_lent(&e->conn, id, slices, max, &count, &offset, &code);
  must(count <= max);
  for (size_t at = 0; at < count; at++) {
    must(slices[at].len > 0);
    for (size_t byte = 0; byte < slices[at].len; byte++)
      sum += qs_slice_data(&slices[at])[byte];
  }
  (void)sum;
}

static void call(end *e, end *peer) {
  uint64_t id = take(1) % 64, out = 0, code = 0;
  size_t count = 0, next = 0;
  uint8_t bytes[256] = {0};
  qs_event event = {0, 0, 0, 0, 0};
  qs_info info;
  const uint64_t kind = take(1) % 23;
  switch (kind) {
  case 0:
    (void)qs_stream_open(&e->conn, (uint32_t)id % 2, &out);
    break;
  case 1:
    (void)qs_stream_accept(&e->conn, (uint32_t)id % 2, &out);
    break;
  case 2:
    count = take(1);
    memset(bytes, (int)id, sizeof bytes);
    if (qs_stream_write(&e->conn, id, bytes, count, &next, &code) == QS_OK)
      must(next <= count);
    break;
  case 3:
    (void)qs_stream_finish(&e->conn, id, &code);
    break;
  case 4:
    (void)qs_stream_reset(&e->conn, id, take(1));
    break;
  case 5:
    (void)qs_stream_stop(&e->conn, id, take(1));
    break;
  case 6:
    (void)qs_stream_set_priority(&e->conn, id, (int32_t)take(1) - 128);
    (void)qs_stream_set_user(&e->conn, id, id);
    break;
  case 7:
  case 8: {
    const size_t cap = take(1);
    const int32_t answer =
        kind == 8 ? qs_stream_read_unordered(&e->conn, id, bytes, cap, &count,
                                             &out, &code)
        : cap % 2
            ? qs_stream_read_many(&e->conn, id, bytes, cap, &count, &out, &code)
            : qs_stream_read(&e->conn, id, bytes, cap, &count, &out, &code);
    must(answer != QS_OK || (count > 0 && count <= cap));
    break;
  }
  case 9:
    (void)qs_stream_received_reset(&e->conn, id, &code);
    break;
  case 10:
    (void)qs_set_receive_window(&e->conn, take(2));
    break;
  case 11:
    (void)qs_set_max_concurrent(&e->conn, (uint32_t)id % 2, take(1));
    break;
  case 12:
    if (qs_poll(&e->conn, &event) == QS_OK) {
      must(e->tracks || event.kind != QS_EVENT_CLOSED);
      must(event.user == 0 || (e->tracks && event.user == event.id));
    }
    break;
  case 13:
    (void)qs_datagram_send(&e->conn, bytes, take(1), (uint32_t)id % 2);
    break;
  case 14:
    (void)qs_datagram_recv(&e->conn, bytes, sizeof bytes, &count);
    break;
  case 15: /* bytes that no endpoint wrote */
    for (count = take(1) % 64; next < count; next++)
      bytes[next] = (uint8_t)take(1);
    receive(e, bytes, count, id % 2);
    break;
  case 16:
  case 17:
    if (e->held < HELD) {
      const size_t cap = take(1);
      qs_payload *head = &e->heads[e->held];
      memset(e->packets[e->held], 0, sizeof e->packets[0]);
      memset(head, 0, sizeof *head);
      if (emit(e, 1 + (uint32_t)id % 7, (uint32_t)kind % 2, cap, take(1) % 3) ==
          QS_OK) {
        must(head->len > 0 && head->len <= cap && head->token > 0);
        e->held++;
      }
    }
    break;
  case 18:
  case 19: /* a payload is delivered, perhaps again later */
    if (e->held > 0) {
      const size_t at = (size_t)id % e->held;
      receive(peer, e->packets[at], (size_t)e->heads[at].len, kind == 19);
    }
    break;
  case 20: /* a payload is reported */
    if (e->held > 0) {
      const size_t at = (size_t)id % e->held, last = e->held - 1;
      const uint64_t token = e->heads[at].token;
      must((take(1) % 2 ? qs_acked(&e->conn, token)
                        : qs_lost(&e->conn, token)) == QS_OK);
      must(qs_lost(&e->conn, token) == QS_ERR_TOKEN);
      if (at != last)
        memcpy(e->packets[at], e->packets[last], sizeof e->packets[0]);
      e->heads[at] = e->heads[last];
      e->held = last;
    }
    break;
  case 21:
    read_lent(e, id, (size_t)take(1) % 9);
    break;
  default:
    memset(&info, 0, sizeof info);
    must(qs_get_info(&e->conn, &info) == QS_OK);
    must(info.payloads == e->held && info.data_received <= info.local_max_data);
  }
}

int LLVMFuzzerTestOneInput(const uint8_t *data, size_t size) {
  static end ends[2], none;
  input.at = data;
  input.left = size;
  ends[0] = ends[1] = none;
  open_end(&ends[0], QS_CLIENT);
  open_end(&ends[1], QS_SERVER);
  while (input.left > 0) {
    const size_t who = (size_t)take(1) % 2;
    call(&ends[who], &ends[1 - who]);
  }
  qs_conn_free(&ends[0].conn);
  qs_conn_free(&ends[1].conn);
  qs_buffer_free(&ends[0].buffer);
  qs_buffer_free(&ends[1].buffer);
  return 0;
}
