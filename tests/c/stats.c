/* How many frames were sent and received, and how many bytes were lost. */
#include "check.h"

#define COUNT (sizeof(qs_stats) / 8)
#define MOST (COUNT + 3) /* words of the newest host */

static qs_stats stats_of(const qs_conn *conn) {
  qs_stats stats;
  SAME(qs_get_stats(conn, &stats), QS_OK);
  return stats;
}

/* A frame of the peer, as bytes, and what qs_receive returns. */
typedef struct {
  const char *bytes;
  size_t len;
} frame;

#define FRAME(bytes)                                                           \
  { bytes, sizeof bytes - 1 }

static int32_t receive(qs_conn *conn, frame it) {
  size_t next = 0;
  qs_error error;
  return qs_receive(conn, (const uint8_t *)it.bytes, it.len, &next, &error);
}

/* RFC 9000 sections 19.4 to 19.13, RFC 9221 section 4: in the order of the
 * fields, one of the first type, two of the second, and so on. */
static void each_type_has_its_counter(void) {
  static const frame FRAMES[] = {
      FRAME("\x0a\x00\x00"), FRAME("\x04\x04\x00\x00"), FRAME("\x05\x00\x07"),
      FRAME("\x10\x3f"),     FRAME("\x11\x00\x3f"),     FRAME("\x12\x04"),
      FRAME("\x13\x04"),     FRAME("\x14\x3f"),         FRAME("\x15\x00\x3f"),
      FRAME("\x31\x00")};
  qs_conn a = QS_CONN_INIT;
  uint64_t words[MOST], sum = 0;
  SAME(open_end(&a, QS_SERVER, 4, 100, 100), QS_OK);
  for (size_t type = 0; type < 10; type++)
    for (size_t times = 0; times <= type; times++)
      SAME(receive(&a, FRAMES[type]), QS_OK);
  qs_stats stats = stats_of(&a);
  SAME(stats.received_stream, 1);
  SAME(stats.received_reset_stream, 2);
  SAME(stats.received_stop_sending, 3);
  SAME(stats.received_max_data, 4);
  SAME(stats.received_max_stream_data, 5);
  SAME(stats.received_max_streams_bidi, 6);
  SAME(stats.received_max_streams_uni, 7);
  SAME(stats.received_data_blocked, 8);
  SAME(stats.received_stream_data_blocked, 9);
  SAME(stats.received_datagram, 10);
  for (size_t count = 0; count <= MOST; count++) {
    memset(words, 0xa5, sizeof words);
    SAME(qs_get_stats_words(&a, words, count), QS_OK);
    for (size_t at = 0; at < MOST; at++)
      SAME(words[at], at >= count           ? UINT64_C(0xa5a5a5a5a5a5a5a5)
                      : at >= 10 && at < 20 ? at - 9
                                            : 0);
  }
  /* PADDING, PING and STREAMS_BLOCKED are skipped, and no number counts them */
  SAME(receive(&a, (frame)FRAME("\x00\x01\x16\x04\x17\x04")), QS_OK);
  SAME(qs_get_stats_words(&a, words, MOST), QS_OK);
  for (size_t at = 0; at < MOST; at++)
    sum += words[at];
  SAME(sum, 55);
  qs_conn_free(&a);
  SAME(qs_get_stats(&a, &stats), QS_ERR_CLOSED);
  SAME(stats.received_datagram, 10);
}

/* One that breaks the protocol counts, and bytes that are no frame do not. */
static void rejected_frames_count(void) {
  qs_conn a = QS_CONN_INIT;
  SAME(open_end(&a, QS_SERVER, 4, 100, 100), QS_OK);
  /* STREAM_DATA_BLOCKED for a stream on which only this endpoint sends */
  SAME(receive(&a, (frame)FRAME("\x15\x03\x00")), QS_ERR_PROTOCOL);
  SAME(stats_of(&a).received_stream_data_blocked, 1);
  /* a STREAM frame above the limit, and one behind it that is not reached */
  SAME(receive(&a, (frame)FRAME("\x0a\x10\x00\x0a\x00\x00")), QS_ERR_PROTOCOL);
  SAME(stats_of(&a).received_stream, 1);
  SAME(receive(&a, (frame)FRAME("\x0a\x00\x05")), QS_ERR_MALFORMED);
  SAME(stats_of(&a).received_stream, 1);
  qs_conn_free(&a);
}

static void sent_frames_count_again_if_they_are_lost(void) {
  qs_conn a = QS_CONN_INIT;
  uint64_t ids[3];
  size_t written = 0;
  packet data, others;
  SAME(open_end(&a, QS_CLIENT, 4, 100, 100), QS_OK);
  SAME(qs_stream_open(&a, QS_UNI, &ids[0]), QS_OK);
  SAME(qs_stream_open(&a, QS_UNI, &ids[1]), QS_OK);
  SAME(qs_stream_open(&a, QS_BIDI, &ids[2]), QS_OK);
  SAME(write_text(&a, ids[0], "hello", 5, &written), QS_OK);
  SAME(write_text(&a, ids[2], "you", 3, &written), QS_OK);
  for (int i = 0; i < 3; i++)
    SAME(qs_datagram_send(&a, (const uint8_t *)"d", 1, 0), QS_OK);
  SAME(emit(&a, QS_DATAGRAMS | QS_STREAMS, 100, &data), QS_OK);
  SAME(qs_stream_reset(&a, ids[1], 3), QS_OK);
  SAME(qs_stream_stop(&a, ids[2], 3), QS_OK);
  SAME(qs_set_receive_window(&a, 200), QS_OK);
  SAME(qs_set_max_concurrent(&a, QS_BIDI, 20), QS_OK);
  SAME(qs_set_max_concurrent(&a, QS_UNI, 20), QS_OK);
  SAME(emit(&a, QS_ALL, 100, &others), QS_OK);
  qs_stats stats = stats_of(&a);
  SAME(stats.sent_stream, 2);
  SAME(stats.sent_reset_stream, 1);
  SAME(stats.sent_stop_sending, 1);
  SAME(stats.sent_max_data, 1);
  SAME(stats.sent_max_stream_data, 0);
  SAME(stats.sent_max_streams_bidi, 1);
  SAME(stats.sent_max_streams_uni, 1);
  SAME(stats.sent_data_blocked, 0);
  SAME(stats.sent_stream_data_blocked, 0);
  SAME(stats.sent_datagram, 3);
  SAME(stats.lost_bytes, 0);
  SAME(qs_lost(&a, data.head.token), QS_OK);
  SAME(stats_of(&a).lost_bytes, 8);
  SAME(qs_lost(&a, data.head.token), QS_ERR_TOKEN);
  SAME(qs_acked(&a, others.head.token), QS_OK);
  SAME(emit(&a, QS_ALL, 100, &data), QS_OK);
  stats = stats_of(&a);
  SAME(stats.sent_stream, 4);
  SAME(stats.sent_datagram, 3); /* a lost datagram is not sent again */
  SAME(stats.lost_bytes, 8);
  qs_conn_free(&a);
}

int main(void) {
  each_type_has_its_counter();
  rejected_frames_count();
  sent_frames_count_again_if_they_are_lost();
  printf("stats: 3 tests\n");
  return 0;
}
