/* Structs that grow: hosts with fewer numbers than the library knows and with
 * more. Word by word, each number stands where the header has its field. */
#include "check.h"

#define WORD(type, field) (offsetof(type, field) / 8)
#define COUNT(type) (sizeof(type) / 8)
#define MOST 20 /* words of the newest host */
#define DIRT UINT64_C(0xa5a5a5a5a5a5a5a5)

static uint64_t words[MOST + 1]; /* the last one is not the host's */

static void soil(void) {
  for (size_t i = 0; i <= MOST; i++)
    words[i] = DIRT;
}

/* A host with count words has those that the library knows, and zeros. */
static void filled(const uint64_t *wanted, size_t known, size_t count) {
  for (size_t i = 0; i <= MOST; i++)
    SAME(words[i], i >= count ? DIRT : i < known ? wanted[i] : 0);
}

static void untouched(void) { filled(NULL, 0, 0); }

static const uint64_t CONFIG[] = {QS_SERVER, 3, 5, 700, 900, 400, 1000, 500, 1};
static const uint64_t LIMITS[] = {600, 2, 4, 50, 60, 70, 80};

static void fields_stand_at_their_words(void) {
  SAME(WORD(qs_config, side), 0);
  SAME(WORD(qs_config, max_remote_uni), 1);
  SAME(WORD(qs_config, max_remote_bidi), 2);
  SAME(WORD(qs_config, send_window), 3);
  SAME(WORD(qs_config, receive_window), 4);
  SAME(WORD(qs_config, stream_window), 5);
  SAME(WORD(qs_config, datagram_receive), 6);
  SAME(WORD(qs_config, datagram_send), 7);
  SAME(WORD(qs_config, track_streams), 8);
  SAME(COUNT(qs_config), 9);
  SAME(WORD(qs_peer_limits, initial_max_data), 0);
  SAME(WORD(qs_peer_limits, initial_max_streams_bidi), 1);
  SAME(WORD(qs_peer_limits, initial_max_streams_uni), 2);
  SAME(WORD(qs_peer_limits, initial_max_stream_data_uni), 3);
  SAME(WORD(qs_peer_limits, initial_max_stream_data_bidi_local), 4);
  SAME(WORD(qs_peer_limits, initial_max_stream_data_bidi_remote), 5);
  SAME(WORD(qs_peer_limits, max_datagram), 6);
  SAME(COUNT(qs_peer_limits), 7);
  SAME(WORD(qs_payload, len), 0);
  SAME(WORD(qs_payload, token), 1);
  SAME(WORD(qs_payload, ends), 2);
  SAME(COUNT(qs_payload), 3);
  SAME(WORD(qs_due, control), 0);
  SAME(WORD(qs_due, datagrams), 1);
  SAME(WORD(qs_due, streams), 2);
  SAME(COUNT(qs_due), 3);
  SAME(WORD(qs_event, kind), 0);
  SAME(WORD(qs_event, dir), 1);
  SAME(WORD(qs_event, id), 2);
  SAME(WORD(qs_event, app_code), 3);
  SAME(WORD(qs_event, user), 4);
  SAME(COUNT(qs_event), 5);
  SAME(COUNT(qs_info), 15);
}

static uint64_t info_word(qs_conn *conn, size_t at) {
  SAME(qs_get_info_words(conn, words, at + 1), QS_OK);
  return words[at];
}

/* The session is the one of the first count words, and of zeros. */
static void is_of_config(qs_conn *conn, size_t count) {
  static const uint8_t zeros[1000];
  const uint64_t uni = count > 1 ? 3 : 0, bidi = count > 2 ? 5 : 0;
  qs_error error;
  size_t space;
  uint64_t id;
  SAME(info_word(conn, WORD(qs_info, max_remote_uni)), uni);
  SAME(info_word(conn, WORD(qs_info, max_remote_bidi)), bidi);
  SAME(info_word(conn, WORD(qs_info, local_max_data)), count > 4 ? 900 : 0);
  SAME(qs_datagram_send_space(conn, &space), QS_OK);
  SAME(space, count > 7 ? 468 : 0);
  SAME(qs_set_peer_limits_words(conn, LIMITS, COUNT(LIMITS)), QS_OK);
  SAME(info_word(conn, WORD(qs_info, write_limit)), count > 3 ? 600 : 0);
  SAME(qs_stream_open(conn, QS_BIDI, &id), QS_OK);
  SAME(id, count > 0 ? 1 : 0); /* a server's, if the side was passed */
  SAME(qs_stream_set_user(conn, id, 1), count > 8 ? QS_OK : QS_ERR_NO_STREAM);
  SAME(qs_on_stream(conn, 0, 0, zeros, 400, 0, 400, &error),
       count > 5 ? QS_OK : QS_ERR_PROTOCOL);
  SAME(qs_on_datagram(conn, zeros, 968, &error),
       count > 6 ? QS_OK : QS_ERR_PROTOCOL);
}

static void configurations(void) {
  qs_conn conn = QS_CONN_INIT;
  uint64_t newer[MOST] = {0};
  SAME(qs_conn_open_words(&conn, NULL, 0), QS_OK);
  is_of_config(&conn, 0);
  qs_conn_free(&conn);
  for (size_t count = 1; count <= COUNT(CONFIG); count++) {
    uint64_t *older = malloc(count * sizeof *older); /* valgrind looks on */
    memcpy(older, CONFIG, count * sizeof *older);
    SAME(qs_conn_open_words(&conn, older, count), QS_OK);
    free(older);
    is_of_config(&conn, count);
    qs_conn_free(&conn);
  }
  memcpy(newer, CONFIG, sizeof CONFIG);
  for (size_t at = COUNT(CONFIG); at < MOST; at++) {
    newer[at] = at % 2 ? 1 : UINT64_C(1) << 63;
    SAME(qs_conn_open_words(&conn, newer, MOST), QS_ERR_ARGUMENT);
    SAME(qs_conn_open_words(&conn, newer, at + 1), QS_ERR_ARGUMENT);
    SAME(conn.live, 0);
    SAME(qs_conn_open_words(&conn, newer, at), QS_OK); /* not this host's */
    SAME(qs_conn_open_words(&conn, newer, MOST), QS_ERR_IN_USE);
    qs_conn_free(&conn);
    newer[at] = 0;
    SAME(qs_conn_open_words(&conn, newer, at + 1), QS_OK);
    is_of_config(&conn, COUNT(CONFIG));
    qs_conn_free(&conn);
  }
}

/* Opens a server by the words of the newest host. */
static qs_conn open_server(void) {
  qs_conn conn = QS_CONN_INIT;
  uint64_t newer[MOST] = {0};
  memcpy(newer, CONFIG, sizeof CONFIG);
  SAME(qs_conn_open_words(&conn, newer, MOST), QS_OK);
  return conn;
}

/* The limits are those of the first count words, and zeros. */
static void are_limits(qs_conn *conn, size_t count) {
  static const uint8_t zeros[100];
  const uint64_t bidi = count > 1 ? 2 : 0, uni = count > 2 ? 4 : 0;
  const uint64_t ids[] = {3, 0, 1}; /* the peer opened stream 0 */
  const uint64_t most[] = {50, 60, 70};
  qs_error error;
  uint64_t id, code;
  size_t size, written;
  SAME(info_word(conn, WORD(qs_info, write_limit)), count > 0 ? 600 : 0);
  SAME(qs_on_stream(conn, 0, 0, zeros, 1, 0, 1, &error), QS_OK);
  SAME(qs_stream_accept(conn, QS_BIDI, &id), QS_OK);
  for (uint64_t at = 0; at <= bidi; at++)
    SAME(qs_stream_open(conn, QS_BIDI, &id), at < bidi ? QS_OK : QS_DONE);
  for (uint64_t at = 0; at <= uni; at++)
    SAME(qs_stream_open(conn, QS_UNI, &id), at < uni ? QS_OK : QS_DONE);
  for (size_t at = 0; at < 3; at++) {
    const int is_open = at == 0 ? uni > 0 : at == 1 || bidi > 0;
    const int32_t wanted = !is_open         ? QS_ERR_NO_STREAM
                           : count < at + 4 ? QS_ERR_BLOCKED
                                            : QS_OK;
    SAME(qs_stream_write(conn, ids[at], zeros, 100, &written, &code), wanted);
    if (wanted == QS_OK)
      SAME(written, most[at]);
  }
  SAME(qs_datagram_max_size(conn, &size), QS_OK);
  SAME(size, count > 6 ? 80 : 0);
}

static void limits_of_the_peer(void) {
  qs_conn closed = QS_CONN_INIT;
  uint64_t newer[MOST] = {0};
  SAME(qs_set_peer_limits_words(&closed, NULL, 0), QS_ERR_CLOSED);
  for (size_t count = 0; count <= COUNT(LIMITS); count++) {
    qs_conn conn = open_server();
    uint64_t *older = malloc((count + 1) * sizeof *older);
    memcpy(older, LIMITS, count * sizeof *older);
    older[count] = DIRT; /* not the host's */
    SAME(qs_set_peer_limits_words(&conn, older, count), QS_OK);
    free(older);
    are_limits(&conn, count);
    qs_conn_free(&conn);
  }
  memcpy(newer, LIMITS, sizeof LIMITS);
  for (size_t at = COUNT(LIMITS); at < MOST; at++) {
    qs_conn conn = open_server();
    uint64_t before[COUNT(qs_info)];
    SAME(qs_get_info_words(&conn, before, COUNT(qs_info)), QS_OK);
    newer[at] = at % 2 ? 1 : UINT64_C(1) << 63;
    SAME(qs_set_peer_limits_words(&conn, newer, MOST), QS_ERR_ARGUMENT);
    SAME(qs_get_info_words(&conn, words, COUNT(qs_info)), QS_OK);
    SAME(memcmp(words, before, sizeof before), 0);
    newer[at] = 0;
    SAME(qs_set_peer_limits_words(&conn, newer, at + 1), QS_OK);
    are_limits(&conn, COUNT(LIMITS));
    qs_conn_free(&conn);
  }
}

/* A frame of the peer, as bytes. */
static void receive(qs_conn *conn, const char *frame, size_t len) {
  size_t next = 0;
  qs_error error;
  SAME(qs_receive(conn, (const uint8_t *)frame, len, &next, &error), QS_OK);
}

#define RECEIVE(conn, frame) receive(conn, frame, sizeof frame - 1)

/* A session of which no two numbers are the same, but for a flag. */
static void the_state_of_a_session(void) {
  qs_conn conn = QS_CONN_INIT, closed = QS_CONN_INIT;
  const qs_config config = {.side = QS_SERVER,
                            .max_remote_uni = 31,
                            .max_remote_bidi = 53,
                            .send_window = 700,
                            .receive_window = 900,
                            .stream_window = 400};
  uint8_t data[200] = {0};
  uint64_t id, code, info[COUNT(qs_info)];
  size_t written;
  SAME(qs_conn_open(&conn, &config), QS_OK);
  SAME(qs_set_peer_limits_words(&conn, LIMITS, COUNT(LIMITS)), QS_OK);
  /* fewer from now on: none is taken back, and one that ends is not replaced */
  SAME(qs_set_max_concurrent(&conn, QS_BIDI, 43), QS_OK);
  SAME(qs_set_max_concurrent(&conn, QS_UNI, 21), QS_OK);
  /* STREAM frames: index 12 both ways, of 3 bytes, and index 8 one way, of 2
   * bytes; 13 and 9 streams are open. Then one of each direction ends: it is
   * reset by the peer, and reset here, which the peer acknowledges. */
  RECEIVE(&conn, "\x0a\x30\x03"
                 "abc"
                 "\x0a\x22\x02"
                 "de");
  RECEIVE(&conn, "\x04\x02\x00\x00\x04\x00\x00\x00");
  SAME(qs_stream_accept(&conn, QS_UNI, &id), QS_OK);
  SAME(qs_stream_received_reset(&conn, id, &code), QS_OK);
  SAME(qs_stream_accept(&conn, QS_BIDI, &id), QS_OK);
  SAME(qs_stream_received_reset(&conn, id, &code), QS_OK);
  SAME(qs_stream_reset(&conn, id, 0), QS_OK);
  SAME(qs_emit_words(&conn, QS_CONTROL, 0, data, sizeof data, words, 2), QS_OK);
  SAME(qs_acked(&conn, words[1]), QS_OK);
  /* three payloads stay */
  SAME(qs_stream_open(&conn, QS_UNI, &id), QS_OK);
  SAME(qs_stream_open(&conn, QS_UNI, &id), QS_OK);
  for (int i = 0; i < 3; i++) {
    SAME(qs_stream_write(&conn, id, data, 10, &written, &code), QS_OK);
    SAME(qs_emit_words(&conn, QS_STREAMS, 0, data, sizeof data, NULL, 0),
         QS_OK);
  }
  SAME(qs_stream_write(&conn, id, data, 10, &written, &code), QS_OK);
  SAME(qs_get_info_words(&conn, info, COUNT(qs_info)), QS_OK);
  SAME(info[WORD(qs_info, max_concurrent_bidi)], 52);
  SAME(info[WORD(qs_info, max_concurrent_uni)], 30);
  SAME(info[WORD(qs_info, max_remote_bidi)], 53);
  SAME(info[WORD(qs_info, max_remote_uni)], 31);
  SAME(info[WORD(qs_info, next_remote_bidi)], 13);
  SAME(info[WORD(qs_info, next_remote_uni)], 9);
  SAME(info[WORD(qs_info, remote_open_bidi)], 12);
  SAME(info[WORD(qs_info, remote_open_uni)], 8);
  SAME(info[WORD(qs_info, local_max_data)], 900);
  SAME(info[WORD(qs_info, data_received)], 5);
  SAME(info[WORD(qs_info, write_limit)], 560);
  SAME(info[WORD(qs_info, send_streams)], 2); /* none accepted is open */
  SAME(info[WORD(qs_info, payloads)], 3);
  SAME(info[WORD(qs_info, can_send_stream_data)], 1);
  SAME(info[WORD(qs_info, has_pending)], 0);
  for (size_t count = 0; count <= MOST; count++) {
    soil();
    SAME(qs_get_info_words(&conn, words, count), QS_OK);
    filled(info, COUNT(qs_info), count);
    soil();
    SAME(qs_get_info_words(&closed, words, count), QS_ERR_CLOSED);
    untouched();
  }
  qs_conn_free(&conn);
}

static void what_is_pending(void) {
  for (size_t at = 0; at < COUNT(qs_due); at++) {
    qs_conn conn = open_server();
    uint64_t wanted[COUNT(qs_due)] = {0}, id, code;
    size_t written;
    SAME(qs_set_peer_limits_words(&conn, LIMITS, COUNT(LIMITS)), QS_OK);
    wanted[at] = 1;
    if (at == WORD(qs_due, control)) {
      SAME(qs_set_max_concurrent(&conn, QS_UNI, 13), QS_OK);
    } else if (at == WORD(qs_due, datagrams)) {
      SAME(qs_datagram_send(&conn, (const uint8_t *)"d", 1, 0), QS_OK);
    } else {
      SAME(qs_stream_open(&conn, QS_UNI, &id), QS_OK);
      SAME(qs_stream_write(&conn, id, (const uint8_t *)"s", 1, &written, &code),
           QS_OK);
    }
    for (size_t count = 0; count <= MOST; count++) {
      soil();
      SAME(qs_get_due_words(&conn, words, count), QS_OK);
      filled(wanted, COUNT(qs_due), count);
    }
    qs_conn_free(&conn);
    soil();
    SAME(qs_get_due_words(&conn, words, MOST), QS_ERR_CLOSED);
    untouched();
  }
}

/* A payload of so many bytes, written by one of the three calls. */
static int32_t emit_by(int way, qs_conn *conn, uint32_t parts, size_t cap,
                       qs_buffer *buffer, size_t count) {
  uint8_t data[64];
  const uint8_t *at;
  if (way == 0)
    return qs_emit_words(conn, parts, 0, data, cap, words, count);
  if (way == 1)
    return qs_emit_lent_words(conn, parts, 0, cap, &at, words, count);
  return qs_emit_buffer_words(conn, parts, 0, cap, buffer, words, count);
}

static void payloads(void) {
  qs_conn conn = open_server();
  qs_buffer buffer = QS_BUFFER_INIT;
  uint8_t data[600] = {0};
  uint64_t id, code, token = 0;
  uint64_t newer[] = {9000, 9, 9, 9000, 9000, 9000, 80};
  size_t written;
  SAME(qs_buffer_reserve(&buffer, 64), QS_OK);
  SAME(qs_set_peer_limits_words(&conn, newer, COUNT(newer)), QS_OK);
  SAME(qs_set_send_window(&conn, 9000), QS_OK);
  SAME(qs_stream_open(&conn, QS_UNI, &id), QS_OK);
  for (int way = 0; way < 3; way++)
    for (size_t count = 0; count <= MOST; count++) {
      soil();
      SAME(emit_by(way, &conn, QS_STREAMS, 64, &buffer, count), QS_DONE);
      untouched();
      SAME(emit_by(way, &conn, 8, 64, &buffer, count), QS_ERR_ARGUMENT);
      untouched();
      /* more than fits: the frame fills the payload, and has no length */
      SAME(qs_stream_write(&conn, id, data, 40, &written, &code), QS_OK);
      const uint64_t wanted[] = {30, ++token, 1};
      SAME(emit_by(way, &conn, QS_STREAMS, 30, &buffer, count), QS_OK);
      filled(wanted, COUNT(qs_payload), count);
      SAME(emit_by(way, &conn, QS_STREAMS, 64, &buffer, 0), QS_OK);
      token++;
    }
  qs_conn_free(&conn);
  soil();
  for (int way = 0; way < 3; way++)
    SAME(emit_by(way, &conn, QS_STREAMS, 64, &buffer, MOST), QS_ERR_CLOSED);
  untouched();
  qs_buffer_free(&buffer);
}

int main(void) {
  fields_stand_at_their_words();
  configurations();
  limits_of_the_peer();
  the_state_of_a_session();
  what_is_pending();
  payloads();
  puts("6 tests");
  return 0;
}
