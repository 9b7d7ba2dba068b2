/* One end: what each call answers, and which bytes it writes. The bytes are
 * those of RFC 9000 section 19 and RFC 9221 section 4, spelled by hand. */
#include "check.h"

static void a_stream_is_written_and_read(void) {
  qs_conn a = QS_CONN_INIT, b = QS_CONN_INIT;
  uint64_t id = 99, code = 0, offset = 99;
  size_t written = 0, count = 99;
  packet p;
  uint8_t text[16] = {0};
  qs_event event = {0, 0, 0, 0, 0};
  SAME(open_end(&a, QS_CLIENT, 4, 1000, 1000), QS_OK);
  SAME(open_end(&b, QS_SERVER, 4, 1000, 1000), QS_OK);
  SAME(qs_stream_open(&a, QS_UNI, &id), QS_OK);
  SAME(id, 2);
  SAME(write_text(&a, 2, "hello", 5, &written), QS_OK);
  SAME(written, 5);
  SAME(qs_stream_finish(&a, 2, &code), QS_OK);
  SAME(qs_stream_finish(&a, 2, &code), QS_ERR_NO_STREAM);
  SAME(emit(&a, QS_ALL, 100, &p), QS_OK);
  SAME_BYTES(p.data, p.head.len, "\x0b\x02\x05hello");
  SAME(p.head.token, 1);
  SAME(p.head.ends, 0);
  SAME(deliver(&b, &p), QS_OK);
  SAME(deliver(&b, &p), QS_OK); /* it came twice */
  SAME(qs_poll(&b, &event), QS_OK);
  SAME(event.kind, QS_EVENT_OPENED);
  SAME(event.dir, QS_UNI);
  SAME(qs_stream_read(&b, 2, text, sizeof text, &count, &offset, &code),
       QS_ERR_NO_STREAM); /* it was not accepted yet */
  SAME(qs_stream_accept(&b, QS_UNI, &id), QS_OK);
  SAME(id, 2);
  SAME(qs_stream_accept(&b, QS_UNI, &id), QS_DONE);
  SAME(qs_stream_read(&b, 2, text, 3, &count, &offset, &code), QS_OK);
  SAME_BYTES(text, count, "hel");
  SAME(offset, 0);
  SAME(qs_stream_read(&b, 2, text, sizeof text, &count, &offset, &code), QS_OK);
  SAME_BYTES(text, count, "lo");
  SAME(offset, 3);
  SAME(qs_stream_read(&b, 2, text, sizeof text, &count, &offset, &code),
       QS_END);
  SAME(count, 0);
  SAME(qs_stream_read(&b, 2, text, sizeof text, &count, &offset, &code),
       QS_ERR_NO_STREAM);
  SAME(qs_acked(&a, 1), QS_OK);
  SAME(qs_acked(&a, 1), QS_ERR_TOKEN);
  SAME(qs_lost(&a, 1), QS_ERR_TOKEN);
  SAME(qs_poll(&a, &event), QS_OK);
  SAME(event.kind, QS_EVENT_FINISHED);
  SAME(event.id, 2);
  SAME(qs_poll(&a, &event), QS_DONE);
  SAME(qs_poll(&b, &event), QS_OK);
  SAME(event.kind, QS_EVENT_READABLE); /* of what came twice */
  SAME(qs_poll(&b, &event), QS_DONE);
  qs_conn_free(&a);
  qs_conn_free(&b);
}

/* Data of several payloads come in one call, and the call tells what follows.
 */
static void several_chunks_come_in_one_call(void) {
  qs_conn a = QS_CONN_INIT, b = QS_CONN_INIT;
  uint64_t id = 99, code = 0, offset = 99;
  size_t written = 0, count = 99;
  static uint8_t text[8192];
  packet p;
  SAME(open_end(&a, QS_CLIENT, 4, 1000, 1000), QS_OK);
  SAME(open_end(&b, QS_SERVER, 4, 1000, 1000), QS_OK);
  SAME(qs_stream_open(&a, QS_UNI, &id), QS_OK);
  SAME(qs_stream_read_many(&b, 2, text, sizeof text, &count, &offset, &code),
       QS_ERR_NO_STREAM);
  SAME(count, 99);
  const char *parts[] = {"several ", "small ", "parts"};
  for (int i = 0; i < 3; i++) {
    SAME(write_text(&a, 2, parts[i], strlen(parts[i]), &written), QS_OK);
    SAME(emit(&a, QS_ALL, 100, &p), QS_OK);
    SAME(deliver(&b, &p), QS_OK);
  }
  SAME(qs_stream_accept(&b, QS_UNI, &id), QS_OK);
  SAME(qs_stream_read_many(&b, 2, text, 0, &count, &offset, &code),
       QS_ERR_TOO_SMALL);
  SAME(qs_stream_read_many(&b, 2, text, 5, &count, &offset, &code),
       QS_OK); /* one piece, of 5 bytes */
  SAME_BYTES(text, count, "sever");
  SAME(offset, 0);
  SAME(qs_stream_read_many(&b, 2, text, sizeof text, &count, &offset, &code),
       QS_DONE);
  SAME_BYTES(text, count, "al small parts");
  SAME(offset, 5);
  SAME(qs_stream_read_many(&b, 2, text, sizeof text, &count, &offset, &code),
       QS_DONE);
  SAME(count, 0);
  SAME(write_text(&a, 2, "!", 1, &written), QS_OK);
  SAME(qs_stream_finish(&a, 2, &code), QS_OK);
  SAME(emit(&a, QS_ALL, 100, &p), QS_OK);
  SAME(deliver(&b, &p), QS_OK);
  SAME(qs_stream_read_many(&b, 2, text, sizeof text, &count, &offset, &code),
       QS_END);
  SAME_BYTES(text, count, "!");
  SAME(offset, 19);
  SAME(qs_stream_read_many(&b, 2, text, sizeof text, &count, &offset, &code),
       QS_ERR_NO_STREAM);
  SAME(qs_stream_open(&a, QS_UNI, &id), QS_OK);
  SAME(write_text(&a, id, "lost", 4, &written), QS_OK);
  SAME(emit(&a, QS_ALL, 100, &p), QS_OK);
  SAME(deliver(&b, &p), QS_OK);
  SAME(qs_stream_reset(&a, id, 7), QS_OK);
  SAME(emit(&a, QS_ALL, 100, &p), QS_OK);
  SAME(deliver(&b, &p), QS_OK);
  SAME(qs_stream_accept(&b, QS_UNI, &id), QS_OK);
  SAME(qs_stream_read_many(&b, id, text, sizeof text, &count, &offset, &code),
       QS_ERR_RESET);
  SAME(code, 7);
  SAME(count, 0);
  qs_conn_free(&a);
  qs_conn_free(&b);
}

/* What a payload lacks of a length ends it. */
static void the_last_frame_may_lack_a_length(void) {
  qs_conn a = QS_CONN_INIT;
  uint64_t id;
  size_t written = 0;
  char text[200];
  packet p;
  memset(text, 'x', sizeof text);
  SAME(open_end(&a, QS_CLIENT, 4, 1000, 1000), QS_OK);
  SAME(qs_stream_open(&a, QS_BIDI, &id), QS_OK);
  SAME(write_text(&a, 0, text, sizeof text, &written), QS_OK);
  SAME(emit(&a, QS_ALL, 40, &p), QS_OK);
  SAME(p.head.len, 40);
  SAME(p.head.ends, 1);
  SAME(p.data[0], 0x08); /* STREAM: no offset, no length, no end */
  SAME(emit(&a, QS_ALL, 25, &p), QS_DONE); /* the greatest head does not fit */
  SAME(emit(&a, QS_ALL, 1000, &p), QS_OK);
  SAME(p.data[0], 0x0e); /* STREAM: offset and length */
  SAME(p.data[1], 0);
  SAME(p.data[2], 38); /* 40 bytes less the head of two */
  qs_conn_free(&a);
}

/* A payload that is lent has the bytes and the token of one that is copied. */
static void a_payload_may_be_lent(void) {
  qs_conn a = QS_CONN_INIT, b = QS_CONN_INIT;
  uint64_t id, code = 0;
  size_t written = 0, next = 0;
  qs_payload head = {7, 7, 7};
  qs_due due = {7, 7, 7};
  qs_error error = {0, 0, {0}};
  const uint8_t *lent = NULL;
  packet p;
  SAME(qs_emit_lent(&a, QS_ALL, 1, 100, &lent, &head), QS_ERR_CLOSED);
  SAME(qs_get_due(&a, &due), QS_ERR_CLOSED);
  SAME(due.streams, 7);
  SAME(open_end(&a, QS_CLIENT, 4, 1000, 1000), QS_OK);
  SAME(open_end(&b, QS_SERVER, 4, 1000, 1000), QS_OK);
  SAME(qs_emit_lent(&a, QS_ALL, 1, 100, &lent, &head), QS_DONE);
  SAME(lent == NULL, 1);
  SAME(head.token, 7);
  SAME(qs_stream_open(&a, QS_UNI, &id), QS_OK);
  SAME(write_text(&a, 2, "hello", 5, &written), QS_OK);
  SAME(qs_stream_finish(&a, 2, &code), QS_OK);
  SAME(qs_get_due(&a, &due), QS_OK);
  SAME(due.control + due.datagrams, 0);
  SAME(due.streams, 1);
  SAME(qs_emit_lent(&a, QS_ALL, 1, 100, &lent, &head), QS_OK);
  SAME_BYTES(lent, head.len, "\x0b\x02\x05hello");
  SAME(head.token, 1);
  SAME(head.ends, 0);
  SAME(qs_receive(&b, lent, (size_t)head.len, &next, &error), QS_OK);
  SAME(qs_get_due(&a, &due), QS_OK);
  SAME(due.streams, 0);
  SAME(qs_datagram_send(&a, (const uint8_t *)"d", 1, 0), QS_OK);
  SAME(qs_get_due(&a, &due), QS_OK);
  SAME(due.datagrams, 1);
  SAME(emit(&a, QS_DATAGRAMS, 100, &p), QS_OK);
  SAME(qs_lost(&a, 1), QS_OK);
  SAME(emit(&a, QS_ALL, 100, &p), QS_OK);
  SAME_BYTES(p.data, p.head.len, "\x0b\x02\x05hello");
  SAME(p.head.token, 3);
  SAME(qs_acked(&a, 3), QS_OK);
  SAME(qs_stream_open(&a, QS_UNI, &id), QS_OK);
  char text[50];
  memset(text, 'x', sizeof text);
  SAME(write_text(&a, id, text, sizeof text, &written), QS_OK);
  SAME(qs_emit_lent(&a, QS_ALL, 1, 40, &lent, &head), QS_OK);
  SAME(head.len, 40);
  SAME(head.ends, 1);
  SAME(lent[0], 0x08); /* STREAM: no offset, no length, no end */
  qs_conn_free(&a);
  qs_conn_free(&b);
}

static void limits_block_and_are_raised(void) {
  qs_conn a = QS_CONN_INIT;
  uint64_t id;
  size_t written = 0;
  qs_error error = {0, 0, {0}};
  qs_event event = {0, 0, 0, 0, 0};
  packet p;
  SAME(open_end(&a, QS_CLIENT, 1, 10, 10), QS_OK);
  SAME(qs_stream_open(&a, QS_BIDI, &id), QS_OK);
  SAME(qs_stream_open(&a, QS_BIDI, &id), QS_DONE);
  SAME(write_text(&a, 0, "0123456789abc", 13, &written), QS_OK);
  SAME(written, 10);
  SAME(write_text(&a, 0, "abc", 3, &written), QS_ERR_BLOCKED);
  SAME(emit(&a, QS_ALL, 100, &p), QS_OK);
  SAME(qs_acked(&a, p.head.token), QS_OK); /* the send window is free again */
  SAME(qs_on_max_data(&a, 100, &error), QS_OK);
  SAME(qs_on_max_stream_data(&a, 0, 13, &error), QS_OK);
  /* each of the two limits held it back, and each was raised */
  for (int i = 0; i < 2; i++) {
    SAME(qs_poll(&a, &event), QS_OK);
    SAME(event.kind, QS_EVENT_WRITABLE);
    SAME(event.id, 0);
  }
  SAME(qs_poll(&a, &event), QS_DONE);
  SAME(write_text(&a, 0, "abcd", 4, &written), QS_OK);
  SAME(written, 3);
  SAME(qs_on_max_streams(&a, QS_BIDI, 2, &error), QS_OK);
  SAME(qs_poll(&a, &event), QS_OK);
  SAME(event.kind, QS_EVENT_AVAILABLE);
  SAME(qs_stream_open(&a, QS_BIDI, &id), QS_OK);
  SAME(id, 4);
  qs_conn_free(&a);
}

static void a_stream_is_given_up_or_stopped(void) {
  qs_conn a = QS_CONN_INIT, b = QS_CONN_INIT;
  uint64_t id, code = 0, offset = 0;
  size_t written = 0, count = 0;
  uint8_t text[16] = {0};
  packet p;
  SAME(open_end(&a, QS_CLIENT, 4, 1000, 1000), QS_OK);
  SAME(open_end(&b, QS_SERVER, 4, 1000, 1000), QS_OK);
  SAME(qs_stream_open(&a, QS_UNI, &id), QS_OK);
  SAME(write_text(&a, 2, "hi", 2, &written), QS_OK);
  SAME(qs_stream_reset(&a, 2, 7), QS_OK);
  SAME(emit(&a, QS_ALL, 100, &p), QS_OK);
  SAME_BYTES(p.data, p.head.len, "\x04\x02\x07\x02");
  SAME(deliver(&b, &p), QS_OK);
  SAME(qs_stream_accept(&b, QS_UNI, &id), QS_OK);
  SAME(qs_stream_read(&b, 2, text, sizeof text, &count, &offset, &code),
       QS_ERR_RESET);
  SAME(code, 7);
  SAME(qs_stream_open(&a, QS_UNI, &id), QS_OK);
  SAME(id, 6);
  SAME(write_text(&a, 6, "ho", 2, &written), QS_OK);
  SAME(emit(&a, QS_STREAMS, 100, &p), QS_OK);
  SAME(deliver(&b, &p), QS_OK);
  SAME(qs_stream_accept(&b, QS_UNI, &id), QS_OK);
  SAME(qs_stream_stop(&b, 6, 9), QS_OK);
  SAME(qs_stream_stop(&b, 6, 9), QS_ERR_NO_STREAM);
  SAME(emit(&b, QS_CONTROL, 100, &p), QS_OK);
  SAME_BYTES(p.data, 3, "\x05\x06\x09");
  SAME(deliver(&a, &p), QS_OK);
  SAME(qs_stream_stopped(&a, 6, &code), QS_OK);
  SAME(code, 9);
  SAME(write_text(&a, 6, "he", 2, &written), QS_ERR_STOPPED);
  qs_conn_free(&a);
  qs_conn_free(&b);
}

static void datagrams_stand_between(void) {
  qs_conn a = QS_CONN_INIT, b = QS_CONN_INIT;
  uint64_t id;
  size_t written = 0, count = 0, size = 0;
  uint8_t data[16] = {0};
  qs_event event = {0, 0, 0, 0, 0};
  packet p;
  SAME(open_end(&a, QS_CLIENT, 4, 1000, 1000), QS_OK);
  SAME(open_end(&b, QS_SERVER, 4, 1000, 1000), QS_OK);
  SAME(qs_datagram_max_size(&a, &size), QS_OK);
  SAME(size, 1200);
  SAME(qs_datagram_send_space(&a, &size), QS_OK);
  SAME(size, 4096 - 32);
  SAME(qs_stream_open(&a, QS_UNI, &id), QS_OK);
  SAME(write_text(&a, 2, "hi", 2, &written), QS_OK);
  SAME(qs_set_receive_window(&a, 2000), QS_OK); /* MAX_DATA is due */
  SAME(qs_datagram_send(&a, (const uint8_t *)"news", 4, 0), QS_OK);
  SAME(emit(&a, QS_ALL, 100, &p), QS_OK);
  SAME_BYTES(p.data, p.head.len,
             "\x10\x47\xd0"
             "\x31\x04news"
             "\x0a\x02\x02hi");
  SAME(deliver(&b, &p), QS_OK);
  SAME(qs_poll(&b, &event), QS_OK);
  SAME(event.kind, QS_EVENT_DATAGRAM);
  SAME(qs_datagram_recv(&b, data, 3, &count), QS_ERR_TOO_SMALL);
  SAME(count, 4);
  SAME(qs_datagram_recv(&b, data, sizeof data, &count), QS_OK);
  SAME_BYTES(data, count, "news");
  SAME(qs_datagram_recv(&b, data, sizeof data, &count), QS_DONE);
  SAME(qs_datagram_set_max_size(&a, QS_NONE), QS_OK);
  SAME(qs_datagram_send(&a, (const uint8_t *)"news", 4, 0),
       QS_ERR_DATAGRAMS_OFF);
  qs_conn_free(&a);
  qs_conn_free(&b);
}

static void a_peer_that_breaks_the_protocol_is_told_so(void) {
  qs_conn b = QS_CONN_INIT;
  size_t next = 0;
  qs_error error = {0, 0, {0}};
  SAME(open_end(&b, QS_SERVER, 1, 10, 10), QS_OK);
  /* eleven bytes, where ten are permitted */
  const uint8_t many[] = "\x10\x05\x08\x02hello world";
  SAME(qs_receive(&b, many, sizeof many - 1, &next, &error), QS_ERR_PROTOCOL);
  SAME(next, 2);       /* MAX_DATA before it was processed */
  SAME(error.code, 3); /* FLOW_CONTROL_ERROR */
  /* a second stream, where one is permitted */
  SAME(qs_on_stream(&b, 6, 0, (const uint8_t *)"x", 1, 0, 1, &error),
       QS_ERR_PROTOCOL);
  SAME(error.code, 4); /* STREAM_LIMIT_ERROR */
  SAME(error.reason_len <= 80, 1);
  /* a frame that ends before its last number does */
  next = 0;
  SAME(qs_receive(&b, (const uint8_t *)"\x10\x40", 2, &next, &error),
       QS_ERR_MALFORMED);
  SAME(error.code, 7); /* FRAME_ENCODING_ERROR */
  SAME(next, 0);
  SAME(qs_receive(&b, NULL, 0, &next, &error), QS_OK);
  qs_conn_free(&b);
}

/* The connection is to be closed with STREAM_STATE_ERROR, and the frame at the
 * offset `place` is the first that was not processed. */
static void is_refused(qs_conn *conn, const char *payload, size_t len,
                       size_t place) {
  size_t next = 0;
  qs_error error = {0, 0, {0}};
  SAME(qs_receive(conn, (const uint8_t *)payload, len, &next, &error),
       QS_ERR_PROTOCOL);
  SAME(error.code, 5);
  SAME(next, place);
}

/* STOP_SENDING is for a stream on which this end sends, and that is open if it
 * is its own (RFC 9000 section 19.5), STREAM_DATA_BLOCKED for one on which the
 * peer sends (section 19.13). */
static void a_frame_for_another_direction_is_refused(void) {
  qs_conn a = QS_CONN_INIT;
  uint64_t id = 0, code = 0;
  qs_error error = {0, 0, {0}};
  qs_event event = {0, 0, 0, 0, 0};
  SAME(open_end(&a, QS_CLIENT, 4, 1000, 1000), QS_OK);
  SAME(qs_stream_open(&a, QS_UNI, &id), QS_OK);
  SAME(id, 2);
  while (qs_poll(&a, &event) == QS_OK)
    ;
  is_refused(&a, "\x05\x03\x07", 3, 0); /* only the peer sends on 3 */
  is_refused(&a, "\x05\x06\x07", 3, 0); /* 6 is not open yet */
  is_refused(&a, "\x05\x00\x07", 3, 0); /* nor is 0 */
  is_refused(&a, "\x15\x02\x09", 3, 0); /* only this end sends on 2 */
  is_refused(&a, "\x15\x03\x09\x15\x06\x09", 6, 3); /* or on 6 */
  SAME(qs_on_stop_sending(&a, 3, 7, &error), QS_ERR_PROTOCOL);
  SAME(error.code, 5);
  error.code = 0;
  SAME(qs_on_stop_sending(&a, 6, 7, &error), QS_ERR_PROTOCOL);
  SAME(error.code, 5);
  SAME(error.reason_len > 0 && error.reason_len <= 80, 1);
  /* nothing changed */
  SAME(qs_poll(&a, &event), QS_DONE);
  SAME(qs_stream_stopped(&a, 2, &code), QS_DONE);
  SAME(qs_stream_accept(&a, QS_UNI, &id), QS_DONE);
  SAME(qs_stream_accept(&a, QS_BIDI, &id), QS_DONE);
  SAME(qs_stream_open(&a, QS_UNI, &id), QS_OK);
  SAME(id, 6);
  qs_conn_free(&a);
}

/* What this end opened is stopped, and so is what both send on. */
static void a_frame_for_the_right_direction_is_taken(void) {
  qs_conn a = QS_CONN_INIT;
  uint64_t id = 0, code = 0;
  size_t next = 0;
  qs_error error = {0, 0, {0}};
  SAME(open_end(&a, QS_CLIENT, 4, 1000, 1000), QS_OK);
  SAME(qs_stream_open(&a, QS_UNI, &id), QS_OK);
  is_refused(&a, "\x05\x06\x07", 3, 0);
  SAME(qs_stream_open(&a, QS_UNI, &id), QS_OK);
  SAME(id, 6);
  const uint8_t fine[] = "\x05\x06\x07\x15\x03\x09\x15\x00\x09\x15\x01\x09";
  SAME(qs_receive(&a, fine, sizeof fine - 1, &next, &error), QS_OK);
  SAME(next, sizeof fine - 1);
  SAME(qs_stream_stopped(&a, 6, &code), QS_OK);
  SAME(code, 7);
  SAME(qs_on_stop_sending(&a, 2, 8, &error), QS_OK);
  SAME(qs_stream_stopped(&a, 2, &code), QS_OK);
  SAME(code, 8);
  SAME(qs_on_stop_sending(&a, 1, 9, &error), QS_OK);
  SAME(qs_stream_accept(&a, QS_BIDI, &id), QS_OK);
  SAME(id, 1);
  SAME(qs_stream_stopped(&a, 1, &code), QS_OK);
  SAME(code, 9);
  qs_conn_free(&a);
}

static void a_closed_handle_answers_so(void) {
  qs_conn a = QS_CONN_INIT;
  uint64_t id = 77;
  qs_conn_free(&a);
  SAME(qs_stream_open(&a, QS_UNI, &id), QS_ERR_CLOSED);
  SAME(id, 77);
  SAME(open_end(&a, QS_CLIENT, 4, 1000, 1000), QS_OK);
  SAME(open_end(&a, QS_CLIENT, 4, 1000, 1000), QS_ERR_IN_USE);
  qs_conn moved = a; /* a handle may move */
  SAME(qs_stream_open(&moved, QS_UNI, &id), QS_OK);
  SAME(qs_conn_close(&moved), QS_OK);
  SAME(qs_stream_open(&moved, QS_UNI, &id), QS_DONE);
  qs_conn_free(&moved);
  qs_conn_free(&moved);
  SAME(qs_lost(&moved, 1), QS_ERR_CLOSED);
}

static void an_early_start_is_rejected(void) {
  qs_conn a = QS_CONN_INIT;
  uint64_t id;
  size_t written = 0;
  packet p;
  SAME(open_end(&a, QS_CLIENT, 4, 1000, 1000), QS_OK);
  SAME(qs_stream_open(&a, QS_UNI, &id), QS_OK);
  SAME(write_text(&a, 2, "early", 5, &written), QS_OK);
  SAME(emit(&a, QS_ALL, 100, &p), QS_OK);
  SAME(qs_retransmit_all_for_0rtt(&a), QS_OK);
  SAME(emit(&a, QS_ALL, 100, &p), QS_OK); /* the same once more */
  SAME_BYTES(p.data, p.head.len,
             "\x0a\x02\x05"
             "early");
  SAME(qs_zero_rtt_rejected(&a), QS_OK);
  SAME(qs_acked(&a, p.head.token), QS_ERR_TOKEN);
  SAME(emit(&a, QS_ALL, 100, &p), QS_DONE);
  SAME(qs_stream_open(&a, QS_UNI, &id), QS_DONE); /* nothing is permitted yet */
  qs_conn_free(&a);
}

int main(void) {
  a_stream_is_written_and_read();
  several_chunks_come_in_one_call();
  the_last_frame_may_lack_a_length();
  a_payload_may_be_lent();
  limits_block_and_are_raised();
  a_stream_is_given_up_or_stopped();
  datagrams_stand_between();
  a_peer_that_breaks_the_protocol_is_told_so();
  a_frame_for_another_direction_is_refused();
  a_frame_for_the_right_direction_is_taken();
  a_closed_handle_answers_so();
  an_early_start_is_rejected();
  printf("one end: 12 tests\n");
  return 0;
}
