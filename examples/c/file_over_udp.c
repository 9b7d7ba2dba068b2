/* Sends a file to another process over UDP on the loopback, as one stream.
 *
 *   file_over_udp receive PORT FILE [LOSS [SEED]]
 *   file_over_udp send    PORT FILE [LOSS [SEED]]
 *
 * Of a hundred packets, whose form is in packets.h, the program drops LOSS
 * itself, drawn from SEED. A QUIC endpoint does more than this: it encrypts and
 * authenticates, controls congestion, reads limits from transport parameters,
 * processes a packet number once, and sends CONNECTION_CLOSE. This is no way to
 * send files over a real network. */
#include "packets.h"

enum { WINDOW = 1 << 20, STREAM_WINDOW = 1 << 18 };

typedef struct {
  host host;
  FILE *file;
  uint64_t stream;
  uint8_t chunk[16384]; /* what was read of the file and not written */
  size_t chunk_at, chunk_len;
  int sends, is_done, is_stopped;
} endpoint;

/* Writes the file until the stream is blocked or stopped: an event follows. */
static void write_file(endpoint *e) {
  for (;;) {
    size_t written = 0;
    uint64_t code = 0;
    if (e->chunk_at == e->chunk_len) {
      e->chunk_at = 0;
      e->chunk_len = fread(e->chunk, 1, sizeof e->chunk, e->file);
    }
    if (e->chunk_len == 0) {
      const int32_t result = qs_stream_finish(&e->host.conn, e->stream, &code);
      if (result != QS_ERR_STOPPED)
        want("finish", result);
      return;
    }
    int32_t result =
        qs_stream_write(&e->host.conn, e->stream, e->chunk + e->chunk_at,
                        e->chunk_len - e->chunk_at, &written, &code);
    if (result == QS_ERR_BLOCKED || result == QS_ERR_STOPPED)
      return;
    want("write", result);
    e->chunk_at += written;
  }
}

static void read_file(endpoint *e) {
  uint8_t data[16384];
  for (;;) {
    size_t count = 0;
    uint64_t offset = 0, code = 0;
    int32_t result = qs_stream_read(&e->host.conn, e->stream, data, sizeof data,
                                    &count, &offset, &code);
    if (result == QS_ERR_BLOCKED || result == QS_ERR_NO_STREAM)
      return;
    e->is_done = want("read", result) == QS_END;
    if (e->is_done)
      return;
    if (fwrite(data, 1, count, e->file) != count)
      die("file", 0);
  }
}

static void handle_events(endpoint *e) {
  qs_event event;
  while (want("poll", qs_poll(&e->host.conn, &event)) == QS_OK) {
    if (event.kind == QS_EVENT_OPENED)
      while (want("accept", qs_stream_accept(&e->host.conn, (uint32_t)event.dir,
                                             &e->stream)) == QS_OK)
        read_file(e);
    else if (event.kind == QS_EVENT_READABLE)
      read_file(e);
    else if (event.kind == QS_EVENT_WRITABLE)
      write_file(e);
    else if (event.kind == QS_EVENT_FINISHED)
      e->is_done = 1;
    else if (event.kind == QS_EVENT_STOPPED) {
      /* The receiver wants no more, and learns how much there was. */
      want("reset", qs_stream_reset(&e->host.conn, event.id, event.app_code));
      e->is_done = e->is_stopped = 1;
    }
  }
}

static void open_endpoint(endpoint *e, uint16_t port) {
  const qs_config config = {.side = e->sends ? QS_CLIENT : QS_SERVER,
                            .max_remote_uni = 1,
                            .send_window = WINDOW,
                            .receive_window = WINDOW,
                            .stream_window = STREAM_WINDOW,
                            .datagram_receive = QS_NONE};
  /* The peer runs the same program: its limits are known. */
  const qs_peer_limits limits = {.initial_max_data = WINDOW,
                                 .initial_max_streams_uni = 1,
                                 .initial_max_stream_data_uni = STREAM_WINDOW,
                                 .max_datagram = QS_NONE};
  open_host(&e->host, &config, &limits, port);
  if (!e->sends)
    return;
  if (want("stream", qs_stream_open(&e->host.conn, QS_UNI, &e->stream)) !=
      QS_OK)
    die("the peer allows no stream", QS_DONE);
  write_file(e);
}

int main(int argc, char **argv) {
  static endpoint e; /* all zero bytes: the handle is closed */
  if (argc < 4 || argc > 6 ||
      (strcmp(argv[1], "send") && strcmp(argv[1], "receive"))) {
    fputs("usage: send|receive PORT FILE [LOSS [SEED]]\n", stderr);
    return 2;
  }
  e.sends = argv[1][0] == 's';
  e.file = fopen(argv[3], e.sends ? "rb" : "wb");
  if (!e.file)
    die(argv[3], 0);
  e.host.loss = argc > 4 ? (unsigned)strtoul(argv[4], NULL, 10) : 0;
  e.host.seed = argc > 5 ? strtoull(argv[5], NULL, 10) : 1;
  open_endpoint(&e, (uint16_t)strtoul(argv[2], NULL, 10));
  /* The sender is done when all is acknowledged, and closes. */
  while (!e.host.is_closed && !(e.sends && e.is_done)) {
    receive_packets(&e.host);
    handle_events(&e);
    send_pending(&e.host);
  }
  close_host(&e.host, e.sends);
  printf("%s: %lu packets, %lu dropped, %lu taken to be lost\n", argv[1],
         e.host.packets, e.host.dropped, e.host.lost);
  return fclose(e.file) || !e.is_done || e.is_stopped ? 1 : 0;
}
