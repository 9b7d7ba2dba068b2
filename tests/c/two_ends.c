/* Two ends over a network that loses, repeats and reorders payloads, drawn from
 * a seed: each stream is read as it was written, and all ends. */
#include "check.h"

enum { STREAMS = 6, BYTES = 5000, FLIGHT = 64 };

static uint64_t seed;

static uint32_t draw(uint32_t below) {
  seed = seed * UINT64_C(6364136223846793005) + UINT64_C(1442695040888963407);
  return (uint32_t)(seed >> 33) % below;
}

typedef struct {
  qs_conn conn;
  int is_server;
  packet flight[FLIGHT];
  int delivered[FLIGHT];
  size_t flying;
  uint64_t ids[STREAMS];
  size_t opened, finished, ended;
  size_t written[STREAMS], got[4 * STREAMS];
} side;

/* The byte of a stream at an offset. */
static uint8_t content(uint64_t id, size_t at) {
  return (uint8_t)(id * 37 + at * 11 + at / 251);
}

static void open_streams(side *s, const uint32_t *dirs) {
  while (s->opened < STREAMS) {
    uint64_t id = 0;
    int32_t answer = qs_stream_open(&s->conn, dirs[s->opened % 2], &id);
    if (answer == QS_DONE)
      return;
    SAME(answer, QS_OK);
    SAME(qs_stream_set_priority(&s->conn, id, (int32_t)draw(3) - 1), QS_OK);
    s->ids[s->opened++] = id;
  }
}

static void write_streams(side *s) {
  for (size_t i = 0; i < s->opened; i++) {
    uint8_t data[300];
    size_t len = 1 + draw(sizeof data), written = 0;
    uint64_t code = 0;
    if (s->written[i] > BYTES)
      continue;
    if (len > BYTES - s->written[i])
      len = BYTES - s->written[i];
    for (size_t k = 0; k < len; k++)
      data[k] = content(s->ids[i], s->written[i] + k);
    int32_t answer =
        qs_stream_write(&s->conn, s->ids[i], data, len, &written, &code);
    if (answer == QS_ERR_BLOCKED)
      continue;
    SAME(answer, QS_OK);
    s->written[i] += written;
    if (s->written[i] == BYTES) {
      SAME(qs_stream_finish(&s->conn, s->ids[i], &code), QS_OK);
      s->written[i]++; /* once */
    }
  }
}

/* Reads piece by piece or, as often, several in one call. */
static void read_stream(side *s, uint64_t id) {
  for (;;) {
    uint8_t data[7000] = {0};
    size_t count = 0, *got = &s->got[id];
    uint64_t offset = 0, code = 0;
    int32_t answer =
        draw(2) ? qs_stream_read(&s->conn, id, data, 1 + draw(700), &count,
                                 &offset, &code)
                : qs_stream_read_many(&s->conn, id, data, 1 + draw(sizeof data),
                                      &count, &offset, &code);
    if (answer == QS_ERR_NO_STREAM)
      return;
    if (count > 0)
      SAME(offset, *got);
    for (size_t k = 0; k < count; k++)
      SAME(data[k], content(id, *got + k));
    *got += count;
    if (answer == QS_ERR_BLOCKED || answer == QS_DONE)
      return;
    if (answer == QS_END) {
      /* nothing comes back on a stream of this end */
      SAME(*got, qs_id_is_server(id) == s->is_server ? 0 : BYTES);
      s->ended++;
      return;
    }
    SAME(answer, QS_OK);
    SAME(count > 0, 1);
  }
}

static void act(side *s, const uint32_t *dirs) {
  qs_event event = {0, 0, 0, 0, 0};
  uint64_t id = 0;
  while (qs_poll(&s->conn, &event) == QS_OK) {
    if (event.kind == QS_EVENT_READABLE)
      read_stream(s, event.id);
    else if (event.kind == QS_EVENT_FINISHED)
      s->finished++;
    else if (event.kind == QS_EVENT_OPENED)
      while (qs_stream_accept(&s->conn, event.dir, &id) == QS_OK) {
        uint64_t code = 0;
        read_stream(s, id);
        if (!qs_id_is_uni(id)) /* nothing is said on the way back */
          SAME(qs_stream_finish(&s->conn, id, &code), QS_OK);
      }
  }
  open_streams(s, dirs);
  write_streams(s);
}

static void send(side *s) {
  while (s->flying < FLIGHT) {
    packet *p = &s->flight[s->flying];
    int32_t answer = emit(&s->conn, QS_ALL, 30 + draw(1000), p);
    if (answer == QS_DONE)
      return;
    SAME(answer, QS_OK);
    s->delivered[s->flying++] = 0;
  }
}

/* Any payload on its way is delivered, also once more, or settled. */
static void network(side *s, side *to) {
  for (uint32_t steps = draw(20); steps > 0 && s->flying > 0; steps--) {
    size_t at = draw((uint32_t)s->flying);
    packet *p = &s->flight[at];
    if (draw(3)) {
      SAME(deliver(&to->conn, p), QS_OK);
      s->delivered[at] = 1;
      continue;
    }
    /* one that came may be taken to be lost all the same */
    SAME(s->delivered[at] && draw(8) ? qs_acked(&s->conn, p->head.token)
                                     : qs_lost(&s->conn, p->head.token),
         QS_OK);
    s->flying--;
    *p = s->flight[s->flying];
    s->delivered[at] = s->delivered[s->flying];
  }
}

int main(int argc, char **argv) {
  static side a, b, none;
  static const uint32_t dirs[2] = {QS_BIDI, QS_UNI};
  uint64_t seeds = argc > 1 ? strtoull(argv[1], NULL, 10) : 20;
  for (uint64_t n = 1; n <= seeds; n++) {
    seed = n;
    a = b = none;
    b.is_server = 1;
    uint64_t window = 500 + draw(5000), each = 200 + draw(2000);
    SAME(open_end(&a.conn, QS_CLIENT, 2, window, each), QS_OK);
    SAME(open_end(&b.conn, QS_SERVER, 2, window, each), QS_OK);
    /* of each end's own streams three are bidirectional, whose way back is
     * finished by the other, and read to its end */
    for (uint32_t turn = 0; a.finished + b.finished < 3 * STREAMS ||
                            a.ended + b.ended < 2 * STREAMS;
         turn++) {
      if (turn > 100000) {
        fprintf(stderr, "seed %" PRIu64 ": no end\n", n);
        return 1;
      }
      act(&a, dirs);
      act(&b, dirs);
      send(&a);
      send(&b);
      network(&a, &b);
      network(&b, &a);
    }
    qs_conn_free(&a.conn);
    qs_conn_free(&b.conn);
  }
  printf("two ends: %" PRIu64 " seeds\n", seeds);
  return 0;
}
