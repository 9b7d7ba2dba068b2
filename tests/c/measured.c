/* The check numbers of the work that docs/performance.md measures, against
 * numbers that were reckoned by hand. It is linked with the static library of
 * the crate streambench, which has every case; or, with -DENDS_ALONE, with
 * cases.c, which does g, h and i by calls of quic_streams.h.
 *
 * Each byte of the content is 0. So the offsets 0, 256, 512 and so on add 1, 2,
 * 3 and so on.
 */
#include <inttypes.h>
#include <stdint.h>
#include <stdio.h>
#include <stdlib.h>

enum { PIECES = 1024, CONTENT = (1 << 20) + 65536 };

#define REFUSED UINT64_MAX

typedef uint64_t case_of(size_t size, const uint8_t *src, size_t src_len,
                         const uint32_t *perm, size_t perm_len);

extern case_of streambench_case_g, streambench_case_h, streambench_case_i;

static const uint8_t content[CONTENT];

static void same(uint64_t found, uint64_t wanted, const char *text, int line) {
  if (found == wanted)
    return;
  fprintf(stderr, "%d: %s gave %" PRIu64 ", not %" PRIu64 "\n", line, text,
          found, wanted);
  exit(1);
}

/* The same with these pieces in turn, or with none. */
#define WITH(name, size, perm, count, wanted)                                  \
  same(streambench_case_##name(size, content, CONTENT, perm, count), wanted,   \
       #name " " #size, __LINE__)

#define WITH_NONE(name, size, wanted) WITH(name, size, NULL, 0, wanted)

static uint64_t up_to(uint64_t last) { return last * (last + 1) / 2; }

static void a_stream_goes_from_end_to_end(void) {
  /* The server answers with MAX_STREAMS, 0x13 and 2; one stream is opened,
   * acknowledged, and one more permitted. */
  uint64_t answer = 0x14 + 2 + 3;
  /* One frame, 0x0b, 2 and a length of one or of two bytes. */
  uint64_t none = 12 + 3 + 1, some = (12 + 2 + 3 + 4) + 1004 + 1 + 10;
  WITH_NONE(g, 0, none + answer);
  WITH_NONE(g, 1000, some + answer);
  WITH_NONE(i, 1000, some + answer);
  /* 21 payloads, of which the twentieth is sent twice, and 25,298 bytes in all.
   * All but the first that comes tell that the stream is readable. 94 of the
   * bytes read are seen. */
  WITH_NONE(i, 24000, 5870 + 25298 + 22 + 20 + up_to(94) + answer);
}

static void streams_are_written_in_parts(void) {
  /* Four frames of 256 bytes, with heads of 4, 6, 6 and 6 bytes. Five events:
   * opened, three times readable, finished. */
  uint64_t sum = (11 + 2 + 3 + 4 + 5) + 1046 + 4 + 5 + up_to(4);
  WITH_NONE(h, 0, 0);
  WITH_NONE(h, 1, sum);
  WITH_NONE(h, 1024, sum);
}

#ifndef ENDS_ALONE
extern case_of streambench_case_z, streambench_case_a, streambench_case_b,
    streambench_case_c, streambench_case_c2, streambench_case_d,
    streambench_case_e, streambench_case_e2, streambench_case_f,
    streambench_case_j, streambench_case_k, streambench_case_l,
    streambench_case_m;

static uint32_t in_turn[PIECES];

#define IN_TURN(name, size, wanted) WITH(name, size, in_turn, PIECES, wanted)

static void pieces_are_seen_once(void) {
  /* 40 offsets below 10,000. */
  IN_TURN(z, 10000, up_to(40));
  IN_TURN(a, 10000, up_to(40));
  /* 4,093 offsets below the 1,047,600 of a window. */
  IN_TURN(b, 1, up_to(4093));
  IN_TURN(d, 1, up_to(4093) + 1047600);
  IN_TURN(k, 1, up_to(4093));
  /* 342 offsets below the 87,300 of a window of small pieces. */
  IN_TURN(l, 1, up_to(342));
}

static void a_flood_of_bytes_is_refused(void) {
  const uint64_t refused = UINT64_C(1) << 32;
  /* Each assembler adds the next offset, and 2^32 where it refused the last
   * byte. */
  IN_TURN(c, 1, 3);
  IN_TURN(m, 1, 3);
  IN_TURN(c, 1200, 2401);
  IN_TURN(m, 1200, 2401);
  IN_TURN(c, 2049, refused + 4099);
  IN_TURN(m, 2049, refused + 4099);
  IN_TURN(c2, 1, 3);
  IN_TURN(c2, 1199, refused + 2400);
  IN_TURN(c2, 2049, refused + 4100);
}

static void frames_are_sent_until_all_is_acknowledged(void) {
  const uint32_t none_acked[] = {5000};
  /* All bytes, and one frame with a length: the last. */
  uint64_t sum = up_to(40) + 10000 + 1;
  IN_TURN(e, 10000, sum);
  IN_TURN(e2, 10000, sum);
  IN_TURN(j, 10000, sum);
  /* Of 11 frames the tenth is sent twice: the 1,198 bytes from 10,784 on, with
   * the offsets 43 * 256 to 46 * 256. */
  uint64_t twice = up_to(51) + 13000 + 1 + (44 + 45 + 46 + 47) + 1198;
  IN_TURN(f, 13000, twice);
  /* Nothing is acknowledged, so all 13,000 bytes are retained. */
  WITH(f, 13000, none_acked, 1, twice + 13000);
}

/* One byte of the content is missing, or the size is beyond any. */
static void impossible_arguments_are_refused(void) {
  const uint32_t behind[] = {873, UINT32_MAX};
  const size_t short_by_one = CONTENT - 1, too_many = (size_t)1 << 60;
#define SHORT(name)                                                            \
  same(streambench_case_##name(0, content, short_by_one, NULL, 0), REFUSED,    \
       #name " without a byte", __LINE__)
  WITH_NONE(a, 0, 0);
  SHORT(a);
  SHORT(g);
  SHORT(i);
  WITH_NONE(e, too_many, REFUSED);
  WITH_NONE(h, too_many, REFUSED);
  WITH(b, 1, behind, 2, 0);
}

static void every_case(void) {
  for (uint32_t piece = 0; piece < PIECES; piece++)
    in_turn[piece] = piece;
  pieces_are_seen_once();
  a_flood_of_bytes_is_refused();
  frames_are_sent_until_all_is_acknowledged();
  impossible_arguments_are_refused();
}
#endif

int main(void) {
  a_stream_goes_from_end_to_end();
  streams_are_written_in_parts();
#ifdef ENDS_ALONE
  printf("measured: 2 tests\n");
#else
  every_case();
  printf("measured: 6 tests\n");
#endif
  return 0;
}
