/* SPDX-License-Identifier: MIT OR Apache-2.0 */
/**
 * @file quic_streams.h
 * @brief The streams and datagrams of one endpoint of a QUIC connection.
 *
 * RFC 9000 sections 2 to 4, 13.3 and 19, and RFC 9221, for a host that has the
 * rest of the connection: packets, acknowledgement ranges, loss detection,
 * encryption, timers and sockets. The host passes in the frames of received
 * packets, lets the library write payloads for the packets that it sends, and
 * reports each payload once, as acknowledged or lost.
 *
 * @par Return values
 * qs_conn_free and qs_buffer_free return nothing, qs_version a number. Every
 * other call returns an int32_t: QS_OK, QS_DONE, QS_END or QS_OTHER_FRAME,
 * which are not negative, or one of QS_ERR_*, which are negative. A call on a
 * closed handle, except qs_conn_open, returns QS_ERR_CLOSED. A call with a
 * number above its bound returns QS_ERR_ARGUMENT. A call lists all other values
 * that it returns. If nothing else is said, a call that returns an error
 * changes nothing, except that it may queue a MAX_STREAMS frame that had become
 * due by qs_set_max_concurrent or qs_zero_rtt_rejected; and an out-parameter is
 * written only with the return values that name it.
 *
 * @par Numbers
 * Stream ids, offsets, limits, receive windows and application error codes are
 * below 2^62 (RFC 9000 section 16). The stream limits of qs_config and of
 * qs_peer_limits are at most 2^60 (section 4.6). A direction is QS_BIDI or
 * QS_UNI. Lengths are in bytes.
 *
 * @par Pointers
 * A handle is as the library left it. A buffer of length 0 may be NULL. No
 * other pointer may be NULL, and no out-parameter is optional. Memory that the
 * library reads is initialised. Memory that it only writes, buffers and
 * out-parameters alike, need not be. No two pointers of one call may point to
 * the same or to overlapping memory: one variable does not serve for two
 * out-parameters. The library keeps no pointer of the host after a call, and
 * shows its own memory by qs_emit_lent, qs_stream_read_lent and qs_buffer.
 *
 * @par Questions
 * A call with a const handle changes nothing that a later call can see. While
 * it runs, it writes to the handle all the same: no other call on the handle
 * may run beside it, and the handle is in memory that can be written.
 *
 * @par Structs that grow
 * qs_config, qs_peer_limits, qs_event, qs_info, qs_payload and qs_due are lists
 * of 64-bit numbers, and a later version may add numbers at their end. The
 * calls that read or fill them are inline functions of this header, which tell
 * the library how many numbers the host's struct has, so a host and a library
 * of different versions work together. A number that the host does not have
 * counts as 0, and 0 means "as before". A number that the library does not know
 * is set to 0 in a struct that it fills, and must be 0 in one that it reads:
 * else the call returns QS_ERR_ARGUMENT. So initialise a qs_config and a
 * qs_peer_limits by the names of their fields, or with zeros first. A binding
 * of another language calls the functions whose names end in _words; count is
 * how many numbers its struct has. All other structs stay as they are.
 *
 * @par Memory
 * The library allocates with malloc and realloc and releases with free. If that
 * fails, the call returns QS_ERR_NOMEM. The library never ends the process.
 *
 * @par Threads, signals, processes
 * A call on a handle or on a qs_buffer must end before the next one on it
 * begins. Handles share nothing: different threads may use different handles at
 * the same time. A handle may move to another thread if the host orders the
 * two, for example by a lock; no proof covers this, which relies on the library
 * having no global and no thread-local state. No call may be made from a signal
 * handler, since malloc may not. The library has no lock, file or thread, so a
 * forked process has a copy of each session; only one may go on.
 *
 * @par Platform
 * x86-64-v2 processors (SSE4.2, POPCNT), System V calls.
 */
#ifndef QUIC_STREAMS_H
#define QUIC_STREAMS_H

#include <stddef.h>
#include <stdint.h>

/** The version of this header. Before 1.0 a new minor version may change the
 * interface, a new patch version does not. */
#define QS_VERSION_MAJOR 0
#define QS_VERSION_MINOR 1
#define QS_VERSION_PATCH 0
/** The version as text. */
#define QS_VERSION "0.1.0"
/** The version as a number, 0xMMmmpp, for comparisons. */
#define QS_VERSION_NUM                                                         \
  ((QS_VERSION_MAJOR << 16) | (QS_VERSION_MINOR << 8) | QS_VERSION_PATCH)

/** Precedes each declaration. May be defined before this header is read. */
#ifndef QS_API
#if defined(__GNUC__)
#define QS_API __attribute__((visibility("default")))
#else
#define QS_API
#endif
#endif

#ifdef __cplusplus
extern "C" {
#endif

/** The version of the library that runs, as QS_VERSION_NUM is that of this
 * header. If major or minor version differ, use another library. */
QS_API uint32_t qs_version(void);

/* ---- return values ------------------------------------------------------ */
/** Return values. */
enum {
  QS_OK = 0,                  /**< the call did what it says */
  QS_DONE = 1,                /**< nothing is available now */
  QS_END = 2,                 /**< the stream was read to its end */
  QS_OTHER_FRAME = 3,         /**< the next frame of a payload is the host's */
  QS_ERR_CLOSED = -1,         /**< the handle or the buffer is closed */
  QS_ERR_NOMEM = -2,          /**< out of memory; the call may be repeated */
  QS_ERR_ARGUMENT = -3,       /**< a number is above its bound */
  QS_ERR_IN_USE = -4,         /**< the handle is open */
  QS_ERR_NO_STREAM = -5,      /**< this side of the stream is not open */
  QS_ERR_BLOCKED = -6,        /**< nothing can be written, read or queued now */
  QS_ERR_STOPPED = -7,        /**< the peer sent STOP_SENDING */
  QS_ERR_RESET = -8,          /**< the peer sent RESET_STREAM */
  QS_ERR_ORDER = -9,          /**< ordered read after an unordered read */
  QS_ERR_PROTOCOL = -10,      /**< the peer violated the protocol */
  QS_ERR_MALFORMED = -11,     /**< the payload is not a sequence of frames */
  QS_ERR_TOKEN = -12,         /**< no unreported payload has this token */
  QS_ERR_DATAGRAMS_OFF = -13, /**< this endpoint or the peer takes none */
  QS_ERR_TOO_LARGE = -14,     /**< the datagram is too long */
  QS_ERR_TOO_SMALL = -15      /**< the buffer is too small */
};

/** A short text for a return value, for logs. Never NULL. */
static inline const char *qs_strerror(int32_t result) {
  /* clang-format off */
  static const char *const texts[] = {
      "buffer too small", "datagram too large", "datagrams are off",
      "no such payload", "malformed payload", "protocol violated by peer",
      "ordered read after unordered read", "reset by peer", "stopped by peer",
      "blocked", "closed stream", "handle in use",
      "argument out of range", "out of memory", "closed handle",
      "ok", "nothing available now", "end of stream", "frame of another type"};
  /* clang-format on */
  return result < QS_ERR_TOO_SMALL || result > QS_OTHER_FRAME
             ? "unknown return value"
             : texts[result - QS_ERR_TOO_SMALL];
}

/* ---- one endpoint of a connection ---------------------------------------- */
/** A handle of a session, which is one endpoint of a connection. The host
 * allocates the handle. All zero bytes are a closed handle. It may be moved
 * (memcpy to a new place, no further use of the old one) but never copied: two
 * handles of one session free its memory twice. */
typedef struct qs_conn {
  uint64_t live; /**< private: 1 if open */
  void *at;      /**< private: the session */
} qs_conn;

/** A closed handle. */
#define QS_CONN_INIT                                                           \
  { 0, NULL }

/** The side of an endpoint. */
enum { QS_CLIENT = 0, QS_SERVER = 1 };
/** The direction of a stream. */
enum { QS_BIDI = 0, QS_UNI = 1 };
/** No number: datagrams are off. */
#define QS_NONE UINT64_MAX
/** The largest receive window, in bytes, with which an honest peer cannot
 * exceed the reassembly limit while `percent` of the packets of a flight are
 * lost and each packet carries `packet` bytes. A stream that has more than
 * 1,024 disjoint segments buffered fails with INTERNAL_ERROR, which closes the
 * connection; each lost packet leaves a gap until it is retransmitted. */
#define QS_WINDOW_FOR(packet, percent)                                         \
  (UINT64_C(1024) * (uint64_t)(packet)*100 / (uint64_t)(percent))

/** The configuration of a session.
 *
 * The host advertises the same numbers in its transport parameters (RFC 9000
 * section 18.2, RFC 9221 section 3): max_remote_uni as initial_max_streams_uni,
 * max_remote_bidi as initial_max_streams_bidi, receive_window as
 * initial_max_data, stream_window as each initial_max_stream_data_*, and
 * datagram_receive in max_datagram_frame_size.
 *
 * A datagram counts its length and 32 bytes against datagram_receive: a longer
 * one than datagram_receive - 32 is a PROTOCOL_VIOLATION of the peer, so
 * advertise a max_datagram_frame_size of at most datagram_receive - 32 plus
 * the header of the frame. If received datagrams exceed datagram_receive, the
 * oldest are dropped, without an event or a count.
 *
 * Keep stream_window at or below QS_WINDOW_FOR(packet, percent). */
typedef struct qs_config {
  uint64_t side;            /**< QS_CLIENT or QS_SERVER */
  uint64_t max_remote_uni;  /**< streams that the peer may open at first, one
                                 way; at most 2^60, all allocated at once */
  uint64_t max_remote_bidi; /**< the same, both ways */
  uint64_t send_window;     /**< written bytes that are buffered at most until
                                 they are acknowledged; any number */
  uint64_t receive_window;  /**< bytes of all streams that may be unread */
  uint64_t stream_window;   /**< bytes of each stream that may be unread */
  uint64_t
      datagram_receive;   /**< bytes of datagrams that may be unread; QS_NONE:
                               the peer may send none, and qs_datagram_send
                               returns QS_ERR_DATAGRAMS_OFF too */
  uint64_t datagram_send; /**< bytes of datagrams that may be pending, each
                               with 32 more than its length; any number */
  uint64_t track_streams; /**< 1: the session keeps a number of the host's own
                               for each stream, and raises QS_EVENT_CLOSED.
                               Each stream then takes some memory and time more
                               until that event is polled. 0: neither */
} qs_config;

/** What qs_conn_open calls. */
QS_API int32_t qs_conn_open_words(qs_conn *conn, const uint64_t *words,
                                  size_t count);

/** Opens a session in a closed handle.
 * @param conn a closed handle; left unchanged by an error
 * @param config read; not needed after the call
 * @retval QS_OK the handle is open
 * @retval QS_ERR_IN_USE the handle was open already
 * @retval QS_ERR_ARGUMENT a number is above its bound, or unknown and not 0
 * @retval QS_ERR_NOMEM out of memory */
static inline int32_t qs_conn_open(qs_conn *conn, const qs_config *config) {
  return qs_conn_open_words(conn, (const uint64_t *)config, sizeof *config / 8);
}

/** Frees the session with all its memory, and closes the handle. A closed
 * handle stays closed. */
QS_API void qs_conn_free(qs_conn *conn);

/** Reports that the connection is closing (RFC 9000 section 10): call it when
 * CONNECTION_CLOSE was sent or received, also after QS_ERR_PROTOCOL and
 * QS_ERR_MALFORMED. From then on qs_stream_open returns QS_DONE and
 * qs_stream_write returns QS_ERR_BLOCKED, or QS_ERR_STOPPED; neither raises an
 * event later. All other calls work as before: received data can be read,
 * events polled and payloads reported. Emit no payload and pass in no frame any
 * more (section 10.2); the library does not refuse them.
 * @retval QS_OK the session is closing */
QS_API int32_t qs_conn_close(qs_conn *conn);

/** The limits in the peer's transport parameters (RFC 9000 section 18.2), by
 * their names there, each below 2^62, and a limit of datagrams, which is any
 * number. An absent parameter is 0; max_datagram is QS_NONE if the peer's
 * max_datagram_frame_size is absent or 0 (RFC 9221 section 3). */
typedef struct qs_peer_limits {
  /* bytes of all streams; streams that may be opened */
  uint64_t initial_max_data;
  uint64_t initial_max_streams_bidi;
  uint64_t initial_max_streams_uni;
  /* bytes of each stream: unidirectional, opened by the peer, opened here */
  uint64_t initial_max_stream_data_uni;
  uint64_t initial_max_stream_data_bidi_local;
  uint64_t initial_max_stream_data_bidi_remote;
  uint64_t max_datagram; /**< length of the longest datagram that the path and
                              the peer accept; QS_NONE: none */
} qs_peer_limits;

/** What qs_set_peer_limits calls. */
QS_API int32_t qs_set_peer_limits_words(qs_conn *conn, const uint64_t *words,
                                        size_t count);

/** Sets the peer's limits. Before, no stream can be opened and nothing can be
 * written. For 0-RTT, call it first with the remembered limits. Each open
 * stream of this endpoint gets its new limit, and QS_EVENT_WRITABLE is raised
 * if it was blocked.
 * @param limits read; not needed after the call
 * @retval QS_OK the limits are set
 * @retval QS_ERR_ARGUMENT a stream limit is above 2^60, or another is 2^62 or
 *         more: close the connection with TRANSPORT_PARAMETER_ERROR; or a
 *         number is unknown and not 0
 * @retval QS_ERR_NOMEM out of memory; never if no stream was opened here */
static inline int32_t qs_set_peer_limits(qs_conn *conn,
                                         const qs_peer_limits *limits) {
  return qs_set_peer_limits_words(conn, (const uint64_t *)limits,
                                  sizeof *limits / 8);
}

/** The server rejected the 0-RTT data of a client (RFC 9001 section 4.6.2).
 * Discards the client's streams with all sent and pending data, and all tokens
 * of earlier payloads. Set the peer's limits next.
 * @retval QS_OK done */
QS_API int32_t qs_zero_rtt_rejected(qs_conn *conn);

/** Queues all data that was sent in 0-RTT again, as needed after a Retry (RFC
 * 9000 section 17.2.5). Control frames are not covered: report the earlier
 * payloads lost, by their tokens. Meant for a time at which nothing was
 * acknowledged.
 * @retval QS_OK done
 * @retval QS_ERR_NOMEM out of memory */
QS_API int32_t qs_retransmit_all_for_0rtt(qs_conn *conn);

/* ---- streams ------------------------------------------------------------- */
/** Opens the next stream of a direction.
 * @param dir QS_BIDI or QS_UNI
 * @param[out] id the stream, written with QS_OK only
 * @retval QS_OK the stream is open
 * @retval QS_DONE the peer's stream limit is reached, and QS_EVENT_AVAILABLE
 *         follows when it rises; or the connection is closing
 * @retval QS_ERR_NOMEM out of memory */
QS_API int32_t qs_stream_open(qs_conn *conn, uint32_t dir, uint64_t *id);

/** Accepts the next stream of a direction that the peer opened, in the order
 * of their ids.
 * @param dir QS_BIDI or QS_UNI
 * @param[out] id the stream, written with QS_OK only
 * @retval QS_OK the stream is accepted
 * @retval QS_DONE no stream waits to be accepted
 * @retval QS_ERR_NOMEM out of memory; the stream waits still. Only if
 *         track_streams is 1 */
QS_API int32_t qs_stream_accept(qs_conn *conn, uint32_t dir, uint64_t *id);

/** Sets a number of the host's own for a stream, for example the address of
 * what the host keeps of it. Each later event of the stream has it. The session
 * keeps such numbers only if track_streams is 1.
 * @param id a stream that was opened or accepted and did not raise
 *           QS_EVENT_CLOSED
 * @param user any number; it is 0 at first
 * @retval QS_OK it is set
 * @retval QS_ERR_NO_STREAM there is no such stream, or track_streams is 0
 * @retval QS_ERR_ARGUMENT id is 2^62 or above
 * @retval QS_ERR_NOMEM out of memory; the number is as it was */
QS_API int32_t qs_stream_set_user(qs_conn *conn, uint64_t id, uint64_t user);

/** Returns the number that qs_stream_set_user set last for a stream.
 * @param id as for qs_stream_set_user
 * @param[out] user that number, 0 if none was set; written with QS_OK only
 * @retval QS_OK *user is set
 * @retval QS_ERR_NO_STREAM there is no such stream, or track_streams is 0
 * @retval QS_ERR_ARGUMENT id is 2^62 or above */
QS_API int32_t qs_stream_user(const qs_conn *conn, uint64_t id, uint64_t *user);

/** Writes data to a stream, and copies it: len bytes, or as many as the peer's
 * limits and the send window allow. After a partial write call again with the
 * rest: only QS_ERR_BLOCKED makes QS_EVENT_WRITABLE certain. A write of length
 * 0 on a stream that is not blocked returns QS_OK with 0 bytes.
 * @param data len bytes; may be NULL if len is 0
 * @param[out] written bytes written, with QS_OK only
 * @param[out] app_code the peer's error code, with QS_ERR_STOPPED only
 * @retval QS_OK *written bytes were taken, at least one if len is not 0
 * @retval QS_ERR_BLOCKED nothing can be written now; QS_EVENT_WRITABLE follows,
 *         unless the stream is finished, reset or stopped before, or the
 *         connection is closing. The session notes that the stream is blocked,
 *         and DATA_BLOCKED or STREAM_DATA_BLOCKED may become due. Never
 *         returned for a stream that the peer stopped.
 * @retval QS_ERR_STOPPED the peer sent STOP_SENDING: reset the stream, so that
 *         the peer learns its final size. Also returned while the peer's limits
 *         or the send window allow no data, and after qs_conn_close. The stream
 *         may be noted as blocked, as with QS_ERR_BLOCKED.
 * @retval QS_ERR_NO_STREAM the send side is closed or never existed
 * @retval QS_ERR_NOMEM out of memory */
QS_API int32_t qs_stream_write(qs_conn *conn, uint64_t id, const uint8_t *data,
                               size_t len, size_t *written, uint64_t *app_code);

/** Writes data to a stream as qs_stream_write does, and finishes the stream in
 * the same step if fin is not 0 and all of len was taken: the last STREAM frame
 * of the data can have the FIN bit. If len is 0 and fin is not 0 it is
 * qs_stream_finish, which needs no credit.
 * @param data len bytes; may be NULL if len is 0
 * @param fin not 0: no data follows
 * @param[out] written bytes written, also with the errors listed here
 * @param[out] app_code the peer's error code, with QS_ERR_STOPPED only
 * @retval QS_OK *written bytes were taken, at least one if len is not 0. If fin
 *         is not 0 and *written is len, the stream is finished, and
 *         QS_EVENT_FINISHED follows when all is acknowledged.
 * @retval QS_ERR_BLOCKED as qs_stream_write; *written is 0
 * @retval QS_ERR_STOPPED as qs_stream_write; *written is 0
 * @retval QS_ERR_NO_STREAM the send side is closed or never existed
 * @retval QS_ERR_NOMEM out of memory. *written is 0, and nothing was written;
 *         or it is len, all was written and the stream is not finished: call
 *         qs_stream_finish. */
QS_API int32_t qs_stream_write_fin(qs_conn *conn, uint64_t id,
                                   const uint8_t *data, size_t len,
                                   uint32_t fin, size_t *written,
                                   uint64_t *app_code);

/** Asks how many bytes one qs_stream_write would take now: the least of what
 * the peer's limit for the stream, its limit for all streams and the send
 * window allow. A write of len bytes takes len or *bytes, whichever is less. If
 * *bytes is 0, a write of one byte is QS_ERR_BLOCKED or QS_ERR_STOPPED. Nothing
 * is noted as blocked, so no event follows: write to get QS_EVENT_WRITABLE.
 * @param[out] bytes written with QS_OK only; 0 if the peer stopped the stream,
 *             and after qs_conn_close
 * @retval QS_OK *bytes is set
 * @retval QS_ERR_NO_STREAM a write would return it: the send side is finished,
 *         reset or closed, or never existed */
QS_API int32_t qs_stream_send_room(const qs_conn *conn, uint64_t id,
                                   uint64_t *bytes);

/** Finishes a stream: no data follows, and FIN is sent.
 * @param[out] app_code the peer's error code, with QS_ERR_STOPPED only
 * @retval QS_OK FIN is queued; QS_EVENT_FINISHED follows when all is
 *         acknowledged
 * @retval QS_ERR_STOPPED the peer sent STOP_SENDING; reset the stream instead
 * @retval QS_ERR_NO_STREAM the send side is closed or never existed
 * @retval QS_ERR_NOMEM out of memory */
QS_API int32_t qs_stream_finish(qs_conn *conn, uint64_t id, uint64_t *app_code);

/** Resets a stream (RFC 9000 section 19.4): unacknowledged data is dropped, and
 * RESET_STREAM is sent.
 * @retval QS_OK the send side is reset
 * @retval QS_ERR_NO_STREAM the send side is closed or never existed
 * @retval QS_ERR_NOMEM out of memory */
QS_API int32_t qs_stream_reset(qs_conn *conn, uint64_t id, uint64_t app_code);

/** Asks the peer to stop sending (STOP_SENDING, RFC 9000 section 19.5), and
 * drops unread data.
 * @retval QS_OK the receive side is stopped
 * @retval QS_ERR_NO_STREAM the receive side is closed or never existed
 * @retval QS_ERR_NOMEM out of memory */
QS_API int32_t qs_stream_stop(qs_conn *conn, uint64_t id, uint64_t app_code);

/** Sets the priority of a stream: streams of a higher number are sent first.
 * A new stream has priority 0.
 * @retval QS_OK the priority is set
 * @retval QS_ERR_NO_STREAM the send side is closed or never existed
 * @retval QS_ERR_NOMEM out of memory */
QS_API int32_t qs_stream_set_priority(qs_conn *conn, uint64_t id,
                                      int32_t priority);

/** Reads the priority of a stream.
 * @param[out] priority written with QS_OK only
 * @retval QS_OK *priority is set
 * @retval QS_ERR_NO_STREAM the send side is closed or never existed */
QS_API int32_t qs_stream_priority(const qs_conn *conn, uint64_t id,
                                  int32_t *priority);

/** Asks whether the peer sent STOP_SENDING for a stream.
 * @param[out] app_code the peer's error code, with QS_OK only
 * @retval QS_OK it did
 * @retval QS_DONE it did not
 * @retval QS_ERR_NO_STREAM the send side is closed or never existed */
QS_API int32_t qs_stream_stopped(const qs_conn *conn, uint64_t id,
                                 uint64_t *app_code);

/** Asks whether the peer reset a stream.
 * @param[out] app_code the peer's error code, with QS_OK only
 * @retval QS_OK it did; this call closes the receive side
 * @retval QS_DONE it did not
 * @retval QS_ERR_NO_STREAM the receive side is closed or never existed
 * @retval QS_ERR_NOMEM out of memory */
QS_API int32_t qs_stream_received_reset(qs_conn *conn, uint64_t id,
                                        uint64_t *app_code);

/** Reads the next bytes of a stream in order, at most cap, and returns their
 * credit to the peer (RFC 9000 section 4.2). Here "nothing now" is
 * QS_ERR_BLOCKED; qs_stream_read_many and qs_stream_read_lent return QS_DONE,
 * since bytes may come with it.
 * @param[out] data at least cap bytes; the first *count are written
 * @param[out] count bytes read: above 0 with QS_OK; 0 with QS_ERR_BLOCKED,
 *             QS_END, QS_ERR_RESET and QS_ERR_NOMEM; else not written
 * @param[out] offset of the first byte, with QS_OK only
 * @param[out] app_code the peer's error code, with QS_ERR_RESET only
 * @retval QS_OK more may be available: call again
 * @retval QS_ERR_BLOCKED nothing is available now; QS_EVENT_READABLE follows
 * @retval QS_END all was read, and the receive side is closed
 * @retval QS_ERR_RESET the peer reset the stream; the receive side is closed
 * @retval QS_ERR_NOMEM out of memory; nothing was read
 * @retval QS_ERR_TOO_SMALL cap is 0
 * @retval QS_ERR_NO_STREAM the receive side is closed or never existed
 * @retval QS_ERR_ORDER the stream was read unordered before */
QS_API int32_t qs_stream_read(qs_conn *conn, uint64_t id, uint8_t *data,
                              size_t cap, size_t *count, uint64_t *offset,
                              uint64_t *app_code);

/** Reads received bytes of a stream in any order; else as qs_stream_read. After
 * it an ordered read of the same stream is QS_ERR_ORDER.
 * @copydetails qs_stream_read */
QS_API int32_t qs_stream_read_unordered(qs_conn *conn, uint64_t id,
                                        uint8_t *data, size_t cap,
                                        size_t *count, uint64_t *offset,
                                        uint64_t *app_code);

/** Reads the next bytes of a stream in order, those of several frames in one
 * call, and returns with them whether more may follow. It reads up to 64
 * segments; each has an equal share of cap, of at least 2048 bytes if cap has
 * as many.
 * @param[out] data at least cap bytes; the first *count are written
 * @param[out] count bytes read, may be 0; 0 with QS_ERR_RESET and QS_ERR_NOMEM;
 *             not written with the errors after these
 * @param[out] offset of the first byte, written only if *count is above 0
 * @param[out] app_code the peer's error code, with QS_ERR_RESET only
 * @retval QS_OK more may be available: call again
 * @retval QS_DONE nothing more is available now; QS_EVENT_READABLE follows
 * @retval QS_END nothing more follows, and the receive side is closed
 * @retval QS_ERR_RESET the peer reset the stream; the receive side is closed
 * @retval QS_ERR_NOMEM out of memory; nothing was read
 * @retval QS_ERR_TOO_SMALL cap is 0
 * @retval QS_ERR_NO_STREAM the receive side is closed or never existed
 * @retval QS_ERR_ORDER the stream was read unordered before */
QS_API int32_t qs_stream_read_many(qs_conn *conn, uint64_t id, uint8_t *data,
                                   size_t cap, size_t *count, uint64_t *offset,
                                   uint64_t *app_code);

/** Lent bytes: the len bytes at memory + start. */
typedef struct qs_slice {
  const uint8_t *memory; /**< memory of the session */
  size_t start;          /**< index of the first byte */
  size_t len;            /**< how many bytes */
} qs_slice;

/** The first byte of a slice. */
static inline const uint8_t *qs_slice_data(const qs_slice *slice) {
  return slice->memory + slice->start;
}

/** Reads the next bytes of a stream in order as qs_stream_read_many does, but
 * copies none: slices show where they are in memory of the session, one for
 * each frame. They are valid until the next call on the handle.
 * @param[out] slices room for max of them; the first *count are written, at
 *             most 64
 * @param[out] count slices written, may be 0; 0 with QS_ERR_RESET and
 *             QS_ERR_NOMEM; not written with the errors after these
 * @param[out] offset of the first byte, written only if *count is above 0
 * @param[out] app_code the peer's error code, with QS_ERR_RESET only
 * @retval QS_OK more may be available: call again
 * @retval QS_DONE nothing more is available now; QS_EVENT_READABLE follows
 * @retval QS_END nothing more follows, and the receive side is closed
 * @retval QS_ERR_RESET the peer reset the stream; the receive side is closed
 * @retval QS_ERR_NOMEM out of memory; nothing was read
 * @retval QS_ERR_TOO_SMALL max is 0
 * @retval QS_ERR_NO_STREAM the receive side is closed or never existed
 * @retval QS_ERR_ORDER the stream was read unordered before */
QS_API int32_t qs_stream_read_lent(qs_conn *conn, uint64_t id, qs_slice *slices,
                                   size_t max, size_t *count, uint64_t *offset,
                                   uint64_t *app_code);

/* ---- windows, limits, events --------------------------------------------- */
/** Sets how many written bytes are buffered at most until they are
 * acknowledged. Any number.
 * @retval QS_OK done */
QS_API int32_t qs_set_send_window(qs_conn *conn, uint64_t window);

/** Sets how many bytes of all streams may be received and not read. A smaller
 * window takes back no credit that was advertised.
 * @retval QS_OK done */
QS_API int32_t qs_set_receive_window(qs_conn *conn, uint64_t window);

/** Sets how many streams of a direction the peer may use at a time. A lower
 * number takes back none that were allowed. Time and memory grow with count.
 * @retval QS_OK done
 * @retval QS_ERR_NOMEM out of memory */
QS_API int32_t qs_set_max_concurrent(qs_conn *conn, uint32_t dir,
                                     uint64_t count);

/** The kinds of events. The first data of a new stream raises QS_EVENT_OPENED
 * and no QS_EVENT_READABLE; later data of a stream that is not yet accepted
 * raises QS_EVENT_READABLE, and is read after it is accepted. A datagram that
 * qs_datagram_recv found too long for its buffer can still be read, so the next
 * one raises no QS_EVENT_DATAGRAM.
 *
 * QS_EVENT_CLOSED is raised only if track_streams is 1. It is the last event of
 * each stream that was opened or accepted, raised when neither side of it is
 * left. The receive side is gone once it was
 * read to FIN, its reset was returned, or it was stopped and its final size is
 * known; the send side once its FIN and all data, or its reset, are
 * acknowledged (RFC 9000 sections 3.1 and 3.2). All other pending events are
 * returned first. Streams that qs_zero_rtt_rejected discards raise none. The
 * event is not lost if memory runs out. Proved: when it is raised, neither side
 * is left, and none is raised for the stream again. Proved of each call alone,
 * and not of all calls together: that qs_poll looks at each stream whose last
 * side a call closed. */
enum {
  QS_EVENT_OPENED = 1,    /**< the peer opened streams of dir: accept, read */
  QS_EVENT_READABLE = 2,  /**< id may have bytes, FIN or a reset to read */
  QS_EVENT_WRITABLE = 3,  /**< id was blocked and may accept bytes now */
  QS_EVENT_FINISHED = 4,  /**< all data of id and its FIN are acknowledged */
  QS_EVENT_STOPPED = 5,   /**< STOP_SENDING, app_code, for id: reset it */
  QS_EVENT_AVAILABLE = 6, /**< more streams of dir may be opened */
  QS_EVENT_DATAGRAM = 7,  /**< a datagram can be read, and none could before */
  QS_EVENT_DATAGRAM_ROOM = 8, /**< a blocked datagram may be queued now */
  QS_EVENT_CLOSED = 9 /**< both sides of id are gone: free what belongs to
                           it. Only if track_streams is 1 */
};

/** An event. Look at kind first: a field that the kind does not have is 0, and
 * 0 is a stream id, a direction and an error code too. */
typedef struct qs_event {
  uint64_t kind;     /**< QS_EVENT_* */
  uint64_t dir;      /**< with each kind but the datagrams': QS_BIDI, QS_UNI */
  uint64_t id;       /**< READABLE, WRITABLE, FINISHED, STOPPED, CLOSED: the
                          stream */
  uint64_t app_code; /**< STOPPED: application error code */
  uint64_t user;     /**< with an id: the number that qs_stream_set_user set
                          last for the stream, 0 if it set none and if
                          track_streams is 0 */
} qs_event;

/** What qs_poll calls. */
QS_API int32_t qs_poll_words(qs_conn *conn, uint64_t *words, size_t count);

/** Removes and returns the next event.
 * @param[out] event written with QS_OK only
 * @retval QS_OK *event is set
 * @retval QS_DONE there is none */
static inline int32_t qs_poll(qs_conn *conn, qs_event *event) {
  return qs_poll_words(conn, (uint64_t *)event, sizeof *event / 8);
}

/** The state of a session. */
typedef struct qs_info {
  uint64_t max_concurrent_bidi, max_concurrent_uni; /**< streams that the peer
                     may use at a time: as set, and after a lower number was
                     set, more until streams end */
  uint64_t max_remote_bidi, max_remote_uni;   /**< the peer may open the streams
                                                   of a lower index */
  uint64_t next_remote_bidi, next_remote_uni; /**< index of the peer's next */
  uint64_t remote_open_bidi, remote_open_uni; /**< how many the peer has open */
  uint64_t local_max_data; /**< bytes that the peer may send in all */
  uint64_t data_received;  /**< bytes that it sent */
  uint64_t write_limit;    /**< bytes that may be written on all streams */
  uint64_t send_streams;   /**< streams, opened here or accepted, whose send
                                side is open */
  uint64_t payloads;       /**< payloads not reported yet */
  uint64_t can_send_stream_data; /**< 1: stream data is pending */
  uint64_t has_pending;          /**< 1: control frames are pending */
} qs_info;

/** What qs_get_info calls. */
QS_API int32_t qs_get_info_words(const qs_conn *conn, uint64_t *words,
                                 size_t count);

/** Reads the state of the session.
 * @param[out] info written with QS_OK only
 * @retval QS_OK *info is set */
static inline int32_t qs_get_info(const qs_conn *conn, qs_info *info) {
  return qs_get_info_words(conn, (uint64_t *)info, sizeof *info / 8);
}

/** How many frames a session sent and received, from its start, and how many
 * bytes were declared lost. A frame that is sent again after a loss counts
 * again. A received frame counts when it is processed, also if it is rejected;
 * one that is processed again after QS_ERR_NOMEM counts again. Each number
 * stops at 2^64-1. */
typedef struct qs_stats {
  uint64_t sent_stream, sent_reset_stream, sent_stop_sending, sent_max_data,
      sent_max_stream_data, sent_max_streams_bidi, sent_max_streams_uni,
      sent_data_blocked, sent_stream_data_blocked,
      sent_datagram; /**< frames that were written into payloads */
  uint64_t received_stream, received_reset_stream, received_stop_sending,
      received_max_data, received_max_stream_data, received_max_streams_bidi,
      received_max_streams_uni, received_data_blocked,
      received_stream_data_blocked,
      received_datagram; /**< frames of the peer */
  uint64_t lost_bytes;   /**< stream data of the payloads that were reported
                              lost, in bytes: it is sent again, but for what a
                              reset or another payload made needless */
} qs_stats;

/** What qs_get_stats calls. */
QS_API int32_t qs_get_stats_words(const qs_conn *conn, uint64_t *words,
                                  size_t count);

/** Reads the counters of the session.
 * @param[out] stats written with QS_OK only
 * @retval QS_OK *stats is set */
static inline int32_t qs_get_stats(const qs_conn *conn, qs_stats *stats) {
  return qs_get_stats_words(conn, (uint64_t *)stats, sizeof *stats / 8);
}

/* ---- buffers ------------------------------------------------------------- */
/** Memory for one payload, for a host that copies none: qs_emit_buffer writes
 * into it, qs_receive_buffer takes a payload out of it. In between the host
 * reads and writes the len bytes at data, for example to encrypt or decrypt a
 * packet in place. All zero bytes are a closed buffer. Like a handle it may be
 * moved, but never copied. A buffer belongs to no session. The library sets
 * data and len and never reads them: after each call they show the bytes of an
 * open buffer, and are NULL and 0 for a closed one. A call on a closed handle
 * leaves the buffer as it is. */
typedef struct qs_buffer {
  uint64_t live; /**< private: 1 if open */
  void *at;      /**< private */
  uint8_t *data; /**< the bytes; may be NULL if len is 0 */
  size_t len;    /**< how many bytes */
} qs_buffer;

/** A closed buffer. */
#define QS_BUFFER_INIT                                                         \
  { 0, NULL, NULL, 0 }

/** Makes a buffer at least size bytes long, with zeros after its bytes. A
 * closed buffer is opened.
 * @retval QS_OK len is at least size
 * @retval QS_ERR_NOMEM out of memory; the bytes stay, and a closed buffer stays
 *         closed. Never returned for an open buffer that is long enough. */
QS_API int32_t qs_buffer_reserve(qs_buffer *buffer, size_t size);

/** Frees the memory of a buffer, and closes it. A closed one stays closed. */
QS_API void qs_buffer_free(qs_buffer *buffer);

/* ---- receiving ----------------------------------------------------------- */
/** Why the connection has to be closed. */
typedef struct qs_error {
  uint64_t code;       /**< RFC 9000 section 20.1, for CONNECTION_CLOSE */
  uint64_t reason_len; /**< at most 80; 0: no text (STREAM_LIMIT_ERROR) */
  uint8_t reason[80];  /**< text without a NUL, for CONNECTION_CLOSE */
} qs_error;

/** Processes the frames of a payload from the offset *next on, and copies their
 * data. It processes RESET_STREAM, STOP_SENDING, STREAM, MAX_DATA,
 * MAX_STREAM_DATA, MAX_STREAMS, DATA_BLOCKED, STREAM_DATA_BLOCKED and DATAGRAM
 * frames, skips PADDING, PING and STREAMS_BLOCKED, and stops in front of any
 * other frame, such as ACK or CRYPTO. The host processes that frame, sets *next
 * to the offset behind it, and calls again, until the result is another one
 * than QS_OTHER_FRAME. A type that is encoded in more than one byte is another
 * frame. The host checks which frames its packet may have (RFC 9000 section
 * 12.4), and rejects a type that nobody knows (FRAME_ENCODING_ERROR) and a
 * payload without frames: with len 0 the result is QS_OK.
 *
 * A STOP_SENDING frame for a stream on which only the peer sends, or for one of
 * this endpoint that is not open, and a STREAM_DATA_BLOCKED frame for a stream
 * on which only this endpoint sends, are QS_ERR_PROTOCOL with
 * STREAM_STATE_ERROR (sections 19.5 and 19.13).
 * @param payload len bytes; may be NULL if len is 0
 * @param[in,out] next offset of the frame to begin with, 0 in each new payload;
 *                set to the offset of the first byte that was not processed,
 *                except with QS_ERR_CLOSED and QS_ERR_ARGUMENT
 * @param[out] error written with QS_ERR_PROTOCOL and QS_ERR_MALFORMED only
 * @retval QS_OK everything was processed; *next is len
 * @retval QS_OTHER_FRAME a frame that the host processes begins at *next
 * @retval QS_ERR_NOMEM the frames before *next were processed. Call again with
 *         the same *next, or treat the packet as not received: processing a
 *         frame twice does no harm.
 * @retval QS_ERR_PROTOCOL close the connection with *error. The frames before
 *         *next were processed, the one at *next was rejected. If the
 *         reassembly limit is exceeded (INTERNAL_ERROR), its data stays
 *         buffered.
 * @retval QS_ERR_MALFORMED close the connection with *error. The frames before
 *         *next were processed. At *next begin frames of the library of which
 *         one is malformed, and none of them was processed; or STREAMS_BLOCKED,
 *         malformed or with a limit above 2^60 (section 19.14).
 * @retval QS_ERR_ARGUMENT *next is above len */
QS_API int32_t qs_receive(qs_conn *conn, const uint8_t *payload, size_t len,
                          size_t *next, qs_error *error);

/** Processes a payload as qs_receive does, from the first len bytes of a
 * buffer. If it has frames of the library alone, *next is 0 and they leave at
 * most an eighth of the buffer's memory unused, they are not copied: they stay
 * there, and the buffer gets other memory with any bytes, which may be shorter.
 * Call qs_buffer_reserve before the next packet. Otherwise the data is copied,
 * and the buffer stays as it is.
 *
 * A closed buffer is QS_ERR_CLOSED. If a payload was not copied, *next is 0
 * after an error, and after QS_ERR_NOMEM the buffer may have lost the payload:
 * treat the packet as not received.
 * @param buffer an open buffer
 * @param len length of the payload
 * @param[in,out] next as with qs_receive
 * @param[out] error written with QS_ERR_PROTOCOL and QS_ERR_MALFORMED only
 * @retval QS_OK everything was processed; *next is len
 * @retval QS_OTHER_FRAME the host processes the frame at *next
 * @retval QS_ERR_NOMEM the frames before *next were processed
 * @retval QS_ERR_PROTOCOL close the connection with *error, as with qs_receive
 * @retval QS_ERR_MALFORMED close the connection with *error, as with qs_receive
 * @retval QS_ERR_ARGUMENT len is above the buffer's length, or *next above len
 */
QS_API int32_t qs_receive_buffer(qs_conn *conn, qs_buffer *buffer, size_t len,
                                 size_t *next, qs_error *error);

/** Processes a STREAM frame (RFC 9000 section 19.8), for a host that decodes
 * frames itself. The qs_on_ calls take one frame each, with its fields.
 * DATA_BLOCKED and STREAM_DATA_BLOCKED change nothing and have no call: the
 * host rejects the STREAM_DATA_BLOCKED frames that qs_receive rejects.
 * @param data len bytes; may be NULL if len is 0
 * @param fin not 0 if the frame has the FIN bit
 * @param payload_len length of the memory in which the data was received. It is
 *        counted so that many small frames cannot pin much memory; len counts
 *        if payload_len is less.
 * @param[out] error written with QS_ERR_PROTOCOL only
 * @retval QS_OK the frame was processed
 * @retval QS_ERR_PROTOCOL close the connection with *error. If the reassembly
 *         limit is exceeded (INTERNAL_ERROR), the data stays buffered.
 * @retval QS_ERR_NOMEM out of memory. The data may be buffered, but raised no
 *         event: pass the frame in again, or treat the packet as not received
 */
QS_API int32_t qs_on_stream(qs_conn *conn, uint64_t id, uint64_t offset,
                            const uint8_t *data, size_t len, uint32_t fin,
                            size_t payload_len, qs_error *error);

/** Processes a RESET_STREAM frame (RFC 9000 section 19.4).
 * @param[out] error written with QS_ERR_PROTOCOL only
 * @retval QS_OK the frame was processed
 * @retval QS_ERR_PROTOCOL close the connection with *error
 * @retval QS_ERR_NOMEM out of memory; the frame was not processed */
QS_API int32_t qs_on_reset_stream(qs_conn *conn, uint64_t id, uint64_t app_code,
                                  uint64_t final_size, qs_error *error);

/** Processes a STOP_SENDING frame (RFC 9000 section 19.5), and rejects it where
 * qs_receive does.
 * @copydetails qs_on_reset_stream */
QS_API int32_t qs_on_stop_sending(qs_conn *conn, uint64_t id, uint64_t app_code,
                                  qs_error *error);

/** Processes a MAX_DATA frame (RFC 9000 section 19.9).
 * @copydetails qs_on_reset_stream */
QS_API int32_t qs_on_max_data(qs_conn *conn, uint64_t limit, qs_error *error);

/** Processes a MAX_STREAM_DATA frame (RFC 9000 section 19.10).
 * @copydetails qs_on_reset_stream */
QS_API int32_t qs_on_max_stream_data(qs_conn *conn, uint64_t id, uint64_t limit,
                                     qs_error *error);

/** Processes a MAX_STREAMS frame (RFC 9000 section 19.11).
 * @param dir QS_BIDI or QS_UNI
 * @param count how many streams may be opened; above 2^60 the result is
 *        QS_ERR_PROTOCOL with FRAME_ENCODING_ERROR
 * @copydetails qs_on_reset_stream */
QS_API int32_t qs_on_max_streams(qs_conn *conn, uint32_t dir, uint64_t count,
                                 qs_error *error);

/** Processes a DATAGRAM frame (RFC 9221 section 4).
 * @param data len bytes; may be NULL if len is 0
 * @copydetails qs_on_reset_stream */
QS_API int32_t qs_on_datagram(qs_conn *conn, const uint8_t *data, size_t len,
                              qs_error *error);

/* ---- sending ------------------------------------------------------------- */
/** The parts of a payload, which are written in this order. */
enum {
  QS_CONTROL = 1,   /**< RESET_STREAM, STOP_SENDING, MAX_*, *_BLOCKED */
  QS_DATAGRAMS = 2, /**< DATAGRAM */
  QS_STREAMS = 4,   /**< STREAM */
  QS_ALL = 7        /**< all of them */
};

/** The least cap with which each pending control frame and STREAM frame can be
 * written. A pending datagram needs its length and its frame's header, and at
 * least 10 bytes. With less, qs_emit may return QS_DONE although qs_get_due
 * reports pending frames. */
#define QS_MIN_ROOM 26

/** A payload that was written. */
typedef struct qs_payload {
  uint64_t len;   /**< how many bytes */
  uint64_t token; /**< names the payload until it is reported; never 0, and
                       never used again in this session */
  uint64_t ends;  /**< 1: nothing may follow in the packet, not even padding:
                       the last frame may be a STREAM frame without a length */
} qs_payload;

/** What qs_emit calls. */
QS_API int32_t qs_emit_words(qs_conn *conn, uint32_t parts, uint32_t fair,
                             uint8_t *data, size_t cap, uint64_t *words,
                             size_t count);

/** Writes pending frames, at most cap bytes, of the named parts. A host that
 * lays out its packets itself calls it for single parts: each call makes a
 * payload of its own, and a packet may have several.
 * @param parts QS_CONTROL, QS_DATAGRAMS and QS_STREAMS, or'ed
 * @param fair not 0: streams of one priority take turns; 0: one goes on until
 *        it has nothing left
 * @param[out] data at least cap bytes; the first payload->len are written
 * @param cap at least QS_MIN_ROOM, or pending frames may not fit
 * @param[out] payload written with QS_OK only
 * @retval QS_OK *payload is set. More may be pending: call again for the next
 *         packet, or for the rest of this one. If memory runs out after some
 *         frames, these are the payload.
 * @retval QS_DONE no pending frame of these parts fits into cap bytes
 * @retval QS_ERR_NOMEM out of memory; nothing was written */
static inline int32_t qs_emit(qs_conn *conn, uint32_t parts, uint32_t fair,
                              uint8_t *data, size_t cap, qs_payload *payload) {
  return qs_emit_words(conn, parts, fair, data, cap, (uint64_t *)payload,
                       sizeof *payload / 8);
}

/** What qs_emit_lent calls. */
QS_API int32_t qs_emit_lent_words(qs_conn *conn, uint32_t parts, uint32_t fair,
                                  size_t cap, const uint8_t **data,
                                  uint64_t *words, size_t count);

/** Writes pending frames as qs_emit does, into memory of the session, where
 * they are valid until the next call on the handle. *data is set to where they
 * begin, with QS_OK only.
 * @copydetails qs_emit */
static inline int32_t qs_emit_lent(qs_conn *conn, uint32_t parts, uint32_t fair,
                                   size_t cap, const uint8_t **data,
                                   qs_payload *payload) {
  return qs_emit_lent_words(conn, parts, fair, cap, data, (uint64_t *)payload,
                            sizeof *payload / 8);
}

/** What qs_emit_buffer calls. */
QS_API int32_t qs_emit_buffer_words(qs_conn *conn, uint32_t parts,
                                    uint32_t fair, size_t cap,
                                    qs_buffer *buffer, uint64_t *words,
                                    size_t count);

/** Writes pending frames as qs_emit does, into an open buffer; a closed one is
 * QS_ERR_CLOSED.
 * @param parts as with qs_emit
 * @param fair as with qs_emit
 * @param cap at least QS_MIN_ROOM, or pending frames may not fit
 * @param buffer with QS_OK it has the payload alone, and its len is
 *        payload->len; else its bytes stay
 * @param[out] payload written with QS_OK only
 * @retval QS_OK *payload is set
 * @retval QS_DONE no pending frame of these parts fits into cap bytes
 * @retval QS_ERR_NOMEM out of memory; nothing was written */
static inline int32_t qs_emit_buffer(qs_conn *conn, uint32_t parts,
                                     uint32_t fair, size_t cap,
                                     qs_buffer *buffer, qs_payload *payload) {
  return qs_emit_buffer_words(conn, parts, fair, cap, buffer,
                              (uint64_t *)payload, sizeof *payload / 8);
}

/** What is pending, each 0 or 1. */
typedef struct qs_due {
  uint64_t control;   /**< control frames */
  uint64_t datagrams; /**< datagrams */
  uint64_t streams;   /**< stream data */
} qs_due;

/** What qs_get_due calls. */
QS_API int32_t qs_get_due_words(const qs_conn *conn, uint64_t *words,
                                size_t count);

/** Asks what is pending.
 * @param[out] due written with QS_OK only
 * @retval QS_OK *due is set */
static inline int32_t qs_get_due(const qs_conn *conn, qs_due *due) {
  return qs_get_due_words(conn, (uint64_t *)due, sizeof *due / 8);
}

/** Reports that the packet of a payload was acknowledged (RFC 9000 section
 * 13.3). Report each payload once, as acknowledged or as lost.
 * @retval QS_OK the token is unknown from now on
 * @retval QS_ERR_TOKEN it was reported, or never given. A late acknowledgement
 *         of a payload that was reported lost needs no call, and returns this.
 * @retval QS_ERR_NOMEM a part was reported and stays so, and the token names
 *         the rest: call again */
QS_API int32_t qs_acked(qs_conn *conn, uint64_t token);

/** Reports that the packet of a payload is declared lost: its frames become
 * pending again, if they are still of use. A PTO probe (RFC 9002 section 6.2.4)
 * that is to carry the data of a payload again reports it lost first.
 * @retval QS_OK the token is unknown from now on
 * @retval QS_ERR_TOKEN it was reported, or never given
 * @retval QS_ERR_NOMEM a part was reported and stays so, and the token names
 *         the rest: call again */
QS_API int32_t qs_lost(qs_conn *conn, uint64_t token);

/* ---- datagrams (RFC 9221) ------------------------------------------------ */
/** Queues a datagram, and copies it.
 * @param data len bytes; may be NULL if len is 0
 * @param drop_oldest not 0: the oldest pending datagrams are dropped until it
 *        fits
 * @retval QS_OK the datagram is pending
 * @retval QS_ERR_BLOCKED others leave no room, and drop_oldest is 0;
 *         QS_EVENT_DATAGRAM_ROOM follows
 * @retval QS_ERR_TOO_LARGE it is longer than the path, the peer or
 *         datagram_send allows
 * @retval QS_ERR_DATAGRAMS_OFF the peer accepts none, or datagram_receive is
 *         QS_NONE
 * @retval QS_ERR_NOMEM out of memory */
QS_API int32_t qs_datagram_send(qs_conn *conn, const uint8_t *data, size_t len,
                                uint32_t drop_oldest);

/** Removes the oldest received datagram and returns it.
 * @param[out] data at least cap bytes; the first *count are written with QS_OK
 *             only
 * @param[out] count its length, with QS_OK and QS_ERR_TOO_SMALL
 * @retval QS_OK the datagram is in data
 * @retval QS_DONE none was received
 * @retval QS_ERR_TOO_SMALL it is longer than cap and stays the oldest. It still
 *         counts against datagram_receive, and further ones may drop it */
QS_API int32_t qs_datagram_recv(qs_conn *conn, uint8_t *data, size_t cap,
                                size_t *count);

/** The length of the longest datagram that the path and the peer accept, as it
 * was set. It is returned also if datagram_receive is QS_NONE.
 * @param[out] size written with QS_OK only
 * @retval QS_OK *size is set
 * @retval QS_ERR_DATAGRAMS_OFF the peer accepts none */
QS_API int32_t qs_datagram_max_size(const qs_conn *conn, size_t *size);

/** The free room among the pending datagrams: the length of the longest that
 * datagram_send can still take without dropping another. The limit of the path
 * and the peer may be lower; see qs_datagram_max_size.
 * @param[out] size written with QS_OK only
 * @retval QS_OK *size is set */
QS_API int32_t qs_datagram_send_space(const qs_conn *conn, size_t *size);

/** Sets the length of the longest datagram that the path and the peer accept,
 * and drops longer ones that are pending.
 * @param size any number; QS_NONE: the peer accepts none
 * @retval QS_OK done */
QS_API int32_t qs_datagram_set_max_size(qs_conn *conn, uint64_t size);

/* ---- calls of this header alone ------------------------------------------ */
/** Bytes to be written. */
typedef struct qs_piece {
  const uint8_t *data; /**< may be NULL if len is 0 */
  size_t len;          /**< how many bytes */
} qs_piece;

/** Writes several pieces one after the other, by qs_stream_write_fin, and
 * finishes the stream with the last one if fin is not 0.
 * @param pieces count of them; may be NULL if count is 0
 * @param[out] written bytes of all pieces that were written; always set
 * @param[out] app_code the peer's error code, with QS_ERR_STOPPED only
 * @return QS_OK if all was written, and the stream finished if asked. Any
 *         other value is that of the call at which it stopped, after *written
 *         bytes: after QS_ERR_BLOCKED go on with the rest when
 *         QS_EVENT_WRITABLE is raised. With QS_ERR_NOMEM all may be written and
 *         only the end be missing: then call qs_stream_finish. */
static inline int32_t qs_stream_writev(qs_conn *conn, uint64_t id,
                                       const qs_piece *pieces, size_t count,
                                       uint32_t fin, size_t *written,
                                       uint64_t *app_code) {
  size_t piece, at, taken;
  int32_t result;
  *written = 0;
  for (piece = 0; piece < count; piece++)
    for (at = 0; at < pieces[piece].len; at += taken) {
      taken = 0; /* as it stays on a closed handle, and for a wrong id */
      result = qs_stream_write_fin(conn, id, pieces[piece].data + at,
                                   pieces[piece].len - at,
                                   fin && piece + 1 == count, &taken, app_code);
      *written += taken;
      if (result != QS_OK)
        return result;
    }
  if (fin && (count == 0 || pieces[count - 1].len == 0))
    return qs_stream_finish(conn, id, app_code);
  return QS_OK;
}

/** Whether a stream is unidirectional (RFC 9000 section 2.1). */
static inline int qs_id_is_uni(uint64_t id) { return (id & 2) != 0; }
/** Whether the server opens a stream. */
static inline int qs_id_is_server(uint64_t id) { return (id & 1) != 0; }
/** How many streams of its kind have a lower id. */
static inline uint64_t qs_id_index(uint64_t id) { return id >> 2; }
/** The id of a stream, from QS_CLIENT or QS_SERVER, QS_BIDI or QS_UNI, and its
 * index below 2^60. */
static inline uint64_t qs_id(uint32_t side, uint32_t dir, uint64_t index) {
  return index << 2 | (uint64_t)dir << 1 | side;
}

#ifdef __cplusplus
}
#endif

#endif
