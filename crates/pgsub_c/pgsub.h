/* The decoder and the subscriber of PostgreSQL logical replication (pgoutput, protocol versions 1 and 2), for C. `rt lib` makes
 * out/libpgsub_c.a, which is linked with c/libos_c.a and c/liblibc_c.a of the toolchain (`rt doc` tells where that is).
 *
 *     uint8_t room[65536];
 *     size_t length;
 *     uint32_t number = pgsub_decode(payload, count, in_block, room, sizeof room, &length);
 *     if (number == 0) fwrite(room, 1, length, stdout);
 *
 * A subscriber keeps its rows in memory, and a handle holds it:
 *
 *     pgsub_handle copy = PGSUB_CLOSED;
 *     if (pgsub_open(2, &copy) == 0) {
 *         while ((count = read(server, chunk, sizeof chunk)) > 0) {
 *             if (pgsub_feed(&copy, chunk, count, now(), text, sizeof text, &length) != 0) break;
 *             if (pgsub_replies(&copy, room, sizeof room, &length) == 0) write(server, room, length);
 *         }
 *         pgsub_close(&copy);
 *     }
 *
 * A call returns 0, or the number of a fault (docs/PROTOCOL.md): 1 wire, 2 decode, 3 order, 4 relation, 5 spool, 6 store, 8 closed (by an
 * earlier fault, until pgsub_disconnect), 9 memory. 10 says that the room is too small: nothing is written then, and `*length` tells how
 * much is needed. 11 says that there is no such protocol version; all lengths are 0 then. 12 says that the handle is closed, and 13 that it
 * is open already; nothing is changed then, and what a call of a closed handle tells is 0.
 *
 * Where the text of a fault doesn't fit its room, the number is still that of the fault: nothing is written there, and the text's length is
 * greater than the size. So compare the two before you print it. Where there is no memory for the text, its length is 0.
 *
 * The caller owes pointers that aren't NULL, even to no bytes; behind each as many bytes as it says; and that nothing else writes them
 * during the call. What is written and what is read may not overlap. A `bool` is 0 or 1. A handle is PGSUB_CLOSED, or as a call left it: it
 * may be moved elsewhere, but of two copies only one may be used from then on. It stays on one thread, and is closed at last, or what it
 * holds isn't freed. Beside what handles hold the library keeps nothing between calls.
 */
#ifndef PGSUB_H
#define PGSUB_H

#include <stdbool.h>
#include <stddef.h>
#include <stdint.h>

#ifdef __cplusplus
extern "C" {
#endif

/* Writes the line that `pgsub show` prints of a payload of CopyData, XLogData or a keepalive, or the text of its fault if there is room
 * for it (else `*length` > `size`). `in_block`: whether it comes after Stream Start and before Stream Stop. */
uint32_t pgsub_decode(const uint8_t *payload, size_t count, bool in_block, uint8_t *room, size_t size, size_t *length);

/* Writes the lines that `pgsub show` prints of the frames of a session, up to its first fault, whose text goes into `text` if there is room
 * for it (else `*text_length` > `text_size`). `*text_length` is 0 where there is no fault, and with 10. A frame at the end that isn't whole
 * has no line. */
uint32_t pgsub_show(uint32_t version, const uint8_t *session, size_t count, uint8_t *room, size_t size, size_t *length, uint8_t *text,
                    size_t text_size, size_t *text_length);

/* A subscriber, or none. Its members are the library's own. */
typedef struct pgsub_handle {
    void *at;
    bool is_open;
} pgsub_handle;

#define PGSUB_CLOSED {NULL, false}

/* Opens a closed handle with a subscriber over no rows, at position 0/0. The limits are those that `pgsub` has where its words name none. */
uint32_t pgsub_open(uint32_t version, pgsub_handle *handle);

/* Feeds a chunk of a session's bytes, which may begin and end anywhere in a frame: each message is applied as soon as it is complete.
 * `clock` is that of the replies, in microseconds since 2000-01-01 00:00 UTC. Returns the first fault, up to which all is applied, and
 * writes its text if there is room for it (else `*text_length` > `text_size`). */
uint32_t pgsub_feed(pgsub_handle *handle, const uint8_t *piece, size_t count, int64_t clock, uint8_t *text, size_t text_size,
                    size_t *text_length);

/* Appends a status (Standby status update) to the replies: received as written, confirmed as flushed and as applied. `ask` asks the server
 * for a reply. */
uint32_t pgsub_status(pgsub_handle *handle, int64_t clock, bool ask);

/* Writes the replies that wait, whole frames of CopyData to be sent to the server as they are, and drops them; none are 0 bytes. With 10
 * they go on waiting. */
uint32_t pgsub_replies(pgsub_handle *handle, uint8_t *room, size_t size, size_t *length);

/* Writes the lines that `pgsub dump` prints of the rows, without the line of the position. */
uint32_t pgsub_rows(pgsub_handle *handle, uint8_t *room, size_t size, size_t *length);

/* Tells up to which LSN the rows are complete, and up to which the server may forget. The next session is to start at `*confirmed`. */
uint32_t pgsub_position(pgsub_handle *handle, uint64_t *position, uint64_t *confirmed);

/* Forgets the session: a partial frame, open transactions and replies. Call it before each session but the first, and after a fault. */
uint32_t pgsub_disconnect(pgsub_handle *handle);

/* Closes a handle, and frees what it holds. A closed one stays so. */
void pgsub_close(pgsub_handle *handle);

#ifdef __cplusplus
}
#endif
#endif
