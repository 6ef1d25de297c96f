/* Pailorchard, the proved storage desk, as a static library (`rt lib` in crates/pailorchard writes crates/pailorchard/out/libpailorchard.a).
 *
 * A byte slice is a pointer and a length. The pointer is never null, also where the length is 0. What is lent to be
 * written overlaps nothing else that is lent. No function keeps a pointer, takes memory, or prints.
 *
 * A function that answers a uint32_t answers 0, or the number of a refusal; a refusal leaves all that was lent as it was.
 *
 * The functions that replay a journal keep the desk on the stack: a thread that calls them needs 2 MB of it.
 */
#ifndef PAILORCHARD_H
#define PAILORCHARD_H

#include <stdbool.h>
#include <stddef.h>
#include <stdint.h>

#ifdef __cplusplus
extern "C" {
#endif

enum {
    PAILORCHARD_ROOM = 12,      /* a buffer is too short */
    PAILORCHARD_TEXT = 22,      /* not an amount */
    PAILORCHARD_NOT_WHOLE = 23, /* not a whole number of bytes */
    PAILORCHARD_TOO_LARGE = 24  /* above 2^36 bytes */
};

/* How many bytes are enough for the transcript of any journal of this length: 21 and 10 for each byte of the journal,
 * of which at most 65,536 count. */
size_t pailorchard_replay_room(size_t journal_len);

/* Replays a journal, of version 01 or 02, on a fresh desk at rate 100.
 * 0: the transcript (the lines "desk 1", one for each record, and "end" or "stop") stands at the start of `out`, with no
 *    byte 0 after it, `*written` is its length, and the bytes of `out` after it are as they were. A journal that is
 *    damaged or too long is no refusal: the last line of its transcript says where and why it stops.
 * 12: `out_len` is less than pailorchard_replay_room(journal_len); `out` and `*written` are as they were. */
uint32_t pailorchard_replay(const uint8_t *journal, size_t journal_len, uint8_t *out, size_t out_len, size_t *written);

/* How many bytes the desk takes: 81,046. */
size_t pailorchard_desk_room(void);

/* Replays a journal as pailorchard_replay does, and gives the desk after it (after the last whole record before a fault).
 * 0: `transcript` and `*written` as pailorchard_replay leaves them; the first 81,046 bytes of `desk` are the desk, every
 *    row and slot in the layout of docs/OUTSIDE_CHECKS.md, and the bytes of `desk` after them are as they were.
 * 12: `transcript_len` is less than pailorchard_replay_room(journal_len), or `desk_len` is less than
 *    pailorchard_desk_room(); both buffers and `*written` are as they were. */
uint32_t pailorchard_desk_after(const uint8_t *journal, size_t journal_len, uint8_t *transcript, size_t transcript_len,
                                uint8_t *desk, size_t desk_len, size_t *written);

/* Reads a typed amount, as "0,5 GiB" or "unlimited".
 * 0: `*limited` is true and `*bytes` is the count; or, for "unlimited", `*limited` is false and `*bytes` is 0.
 * 22: not an amount. 23: not a whole number of bytes. 24: above 2^36. Then `*limited` and `*bytes` are as they were. */
uint32_t pailorchard_read_amount(const uint8_t *text, size_t len, bool *limited, uint64_t *bytes);

/* Writes an amount as text, in the largest unit that divides it. `bytes` is not looked at where `limited` is false.
 * 0: the text stands at the start of `out`, with no byte 0 after it, `*written` is its length (at most 13), and the bytes
 *    of `out` after it are as they were.
 * 24: above 2^36, checked first. 12: the text is longer than `out_len`. Then `out` and `*written` are as they were. */
uint32_t pailorchard_write_amount(bool limited, uint64_t bytes, uint8_t *out, size_t out_len, size_t *written);

/* Whether a text is a path: 1 to 512 bytes in 0x21..0x7E, and no part between "/" is empty, "." or "..". */
bool pailorchard_is_path(const uint8_t *text, size_t len);

/* Whether a text is a prefix: empty, or a path followed by "/", at most 512 bytes in all. */
bool pailorchard_is_prefix(const uint8_t *text, size_t len);

/* Whether a text is a volume's name: 1 to 64 bytes of a-z A-Z 0-9 _ - . */
bool pailorchard_is_name(const uint8_t *text, size_t len);

/* For the benchmark. Replays a journal as pailorchard_replay does, into `transcript`, then tests the desk after it
 * `times` times (the test that is answered 1 before all else), and gives how many of these tests it passed. Where
 * `transcript_len` is less than pailorchard_replay_room(journal_len): 0, and `transcript` is as it was. */
uint64_t pailorchard_test_desk(const uint8_t *journal, size_t journal_len, uint8_t *transcript, size_t transcript_len,
                               uint64_t times);

#ifdef __cplusplus
}
#endif

#endif
