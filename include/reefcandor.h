/* reefcandor: a proved dictionary from keys to values, with use order, expiry and user flags, in two buffers that
 * the caller lends. The library keeps nothing between calls, allocates nothing and reads no clock.
 *
 * Every call is total: any contents of the buffers and any arguments are taken, and what does not hold is answered
 * by a number. What each call answers, and every word and byte that it leaves, is proved: the contract of each
 * function stands in crates/capi/src/lib.rt, by the definitions of crates/rules/specs.
 *
 * What the caller owes is what C cannot check:
 *   - a pointer is aligned for its type, not null, and good for its length, counted in elements and not in bytes.
 *     An empty slice may be passed as any non-null pointer with length 0;
 *   - a buffer that is not const overlaps no other argument. In particular key and text may not lie in a pool that the
 *     call may change (const buffers may overlap);
 *   - no two threads or programs are in a call on the same memory at once, calls that only read included: the library
 *     takes no lock. Who shares a memory, between processes too, puts every call under one lock of their own. Without
 *     one the memory is soon not sound, and a get can tell another key's value;
 *   - all users of a memory use the same clock, Unix time in milliseconds: with two clocks one of them sweeps out what
 *     is live for the other.
 *
 * Link the archive crates/capi/out/libcapi.a, which `rt lib` makes in crates/capi (x86-64 Linux).
 *
 *
 * The two buffers
 *
 * The pool has P cells of 32 bytes, P from 1 to 1,024. The directory is 2 + 6 * P words of 64 bits: the form, 1; the
 * number of entries; then a record of six words for each entry, most recently used first, and zeros. An entry holds
 * adjacent cells from its start cell on: its key, and directly behind that its value. A number is eight bytes, two's
 * complement, lowest byte first; a boolean one byte, 0 or 1.
 *
 * reefcandor_make_fresh makes an empty memory of any two buffers of these lengths. They may be kept, copied and
 * handed in again: a memory that is not sound is refused by each call, and left as it is.
 *
 *
 * The answer
 *
 * A call writes ten words. All of them are written by every call, and those that it does not tell are 0. A refusal
 * (an outcome from 1 to 13) never tells a kind, flags, a number, an offset or a length.
 */
#ifndef REEFCANDOR_H
#define REEFCANDOR_H

#include <stdbool.h>
#include <stddef.h>
#include <stdint.h>

#ifdef __cplusplus
extern "C" {
#endif

/* ---- the buffers */

#define REEFCANDOR_CELL_BYTES 32
#define REEFCANDOR_MAX_CELLS 1024
#define REEFCANDOR_MAX_KEY_BYTES 65535

/* lengths for P cells: of the pool in bytes, of the directory in words */
#define REEFCANDOR_POOL_BYTES(cells) (32 * (size_t)(cells))
#define REEFCANDOR_DIR_WORDS(cells) (2 + 6 * (size_t)(cells))

/* where the record of entry i begins in the directory, and what its words are */
#define REEFCANDOR_RECORD(i) (2 + 6 * (size_t)(i))
#define REEFCANDOR_RECORD_EXPIRY 0
#define REEFCANDOR_RECORD_KIND 1
#define REEFCANDOR_RECORD_FLAGS 2
#define REEFCANDOR_RECORD_START 3 /* cell */
#define REEFCANDOR_RECORD_KEY_LENGTH 4
#define REEFCANDOR_RECORD_VALUE_LENGTH 5

/* ---- kinds of a value */

#define REEFCANDOR_KIND_NIL 0 /* no value: set and safe_set delete */
#define REEFCANDOR_KIND_BOOLEAN 1
#define REEFCANDOR_KIND_NUMBER 3
#define REEFCANDOR_KIND_TEXT 4

/* ---- outcomes */

#define REEFCANDOR_DONE 0
/* refused before anything changes, checked in this order */
#define REEFCANDOR_NOT_SOUND 1
#define REEFCANDOR_CLOCK_ZERO 2
#define REEFCANDOR_KEY_EMPTY 3
#define REEFCANDOR_KEY_TOO_LONG 4
#define REEFCANDOR_KIND_UNKNOWN 5
#define REEFCANDOR_NIL_REFUSED 6
#define REEFCANDOR_EXPIRY_TOO_LATE 7
/* nothing but the sweep has changed, where the call sweeps */
#define REEFCANDOR_NOT_FOUND 8
#define REEFCANDOR_EXISTS 9
#define REEFCANDOR_NOT_NUMBER 10
#define REEFCANDOR_SUM_TOO_LARGE 11
/* the sweep is done and the key's own old entry is gone; rounds are run only if they make room, so none was */
#define REEFCANDOR_NO_MEMORY 12
/* a replay line was not understood: no call of this library answers it */
#define REEFCANDOR_LINE_UNREADABLE 13

/* ---- the words of an answer */

#define REEFCANDOR_ANSWER_OUTCOME 0
#define REEFCANDOR_ANSWER_ROUNDS 1  /* rounds run to make a place */
#define REEFCANDOR_ANSWER_REMOVED 2 /* entries that sweep, rounds or flush_expired took */
#define REEFCANDOR_ANSWER_FORCED 3  /* 1 if the call is done and a live entry left by its rounds */
#define REEFCANDOR_ANSWER_STALE 4   /* 1 if get_stale answers a dead entry */
#define REEFCANDOR_ANSWER_KIND 5
#define REEFCANDOR_ANSWER_FLAGS 6
#define REEFCANDOR_ANSWER_NUMBER 7 /* a signed number as its bits: cast to int64_t; in ttl and get_keys a count */
#define REEFCANDOR_ANSWER_OFFSET 8 /* of the value in the pool, for get and get_stale */
#define REEFCANDOR_ANSWER_LENGTH 9 /* of the value in bytes, for get and get_stale */
#define REEFCANDOR_ANSWER_WORDS 10

/* ---- the calls
 *
 * `clock` is in milliseconds, the same clock for all users of a memory, and only this value counts. An entry is dead if
 * its expiry is not 0 and is at or below the clock. A lifetime of 0 is for ever.
 *
 * "Sweeps": up to two dead entries leave first at the long-unused end, up to the first live one; the answer's
 * removed counts them.
 *
 * Whenever an entry leaves, by whatever call, all its cells become zero at once, also where the call is refused with 8,
 * 9, 10, 11 or 12. Free cells need not be zero for a memory to be sound: one that an earlier edition left still loads.
 */

/* Makes an empty memory, whatever stood there, in buffers of the right lengths; else 1. The whole pool becomes
 * zero. */
void reefcandor_make_fresh(uint64_t *dir, size_t dir_len, uint8_t *pool, size_t pool_len,
                           uint64_t answer[REEFCANDOR_ANSWER_WORDS]);

/* True exactly if the memory is sound and all keys differ. Changes nothing. */
bool reefcandor_audit(const uint64_t *dir, size_t dir_len, const uint8_t *pool, size_t pool_len);

/* Sweeps. A live entry is answered with kind, flags, number, offset and length, and moved to the front; else 8. */
void reefcandor_get(uint64_t *dir, size_t dir_len, uint8_t *pool, size_t pool_len, uint64_t clock, const uint8_t *key,
                    size_t key_len, uint64_t answer[REEFCANDOR_ANSWER_WORDS]);

/* Answers the entry as get does, live or dead, with the stale mark exactly if it is dead; else 8. Changes nothing. */
void reefcandor_get_stale(const uint64_t *dir, size_t dir_len, const uint8_t *pool, size_t pool_len, uint64_t clock,
                          const uint8_t *key, size_t key_len, uint64_t answer[REEFCANDOR_ANSWER_WORDS]);

/* The number is what is left of a live entry's life, 0 if it never expires; else 8. Changes nothing. */
void reefcandor_ttl(const uint64_t *dir, size_t dir_len, const uint8_t *pool, size_t pool_len, uint64_t clock,
                    const uint8_t *key, size_t key_len, uint64_t answer[REEFCANDOR_ANSWER_WORDS]);

/* The part of the pool at offset, length bytes long: its start and its length go to place. A sum past the pool's end
 * gives 0 and 0, the empty part at its start. Changes nothing else. */
void reefcandor_bytes_at(const uint8_t *pool, size_t pool_len, uint64_t offset, uint64_t length, uint64_t place[2]);

/* The live text under the key: 1, its offset in the pool and its length go to place. For every refusal of get and for
 * every other kind 0, 0, 0: the caller shows a notice of its own. Changes nothing else. */
void reefcandor_show(const uint64_t *dir, size_t dir_len, const uint8_t *pool, size_t pool_len, uint64_t clock,
                     const uint8_t *key, size_t key_len, uint64_t place[3]);

/* Stores. `number` is the value for REEFCANDOR_KIND_NUMBER and, as "not 0", for REEFCANDOR_KIND_BOOLEAN; `text` is it
 * for REEFCANDOR_KIND_TEXT. Each sweeps, then writes over the key's entry if its value has the same length; else that
 * entry leaves and the new one takes the lowest place that is free. Where there is none, up to 30 rounds make one: each
 * takes the longest unused entry, whatever its state, and then up to two dead ones as a sweep does. If that would not be
 * enough, none is run and the answer is 12. The entry goes to the front. The answer tells rounds, removed and forced. */

/* Stores a value under a key; nil deletes the entry. */
void reefcandor_set(uint64_t *dir, size_t dir_len, uint8_t *pool, size_t pool_len, uint64_t clock, const uint8_t *key,
                    size_t key_len, uint8_t kind, int64_t number, const uint8_t *text, size_t text_len,
                    uint64_t lifetime, uint32_t flags, uint64_t answer[REEFCANDOR_ANSWER_WORDS]);

/* As set, but runs no rounds: without a free place it answers 12. */
void reefcandor_safe_set(uint64_t *dir, size_t dir_len, uint8_t *pool, size_t pool_len, uint64_t clock,
                         const uint8_t *key, size_t key_len, uint8_t kind, int64_t number, const uint8_t *text,
                         size_t text_len, uint64_t lifetime, uint32_t flags,
                         uint64_t answer[REEFCANDOR_ANSWER_WORDS]);

/* As set, but a live entry under the key gives 9, and nil 6. */
void reefcandor_add(uint64_t *dir, size_t dir_len, uint8_t *pool, size_t pool_len, uint64_t clock, const uint8_t *key,
                    size_t key_len, uint8_t kind, int64_t number, const uint8_t *text, size_t text_len,
                    uint64_t lifetime, uint32_t flags, uint64_t answer[REEFCANDOR_ANSWER_WORDS]);

/* As add, but runs no rounds. */
void reefcandor_safe_add(uint64_t *dir, size_t dir_len, uint8_t *pool, size_t pool_len, uint64_t clock,
                         const uint8_t *key, size_t key_len, uint8_t kind, int64_t number, const uint8_t *text,
                         size_t text_len, uint64_t lifetime, uint32_t flags,
                         uint64_t answer[REEFCANDOR_ANSWER_WORDS]);

/* As set, but a missing or dead entry gives 8, and nil 6. */
void reefcandor_replace(uint64_t *dir, size_t dir_len, uint8_t *pool, size_t pool_len, uint64_t clock,
                        const uint8_t *key, size_t key_len, uint8_t kind, int64_t number, const uint8_t *text,
                        size_t text_len, uint64_t lifetime, uint32_t flags, uint64_t answer[REEFCANDOR_ANSWER_WORDS]);

/* Sweeps. Adds the step to a live number, which keeps flags and expiry and moves to the front; another kind gives 10.
 * A missing or dead entry is stored as initial + step with that lifetime, as a set would, where has_initial; else 8.
 * A sum that 64 bits do not hold gives 11. The answer tells kind 3 and the new number. */
void reefcandor_incr(uint64_t *dir, size_t dir_len, uint8_t *pool, size_t pool_len, uint64_t clock, const uint8_t *key,
                     size_t key_len, int64_t step, bool has_initial, int64_t initial, uint64_t lifetime,
                     uint64_t answer[REEFCANDOR_ANSWER_WORDS]);

/* Sweeps. The entry under the key leaves, live or dead; 0 also where nothing was there. */
void reefcandor_delete(uint64_t *dir, size_t dir_len, uint8_t *pool, size_t pool_len, uint64_t clock,
                       const uint8_t *key, size_t key_len, uint64_t answer[REEFCANDOR_ANSWER_WORDS]);

/* Gives a live entry the expiry of this lifetime from now; missing or dead gives 8. Neither sweeps nor moves. */
void reefcandor_expire(uint64_t *dir, size_t dir_len, const uint8_t *pool, size_t pool_len, uint64_t clock,
                       const uint8_t *key, size_t key_len, uint64_t lifetime,
                       uint64_t answer[REEFCANDOR_ANSWER_WORDS]);

/* Every entry's expiry becomes 1: from now on all are dead. Nothing leaves. */
void reefcandor_flush_all(uint64_t *dir, size_t dir_len, const uint8_t *pool, size_t pool_len,
                          uint64_t answer[REEFCANDOR_ANSWER_WORDS]);

/* Dead entries leave, longest unused first, up to a maximum (0 for all). The answer's removed tells how many. */
void reefcandor_flush_expired(uint64_t *dir, size_t dir_len, uint8_t *pool, size_t pool_len, uint64_t clock,
                              uint64_t maximum, uint64_t answer[REEFCANDOR_ANSWER_WORDS]);

/* Fills the table with three words for each live entry, most recently used first: start cell, key length, kind (the
 * key begins at 32 * start cell in the pool). The number tells how many rows: the least of the maximum (0 for none),
 * the whole rows that fit into the table, and the live entries. The table's other words stay, and so does all else. */
#define REEFCANDOR_ROW_WORDS 3
void reefcandor_get_keys(const uint64_t *dir, size_t dir_len, const uint8_t *pool, size_t pool_len, uint64_t clock,
                         uint64_t maximum, uint64_t *table, size_t table_len,
                         uint64_t answer[REEFCANDOR_ANSWER_WORDS]);

#ifdef __cplusplus
}
#endif

#endif
