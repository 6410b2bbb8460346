/* The library from C: the examples of document 01, the lines of its replay example, and each call once. Every answer
 * is held to all of its ten words, over words that stood there before. */
#include "reefcandor.h"

#include <stdio.h>
#include <string.h>

#define CELLS 4
#define DIR REEFCANDOR_DIR_WORDS(CELLS)
#define POOL REEFCANDOR_POOL_BYTES(CELLS)

static uint64_t dir[DIR];
static uint8_t pool[POOL];
static uint64_t answer[REEFCANDOR_ANSWER_WORDS];
static int passed, failed;

static void expect(bool ok, const char *what) {
    if (ok) {
        passed += 1;
        return;
    }
    failed += 1;
    printf("failed: %s\n", what);
}

/* ---- answers */

struct told {
    uint64_t outcome, rounds, removed, forced, stale, kind, flags;
    int64_t number;
    uint64_t offset, length;
};

static void answers(struct told t, const char *what) {
    const uint64_t words[REEFCANDOR_ANSWER_WORDS] = {t.outcome, t.rounds, t.removed,           t.forced, t.stale,
                                                     t.kind,    t.flags,  (uint64_t)t.number, t.offset, t.length};
    expect(memcmp(answer, words, sizeof words) == 0, what);
    memset(answer, 0xa5, sizeof answer);
}

/* the outcome and nothing else */
static void bare(uint64_t outcome, const char *what) {
    answers((struct told){.outcome = outcome}, what);
}

/* ---- calls on the memory above */

static const uint8_t *bytes(const char *s) {
    return (const uint8_t *)s;
}

static void fresh(void) {
    memset(dir, 0xff, sizeof dir);
    memset(pool, 0xff, sizeof pool);
    memset(answer, 0xa5, sizeof answer);
    reefcandor_make_fresh(dir, DIR, pool, POOL, answer);
}

static void get(uint64_t clock, const char *key) {
    reefcandor_get(dir, DIR, pool, POOL, clock, bytes(key), strlen(key), answer);
}

static void set_number(uint64_t clock, const char *key, int64_t number, uint64_t lifetime) {
    reefcandor_set(dir, DIR, pool, POOL, clock, bytes(key), strlen(key), REEFCANDOR_KIND_NUMBER, number, bytes(""), 0,
                   lifetime, 0, answer);
}

/* a text that with a key of one byte needs so many cells */
static size_t text_for(size_t cells) {
    return REEFCANDOR_CELL_BYTES * cells - 1;
}

static uint8_t text[5 * REEFCANDOR_CELL_BYTES];

static void set_cells(const char *key, size_t cells) {
    reefcandor_set(dir, DIR, pool, POOL, 1000, bytes(key), 1, REEFCANDOR_KIND_TEXT, 0, text, text_for(cells), 0, 0,
                   answer);
}

static void safe_set_cells(const char *key, size_t cells) {
    reefcandor_safe_set(dir, DIR, pool, POOL, 1000, bytes(key), 1, REEFCANDOR_KIND_TEXT, 0, text, text_for(cells), 0,
                        0, answer);
}

/* a, b, c, d with one cell each at 0, 1, 2, 3; a is longest unused */
static void full_yard(uint64_t lifetime) {
    fresh();
    set_number(1000, "a", 1, 0);
    set_number(1000, "b", 2, lifetime);
    set_number(1000, "c", 3, lifetime);
    set_number(1000, "d", 4, lifetime);
    memset(answer, 0xa5, sizeof answer);
}

/* ---- what stands in the memory */

static uint64_t word(size_t i, size_t field) {
    return dir[REEFCANDOR_RECORD(i) + field];
}

/* the keys, of one byte each, most recently used first; and all words behind them are 0 */
static void order(const char *keys, const char *what) {
    size_t n = strlen(keys);
    bool ok = dir[0] == 1 && dir[1] == n;
    for (size_t i = 0; ok && i < n; i += 1) {
        ok = word(i, REEFCANDOR_RECORD_KEY_LENGTH) == 1
          && pool[REEFCANDOR_CELL_BYTES * word(i, REEFCANDOR_RECORD_START)] == (uint8_t)keys[i];
    }
    for (size_t k = REEFCANDOR_RECORD(n); k < DIR; k += 1) {
        ok = ok && dir[k] == 0;
    }
    expect(ok, what);
}

static void start_of_first(uint64_t start, const char *what) {
    expect(word(0, REEFCANDOR_RECORD_START) == start, what);
}

/* ---- the examples */

static void p2_to_p4(void) {
    const uint64_t record[6] = {1500, 3, 0, 0, 4, 8};
    fresh();
    answers((struct told){.outcome = REEFCANDOR_DONE}, "fresh");
    order("", "fresh: no entries");
    set_number(1000, "AB12", 14200, 500);
    answers((struct told){.outcome = REEFCANDOR_DONE}, "P2: done");
    expect(dir[1] == 1 && memcmp(dir + REEFCANDOR_RECORD(0), record, sizeof record) == 0, "P2: the record");
    get(1499, "AB12");
    answers((struct told){.kind = REEFCANDOR_KIND_NUMBER, .number = 14200, .offset = 4, .length = 8}, "P3: live");
    reefcandor_ttl(dir, DIR, pool, POOL, 1499, bytes("AB12"), 4, answer);
    answers((struct told){.number = 1}, "P3: ttl");
    get(1500, "AB12");
    answers((struct told){.outcome = REEFCANDOR_NOT_FOUND, .removed = 1}, "P4: 8, removed 1");
    order("", "P4: no entries");
}

static void p5_to_p8(void) {
    full_yard(0);
    set_cells("e", 1);
    answers((struct told){.rounds = 1, .removed = 1, .forced = 1}, "P5: rounds 1");
    order("edcb", "P5: order");
    start_of_first(0, "P5: start");
    full_yard(0);
    set_cells("e", 2);
    answers((struct told){.rounds = 2, .removed = 2, .forced = 1}, "P6: rounds 2");
    order("edc", "P6: order");
    start_of_first(0, "P6: start");
    full_yard(0);
    get(1000, "b");
    get(1000, "d");
    order("dbca", "P7: order of use");
    set_cells("e", 2);
    answers((struct told){.rounds = 3, .removed = 3, .forced = 1}, "P7: rounds 3");
    start_of_first(0, "P7: start");
    full_yard(500);
    reefcandor_set(dir, DIR, pool, POOL, 1500, bytes("e"), 1, REEFCANDOR_KIND_NUMBER, 5, bytes(""), 0, 0, 0, answer);
    answers((struct told){.rounds = 1, .removed = 3, .forced = 1}, "P8: rounds 1, removed 3");
    order("ed", "P8: d stays");
}

/* a, b, c dead at 0, 1, 2, d live at 3: the sweep takes a and b, round 1 takes c */
static void only_dead_ones_go(void) {
    fresh();
    set_number(1000, "a", 1, 500);
    set_number(1000, "b", 2, 500);
    set_number(1000, "c", 3, 500);
    set_number(1000, "d", 4, 0);
    reefcandor_set(dir, DIR, pool, POOL, 1500, bytes("e"), 1, REEFCANDOR_KIND_TEXT, 0, text, text_for(3), 0, 0, answer);
    answers((struct told){.rounds = 1, .removed = 3}, "only dead ones go: not forced");
    order("ed", "only dead ones go: d stays");
    start_of_first(0, "only dead ones go: start");
}

/* the cells from one on are zero */
static bool wiped(size_t cell, size_t count) {
    bool zero = true;
    for (size_t k = 0; k < REEFCANDOR_CELL_BYTES * count; k += 1) {
        zero = zero && pool[REEFCANDOR_CELL_BYTES * cell + k] == 0;
    }
    return zero;
}

static void given_up_cells(void) {
    memset(text, 'x', sizeof text);
    fresh();
    expect(wiped(0, CELLS), "a fresh pool is zero");
    set_cells("a", 2);
    set_cells("b", 2);
    reefcandor_delete(dir, DIR, pool, POOL, 1000, bytes("a"), 1, answer);
    expect(wiped(0, 2) && !wiped(2, 1) && !wiped(3, 1), "a delete wipes the entry's cells and no others");
    safe_set_cells("b", 5);
    answers((struct told){.outcome = REEFCANDOR_NO_MEMORY}, "12 for five cells");
    expect(wiped(0, CELLS), "a store that is refused with 12 has wiped the old entry");
    full_yard(0);
    set_number(1000, "e", 5, 0);
    answers((struct told){.rounds = 1, .removed = 1, .forced = 1}, "e in the cell of a");
    expect(pool[0] == 'e' && pool[9] == 0, "the new entry stands in the cell that was wiped");
}

static void p9_to_p12(void) {
    uint64_t before[DIR];
    full_yard(0);
    memcpy(before, dir, sizeof dir);
    set_cells("e", 5);
    bare(REEFCANDOR_NO_MEMORY, "P9: 12, rounds 0");
    expect(memcmp(before, dir, sizeof dir) == 0, "P9: all four entries stay");
    safe_set_cells("e", 1);
    bare(REEFCANDOR_NO_MEMORY, "P10: 12");
    expect(memcmp(before, dir, sizeof dir) == 0, "P10: unchanged");
    safe_set_cells("a", 2);
    bare(REEFCANDOR_NO_MEMORY, "P11: 12");
    order("dcb", "P11: a is gone");
    full_yard(0);
    set_number(1000, "b", -7, 0);
    answers((struct told){.outcome = REEFCANDOR_DONE}, "P12: done");
    order("bdca", "P12: order");
    start_of_first(1, "P12: start");
    get(1000, "b");
    answers((struct told){.kind = REEFCANDOR_KIND_NUMBER, .number = -7, .offset = 33, .length = 8}, "P12: the number");
}

static void replay_example(void) {
    fresh();
    answers((struct told){.outcome = REEFCANDOR_DONE}, "replay 1");
    set_number(1000, "AB12", 14200, 500);
    answers((struct told){.outcome = REEFCANDOR_DONE}, "replay 2");
    get(1200, "AB12");
    answers((struct told){.kind = REEFCANDOR_KIND_NUMBER, .number = 14200, .offset = 4, .length = 8}, "replay 3");
    get(1500, "AB12");
    answers((struct told){.outcome = REEFCANDOR_NOT_FOUND, .removed = 1}, "replay 4");
    get(1500, "");
    bare(REEFCANDOR_KEY_EMPTY, "replay 5");
}

/* ---- the other calls */

static void keys_and_numbers(void) {
    static uint8_t key[REEFCANDOR_MAX_KEY_BYTES + 1];
    memset(key, 'k', sizeof key);
    fresh();
    memset(answer, 0xa5, sizeof answer);
    reefcandor_set(dir, DIR, pool, POOL, 1, key, REEFCANDOR_MAX_KEY_BYTES, REEFCANDOR_KIND_TEXT, 0, text, 0, 0, 0,
                   answer);
    bare(REEFCANDOR_NO_MEMORY, "a key of 65,535 bytes: 12");
    reefcandor_set(dir, DIR, pool, POOL, 1, key, sizeof key, REEFCANDOR_KIND_TEXT, 0, text, 0, 0, 0, answer);
    bare(REEFCANDOR_KEY_TOO_LONG, "a key of 65,536 bytes: 4");
    set_number(1, "n", INT64_MAX, 0);
    reefcandor_incr(dir, DIR, pool, POOL, 1, bytes("n"), 1, 1, false, 0, 0, answer);
    bare(REEFCANDOR_SUM_TOO_LARGE, "incr of 2^63 - 1 by 1: 11");
    reefcandor_incr(dir, DIR, pool, POOL, 1, bytes("n"), 1, INT64_MIN, false, 0, 0, answer);
    answers((struct told){.kind = REEFCANDOR_KIND_NUMBER, .number = -1}, "incr by a negative step");
    reefcandor_incr(dir, DIR, pool, POOL, 1, bytes("m"), 1, 2, false, 5, 0, answer);
    bare(REEFCANDOR_NOT_FOUND, "incr of a missing key: 8");
    reefcandor_incr(dir, DIR, pool, POOL, 1, bytes("m"), 1, 2, true, 5, 9, answer);
    answers((struct told){.kind = REEFCANDOR_KIND_NUMBER, .number = 7}, "incr of a missing key, initial 5, step 2: 7");
    expect(word(0, REEFCANDOR_RECORD_EXPIRY) == 10, "incr: the initial number's lifetime");
    order("mn", "incr: order");
}

static void stores(void) {
    full_yard(0);
    reefcandor_add(dir, DIR, pool, POOL, 1, bytes("a"), 1, REEFCANDOR_KIND_BOOLEAN, 1, text, 0, 0, 0, answer);
    bare(REEFCANDOR_EXISTS, "add: 9");
    reefcandor_safe_add(dir, DIR, pool, POOL, 1, bytes("e"), 1, REEFCANDOR_KIND_BOOLEAN, 1, text, 0, 0, 0, answer);
    bare(REEFCANDOR_NO_MEMORY, "safe_add: 12");
    reefcandor_safe_add(dir, DIR, pool, POOL, 1, bytes("e"), 1, 2, 1, text, 0, 0, 0, answer);
    bare(REEFCANDOR_KIND_UNKNOWN, "safe_add: 5");
    reefcandor_replace(dir, DIR, pool, POOL, 1, bytes("e"), 1, REEFCANDOR_KIND_BOOLEAN, 1, text, 0, 0, 0, answer);
    bare(REEFCANDOR_NOT_FOUND, "replace: 8");
    reefcandor_replace(dir, DIR, pool, POOL, 1, bytes("a"), 1, REEFCANDOR_KIND_NIL, 0, text, 0, 0, 0, answer);
    bare(REEFCANDOR_NIL_REFUSED, "replace: 6");
    reefcandor_replace(dir, DIR, pool, POOL, 1, bytes("a"), 1, REEFCANDOR_KIND_BOOLEAN, -5, text, 0, 0, 0xfffffff0,
                       answer);
    bare(REEFCANDOR_DONE, "replace: done");
    get(1, "a");
    answers((struct told){.kind = REEFCANDOR_KIND_BOOLEAN, .flags = 0xfffffff0, .number = 1, .offset = 1, .length = 1},
            "replace: a boolean with flags");
    reefcandor_delete(dir, DIR, pool, POOL, 1, bytes("c"), 1, answer);
    bare(REEFCANDOR_DONE, "delete");
    order("adb", "delete: order");
    set_number(UINT64_MAX, "e", 1, 1);
    bare(REEFCANDOR_EXPIRY_TOO_LATE, "set: 7");
    reefcandor_set(dir, DIR, pool, POOL, 1, bytes("a"), 1, REEFCANDOR_KIND_NIL, 0, text, 0, 0, 0, answer);
    order("db", "set: nil deletes");
}

static void time_passes(void) {
    full_yard(0);
    reefcandor_expire(dir, DIR, pool, POOL, 1000, bytes("b"), 1, 500, answer);
    bare(REEFCANDOR_DONE, "expire");
    reefcandor_get_stale(dir, DIR, pool, POOL, 1500, bytes("b"), 1, answer);
    answers((struct told){.stale = 1, .kind = REEFCANDOR_KIND_NUMBER, .number = 2, .offset = 33, .length = 8},
            "get_stale: dead");
    reefcandor_expire(dir, DIR, pool, POOL, 1500, bytes("b"), 1, 500, answer);
    bare(REEFCANDOR_NOT_FOUND, "expire: dead gives 8");
    reefcandor_flush_expired(dir, DIR, pool, POOL, 1500, 0, answer);
    answers((struct told){.removed = 1}, "flush_expired: removed");
    order("dca", "flush_expired: order");
    reefcandor_flush_all(dir, DIR, pool, POOL, answer);
    bare(REEFCANDOR_DONE, "flush_all");
    reefcandor_flush_expired(dir, DIR, pool, POOL, 1, 2, answer);
    answers((struct told){.removed = 2}, "flush_expired: up to a maximum");
    order("d", "flush_expired: the longest unused go first");
}

static void keys(void) {
    const uint64_t rows[8] = {3, 1, 3, 2, 1, 3, 99, 99};
    uint64_t table[8] = {99, 99, 99, 99, 99, 99, 99, 99};
    full_yard(0);
    reefcandor_get_keys(dir, DIR, pool, POOL, 1, 0, table, 8, answer);
    answers((struct told){.number = 2}, "get_keys: two whole rows fit");
    expect(memcmp(table, rows, sizeof rows) == 0, "get_keys: the table");
    reefcandor_get_keys(dir, DIR, pool, POOL, 0, 0, table, 8, answer);
    bare(REEFCANDOR_CLOCK_ZERO, "get_keys: 2");
    expect(memcmp(table, rows, sizeof rows) == 0, "get_keys: a refusal leaves the table");
    reefcandor_get_keys(dir, DIR, pool, POOL, 1, 0, table, 0, answer);
    answers((struct told){.number = 0}, "get_keys: an empty table");
}

static bool is_place(const uint64_t *place, uint64_t a, uint64_t b) {
    return place[0] == a && place[1] == b;
}

static void places(void) {
    uint64_t part[2] = {9, 9};
    uint64_t shown[3] = {9, 9, 9};
    full_yard(0);
    reefcandor_bytes_at(pool, POOL, 33, 8, part);
    expect(is_place(part, 33, 8), "bytes_at: a part");
    reefcandor_bytes_at(pool, POOL, POOL, 0, part);
    expect(is_place(part, POOL, 0), "bytes_at: the empty part at the end");
    reefcandor_bytes_at(pool, POOL, 1, UINT64_MAX, part);
    expect(is_place(part, 0, 0), "bytes_at: a sum past the end");
    reefcandor_show(dir, DIR, pool, POOL, 1, bytes("b"), 1, shown);
    expect(shown[0] == 0 && is_place(shown + 1, 0, 0), "show: a number is not shown");
    reefcandor_set(dir, DIR, pool, POOL, 1, bytes("b"), 1, REEFCANDOR_KIND_TEXT, 0, bytes("tare"), 4, 0, 0, answer);
    reefcandor_show(dir, DIR, pool, POOL, 1, bytes("b"), 1, shown);
    expect(shown[0] == 1 && is_place(shown + 1, 33, 4), "show: the text's place");
    expect(memcmp(pool + shown[1], "tare", 4) == 0, "show: the text");
    reefcandor_show(dir, DIR, pool, POOL, 0, bytes("b"), 1, shown);
    expect(shown[0] == 0 && is_place(shown + 1, 0, 0), "show: what get refuses");
}

static void unsound(void) {
    full_yard(0);
    expect(reefcandor_audit(dir, DIR, pool, POOL), "audit: sound");
    pool[REEFCANDOR_CELL_BYTES] = 'a';
    expect(!reefcandor_audit(dir, DIR, pool, POOL), "audit: equal keys");
    dir[0] = 2;
    expect(!reefcandor_audit(dir, DIR, pool, POOL), "audit: another form");
    get(1000, "a");
    bare(REEFCANDOR_NOT_SOUND, "get: 1");
    reefcandor_make_fresh(dir, DIR, pool, POOL - 1, answer);
    bare(REEFCANDOR_NOT_SOUND, "make_fresh: wrong lengths");
    expect(dir[0] == 2, "make_fresh: a refusal leaves the directory");
}

int main(void) {
    p2_to_p4();
    p5_to_p8();
    only_dead_ones_go();
    given_up_cells();
    p9_to_p12();
    replay_example();
    keys_and_numbers();
    stores();
    time_passes();
    keys();
    places();
    unsound();
    printf("%d passed, %d failed\n", passed, failed);
    return failed == 0 ? 0 : 1;
}
