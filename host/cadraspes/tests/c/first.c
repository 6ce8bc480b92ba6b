/* The library from C: the calls of histories/first.txt and some more. Every function of the header is called, so that a name that the
 * library lacks does not link. What is expected is document 01's or an answer that was recorded from the original. Is C99 and C++. */
#include "cadraspes.h"
#include <stdio.h>
#include <string.h>

static int wrong = 0;

static void check(int right, int line, const char *what)
{
    if (!right) {
        wrong += 1;
        printf("%d: %s\n", line, what);
    }
}
#define CHECK(what) check((what) ? 1 : 0, __LINE__, #what)

enum { HASHES = 8, JOURNAL = 16 };
static uint64_t mem[CADRASPES_WORDS(HASHES, JOURNAL)];
static const size_t words = CADRASPES_WORDS(HASHES, JOURNAL);
static const uint64_t plain[CADRASPES_COPY_WORDS] = {0};
static const uint64_t canonical[CADRASPES_COPY_WORDS] = {CADRASPES_STATE(0, 1, 0)};

/* A hash as histories write it: `b1` is 62 zeros and b1. The last three are kept, since a call may take two. */
static const uint8_t *hash(uint8_t name)
{
    static uint8_t hashes[3][32];
    static int turn = 0;
    turn = (turn + 1) % 3;
    memset(hashes[turn], 0, 32);
    hashes[turn][31] = name;
    return hashes[turn];
}

static const uint8_t *bytes(const char *text)
{
    return (const uint8_t *)text;
}

static uint64_t put(uint64_t store, uint8_t name, uint64_t index, uint8_t prev, const char *target, const char *actual,
                    const uint64_t *copy)
{
    return cadraspes_put(mem, words, store, hash(name), index, 0, hash(prev), bytes(target), strlen(target), bytes(actual),
                         strlen(actual), copy);
}

static uint64_t load(uint64_t store, uint8_t name, uint64_t index, uint8_t prev, const char *target, const char *actual,
                     const uint64_t *copy)
{
    return cadraspes_load(mem, words, store, hash(name), index, 0, hash(prev), bytes(target), strlen(target), bytes(actual),
                          strlen(actual), copy);
}

static int all_are(const void *from, size_t count, uint8_t byte)
{
    const uint8_t *at = (const uint8_t *)from;
    while (count > 0 && at[count - 1] == byte)
        count -= 1;
    return count == 0;
}

/* histories/first.txt and its answers. */
static void first(void)
{
    uint64_t shown[CADRASPES_SHOWN_WORDS], value[CADRASPES_VALUE_WORDS], out[3];
    uint8_t list[3 * 32];
    struct cadraspes_entry entries[4];

    memset(mem, 0xa5, sizeof mem);
    CHECK(cadraspes_start(mem, words, HASHES, JOURNAL, 1, 0) == CADRASPES_DONE);
    CHECK(load(CADRASPES_IN_ACTIVE, 0xa, 0, 0, "5", "5", canonical) == 0);
    CHECK(put(CADRASPES_IN_ACTIVE, 0xb1, 1, 0xa, "3", "3", plain) == 0);
    CHECK(put(CADRASPES_IN_ACTIVE, 0xb2, 1, 0xa, "4", "3", plain) == 0);

    memset(shown, 0xc3, sizeof shown);
    memset(value, 0xc3, sizeof value);
    CHECK(cadraspes_best(mem, words, shown, value) == CADRASPES_STALE);
    CHECK(all_are(shown, sizeof shown, 0xc3) && all_are(value, sizeof value, 0xc3));
    CHECK(cadraspes_sync(mem, words) == 0);
    CHECK(cadraspes_best(mem, words, shown, value) == 0);
    CHECK(shown[0] == 1 && shown[1] == 0 && shown[4] == 0xb1 && shown[8] == 0xa);
    CHECK(shown[9] == 1 && shown[10] == 0);
    CHECK(shown[11] == 1 && shown[12] == 1 && shown[13] == 3 && shown[14] == 0 && shown[15] == 3 && shown[16] == 0);
    CHECK(shown[CADRASPES_SHOWN_COPY] == CADRASPES_STATE(0, 0, 0));
    CHECK(value[0] == 2 && value[1] == 8 && value[2] == 0);

    CHECK(cadraspes_linked(mem, words, hash(0xb2), value) == 0);
    CHECK(value[0] == 1 && value[1] == 8 && value[2] == 0);

    memset(list, 0xc3, sizeof list);
    CHECK(cadraspes_leaves(mem, words, list, sizeof list, out) == 0);
    CHECK(out[0] == 1 && out[1] == 2);
    CHECK(memcmp(list, hash(0xb1), 32) == 0 && memcmp(list + 32, hash(0xb2), 32) == 0);
    CHECK(all_are(list + 64, 32, 0xc3));

    memset(entries, 0xc3, sizeof entries);
    CHECK(cadraspes_select(mem, words, 0, 0, 10, 7, entries, 4, out) == 0);
    CHECK(out[0] == 1 && out[1] == 1 && out[2] == 1);
    CHECK(entries[0].hash1 == 0 && entries[0].hash2 == 0 && entries[0].hash3 == 0 && entries[0].hash4 == 0xb1);
    CHECK(entries[0].state == CADRASPES_STATE(0, 1, 0) && entries[0].timed == 0 && entries[0].why == 0);
    CHECK(all_are(entries + 1, 3 * sizeof entries[0], 0xc3));
}

/* The other questions, of the tree that first left. */
static void questions(void)
{
    uint64_t shown[CADRASPES_SHOWN_WORDS], value[CADRASPES_VALUE_WORDS], out[2], count;
    uint8_t list[2 * 32];

    CHECK(cadraspes_generation(mem, words, &count) == 0 && count == 1);
    CHECK(cadraspes_version(mem, words, &count) == 0 && count == 2);
    CHECK(cadraspes_effective_count(mem, words, &count) == 0 && count == 3);
    CHECK(cadraspes_live_count(mem, words, &count) == 0 && count == 3);
    CHECK(cadraspes_canonical_count(mem, words, &count) == 0 && count == 1);
    CHECK(cadraspes_canonical_best(mem, words, shown, value) == 0);
    CHECK(shown[0] == 1 && shown[4] == 0xa && value[0] == 2 && value[1] == 5 && value[2] == 0);
    CHECK(CADRASPES_IS_CANONICAL(shown[CADRASPES_SHOWN_COPY]) && !CADRASPES_IS_ORPHANED(shown[CADRASPES_SHOWN_COPY]));
    CHECK(cadraspes_canonical_linked(mem, words, hash(0xa), value) == 0 && value[0] == 2 && value[1] == 5);
    CHECK(cadraspes_canonical_linked(mem, words, hash(0xb1), value) == 0 && all_are(value, sizeof value, 0));
    CHECK(cadraspes_parent(mem, words, hash(0xb2), shown) == 0 && shown[0] == 1 && shown[4] == 0xa);
    CHECK(cadraspes_node(mem, words, hash(0xb2), shown) == 0 && shown[0] == 1 && shown[4] == 0xb2 && shown[13] == 4);

    /* Where there is no block, the first word says so and the others stay. */
    memset(shown, 0xc3, sizeof shown);
    CHECK(cadraspes_effective(mem, words, hash(0xdd), shown) == 0);
    CHECK(shown[0] == 0 && all_are(shown + 1, sizeof shown - 8, 0xc3));

    /* The load was no touch. */
    CHECK(cadraspes_changes(mem, words, 1, 0, list, sizeof list, out) == 0);
    CHECK(out[0] == 1 && out[1] == 2 && list[31] == 0xb1 && list[63] == 0xb2);
    CHECK(cadraspes_changes(mem, words, 2, 0, list, 0, out) == 0 && out[0] == 0 && out[1] == 0);
}

/* Every refusal but STALE, which first shows; each leaves what it was lent as it was. */
static void refusals(void)
{
    static uint64_t before[CADRASPES_WORDS(HASHES, JOURNAL)];
    uint64_t out[3];
    uint8_t list[2 * 32];
    struct cadraspes_entry entries[3];
    uint8_t name;

    memset(mem, 0, sizeof mem);
    CHECK(cadraspes_sync(mem, words) == CADRASPES_ROOM);
    CHECK(cadraspes_start(mem, words - 1, HASHES, JOURNAL, 1, 0) == CADRASPES_ROOM);
    CHECK(all_are(mem, sizeof mem, 0));

    first();
    memcpy(before, mem, sizeof mem);
    memset(out, 0xc3, sizeof out);
    memset(list, 0xc3, sizeof list);
    memset(entries, 0xc3, sizeof entries);
    CHECK(cadraspes_start(mem, words, HASHES, 0, 1, 0) == CADRASPES_ROOM);
    CHECK(cadraspes_remove(mem, words, 3, hash(0xa)) == CADRASPES_KIND);
    CHECK(put(CADRASPES_IN_FORKS, 0xc, UINT64_MAX, 0xa, "1", "1", plain) == CADRASPES_INDEX);
    CHECK(put(CADRASPES_IN_FORKS, 0xb1, 1, 0xa, "3", "4", plain) == CADRASPES_HEADER);
    CHECK(load(3, 0xc, UINT64_MAX, 0xa, "1", "1", plain) == CADRASPES_LOADED);
    CHECK(cadraspes_reload(mem, words, 1, 0) == CADRASPES_GENERATION);
    CHECK(cadraspes_answer(mem, words, hash(0xdd), CADRASPES_ELIGIBLE) == CADRASPES_UNKNOWN);
    CHECK(cadraspes_answer(mem, words, hash(0xdd), 3) == CADRASPES_VALUE);
    CHECK(cadraspes_leaves(mem, words, list, sizeof list - 1, out) == CADRASPES_LIST);
    CHECK(cadraspes_changes(mem, words, 1, 0, list, sizeof list - 1, out) == CADRASPES_LIST);
    CHECK(cadraspes_select(mem, words, 0, 0, 10, 7, entries, 2, out) == CADRASPES_LIST);
    CHECK(cadraspes_adopt(mem, words, 0, 0, 10, 7, entries, 2, out) == CADRASPES_LIST);
    CHECK(memcmp(mem, before, sizeof mem) == 0);
    CHECK(all_are(out, sizeof out, 0xc3) && all_are(list, sizeof list, 0xc3) && all_are(entries, sizeof entries, 0xc3));

    CHECK(cadraspes_answer(mem, words, hash(0xb2), CADRASPES_INELIGIBLE) == 0);
    CHECK(cadraspes_answer(mem, words, hash(0xb2), CADRASPES_ELIGIBLE_FOR_NOW) == CADRASPES_FINAL);
    for (name = 1; name <= 5; name += 1)
        CHECK(put(CADRASPES_IN_ACTIVE, name, 1, 0xa, "1", "1", plain) == 0);
    CHECK(put(CADRASPES_IN_ACTIVE, name, 1, 0xa, "1", "1", plain) == CADRASPES_FULL);
    CHECK(cadraspes_reload(mem, words, 2, UINT64_MAX) == 0);
    CHECK(put(CADRASPES_IN_ACTIVE, 0xa, 0, 0, "5", "5", plain) == CADRASPES_VERSION);
}

/* A fork that Adopt takes (histories/adopt/floor-at-and-above-the-ancestor.txt), and its entries put as a host does. */
static void plan(void)
{
    uint64_t shown[CADRASPES_SHOWN_WORDS], value[CADRASPES_VALUE_WORDS], out[3];
    uint64_t copies[2][CADRASPES_COPY_WORDS];
    struct cadraspes_entry list[4];
    const struct cadraspes_entry *c = list, *d = list + 1;
    int i;

    CHECK(cadraspes_start(mem, words, HASHES, JOURNAL, 1, 0) == 0);
    CHECK(cadraspes_sync(mem, words) == 0);
    memset(out, 0xc3, sizeof out);
    CHECK(cadraspes_adopt(mem, words, 0, 0, 10, 100, list, 0, out) == 0 && all_are(out, sizeof out, 0));

    CHECK(put(CADRASPES_IN_ACTIVE, 0xa, 0, 0, "1", "1", canonical) == 0);
    CHECK(put(CADRASPES_IN_ACTIVE, 0xb, 1, 0xa, "1", "1", canonical) == 0);
    CHECK(put(CADRASPES_IN_ACTIVE, 0xc, 2, 0xb, "1", "1", canonical) == 0);
    CHECK(put(CADRASPES_IN_ACTIVE, 0xd, 2, 0xb, "1", "2", plain) == 0);
    CHECK(cadraspes_sync(mem, words) == 0);

    /* The ancestor, b at index 1, is below a floor of 2; a floor of 1 it meets. A floor that is not given is not looked at. */
    CHECK(cadraspes_adopt(mem, words, 1, 2, 10, 100, list, 4, out) == 0 && out[0] == 1 && out[1] == 0 && out[2] == 0);
    CHECK(cadraspes_adopt(mem, words, 0, 2, 10, -3, list, 4, out) == 0 && out[0] == 1 && out[1] == 1 && out[2] == 2);
    CHECK(c->timed == 2 && c->time == 2);
    memset(list, 0xc3, sizeof list);
    CHECK(cadraspes_adopt(mem, words, 1, 1, 10, 100, list, 4, out) == 0 && out[0] == 1 && out[1] == 1 && out[2] == 2);
    CHECK(c->hash1 == 0 && c->hash4 == 0xc && c->state == CADRASPES_STATE(1, 0, 1) && c->timed == 1 && c->time == 100);
    CHECK(CADRASPES_IS_ORPHANED(c->state) && !CADRASPES_IS_CANONICAL(c->state) && CADRASPES_HAS_COMPETING(c->state));
    CHECK(c->why == CADRASPES_PEER_WORK && c->why1 == 2 && c->why2 == 0 && c->why3 == 1 && c->why4 == 0);
    CHECK(c->rival1 == 0 && c->rival2 == 0 && c->rival3 == 0 && c->rival4 == 0xd);
    CHECK(d->hash4 == 0xd && d->state == CADRASPES_STATE(0, 1, 0) && d->timed == 0 && d->why == 0);
    CHECK(all_are(list + 2, 2 * sizeof list[0], 0xc3));

    /* The last twelve words of an entry are a copy. */
    CHECK(sizeof list[0] == 128 && offsetof(struct cadraspes_entry, state) == 32);
    for (i = 0; i < 2; i += 1)
        memcpy(copies[i], (const uint8_t *)(list + i) + offsetof(struct cadraspes_entry, state), sizeof copies[i]);
    CHECK(put(CADRASPES_IN_ACTIVE, 0xc, 2, 0xb, "1", "1", copies[0]) == 0);
    CHECK(put(CADRASPES_IN_ACTIVE, 0xd, 2, 0xb, "1", "2", copies[1]) == 0);
    CHECK(cadraspes_sync(mem, words) == 0);
    CHECK(cadraspes_canonical_best(mem, words, shown, value) == 0 && shown[4] == 0xd && value[0] == 2 && value[1] == 4);
    CHECK(cadraspes_node(mem, words, hash(0xc), shown) == 0 && shown[0] == 0);
    CHECK(cadraspes_effective(mem, words, hash(0xc), shown) == 0 && shown[0] == 1);
    CHECK(memcmp(shown + CADRASPES_SHOWN_COPY, copies[0], sizeof copies[0]) == 0);
    CHECK(cadraspes_adopt(mem, words, 1, 1, 10, 100, list, 4, out) == 0 && out[0] == 1 && out[1] == 0 && out[2] == 0);

    CHECK(cadraspes_remove(mem, words, CADRASPES_IN_ACTIVE, hash(0xc)) == 0);
    CHECK(cadraspes_effective(mem, words, hash(0xc), shown) == 0 && shown[0] == 0);
}

/* Document 01, "Comparing two chains", in its order. */
static void comparison(void)
{
    const uint64_t unknown[4] = {0, 9, 9, 1}, eight[4] = {1, 8, 0, 2}, nine[4] = {1, 9, 0, 1}, far[4] = {1, 8, 0, 3};
    const uint64_t great[4] = {1, 0, 1, 1};
    uint64_t out[6];

    CHECK(cadraspes_choose(eight, hash(0xa), nine, hash(0xa), out) == 0);
    CHECK(out[0] == CADRASPES_EQUAL && out[1] == CADRASPES_SAME_TIP && out[2] == 0 && out[5] == 0xa);
    CHECK(cadraspes_choose(unknown, hash(0xa), unknown, hash(0xb), out) == 0);
    CHECK(out[0] == CADRASPES_KEEP_LOCAL && out[1] == CADRASPES_NEITHER && all_are(out + 2, 32, 0));
    CHECK(cadraspes_choose(unknown, hash(0xa), nine, hash(0xb), out) == 0);
    CHECK(out[0] == CADRASPES_ADOPT_PEER && out[1] == CADRASPES_PEER_ONLY && out[2] == 9 && out[3] == 0);
    CHECK(cadraspes_choose(eight, hash(0xa), unknown, hash(0xb), out) == 0);
    CHECK(out[0] == CADRASPES_KEEP_LOCAL && out[1] == CADRASPES_LOCAL_ONLY && out[2] == 8 && out[3] == 0);
    CHECK(cadraspes_choose(eight, hash(0xa), great, hash(0xb), out) == 0);
    CHECK(out[0] == CADRASPES_ADOPT_PEER && out[1] == CADRASPES_PEER_WORK);
    CHECK(out[2] == 0 && out[3] == 1 && out[4] == 8 && out[5] == 0);
    CHECK(cadraspes_choose(nine, hash(0xa), eight, hash(0xb), out) == 0);
    CHECK(out[0] == CADRASPES_KEEP_LOCAL && out[1] == CADRASPES_LOCAL_WORK && out[2] == 9 && out[4] == 8);
    CHECK(cadraspes_choose(eight, hash(0xa), far, hash(0xb), out) == 0);
    CHECK(out[0] == CADRASPES_ADOPT_PEER && out[1] == CADRASPES_PEER_TIP && out[2] == 3 && out[3] == 2);
    CHECK(cadraspes_choose(far, hash(0xa), eight, hash(0xb), out) == 0);
    CHECK(out[0] == CADRASPES_KEEP_LOCAL && out[1] == CADRASPES_LOCAL_TIP && out[2] == 3 && out[3] == 2);
    CHECK(cadraspes_choose(eight, hash(0xb), eight, hash(0xa), out) == 0);
    CHECK(out[0] == CADRASPES_ADOPT_PEER && out[1] == CADRASPES_PEER_HASH);
    CHECK(cadraspes_choose(eight, hash(0xa), eight, hash(0xb), out) == 0);
    CHECK(out[0] == CADRASPES_KEEP_LOCAL && out[1] == CADRASPES_LOCAL_HASH);

    CHECK(cadraspes_covers(9, 2, 10) == 1 && cadraspes_covers(8, 2, 10) == 0);
    CHECK(cadraspes_covers(0, 1, 10) == 1 && cadraspes_covers(0, 9, 0) == 1);
}

static int reads(const char *text, uint64_t kind, uint64_t low, uint64_t high)
{
    uint64_t out[3];
    return cadraspes_amount(bytes(text), strlen(text), out) == 0 && out[0] == kind && out[1] == low && out[2] == high;
}

/* Document 01, "Either side of a line". */
static void amounts(void)
{
    CHECK(reads("", 0, 0, 0) && reads("-0", 0, 0, 0) && reads("+", 0, 0, 0));
    CHECK(reads("+7", 1, 7, 0) && reads("007", 1, 7, 0));
    CHECK(reads("18446744073709551616", 1, 0, 1));
    CHECK(reads("340282366920938463463374607431768211455", 1, UINT64_MAX, UINT64_MAX));
    CHECK(reads("340282366920938463463374607431768211456", 0, 0, 0));
}

int main(void)
{
    first();
    questions();
    refusals();
    plan();
    comparison();
    amounts();
    printf("%d wrong\n", wrong);
    return wrong != 0;
}
