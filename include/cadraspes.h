/* The library's functions of C: a tree of blocks, its journal and its two plans, in memory that the caller lends.
 * Document 01 (docs/01-scope.md) says what each call does; docs/MEMORY.md has the words.
 *
 * A function gives back document 01's number: 0, or the refusal that comes first in the order named beside it. Only cadraspes_covers
 * does not. A refusal carries its number and nothing else: memory, lists and out words stay as they were.
 *
 * `mem` is `words` words, CADRASPES_WORDS of the two rooms or more. On a memory whose head names no rooms that fit it, as before the first
 * start, every call that is lent it but start gives 1 ROOM, sync too; this is not said again below. (Document 01 asks of a memory that no
 * call left only that calls end and stay in bounds, which is proved; the 1 is tested.)
 *
 * The library reads and writes only what it is lent, whatever stands there. It asks of the caller that lengths are true, that pointers
 * point to what they say, and that what is written is lent to nobody else meanwhile. It has no state of its own and asks for no memory. */
#ifndef CADRASPES_H
#define CADRASPES_H

#include <stddef.h>
#include <stdint.h>

#ifdef __cplusplus
extern "C" {
#endif

/* ---- numbers given back (document 01, "Numbers given back") ---- */

enum {
    CADRASPES_DONE = 0,
    CADRASPES_ROOM = 1,       /* a room is out of range, or the memory shorter than the rooms need */
    CADRASPES_KIND = 2,       /* the store is not 0, 1 or 2 */
    CADRASPES_INDEX = 3,      /* the index is 2^64 - 1 */
    CADRASPES_HEADER = 4,     /* the hash has room under another header */
    CADRASPES_FULL = 5,       /* the hash has no room and all room is taken */
    CADRASPES_VERSION = 6,    /* a touch is due at version 2^64 - 1 */
    CADRASPES_LOADED = 7,     /* loading has closed */
    CADRASPES_GENERATION = 8, /* the generation is not above the present one */
    CADRASPES_UNKNOWN = 9,    /* the hash has no room */
    CADRASPES_VALUE = 10,     /* the answer is not 0, 1 or 2 */
    CADRASPES_FINAL = 11,     /* another answer is held, and final */
    CADRASPES_STALE = 12,     /* no sync since the last accepted start, reload, load, put or effective removal */
    CADRASPES_LIST = 13       /* the lent list is too short */
};

/* ---- room ---- */

/* How many words of memory so many hashes (1 to 32,768) and journal entries (1 to 200,000) need. A constant where both are, so that an
 * array can have this length. Out of these ranges it means nothing: start refuses them. */
#define CADRASPES_WORDS(hashes, journal) ((size_t)64 + (size_t)81 * (size_t)(hashes) + (size_t)8 * (size_t)(journal))

/* ---- what words mean ---- */

/* A hash is its 32 bytes. Where it stands in words, it is four, the most significant first. Work and amounts are two, the lower first. */

/* Stores. */
enum { CADRASPES_IN_ACTIVE = 0, CADRASPES_IN_FORKS = 1, CADRASPES_IN_CANON = 2 };

/* Eligibility answers. The first and the last are final. */
enum { CADRASPES_ELIGIBLE = 0, CADRASPES_ELIGIBLE_FOR_NOW = 1, CADRASPES_INELIGIBLE = 2 };

/* A copy, what a store keeps of a block beside its header, is twelve words:
 *   0        state: 0, or 1, and 1 more if orphaned, 2 if canonical, 4 if there is a competing hash
 *   1, 2     orphaned time: 0 none, 1 the time is the word, 2 the time is -1 - the word; and the word
 *   3        reason: 0 none, else its kind
 *   4 to 7   the reason's numbers
 *   8 to 11  the competing hash
 * Any words mean something, and what is not said to be there is not looked at. In a call a state of 0 is a copy with no flag and none of the
 * optional three, whatever the other eleven words. Of a time's word the highest bit is not looked at; a time's kind above 2 is read as 2, a
 * reason's kind above 13 as 13, and of a state only the three flags are read. What the library itself writes is one of these only: a state of
 * 1 to 8, a time's kind of 0 to 2 and its word below 2^63, a reason's kind of 0 to 13, and 0 for each word that is not used. */
#define CADRASPES_COPY_WORDS 12

/* The state word of a copy, each part 0 or 1; and its parts, of any state word. */
#define CADRASPES_STATE(orphaned, canonical, competing) (1 + (uint64_t)(orphaned) + 2 * (uint64_t)(canonical) + 4 * (uint64_t)(competing))
#define CADRASPES_IS_ORPHANED(state) ((state) != 0 && ((state) - 1) % 2 == 1)
#define CADRASPES_IS_CANONICAL(state) ((state) != 0 && ((state) - 1) / 2 % 2 == 1)
#define CADRASPES_HAS_COMPETING(state) ((state) != 0 && ((state) - 1) / 4 % 2 == 1)

/* Kinds of reason, and what the reason's four words are; those not named are 0. */
enum {
    CADRASPES_SAME_TIP = 1,   /* the tip's hash, four words */
    CADRASPES_NEITHER = 2,    /* neither side is known */
    CADRASPES_PEER_ONLY = 3,  /* the peer's work, two words */
    CADRASPES_LOCAL_ONLY = 4, /* local work, two words */
    CADRASPES_PEER_WORK = 5,  /* the peer's work and local work, two words each */
    CADRASPES_LOCAL_WORK = 6, /* local work and the peer's work, two words each */
    CADRASPES_PEER_TIP = 7,   /* the index of the peer's tip and of the local tip, one word each */
    CADRASPES_LOCAL_TIP = 8,  /* the index of the local tip and of the peer's tip, one word each */
    CADRASPES_PEER_HASH = 9,
    CADRASPES_LOCAL_HASH = 10,
    CADRASPES_OFF_SPINE = 11, /* off the verified spine */
    CADRASPES_COMPETING = 12, /* competing fork */
    CADRASPES_STALE_FORK = 13
};

/* A block shown is 29 words:
 *   0         1; or 0 where there is none, and then the other words stay as they were
 *   1 to 4    hash
 *   5 to 8    previous hash
 *   9, 10     index, epoch
 *   11, 12    1 if the target is readable; 1 if the actual is
 *   13, 14    target
 *   15, 16    actual
 *   17 to 28  the copy */
#define CADRASPES_SHOWN_WORDS 29
#define CADRASPES_SHOWN_COPY 17

/* A value is 3 words: 0 none, 1 linked, or 2 linked with proofs ok; and the work. Three zeros for none. */
#define CADRASPES_VALUE_WORDS 3

/* An entry of a plan: the hash, and the copy's twelve words as they stand after the plan. */
struct cadraspes_entry {
    uint64_t hash1, hash2, hash3, hash4;
    uint64_t state, timed, time, why;
    uint64_t why1, why2, why3, why4;
    uint64_t rival1, rival2, rival3, rival4;
};

/* Outcomes of a comparison. */
enum { CADRASPES_EQUAL = 0, CADRASPES_KEEP_LOCAL = 1, CADRASPES_ADOPT_PEER = 2 };

/* ---- calls ---- */

/* Makes the memory an empty tree with these rooms, whatever it held before. Refused: 1. */
uint64_t cadraspes_start(uint64_t *mem, size_t words, uint64_t hashes, uint64_t journal, uint64_t generation, uint64_t version);

/* Empties the tree, under a generation above the present one, and opens loading. Refused: 8. */
uint64_t cadraspes_reload(uint64_t *mem, size_t words, uint64_t generation, uint64_t version);

/* Brings a record into a store without a touch, replacing as a put does, until the first put, effective removal or sync. Target and
 * actual are texts of any bytes; one that is no amount is kept as unreadable. Refused: 7, 2, 3, 4, 5. */
uint64_t cadraspes_load(uint64_t *mem, size_t words, uint64_t store, const uint8_t hash[32], uint64_t index, uint64_t epoch,
                        const uint8_t prev[32], const uint8_t *target, size_t target_bytes, const uint8_t *actual,
                        size_t actual_bytes, const uint64_t copy[12]);

/* Puts a record into a store, in place of the copy there: one more version, one more journal entry. Refused: 2, 3, 4, 5, 6. */
uint64_t cadraspes_put(uint64_t *mem, size_t words, uint64_t store, const uint8_t hash[32], uint64_t index, uint64_t epoch,
                       const uint8_t prev[32], const uint8_t *target, size_t target_bytes, const uint8_t *actual,
                       size_t actual_bytes, const uint64_t copy[12]);

/* Removes the copy from a store, with a touch as a put has; where there is none, gives 0 and changes nothing. Refused: 2, 6. */
uint64_t cadraspes_remove(uint64_t *mem, size_t words, uint64_t store, const uint8_t hash[32]);

/* Gives the eligibility answer for a hash that has room. The next sync that works the block out reads it. Refused: 10, 9, 11. */
uint64_t cadraspes_answer(uint64_t *mem, size_t words, const uint8_t hash[32], uint64_t answer);

/* Brings the tree up to the records now held, closes loading, and frees the room of hashes that no store holds. Blocks that it works out
 * anew, the changed ones and those above them whose values change, see the answers now held; others keep what they saw. Never refused on
 * a memory that a start made. */
uint64_t cadraspes_sync(uint64_t *mem, size_t words);

/* ---- questions about the holdings: never 12 ---- */

/* The effective record of a hash, as a block shown. */
uint64_t cadraspes_effective(const uint64_t *mem, size_t words, const uint8_t hash[32], uint64_t out[29]);

/* How many hashes have an effective record. */
uint64_t cadraspes_effective_count(const uint64_t *mem, size_t words, uint64_t *out);

/* The present generation. */
uint64_t cadraspes_generation(const uint64_t *mem, size_t words, uint64_t *out);

/* The present version. */
uint64_t cadraspes_version(const uint64_t *mem, size_t words, uint64_t *out);

/* The distinct hashes touched since a generation and version, in the order of their last touch, from the front of a list of 32 bytes a
 * place. Out: 1 and how many; or 0 and 0 where none are to be had, which needs no place. Places past them stay. Refused: 13. */
uint64_t cadraspes_changes(const uint64_t *mem, size_t words, uint64_t generation, uint64_t version, uint8_t *list,
                           size_t list_bytes, uint64_t out[2]);

/* ---- questions about the tree: each is refused with 12 where no sync covers the present ---- */

/* The live block of a hash, as a block shown. Refused: 12. */
uint64_t cadraspes_node(const uint64_t *mem, size_t words, const uint8_t hash[32], uint64_t out[29]);

/* The parent of a live block, as a block shown: the live block that its previous hash names, if its index is one less. Refused: 12. */
uint64_t cadraspes_parent(const uint64_t *mem, size_t words, const uint8_t hash[32], uint64_t out[29]);

/* The linked value of a hash. Refused: 12. */
uint64_t cadraspes_linked(const uint64_t *mem, size_t words, const uint8_t hash[32], uint64_t out[3]);

/* The same over canonical blocks only. Refused: 12. */
uint64_t cadraspes_canonical_linked(const uint64_t *mem, size_t words, const uint8_t hash[32], uint64_t out[3]);

/* The best block, as a block shown, and its value: greatest work, then greater index, then lower hash. Refused: 12. */
uint64_t cadraspes_best(const uint64_t *mem, size_t words, uint64_t out[29], uint64_t value[3]);

/* The same over canonical blocks only. Refused: 12. */
uint64_t cadraspes_canonical_best(const uint64_t *mem, size_t words, uint64_t out[29], uint64_t value[3]);

/* How many blocks are live and have the canonical flag. Refused: 12. */
uint64_t cadraspes_canonical_count(const uint64_t *mem, size_t words, uint64_t *out);

/* How many blocks are live: the places that a plan's list needs. Refused: 12. */
uint64_t cadraspes_live_count(const uint64_t *mem, size_t words, uint64_t *out);

/* The leaves by rising hash, from the front of a list of 32 bytes a place. Out: 1 and how many; places past them stay. The memory is lent
 * to be written, since words of it that nothing else reads help to put the list in order. Refused: 12, 13. */
uint64_t cadraspes_leaves(uint64_t *mem, size_t words, uint8_t *list, size_t list_bytes, uint64_t out[2]);

/* ---- the two plans ---- */

/* Whether to stand on the best block: what is off the canonical line is demoted, and where the best block is to be followed its walk is
 * promoted and ours demoted. `changed` is 1 after such a switch or a demotion, else 0. A floor is given unless floor_given is 0; per_epoch is the blocks per epoch; clock is the orphaned
 * time that the plan writes. Out: three zeros for scan, the tree cannot tell; or 1, `changed`, and how many entries were written from the
 * front of the list, by index and then hash: the blocks that the plan wrote, one that ends as it was among them. Places past them stay. The
 * list needs a place for each live block, even for a scan. A plan changes nothing that the tree stands for: the caller puts what the
 * entries say. Refused: 12, 13. */
uint64_t cadraspes_select(uint64_t *mem, size_t words, uint64_t floor_given, uint64_t floor, uint64_t per_epoch, int64_t clock,
                          struct cadraspes_entry *list, size_t entries, uint64_t out[3]);

/* Whether to take a branch that grew beside the canonical line: leaves go from the heaviest down, each branch is compared with ours from
 * where it leaves our line, and the first that wins is promoted up to the last block that is safe to take, ours above that point orphaned;
 * stale branches on the way are orphaned. `changed` is how many blocks were safe, 0 where none won. Takes, writes and refuses as select
 * does. */
uint64_t cadraspes_adopt(uint64_t *mem, size_t words, uint64_t floor_given, uint64_t floor, uint64_t per_epoch, int64_t clock,
                         struct cadraspes_entry *list, size_t entries, uint64_t out[3]);

/* ---- without a memory: never refused ---- */

/* Of two chains the one to follow. A side is 1 and its work, or another number and two words that nothing looks at where its work is
 * unknown; then its tip's index; and apart its tip's hash. Out: the outcome, the kind of the reason, and the reason's four words. */
uint64_t cadraspes_choose(const uint64_t local[4], const uint8_t local_hash[32], const uint64_t peer[4], const uint8_t peer_hash[32],
                          uint64_t out[6]);

/* Gives back 1 where a tip of this index and epoch covers its nomination epoch, else 0; no number of document 01. */
uint64_t cadraspes_covers(uint64_t index, uint64_t epoch, uint64_t per_epoch);

/* Reads an amount text. Out: 1 and its value; three zeros where it is unreadable. */
uint64_t cadraspes_amount(const uint8_t *text, size_t bytes, uint64_t out[3]);

#ifdef __cplusplus
}
#endif

#endif
