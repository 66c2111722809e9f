/*
 * recorder.h: an ordered map from 32-bit keys to 32-bit values, kept in an array of 32-bit words of the caller's.
 *
 * One array, a pool, holds up to 32 trees (maps) over up to 512 nodes. The library keeps nothing between calls and
 * takes no memory: the words are the whole state, and they can be copied, filed and sent as they stand.
 *
 * Every function is proved against its definition. Link with librecorder.a.
 */
#ifndef RECORDER_H
#define RECORDER_H

#include <stdbool.h>
#include <stddef.h>
#include <stdint.h>

#ifdef __cplusplus
extern "C" {
#endif

/* The words that a pool of some trees and nodes takes: pass exactly so many to recorder_format. */
#define RECORDER_WORDS(trees, nodes) ((size_t)(trees) + 17 * (size_t)(nodes) + 3)

/* `number` of an answer: RECORDER_DONE, or why the call is refused. A call that is refused changes nothing. */
enum {
    RECORDER_DONE = 0,
    RECORDER_UNSOUND = 1,   /* the words are not a sound pool */
    RECORDER_NO_TREE = 2,   /* there is no tree of this number */
    RECORDER_NO_PLACE = 3,  /* the cursor does not stand in its tree */
    RECORDER_NO_ROOM = 4,   /* too few nodes are free for this put */
    RECORDER_NO_FORMAT = 5  /* no pool has this many trees, nodes and words */
};

/*
 * What a call answers. `found` says whether there is a value or a pair; of a pair both `key` and `value` are told,
 * of a value alone `key` is 0. Where nothing is found, or the call is refused, both are 0.
 */
typedef struct {
    uint32_t number;
    bool found;
    uint32_t key;
    uint32_t value;
} recorder_answer;

/*
 * A place in a tree: of each level from the root the node and the place in it. Unused levels hold 0; with size 0 the
 * cursor is off the end. A cursor is made by recorder_first or recorder_seek from any cursor, of which they read the
 * tree number alone: `recorder_cursor at = {.tree = 0};` will do.
 */
typedef struct {
    uint32_t tree;
    uint32_t size;
    uint32_t nodes[16];
    uint32_t places[16];
} recorder_cursor;

/* What a cursor call hands back: its answer, and the cursor where it is now. */
typedef struct {
    recorder_answer answer;
    recorder_cursor cursor;
} recorder_moved;

/*
 * THE PUBLIC CALLS. They may be called on any words and with any cursor: each but recorder_format checks the words
 * first, in time that grows with the pool, then the tree number, then the cursor. `words` points to `len` words; where
 * len is 0 it may be any pointer that is not null and aligned for uint32_t. While a call runs no other thread may write
 * the words.
 */

/* Whether the words are a sound pool. */
bool recorder_check(const uint32_t *words, size_t len);

/* Lays out a pool of empty trees, 1 to 32, over nodes, 0 to 512; refused unless len is RECORDER_WORDS(trees, nodes). */
recorder_answer recorder_format(uint32_t *words, size_t len, uint32_t trees, uint32_t nodes);

/* The value of a key. */
recorder_answer recorder_get(const uint32_t *words, size_t len, uint32_t tree, uint32_t key);

/* Files a value under a key, in place of an earlier one, which is the value found. */
recorder_answer recorder_put(uint32_t *words, size_t len, uint32_t tree, uint32_t key, uint32_t value);

/* Takes a key out; its value is the value found. A key that is not there changes nothing. */
recorder_answer recorder_remove(uint32_t *words, size_t len, uint32_t tree, uint32_t key);

/* Go to the first pair of the cursor's tree, and tell it. */
recorder_moved recorder_first(const uint32_t *words, size_t len, recorder_cursor at);

/*
 * Go to a key of the cursor's tree and tell its value, or to where it would be put: that may be one past the last
 * entry of a leaf, from where recorder_settle goes on to the pair after it.
 */
recorder_moved recorder_seek(const uint32_t *words, size_t len, recorder_cursor at, uint32_t key);

/* From one past a leaf's last entry go to the pair after it; otherwise stay. Nothing is told. */
recorder_moved recorder_settle(const uint32_t *words, size_t len, recorder_cursor at);

/* Go to the next pair, and tell it; after the last pair the cursor is off the end. */
recorder_moved recorder_next(const uint32_t *words, size_t len, recorder_cursor at);

/* Go to the pair before, and tell it; off the end that is the last pair. On the first pair stay, and tell none. */
recorder_moved recorder_prev(const uint32_t *words, size_t len, recorder_cursor at);

/* Takes out the pair that the cursor is on, tells its value and goes to the next pair. On no pair: not found, unmoved. */
recorder_moved recorder_remove_at(uint32_t *words, size_t len, recorder_cursor at);

/*
 * THE CORES. Each does what the public call does and costs no check of the pool. What it requires is the caller's to
 * keep: where it does not hold, behaviour is undefined (words are read and written out of bounds).
 *
 * - The words must be sound: recorder_check says true, or recorder_format was done on them, and nothing but the calls
 *   of this header wrote them since. A call on sound words leaves sound words, so one check, or a format that was done,
 *   is enough at the start for words that no one else writes.
 * - Where a cursor is required to stand, recorder_sound_stands must say true of it. A cursor that a call has handed
 *   back unrefused stands until the next put, remove, remove at a cursor or format in the same words; then it is judged
 *   anew. The one that a remove at a cursor hands back stands in the words that it left.
 */

/* Requires sound words. Whether the cursor's tree is there and the cursor stands in it. */
bool recorder_sound_stands(const uint32_t *words, size_t len, recorder_cursor at);

/* Requires sound words. The tree number is tested. */
recorder_answer recorder_sound_get(const uint32_t *words, size_t len, uint32_t tree, uint32_t key);

/* Requires sound words. The tree number is tested. */
recorder_answer recorder_sound_put(uint32_t *words, size_t len, uint32_t tree, uint32_t key, uint32_t value);

/* Requires sound words. The tree number is tested. */
recorder_answer recorder_sound_remove(uint32_t *words, size_t len, uint32_t tree, uint32_t key);

/* Requires sound words. The tree number is tested, and no more of the cursor is read. */
recorder_moved recorder_sound_first(const uint32_t *words, size_t len, recorder_cursor at);

/* Requires sound words. The tree number is tested, and no more of the cursor is read. */
recorder_moved recorder_sound_seek(const uint32_t *words, size_t len, recorder_cursor at, uint32_t key);

/* Requires sound words and a cursor that stands. Nothing is tested. */
recorder_moved recorder_sound_settle(const uint32_t *words, size_t len, recorder_cursor at);

/* Requires sound words and a cursor that stands. Nothing is tested. */
recorder_moved recorder_sound_next(const uint32_t *words, size_t len, recorder_cursor at);

/* Requires sound words and a cursor that stands. Nothing is tested. */
recorder_moved recorder_sound_prev(const uint32_t *words, size_t len, recorder_cursor at);

/* Requires sound words and a cursor that stands. Nothing is tested. */
recorder_moved recorder_sound_remove_at(uint32_t *words, size_t len, recorder_cursor at);

#ifdef __cplusplus
}
#endif

#endif
