/*
 * The layout of include/recorder.h, which no contract says: the size of each struct and the place of each field. Then calls every
 * function from C and checks what comes back: document 01's trees A and B, and each refusal. Tree, key, value, nodes and places are
 * different numbers, so that fields or arguments in another order show.
 */
#include "recorder.h"
#include <stdio.h>
#include <string.h>

enum { TREES = 9, TREE = 8, NODES = 3, LEN = RECORDER_WORDS(TREES, NODES) };

#define PLACED(type, field, place) _Static_assert(offsetof(type, field) == (place), #type "." #field)
_Static_assert(sizeof(bool) == 1 && sizeof(recorder_answer) == 16, "recorder_answer");
PLACED(recorder_answer, number, 0);
PLACED(recorder_answer, found, 4);
PLACED(recorder_answer, key, 8);
PLACED(recorder_answer, value, 12);
_Static_assert(sizeof(recorder_cursor) == 136, "recorder_cursor");
PLACED(recorder_cursor, tree, 0);
PLACED(recorder_cursor, size, 4);
PLACED(recorder_cursor, nodes, 8);
PLACED(recorder_cursor, places, 72);
_Static_assert(sizeof(recorder_moved) == 152, "recorder_moved");
PLACED(recorder_moved, answer, 0);
PLACED(recorder_moved, cursor, 16);

static uint32_t words[LEN];
static int failed;

/* Counts a claim that does not hold, and says where. */
#define HOLDS(claim) ((claim) ? (void)0 : (void)(failed++, printf("all.c:%d: %s\n", __LINE__, #claim)))

/* Is it this answer? */
static bool is(recorder_answer a, uint32_t number, bool found, uint32_t key, uint32_t value)
{
    return a.number == number && a.found == found && a.key == key && a.value == value;
}

static bool done(recorder_answer a) { return is(a, RECORDER_DONE, false, 0, 0); }
static bool value(recorder_answer a, uint32_t v) { return is(a, RECORDER_DONE, true, 0, v); }
static bool pair(recorder_answer a, uint32_t k) { return is(a, RECORDER_DONE, true, k, 1000 + k); }
static bool refused(recorder_answer a, uint32_t number) { return is(a, number, false, 0, 0); }

/* Does the cursor of the tree stand at these places, with size 2, in the root of B and this leaf? */
static bool at_leaf(recorder_cursor at, uint32_t child, uint32_t leaf, uint32_t place)
{
    recorder_cursor there = {.tree = TREE, .size = 2, .nodes = {3, leaf}, .places = {child, place}};
    return memcmp(&at, &there, sizeof at) == 0;
}

static bool off_end(recorder_cursor at)
{
    recorder_cursor end = {.tree = TREE};
    return memcmp(&at, &end, sizeof at) == 0;
}

/* Was the call refused with this number, with the same cursor back? */
static bool stays(recorder_moved m, recorder_cursor at, uint32_t number)
{
    return refused(m.answer, number) && memcmp(&m.cursor, &at, sizeof at) == 0;
}

/* Tree B: 10,20,30,35 / 40,50,60,70, separator 40. */
static void fill(void)
{
    static const uint32_t keys[] = {10, 20, 30, 40, 50, 60, 70, 35};
    HOLDS(done(recorder_format(words, LEN, TREES, NODES)));
    for (size_t i = 0; i < sizeof keys / sizeof keys[0]; i++)
        HOLDS(done(recorder_put(words, LEN, TREE, keys[i], 1000 + keys[i])));
    HOLDS(recorder_check(words, LEN));
}

/* The calls for any words. */
static void public_calls(void)
{
    recorder_cursor start = {.tree = TREE, .size = 9}, none = {.tree = TREES}, nowhere = {.tree = TREE, .size = 17};
    fill();
    HOLDS(value(recorder_put(words, LEN, TREE, 35, 1035), 1035));
    HOLDS(value(recorder_get(words, LEN, TREE, 35), 1035) && done(recorder_get(words, LEN, TREE, 36)));
    recorder_moved m = recorder_first(words, LEN, start);
    HOLDS(pair(m.answer, 10) && at_leaf(m.cursor, 0, 1, 0));
    m = recorder_prev(words, LEN, m.cursor);
    HOLDS(done(m.answer) && at_leaf(m.cursor, 0, 1, 0));
    m = recorder_seek(words, LEN, start, 38);
    HOLDS(done(m.answer) && at_leaf(m.cursor, 0, 1, 4));
    HOLDS(pair(recorder_next(words, LEN, m.cursor).answer, 40));
    m = recorder_settle(words, LEN, m.cursor);
    HOLDS(done(m.answer) && at_leaf(m.cursor, 1, 2, 0));
    m = recorder_remove_at(words, LEN, m.cursor);
    HOLDS(value(m.answer, 1040) && at_leaf(m.cursor, 1, 2, 0));
    HOLDS(value(recorder_remove(words, LEN, TREE, 70), 1070) && done(recorder_remove(words, LEN, TREE, 70)));
    HOLDS(pair(recorder_prev(words, LEN, (recorder_cursor){.tree = TREE}).answer, 60));

    /* Refusals change no word and hand the cursor back. */
    uint32_t before[LEN];
    memcpy(before, words, sizeof words);
    HOLDS(refused(recorder_format(words, LEN, TREES, NODES + 1), RECORDER_NO_FORMAT));
    HOLDS(refused(recorder_get(words, LEN, TREES, 1), RECORDER_NO_TREE));
    HOLDS(refused(recorder_put(words, LEN, TREES, 1, 1), RECORDER_NO_TREE));
    HOLDS(refused(recorder_remove(words, LEN, TREES, 1), RECORDER_NO_TREE));
    HOLDS(stays(recorder_first(words, LEN, none), none, RECORDER_NO_TREE));
    HOLDS(stays(recorder_seek(words, LEN, none, 1), none, RECORDER_NO_TREE));
    HOLDS(stays(recorder_settle(words, LEN, nowhere), nowhere, RECORDER_NO_PLACE));
    HOLDS(stays(recorder_next(words, LEN, nowhere), nowhere, RECORDER_NO_PLACE));
    HOLDS(stays(recorder_prev(words, LEN, nowhere), nowhere, RECORDER_NO_PLACE));
    HOLDS(stays(recorder_remove_at(words, LEN, nowhere), nowhere, RECORDER_NO_PLACE));
    HOLDS(memcmp(words, before, sizeof words) == 0);
    HOLDS(!recorder_check(words, LEN - 1) && refused(recorder_get(words, LEN - 1, TREE, 10), RECORDER_UNSOUND));

    /* In two nodes A has no room for an eighth pair. */
    uint32_t small[RECORDER_WORDS(1, 2)];
    enum { SMALL = sizeof small / sizeof small[0] };
    HOLDS(done(recorder_format(small, SMALL, 1, 2)));
    for (uint32_t key = 10; key <= 70; key += 10)
        HOLDS(done(recorder_put(small, SMALL, 0, key, key)));
    HOLDS(refused(recorder_put(small, SMALL, 0, 35, 35), RECORDER_NO_ROOM));
}

/* The cores, on words and with cursors that they may be called with. */
static void cores(void)
{
    recorder_cursor start = {.tree = TREE, .size = 9}, none = {.tree = TREES}, nowhere = {.tree = TREE, .size = 17};
    fill();
    HOLDS(value(recorder_sound_get(words, LEN, TREE, 35), 1035));
    HOLDS(value(recorder_sound_put(words, LEN, TREE, 35, 5), 1035));
    HOLDS(value(recorder_sound_remove(words, LEN, TREE, 70), 1070));
    recorder_moved m = recorder_sound_first(words, LEN, start);
    HOLDS(pair(m.answer, 10) && at_leaf(m.cursor, 0, 1, 0));
    HOLDS(recorder_sound_stands(words, LEN, m.cursor) && !recorder_sound_stands(words, LEN, nowhere));
    HOLDS(!recorder_sound_stands(words, LEN, none));
    m = recorder_sound_seek(words, LEN, start, 38);
    HOLDS(done(m.answer) && at_leaf(m.cursor, 0, 1, 4));
    m = recorder_sound_settle(words, LEN, m.cursor);
    HOLDS(done(m.answer) && at_leaf(m.cursor, 1, 2, 0));
    m = recorder_sound_next(words, LEN, m.cursor);
    HOLDS(pair(m.answer, 50) && at_leaf(m.cursor, 1, 2, 1));
    m = recorder_sound_prev(words, LEN, m.cursor);
    HOLDS(pair(m.answer, 40) && at_leaf(m.cursor, 1, 2, 0));
    m = recorder_sound_seek(words, LEN, start, 60);
    HOLDS(value(m.answer, 1060) && at_leaf(m.cursor, 1, 2, 2));
    m = recorder_sound_remove_at(words, LEN, m.cursor);
    HOLDS(value(m.answer, 1060) && off_end(m.cursor));
    HOLDS(refused(recorder_sound_get(words, LEN, TREES, 1), RECORDER_NO_TREE));
    HOLDS(refused(recorder_sound_put(words, LEN, TREES, 1, 1), RECORDER_NO_TREE));
    HOLDS(refused(recorder_sound_remove(words, LEN, TREES, 1), RECORDER_NO_TREE));
    HOLDS(stays(recorder_sound_first(words, LEN, none), none, RECORDER_NO_TREE));
    HOLDS(stays(recorder_sound_seek(words, LEN, none, 1), none, RECORDER_NO_TREE));
    HOLDS(recorder_check(words, LEN));
}

int main(void)
{
    public_calls();
    cores();
    return failed != 0;
}
