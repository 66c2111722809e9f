/* Build and run, from the repository's root (the Rattle kit's rt makes the library):
   rust/library && cc -Iinclude examples/notes.c target/staticlib/librecorder.a -o target/notes && target/notes */
#include "recorder.h"
#include <inttypes.h>
#include <stdio.h>

enum { TREES = 2, NODES = 4, LEN = RECORDER_WORDS(TREES, NODES) };

int main(void) {
    static uint32_t words[LEN];
    if (recorder_format(words, LEN, TREES, NODES).number != RECORDER_DONE)
        return 1;

    /* File release notes in tree 0: the note's number, and the tank it is for. Note 9 comes twice. */
    const uint32_t notes[][2] = {{12, 3}, {9, 1}, {40, 2}, {9, 1}};
    for (size_t i = 0; i < sizeof notes / sizeof notes[0]; i++) {
        recorder_answer put = recorder_put(words, LEN, 0, notes[i][0], notes[i][1]);
        printf("put %" PRIu32 ": %s\n", notes[i][0], put.number != RECORDER_DONE ? "refused" : put.found ? "again" : "new");
    }

    /* Ask for one that is there, one that is not, and a tree that is not. */
    recorder_answer nine = recorder_get(words, LEN, 0, 9), ten = recorder_get(words, LEN, 0, 10);
    printf("get 9: tank %" PRIu32 "\n", nine.value);
    printf("get 10: %s\n", ten.found ? "found" : "not found");
    printf("get in tree 2: refused with %" PRIu32 "\n", recorder_get(words, LEN, 2, 9).number);

    /* Walk the tree from its least note on. */
    recorder_cursor start = {0};
    for (recorder_moved at = recorder_first(words, LEN, start); at.answer.found;
         at = recorder_next(words, LEN, at.cursor))
        printf("note %" PRIu32 ": tank %" PRIu32 "\n", at.answer.key, at.answer.value);
    return 0;
}
