/* Plays a battle step by step, with a snapshot and edits. */
#include <mars.h>
#include <stdio.h>
#include <stdlib.h>
#include <string.h>

int main(void)
{
    MarsSettings nano = {.core = 80, .processes = 80, .cycles = 800, .longest = 5, .distance = 5, .rounds = 1, .seed = 1};
    const char *source = "loop ADD #4, bomb\nMOV bomb, @bomb\nJMP loop\nbomb DAT #0, #0";
    MarsCell loaded[5];
    MarsProgram program;
    size_t words = mars_words(&nano, 1), unread;
    MarsFault fault;
    if (mars_assemble(&nano, 1, (const uint8_t *)source, strlen(source), loaded, 5, &program, NULL, 0, NULL, 0, &unread, &fault))
        return 1;
    uint32_t *block = malloc(4 * words), *snapshot = malloc(4 * words);
    MarsBattle *battle = (MarsBattle *)block;
    MarsCell *cells = (MarsCell *)(battle + 1);
    if (mars_start(&nano, loaded, program.warrior.length, &program.warrior, 1, 0, block, words, &fault))
        return 1;

    /* Two turns, with their records. */
    MarsRecord turns[2];
    if (mars_play(block, words, 2, turns, 2, NULL, 0, &fault))
        return 1;
    printf("the second turn wrote cell %d: DAT #0, #%d\n", (int)turns[1].change[0].address, (int)cells[7].b);

    /* A snapshot, and the same battle played to its end. */
    memcpy(snapshot, block, 4 * battle->words);
    if (mars_play(block, words, UINT32_MAX, NULL, 0, NULL, 0, &fault))
        return 1;
    printf("over after %d turns: %d processes\n", (int)battle->turns, (int)battle->queue[0]);

    /* Back to the snapshot, and an edit; one outside the core is refused. */
    memcpy(block, snapshot, 4 * ((MarsBattle *)snapshot)->words);
    MarsEdit edit = {.what = MARS_SET_CELL, .address = 2, .cell = {MARS_DAT, MARS_F, MARS_DIRECT, MARS_DIRECT, 0, 0}};
    if (mars_edit(block, words, &edit, &fault) || mars_play(block, words, UINT32_MAX, NULL, 0, NULL, 0, &fault))
        return 1;
    printf("with a DAT in cell 2: dead after %d turns\n", (int)battle->death[0].turns);
    edit.address = 80;
    if (mars_edit(block, words, &edit, &fault))
        printf("refused: %d %d\n", (int)fault.code, (int)fault.number);

    /* A cell that the program writes itself. Every call checks what was written. */
    cells[5].op = 200;
    if (mars_check(block, words, &fault))
        printf("no battle: %d %d, cell %d\n", (int)fault.code, (int)fault.number, (int)fault.line);
    free(block), free(snapshot);
}
