/* Prints a match of the first two sources, a session of the debugger in it and a league of all, as a user's program would: the same on
 * every machine.
 *
 * usage: contest SOURCE.. */
#include "mars.h"

#include <stdio.h>
#include <stdlib.h>
#include <string.h>

enum { MAX_SOURCE = 1 << 20, MAX_REPLIES = 1 << 16, LENGTH = 100, WARRIORS = 16, HISTORY = 1000 };

static const char formula[] = "(W*W-1)/S";
static const char lines[] = "show\nrun 700\nlist 0 5\nedit 3 JMP.B $0, $0\nstep\nundo\nundo\nrun 5000\nqueue 0\nqueue 1\nfill 9 8 DAT.F $0, $0\nshow\n";
/* In the order of the fields, since C89 cannot name them: core, processes, cycles, both limits, longest, distance, rounds, seed, position. */
static MarsSettings settings = {8000, 8000, 80000, 0, 0, LENGTH, LENGTH, 5, 7, 0};
static MarsCell cells[WARRIORS * LENGTH];
static MarsWarrior warriors[WARRIORS];
static MarsRow rows[WARRIORS];
static MarsFault fault;
static uint8_t text[MAX_SOURCE], replies[MAX_REPLIES];

static void check(uint32_t result, const char *what)
{
    if (result == MARS_DONE) return;
    printf("%s: %u %u in line %u\n", what, (unsigned)fault.code, (unsigned)fault.number, (unsigned)fault.line);
    exit(1);
}

static size_t assemble(const char *name, size_t end, MarsWarrior *warrior)
{
    MarsProgram program;
    FILE *file = fopen(name, "rb");
    size_t length = file ? fread(text, 1, MAX_SOURCE, file) : 0, unread;
    check(mars_assemble(&settings, 2, text, length, cells + end, LENGTH, &program, NULL, 0, NULL, 0, &unread, &fault), name);
    printf("%s by %s, %u cells\n", (char *)program.name, (char *)program.author, (unsigned)program.warrior.length);
    *warrior = program.warrior;
    fclose(file);
    return end + program.warrior.length;
}

static void print_rows(int count)
{
    int i;
    for (i = 0; i < count; i++)
        printf("%ld points, %lu wins, %lu ties, %lu losses\n", (long)rows[i].points, (unsigned long)rows[i].wins,
               (unsigned long)rows[i].ties, (unsigned long)rows[i].losses);
}

int main(int count, char **names)
{
    int i;
    size_t end = 0, both = 0, words = mars_words(&settings, 2), length;
    uint32_t *battle = malloc(4 * words);
    for (i = 1; i < count; i++) {
        end = assemble(names[i], end, &warriors[i - 1]);
        if (i == 2) both = end;
    }
    check(mars_match(&settings, (const uint8_t *)formula, strlen(formula), cells, both, warriors, 2, rows, 2, &fault), "match");
    print_rows(2);
    check(mars_start(&settings, cells, both, warriors, 2, 0, battle, words, &fault), "start");
    check(mars_debug(battle, words, HISTORY, (const uint8_t *)lines, strlen(lines), replies, MAX_REPLIES, &length, &fault), "debug");
    fwrite(replies, 1, length, stdout);
    count--;
    check(mars_league(&settings, (const uint8_t *)formula, strlen(formula), cells, end, warriors, count, rows, count, &fault), "league");
    print_rows(count);
    free(battle);
    return 0;
}
