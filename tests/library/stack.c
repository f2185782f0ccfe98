/* Runs each call that executes much in a thread whose stack is filled with a byte, and prints how many bytes of the stack it wrote, less
 * those of a thread that does nothing. It is linked to libmars. */
#include <mars.h>
#include <pthread.h>
#include <stdio.h>
#include <stdlib.h>
#include <string.h>

enum { STACK = 1 << 20, FILL = 0x5a, WARRIORS = 16, WORDS = 300000 };

static const char *const SOURCES[] = {
    "SPL 0\nMOV -1, <-1\nJMP -1",
    "SPL 0, <-9\nMOV 3, <2\nJMP -1\nDAT 0, -4",
    "MOV 0, 1",
    "y EQU 2*(3+1)\nx FOR 3\nADD #y+x, (((((((((3)))))))))\nROF\nJMP -3, {2",
};
static const char FORMULA[] = "(W*W-1)/S";
static const char LINES[] = "run 1000\nundo\nlist 0 20\nshow\nedit 3 MOV.I $0, $1\ngoto 5\nset 3 4\nfill 0 100 DAT.F #0, #0\n";

static MarsSettings settings = {8000, 8000, 2000, 0, 0, 100, 100, 1, 1, 0};
static MarsCell cells[1600];
static MarsWarrior warriors[WARRIORS];
static size_t cell_count;
static uint32_t battle[WORDS];
static MarsFault fault;

static void check(uint32_t code) {
    if (code) {
        fprintf(stderr, "error %u\n", code);
        exit(1);
    }
}

static void *nothing(void *unused) { return unused; }

static void *assemble(void *unused) {
    cell_count = 0;
    for (int i = 0; i < WARRIORS; i++) {
        MarsProgram program;
        MarsLine lines[100];
        uint8_t labels[1000];
        size_t length;
        const char *source = SOURCES[i % 4];
        check(mars_assemble(&settings, WARRIORS, (const uint8_t *)source, strlen(source), cells + cell_count, 100, &program, lines, 100,
                            labels, sizeof labels, &length, &fault));
        warriors[i] = program.warrior;
        cell_count += program.warrior.length;
    }
    return unused;
}

static void *match(void *unused) {
    MarsRow rows[WARRIORS];
    check(mars_match(&settings, (const uint8_t *)FORMULA, strlen(FORMULA), cells, cell_count, warriors, WARRIORS, rows, WARRIORS, &fault));
    return unused;
}

static void *league(void *unused) {
    MarsRow rows[WARRIORS];
    check(mars_league(&settings, (const uint8_t *)FORMULA, strlen(FORMULA), cells, cell_count, warriors, WARRIORS, rows, WARRIORS, &fault));
    return unused;
}

static void *outcomes(void *counting) {
    MarsLineup lineup = {0, WARRIORS, {0, 1, 2, 3, 4, 5, 6, 7, 8, 9, 10, 11, 12, 13, 14, 15}, counting != NULL};
    MarsOutcome rows[WARRIORS];
    check(mars_outcomes(&settings, cells, cell_count, warriors, WARRIORS, &lineup, 1, rows, WARRIORS, &fault));
    return NULL;
}

static void *start(void *unused) {
    check(mars_start(&settings, cells, cell_count, warriors, WARRIORS, 0, battle, WORDS, &fault));
    return unused;
}

static void *play(void *unused) {
    static MarsRecord records[1000];
    static MarsTouched touched[1000];
    check(mars_play(battle, WORDS, 1000, records, 1000, touched, 1000, &fault));
    return unused;
}

static void *debug(void *unused) {
    static uint8_t text[100000];
    size_t length;
    check(mars_debug(battle, WORDS, 1000, (const uint8_t *)LINES, strlen(LINES), text, sizeof text, &length, &fault));
    return unused;
}

/* Returns how many bytes of the stack of a thread are written while it makes a call. */
static size_t used(void *(*call)(void *), void *argument) {
    static char *stack;
    if (stack == NULL) stack = aligned_alloc(4096, STACK);
    memset(stack, FILL, STACK);
    pthread_attr_t attributes;
    pthread_t thread;
    pthread_attr_init(&attributes);
    pthread_attr_setstack(&attributes, stack, STACK);
    if (pthread_create(&thread, &attributes, call, argument) || pthread_join(thread, NULL)) exit(1);
    size_t unused = 0;
    while (unused < STACK && stack[unused] == FILL) unused++;
    return STACK - unused;
}

int main(void) {
    size_t least = used(nothing, NULL);
    printf("mars_assemble %zu\n", used(assemble, NULL) - least);
    printf("mars_match %zu\n", used(match, NULL) - least);
    printf("mars_league %zu\n", used(league, NULL) - least);
    printf("mars_outcomes %zu\n", used(outcomes, NULL) - least);
    printf("mars_outcomes with counts %zu\n", used(outcomes, &settings) - least);
    printf("mars_start %zu\n", used(start, NULL) - least);
    printf("mars_play %zu\n", used(play, NULL) - least);
    printf("mars_debug %zu\n", used(debug, NULL) - least);
    settings.read_limit = settings.write_limit = 400;
    printf("mars_match with limits %zu\n", used(match, NULL) - least);
    return 0;
}
