/* Calls each export with ample memory, and then with each allocation failing, only this one and with all after it. Each result is that
 * with ample memory, or MARS_OUT_OF_MEMORY, which leaves rows and buffers unchanged; and all memory is freed. Then tests what calls return:
 * errors in their order, null pointers with the length 0, and results that agree with those of other calls. It is linked with --wrap for
 * malloc, realloc and free. Prints `N passed, M failed`. */
#include <mars.h>
#include <stdio.h>
#include <stdlib.h>
#include <string.h>

void *__real_malloc(size_t size);
void *__real_realloc(void *old, size_t size);
void __real_free(void *old);

/* The allocation number `left` fails, none if it is 0; after that all fail if `rest` is 1. Counts the blocks that are not freed, and the failures. */
static long left, rest, held, refusals;

static int is_refused(void) {
    if (left == 0 || --left > 0) return 0;
    refusals++;
    left = rest;
    return 1;
}

void *__wrap_malloc(size_t size) {
    void *made = is_refused() ? NULL : __real_malloc(size);
    held += made != NULL;
    return made;
}

void *__wrap_realloc(void *old, size_t size) {
    void *made = is_refused() ? NULL : __real_realloc(old, size);
    held += old == NULL && made != NULL;
    return made;
}

void __wrap_free(void *old) {
    held -= old != NULL;
    __real_free(old);
}

static const MarsSettings SETTINGS = {800, 800, 8000, 0, 0, 20, 20, 3, 1, 0};
static const char SOURCE[] = ";name Loops\nstep EQU 4\ni FOR 3\nx&i ADD #step, x01\nROF\nMOV 2, @2\nJMP -2\nEND x02\n";
static const MarsLine OWN_LINES[] = {{4, 0, 4}, {4, 4, 8}, {4, 8, 12}, {6, 12, 12}, {7, 12, 12}};
static const char LABELS[] = "x01\0x02\0x03";
static const char LINES[] = "step\nrun 5\nundo\nshow\nlist 0 5\nquit\n";
static const char FORMULA[] = "(W*W-1)/S";
static const MarsEdit EDIT = {4, 1, 0, 5, {0, 0, 0, 0, 0, 0}};
/* Fills three cells, then moves a process there and kills it. */
static const MarsEdit EDITS[] = {{1, 0, 0, 5, {1, 6, 1, 1, 0, 1}}, {1, 0, 0, 6, {1, 6, 1, 1, 0, 1}}, {1, 0, 0, 7, {1, 6, 1, 1, 0, 1}}, {2, 2, 0, 6, {0, 0, 0, 0, 0, 0}}, {3, 1, 0, 0, {0, 0, 0, 0, 0, 0}}};
static const MarsCondition CONDITIONS[] = {{MARS_CHANGES, MARS_NUMBER_ADDRESS, 780, 20}, {MARS_CHANGES, MARS_NUMBER_WARRIOR, 1, 2}};
enum { WORDS = 64 + 3 * 800 + 3 * 800, CELLS = 5, CALLS = 18 };
static MarsCell cells[17 * CELLS];
static MarsWarrior warriors[17]; /* the same warrior several times */
static MarsProgram program;
static uint32_t block[WORDS]; /* the battle of a round, as it starts */
static uint8_t load[1024];
static size_t load_length;
static const MarsLineup LINEUPS[] = {{5, 3, {0, 1, 2}, 1}, {0, 2, {2, 0}, 0}};

/* The buffers that a call writes. */
typedef struct {
    uint8_t text[2048];
    size_t length;
    MarsRow rows[3];
    MarsOutcome outcomes[3 * 5];
    MarsRecord records[9];
    MarsTouched touched[9];
    MarsCell cells[20];
    MarsLine lines[20];
    uint32_t battle[WORDS];
    MarsPast pasts[800];
    MarsFound found[9];
    MarsMoment moments[9];
    uint32_t births[9];
    uint32_t count;
    uint32_t first;
    int64_t value;
    MarsProgram program;
    MarsFault fault;
    uint32_t answer;
} Left;

/* Fills the buffers before a call: most of the calls from 9 on take a battle. */
static void prepare(int which, Left *got) {
    memset(got, 7, sizeof *got);
    if (which >= 9) memcpy(got->battle, block, sizeof block);
}

static void call(int which, Left *got) {
    prepare(which, got);
    const uint8_t *formula = (const uint8_t *)FORMULA, *lines = (const uint8_t *)LINES, *source = (const uint8_t *)SOURCE;
    size_t bytes = strlen(FORMULA), source_length = strlen(SOURCE);
    if (which < 2) got->answer = mars_assemble(&SETTINGS, 2, source, source_length, got->cells, 20, &got->program, got->lines, which == 0 ? 20 : 0,
                                               got->text, which == 0 ? sizeof got->text : 0, &got->length, &got->fault);
    if (which == 2) got->answer = mars_read_load(&SETTINGS, load, load_length, got->cells, 20, &got->program, &got->fault);
    if (which == 3) got->answer = mars_write_load(&SETTINGS, cells, CELLS, &program, got->text, sizeof got->text, &got->length, &got->fault);
    if (which == 4) got->answer = mars_match(&SETTINGS, formula, bytes, cells, 3 * CELLS, warriors, 3, got->rows, 3, &got->fault);
    if (which == 5) got->answer = mars_league(&SETTINGS, formula, bytes, cells, 3 * CELLS, warriors, 3, got->rows, 3, &got->fault);
    if (which == 6) got->answer = mars_population(&SETTINGS, formula, bytes, cells, 3 * CELLS, warriors, 3, got->rows, 2, &got->fault);
    if (which == 7) got->answer = mars_outcomes(&SETTINGS, cells, 3 * CELLS, warriors, 3, LINEUPS, 2, got->outcomes, 3 * 5, &got->fault);
    if (which == 8) got->answer = mars_start(&SETTINGS, cells, 3 * CELLS, warriors, 3, 2, got->battle, WORDS, &got->fault);
    if (which == 9) got->answer = mars_play(got->battle, WORDS, 20, got->records, 9, got->touched, 9, &got->fault);
    if (which == 10) got->answer = mars_edit(got->battle, WORDS, &EDIT, &got->fault);
    if (which == 11) got->answer = mars_check(got->battle, WORDS, &got->fault);
    if (which == 12) got->answer = mars_debug(got->battle, WORDS, 50, lines, strlen(LINES), got->text, sizeof got->text, &got->length, &got->fault);
    if (which == 13) got->answer = mars_follow(got->battle, WORDS, 200, got->pasts, 800, CONDITIONS, 2, got->found, 9, &got->count, &got->fault);
    if (which == 14) got->answer = mars_edits(got->battle, WORDS, EDITS, 5, &got->fault);
    if (which == 15) got->answer = mars_score(formula, bytes, 3, 2, &got->value, &got->fault);
    if (which == 16) got->answer = mars_moments(got->battle, WORDS, 50, got->pasts, 800, CONDITIONS, 2, got->moments, 9, &got->fault);
    if (which == 17) got->answer = mars_ancestors(got->battle, WORDS, 50, 1, 0, got->births, 9, &got->count, &got->first, &got->fault);
}

/* Returns whether the buffers are unchanged, except for the program, the length and the error. */
static int is_kept(const Left *got, const Left *blank) {
    const char *from = (const char *)got->rows, *upto = (const char *)&got->program;
    return memcmp(got->text, blank->text, sizeof got->text) == 0 && memcmp(from, blank->rows, upto - from) == 0;
}

/* Returns whether a call is right whichever allocation fails; all after it fail, too, if `each` is 1. */
static int holds(int which, long each) {
    Left ample, got, blank;
    prepare(which, &blank);
    left = rest = 0;
    call(which, &ample);
    if (ample.answer != MARS_DONE || held) return 0;
    for (long request = 1;; request++) {
        long before = refusals;
        left = request, rest = each;
        call(which, &got);
        left = 0;
        if (held) return 0;
        if (got.answer == MARS_DONE ? memcmp(&got, &ample, sizeof got) != 0 : got.answer != MARS_OUT_OF_MEMORY || !is_kept(&got, &blank)) return 0;
        if (refusals == before) return request > 1;
    }
}

/* A call that succeeds reports no error: each field is 0. */
static int are_faults_cleared(void) {
    static const MarsFault none;
    Left got;
    for (int which = 0; which < CALLS; which++) {
        call(which, &got);
        if (got.answer != MARS_DONE || memcmp(&got.fault, &none, sizeof none) != 0) return 0;
    }
    return 1;
}

/* Null pointers with the length 0. */
static int are_nulls_taken(void) {
    Left got;
    memset(&got, 0, sizeof got);
    const MarsSettings *settings = &SETTINGS;
    const uint8_t *source = (const uint8_t *)SOURCE, *formula = (const uint8_t *)FORMULA;
    size_t bytes = strlen(FORMULA), all = 3 * CELLS;
    MarsWarrior none = {0, 0};
    return mars_assemble(settings, 2, NULL, 0, NULL, 0, &got.program, NULL, 0, NULL, 0, &got.length, &got.fault) == MARS_ASSEMBLY
        && got.fault.number == MARS_ASSEMBLY_EMPTY
        && mars_assemble(settings, 2, source, strlen(SOURCE), NULL, 0, &got.program, NULL, 0, NULL, 0, &got.length, &got.fault) == MARS_ROOM
        && got.program.warrior.length == CELLS && got.length == sizeof LABELS
        && mars_read_load(settings, NULL, 0, NULL, 0, &got.program, &got.fault) == MARS_LOAD && got.fault.number == MARS_LOAD_EMPTY
        && mars_write_load(settings, cells, CELLS, &program, NULL, 0, &got.length, &got.fault) == MARS_ROOM && got.length == load_length
        && mars_match(settings, NULL, 0, cells, all, warriors, 3, got.rows, 3, &got.fault) == MARS_FORMULA && got.fault.number == MARS_EXPRESSION_SYNTAX
        && mars_match(settings, formula, bytes, NULL, 0, &none, 1, got.rows, 1, &got.fault) == MARS_WARRIOR && got.fault.number == MARS_WARRIOR_LENGTH
        && mars_score(NULL, 0, 2, 1, &got.value, &got.fault) == MARS_FORMULA && got.fault.number == MARS_EXPRESSION_SYNTAX
        && mars_league(settings, formula, bytes, NULL, 0, NULL, 0, NULL, 0, &got.fault) == MARS_DONE
        && mars_population(settings, formula, bytes, cells, all, warriors, 3, NULL, 0, &got.fault) == MARS_DONE
        && mars_outcomes(settings, NULL, 0, NULL, 0, NULL, 0, NULL, 0, &got.fault) == MARS_DONE
        && mars_start(settings, cells, all, warriors, 3, 0, NULL, 0, &got.fault) == MARS_ROOM
        && mars_debug(block, WORDS, 9, NULL, 0, NULL, 0, &got.length, &got.fault) == MARS_DONE && got.length == 0
        && mars_play(got.battle, 0, 1, NULL, 0, NULL, 0, &got.fault) == MARS_BLOCK && got.fault.number == MARS_BLOCK_SHORT
        && mars_follow(got.battle, 0, 1, NULL, 0, NULL, 0, NULL, 0, &got.count, &got.fault) == MARS_BLOCK && got.fault.number == MARS_BLOCK_SHORT
        && mars_moments(got.battle, 0, 1, NULL, 0, NULL, 0, NULL, 0, &got.fault) == MARS_BLOCK && got.fault.number == MARS_BLOCK_SHORT
        && mars_ancestors(block, WORDS, 9, 2, 0, NULL, 0, &got.count, &got.first, &got.fault) == MARS_DONE && got.count == 0 && got.first == 0
        && mars_ancestors(NULL, 0, 1, 0, 0, NULL, 0, &got.count, &got.first, &got.fault) == MARS_BLOCK && got.fault.number == MARS_BLOCK_SHORT
        && mars_edits(got.battle, 0, NULL, 0, &got.fault) == MARS_BLOCK && got.fault.number == MARS_BLOCK_SHORT
        && mars_check(NULL, 0, &got.fault) == MARS_BLOCK && got.fault.number == MARS_BLOCK_SHORT;
}

/* Returns whether the error of a source has the bytes from `begin` up to `end`. */
static int is_error_at(const char *source, uint64_t begin, uint64_t end) {
    Left got;
    uint32_t answer = mars_assemble(&SETTINGS, 2, (const uint8_t *)source, strlen(source), got.cells, 20, &got.program, NULL, 0, NULL, 0, &got.length,
                                    &got.fault);
    return answer == MARS_ASSEMBLY && got.fault.begin == begin && got.fault.end == end;
}

/* A name in the text of an EQU, a word in a loop, an opcode, a word that is none, and an error without a word. */
static int are_places_reported(void) {
    return is_error_at("x EQU 1+yy\nNOP 7, x", 8, 10) && is_error_at("i FOR 2\nNOP z&i\nROF", 12, 15)
        && is_error_at("here MVO 1, 2", 5, 8) && is_error_at("NOP 1x", 4, 6) && is_error_at("", 0, 0);
}

/* A program is what its load file says, and the other way round. */
static int are_loads_read(void) {
    Left got;
    MarsProgram wrong = program;
    memset(wrong.name, 'x', sizeof wrong.name);
    if (mars_write_load(&SETTINGS, cells, CELLS, &wrong, got.text, sizeof got.text, &got.length, &got.fault) != MARS_WARRIOR || got.fault.number != MARS_WARRIOR_NAME) return 0;
    call(2, &got);
    return !memcmp(got.cells, cells, CELLS * sizeof *cells) && !memcmp(&got.program, &program, sizeof program) && program.warrior.start == 1
        && !strcmp((const char *)program.name, "Loops");
}

/* The outcomes of a lineup add up to its row. */
static int are_outcomes_rows(void) {
    Left got;
    call(7, &got);
    MarsSettings settings = SETTINGS;
    settings.seed = LINEUPS[0].seed;
    if (mars_match(&settings, (const uint8_t *)FORMULA, strlen(FORMULA), cells, 3 * CELLS, warriors, 3, got.rows, 3, &got.fault) != MARS_DONE) return 0;
    for (size_t place = 0; place < 3; place++) {
        uint64_t survived = 0;
        for (size_t round = 0; round < 3; round++) survived += got.outcomes[3 * round + place].survived;
        if (survived != got.rows[place].wins + got.rows[place].ties) return 0;
    }
    /* Only the first lineup is counting. */
    if (got.outcomes[0].own_turns == 0 || got.outcomes[0].executed == 0 || got.outcomes[9].own_turns != 0) return 0;
    return got.outcomes[0].start == 0 && got.outcomes[9].start == 0 && got.outcomes[10].start >= SETTINGS.distance;
}

/* A battle is as long as mars_words says or shorter, and plays on alike in one call and in several. */
static int are_battles_values(void) {
    Left once, several;
    const MarsBattle *battle = (const MarsBattle *)once.battle;
    MarsSettings bad = SETTINGS;
    bad.distance = 801;
    prepare(10, &once), prepare(10, &several);
    for (int turn = 0; turn < 500; turn++)
        if (mars_play(several.battle, WORDS, 1, NULL, 0, NULL, 0, &several.fault) != MARS_DONE) return 0;
    return mars_words(&SETTINGS, 3) == WORDS && !mars_words(&SETTINGS, 0) && !mars_words(&SETTINGS, 17) && !mars_words(&bad, 3)
        && mars_play(once.battle, WORDS, 500, NULL, 0, NULL, 0, &once.fault) == MARS_DONE && battle->mark == MARS_MARK
        && battle->turns == 500 && battle->warriors == 3 && battle->words <= WORDS && sizeof *battle == 4 * 64
        && !memcmp(once.battle, several.battle, 4 * battle->words)
        && mars_play(once.battle, WORDS - 1, 1, NULL, 0, NULL, 0, &once.fault) == MARS_ROOM
        && mars_check(once.battle, battle->words, &once.fault) == MARS_DONE
        && mars_check(once.battle, battle->words - 1, &once.fault) == MARS_BLOCK && once.fault.number == 1;
}

/* A battle that is followed is the battle that is played, and the past and the turns that are found are those of its records. */
static int are_turns_found(void) {
    static MarsRecord records[500];
    static MarsPast pasts[800];
    Left followed, played;
    uint32_t count = 0;
    prepare(13, &followed), prepare(9, &played);
    memset(followed.pasts, 0, sizeof followed.pasts), memset(pasts, 0, sizeof pasts);
    if (mars_play(played.battle, WORDS, 500, records, 500, NULL, 0, &played.fault) != MARS_DONE) return 0;
    if (mars_follow(followed.battle, WORDS, 500, followed.pasts, 800, CONDITIONS, 2, followed.found, 9, &followed.count, &followed.fault) != MARS_DONE) return 0;
    for (uint32_t turn = 0; turn < 500; turn++) {
        int is_found = 0;
        MarsFound row = {turn + 1, records[turn].warrior, records[turn].queued, records[turn].address, pasts[records[turn].address]};
        for (uint32_t i = 0; i < records[turn].changes; i++) {
            uint32_t address = records[turn].change[i].address, first = i, last = i;
            for (uint32_t j = 0; j < records[turn].changes; j++)
                if (records[turn].change[j].address == address) first = j < first ? j : first, last = j > last ? j : last;
            if (!memcmp(&records[turn].change[first].before, &records[turn].change[last].after, sizeof(MarsCell))) continue;
            pasts[address] = (MarsPast){records[turn].warrior, turn + 1, 0};
            is_found |= records[turn].warrior >= 1 && records[turn].warrior <= 2 && (address >= 780 || address <= 20);
        }
        if (is_found && count < 9 && memcmp(&followed.found[count], &row, sizeof row)) return 0;
        count += is_found;
    }
    return count > 0 && count == followed.count && !memcmp(pasts, followed.pasts, sizeof pasts) && !memcmp(followed.battle, played.battle, sizeof played.battle);
}

/* Moments are those of the battle after each step, as it is followed. They end with the battle. */
static int are_moments_true(void) {
    enum { STEP = 7000, ROWS = 9 };
    Left whole, steps;
    prepare(16, &whole), prepare(13, &steps);
    memset(whole.pasts, 0, sizeof whole.pasts), memset(steps.pasts, 0, sizeof steps.pasts);
    if (mars_moments(whole.battle, WORDS, STEP, whole.pasts, 800, CONDITIONS, 2, whole.moments, ROWS, &whole.fault) != MARS_DONE) return 0;
    const MarsBattle *head = (const MarsBattle *)steps.battle;
    for (int row = 0; row < ROWS; row++) {
        MarsMoment moment = {0};
        if (mars_follow(steps.battle, WORDS, STEP, steps.pasts, 800, CONDITIONS, 2, NULL, 0, &moment.found, &steps.fault) != MARS_DONE) return 0;
        moment.turns = head->turns;
        memcpy(moment.processes, head->queue, sizeof moment.processes);
        for (int cell = 0; cell < 800; cell++) moment.cells[steps.pasts[cell].owner]++;
        if (memcmp(&moment, &whole.moments[row], sizeof moment)) return 0;
    }
    return head->over && whole.moments[ROWS - 1].turns < ROWS * STEP && !memcmp(whole.battle, steps.battle, sizeof whole.battle)
        && !memcmp(whole.pasts, steps.pasts, sizeof whole.pasts);
}

/* Of a warrior that splits in its turns 1, 3 and 6, the last process has three births, of which as many are written as there are places. A
 * turn of a lone warrior is one of the battle, also of one that was played before. */
static int are_ancestors_found(void) {
    const MarsCell splits[] = {{MARS_SPL, MARS_B, MARS_DIRECT, MARS_DIRECT, 0, 0}, {MARS_JMP, MARS_B, MARS_DIRECT, MARS_DIRECT, 0, 0}};
    const MarsWarrior lone[] = {{2, 0}};
    const uint32_t births[] = {6, 3, 1};
    Left got;
    for (size_t places = 0; places < 5; places++) {
        prepare(8, &got);
        if (mars_start(&SETTINGS, splits, 2, lone, 1, 0, got.battle, WORDS, &got.fault) != MARS_DONE) return 0;
        if (mars_ancestors(got.battle, WORDS, 6, 0, 3, got.births, places, &got.count, &got.first, &got.fault) != MARS_DONE) return 0;
        if (got.count != 3 || got.first != 0 || memcmp(got.births, births, 4 * (places < 3 ? places : 3))) return 0;
        for (size_t place = places < 3 ? places : 3; place < 9; place++)
            if (got.births[place] != 0x07070707) return 0;
    }
    const Left before = got;
    uint32_t missing = mars_ancestors(got.battle, WORDS, 6, 0, 4, got.births, 9, &got.count, &got.first, &got.fault);
    uint32_t unknown = mars_ancestors(got.battle, WORDS, 6, 1, 0, got.births, 9, &got.count, &got.first, &got.fault);
    if (missing != MARS_PROCESS || unknown != MARS_PROCESS || !is_kept(&got, &before)) return 0;
    /* After five turns the process that splits next, in turn 6, is the front. */
    return mars_play(got.battle, WORDS, 5, NULL, 0, NULL, 0, &got.fault) == MARS_DONE
        && mars_ancestors(got.battle, WORDS, 1, 0, 3, got.births, 9, &got.count, &got.first, &got.fault) == MARS_DONE && got.count == 1
        && got.births[0] == 6 && got.first == 0;
}

/* The value of a formula is the points of a match that ends so, and its errors are those of that match. */
static int are_scores_points(void) {
    static const char *const formulas[] = {"(W*W-1)/S", "S-W*100", "7/(S-2)", "9223372036854775807+S", "W+", "X"};
    MarsSettings settings = SETTINGS;
    const MarsCell lives = {MARS_JMP, MARS_B, MARS_DIRECT, MARS_DIRECT, 0, 0}, dies = {MARS_DAT, MARS_F, MARS_DIRECT, MARS_DIRECT, 0, 0};
    settings.rounds = 1;
    for (size_t i = 0; i < sizeof formulas / sizeof *formulas; i++)
        for (uint32_t survivors = 1; survivors <= 3; survivors++) {
            const MarsCell each[] = {lives, survivors > 1 ? lives : dies, survivors > 2 ? lives : dies};
            const MarsWarrior one[] = {{1, 0}, {1, 0}, {1, 0}};
            MarsRow rows[3];
            MarsFault fault, other;
            int64_t value = 0;
            const uint8_t *text = (const uint8_t *)formulas[i];
            uint32_t scored = mars_score(text, strlen(formulas[i]), 3, survivors, &value, &fault);
            uint32_t fought = mars_match(&settings, text, strlen(formulas[i]), each, 3, one, 3, rows, 3, &other);
            if (scored != fought || memcmp(&fault, &other, sizeof fault) || (scored == MARS_DONE && value != rows[0].points)) return 0;
        }
    /* Without survivors the formula is only read. */
    int64_t none = 1;
    MarsFault fault;
    return mars_score((const uint8_t *)"W/S", 3, 3, 0, &none, &fault) == MARS_DONE && none == 0 && mars_score((const uint8_t *)"W+", 2, 3, 0, &none, &fault) == MARS_FORMULA;
}

/* Edits in one call are those in several, and if one is impossible none is made. */
static int are_edits_all_or_none(void) {
    Left once, several;
    MarsEdit wrong[5];
    prepare(14, &once), prepare(14, &several), memcpy(wrong, EDITS, sizeof wrong);
    wrong[1].cell.op = 16, wrong[4].place = 1;
    if (mars_edits(once.battle, WORDS, wrong, 5, &once.fault) != MARS_EDIT || once.fault.number != MARS_EDIT_NO_SUCH_EDIT || once.fault.warrior != 1) return 0;
    wrong[1] = EDITS[1];
    if (mars_edits(once.battle, WORDS, wrong, 5, &once.fault) != MARS_EDIT || once.fault.number != MARS_EDIT_NO_SUCH_PROCESS || once.fault.warrior != 4) return 0;
    if (memcmp(once.battle, several.battle, sizeof once.battle) || mars_edits(once.battle, WORDS, EDITS, 5, &once.fault) != MARS_DONE) return 0;
    for (int i = 0; i < 5; i++)
        if (mars_edit(several.battle, WORDS, &EDITS[i], &several.fault) != MARS_DONE) return 0;
    return !memcmp(once.battle, several.battle, 4 * ((const MarsBattle *)once.battle)->words);
}

/* Returns whether a call with this room for lines and for labels writes all of them, or nothing but the program and the length. */
static int are_lines_written(size_t line_count, size_t labels_length) {
    Left got, expected;
    int fits = (line_count == 0 || line_count >= CELLS) && (labels_length == 0 || labels_length >= sizeof LABELS);
    prepare(0, &got), prepare(0, &expected);
    got.answer = mars_assemble(&SETTINGS, 2, (const uint8_t *)SOURCE, strlen(SOURCE), got.cells, 20, &got.program, got.lines, line_count, got.text,
                               labels_length, &got.length, &got.fault);
    if (fits) memcpy(expected.cells, cells, CELLS * sizeof *cells);
    if (fits && line_count) memcpy(expected.lines, OWN_LINES, sizeof OWN_LINES);
    if (fits && labels_length) memcpy(expected.text, LABELS, sizeof LABELS);
    return got.answer == (fits ? MARS_DONE : MARS_ROOM) && got.length == sizeof LABELS && !memcmp(&got.program, &program, sizeof program)
        && !memcmp(got.cells, expected.cells, sizeof got.cells) && !memcmp(got.lines, expected.lines, sizeof got.lines)
        && !memcmp(got.text, expected.text, sizeof got.text);
}

/* The lines of a source's cells and their labels. If a buffer is too short, nothing is written but the program and the length; to an
 * empty one nothing is written. */
static int are_lines_reported(void) {
    for (size_t lines = 0; lines <= CELLS + 1; lines++)
        for (size_t labels = 0; labels <= sizeof LABELS + 1; labels++)
            if (!are_lines_written(lines, labels)) return 0;
    return 1;
}

/* Returns whether mars_match, and mars_league for an error of rows or mars_start for others, report the error `number`, although other
 * arguments are wrong, too. */
static int is_refused_for(uint32_t number, const MarsSettings *settings, size_t count, size_t rows) {
    Left got;
    const uint8_t *wrong = (const uint8_t *)"W+";
    uint32_t contests = mars_match(settings, wrong, 2, cells, count * CELLS, warriors, count, got.rows, rows, &got.fault);
    int is_so = contests == MARS_SETTINGS && got.fault.number == number;
    if (number == MARS_SETTINGS_ROWS) return is_so && mars_league(settings, wrong, 2, cells, count * CELLS, warriors, count, got.rows, rows, &got.fault) == contests && got.fault.number == number;
    uint32_t started = mars_start(settings, cells, count * CELLS - 1, warriors, count, 3, got.battle, WORDS, &got.fault);
    return is_so && started == MARS_SETTINGS && got.fault.number == number;
}

/* Of two errors each call reports the first: those of the numbers of warriors and rows and of lineups come before those of the parameters,
 * then come the position, the formula and the lengths. */
static int are_mistakes_reported_in_order(void) {
    MarsSettings bad = SETTINGS, placed = SETTINGS, both = SETTINGS;
    bad.core = 0, placed.position = 1, both.position = 1, both.distance = 0;
    MarsRow rows[3];
    MarsFault fault;
    const uint8_t *wrong = (const uint8_t *)"W+", *formula = (const uint8_t *)FORMULA;
    size_t all = 3 * CELLS;
    MarsLineup lineup = {0, 1, {3}, 0};
    MarsOutcome outcome;
    return is_refused_for(MARS_SETTINGS_WARRIORS, &bad, 0, 0) && is_refused_for(MARS_SETTINGS_WARRIORS, &bad, 17, 3)
        && is_refused_for(MARS_SETTINGS_ROWS, &bad, 3, 2) && is_refused_for(MARS_SETTINGS_POSITION, &placed, 3, 3)
        && mars_league(&both, wrong, 2, cells, all, warriors, 3, rows, 3, &fault) == MARS_PARAMETERS && fault.number == MARS_PARAMETERS_DISTANCE
        && mars_league(&placed, wrong, 2, cells, all, warriors, 3, rows, 3, &fault) == MARS_SETTINGS && fault.number == MARS_SETTINGS_POSITION
        && mars_match(&SETTINGS, wrong, 2, cells, all - 1, warriors, 3, rows, 3, &fault) == MARS_FORMULA
        && mars_match(&SETTINGS, formula, strlen(FORMULA), cells, all - 1, warriors, 3, rows, 3, &fault) == MARS_SETTINGS && fault.number == MARS_SETTINGS_LENGTHS
        && mars_outcomes(&bad, cells, all, warriors, 3, &lineup, 1, &outcome, 1, &fault) == MARS_LINEUP && fault.number == MARS_LINEUP_INDEX;
}

int main(void) {
    int passed = 0, failed = 0;
    Left first;
    call(0, &first);
    program = first.program;
    for (size_t i = 0; i < sizeof warriors / sizeof *warriors; i++) {
        memcpy(cells + i * CELLS, first.cells, CELLS * sizeof *cells);
        warriors[i] = program.warrior;
    }
    call(3, &first);
    memcpy(load, first.text, load_length = first.length);
    uint32_t started = mars_start(&SETTINGS, cells, 3 * CELLS, warriors, 3, 2, block, WORDS, &first.fault);
    for (int which = 0; which < CALLS && started == MARS_DONE; which++)
        for (long each = 0; each < 2; each++) {
            int is_so = holds(which, each);
            passed += is_so, failed += !is_so;
            if (!is_so) printf("call %d, %s refused\n", which, each ? "all from one on" : "one");
        }
    int others[] = {mars_version() == MARS_VERSION, are_faults_cleared(), are_nulls_taken(), are_lines_reported(), are_places_reported(), are_loads_read(), are_outcomes_rows(), are_mistakes_reported_in_order(), are_battles_values(), are_turns_found(), are_moments_true(), are_ancestors_found(), are_edits_all_or_none(), are_scores_points()};
    for (size_t i = 0; i < sizeof others / sizeof *others; i++) {
        passed += others[i], failed += !others[i];
        if (!others[i]) printf("%s\n", (const char *[]){"the version", "errors of calls that succeed", "null pointers", "the lines of a source", "the places of errors", "load files", "outcomes", "the order of mistakes", "battles as values", "turns that are found", "moments", "ancestors", "several edits", "scores"}[i]);
    }
    printf("%d passed, %d failed\n", passed, failed);
    return failed != 0;
}
