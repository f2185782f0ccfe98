/* Makes N random calls of the library, wrong ones among them, and prints a digest of what each leaves: the same on every machine.
 *
 * usage: check N SEED
 *
 * No two arguments of a call are random, since compilers evaluate arguments in different orders. */
#include "arguments.h"

enum { OUT_CELLS = 300, OUTCOMES = 3000, ROWS = 40, RECORDS = 64, FOUND = 32, EDITS = 6 };

static uint64_t digest;
static MarsCell out_cells[OUT_CELLS];
static MarsLine lines[OUT_CELLS];
static uint8_t out[MAXTEXT];
static size_t length;
static MarsProgram program;
static MarsFault fault;

/* ---- The digest of what a call has left, in the order of a little-endian machine */

static void add_byte(unsigned value) { digest = (digest ^ value) * UINT64_C(1099511628211); }

static void add(uint64_t value, int size)
{
    for (; size--; value >>= 8) add_byte((unsigned)(value & 255));
}

static void add_bytes(const void *values, size_t size)
{
    const uint8_t *at = values;
    while (size--) add_byte(*at++);
}

static void add_words(const uint32_t *values, size_t count)
{
    while (count--) add(*values++, 4);
}

static void add_cell(const MarsCell *cell)
{
    add_bytes(cell, 4);
    add_words(&cell->a, 2);
}

static void add_program(void)
{
    size_t i;
    for (i = 0; i < OUT_CELLS; i++) add_cell(&out_cells[i]);
    add_words(&program.warrior.length, 2);
    add_bytes(program.name, sizeof program.name);
    add_bytes(program.author, sizeof program.author);
}

static void add_text(void)
{
    add(length, 8);
    add_bytes(out, sizeof out);
}

/* The first word of a cell is four bytes. */
static void add_battle(void)
{
    size_t i, core = s.core < 20000 ? s.core : 0;
    for (i = 0; i < words; i++) {
        if (i >= 64 && i < 64 + 3 * core && (i - 64) % 3 == 0) add_bytes(battle + i, 4);
        else add(battle[i], 4);
    }
}

static void add_fault(uint32_t result)
{
    add(result, 4);
    add_words(&fault.code, 4);
    add(fault.line, 8);
    add(fault.warrior, 8);
    add(fault.begin, 8);
    add(fault.end, 8);
}

static void clear(void)
{
    length = 77;
    memset(&fault, 0, sizeof fault);
    memset(&program, 0, sizeof program);
    memset(out, 0xA5, sizeof out);
    memset(out_cells, 0, sizeof out_cells);
}

/* ---- Programs */

static uint32_t assemble(void)
{
    size_t size = source(), cells_given = chance(4) ? below(8) : OUT_CELLS, most = chance(4) ? below(40) : sizeof out;
    size_t i, rows = chance(4) ? below(8) : OUT_CELLS;
    uint32_t result;
    memset(lines, 0, sizeof lines);
    result = mars_assemble(&s, 1 + below(4), text, size, out_cells, cells_given, &program, lines, rows, out, most, &length, &fault);
    for (i = 0; i < OUT_CELLS; i++) {
        add(lines[i].line, 8);
        add(lines[i].begin, 8);
        add(lines[i].end, 8);
    }
    add_program();
    add_text();
    return result;
}

static void make_name(uint8_t *name, uint32_t most)
{
    uint32_t i, size = below(most);
    for (i = 0; i < size; i++) name[i] = (uint8_t)(chance(200) ? rnd() : 32 + below(95));
}

static uint32_t write_load(void)
{
    uint32_t result;
    make_warriors(1);
    make_name(program.name, 62);
    make_name(program.author, 64);
    program.warrior = warriors[0];
    result = mars_write_load(&s, cells, cell_count, &program, out, chance(4) ? below(60) : 9000, &length, &fault);
    add_text();
    return result;
}

static uint32_t read_load(void)
{
    uint32_t wrong, result = write_load();
    size_t size = length;
    if (result) return result;
    memcpy(text, out, size);
    for (wrong = below(3); wrong && size && chance(2); wrong--) spoil(size);
    if (chance(5)) size = below((uint32_t)size + 1);
    clear();
    result = mars_read_load(&s, text, size, out_cells, chance(4) ? below(8) : OUT_CELLS, &program, &fault);
    add_program();
    return result;
}

/* ---- Contests */

typedef uint32_t Contest(const MarsSettings *, const uint8_t *, size_t, const MarsCell *, size_t, const MarsWarrior *, size_t,
                         MarsRow *, size_t, MarsFault *);

static uint32_t contest(Contest *call, uint32_t most, int has_candidates)
{
    static MarsRow rows[ROWS];
    const char *score = formula();
    size_t i, count;
    uint32_t result;
    make_warriors(most);
    if (call == mars_league) s.position = 0;
    memset(rows, 0x11, sizeof rows);
    count = chance(60) ? below(ROWS) : has_candidates ? 1 + below((uint32_t)warrior_count) : warrior_count;
    result = call(&s, (const uint8_t *)score, strlen(score), cells, cell_count, warriors, warrior_count, rows, count, &fault);
    for (i = 0; i < ROWS; i++) {
        add((uint64_t)rows[i].points, 8);
        add(rows[i].wins, 8);
        add(rows[i].ties, 8);
        add(rows[i].losses, 8);
    }
    return result;
}

static uint32_t match(void) { return contest(mars_match, chance(12) ? 17 : 3, 0); }
static uint32_t league(void) { return contest(mars_league, 6, 0); }
static uint32_t population(void) { return contest(mars_population, 3, 1); }

static uint32_t score(void)
{
    const char *given = formula();
    int64_t value = 77;
    uint32_t count = chance(9) ? wild() : 1 + below(4);
    uint32_t result = mars_score((const uint8_t *)given, strlen(given), count, chance(9) ? wild() : below(count + 1), &value, &fault);
    add((uint64_t)value, 8);
    return result;
}

static uint32_t outcomes(void)
{
    static MarsOutcome rows[OUTCOMES];
    static MarsLineup lineups[8];
    size_t i, j, count, size = 0;
    uint32_t result;
    make_warriors(5);
    count = 1 + below(4);
    for (i = 0; i < count; i++) {
        lineups[i].seed = chance(2) ? 0 : 1 + below(MARS_MAX_SEED);
        lineups[i].count = chance(40) ? wild() : 1 + below(4);
        for (j = 0; j < 16; j++) lineups[i].warrior[j] = chance(200) ? wild() : below((uint32_t)warrior_count);
        lineups[i].counting = below(2);
        size += lineups[i].count;
    }
    size *= s.rounds;
    if (size > OUTCOMES || chance(50)) size = below(OUTCOMES);
    if (chance(3)) s.position = 0;
    memset(rows, 0x22, sizeof rows);
    result = mars_outcomes(&s, cells, cell_count, warriors, warrior_count, lineups, count, rows, size, &fault);
    for (i = 0; i < OUTCOMES; i++) add_words(&rows[i].survived, 8);
    return result;
}

/* ---- Battles */

static uint32_t start(void)
{
    size_t most;
    uint32_t result;
    make_warriors(chance(9) ? 17 : 3);
    memset(battle, 0x33, sizeof battle);
    most = mars_words(&s, (uint32_t)warrior_count);
    add(most, 8);
    words = most && most <= MAXWORDS ? most : 2000;
    if (chance(30)) words = below((uint32_t)words);
    result = mars_start(&s, cells, cell_count, warriors, warrior_count, chance(50) ? wild() : below(s.rounds), battle, words, &fault);
    add_battle();
    return result;
}

/* Makes a word wrong, but not the first of a cell, which has another meaning on a big-endian machine. */
static void spoil_battle(void)
{
    size_t place = chance(2) ? below(64) : below((uint32_t)words);
    if (place < 64 || place >= 64 + 3 * (size_t)s.core || (place - 64) % 3) battle[place] = chance(2) ? wild() : battle[place] + 1;
}

static void play(void)
{
    static MarsRecord records[RECORDS];
    static MarsTouched touched[RECORDS];
    size_t i, j, count = below(RECORDS), touched_count = below(RECORDS);
    uint32_t turns = below(chance(3) ? 3000 : 70);
    memset(records, 0x44, sizeof records);
    memset(touched, 0x55, sizeof touched);
    add_fault(mars_play(battle, words, turns, records, count, touched, touched_count, &fault));
    for (i = 0; i < RECORDS; i++) {
        add_words(&records[i].warrior, 7);
        for (j = 0; j < 3; j++) {
            add(records[i].change[j].address, 4);
            add_cell(&records[i].change[j].before);
            add_cell(&records[i].change[j].after);
        }
        add_words(records[i].process, 2);
        add_words(&touched[i].count, 9);
    }
}

static void make_edit(MarsEdit *edit)
{
    edit->what = chance(20) ? wild() : 1 + below(4);
    edit->warrior = below(4);
    edit->place = below(4);
    edit->address = chance(20) ? wild() : below(s.core);
    cell(&edit->cell, s.core);
}

static void edit(void)
{
    MarsEdit given[EDITS];
    uint32_t i, count = below(EDITS);
    for (i = 0; i < EDITS; i++) make_edit(&given[i]);
    if (chance(2)) add_fault(mars_edit(battle, words, given, &fault));
    else add_fault(mars_edits(battle, words, given, count, &fault));
}

static void follow(void)
{
    static MarsPast pasts[9000];
    MarsCondition conditions[3];
    MarsFound found[FOUND];
    MarsMoment moments[FOUND];
    uint32_t i, count = 77, core = s.core < 9000 ? s.core : 9000;
    uint32_t turns = below(400), past_count = chance(30) ? below(core) : core, condition_count = below(4), places = below(FOUND);
    for (i = 0; i < core; i++) {
        pasts[i].owner = chance(2) ? below(3) : 16;
        pasts[i].turn = 0;
        pasts[i].origin = i;
    }
    for (i = 0; i < 3; i++) {
        conditions[i].way = chance(40) ? wild() : 1 + below(3);
        conditions[i].number = chance(40) ? wild() : 1 + below(9);
        conditions[i].first = chance(9) ? wild() : below(4);
        conditions[i].last = chance(9) ? wild() : below(16);
    }
    memset(found, 0x66, sizeof found);
    memset(moments, 0x77, sizeof moments);
    if (chance(3)) add_fault(mars_moments(battle, words, turns / FOUND, pasts, past_count, conditions, condition_count, moments, places, &fault));
    else add_fault(mars_follow(battle, words, turns, pasts, past_count, conditions, condition_count, found, places, &count, &fault));
    add(count, 4);
    add_words(&found[0].turn, 7 * FOUND);
    add_words(&moments[0].turns, 34 * FOUND);
    for (i = 0; i < core; i++) add_words(&pasts[i].owner, 3);
}

static void ancestors(void)
{
    uint32_t births[FOUND], count = 77, first = 77, turns = below(400), warrior = below(3), place = below(4);
    memset(births, 0x55, sizeof births);
    add_fault(mars_ancestors(battle, words, turns, warrior, place, births, below(FOUND), &count, &first, &fault));
    add(count, 4);
    add(first, 4);
    add_words(births, FOUND);
}

static uint32_t debug(void)
{
    size_t size = commands();
    uint32_t history = chance(20) ? wild() % 2000000 : 1 + below(chance(2) ? 5 : 2000);
    uint32_t result = mars_debug(battle, words, history, text, size, out, chance(5) ? below(100) : sizeof out, &length, &fault);
    add_text();
    return result;
}

static uint32_t fight(void)
{
    uint32_t i, result = start();
    if (result) return result;
    if (words && chance(20)) spoil_battle();
    for (i = 0; i < 3; i++) {
        play();
        add_battle();
        edit();
        add_battle();
        if (chance(2)) follow();
        if (chance(2)) ancestors();
        add_fault(mars_check(battle, words, &fault));
    }
    result = debug();
    add_battle();
    return result;
}

static uint32_t sizes(void)
{
    uint32_t count = chance(9) ? wild() : 1 + below(16);
    add(mars_words(&s, count), 8);
    return mars_version();
}

static const struct {
    const char *name;
    uint32_t (*make)(void);
    int is_small; /* whether the core is mostly small */
} CALLS[] = {
    {"assemble", assemble, 0}, {"assemble", assemble, 0}, {"write_load", write_load, 0},
    {"read_load", read_load, 0}, {"match", match, 0}, {"match", match, 0}, {"league", league, 0}, {"population", population, 1},
    {"score", score, 0}, {"outcomes", outcomes, 1}, {"sizes", sizes, 0}, {"fight", fight, 1}, {"fight", fight, 1}, {"fight", fight, 0},
};

int main(int argc, char **argv)
{
    unsigned long i, count = argc > 1 ? strtoul(argv[1], 0, 10) : 100, seed = argc > 2 ? strtoul(argv[2], 0, 10) : 1;
    state = UINT64_C(88172645463325252) ^ seed * UINT64_C(0x9E3779B97F4A7C15);
    for (i = 0; i < count; i++) {
        uint32_t which = below(sizeof CALLS / sizeof *CALLS);
        digest = UINT64_C(14695981039346656037);
        clear();
        settings(CALLS[which].is_small);
        add_fault(CALLS[which].make());
        printf("%lu %s %lu.%lu %016llx\n", i, CALLS[which].name, (unsigned long)fault.code, (unsigned long)fault.number,
               (unsigned long long)digest);
    }
    return 0;
}
