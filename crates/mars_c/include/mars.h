/* The Core War kit as a library: an assembler, matches, leagues, populations, the debugger, records of turns, searches for turns, and
 * battles as values.
 *
 * Each call returns 0 (MARS_DONE) if it succeeds. Otherwise it returns the number of an error, stores this number with details in
 * `*fault`, and leaves rows, buffers, cells and battles unchanged. An error has the same number in every call. If there are several errors,
 * the first one in this order is returned: the numbers of warriors and of rows; the parameters; rounds, seed and position; the formula;
 * the warriors in order, and cells left over after them; the round; then errors that only the match shows.
 *
 * Nothing outlives a call and nothing is shared, so several threads may call at once, each with its own memory. A call gets its memory
 * from malloc and realloc and frees all of it; these calls must belong to one allocator and align as C requires. A stack of 64 KiB is
 * sufficient: no measured call used more than 40 KiB. Do not call the library from a signal handler, or in the forked child of a process
 * with threads. mars.wasm exports mars_alloc and mars_free, which allocate and free memory for arguments, as malloc and free do.
 *
 * The caller guarantees that each pointer is valid for as many readable (const) or writable values as the length after it says, that it
 * is aligned for its type, and that output overlaps no other argument. A pointer with the length 0 may be null; no other pointer may
 * be. Output need not be initialised.
 */
#ifndef MARS_H
#define MARS_H

#include <stddef.h>
#include <stdint.h>

#ifdef __cplusplus
extern "C" {
#endif

/* The version of this header: 1000 for each major version, and the minor one. A minor version adds to what is there, a major one
 * changes it. */
#define MARS_VERSION 2000

/* The version of the library that is called. */
uint32_t mars_version(void);

/* The limits of settings and arguments; each is a maximum. */
enum {
    MARS_MAX_CORE = 1048576,
    MARS_MAX_PROCESSES = 65536,
    MARS_MAX_CYCLES = 10000000,
    MARS_MAX_WARRIORS = 16, /* in one battle */
    MARS_MAX_LEAGUE = 65536,
    MARS_MAX_ROUNDS = 100000,
    MARS_MAX_SEED = 2147483646,
    MARS_MAX_HISTORY = 1000000,
    MARS_MAX_FORMULA = 256 /* bytes */
};

/* The opcodes, modifiers and modes of cells. SEQ is also written CMP. */
enum {
    MARS_DAT, MARS_MOV, MARS_ADD, MARS_SUB, MARS_MUL, MARS_DIV, MARS_MOD, MARS_JMP,
    MARS_JMZ, MARS_JMN, MARS_DJN, MARS_SEQ, MARS_SNE, MARS_SLT, MARS_SPL, MARS_NOP
};
enum { MARS_A, MARS_B, MARS_AB, MARS_BA, MARS_F, MARS_X, MARS_I };
enum {
    MARS_IMMEDIATE,        /* # */
    MARS_DIRECT,           /* $ */
    MARS_A_INDIRECT,       /* * */
    MARS_B_INDIRECT,       /* @ */
    MARS_A_PREDECREMENT,   /* { */
    MARS_B_PREDECREMENT,   /* < */
    MARS_A_POSTINCREMENT,  /* } */
    MARS_B_POSTINCREMENT   /* > */
};

/* The results of calls. `number` of MarsFault is a value of the enumeration that follows. */
enum {
    MARS_DONE = 0,
    MARS_OUT_OF_MEMORY = 1,
    MARS_SETTINGS = 2,   /* a number is out of its range: MARS_SETTINGS_.. */
    MARS_PARAMETERS = 3, /* a parameter of the core is out of its range: MARS_PARAMETERS_.. */
    MARS_FORMULA = 4,    /* the formula is wrong: MARS_EXPRESSION_.. */
    MARS_ASSEMBLY = 5,   /* the source is wrong: MARS_ASSEMBLY_.., at `fault->line` and `fault->begin` */
    MARS_LOAD = 6,       /* the load file is wrong: MARS_LOAD_.., at `fault->line` */
    MARS_PLACEMENT = 7,  /* the warriors cannot be placed: MARS_PLACEMENT_.. */
    MARS_BATTLE = 8,     /* the battle cannot start: MARS_BATTLE_.. */
    MARS_SCORE = 9,      /* the formula has no value for a round, or a sum does not fit in 64 bits: MARS_EXPRESSION_.. */
    MARS_ROOM = 10,      /* a buffer is shorter than what is to be written; *length, *program or mars_words says how long that is */
    MARS_BLOCK = 11,     /* the words are not a battle: MARS_BLOCK_.. */
    MARS_EDIT = 12,      /* the edit is impossible: MARS_EDIT_.. */
    MARS_WARRIOR = 13,   /* the cells, the start or a name of `fault->warrior` is wrong: MARS_WARRIOR_.. */
    MARS_LINEUP = 14,    /* the lineup with the index `fault->warrior` is wrong: MARS_LINEUP_.. */
    MARS_CONDITION = 15, /* the condition with the index `fault->warrior` has a way or a number that does not exist */
    MARS_PROCESS = 16    /* the warrior has no process with this index after the turns */
};
enum {
    MARS_SETTINGS_ROUNDS = 1,
    MARS_SETTINGS_SEED,
    MARS_SETTINGS_POSITION, /* it is given for other than two warriors, or is out of its range */
    MARS_SETTINGS_WARRIORS, /* the number of warriors */
    MARS_SETTINGS_LENGTHS,  /* the lengths of the warriors together are not the number of cells */
    MARS_SETTINGS_HISTORY,
    MARS_SETTINGS_ROWS,     /* the number of rows */
    MARS_SETTINGS_ROUND
};
enum {
    MARS_PARAMETERS_CORE_SIZE = 1,
    MARS_PARAMETERS_PROCESSES,
    MARS_PARAMETERS_CYCLES,
    MARS_PARAMETERS_LIMIT,
    MARS_PARAMETERS_LENGTH,
    MARS_PARAMETERS_DISTANCE
};
enum {
    MARS_EXPRESSION_SYNTAX = 1,
    MARS_EXPRESSION_UNKNOWN, /* a name that is not defined */
    MARS_EXPRESSION_DIVIDE_BY_ZERO,
    MARS_EXPRESSION_RANGE,   /* a value does not fit in 64 bits */
    MARS_EXPRESSION_DEPTH
};
enum {
    MARS_ASSEMBLY_TEXT = 1, /* `fault->problem` is MARS_TEXT_.. */
    MARS_ASSEMBLY_OPERATION,
    MARS_ASSEMBLY_OPERAND,
    MARS_ASSEMBLY_EXPRESSION, /* `fault->expression` is MARS_EXPRESSION_.. */
    MARS_ASSEMBLY_ASSERT_FAILED,
    MARS_ASSEMBLY_BAD_ORIGIN,
    MARS_ASSEMBLY_EMPTY,
    MARS_ASSEMBLY_TOO_LONG
};
enum {
    MARS_TEXT_NOT_ASCII = 1,
    MARS_TEXT_BAD_TOKEN,
    MARS_TEXT_UNCLOSED_FOR,
    MARS_TEXT_ROF_ALONE,
    MARS_TEXT_BAD_COUNT,
    MARS_TEXT_LABEL_IN_COUNT,
    MARS_TEXT_DUPLICATE,
    MARS_TEXT_EQU_DEPTH,
    MARS_TEXT_TOO_LONG,
    MARS_TEXT_EXPRESSION /* `fault->expression` is MARS_EXPRESSION_.. */
};
enum {
    MARS_LOAD_SYNTAX = 1,
    MARS_LOAD_TOO_LONG,
    MARS_LOAD_EMPTY,
    MARS_LOAD_BAD_ORIGIN,
    MARS_LOAD_VERSION = 6
};
enum {
    MARS_PLACEMENT_NO_ROOM = 1,
    MARS_PLACEMENT_BAD_SEED
};
enum {
    MARS_BATTLE_OVERLAP = 3,
    MARS_BATTLE_START_OUTSIDE,
    MARS_BATTLE_FIELD_OUTSIDE
};
enum {
    MARS_BLOCK_SHORT = 1,  /* there are fewer words than the header or the parts need */
    MARS_BLOCK_MARK,       /* `mark` is not MARS_MARK: another byte order, or another version of the layout */
    MARS_BLOCK_PARAMETERS, /* a parameter is out of its range: `fault->problem` is MARS_PARAMETERS_.. */
    MARS_BLOCK_WARRIORS,   /* `warriors` is not from 1 to 16 */
    MARS_BLOCK_CELL,       /* a cell is wrong, as in MARS_WARRIOR_CELL and MARS_WARRIOR_FIELD; `fault->line` is its address */
    MARS_BLOCK_QUEUE,      /* a warrior has more processes than `processes`, or one outside the core; `fault->warrior` is the warrior */
    MARS_BLOCK_DEATHS,     /* the deaths do not name each warrior without a process exactly once, and no other warrior */
    MARS_BLOCK_CLOCK,      /* `turns`, `cycle` and `next` do not agree with each other or with the living warriors */
    MARS_BLOCK_HEAD        /* `words`, `over`, `unused` or an unused place of `queue` or `death` has a wrong value */
};
enum {
    MARS_EDIT_NO_SUCH_EDIT = 1, /* `what` is not from 1 to 4, or the new cell has an opcode, modifier or mode that does not exist */
    MARS_EDIT_ADDRESS,          /* `address` is outside the core */
    MARS_EDIT_FIELD_OUTSIDE,    /* a number of the new cell is outside the core */
    MARS_EDIT_NO_SUCH_WARRIOR,
    MARS_EDIT_NO_SUCH_PROCESS,  /* the warrior has no process with this index */
    MARS_EDIT_WARRIOR_DEAD,     /* the warrior is dead, so it gets no process */
    MARS_EDIT_QUEUE_FULL        /* the warrior has as many processes as `processes` allows */
};
enum {
    MARS_WARRIOR_LENGTH = 1, /* the number of cells is not from 1 to settings->longest */
    MARS_WARRIOR_START,      /* the start is not the index of a cell */
    MARS_WARRIOR_CELL,       /* a cell has an opcode, modifier or mode that does not exist; `fault->line` is its index in the warrior */
    MARS_WARRIOR_FIELD,      /* a cell has a number outside the core; `fault->line` is its index in the warrior */
    MARS_WARRIOR_NAME        /* a name has more than 60 bytes, or one that is not a printable character of ASCII */
};
enum {
    MARS_LINEUP_COUNT = 1, /* the number of warriors is not from 1 to 16 */
    MARS_LINEUP_INDEX      /* there is no warrior with an index */
};

/* The settings of a match. */
typedef struct {
    uint32_t core;        /* core size in cells, 1 to 1048576 */
    uint32_t processes;   /* maximum number of processes of a warrior, 1 to 65536 */
    uint32_t cycles;      /* maximum number of cycles of a round, 1 to 10000000 */
    uint32_t read_limit;  /* cells, 1 to the core size; 0 is the core size */
    uint32_t write_limit; /* cells, 1 to the core size; 0 is the core size */
    uint32_t longest;     /* maximum length of a warrior in cells, 1 to the core size */
    uint32_t distance;    /* minimum distance between first cells, from `longest` to the core size */
    uint32_t rounds;      /* number of rounds of a match, 1 to 100000 */
    uint32_t seed;        /* seed for the positions of the first round, 1 to 2147483646 */
    uint32_t position;    /* address of the second of two warriors in each round, from `distance` to the core size minus it; 0: drawn */
} MarsSettings;

/* A warrior: its cells are in an array of MarsCell, those of several warriors one after another in their order. */
typedef struct {
    uint32_t length; /* number of cells, 1 to settings->longest */
    uint32_t start;  /* index of the cell at which its process starts, from 0 */
} MarsWarrior;

/* A program, besides its cells. */
typedef struct {
    MarsWarrior warrior;
    uint8_t name[64]; /* at most 60 printable characters of ASCII, then zeros */
    uint8_t author[64];
} MarsProgram;

/* The line of a cell in its source. */
typedef struct {
    uint64_t line;  /* number of the line, from 1 */
    uint64_t begin; /* its labels are the bytes of `labels` of mars_assemble from this offset on .. */
    uint64_t end;   /* .. up to the byte before this one; each has a zero byte after it */
} MarsLine;

/* The result of a warrior. */
typedef struct {
    int64_t points;  /* sum of its scores by the formula */
    uint64_t wins;   /* rounds survived as the only warrior */
    uint64_t ties;   /* rounds survived with others */
    uint64_t losses; /* rounds not survived */
} MarsRow;

/* The match of a lineup: its warriors, and the seed of its first round. */
typedef struct {
    uint32_t seed;        /* 1 to 2147483646; 0: that of the settings */
    uint32_t count;       /* number of warriors, 1 to 16 */
    uint32_t warrior[16]; /* indices of the warriors, from 0; those after `count` are not used */
    uint32_t counting;    /* not 0 to count what each warrior does, which takes several times as long */
} MarsLineup;

/* How a warrior fares in a round. */
typedef struct {
    uint32_t survived;  /* 1 if it lives at the end, else 0 */
    uint32_t turns;     /* number of turns executed by all warriors when it died, including its last one; if it survived, of all turns */
    uint32_t start;     /* address of its first cell */
    uint32_t own_turns; /* number of its own turns; from here on all are 0 if its lineup isn't counting */
    uint32_t spawned;   /* number of its turns that queued two processes */
    uint32_t executed;  /* number of cells at which it executed an instruction */
    uint32_t written;   /* number of cells that it wrote */
    uint32_t touched;   /* number of cells that it executed, read or wrote, with the meaning of MarsTouched */
} MarsOutcome;

/* A cell of the core. */
typedef struct {
    uint8_t op;       /* MARS_DAT to MARS_NOP */
    uint8_t modifier; /* MARS_A to MARS_I */
    uint8_t a_mode;   /* MARS_IMMEDIATE to MARS_B_POSTINCREMENT */
    uint8_t b_mode;
    uint32_t a; /* both numbers are addresses relative to the cell, from 0 to the core size minus 1 */
    uint32_t b;
} MarsCell;

/* A write of a cell. A turn that increments, decrements or overwrites the same cell several times has a write for each time. */
typedef struct {
    uint32_t address;
    MarsCell before;
    MarsCell after; /* may be equal to `before` */
} MarsChange;

/* The record of a turn; fields that do not apply are 0. Warriors are numbered from 0 in the order of their turns: in round K these are
 * the warrior with index K modulo the number of warriors, then those after it, then those before it. */
typedef struct {
    uint32_t warrior;     /* warrior of the turn */
    uint32_t address;     /* address of the process that was executed */
    uint32_t next;        /* warrior whose turn is next */
    uint32_t cycle;       /* number of cycles completed after the turn */
    uint32_t died;        /* 1 if the warrior died */
    uint32_t changes;     /* number of writes, 0 to 3 */
    uint32_t queued;      /* number of processes that were queued, 0 to 2 */
    MarsChange change[3]; /* the writes, in the order of execution */
    uint32_t process[2];  /* addresses of the processes that were queued */
} MarsRecord;

/* The cells that a turn reads or writes, in this order:
 *
 *   the instruction
 *   A: if its mode is indirect, its pointer within the read limit and its pointer within the write limit; then the cell that is copied
 *   B: likewise
 *   the target of B for writing
 *
 * They are listed whether the opcode uses them or not, and a cell may be listed several times. */
typedef struct {
    uint32_t count;      /* number of addresses, 4 to 8 */
    uint32_t address[8]; /* in this order; unused ones are 0 */
} MarsTouched;

/* The past of a cell. The library writes `owner` and `turn` when a turn changes the cell, and copies `origin` with an instruction; it
 * gives no meaning to them otherwise. So the caller sets them first: at the start of a battle `owner` to the warrior that was loaded there,
 * or to a number of its own, from 16 on, `turn` to 0, and `origin` to the address. After an edit it sets those of the cells that the edit
 * changed, for example to another number of its own, the number of turns so far, and an origin that no other cell has, from the core size
 * on. */
typedef struct {
    uint32_t owner;  /* warrior that changed the cell last. A change makes it another cell: a write of the same cell is none */
    uint32_t turn;   /* number of the turn that changed it last, from 1 */
    uint32_t origin; /* where its instruction was at first. Only MOV.I copies an instruction; all others change numbers */
} MarsPast;

/* The ways in which a turn uses a cell. It reads the cells of MarsTouched that it does not write. */
enum { MARS_EXECUTES = 1, MARS_CHANGES, MARS_READS };

/* The numbers of a turn, and of a cell that it uses. The past is that before the turn. */
enum {
    MARS_NUMBER_WARRIOR = 1, /* of the turn */
    MARS_NUMBER_QUEUED,      /* processes that the turn queued: 2 if it split, 0 if its process ended */
    MARS_NUMBER_DIED,        /* 1 if the warrior died, else 0 */
    MARS_NUMBER_ADDRESS,     /* of the cell */
    MARS_NUMBER_OWNER,
    MARS_NUMBER_TURN,
    MARS_NUMBER_ORIGIN,
    MARS_NUMBER_OPCODE,      /* before the turn */
    MARS_NUMBER_NEW_OPCODE   /* after it */
};

/* A condition: the number of a cell that a turn uses in this way is one from `first` to `last`. If `last` is smaller, the range goes
 * around: it has the numbers from `first` on and those up to `last`. So {.., n + 1, n - 1} is any number but n. */
typedef struct {
    uint32_t way;
    uint32_t number;
    uint32_t first;
    uint32_t last;
} MarsCondition;

/* A turn that was found. */
typedef struct {
    uint32_t turn;    /* its number, from 1 */
    uint32_t warrior; /* its warrior */
    uint32_t queued;  /* number of processes that it queued: 2 if it split, 0 if its process ended */
    uint32_t address; /* address of the cell that it executed */
    MarsPast past;    /* of that cell, before the turn */
} MarsFound;

/* A battle at a moment. */
typedef struct {
    uint32_t turns;         /* number of turns that all warriors executed together */
    uint32_t found;         /* number of turns since the moment before that meet the conditions */
    uint32_t cells[16];     /* number of cells whose owner is 0, 1, .. */
    uint32_t processes[16]; /* number of processes of each warrior; 0 after the last warrior */
} MarsMoment;

/* A death: the warrior, and the number of turns that all warriors had executed, including its last one. */
typedef struct {
    uint32_t warrior;
    uint32_t turns;
} MarsDeath;

/* Why a call failed. Fields that do not apply are 0. */
typedef struct {
    uint32_t code;       /* the result of the call */
    uint32_t number;     /* number of the error, of the enumeration for its code */
    uint32_t problem;    /* of MARS_ASSEMBLY_TEXT: MARS_TEXT_..; of MARS_BLOCK_PARAMETERS: MARS_PARAMETERS_.. */
    uint32_t expression; /* of MARS_ASSEMBLY_EXPRESSION and MARS_TEXT_EXPRESSION: MARS_EXPRESSION_.. */
    uint64_t line;       /* line of a source or a load file, from 1; of MARS_BLOCK_CELL: address of the first wrong cell; of
                            MARS_WARRIOR_CELL and MARS_WARRIOR_FIELD: index of the first wrong cell */
    uint64_t warrior;    /* of MARS_WARRIOR, MARS_LINEUP, MARS_CONDITION and MARS_EDIT: index, from 0; of MARS_BLOCK_QUEUE: first
                            warrior whose queue is wrong */
    uint64_t begin;      /* of MARS_ASSEMBLY: offset in the source, in bytes, of the word or sign at which the error arises; of one that
                            comes from an EQU, that in the text of the EQU. Like `end` 0 if the error has none */
    uint64_t end;        /* offset of the byte after it */
} MarsFault;

/* A battle: a block of 32-bit words that the caller owns. The block has the whole state of the battle, without pointers or padding,
 * so the caller may copy, store, send and compare it as bytes. It has three parts:
 *
 *   64 words             this header
 *   core * 3 words       the cells in the order of their addresses, each a MarsCell
 *   one word a process   the addresses of the processes, the queue of warrior 0 first, the front of each queue first
 *
 * So the first `words` words are the battle. The calls ignore the words after them. Equal battles have equal words.
 *
 * A caller may write to any part, or make a whole battle. The next call checks it: if the words are not a battle, the call returns
 * MARS_BLOCK and does nothing else. */
typedef struct {
    uint32_t mark;        /* MARS_MARK */
    uint32_t words;       /* length of the battle in words: 64, 3 for each cell and 1 for each process */
    uint32_t core;        /* as in MarsSettings, like the next six, but no limit is 0 */
    uint32_t processes;
    uint32_t cycles;
    uint32_t read_limit;
    uint32_t write_limit;
    uint32_t longest;
    uint32_t distance;
    uint32_t warriors;    /* number of warriors, 1 to 16, including the dead; they count from 0 in the order of their turns */
    uint32_t turns;       /* number of turns that all warriors executed together */
    uint32_t cycle;       /* number of completed cycles */
    uint32_t next;        /* warrior whose turn is next */
    uint32_t over;        /* 1 if no turn is left, else 0 */
    uint32_t deaths;      /* number of warriors that died */
    uint32_t unused;      /* 0 */
    uint32_t queue[16];   /* number of processes of each warrior; 0 after the last warrior */
    MarsDeath death[16];  /* in the order in which the warriors died; 0 after the last death */
} MarsBattle;

/* The first word of a battle: the bytes M, A, R and 1, the version of the layout; M is the lowest byte. */
enum { MARS_MARK = 22167885 };

/* The kinds of edits. An edit uses only the fields that its kind needs. */
enum {
    MARS_SET_CELL = 1, /* `address` and `cell` */
    MARS_MOVE_PROCESS, /* `warrior`, `place`, and `address` for its new address */
    MARS_KILL_PROCESS, /* `warrior` and `place`; a warrior whose last process is killed dies */
    MARS_ADD_PROCESS   /* `warrior` and `address`, at the end of the queue */
};

/* An edit of a battle. */
typedef struct {
    uint32_t what;    /* MARS_SET_CELL to MARS_ADD_PROCESS */
    uint32_t warrior;
    uint32_t place;   /* index of the process in its queue; the front has index 0 */
    uint32_t address; /* 0 to the core size less 1 */
    MarsCell cell;
} MarsEdit;

/* ---- Programs ---- */

/* Assembles a source. Its cells are written to the front of `cells`, and the number of cells, the start and the names to *program.
 * `warriors` is the value of WARRIORS, and settings->rounds that of ROUNDS. Seed and position are ignored.
 *
 * The lines of the cells are written to the front of `lines`, in the order of the cells, and the labels of all cells to the front of
 * `labels`: those of the first cell, then those of the second, and so on, each with a zero byte after it. *length is the length of the
 * labels with these bytes. If `line_count` is 0, no lines are written; if `labels_length` is 0, no labels.
 *
 * A line in a loop occurs once per iteration, with joins and counters replaced. An instruction from an EQU name has the line that uses the
 * name as its operation. A label on a line without an instruction belongs to the next instruction, if there is one.
 *
 * Returns MARS_ROOM if there are fewer cells than program->warrior.length, if `line_count` is less than that but not 0, or if
 * `labels_length` is less than *length but not 0; *program and *length are then written all the same. */
uint32_t mars_assemble(const MarsSettings *settings, uint32_t warriors,
                       const uint8_t *source, size_t source_length,
                       MarsCell *cells, size_t cell_count, MarsProgram *program,
                       MarsLine *lines, size_t line_count, uint8_t *labels, size_t labels_length, size_t *length, MarsFault *fault);

/* Reads the cells and the program of a load file of version 1 or 2, like mars_assemble. Only the parameters of the core are used of the
 * settings. */
uint32_t mars_read_load(const MarsSettings *settings, const uint8_t *load, size_t load_length,
                        MarsCell *cells, size_t cell_count, MarsProgram *program, MarsFault *fault);

/* Writes the load file, of version 2, of a program that has these cells. *length is its length in bytes, also if the call returns
 * MARS_ROOM. Returns MARS_SETTINGS if program->warrior.length is not the number of cells, and MARS_WARRIOR if a name is wrong, or the
 * cells or the start. */
uint32_t mars_write_load(const MarsSettings *settings, const MarsCell *cells, size_t cell_count, const MarsProgram *program,
                         uint8_t *buffer, size_t buffer_length, size_t *length, MarsFault *fault);

/* ---- Contests ---- */

/* Runs a match of 1 to 16 warriors. `cells` has the cells of all warriors, and there is a row for each warrior, in the same order.
 * `formula` is the score of each survivor, such as "(W*W-1)/S", with W warriors and S survivors. */
uint32_t mars_match(const MarsSettings *settings, const uint8_t *formula, size_t formula_length,
                    const MarsCell *cells, size_t cell_count, const MarsWarrior *warriors, size_t warrior_count,
                    MarsRow *rows, size_t row_count, MarsFault *fault);

/* Runs a league of up to 65536 warriors: a match of every two. There is a row for each warrior, and no position. With one warrior, or
 * none, there are no matches. */
uint32_t mars_league(const MarsSettings *settings, const uint8_t *formula, size_t formula_length,
                     const MarsCell *cells, size_t cell_count, const MarsWarrior *warriors, size_t warrior_count,
                     MarsRow *rows, size_t row_count, MarsFault *fault);

/* Runs a match of each candidate with each opponent; the candidate is the first warrior. The first `row_count` warriors are candidates,
 * the others are opponents. Each row is the sum of a candidate's rows. */
uint32_t mars_population(const MarsSettings *settings, const uint8_t *formula, size_t formula_length,
                         const MarsCell *cells, size_t cell_count, const MarsWarrior *warriors, size_t warrior_count,
                         MarsRow *rows, size_t row_count, MarsFault *fault);

/* Returns in *value the points of each survivor of a round of W = `warriors` warriors and S = `survivors` survivors, as mars_match computes
 * them: the value of the formula, or 0 if there are no survivors. Returns MARS_FORMULA, then MARS_SCORE if the formula has no value for
 * these numbers. */
uint32_t mars_score(const uint8_t *formula, size_t formula_length, uint32_t warriors, uint32_t survivors, int64_t *value, MarsFault *fault);

/* Runs the match of each lineup, and returns how each of its warriors fares in each round; if the lineup is counting, also what it does,
 * for which 3 bytes for each cell and warrior are allocated. `cells` has the cells of all warriors; a lineup names up to 16 of them. The
 * outcomes are those of the first lineup's first round, in the order of the lineup, then those of its other rounds, then those of the other
 * lineups: settings->rounds times the warriors of all lineups. The sums over the rounds are the rows of mars_match. In a round of two
 * warriors, the one that dies has lived for (turns - 1) / 2 complete cycles. A position is only for lineups of two. Returns MARS_LINEUP for
 * the first wrong lineup, before the other errors; rounds, seed and position come after the warriors, since a lineup may have a seed of its
 * own. */
uint32_t mars_outcomes(const MarsSettings *settings,
                       const MarsCell *cells, size_t cell_count, const MarsWarrior *warriors, size_t warrior_count,
                       const MarsLineup *lineups, size_t lineup_count,
                       MarsOutcome *outcomes, size_t outcome_count, MarsFault *fault);

/* ---- Battles ---- */

/* Returns the maximum length in words of a battle with these settings and this number of warriors: no number of turns and edits
 * exceeds it. Returns 0 if a parameter of the core is out of its range, or if `warriors` is not from 1 to 16; the rounds, the seed and the
 * position do not matter. */
size_t mars_words(const MarsSettings *settings, uint32_t warriors);

/* Writes the battle of a round, as it starts, to the first words of `battle`. The warriors are as for mars_match; `round` is from 0 to the
 * rounds less 1. Returns MARS_ROOM if there are fewer words than mars_words returns. */
uint32_t mars_start(const MarsSettings *settings,
                    const MarsCell *cells, size_t cell_count, const MarsWarrior *warriors, size_t warrior_count,
                    uint32_t round, uint32_t *battle, size_t words, MarsFault *fault);

/* Executes `turns` turns of a battle in place, or as many as are left if these are fewer. Row k of `records` and of `touched` gets turn k,
 * counted from 0; the two may have different lengths, and fewer rows than turns. A row for which no turn is executed stays as it was.
 * `battle` needs as many words as mars_words returns for it. Returns MARS_BLOCK if the words are not a battle, then MARS_ROOM if there
 * are too few. */
uint32_t mars_play(uint32_t *battle, size_t words, uint32_t turns,
                   MarsRecord *records, size_t record_count, MarsTouched *touched, size_t touched_count, MarsFault *fault);

/* Executes turns as mars_play, keeps the past of each cell in place, and finds the turns that meet all conditions. Conditions on the same
 * way are about one and the same cell; without conditions every turn meets them. *count is the number of turns that meet them, and the
 * first ones are written to the front of `found`, as far as there are places; the other places stay as they were.
 * `past_count` must be the core size. Returns MARS_CONDITION first, then MARS_BLOCK and MARS_ROOM as mars_play, then MARS_SETTINGS
 * (MARS_SETTINGS_ROWS) for a wrong `past_count`.
 *
 * The turns in which warrior 1 makes a cell of warrior 0 a DAT:
 *
 *     MarsCondition hit[] = {{MARS_CHANGES, MARS_NUMBER_WARRIOR, 1, 1}, {MARS_CHANGES, MARS_NUMBER_OWNER, 0, 0},
 *                            {MARS_CHANGES, MARS_NUMBER_NEW_OPCODE, MARS_DAT, MARS_DAT}};
 *     mars_follow(battle, words, turns, pasts, core, hit, 3, found, 100, &count, error);
 *
 * The turns that execute a copy of what was loaded at `line`: {MARS_EXECUTES, MARS_NUMBER_ORIGIN, line, line}. */
uint32_t mars_follow(uint32_t *battle, size_t words, uint32_t turns, MarsPast *pasts, size_t past_count,
                     const MarsCondition *conditions, size_t condition_count,
                     MarsFound *found, size_t found_count, uint32_t *count, MarsFault *fault);

/* Executes turns as mars_follow, in steps: row k of `moments` is the battle after k + 1 steps of `step` turns, or at its end if that
 * comes before. `found` of a row is the number of turns of its step that meet all conditions. Returns the errors of mars_follow. */
uint32_t mars_moments(uint32_t *battle, size_t words, uint32_t step, MarsPast *pasts, size_t past_count,
                      const MarsCondition *conditions, size_t condition_count,
                      MarsMoment *moments, size_t moment_count, MarsFault *fault);

/* Finds the turns in which a process and its ancestors were born. The process is that with the index `place` in the queue of `warrior` after
 * `turns` turns of a battle, or at its end if that comes before; the battle stays as it is. Of the processes that a turn queues, the first
 * is the one that the turn executed, which continues; the second is born in this turn. *count is the number of births, and the first ones are
 * written to the front of `births`, as far as there are places; the other places stay as they were. births[0] is the number of the turn in
 * which the process was born, births[1] that of the turn in which its parent, which split there, was born, and so on. Like that of MarsFound
 * it counts all turns of the battle, from 1. *first is the index, in the queue of the battle as given, of the process from which all of them
 * descend: of the process itself if *count is 0. At most 16 bytes for each turn of the warrior are allocated, besides a copy of the battle.
 * Returns MARS_BLOCK first, then MARS_PROCESS if there is no such process. */
uint32_t mars_ancestors(const uint32_t *battle, size_t words, uint32_t turns, uint32_t warrior, uint32_t place,
                        uint32_t *births, size_t birth_count, uint32_t *count, uint32_t *first, MarsFault *fault);

/* Makes an edit of a battle in place, also if the battle is over. A dead warrior stays dead. Returns MARS_EDIT with
 * MARS_EDIT_NO_SUCH_EDIT first, then MARS_BLOCK and MARS_ROOM as mars_play, then MARS_EDIT with the first of the other numbers that
 * applies. */
uint32_t mars_edit(uint32_t *battle, size_t words, const MarsEdit *edit, MarsFault *fault);

/* Makes edits of a battle in place, one after another, all or none: to fill cells, for example. An edit is possible or not after those before
 * it. Returns the errors of mars_edit, with the index of the first wrong edit in `fault->warrior`: first MARS_EDIT_NO_SUCH_EDIT of any edit,
 * then those of the battle, then those of the edits in turn. */
uint32_t mars_edits(uint32_t *battle, size_t words, const MarsEdit *edits, size_t edit_count, MarsFault *fault);

/* Checks that the first words are a battle. Returns MARS_BLOCK if not, as each call on a battle, with the first of these that applies:
 * MARS_BLOCK_SHORT (of the header), MARK, PARAMETERS, WARRIORS, SHORT (of all words), DEATHS (more than 16), CELL, QUEUE, DEATHS, CLOCK,
 * HEAD. */
uint32_t mars_check(const uint32_t *battle, size_t words, MarsFault *fault);

/* Debugs a battle, which stays as it is: `lines` has the debugger's commands, and the buffer gets its replies. `history` is the size of
 * the history in places, 1 to 1000000; 144 bytes for each place are allocated at once, and touched as turns are executed. *length is the
 * length of the replies, also if the call returns MARS_ROOM. Returns MARS_SETTINGS if `history` is out of its range, then MARS_BLOCK. */
uint32_t mars_debug(const uint32_t *battle, size_t words, uint32_t history, const uint8_t *lines, size_t lines_length,
                    uint8_t *buffer, size_t buffer_length, size_t *length, MarsFault *fault);

#ifdef __cplusplus
}
#endif

#endif
