// Written by site/tools/layout.py from mars.h; do not edit.
export const VERSION = 2000;
export const MODES = "#$*@{<}>";
export const MAX_CORE = 1048576;
export const MAX_PROCESSES = 65536;
export const MAX_CYCLES = 10000000;
export const MAX_WARRIORS = 16;
export const MAX_LEAGUE = 65536;
export const MAX_ROUNDS = 100000;
export const MAX_SEED = 2147483646;
export const MAX_HISTORY = 1000000;
export const MAX_FORMULA = 256;
export const OPCODES = ["DAT", "MOV", "ADD", "SUB", "MUL", "DIV", "MOD", "JMP", "JMZ", "JMN", "DJN", "SEQ", "SNE", "SLT", "SPL", "NOP"];
export const MODIFIERS = ["A", "B", "AB", "BA", "F", "X", "I"];
export const DONE = 0;
export const OUT_OF_MEMORY = 1;
export const SETTINGS = 2;
export const PARAMETERS = 3;
export const FORMULA = 4;
export const ASSEMBLY = 5;
export const LOAD = 6;
export const PLACEMENT = 7;
export const BATTLE = 8;
export const SCORE = 9;
export const ROOM = 10;
export const BLOCK = 11;
export const EDIT = 12;
export const WARRIOR = 13;
export const LINEUP = 14;
export const CONDITION = 15;
export const PROCESS = 16;
export const RESULTS = ["DONE", "OUT_OF_MEMORY", "SETTINGS", "PARAMETERS", "FORMULA", "ASSEMBLY", "LOAD", "PLACEMENT", "BATTLE", "SCORE", "ROOM", "BLOCK", "EDIT", "WARRIOR", "LINEUP", "CONDITION", "PROCESS"];
export const EXECUTES = 1;
export const CHANGES = 2;
export const READS = 3;
export const NUMBER_WARRIOR = 1;
export const NUMBER_QUEUED = 2;
export const NUMBER_DIED = 3;
export const NUMBER_ADDRESS = 4;
export const NUMBER_OWNER = 5;
export const NUMBER_TURN = 6;
export const NUMBER_ORIGIN = 7;
export const NUMBER_OPCODE = 8;
export const NUMBER_NEW_OPCODE = 9;
export const MARK = 22167885;
export const SET_CELL = 1;
export const MOVE_PROCESS = 2;
export const KILL_PROCESS = 3;
export const ADD_PROCESS = 4;

/** The names of errors by their numbers. */
export const ERROR_NAMES = {
  SETTINGS: { 1: "Rounds", 2: "Seed", 3: "Position", 4: "Warriors", 5: "Lengths", 6: "History", 7: "Rows", 8: "Round" },
  PARAMETERS: { 1: "CoreSize", 2: "Processes", 3: "Cycles", 4: "Limit", 5: "Length", 6: "Distance" },
  EXPRESSION: { 1: "Syntax", 2: "Unknown", 3: "DivideByZero", 4: "Range", 5: "Depth" },
  ASSEMBLY: { 1: "Text", 2: "Operation", 3: "Operand", 4: "Expression", 5: "AssertFailed", 6: "BadOrigin", 7: "Empty", 8: "TooLong" },
  TEXT: { 1: "NotAscii", 2: "BadToken", 3: "UnclosedFor", 4: "RofAlone", 5: "BadCount", 6: "LabelInCount", 7: "Duplicate", 8: "EquDepth", 9: "TooLong", 10: "Expression" },
  LOAD: { 1: "Syntax", 2: "TooLong", 3: "Empty", 4: "BadOrigin", 6: "Version" },
  PLACEMENT: { 1: "NoRoom", 2: "BadSeed" },
  BATTLE: { 3: "Overlap", 4: "StartOutside", 5: "FieldOutside" },
  BLOCK: { 1: "Short", 2: "Mark", 3: "Parameters", 4: "Warriors", 5: "Cell", 6: "Queue", 7: "Deaths", 8: "Clock", 9: "Head" },
  EDIT: { 1: "NoSuchEdit", 2: "Address", 3: "FieldOutside", 4: "NoSuchWarrior", 5: "NoSuchProcess", 6: "WarriorDead", 7: "QueueFull" },
  WARRIOR: { 1: "Length", 2: "Start", 3: "Cell", 4: "Field", 5: "Name" },
  LINEUP: { 1: "Count", 2: "Index" },
};

export const MarsSettings = {
  size: 40,
  core: 0,
  processes: 4,
  cycles: 8,
  read_limit: 12,
  write_limit: 16,
  longest: 20,
  distance: 24,
  rounds: 28,
  seed: 32,
  position: 36,
};

export const MarsWarrior = {
  size: 8,
  length: 0,
  start: 4,
};

export const MarsProgram = {
  size: 136,
  warrior: 0,
  name: 8,
  author: 72,
};

export const MarsLine = {
  size: 24,
  line: 0,
  begin: 8,
  end: 16,
};

export const MarsRow = {
  size: 32,
  points: 0,
  wins: 8,
  ties: 16,
  losses: 24,
};

export const MarsLineup = {
  size: 76,
  seed: 0,
  count: 4,
  warrior: 8,
  counting: 72,
};

export const MarsOutcome = {
  size: 32,
  survived: 0,
  turns: 4,
  start: 8,
  own_turns: 12,
  spawned: 16,
  executed: 20,
  written: 24,
  touched: 28,
};

export const MarsCell = {
  size: 12,
  op: 0,
  modifier: 1,
  a_mode: 2,
  b_mode: 3,
  a: 4,
  b: 8,
};

export const MarsChange = {
  size: 28,
  address: 0,
  before: 4,
  after: 16,
};

export const MarsRecord = {
  size: 120,
  warrior: 0,
  address: 4,
  next: 8,
  cycle: 12,
  died: 16,
  changes: 20,
  queued: 24,
  change: 28,
  process: 112,
};

export const MarsTouched = {
  size: 36,
  count: 0,
  address: 4,
};

export const MarsPast = {
  size: 12,
  owner: 0,
  turn: 4,
  origin: 8,
};

export const MarsCondition = {
  size: 16,
  way: 0,
  number: 4,
  first: 8,
  last: 12,
};

export const MarsFound = {
  size: 28,
  turn: 0,
  warrior: 4,
  queued: 8,
  address: 12,
  past: 16,
};

export const MarsMoment = {
  size: 136,
  turns: 0,
  found: 4,
  cells: 8,
  processes: 72,
};

export const MarsDeath = {
  size: 8,
  warrior: 0,
  turns: 4,
};

export const MarsFault = {
  size: 48,
  code: 0,
  number: 4,
  problem: 8,
  expression: 12,
  line: 16,
  warrior: 24,
  begin: 32,
  end: 40,
};

export const MarsBattle = {
  size: 256,
  mark: 0,
  words: 4,
  core: 8,
  processes: 12,
  cycles: 16,
  read_limit: 20,
  write_limit: 24,
  longest: 28,
  distance: 32,
  warriors: 36,
  turns: 40,
  cycle: 44,
  next: 48,
  over: 52,
  deaths: 56,
  unused: 60,
  queue: 64,
  death: 128,
};

export const MarsEdit = {
  size: 28,
  what: 0,
  warrior: 4,
  place: 8,
  address: 12,
  cell: 16,
};
