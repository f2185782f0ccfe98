/* Random arguments for the calls of mars.h, from a seed: the same on every machine, most of them valid. */
#include "mars.h"
#include <stdio.h>
#include <stdlib.h>
#include <string.h>

static uint64_t state;
static uint32_t rnd(void)
{
    state ^= state << 13; state ^= state >> 7; state ^= state << 17;
    return (uint32_t)(state >> 32);
}
static uint32_t below(uint32_t n) { return n ? rnd() % n : 0; }
/* Returns 1 for one of `of` draws, otherwise 0. */
static int chance(uint32_t of) { return below(of) == 0; }

enum { MAXCELLS = 4096, MAXTEXT = 60000, MAXWORDS = 64 + 3 * 9000 + 8 * 9000 };
static MarsSettings s;
static MarsCell cells[MAXCELLS];
static MarsWarrior warriors[64];
static size_t cell_count, warrior_count;
static uint32_t battle[MAXWORDS];
static size_t words;
static uint8_t text[MAXTEXT];

/* Returns any number, or more often one near the end of a range. */
static uint32_t wild(void)
{
    static const uint32_t w[] = {0, 1, 2, 15, 16, 17, 255, 65535, 65536, 65537, 100001, 1048575, 1048576, 1048577, 10000001, 2147483646, 2147483647, 2147483648u, 4294967295u};
    return chance(3) ? rnd() : w[below(sizeof w / sizeof *w)];
}

static void settings(int small)
{
    static const uint32_t cores[] = {80, 800, 8000, 55, 101, 8192, 1, 2, 3};
    s.core = cores[below(chance(6) ? 9 : small ? 2 : 6)];
    s.processes = chance(3) ? 1 + below(8) : 1 + below(s.core);
    if (s.processes > 8000) s.processes = 8000;
    s.cycles = 1 + below(4 * s.core + 20);
    s.read_limit = chance(2) ? 0 : 1 + below(s.core);
    s.write_limit = chance(2) ? 0 : 1 + below(s.core);
    s.longest = 1 + below(s.core < 100 ? s.core : 100);
    if (chance(2)) s.longest = s.core < 20 ? s.core : 20;
    s.distance = s.longest + (chance(2) ? 0 : below(s.core - s.longest + 1));
    if (chance(2)) s.distance = s.longest;
    s.rounds = 1 + below(3);
    s.seed = 1 + below(2147483646);
    s.position = 0;
    if (chance(12)) { uint32_t *f = &s.core + below(10); *f = wild(); }
}

static void cell(MarsCell *c, uint32_t core)
{
    c->op = (uint8_t)below(16); c->modifier = (uint8_t)below(7); c->a_mode = (uint8_t)below(8); c->b_mode = (uint8_t)below(8);
    c->a = chance(2) ? below(core) : (chance(2) ? below(6) : core - 1 - below(core < 6 ? core : 6)) % (core ? core : 1);
    c->b = chance(2) ? below(core) : below(core < 5 ? core : 5);
    if (chance(300)) c->op = (uint8_t)rnd();
    if (chance(300)) c->modifier = (uint8_t)rnd();
    if (chance(300)) c->a_mode = (uint8_t)rnd();
    if (chance(300)) c->a = wild();
    if (chance(300)) c->b = wild();
}

static void make_warriors(uint32_t most)
{
    size_t i, j;
    uint32_t core = s.core && s.core < 20000 ? s.core : 8000;
    warrior_count = 1 + below(most);
    cell_count = 0;
    for (i = 0; i < warrior_count; i++) {
        uint32_t n = 1 + below(s.longest && s.longest < 20 ? s.longest : 20);
        if (cell_count + n > MAXCELLS) n = 1;
        for (j = 0; j < n; j++) cell(&cells[cell_count + j], core);
        warriors[i].length = chance(80) ? wild() : n;
        warriors[i].start = chance(80) ? wild() : below(n);
        cell_count += n;
    }
    if (chance(100)) cell_count--;
    if (warrior_count == 2 && chance(3) && s.core > 2 * (uint64_t)s.distance) s.position = s.distance + below(s.core - 2 * s.distance + 1);
    if (chance(60)) s.position = wild();
}

static void spoil(size_t n) { uint32_t place = below((uint32_t)n); text[place] = (uint8_t)(chance(4) ? rnd() : 32 + below(95)); }
static size_t put(size_t at, const char *t) { size_t n = strlen(t); if (at + n < MAXTEXT - 100) { memcpy(text + at, t, n); at += n; } return at; }
static size_t number(size_t at, uint32_t v) { char b[16]; sprintf(b, "%lu", (unsigned long)v); return put(at, b); }

static size_t expression(size_t at, int depth)
{
    static const char *names[] = {"x", "y", "step", "CORESIZE", "MAXLENGTH", "WARRIORS", "ROUNDS", "MAXCYCLES", "i", "CURLINE", "gap", "q", "MINDISTANCE", "READLIMIT", "PSPACESIZE", "VERSION", "a"};
    static const char *ops[] = {"+", "-", "*", "/", "%", "==", "!=", "<", ">", "<=", ">=", "&&", "||", " + ", "="};
    if (depth && chance(3)) { at = put(at, "("); at = expression(at, depth - 1); at = put(at, ops[below(chance(40) ? 15 : 5)]); at = expression(at, depth - 1); return put(at, ")"); }
    if (depth && chance(3)) { at = expression(at, depth - 1); at = put(at, ops[below(5)]); return expression(at, depth - 1); }
    if (chance(8)) at = put(at, chance(20) ? "!" : "-");
    if (chance(3)) return put(at, names[below(chance(12) ? 17 : chance(3) ? 8 : 3) ]);
    return number(at, chance(9) ? wild() : below(30));
}

static size_t source(void)
{
    static const char *ops[] = {"dat", "mov", "add", "sub", "mul", "div", "mod", "jmp", "jmz", "jmn", "djn", "seq", "sne", "slt", "spl", "nop", "cmp", "MOV", "Spl", "ldp", "stp"};
    static const char *mods[] = {".a", ".b", ".ab", ".ba", ".f", ".x", ".i", ".I"};
    static const char *modes[] = {"#", "$", "*", "@", "{", "<", "}", ">", ""};
    size_t at = 0;
    uint32_t n = 1 + below(14), k, open = 0;
    if (chance(2)) at = put(at, ";redcode-94\n");
    if (chance(2)) at = put(at, chance(2) ? ";name  A Name of it \n" : ";name\n");
    if (chance(3)) at = put(at, ";author Someone Who\n");
    if (chance(4)) { at = put(at, ";assert "); at = expression(at, 1); at = put(at, "\n"); }
    if (!chance(15)) at = put(at, "step EQU 4\ngap equ step*2+1\n");
    if (!chance(12)) at = put(at, "x nop 0\ny nop x\n");
    if (chance(5)) at = put(at, "mac equ mov 0, 1\nequ jmp -1\n");
    for (k = 0; k < n; k++) {
        switch (below(chance(3) ? 12 : 7)) {
        case 7: if (open < 4) { at = put(at, chance(2) ? "i FOR " : "for "); at = number(at, below(5)); at = put(at, "\n"); open++; } break;
        case 8: if (open) { at = put(at, "ROF\n"); open--; } break;
        case 9: at = put(at, "q EQU "); at = expression(at, 1); at = put(at, "\n"); break;
        case 10: at = put(at, chance(6) ? "mac\n" : "org x\n"); break;
        case 11: at = put(at, "lab"); at = number(at, k); at = put(at, chance(2) ? ": " : "\n"); break;
        default:
            if (open && chance(3)) { at = put(at, "l&i"); at = put(at, " "); }
            if (k == 2 && chance(9)) at = put(at, "y ");
            at = put(at, " "); at = put(at, ops[below(chance(20) ? 21 : 17)]);
            if (chance(2)) at = put(at, mods[below(8)]);
            at = put(at, " "); at = put(at, modes[below(9)]); at = expression(at, 2);
            if (!chance(6)) { at = put(at, chance(2) ? ", " : ","); at = put(at, modes[below(9)]); at = expression(at, 2); }
            if (chance(8)) at = put(at, " ; comment");
            at = put(at, chance(30) ? "\r\n" : "\n");
        }
    }
    while (open && !chance(20)) { at = put(at, "rof\n"); open--; }
    if (chance(2)) at = put(at, chance(2) ? "end x\n" : "end\n");
    if (chance(5)) { k = 1 + below(4); while (k-- && at) spoil(at); }
    if (chance(12)) at = below((uint32_t)at + 1);
    return at;
}

static size_t commands(void)
{
    static const char *c[] = {"step", "step", "undo", "undo", "redo", "show", "run ", "until ", "goto ", "queue ", "list ", "edit ", "fill ", "move ", "kill ", "spawn ", "quit", "junk", ""};
    size_t at = 0;
    uint32_t n = 1 + below(25), k, w, core = s.core && s.core < 20000 ? s.core : 80;
    for (k = 0; k < n; k++) {
        w = below(chance(30) ? 19 : 16);
        at = put(at, c[w]);
        switch (w) {
        case 6: case 7: case 8: at = number(at, below(chance(4) ? 2000 : 40)); break;
        case 9: at = number(at, below(3)); break;
        case 10: at = number(at, below(core + 2)); at = put(at, " "); at = number(at, below(9)); break;
        case 11: case 12:
            at = number(at, below(core + 1));
            if (w == 12) { at = put(at, " "); at = number(at, below(core + 1)); }
            at = put(at, chance(20) ? " DAT.Q $ 0, $ 0" : chance(2) ? " SPL.B # 0, } 1" : " MOV.I $ 0, $ 1"); break;
        case 13: at = number(at, below(3)); at = put(at, " "); at = number(at, below(3)); at = put(at, " "); at = number(at, below(core + 1)); break;
        case 14: case 15: at = number(at, below(3)); at = put(at, " "); at = number(at, below(chance(2) ? 3 : core)); break;
        default: break;
        }
        at = put(at, "\n");
    }
    return at;
}

static const char *formula(void)
{
    static const char *f[] = {"(W*W-1)/S", "W", "S*3", "(W*W-1)/S", "1/(S-1)", "W-(", "Q", "9223372036854775807*W", "-9223372036854775807", "S-W*3", "", "W/S+4"};
    return f[below(chance(4) ? 12 : 3)];
}
