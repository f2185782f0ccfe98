/* ---- The calls of the header */

#ifndef MARS_CALL
#define MARS_CALL
#endif

/* Returns the value of a length that the library wrote. */
static u64 length_of(const u8 *p) { return ld64(p); }

#ifdef MARS_LITTLE_ENDIAN
#define GIVEN(name) (u8 *)name
#define COPY(name, type, count)
#define MISSING(name) 0
#define RELEASE(name)
#define TURN(name, type, count)
#define TURN_BACK(name, type, count)
#define TURN_BATTLE(name, type, count)
#define TURN_BATTLE_BACK(name, type, count)
#define no_memory(fault) MARS_OUT_OF_MEMORY
#else
/* The sizes of the numbers of each struct, and a 0 at the end. */
@SHAPES@

/* Reverses the bytes of a number on a big-endian machine; a second call restores them. */
static void turn_bytes(u8 *at, unsigned size)
{
    u16 one = 1;
    unsigned i;
    if (*(u8 *)&one) return;
    for (i = 0; i < size / 2; i++) {
        u8 kept = at[i];
        at[i] = at[size - 1 - i];
        at[size - 1 - i] = kept;
    }
}

static void turn(void *values, const u8 *shape, size_t count)
{
    u8 *at = (u8 *)values;
    const u8 *size;
    for (; at && count; count--)
        for (size = shape; *size; at += *size++) turn_bytes(at, *size);
}

/* Turns the words of a battle with this number of cells, except the first word of each cell, which is four bytes. */
static void turn_battle(void *values, size_t words, size_t core)
{
    u8 *at = (u8 *)values;
    size_t i;
    for (i = 0; at && i < words; i++, at += 4)
        if (i < 64 || (i - 64) / 3 >= core || (i - 64) % 3) turn_bytes(at, 4);
}

static void *copied(const void *values, size_t size, size_t count)
{
    void *copy = count && count <= SIZE_MAX / size ? malloc(size * count) : 0;
    if (copy) memcpy(copy, values, size * count);
    return copy;
}

static u32 no_memory(MarsFault *fault)
{
    memset(fault, 0, sizeof *fault);
    return fault->code = MARS_OUT_OF_MEMORY;
}

/* A null pointer is given to the library as a null pointer, whatever its length. */
#define GIVEN(name) (u8 *)copy_##name
#define COPY(name, type, count) size_t count_##name = name ? (size_t)(count) : 0; void *copy_##name = copied(name, sizeof(type), count_##name);
#define MISSING(name) (count_##name && !copy_##name)
#define RELEASE(name) free(copy_##name);
#define TURN(name, type, count) turn(name, shape_##type, count);
#define TURN_BACK TURN
/* The number of cells is in the caller's words before a call, and in the new words after it. */
#define CORE_OF(name, words) ((words) > 2 ? ((const u32 *)name)[2] : 0)
#define TURN_BATTLE(name, type, words) size_t core_##name = CORE_OF(name, words); turn_battle(name, words, core_##name);
#define TURN_BATTLE_BACK(name, type, words) turn_battle_back((u32 *)name, words, core_##name, answer);

/* A call that failed left all words as they were. One that succeeded wrote a battle and left the words after it. */
static void turn_battle_back(u32 *values, size_t words, size_t core, u32 answer)
{
    size_t used, i, after;
    if (answer != MARS_DONE) {
        turn_battle(values, words, core);
        return;
    }
    used = (size_t)ld32((u8 *)(values + 1));
    after = (size_t)ld32((u8 *)(values + 2));
    turn_battle(values, used, after);
    for (i = used; i < words; i++)
        if (i < 64 || (i - 64) / 3 >= core || (i - 64) % 3) turn_bytes((u8 *)(values + i), 4);
}
#endif
