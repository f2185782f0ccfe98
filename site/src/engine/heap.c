/* The heap of mars.wasm, in place of malloc, realloc and free.
 *
 * Blocks have fixed sizes, four to each power of two. Each size has a list of its free blocks. New blocks come from a region at the
 * end of the memory, which grows until the host or the module's maximum refuses more. From then on larger free blocks become the
 * region, so that calls succeed again after one that ran out of memory. If there is none, the allocation fails, and the library
 * reports MARS_OUT_OF_MEMORY. */
typedef __SIZE_TYPE__ size_t;
typedef __UINTPTR_TYPE__ uintptr_t;
typedef __UINT64_TYPE__ uint64_t;

#define PAGE 65536
#define HEADER 16 /* bytes before each block; they contain its class */
#define CLASSES 160
#define MAX_SIZE ((size_t)1 << 40)

extern unsigned char __heap_base;
static uintptr_t memory_end, region, region_end;
static void *free_blocks[CLASSES];

/* Returns the smallest class whose blocks have at least `size` bytes: 16, 20, 24, 28, 32, 40, .. */
static unsigned class_of(size_t size)
{
    if (size <= 16) return 0;
    unsigned top = 63 - __builtin_clzll(size - 1);
    return (top - 4) * 4 + ((size - 1) >> (top - 2) & 3) + 1;
}

static size_t size_of(unsigned class)
{
    return (size_t)(4 + class % 4) << (class / 4 + 2);
}

/* Returns the length of a block with its header. */
static size_t length_of(unsigned class)
{
    return HEADER + ((size_of(class) + 15) & ~(size_t)15);
}

static unsigned *header_of(void *block)
{
    return (unsigned *)((char *)block - HEADER);
}

/* Removes the first free block of a class from its list; returns 0 if there is none. */
static void *reuse(unsigned class)
{
    void *block = free_blocks[class];
    if (block) free_blocks[class] = *(void **)block;
    return block;
}

/* Grows the region at the end of the memory to at least `length` bytes; returns 0 if the memory cannot grow. */
static int grow(size_t length)
{
    if (!memory_end) {
        region = ((uintptr_t)&__heap_base + 15) & ~(uintptr_t)15;
        memory_end = region_end = __builtin_wasm_memory_size(0) * PAGE;
        if (region_end - region >= length) return 1;
    }
    int is_last = region_end == memory_end;
    size_t pages = (length - (is_last ? region_end - region : 0) + PAGE - 1) / PAGE;
    /* A refusal is -1, which is 4294967295 once the 64-bit memory is lowered to 32 bits. */
    if ((unsigned)__builtin_wasm_memory_grow(0, pages) == 0xffffffffu) return 0;
    if (!is_last) region = memory_end;
    memory_end += pages * PAGE;
    region_end = memory_end;
    return 1;
}

/* Returns a new block of a class from the region, which has to be long enough. */
static void *cut(unsigned class)
{
    unsigned *header = (unsigned *)region;
    *header = class;
    region += length_of(class);
    return (char *)header + HEADER;
}

/* Returns a block of a class that is cut from the smallest larger free block, whose rest becomes the region; if the rest is not
 * longer than the present region, returns the larger block whole. Returns 0 if there is no larger free block. */
static void *split(unsigned class)
{
    unsigned larger = class + 1;
    while (larger < CLASSES && !free_blocks[larger]) larger++;
    if (larger == CLASSES) return 0;
    void *block = reuse(larger);
    if (length_of(larger) - length_of(class) <= region_end - region) return block;
    region = (uintptr_t)header_of(block);
    region_end = region + length_of(larger);
    return cut(class);
}

__attribute__((export_name("mars_alloc"))) void *allocate(size_t size)
{
    if (size > MAX_SIZE) return 0;
    unsigned class = class_of(size);
    void *block = reuse(class);
    if (block) return block;
    if (region_end - region >= length_of(class) || grow(length_of(class))) return cut(class);
    return split(class);
}

__attribute__((export_name("mars_free"))) void release(void *block)
{
    if (!block) return;
    unsigned class = *header_of(block);
    *(void **)block = free_blocks[class];
    free_blocks[class] = block;
}

/* What the compiled library calls. An allocation that failed returns a pointer too, which is not used. */
typedef struct { uint64_t done; void *block; } Allocated;
static char nowhere[16] __attribute__((aligned(16)));

Allocated rattle_alloc(size_t size, size_t align)
{
    void *block = allocate(size ? size : align);
    return (Allocated){block != 0, block ? block : nowhere};
}

Allocated rattle_realloc(void *block, size_t before, size_t size, size_t align)
{
    (void)before;
    size_t wanted = size ? size : align, capacity = size_of(*header_of(block));
    if (wanted <= capacity) return (Allocated){1, block};
    void *larger = allocate(wanted);
    if (!larger) return (Allocated){0, nowhere};
    __builtin_memcpy(larger, block, capacity);
    release(block);
    return (Allocated){1, larger};
}

void rattle_dealloc(void *block)
{
    release(block);
}

/* The compiler's own call for a product of 128 bits. */
typedef unsigned __int128 u128;
typedef union {
    u128 whole;
    struct { uint64_t low, high; } half;
} Parts;

static u128 product(uint64_t a, uint64_t b)
{
    uint64_t mask = 0xffffffff, al = a & mask, ah = a >> 32, bl = b & mask, bh = b >> 32;
    uint64_t ll = al * bl, lh = al * bh, hl = ah * bl, hh = ah * bh;
    uint64_t middle = (ll >> 32) + (lh & mask) + (hl & mask);
    Parts result;
    result.half.low = (middle << 32) | (ll & mask);
    result.half.high = hh + (lh >> 32) + (hl >> 32) + (middle >> 32);
    return result.whole;
}

__int128 __multi3(__int128 a, __int128 b)
{
    Parts x = {.whole = (u128)a}, y = {.whole = (u128)b}, result;
    result.whole = product(x.half.low, y.half.low);
    result.half.high += x.half.high * y.half.low + x.half.low * y.half.high;
    return (__int128)result.whole;
}
