/* The heap that the library calls on other systems, in place of the toolchain's: an allocation that failed returns a pointer too, which
 * is not used. dev/natives compiles it by way of the module's own language, where each system returns two numbers alike, as the
 * module expects; in C some do otherwise. */
typedef __SIZE_TYPE__ size_t;

extern void *malloc(size_t size);
extern void *realloc(void *block, size_t size);
extern void free(void *block);

typedef struct {
    size_t done;
    void *block;
} Allocated;

static size_t nowhere[2];

static Allocated allocated(void *block)
{
    Allocated result = {block != 0, block ? block : nowhere};
    return result;
}

Allocated rattle_alloc(size_t size, size_t align) { return allocated(malloc(size ? size : align)); }

Allocated rattle_realloc(void *block, size_t before, size_t size, size_t align)
{
    (void)before;
    return allocated(realloc(block, size ? size : align));
}

void rattle_dealloc(void *block) { free(block); }
