
/* ---- The heap that the library calls, in place of the toolchain's: an allocation that failed returns a pointer too, which is not
 * used. */

static u64 nowhere[2];

static struct_i64_i64 allocated(void *block)
{
    struct_i64_i64 result;
    u8 bytes[8];
    stp(bytes, block ? (u8 *)block : (u8 *)nowhere);
    result.a = block != 0;
    result.b = ld64(bytes); /* the library stores this number, and loads the address */
    return result;
}

static struct_i64_i64 rattle_alloc(u64 size, u64 align)
{
    u64 wanted = size ? size : align;
    return allocated(wanted <= SIZE_MAX ? malloc((size_t)wanted) : 0);
}

static struct_i64_i64 rattle_realloc(u8 *block, u64 before, u64 size, u64 align)
{
    u64 wanted = size ? size : align;
    (void)before;
    return allocated(wanted <= SIZE_MAX ? realloc(block, (size_t)wanted) : 0);
}

static void rattle_dealloc(u8 *block)
{
    free(block);
}

/* ---- Constants, functions */
