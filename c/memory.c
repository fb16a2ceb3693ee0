/* The three functions by which a desk takes memory and gives it back, over malloc, realloc and free. The archive for
 * another machine than x86-64 Linux has them as a member of its own: a program that defines all three is linked without
 * it. No header is asked for: the compiler that makes the archive may have none. */

struct granted {
    _Bool ok;
    void *at;
};

#define HIDDEN __attribute__((visibility("hidden")))

extern void *malloc(__SIZE_TYPE__ size);
extern void *realloc(void *at, __SIZE_TYPE__ size);
extern void free(void *at);

HIDDEN struct granted rattle_alloc(__SIZE_TYPE__ size, __SIZE_TYPE__ align);
HIDDEN struct granted rattle_realloc(void *at, __SIZE_TYPE__ old_size, __SIZE_TYPE__ size, __SIZE_TYPE__ align);
HIDDEN void rattle_dealloc(void *at);

/* What is told where memory is refused: an address is never null. */
static char nowhere;

static struct granted granted_at(void *at)
{
    struct granted granted;

    granted.ok = at != 0;
    granted.at = at ? at : &nowhere;
    return granted;
}

/* A block of no byte gets as many as it is aligned to. */
struct granted rattle_alloc(__SIZE_TYPE__ size, __SIZE_TYPE__ align)
{
    return granted_at(malloc(size ? size : align));
}

struct granted rattle_realloc(void *at, __SIZE_TYPE__ old_size, __SIZE_TYPE__ size, __SIZE_TYPE__ align)
{
    (void)old_size;
    return granted_at(realloc(at, size ? size : align));
}

void rattle_dealloc(void *at)
{
    free(at);
}
