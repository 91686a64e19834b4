/* What g++ calls, but for exceptions and types at run time: memory, static objects, and functions that have no
   body. The names are those that it makes of operators. */
#include <stdio.h>
#include <stdlib.h>

/* of the image, where there is one */
void *__dso_handle;

static void *allocate(size_t size)
{
    void *memory = malloc(size);

    if (!memory) {
        fputs("operator new: out of memory\n", stderr);
        abort();
    }
    return memory;
}

/* operator new(size_t), new[] */
void *_Znwj(size_t size)
{
    return allocate(size);
}

void *_Znaj(size_t size)
{
    return allocate(size);
}

/* both with std::nothrow */
void *_ZnwjRKSt9nothrow_t(size_t size, const void *nothrow)
{
    (void)nothrow;
    return malloc(size);
}

void *_ZnajRKSt9nothrow_t(size_t size, const void *nothrow)
{
    (void)nothrow;
    return malloc(size);
}

/* operator delete(void *), delete[], and both with the size */
void _ZdlPv(void *memory)
{
    free(memory);
}

void _ZdaPv(void *memory)
{
    free(memory);
}

void _ZdlPvj(void *memory, size_t size)
{
    (void)size;
    free(memory);
}

void _ZdaPvj(void *memory, size_t size)
{
    (void)size;
    free(memory);
}

void __cxa_pure_virtual(void)
{
    fputs("a pure virtual function was called\n", stderr);
    abort();
}

/* The first byte of a guard says whether a static object of a function is made. There are no threads. */
int __cxa_guard_acquire(char *guard)
{
    return !*guard;
}

void __cxa_guard_release(char *guard)
{
    *guard = 1;
}

void __cxa_guard_abort(char *guard)
{
    (void)guard;
}
