/* The memory of the library: malloc, realloc and free, or what he_use_memory named. scripts/make-library lets the
 * proved code call these functions in place of the C library's. */
#include <he.h>

#include <stdlib.h>

static void *(*allocate_by)(size_t) = malloc;
static void *(*reallocate_by)(void *, size_t) = realloc;
static void (*release_by)(void *) = free;

void *he_memory_allocate(size_t size);
void *he_memory_reallocate(void *memory, size_t size);
void he_memory_release(void *memory);

void *he_memory_allocate(size_t size)
{
    return allocate_by(size);
}

void *he_memory_reallocate(void *memory, size_t size)
{
    return reallocate_by(memory, size);
}

void he_memory_release(void *memory)
{
    release_by(memory);
}

void he_use_memory(void *(*allocate)(size_t), void *(*reallocate)(void *, size_t), void (*release)(void *))
{
    allocate_by = allocate;
    reallocate_by = reallocate;
    release_by = release;
}
