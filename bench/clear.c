/* Clears the work area in three ways, each a function of its own, so that it can be seen what callgrind counts for each. */
#include <stdint.h>
#include <string.h>

#include "chthonyra.h"

static uint64_t work[CHTHONYRA_WORK];

/* As the library does: the compiler makes its loop a call of memset. */
__attribute__((noinline)) void by_memset(void)
{
    memset(work, 0, sizeof work);
    __asm__ volatile("" : : : "memory");
}

/* One instruction that stores byte after byte. */
__attribute__((noinline)) void by_bytes(void)
{
    void *place = work;
    size_t left = sizeof work;
    __asm__ volatile("rep stosb" : "+D"(place), "+c"(left) : "a"(0) : "memory");
}

/* One instruction that stores eight bytes at a time. */
__attribute__((noinline)) void by_words(void)
{
    void *place = work;
    size_t left = CHTHONYRA_WORK;
    __asm__ volatile("rep stosq" : "+D"(place), "+c"(left) : "a"(0) : "memory");
}

int main(void)
{
    by_memset();
    by_bytes();
    by_words();
    return 0;
}
