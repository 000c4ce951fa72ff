#include "chance.h"

static uint64_t state;

uint64_t chance_next(void)
{
    uint64_t x = state += 0x9e3779b97f4a7c15u;
    x = (x ^ (x >> 30)) * 0xbf58476d1ce4e5b9u;
    x = (x ^ (x >> 27)) * 0x94d049bb133111ebu;
    return x ^ (x >> 31);
}

void chance_start(uint64_t seed, uint64_t number)
{
    state = seed;
    state = chance_next() ^ (number * 0xd1342543de82ef95u);
    chance_next();
}

size_t below(size_t n) { return n == 0 ? 0 : chance_next() % n; }

int once_in(size_t n) { return below(n) == 0; }
