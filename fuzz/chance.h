/* Random numbers of a case: a function of the seed and the case's number alone, so that a case can be run again. */
#ifndef CHANCE_H
#define CHANCE_H

#include <stddef.h>
#include <stdint.h>

void chance_start(uint64_t seed, uint64_t number);
uint64_t chance_next(void);

/* Below n; 0 where n is 0. */
size_t below(size_t n);

/* Once in n times. */
int once_in(size_t n);

#endif
