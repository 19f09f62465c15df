/* What the program's files share. */
#ifndef MAIN_H
#define MAIN_H

#include <stdint.h>

/* Ends the program with 2: it was used wrongly, or the machine failed it. */
void give_up(const char *why);

/* The mode `self`: prints `ok COUNT` and returns 0, or ends the program. */
int check_self(uint64_t seed, uint64_t count);

#endif
