/* tally.h: counts calls by their replies, and says when there were enough. */
#ifndef TALLY_H
#define TALLY_H

#include <stdbool.h>
#include <stdint.h>

void count_call(int call, uint64_t number);
void count_helper(uint64_t number);
/* Have ATTACK_CALLS calls been made and ATTACK_SECONDS seconds passed, as the environment has them (0 where it does
 * not)? */
bool enough(void);
/* Prints the answers and refusals of each call, and a last line of totals. */
void print_tally(void);

#endif
