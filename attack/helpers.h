/* helpers.h: the helpers on numbers. */
#ifndef HELPERS_H
#define HELPERS_H

#include "input.h"

/* Calls a helper that is drawn from the input, and compares its reply with what document 01 says. */
void judged_helper(input *in);

#endif
