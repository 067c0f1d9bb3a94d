/* judge.h: makes a call and judges its reply and the slices by document 01. */
#ifndef JUDGE_H
#define JUDGE_H

#include "calls.h"

/* Makes the call of this number on the store as it is lent, and looks at what document 01 says must hold afterwards. */
ronakvesh_reply judged_call(int number, const uint64_t *numbers);

#endif
