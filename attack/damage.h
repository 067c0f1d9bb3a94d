/* damage.h: changes of single elements of the store from outside, and their undoing. */
#ifndef DAMAGE_H
#define DAMAGE_H

#include "input.h"

/* Changes an element that is drawn from the input, most often to something close to what W1 to W5 tell apart. */
void damage(input *in);
/* Undoes what was changed, the last change first. */
void undo_damage(void);
/* Takes what was changed as it is. */
void accept_damage(void);

#endif
