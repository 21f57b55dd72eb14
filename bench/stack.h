/* The stack that a call takes. */

#ifndef STACK_H
#define STACK_H

#include <stdbool.h>
#include <stddef.h>

/* How many bytes of stack a run takes, beyond those of a run that does nothing. */
size_t stack_of(bool (*run)(void *state), void *state);

#endif
