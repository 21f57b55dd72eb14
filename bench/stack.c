/* The stack that a call takes: it runs on a stack of its own, filled with a pattern, and what is no longer so was taken. */

#include <string.h>
#include <ucontext.h>

#include "bench.h"
#include "stack.h"

enum { STACK = 1 << 20, PATTERN = 0xC3 };

static ucontext_t caller;
static bool (*called)(void *);
static void *given;

static void call(void)
{
    if (!called(given))
        fail("WRONG: a call on a stack of its own refuses");
}

static bool nothing(void *state)
{
    (void) state;
    return true;
}

static size_t taken(bool (*run)(void *), void *state)
{
    static uint8_t *stack;
    if (!stack)
        stack = room(STACK);
    memset(stack, PATTERN, STACK);
    called = run;
    given = state;
    ucontext_t own;
    if (getcontext(&own) != 0)
        fail("no context");
    own.uc_stack.ss_sp = stack;
    own.uc_stack.ss_size = STACK;
    own.uc_link = &caller;
    makecontext(&own, call, 0);
    if (swapcontext(&caller, &own) != 0)
        fail("no stack");
    size_t free = 0;
    while (free < STACK && stack[free] == PATTERN)
        free++;
    return STACK - free;
}

size_t stack_of(bool (*run)(void *), void *state)
{
    return taken(run, state) - taken(nothing, NULL);
}
