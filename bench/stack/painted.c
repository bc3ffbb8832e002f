// How much of a stack a function uses: it runs on a painted one, and the paint that it left is counted.
#include <stddef.h>
#include <string.h>
#include <ucontext.h>

enum { STACK = 1 << 18, PAINT = 0xa5 };

static unsigned char stack[STACK];
static ucontext_t caller, painted;
static void (*function)(void *);
static void *handed;

static void entry(void) { function(handed); }

// The bytes from the stack's top down to the lowest one that the function wrote.
size_t painted_use(void (*called)(void *), void *argument) {
    function = called;
    handed = argument;
    memset(stack, PAINT, sizeof stack);
    getcontext(&painted);
    painted.uc_stack.ss_sp = stack;
    painted.uc_stack.ss_size = sizeof stack;
    painted.uc_link = &caller;
    makecontext(&painted, entry, 0);
    swapcontext(&caller, &painted);
    size_t left = 0;
    while (left < sizeof stack && stack[left] == PAINT) left++;
    return sizeof stack - left;
}
