/* A stack of its own for one call, which is painted before it: the paint that is left tells how deep the call went. */
#define _XOPEN_SOURCE 700
#include <stdint.h>
#include <string.h>
#include <ucontext.h>

enum { STACK = 1 << 18, PAINT = 0xA5 };

typedef uintptr_t word;
typedef word function(word, word, word, word, word, word, word, word);

/* For the trial of the sweep: so many bytes more are taken by the caller. */
unsigned long stack_more;

static _Alignas(64) unsigned char stack[STACK];
static ucontext_t here, there;
static function *called;
static const word *given;
static word answer;

static void make_call(void)
{
	volatile unsigned char more[stack_more + 1];
	more[0] = 0;
	answer = more[0] + called(given[0], given[1], given[2], given[3], given[4], given[5], given[6], given[7]);
}

/* Makes a call with these words, as many as it takes; `depth` gets the bytes of stack that it and its caller took. */
word on_stack(function *call, const word words[8], unsigned long *depth)
{
	size_t left = 0;
	called = call;
	given = words;
	memset(stack, PAINT, sizeof stack);
	getcontext(&there);
	there.uc_stack.ss_sp = stack;
	there.uc_stack.ss_size = sizeof stack;
	there.uc_link = &here;
	makecontext(&there, make_call, 0);
	swapcontext(&here, &there);
	while (left < sizeof stack && stack[left] == PAINT)
		left++;
	*depth = sizeof stack - left;
	return answer;
}
