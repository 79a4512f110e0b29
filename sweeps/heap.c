/*
 * The heap of the library under test, which is linked with --wrap=malloc,--wrap=realloc,--wrap=free: it counts what the
 * library asks for, and refuses where the test wants it. Worlds may be in calls of several threads.
 *
 * Or it is loaded before a program that loads the library (pythons.py names the functions for that), and told where the
 * library is: what others ask for it passes on. A block of the library is known by a mark in front of it, in a place in which
 * other blocks have their size.
 */
#include <stddef.h>

/* Refuses the k-th allocation from now, or that and all later ones; 0: none. */
unsigned long heap_refuse_at, heap_refuse_from;
/* How many allocations were asked for, how many of these were refused, and how many blocks are there. */
unsigned long heap_asked, heap_refused, heap_blocks;
/* For the trial of the tests: keeps each fourth block that is freed; gives memory also where it was to be refused. */
unsigned long heap_leaks, heap_deaf;

/* Where the library's calls come from; where heap_to is 0 all are the library's. */
#ifndef HEAP_TO
#define HEAP_TO 0
#endif
unsigned long heap_from, heap_to = HEAP_TO;

/* The bytes in front of a block, and the mark in the last of them. */
enum { FRONT = 16 };
static const unsigned long MARK = 0xa5c3a5c3a5c3a5c2;

static unsigned long frees;

void *__real_malloc(size_t size);
void *__real_realloc(void *block, size_t size);
void __real_free(void *block);

static int is_of_library(void *caller)
{
	return heap_to == 0 || (heap_from <= (unsigned long)caller && (unsigned long)caller < heap_to);
}

static int has_mark(void *block)
{
	return block && ((unsigned long *)block)[-1] == MARK;
}

static void *with_mark(void *whole)
{
	if (!whole)
		return NULL;
	((unsigned long *)whole)[FRONT / sizeof MARK - 1] = MARK;
	return (char *)whole + FRONT;
}

static int refused(void)
{
	__atomic_add_fetch(&heap_asked, 1, __ATOMIC_RELAXED);
	if (heap_refuse_from > 1) {
		heap_refuse_from--;
	} else if (heap_refuse_from == 1 || (heap_refuse_at > 0 && --heap_refuse_at == 0)) {
		heap_refused++;
		return !heap_deaf;
	}
	return 0;
}

void *__wrap_malloc(size_t size)
{
	void *block;
	if (!is_of_library(__builtin_return_address(0)))
		return __real_malloc(size);
	block = refused() ? NULL : with_mark(__real_malloc(size + FRONT));
	__atomic_add_fetch(&heap_blocks, block != NULL, __ATOMIC_RELAXED);
	return block;
}

void *__wrap_realloc(void *block, size_t size)
{
	void *moved;
	if (!has_mark(block) && !(block == NULL && is_of_library(__builtin_return_address(0))))
		return __real_realloc(block, size);
	moved = refused() ? NULL : with_mark(__real_realloc(block ? (char *)block - FRONT : NULL, size + FRONT));
	__atomic_add_fetch(&heap_blocks, moved && !block, __ATOMIC_RELAXED);
	return moved;
}

void __wrap_free(void *block)
{
	if (!has_mark(block)) {
		__real_free(block);
		return;
	}
	if (heap_leaks && __atomic_add_fetch(&frees, 1, __ATOMIC_RELAXED) % 4 == 0)
		return;
	__atomic_sub_fetch(&heap_blocks, 1, __ATOMIC_RELAXED);
	((unsigned long *)block)[-1] = 0;
	__real_free((char *)block - FRONT);
}
