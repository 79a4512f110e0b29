/*
 * Faults for a program under test, by LD_PRELOAD, and a count of what it does. Variables of the environment name the
 * faults; calls are counted from 1:
 *
 *   REFUSE_ALLOC=k   the k-th allocation is refused
 *   REFUSE_FROM=k    the k-th and each later one
 *   FAIL_READ=k      the k-th read answers EIO
 *   FAIL_WRITES=1    at each write to standard output a copy of the program goes on in which this write answers EIO
 *   EMPTY_WRITES=1   likewise, in which this write takes no byte
 *   ONE_BYTE=1       each write to standard output takes one byte
 *   PIECE=n          each read gives at most n bytes
 *   NEWLINES=1       each read gives one newline, for ever
 *
 * Reads are those of standard input, or where READS_OF=n says so of the file that is open as n.
 *
 * A copy does well where it writes no more to standard output, frees all that was allocated, and ends with status 5.
 *
 * COUNTS names a file that is written when the program ends by itself: lines of a name and a number, in the order of
 * `tell_counts`. A run of more than two minutes is ended by a signal, which writes no such file.
 */
#define _GNU_SOURCE
#include <errno.h>
#include <fcntl.h>
#include <malloc.h>
#include <stdio.h>
#include <stdlib.h>
#include <sys/syscall.h>
#include <sys/wait.h>
#include <unistd.h>

#define MOST_SECONDS 120
#define WRITE_FAULT 5

extern void *__libc_malloc(size_t size);
extern void *__libc_calloc(size_t count, size_t size);
extern void *__libc_realloc(void *block, size_t size);
extern void *__libc_memalign(size_t alignment, size_t size);
extern void __libc_free(void *block);

static unsigned long refuse_alloc, refuse_from, fail_read, fail_writes, empty_writes, one_byte, piece, newlines;
static unsigned long reads_of;
static unsigned long faults, allocations, blocks, bytes, most_bytes, reads, least_room, most_room, writes;
static unsigned long copies, copies_well, first_wrong;
/* Whether this process is a copy, and has written since. */
static int is_copy, goes_on;

static unsigned long setting(const char *name)
{
	const char *text = getenv(name);
	return text ? strtoul(text, NULL, 10) : 0;
}

__attribute__((constructor)) static void read_settings(void)
{
	refuse_alloc = setting("REFUSE_ALLOC");
	refuse_from = setting("REFUSE_FROM");
	fail_read = setting("FAIL_READ");
	fail_writes = setting("FAIL_WRITES");
	empty_writes = setting("EMPTY_WRITES");
	one_byte = setting("ONE_BYTE");
	piece = setting("PIECE");
	newlines = setting("NEWLINES");
	reads_of = setting("READS_OF");
	alarm(MOST_SECONDS);
}

/* ---- memory ---- */

static int refused(void)
{
	allocations++;
	if (allocations != refuse_alloc && (!refuse_from || allocations < refuse_from))
		return 0;
	faults++;
	errno = ENOMEM;
	return 1;
}

/* A block that was given, or NULL. */
static void *given(void *block)
{
	if (block) {
		blocks++;
		bytes += malloc_usable_size(block);
		if (bytes > most_bytes)
			most_bytes = bytes;
	}
	return block;
}

static void taken_back(void *block)
{
	if (block) {
		blocks--;
		bytes -= malloc_usable_size(block);
	}
}

void *malloc(size_t size) { return refused() ? NULL : given(__libc_malloc(size)); }
void *calloc(size_t count, size_t size) { return refused() ? NULL : given(__libc_calloc(count, size)); }
void *memalign(size_t alignment, size_t size) { return refused() ? NULL : given(__libc_memalign(alignment, size)); }
void *aligned_alloc(size_t alignment, size_t size) { return memalign(alignment, size); }

int posix_memalign(void **block, size_t alignment, size_t size)
{
	void *made = memalign(alignment, size);
	if (!made)
		return ENOMEM;
	*block = made;
	return 0;
}

void *realloc(void *block, size_t size)
{
	void *moved;
	size_t before = block ? malloc_usable_size(block) : 0;
	if (refused())
		return NULL;
	moved = __libc_realloc(block, size);
	if (moved || !size) {
		blocks -= block != NULL;
		bytes -= before;
		given(moved);
	}
	return moved;
}

void free(void *block)
{
	taken_back(block);
	__libc_free(block);
}

/* ---- reads and writes ---- */

ssize_t read(int file, void *room, size_t size)
{
	if (file < 0 || (unsigned long)file != reads_of)
		return syscall(SYS_read, file, room, size);
	reads++;
	if (reads == 1 || size < least_room)
		least_room = size;
	if (size > most_room)
		most_room = size;
	if (reads == fail_read) {
		faults++;
		errno = EIO;
		return -1;
	}
	if (newlines && size > 0) {
		*(char *)room = '\n';
		return 1;
	}
	return syscall(SYS_read, file, room, piece && piece < size ? piece : size);
}

/* Whether this process is the copy that goes on with a fault; the first one waits until that has ended. */
static int copied(void)
{
	int status = 0, is_well;
	pid_t copy = fork();
	if (copy == 0) {
		is_copy = 1;
		alarm(MOST_SECONDS);
		return 1;
	}
	is_well = copy > 0 && waitpid(copy, &status, 0) == copy && WIFEXITED(status) && WEXITSTATUS(status) == WRITE_FAULT;
	copies++;
	copies_well += is_well;
	if (!is_well && !first_wrong)
		first_wrong = copies;
	return 0;
}

ssize_t write(int file, const void *data, size_t size)
{
	if (file != STDOUT_FILENO || size == 0)
		return syscall(SYS_write, file, data, size);
	if (is_copy) {
		goes_on = 1;
		return size;
	}
	writes++;
	if ((fail_writes || empty_writes) && copied()) {
		errno = EIO;
		return fail_writes ? -1 : 0;
	}
	return syscall(SYS_write, file, data, one_byte ? 1 : size);
}

ssize_t __write(int file, const void *data, size_t size) { return write(file, data, size); }

/* ---- the end ---- */

__attribute__((destructor)) static void tell_counts(void)
{
	char text[400];
	const char *path = getenv("COUNTS");
	if (is_copy) {
		if (goes_on || blocks)
			_exit(1);
		return;
	}
	long file = path ? syscall(SYS_openat, AT_FDCWD, path, O_WRONLY | O_CREAT | O_TRUNC, 0644) : -1;
	if (file < 0)
		return;
	int size = snprintf(text, sizeof text,
		"faults %lu\nallocations %lu\nblocks_left %lu\nbytes_left %lu\nmost_bytes %lu\nreads %lu\nleast_room %lu\n"
		"most_room %lu\nwrites %lu\ncopies %lu\ncopies_well %lu\nfirst_wrong %lu\n",
		faults, allocations, blocks, bytes, most_bytes, reads, least_room, most_room, writes, copies, copies_well,
		first_wrong);
	syscall(SYS_write, file, text, size);
	syscall(SYS_close, file);
}
