/*
 * Makes a program wrong, for the trial of the sweeps: a library that is loaded before that of the faults, and stands
 * between the program and it. WRONG names what it does:
 *
 *   deaf          asks again where memory was refused, or a read or a write failed or took nothing
 *   blind         goes past the library of the faults, which then sees no call
 *   refuses-late  refuses each allocation behind the 5,000th
 *   too-soon      answers 55 in place of each 20th `ok`
 *   greedy        asks for memory before it answers a line behind the third, and answers 55 where that is refused
 *   classful      answers 55 to packets to 224.0.0.0/4
 *   crowded       answers 55 to long writes where 61 sockets are open
 *   confused      writes to standard error at the end where memory was refused
 *   leaks         keeps one block of four
 *   swells        takes a block at each write, and keeps it until the end
 *   unlost        answers `size 0` in place of any other number of lost messages
 *   hoards        keeps one block of four until the end, and frees it then
 *   narrow        offers 1,000 bytes to a read
 *   wide          offers 4,097 bytes to a read
 *   eager         reads once more behind the end
 *   forgets       loses the last byte of a read of one byte, each 100th time
 *   hasty         ends the script at a read that failed
 *   quits         is ended by a signal at the 20th write
 *   stops         ends the script at the 1,000th read
 *   lies          answers `ok` in place of `bad`
 *   late          keeps what it writes until it has read once more
 *   sluggish      goes a long way round at each allocation
 *   mumbles       writes a question mark in place of a text to standard error
 */
#define _GNU_SOURCE
#include <dlfcn.h>
#include <errno.h>
#include <signal.h>
#include <stdlib.h>
#include <string.h>
#include <sys/syscall.h>
#include <unistd.h>

#define NEXT(name) ((__typeof__(&name))dlsym(RTLD_NEXT, #name))

extern void *__libc_malloc(size_t size);
extern void *__libc_realloc(void *block, size_t size);
extern void __libc_free(void *block);

static void *kept[1 << 16];
static unsigned long allocations, frees, reads, writes, answers, refusals, keeps;

static int is(const char *wrong)
{
	const char *text = getenv("WRONG");
	return text && !strcmp(text, wrong);
}

static int refuses(void)
{
	allocations++;
	if (is("sluggish"))
		for (volatile int turn = 0; turn < 1000; turn++)
			;
	return is("refuses-late") && allocations > 5000;
}

void *malloc(size_t size)
{
	void *block;
	if (is("blind"))
		return __libc_malloc(size);
	if (refuses())
		return NULL;
	block = NEXT(malloc)(size);
	if (!block && is("deaf"))
		block = NEXT(malloc)(size);
	refusals += !block;
	return block;
}

void *realloc(void *block, size_t size)
{
	void *moved;
	if (is("blind"))
		return __libc_realloc(block, size);
	if (refuses())
		return NULL;
	moved = NEXT(realloc)(block, size);
	if (!moved && is("deaf"))
		moved = NEXT(realloc)(block, size);
	refusals += !moved;
	return moved;
}

void free(void *block)
{
	if (is("blind"))
		__libc_free(block);
	else if (is("leaks") && block && ++frees % 4 == 0)
		return;
	else if (is("hoards") && block && ++frees % 4 == 0 && keeps < sizeof kept / sizeof *kept)
		kept[keeps++] = block;
	else
		NEXT(free)(block);
}

/* ---- lines and their answers: a read gives lines, of which each is answered before there is another read ---- */

#define MOST_LINES 8192
#define FRONT 32
#define LONG_LINE 12000

/* What is answered in place of a line's own answer; or it is asked for memory first. */
static const char ASKS[] = "", NO_MEMORY[] = "err 55\n", NONE_LOST[] = "size 0\n";
static const char *instead[MOST_LINES];
static unsigned long lines, answered, line_size, sockets;
static char front[FRONT];
static int is_begun, is_taken, is_within, is_message;

static int begins(const char *text)
{
	return !strncmp(front, text, strlen(text));
}

/* What is answered to the line of this front and size, or NULL for its own answer. */
static const char *instead_of(void)
{
	sockets += begins("open ");
	if (is("greedy") && lines >= 3)
		return ASKS;
	if (is("unlost") && begins("lost "))
		return NONE_LOST;
	if (is("classful") && begins("packet ") && atoi(front + 7) >> 4 == 14)
		return NO_MEMORY;
	if (is("crowded") && begins("write ") && line_size > LONG_LINE && sockets >= 61)
		return NO_MEMORY;
	return NULL;
}

static void note_lines(const char *text, ssize_t size)
{
	for (; size > 0; size--, text++) {
		if (*text != '\n') {
			if (line_size < FRONT - 1)
				front[line_size] = *text;
			line_size++;
			continue;
		}
		front[line_size < FRONT - 1 ? line_size : FRONT - 1] = 0;
		if (line_size > 0 && front[0] != '#')
			instead[lines++ % MOST_LINES] = instead_of();
		line_size = 0;
	}
}

/* Decides, where an answer begins, whether another one is given in its place. */
static void begin_answer(void)
{
	const char *other = answered < lines ? instead[answered % MOST_LINES] : NULL;
	void *block = other == ASKS ? NEXT(malloc)(1) : NULL;
	is_begun = 1;
	is_taken = other && !block;
	if (is_taken)
		NEXT(write)(STDOUT_FILENO, other == ASKS ? NO_MEMORY : other, strlen(other == ASKS ? NO_MEMORY : other));
	if (block)
		NEXT(free)(block);
}

/* These bytes were written of answers, or kept back: an answer ends with its first line that is no message. */
static void note_answer(const char *text, ssize_t size)
{
	for (; size > 0; size--, text++) {
		if (!is_within)
			is_message = *text == 'm';
		is_within = *text != '\n';
		if (!is_within && !is_message) {
			answered++;
			is_begun = 0;
		}
	}
}

/* What is written late; what doesn't fit into it is written at once. */
static char late[1 << 17];
static size_t late_size;

static void write_late(void)
{
	size_t size = late_size;
	late_size = 0;
	if (size > 0)
		NEXT(write)(STDOUT_FILENO, late, size);
}

ssize_t read(int file, void *room, size_t size)
{
	ssize_t got;
	reads++;
	if (is("blind"))
		return syscall(SYS_read, file, room, size);
	if (is("stops") && reads >= 1000)
		return 0;
	if (is("narrow") && size > 1000)
		size = 1000;
	got = NEXT(read)(file, room, size + is("wide"));
	if (got < 0 && is("deaf"))
		got = NEXT(read)(file, room, size);
	if (got < 0 && is("hasty"))
		return 0;
	if (got == 0 && is("eager"))
		NEXT(read)(file, room, size);
	if (got == 1 && is("forgets") && reads % 100 == 0)
		return NEXT(read)(file, room, size);
	note_lines(room, got);
	write_late();
	return got;
}

/* Writes as the program does, of answers no more than one line. */
static ssize_t write_piece(int file, const void *data, size_t size)
{
	ssize_t took;
	if (file == STDOUT_FILENO && ++writes == 20 && is("quits"))
		raise(SIGKILL);
	if (is("blind"))
		return syscall(SYS_write, file, data, size);
	if (is("lies") && size == 4 && !memcmp(data, "bad\n", 4)) {
		NEXT(write)(file, "ok\n", 3);
		return 4;
	}
	if (is("too-soon") && size == 3 && !memcmp(data, "ok\n", 3) && ++answers % 20 == 0) {
		NEXT(write)(file, "err 55\n", 7);
		return 3;
	}
	if (file == STDERR_FILENO && is("mumbles")) {
		NEXT(write)(file, "?", 1);
		return size;
	}
	if (file == STDOUT_FILENO && is("late") && late_size + size <= sizeof late) {
		memcpy(late + late_size, data, size);
		late_size += size;
		return size;
	}
	if (is("swells") && keeps < sizeof kept / sizeof *kept)
		kept[keeps++] = NEXT(malloc)(100);
	if (file == STDOUT_FILENO && size > 0 && !is_begun)
		begin_answer();
	if (file == STDOUT_FILENO && is_taken) {
		note_answer(data, size);
		return size;
	}
	took = NEXT(write)(file, data, size);
	if (took <= 0 && size > 0 && is("deaf"))
		took = NEXT(write)(file, data, size);
	if (file == STDOUT_FILENO)
		note_answer(data, took);
	return took;
}

static int changes_answers(void)
{
	return is("greedy") || is("unlost") || is("classful") || is("crowded") || is("too-soon") || is("lies");
}

/* Answers that are written at once are taken line by line where some are changed. */
ssize_t write(int file, const void *data, size_t size)
{
	const char *text = data, *newline;
	size_t took = 0, piece;
	ssize_t more;
	if (file != STDOUT_FILENO || !changes_answers())
		return write_piece(file, data, size);
	do {
		newline = memchr(text + took, '\n', size - took);
		piece = newline ? (size_t)(newline + 1 - text) - took : size - took;
		more = write_piece(file, text + took, piece);
		if (more <= 0)
			return took ? (ssize_t)took : more;
		took += more;
	} while ((size_t)more == piece && took < size);
	return took;
}

__attribute__((destructor)) static void end(void)
{
	write_late();
	if (is("confused") && refusals)
		syscall(SYS_write, STDERR_FILENO, "refused\n", 8);
	while (keeps > 0)
		NEXT(free)(kept[--keeps]);
}
