/*
 * Makes the program that shows messages in words show them wrongly, for the trial of its sweeps: a library that is loaded
 * before that of the faults, and takes what the program writes to standard output line by line. WRONG names what it does:
 *
 *   misnames   shows the flag DONE as HOST
 *   miscounts  shows another length
 *   swaps      shows the first two octets of a destination in each other's place
 *   widens     shows another number of a mask's bits
 *   loses      leaves out the lines of netmasks
 *   repeats    shows the lines of netmasks twice
 *   leaves     leaves each second message as its `msg` line
 *   excuses    gives no reason why bytes are no message
 *   lowers     takes upper-case digits for those of a message
 *   trims      takes away a line's last space or `\r`
 *   ends       ends a last line that has no newline
 *   cuts       shows 4,096 bytes of a line
 */
#define _GNU_SOURCE
#include <dlfcn.h>
#include <stdio.h>
#include <stdlib.h>
#include <string.h>
#include <unistd.h>

#define NEXT(name) ((__typeof__(&name))dlsym(RTLD_NEXT, #name))
#define ROOM (1 << 21)

/* What was read, of which the messages before `shown` were written; and the line that is being written. */
static char given[ROOM], line[ROOM];
static size_t given_size, shown, line_size;
static unsigned long messages;
static int is_left;

static int is(const char *wrong)
{
	const char *text = getenv("WRONG");
	return text && !strcmp(text, wrong);
}

static int begins(const char *text)
{
	return line_size >= strlen(text) && !memcmp(line, text, strlen(text));
}

static void put(const char *text, size_t size)
{
	ssize_t took;
	for (; size > 0; text += took, size -= took) {
		took = NEXT(write)(STDOUT_FILENO, text, size);
		if (took <= 0)
			return;
	}
}

/* Writes other bytes of the same number in place of the first ones in the line that are these. */
static void exchange(const char *old, const char *new)
{
	char *at = memmem(line, line_size, old, strlen(old));
	if (at)
		memcpy(at, new, strlen(new));
}

static void swap_octets(void)
{
	char text[300];
	int first, second, rest = 0;
	if (sscanf(line, " DST %d.%d%n", &first, &second, &rest) != 2 || !rest || line_size > 256)
		return;
	line_size = snprintf(text, sizeof text, " DST %d.%d%.*s", second, first, (int)(line_size - rest), line + rest);
	memcpy(line, text, line_size);
}

/* The line of the next message that was read. */
static void leave(void)
{
	const char *at = given + shown, *end = given + given_size, *newline;
	while ((newline = memchr(at, '\n', end - at)) && memcmp(at, "msg ", 4))
		at = newline + 1;
	if (!newline)
		return;
	shown = newline + 1 - given;
	is_left = ++messages % 2 == 0 && is("leaves");
	if (is_left)
		put(at, newline + 1 - at);
}

static void put_line(void)
{
	line[line_size] = 0;
	if (line[0] != ' ')
		is_left = 0;
	if (begins("RTM_"))
		leave();
	if (is_left || (begins(" NETMASK ") && is("loses")) || (begins(" the length") && is("excuses")))
		return;
	if (begins(" flags ") && is("misnames"))
		exchange("DONE", "HOST");
	if (begins("RTM_") && is("miscounts"))
		exchange("length 1", "length 2");
	if (begins(" NETMASK ") && is("widens"))
		exchange("(/8)", "(/9)");
	if (begins(" DST ") && is("swaps"))
		swap_octets();
	if (begins(" NETMASK ") && is("repeats"))
		put(line, line_size);
	if (begins("msg AB\n") && is("lowers"))
		line_size = sprintf(line, "no message: ab\n the length is wrong\n");
	if (line_size > 1 && strchr(" \r", line[line_size - 2]) && is("trims"))
		line[--line_size - 1] = '\n';
	if (line_size > 0 && line[line_size - 1] != '\n' && is("ends"))
		line[line_size++] = '\n';
	if (line_size > 4096 && is("cuts"))
		line[(line_size = 4096) - 1] = '\n';
	put(line, line_size);
}

ssize_t read(int file, void *room, size_t size)
{
	ssize_t got = NEXT(read)(file, room, size);
	if (got > 0 && given_size + got < ROOM) {
		memcpy(given + given_size, room, got);
		given_size += got;
	}
	return got;
}

ssize_t write(int file, const void *data, size_t size)
{
	const char *text = data;
	if (file != STDOUT_FILENO || is("right"))
		return NEXT(write)(file, data, size);
	for (size_t k = 0; k < size; k++) {
		line[line_size++] = text[k];
		if (text[k] != '\n' && line_size < ROOM - 1)
			continue;
		put_line();
		line_size = 0;
	}
	return size;
}

__attribute__((destructor)) static void end(void)
{
	if (line_size > 0)
		put_line();
}
