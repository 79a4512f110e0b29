/*
 * Makes the program that tells in words what becomes of lines tell it wrongly, for the trial of its sweeps: a library that is
 * loaded before that of the faults, and takes what the program writes to standard output line by line. WRONG names what it
 * does:
 *
 *   misnumbers  shows the third line behind another number
 *   swallows    leaves out each answer that is `ok`
 *   renames     tells another errno
 *   excuses     tells another reason of a refusal
 *   misplaces   tells that the word behind the wrong one is
 *   mistakes    tells that something else is wanted
 *   complicates leaves out plain lines
 *   prunes      leaves out leaves on the side of 1
 *   turns       tells the other side of a bit
 *   levels      tells that no mask is listed
 *   unlists     leaves out rows of routes by a gateway
 *   mixes       tells another interface of a packet
 *   hushes      tells of nothing behind all lines
 *   adds        counts one bad line more
 *   loses       tells of no byte that waits for a socket
 *   widens      tells another length of an address's network
 *   grafts      hangs both nodes beneath a bit node on its side of 0, in the graph
 *   bends       does so in the drawing
 */
#define _GNU_SOURCE
#include <dlfcn.h>
#include <stdlib.h>
#include <string.h>
#include <unistd.h>

#define NEXT(name) ((__typeof__(&name))dlsym(RTLD_NEXT, #name))
#define ROOM (1 << 18)

/* The line that is being written, with a byte behind it. */
static char line[ROOM + 1];
static size_t line_size;

static int is(const char *wrong)
{
	const char *text = getenv("WRONG");
	return text && !strcmp(text, wrong);
}

static char *place_of(const char *text)
{
	return memmem(line, line_size, text, strlen(text));
}

static int begins(const char *text)
{
	return line_size >= strlen(text) && !memcmp(line, text, strlen(text));
}

static void put(const char *text, size_t size)
{
	ssize_t took;
	for (; size > 0; text += took, size -= took) {
		took = NEXT(write)(STDOUT_FILENO, text, size);
		if (took <= 0)
			return;
	}
}

/* Writes other bytes of the same number in place of the first ones in the line that are these. */
static void exchange(const char *wrong, const char *old, const char *new)
{
	char *at = place_of(old);
	if (at && is(wrong))
		memcpy(at, new, strlen(new));
}

/* Takes a text out of the line. */
static void cut(const char *wrong, const char *from, size_t size)
{
	char *at = place_of(from);
	if (!at || !is(wrong))
		return;
	memmove(at, at + size, line + line_size - at - size);
	line_size -= size;
}

/* A prompt, the number of a line and then this, has no newline. */
static int is_prompt(void)
{
	return line_size > 2 && strspn(line, "0123456789") == line_size - 2 && !memcmp(line + line_size - 2, "> ", 2);
}

static int is_left_out(void)
{
	return (is("swallows") && line_size == 7 && begins("    ok\n")) || (is("complicates") && begins("    = "))
		|| (is("prunes") && place_of("|-1- leaf")) || (is("unlists") && place_of(" UGS "))
		|| (is("hushes") && place_of(" bad line") && !begins(" "));
}

static void put_line(void)
{
	char *at;
	if (is_left_out())
		return;
	if (begins("3: ") && is("misnumbers"))
		line[0] = '4';
	if (begins("    E")) {
		exchange("renames", "ENETUNREACH", "EHOSTUNREAC");
		exchange("excuses", "no interface", "no gateway  ");
	}
	at = place_of("bad: word ");
	if (at && is("misplaces"))
		at[10]++;
	if (at)
		exchange("mistakes", "one of", "two of");
	if ((at = place_of(", masks ")) && is("levels"))
		cut("levels", ", masks ", line + line_size - 1 - at);
	exchange("turns", "is 1: down on the 1", "is 0: down on the 0");
	exchange("mixes", " out of le0,", " out of lo0,");
	if (!begins(" "))
		exchange("adds", "2 bad", "3 bad");
	if ((at = place_of("bytes waiting ")) && is("loses"))
		at[14] = '0';
	if (place_of("broadcast address"))
		exchange("widens", "/8,", "/9,");
	put(line, line_size);
}

/* Writes a picture, behind all lines, with each mark of a side of 1, which has that number at a place, as one of the side of 0. */
static ssize_t put_picture(int file, const char *text, size_t size, const char *mark, size_t place)
{
	char *at = line;
	if (size > ROOM)
		size = ROOM;
	memcpy(line, text, size);
	while ((at = memmem(at, line + size - at, mark, strlen(mark))))
		at[place] = '0';
	return NEXT(write)(file, line, size);
}

ssize_t write(int file, const void *data, size_t size)
{
	const char *text = data;
	if (file > STDERR_FILENO && is("grafts"))
		return put_picture(file, data, size, "[label=1]", 7);
	if (file > STDERR_FILENO && is("bends"))
		return put_picture(file, data, size, ">1</text>", 1);
	if (file != STDOUT_FILENO || is("right"))
		return NEXT(write)(file, data, size);
	for (size_t k = 0; k < size; k++) {
		line[line_size++] = text[k];
		if (text[k] != '\n' && line_size < ROOM && !is_prompt())
			continue;
		put_line();
		line_size = 0;
	}
	return size;
}

__attribute__((destructor)) static void end(void)
{
	if (line_size > 0)
		put_line();
}
