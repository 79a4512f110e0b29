/*
 * A whole routesim over two calls: hk_line does what a line says, and hk_text has what is written of it. Words, texts
 * and statuses are those of docs/routesim.1, but that a word which begins with `-` is a file too.
 *
 *     cc script.c $(pkg-config --cflags --libs hoiskend) -o script && ./script FILE
 */
#include <hoiskend.h>
#include <stdio.h>
#include <stdlib.h>

enum { DONE = 0, USAGE = 2, BAD_LINE = 3, READ_FAULT = 4, WRITE_FAULT = 5, NO_MEMORY = 6 };

/* The most bytes of a line, and one more: a longer line is as bad as one of so many. */
enum { LINE_BYTES = 16500 + 1 };

static uint8_t line[LINE_BYTES];

/* Reads a line, without its newline; false at the end, where nothing stands before it. */
static bool read_line(FILE *script, size_t *n)
{
	int byte;
	size_t read = 0;
	*n = 0;
	while ((byte = getc(script)) != EOF && byte != '\n') {
		if (*n < LINE_BYTES)
			line[(*n)++] = (uint8_t)byte;
		read++;
	}
	return byte == '\n' || (read > 0 && !ferror(script));
}

/* Writes the text of the last answer, in a buffer that grows with it. */
static int write_text(hk_world *world)
{
	static uint8_t *text;
	static size_t room;
	size_t n = hk_text_size(world);
	if (n > room) {
		uint8_t *grown = realloc(text, n);
		if (!grown)
			return NO_MEMORY;
		text = grown;
		room = n;
	}
	if (n == 0)
		return DONE;
	hk_text(world, text, n);
	return fwrite(text, 1, n, stdout) == n && fflush(stdout) == 0 ? DONE : WRITE_FAULT;
}

static int run(hk_world *world, FILE *script)
{
	size_t n;
	int status = DONE, fault;
	while (read_line(script, &n)) {
		if (hk_line(world, line, n) == HK_BAD)
			status = BAD_LINE;
		if ((fault = write_text(world)) != DONE)
			return fault;
	}
	return ferror(script) ? READ_FAULT : status;
}

static int run_script(int words, char **word)
{
	hk_world world = HK_CLOSED;
	FILE *script = stdin;
	int status;
	if (words > 2)
		return USAGE;
	if (words == 2 && !(script = fopen(word[1], "r")))
		return READ_FAULT;
	if (hk_open(&world))
		return NO_MEMORY;
	status = run(&world, script);
	hk_close(&world);
	return status;
}

int main(int words, char **word)
{
	static const char *const text[] = {
		[USAGE] = "usage", [BAD_LINE] = "bad line", [READ_FAULT] = "read fault", [WRITE_FAULT] = "write fault",
		[NO_MEMORY] = "no memory",
	};
	int status = run_script(words, word);
	if (status != DONE)
		fprintf(stderr, "routesim: %s\n", text[status]);
	return status;
}
