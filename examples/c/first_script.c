/*
 * README's first script by calls: an interface, a routing socket and an address, and then a GET of the route of
 * 10.9.9.9. It prints what routesim prints of the script.
 *
 *     cc first_script.c $(pkg-config --cflags --libs hoiskend) -o first_script
 */
#include <hoiskend.h>
#include <stdio.h>
#include <stdlib.h>

static void print_answer(uint32_t code)
{
	if (code)
		printf("err %u\n", (unsigned)code);
	else
		puts("ok");
}

/* Prints the messages that the last answer brought. */
static void print_messages(hk_world *world)
{
	size_t n = hk_fetch_size(world);
	uint8_t *messages = malloc(n + 1);
	if (!messages)
		exit(1);
	hk_fetch(world, messages, n);
	for (size_t at = 0; at < n;) {
		size_t end = at + hk_message_length(messages + at);
		fputs("msg ", stdout);
		while (at < end)
			printf("%02x", messages[at++]);
		putchar('\n');
	}
	free(messages);
}

static void read_and_print(hk_world *world, const char *id)
{
	uint32_t code = hk_read(world, id);
	print_messages(world);
	print_answer(code);
}

int main(void)
{
	static const uint8_t link[] = {0x08, 0x00, 0x20, 0x01, 0x02, 0x03};
	hk_request get = hk_request_of(HK_ADDRESS(10, 9, 9, 9), HK_HOST);
	hk_world world = HK_CLOSED;
	get.seq = 1;
	if (hk_open(&world)) {
		fprintf(stderr, "first_script: %s\n", hk_strerror(HK_ENOBUFS));
		return 1;
	}
	print_answer(hk_attach(&world, "le0", HK_BROADCAST, 6, link, sizeof link));
	print_answer(hk_listen(&world, "a", 100, 0));
	print_answer(hk_add_address(&world, "le0", HK_ADDRESS(10, 0, 0, 1), 8, true, false, 0));
	read_and_print(&world, "a");
	print_answer(hk_get_route(&world, "a", &get));
	read_and_print(&world, "a");
	hk_close(&world);
	return 0;
}
