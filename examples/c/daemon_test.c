/*
 * The test of a routing daemon, as its author would write it: Hoiskend is the kernel. The daemon's requests are
 * answered, a witness hears what any process would, a queue that nobody reads runs full, and memory runs out where the
 * test wants it to. The daemon makes its messages as it does for a kernel, byte by byte; what the test itself asks for,
 * as another process, it asks by calls.
 *
 *     cc daemon_test.c $(pkg-config --cflags --libs hoiskend) -Wl,--wrap=malloc,--wrap=realloc -o daemon_test
 */
#include <hoiskend.h>
#include <stdio.h>
#include <stdlib.h>

/* ---- the daemon: it keeps routes in a kernel, which it reaches by two functions ---- */

/* Where the addresses of its requests begin, and where these end. */
enum { GATEWAY = HK_HEADER_BYTES + HK_INET_BYTES, NETMASK = GATEWAY + HK_INET_BYTES, END = NETMASK + HK_MASK_BYTES };
enum { WANTED = HK_RTF_UP | HK_RTF_GATEWAY | HK_RTF_STATIC };

struct kernel {
	void *state;
	/* writes a message to the routing socket; answers 0 or an errno */
	uint32_t (*write)(void *state, const uint8_t *message, size_t n);
	/* reads the messages that have come; answers their bytes */
	size_t (*read)(void *state, uint8_t *messages, size_t n);
};

struct daemon {
	struct kernel kernel;
	uint32_t seq, confirmed;
};

static void put(uint8_t *at, uint32_t number)
{
	for (int i = 0; i < 4; i++)
		at[i] = (uint8_t)(number >> (24 - 8 * i));
}

static void put_inet(uint8_t *at, uint32_t address)
{
	at[0] = HK_INET_BYTES;
	at[1] = HK_AF_INET;
	put(at + 4, address);
}

/* Asks the kernel for a route to the network of this address with a mask of 24 bits. A kernel without memory is asked
 * once more; a route that is there already is as good. */
static uint32_t want_route(struct daemon *daemon, uint32_t network, uint32_t gateway)
{
	uint8_t add[END] = {
		[HK_AT_LENGTH + 1] = END, [HK_AT_VERSION] = HK_RTM_VERSION, [HK_AT_KIND] = HK_RTM_ADD,
	};
	uint32_t code = 0;
	put(add + HK_AT_FLAGS, WANTED);
	put(add + HK_AT_ADDRS, HK_RTA_DST | HK_RTA_GATEWAY | HK_RTA_NETMASK);
	put(add + HK_AT_SEQ, ++daemon->seq);
	put_inet(add + HK_HEADER_BYTES, network);
	put_inet(add + GATEWAY, gateway);
	add[NETMASK] = 4 + 3;
	put(add + NETMASK + 4, 0xffffff00);
	for (int tries = 0; tries < 2; tries++) {
		code = daemon->kernel.write(daemon->kernel.state, add, sizeof add);
		if (code != HK_ENOBUFS)
			break;
	}
	return code == HK_EEXIST ? 0 : code;
}

/* Counts the routes that the kernel says were added, by whomever. */
static void hear(struct daemon *daemon)
{
	uint8_t messages[HK_QUEUE_BYTES];
	size_t n = daemon->kernel.read(daemon->kernel.state, messages, sizeof messages);
	for (size_t at = 0; at < n; at += hk_message_length(messages + at)) {
		hk_header header;
		if (hk_message_header(messages + at, hk_message_length(messages + at), &header) == HK_OK)
			daemon->confirmed += header.kind == HK_RTM_ADD && header.error == 0;
	}
}

/* ---- the kernel of its test ---- */

static uint32_t kernel_write(void *state, const uint8_t *message, size_t n)
{
	return hk_write((hk_world *)state, "rd", message, n);
}

static size_t kernel_read(void *state, uint8_t *messages, size_t n)
{
	hk_world *world = (hk_world *)state;
	size_t came = hk_read(world, "rd") == HK_OK ? hk_fetch(world, messages, n) : 0;
	return came <= n ? came : 0;
}

/* The allocation that is refused, counted from the next one; 0: none is. */
static unsigned long refused;

void *__real_malloc(size_t size);
void *__real_realloc(void *block, size_t size);
void *__wrap_malloc(size_t size);
void *__wrap_realloc(void *block, size_t size);

void *__wrap_malloc(size_t size)
{
	return refused > 0 && --refused == 0 ? NULL : __real_malloc(size);
}

void *__wrap_realloc(void *block, size_t size)
{
	return refused > 0 && --refused == 0 ? NULL : __real_realloc(block, size);
}

static int wrong;

#define CHECK(holds) \
	do { \
		if (!(holds)) { \
			printf("line %d: %s\n", __LINE__, #holds); \
			wrong++; \
		} \
	} while (0)

/* The smallest world: one interface with one address, the daemon's socket, and a witness that hears all. */
static struct daemon start(hk_world *world)
{
	static const uint8_t link[] = {0x08, 0x00, 0x20, 0x01, 0x02, 0x03};
	struct daemon daemon = {{world, kernel_write, kernel_read}, 0, 0};
	CHECK(hk_open(world) == HK_OK);
	CHECK(hk_attach(world, "le0", HK_BROADCAST, 6, link, sizeof link) == HK_OK);
	CHECK(hk_add_address(world, "le0", HK_ADDRESS(10, 0, 0, 1), 8, true, false, 0) == HK_OK);
	CHECK(hk_listen(world, "rd", 88, HK_AF_INET) == HK_OK);
	CHECK(hk_listen(world, "witness", 101, 0) == HK_OK);
	return daemon;
}

static void requests_are_answered(void)
{
	hk_world world = HK_CLOSED;
	hk_route route;
	hk_entry entry;
	hk_header header;
	hk_sockaddr mask;
	uint8_t heard[HK_QUEUE_BYTES];
	size_t n;
	struct daemon daemon = start(&world);

	CHECK(want_route(&daemon, HK_ADDRESS(172, 16, 1, 0), HK_ADDRESS(10, 0, 0, 254)) == HK_OK);
	hear(&daemon);
	CHECK(daemon.confirmed == 1);

	/* a packet takes the route, and is counted in the table */
	CHECK(hk_packet(&world, HK_ADDRESS(172, 16, 1, 9), &route) == HK_OK);
	CHECK(route.key == HK_ADDRESS(172, 16, 1, 0) && route.rank == 24);
	CHECK(route.family == HK_AF_INET && route.gateway == HK_ADDRESS(10, 0, 0, 254));
	CHECK(route.index == 1 && route.flags == WANTED);
	CHECK(hk_route_of(&world, route.key, route.rank, &entry) == HK_OK && entry.use_count == 1);

	/* the witness hears the reply, with the daemon's pid and seq */
	CHECK(hk_read(&world, "witness") == HK_OK);
	n = hk_fetch(&world, heard, sizeof heard);
	CHECK(n == END && hk_message_header(heard, n, &header) == HK_OK);
	CHECK(header.kind == HK_RTM_ADD && header.pid == 88 && header.seq == 1);
	CHECK(header.flags == (WANTED | HK_RTF_DONE) && header.error == 0);
	CHECK(hk_message_address(heard, n, HK_RTA_NETMASK, &mask) == HK_OK && mask.bits == 24);

	/* a gateway out of reach is refused */
	CHECK(want_route(&daemon, HK_ADDRESS(172, 16, 2, 0), HK_ADDRESS(192, 168, 0, 1)) == HK_ENETUNREACH);
	hk_close(&world);
}

/* The daemon hears of a route that another process adds. When it wants that itself, it is as good as its own, and stays
 * as the other asked for it. */
static void another_was_first(void)
{
	hk_world world = HK_CLOSED;
	hk_entry entry;
	hk_request add = hk_request_of(HK_ADDRESS(172, 16, 3, 0), 24);
	struct daemon daemon = start(&world);

	add.family = HK_AF_INET;
	add.gateway = HK_ADDRESS(10, 0, 0, 253);
	add.flags = WANTED;
	add.inits = HK_RTV_MTU;
	add.mtu = 1400;
	CHECK(hk_add_route(&world, "witness", &add) == HK_OK);
	CHECK(want_route(&daemon, add.destination, HK_ADDRESS(10, 0, 0, 254)) == HK_OK);
	hear(&daemon);
	CHECK(daemon.confirmed == 1);
	CHECK(hk_route_of(&world, add.destination, add.prefix, &entry) == HK_OK);
	CHECK(entry.route.gateway == add.gateway && entry.mtu == add.mtu);
	hk_close(&world);
}

/* The daemon doesn't read, and loses what the witness, who does, hears; after that it reads the table. */
static void a_full_queue_loses(void)
{
	hk_world world = HK_CLOSED;
	uint64_t lost, size;
	uint8_t messages[HK_QUEUE_BYTES * 4];
	size_t heard = 0, n;
	uint32_t routes = 0;
	uint8_t kind;
	struct daemon daemon = start(&world);
	for (uint32_t i = 0; i < 100; i++) {
		CHECK(want_route(&daemon, HK_ADDRESS(172, 16, i, 0), HK_ADDRESS(10, 0, 0, 254)) == HK_OK);
		CHECK(hk_read(&world, "witness") == HK_OK);
		heard += hk_fetch_size(&world) / END;
	}
	CHECK(heard == 100);
	CHECK(hk_lost(&world, "witness", &lost) == HK_OK && lost == 0);
	hear(&daemon);
	CHECK(daemon.confirmed == HK_QUEUE_BYTES / END);
	CHECK(hk_lost(&world, "rd", &lost) == HK_OK && lost == 100 - daemon.confirmed);

	CHECK(hk_dump_size(&world, false, 0, &size) == HK_OK && size <= sizeof messages);
	CHECK(hk_dump(&world, true, HK_RTF_STATIC, (uint32_t)size) == HK_OK);
	n = hk_fetch(&world, messages, sizeof messages);
	for (size_t at = 0; at < n; at += hk_message_length(messages + at))
		if (hk_message_kind(messages + at, hk_message_length(messages + at), &kind) == HK_OK)
			routes += kind == HK_RTM_GET;
	CHECK(routes == 100);
	hk_close(&world);
}

/* Each allocation of a request is refused: nothing has changed and nobody has heard of it, and the daemon's second try
 * does it. */
static void memory_runs_out(void)
{
	hk_world world = HK_CLOSED;
	hk_route route;
	struct daemon daemon;
	unsigned long call;
	bool came = true;
	for (call = 1; came; call++) {
		daemon = start(&world);
		refused = call;
		CHECK(kernel_write(&world, (const uint8_t[1]){0}, 1) == HK_EINVAL && refused == call);
		CHECK(want_route(&daemon, HK_ADDRESS(172, 16, 1, 0), HK_ADDRESS(10, 0, 0, 254)) == HK_OK);
		came = refused == 0;
		refused = 0;
		hear(&daemon);
		CHECK(daemon.confirmed == 1);
		CHECK(hk_packet(&world, HK_ADDRESS(172, 16, 1, 9), &route) == HK_OK && route.rank == 24);
		CHECK(hk_read(&world, "witness") == HK_OK && hk_fetch_size(&world) == END);
		hk_close(&world);
	}
	CHECK(call > 2);
}

int main(void)
{
	requests_are_answered();
	another_was_first();
	a_full_queue_loses();
	memory_runs_out();
	puts(wrong ? "the daemon's test fails" : "the daemon's test passes");
	return wrong != 0;
}
