/*
 * What a monitor of the routing table prints, as `route -n monitor` does on a BSD: an interface gets an address, and
 * then there is no route for a packet.
 *
 *     RTM_NEWADDR: length 80, version 3, index 1, metric 0
 *      flags 00000100<CLONING>
 *      addrs 000000b4<NETMASK,IFP,IFA,BRD>
 *      NETMASK 255.0.0.0 (/8)
 *      IFP link le0:080020010203 index 1 type 6 length 20
 *      IFA 10.0.0.1
 *      BRD 10.255.255.255
 *     RTM_ADD: length 116, version 3, pid 0, seq 0, index 1
 *      flags 00000101<UP,CLONING>
 *      addrs 00000007<DST,GATEWAY,NETMASK>
 *      DST 10.0.0.0
 *      GATEWAY 10.0.0.1
 *      NETMASK 255.0.0.0 (/8)
 *     RTM_MISS: length 92, version 3, pid 0, seq 0, index 0
 *      flags 00000040<DONE>
 *      addrs 00000001<DST>
 *      DST 20.0.0.1
 *
 * To build it: cc monitor.c $(pkg-config --cflags --libs hoiskend) -o monitor
 */
#include <hoiskend.h>
#include <stdio.h>

/* Prints a message in words; a text of more than 1,024 bytes is refused HK_ENOMEM. */
static uint32_t print_message(const uint8_t *message)
{
	uint8_t text[1024];
	size_t size;
	uint32_t code = hk_show(message, hk_message_length(message), text, sizeof text, &size);
	if (!code)
		fwrite(text, 1, size, stdout);
	return code;
}

/* Prints what the socket has heard since it was last read. */
static uint32_t print_heard(hk_world *world, const char *id)
{
	uint8_t heard[HK_QUEUE_BYTES];
	uint32_t code = hk_read(world, id);
	size_t n = code ? 0 : hk_fetch(world, heard, sizeof heard);
	for (size_t at = 0; !code && at < n; at += hk_message_length(heard + at))
		code = print_message(heard + at);
	return code;
}

static uint32_t run(hk_world *world)
{
	static const uint8_t link[] = {0x08, 0x00, 0x20, 0x01, 0x02, 0x03};
	hk_route route;
	uint32_t code = hk_open(world);
	if (!code)
		code = hk_attach(world, "le0", HK_BROADCAST, 6, link, sizeof link);
	if (!code)
		code = hk_listen(world, "monitor", 100, 0);
	if (!code)
		code = hk_add_address(world, "le0", HK_ADDRESS(10, 0, 0, 1), 8, true, false, 0);
	if (!code)
		code = print_heard(world, "monitor");
	if (!code && hk_packet(world, HK_ADDRESS(20, 0, 0, 1), &route) == HK_EHOSTUNREACH)
		code = print_heard(world, "monitor");
	return code;
}

int main(void)
{
	hk_world world = HK_CLOSED;
	uint32_t code = run(&world);
	hk_close(&world);
	if (code)
		fprintf(stderr, "monitor: %s\n", hk_strerror(code));
	return code != HK_OK;
}
