/* Each function of the header once, in C11 and in C++11; what each answers is printed. */
#include <hoiskend.h>
#include <hoiskend.h>
#include <stdio.h>

#define ANSWERS(call) printf("%s: %s\n", #call, hk_strerror(call))

int main(void)
{
	static const uint8_t link[] = {0x08, 0x00, 0x20, 0x01, 0x02, 0x03}, line[] = {'d', 'u', 'm', 'p', ' ', 'a', 's', 'k'};
	const uint32_t address = HK_ADDRESS(10, 0, 0, 1), host = HK_ADDRESS(10, 9, 9, 9);
	uint8_t out[HK_MESSAGE_BYTES] = {0};
	uint8_t text[512], there[HK_MOST_CONVERTED];
	uint64_t number = 0;
	size_t size = 0, at = 0, bytes;
	int last;
	uint32_t found = 0;
	uint16_t index = 0;
	uint8_t kind = 0;
	hk_route route;
	hk_header header;
	hk_sockaddr part;
	hk_request request;
	hk_interface interface;
	hk_ifaddr own;
	hk_socket opened;
	hk_entry entry;
	hk_world w = HK_CLOSED;
	ANSWERS(hk_losing(&w, host));
	ANSWERS(hk_open(&w));
	ANSWERS(hk_open(&w));
	ANSWERS(hk_attach(&w, "le0", HK_BROADCAST, 6, link, sizeof link));
	ANSWERS(hk_listen(&w, "a", 100, HK_AF_INET));
	ANSWERS(hk_loopback(&w, "a", true));
	ANSWERS(hk_add_address(&w, "le0", address, 8, true, false, 0));
	ANSWERS(hk_packet(&w, host, &route));
	printf("%d %d %d\n", route.rank == HK_HOST, route.family == HK_AF_INET, route.gateway == address);
	ANSWERS(hk_interface_of(&w, 1, &interface));
	ANSWERS(hk_interface_of(&w, 2, &interface));
	printf("%s with %d bytes\n", interface.name, interface.link_n);
	for (last = 0; hk_next_address(&w, interface.index, &at, &own) == HK_OK; last++)
		;
	printf("%d address, %d %d\n", last, own.address == address, own.far == HK_ADDRESS(10, 255, 255, 255));
	ANSWERS(hk_next_address(&w, 1, &at, &own));
	ANSWERS(hk_next_address(&w, 2, &at, &own));
	ANSWERS(hk_socket_at(&w, 0, &opened));
	ANSWERS(hk_socket_at(&w, 1, &opened));
	printf("%s hears %d, of process %d\n", opened.id, opened.protocol, (int)opened.pid);
	ANSWERS(hk_route_of(&w, HK_ADDRESS(10, 0, 0, 0), 8, &entry));
	ANSWERS(hk_route_of(&w, host, HK_HOST, &entry));
	printf("%d packet by %d\n", (int)entry.use_count, entry.route.rank);
	ANSWERS(hk_route_of(&w, host, 32, &entry));
	ANSWERS(hk_route_of(&w, host, 34, &entry));
	at = 0;
	ANSWERS(hk_dump_size(&w, false, 0, &number));
	printf("%d bytes\n", (int)number);
	ANSWERS(hk_dump(&w, false, 0, (uint32_t)number));
	bytes = hk_fetch(&w, out, sizeof out);
	printf("%d bytes\n", (int)bytes);
	ANSWERS(hk_show(out, hk_message_length(out), text, 1, &size));
	ANSWERS(hk_show(out, hk_message_length(out), text, sizeof text, &size));
	printf("%.*s", (int)size, (const char *)text);
	ANSWERS(hk_message_header(out, hk_message_length(out), &header));
	ANSWERS(hk_message_header(out, HK_HEADER_BYTES, &header));
	printf("kind %d, flags %d, interface %d\n", header.kind, (int)header.flags, header.index);
	ANSWERS(hk_message_address(out, hk_message_length(out), HK_RTA_DST, &part));
	printf("%d at %d\n", part.form == HK_FORM_INET && part.inet == HK_ADDRESS(10, 0, 0, 0) && part.family == HK_AF_INET, (int)part.at);
	ANSWERS(hk_message_address(out, hk_message_length(out), HK_RTA_NETMASK, &part));
	printf("a mask of %d bits in %d bytes\n", part.bits, part.n);
	ANSWERS(hk_message_address(out, hk_message_length(out), HK_RTA_BRD, &part));
	ANSWERS(hk_message_kind(out, hk_message_length(out), &kind));
	ANSWERS(hk_message_index(out, hk_message_length(out), &index));
	printf("%d %d\n", kind == header.kind, index == header.index);
	ANSWERS(hk_message_flags(out, hk_message_length(out), &found));
	printf("%d\n", found == header.flags);
	ANSWERS(hk_message_pid(out, hk_message_length(out), &found));
	ANSWERS(hk_message_seq(out, hk_message_length(out), &found));
	ANSWERS(hk_message_errno(out, hk_message_length(out), &found));
	ANSWERS(hk_message_use(out, hk_message_length(out), &found));
	ANSWERS(hk_message_inits(out, hk_message_length(out), &found));
	ANSWERS(hk_message_metric(out, hk_message_length(out), HK_RTV_MTU, &found));
	ANSWERS(hk_message_metric(out, hk_message_length(out), 3, &found));
	ANSWERS(hk_convert(HK_44BSD, HK_OPENBSD, out, hk_message_length(out), there, 1, &size));
	ANSWERS(hk_convert(HK_44BSD, HK_OPENBSD, out, hk_message_length(out), there, sizeof there, &size));
	printf("%d bytes, version %d\n", (int)size, there[2]);
	ANSWERS(hk_convert(HK_FREEBSD, HK_44BSD, there, size, out, sizeof out, &size));
	ANSWERS(hk_write_as(HK_OPENBSD, &w, "a", there, size));
	ANSWERS(hk_write_as(HK_FREEBSD, &w, "a", there, size));
	ANSWERS(hk_next_as(HK_OPENBSD, out, bytes, &at, there, sizeof there, &size));
	printf("%d behind the first, %d bytes\n", at == hk_message_length(out), (int)size);
	for (last = 1; hk_next_as(HK_OPENBSD, out, bytes, &at, there, sizeof there, &size) == HK_OK; last++)
		;
	printf("%d messages, %d at the end\n", last, at == bytes);
	ANSWERS(hk_next_as(HK_OPENBSD, out, bytes, &at, there, sizeof there, &size));
	at = 0;
	ANSWERS(hk_next_as(HK_OPENBSD, out, bytes, &at, there, 1, &size));
	ANSWERS(hk_next_as(HK_OPENBSD, out, 1, &at, there, sizeof there, &size));
	printf("%d at the first still\n", at == 0);
	ANSWERS(hk_redirect(&w, host, address, address));
	ANSWERS(hk_losing(&w, host));
	ANSWERS(hk_write(&w, "a", out, hk_message_length(out)));
	request = hk_request_of(HK_ADDRESS(30, 0, 0, 0), 8);
	request.family = HK_AF_INET;
	request.gateway = host;
	request.flags = 3;
	ANSWERS(hk_add_route(&w, "a", &request));
	ANSWERS(hk_add_route(&w, "a", &request));
	ANSWERS(hk_get_route(&w, "a", &request));
	ANSWERS(hk_change_route(&w, "a", &request));
	ANSWERS(hk_lock_route(&w, "a", &request));
	ANSWERS(hk_delete_route(&w, "a", &request));
	ANSWERS(hk_lost(&w, "a", &number));
	ANSWERS(hk_read(&w, "a"));
	printf("%d bytes\n", (int)hk_fetch_size(&w));
	ANSWERS(hk_line(&w, line, sizeof line));
	printf("%d bytes of text\n", (int)hk_text_size(&w));
	ANSWERS(hk_line(&w, line, 4));
	printf("%.*s", (int)hk_text(&w, out, sizeof out), (const char *)out);
	ANSWERS(hk_remove_address(&w, "le0", address));
	ANSWERS(hk_shut(&w, "a"));
	ANSWERS(hk_shut(&w, "a"));
	ANSWERS(hk_attach(&w, "a long name", HK_LOOPBACK, 24, link, 0));
	hk_close(&w);
	return w.core != NULL;
}
