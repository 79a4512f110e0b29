/*
 * HOW ROUTES PACKETS [LENGTH..]: adds so many routes, of networks of 16 addresses beside one another, and asks for so many
 * packets' routes. HOW says which these are: `known` packets to the networks, `default` away from them with a default route
 * and a route of each LENGTH elsewhere, `none` the same without a default route.
 */
#include <hoiskend.h>
#include <stdio.h>
#include <stdlib.h>

static void line(hk_world *world, const char *text)
{
	uint32_t code = hk_line(world, (const uint8_t *)text, strlen(text));
	if (code) {
		fprintf(stderr, "%s: %s\n", text, hk_strerror(code));
		exit(1);
	}
}

static void add(hk_world *world, uint32_t at, int length)
{
	char text[100];
	snprintf(text, sizeof text, "route a 1 add %d.%d.%d.%d/%d via 10.0.0.2 flags 803", (int)(at >> 24),
	         (int)(at >> 16 & 255), (int)(at >> 8 & 255), (int)(at & 255), length);
	line(world, text);
}

/* The network of this number, from 32.0.0.0 on. */
static uint32_t network(uint32_t number)
{
	return HK_ADDRESS(32, 0, 0, 0) + (number << 4);
}

/* Whether the packet of this number by chance has the route that it is to have. */
static int goes(hk_world *world, const char *how, uint32_t routes, uint32_t drawn)
{
	hk_route route;
	if (!strcmp(how, "known"))
		return !hk_packet(world, network(drawn % routes) + 9, &route) && route.rank == 28;
	if (!strcmp(how, "default"))
		return !hk_packet(world, HK_ADDRESS(93, 0, 0, 0) + drawn, &route) && route.rank == 0;
	return hk_packet(world, HK_ADDRESS(93, 0, 0, 0) + drawn, &route) == HK_EHOSTUNREACH;
}

int main(int words, char **word)
{
	const char *how = words > 1 ? word[1] : "known";
	uint32_t routes = words > 2 ? (uint32_t)atol(word[2]) : 1, packets = words > 3 ? (uint32_t)atol(word[3]) : 1;
	uint32_t drawn = 1;
	hk_world world = HK_CLOSED;
	if (hk_open(&world))
		return 1;
	line(&world, "if le0 broadcast 6 080020010203");
	line(&world, "addr le0 10.0.0.1/8");
	line(&world, "open a 100 any");
	line(&world, "loopback a off");
	if (!strcmp(how, "default"))
		add(&world, 0, 0);
	for (uint32_t i = 0; i < routes; i++)
		add(&world, network(i), 28);
	for (int i = 4; i < words; i++)
		add(&world, HK_ADDRESS(128, 0, 0, 0), atoi(word[i]));
	for (uint32_t i = 0; i < packets; i++) {
		drawn = drawn * 1664525 + 1013904223;
		if (!goes(&world, how, routes, drawn >> 8))
			return 1;
	}
	hk_close(&world);
	return 0;
}
