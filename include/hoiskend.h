/*
 * The routing core of 4.4BSD-Lite for IPv4, proved, for C and C++: worlds of interfaces, addresses, routes and routing
 * sockets, each of which does what docs/MODEL.md's machine does.
 *
 *     hk_world world = HK_CLOSED; hk_route route;
 *     if (!hk_open(&world) && !hk_attach(&world, "le0", HK_BROADCAST, 6, (const uint8_t *)"", 0)
 *         && !hk_add_address(&world, "le0", HK_ADDRESS(10, 0, 0, 1), 8, true, false, 0)
 *         && !hk_packet(&world, HK_ADDRESS(10, 9, 9, 9), &route))
 *         printf("out of interface %d\n", route.index);
 *     hk_close(&world);
 *
 * THE ANSWER of a call is 0 (HK_OK), or the errno by which the machine refuses the command: 4.4BSD's number, whatever
 * the host's <errno.h> has. Each call tells its errnos in the order in which they are looked for; the first that
 * holds is answered. Beyond those:
 *
 *   HK_EINVAL   The world is closed, or a parameter spells no command: a name or an id that isn't of 1 to 8 bytes, or
 *               what a call says besides. Nothing has changed then, not even the last answer.
 *   HK_ENOBUFS  There was no memory. The world is as it was and no socket has heard of it; made again, the call
 *               answers as it would have. Only the calls that name it can answer it, and it comes behind their other
 *               errnos where these don't say otherwise.
 *
 * NAMES, of interfaces, and IDS, of sockets, are bytes of any value; lines, and routesim, take `a` to `z` and `0` to
 * `9` alone. The functions whose names end in _n take them counted. Behind them stand inline functions without the _n,
 * which take them as C strings and are the same but for that; hk_write_as has this form alone.
 *
 * ADDRESSES are numbers, 10.0.0.1 being 0x0a000001, in the order of the host: no htonl. MESSAGES are the bytes of a
 * 32-bit machine that stores the highest byte first (docs/FORMATS.md).
 *
 * WHAT THE CALLER OWES, and nothing checks:
 *
 *   - A world begins as HK_CLOSED. From then on its field is the library's alone: nobody else writes it, and of two
 *     copies at most one is used.
 *   - A pointer to a struct or a number is to one; a pointer to bytes, with their number behind it, is to that many,
 *     fewer than 2^63. Those that are const stay as they are while the call runs, the others are the call's alone. No
 *     pointer is NULL, also where the number is 0. No two parameters of a call overlap, unless both are const.
 *   - A bool is 0 or 1.
 *   - A world is in one call at a time. It may go from thread to thread, where a lock or the like orders that. Two
 *     worlds share nothing, and may be in calls at the same time.
 *   - malloc, realloc and free are one allocator, which aligns a block of 16 bytes or more to 16. No call is made in a
 *     signal handler, nor in the forked child of a process with threads.
 *   - At each call the thread has HK_STACK_BYTES of its stack left, of which hk_convert takes the most.
 *   - The processor has what x86-64-v2 names, SSE4.1 and what came before it, as those since about 2009 do: the library
 *     takes it for granted.
 *
 * All else is proved, of the compiled library's source: no call reads or writes beyond what it was given, none hangs
 * or aborts, and each does what stands here. That nothing leaks is tested.
 */
#ifndef HOISKEND_H
#define HOISKEND_H

#include <stdbool.h>
#include <stddef.h>
#include <stdint.h>
#include <string.h>

#ifdef __cplusplus
extern "C" {
#endif

typedef struct hk_world {
	void *core;
} hk_world;

/* What a world begins as. */
#define HK_CLOSED { NULL }

/* The bytes of stack that each call is to find. */
#define HK_STACK_BYTES 16384

/* The number of an address. */
#define HK_ADDRESS(a, b, c, d) ((uint32_t)(a) << 24 | (uint32_t)(b) << 16 | (uint32_t)(c) << 8 | (uint32_t)(d))

/* The answers. */
enum {
	HK_OK = 0,
	HK_ESRCH = 3,
	HK_ENXIO = 6,
	HK_EBADF = 9,
	HK_ENOMEM = 12,
	HK_EEXIST = 17,
	HK_EINVAL = 22,
	HK_EMFILE = 24,
	HK_ENOSPC = 28,
	HK_EMSGSIZE = 40,
	HK_EPROTONOSUPPORT = 43,
	HK_EOPNOTSUPP = 45,
	HK_EADDRINUSE = 48,
	HK_EADDRNOTAVAIL = 49,
	HK_ENETUNREACH = 51,
	HK_ENOBUFS = 55,
	HK_ETOOMANYREFS = 59,
	HK_EHOSTUNREACH = 65,
	/* hk_line was given a line that the grammar doesn't have. */
	HK_BAD = 256,
	/* What is wrong with a message that has no counterpart, or that can't be taken apart: the first of these that holds. */
	HK_KIND = 257,
	HK_LENGTH = 258,
	HK_VERSION = 259,
	HK_OVERRUN = 260,
	HK_WIDE = 261,
	/* hk_message_address was asked for an address that isn't there. */
	HK_ABSENT = 262
};

/* The text of an answer, and of any number. */
static inline const char *hk_strerror(uint32_t code)
{
	switch (code) {
	case HK_OK: return "Done";
	case HK_ESRCH: return "No such route";
	case HK_ENXIO: return "No such interface";
	case HK_EBADF: return "No such socket";
	case HK_ENOMEM: return "The buffer is too small";
	case HK_EEXIST: return "It is there already";
	case HK_EINVAL: return "A malformed request";
	case HK_EMFILE: return "Too many sockets";
	case HK_ENOSPC: return "Too many interfaces or addresses";
	case HK_EMSGSIZE: return "A message that is too long";
	case HK_EPROTONOSUPPORT: return "A message of another version";
	case HK_EOPNOTSUPP: return "A message of another type";
	case HK_EADDRINUSE: return "The address is in use";
	case HK_EADDRNOTAVAIL: return "No such address on the interface";
	case HK_ENETUNREACH: return "The gateway can't be reached";
	case HK_ENOBUFS: return "No memory";
	case HK_ETOOMANYREFS: return "No route with that mask";
	case HK_EHOSTUNREACH: return "No route to the host";
	case HK_BAD: return "A line that is no command";
	case HK_KIND: return "The type has no counterpart";
	case HK_LENGTH: return "The length is wrong";
	case HK_VERSION: return "The version is another";
	case HK_OVERRUN: return "An address passes the end";
	case HK_WIDE: return "A number or an address is too wide";
	case HK_ABSENT: return "The address isn't there";
	default: return "No answer of Hoiskend";
	}
}

/* ---- worlds ---- */

/* Opens an empty world. HK_EEXIST: it is open, and stays as it is. HK_ENOBUFS: it stays closed. */
uint32_t hk_open(hk_world *world);

/* Frees all that the world has, and closes it. A closed one stays closed. */
void hk_close(hk_world *world);

/* ---- interfaces and their addresses ---- */

/* The kinds of interfaces. */
enum { HK_BROADCAST = 0, HK_LOOPBACK = 1, HK_POINTOPOINT = 2 };

/*
 * Attaches an interface of this name and kind. `type_number` is that of <net/if_types.h>, 6 that of Ethernet; `link`
 * its link-layer address. Interfaces are numbered from 1.
 *
 * HK_EINVAL: more than 8 bytes in `link`, or another kind than those three. HK_EEXIST: there is one of this name.
 * HK_ENOSPC: there are 64. HK_ENOBUFS.
 */
uint32_t hk_attach_n(hk_world *world, const uint8_t *name, size_t name_n, uint8_t kind, uint8_t type_number,
                     const uint8_t *link, size_t link_n);

/*
 * Gives an interface an address with a mask of `prefix` bits, adds the route that comes with it, which clones where
 * `cloning`, and tells the sockets of both. `far` is the address of the other end where `has_far`, and nothing else.
 *
 * HK_EINVAL: a prefix of more than 32. HK_ENXIO: no such interface. HK_EINVAL: another end on an interface that isn't
 * HK_POINTOPOINT, or none on one that is. HK_EADDRINUSE: an interface has this address. HK_ENOSPC: 65,535 addresses
 * were added since the world began, those that were removed or are kept without a route among them. HK_ENOBUFS.
 * HK_EEXIST: there is that route already; the address is kept without it.
 */
uint32_t hk_add_address_n(hk_world *world, const uint8_t *name, size_t name_n, uint32_t address, uint8_t prefix,
                          bool cloning, bool has_far, uint32_t far);

/*
 * Removes an address, and the route that came with it, and tells the sockets of both; docs/FORMATS.md (`unaddr`) says
 * when the route stays, and nothing is told. Up to 100 bytes of memory or so stay taken for it until hk_close.
 *
 * HK_ENXIO: no such interface. HK_EADDRNOTAVAIL: it doesn't have this address.
 */
uint32_t hk_remove_address_n(hk_world *world, const uint8_t *name, size_t name_n, uint32_t address);

/* ---- routing sockets ---- */

/*
 * Opens a routing socket of this process, which hears the messages of all families where `protocol` is 0, and else
 * those of this family alone, as HK_AF_INET.
 *
 * HK_EEXIST: there is one with this id. HK_EMFILE: there are 64. HK_ENOBUFS.
 */
uint32_t hk_listen_n(hk_world *world, const uint8_t *id, size_t id_n, uint32_t pid, uint8_t protocol);

/* Closes a socket; what it has heard goes with it. HK_EBADF: no such socket. */
uint32_t hk_shut_n(hk_world *world, const uint8_t *id, size_t id_n);

/* Whether the socket hears the replies to its own writes, which it does at first. HK_EBADF: no such socket. */
uint32_t hk_loopback_n(hk_world *world, const uint8_t *id, size_t id_n, bool on);

/* The most bytes of a message that is written, and the most that a write may offer. */
enum { HK_MESSAGE_BYTES = 8192, HK_WRITE_BYTES = 8246 };

/*
 * Writes a message to a socket: a request to add, delete, change, lock or show a route. What was done, and what was
 * refused, is told to the sockets that hear its family; but nobody hears of a write to no socket, of too many bytes, or
 * of no whole header or another length than that says.
 *
 * HK_EINVAL: more than HK_WRITE_BYTES. HK_EBADF: no such socket. HK_EMSGSIZE: more than HK_MESSAGE_BYTES. HK_EINVAL: no
 * whole header, or it says another length. HK_EPROTONOSUPPORT: another version than 3. HK_EINVAL: an address of the
 * message overruns it, the destination is not there, or an address is malformed. HK_EOPNOTSUPP: a type that asks for
 * nothing. HK_EINVAL: RTM_ADD without a gateway. HK_ESRCH: a destination that is no IPv4 address. Then, of RTM_ADD,
 * HK_ENETUNREACH (no interface leads to the gateway), HK_EEXIST (the route is there) and HK_ENOBUFS; of RTM_DELETE and
 * RTM_GET, HK_ESRCH (there is no such route); of RTM_CHANGE and RTM_LOCK, HK_ESRCH (the destination has no route of its
 * own) and HK_ETOOMANYREFS (none of these has the mask), and of RTM_CHANGE HK_ENOBUFS.
 */
uint32_t hk_write_n(hk_world *world, const uint8_t *id, size_t id_n, const uint8_t *message, size_t n);

/* Takes all the messages that the socket has heard, for hk_fetch. HK_EBADF: no such socket. */
uint32_t hk_read_n(hk_world *world, const uint8_t *id, size_t id_n);

/*
 * Puts into `lost` how many messages the socket has lost since it was opened: a message that doesn't fit into the 8,192
 * bytes of its queue is lost to it alone. HK_EBADF: no such socket; `lost` stays.
 */
uint32_t hk_lost_n(hk_world *world, const uint8_t *id, size_t id_n, uint64_t *lost);

/* ---- packets, redirects, routes that seem dead ---- */

/* The families of gateways, and the rank of a host's route, which has no mask. */
enum { HK_AF_INET = 2, HK_AF_LINK = 18, HK_HOST = 33 };

/* The most bytes of a gateway that is a link-layer address, as a sockaddr_dl. */
#define HK_LINK_BYTES 32

typedef struct hk_route {
	uint32_t key;                /* its destination */
	uint32_t gateway;            /* its gateway's address, or 0 where that is no IPv4 address */
	uint16_t index;              /* the number of the interface that it leaves by */
	uint16_t flags;              /* HK_RTF_.. */
	uint8_t rank;                /* the bits of its mask, or HK_HOST */
	uint8_t family;              /* of its gateway: HK_AF_INET or HK_AF_LINK */
	bool drops;                  /* the packet is dropped without an error: RTF_BLACKHOLE */
	uint8_t link_n;              /* how many bytes its gateway has in `link`: 0 where it is an IPv4 address */
	uint8_t link[HK_LINK_BYTES]; /* its gateway's sockaddr_dl, and zeros behind it */
} hk_route;

/*
 * The fast path: the route that a packet to this address takes, with its use counted. A route that clones first makes
 * one for the address; where the place of that one is taken, the packet takes the route that clones, and the sockets
 * hear RTM_MISS with errno 17. Where the route is known, that is the look-up and nothing else: no text, no allocation.
 *
 * HK_EHOSTUNREACH: there is no route; the sockets hear RTM_MISS. HK_ENOBUFS: the route clones, and there is no memory.
 * HK_ENETUNREACH, HK_EHOSTUNREACH: the route refuses packets (RTF_REJECT), as a network's or as a host's. Where the
 * answer isn't HK_OK, `route` stays.
 */
uint32_t hk_packet(hk_world *world, uint32_t destination, hk_route *route);

/*
 * Follows an ICMP redirect that `author` sent: `destination` is to be reached by `gateway`. Where its route has
 * RTF_GATEWAY and RTF_HOST it gets the new gateway; else a host's route over that is added. The sockets hear of it,
 * also where it is refused, but for want of memory.
 *
 * HK_ENETUNREACH: the gateway is in no interface's network. HK_EINVAL: `author` isn't the gateway of the destination's
 * route, or the new gateway is reached from another interface address than that. HK_EHOSTUNREACH: the new gateway is
 * an address of an interface, or the broadcast address of one, or the route has no RTF_GATEWAY and isn't the default
 * one. HK_EEXIST: a host's route is to be added and there is one, without RTF_HOST, as a write that names no mask makes
 * it. HK_ENOBUFS may come in place of any of these.
 */
uint32_t hk_redirect(hk_world *world, uint32_t destination, uint32_t gateway, uint32_t author);

/*
 * Gives up the route of an address, as TCP does when nothing comes back: the sockets hear RTM_LOSING, and a route with
 * RTF_DYNAMIC, which a redirect or a write gave it, is removed. HK_EHOSTUNREACH: there is no route.
 */
uint32_t hk_losing(hk_world *world, uint32_t address);

/* ---- requests for routes ---- */

/* What is asked of a route. hk_request_of begins one, and its fields are set then. */
typedef struct hk_request {
	uint32_t destination;        /* its key */
	uint32_t gateway;            /* its gateway's address, where `family` is HK_AF_INET */
	uint32_t flags;              /* HK_RTF_.. */
	uint32_t seq;                /* the number by which the writer knows the reply */
	uint32_t inits;              /* the metrics that are set, HK_RTV_..; no other is looked at */
	uint32_t locks;              /* the metrics that are locked, HK_RTV_.. */
	uint32_t mtu;
	uint32_t hopcount;
	uint32_t expire;
	uint32_t recvpipe;
	uint32_t sendpipe;
	uint32_t ssthresh;
	uint32_t rtt;
	uint32_t rttvar;
	uint8_t prefix;              /* the bits of its mask, or HK_HOST where none is named */
	uint8_t genmask;             /* the bits of the mask of its clones, or HK_HOST where none is named */
	uint8_t family;              /* of its gateway: HK_AF_INET or HK_AF_LINK, or 0 where none is named */
	uint8_t link_n;              /* how many bytes its gateway has in `link`, where `family` is HK_AF_LINK */
	uint8_t link[HK_LINK_BYTES]; /* its gateway's sockaddr_dl */
} hk_request;

/* A request about a destination and the bits of its mask, which says nothing else. */
static inline hk_request hk_request_of(uint32_t destination, uint8_t prefix)
{
	hk_request request;

	memset(&request, 0, sizeof request);
	request.destination = destination;
	request.prefix = prefix;
	request.genmask = HK_HOST;
	return request;
}

/*
 * Each writes to a socket the message that a `route` line with these words would (docs/FORMATS.md), and answers as
 * hk_write_n of that message does.
 *
 * HK_EINVAL: more than 32 bits of a mask but HK_HOST, another family, or a link-layer address that isn't of 8 to 32
 * bytes with their number and HK_AF_LINK before all others. Then what hk_write_n says.
 */
uint32_t hk_add_route_n(hk_world *world, const uint8_t *id, size_t id_n, const hk_request *request);
uint32_t hk_delete_route_n(hk_world *world, const uint8_t *id, size_t id_n, const hk_request *request);
uint32_t hk_change_route_n(hk_world *world, const uint8_t *id, size_t id_n, const hk_request *request);
uint32_t hk_get_route_n(hk_world *world, const uint8_t *id, size_t id_n, const hk_request *request);
uint32_t hk_lock_route_n(hk_world *world, const uint8_t *id, size_t id_n, const hk_request *request);

/* ---- dumps: of all routes, or where has_filter of those that have a flag of the filter ---- */

/* Puts into `size` how many bytes to ask for: those of the dump and a tenth more. No open world refuses it. */
uint32_t hk_dump_size(hk_world *world, bool has_filter, uint32_t filter, uint64_t *size);

/*
 * Dumps the routes, in the order of the table, as many whole messages as fit into `room` bytes, for hk_fetch.
 *
 * HK_ENOBUFS. HK_ENOMEM: they don't all fit; those that do are there for hk_fetch.
 */
uint32_t hk_dump(hk_world *world, bool has_filter, uint32_t filter, uint32_t room);

/* ---- what is there: these calls change nothing, not even the last answer, and want no memory ---- */

/* The room for a name or an id, which a zero ends, and the most bytes of an interface's link-layer address. */
#define HK_NAME_BYTES 9
#define HK_LINK_ADDRESS_BYTES 8

typedef struct hk_interface {
	uint16_t index;                      /* its number */
	uint8_t kind;                        /* HK_BROADCAST, HK_LOOPBACK or HK_POINTOPOINT */
	uint8_t type_number;                 /* of <net/if_types.h> */
	uint8_t name_n;                      /* how many bytes its name has */
	uint8_t link_n;                      /* how many bytes its link-layer address has */
	char name[HK_NAME_BYTES];            /* its name, and zeros behind it */
	uint8_t link[HK_LINK_ADDRESS_BYTES]; /* its link-layer address, and zeros behind it */
} hk_interface;

/*
 * Puts the interface with this number into `interface`; they are numbered from 1, without a gap. HK_ENXIO: there are
 * fewer; `interface` stays.
 */
uint32_t hk_interface_of(hk_world *world, uint16_t index, hk_interface *interface);

typedef struct hk_ifaddr {
	uint32_t address; /* the address itself */
	uint32_t far;     /* the broadcast address, the address itself (HK_LOOPBACK), the other end (HK_POINTOPOINT) */
	uint8_t prefix;   /* the bits of its mask */
	bool cloning;     /* the route that came with it clones */
	bool routed;      /* that route was added */
} hk_ifaddr;

/*
 * Puts the first address of an interface, from `place` on, into `address`, and the place behind it into `place`; so a
 * loop that begins with 0 goes through all that were not removed, in the order in which they were added:
 *
 *     for (place = 0; !hk_next_address(&world, index, &place, &address);)
 *
 * HK_ENXIO: no such interface. HK_EADDRNOTAVAIL: it has no address from there on. `place` and `address` stay.
 */
uint32_t hk_next_address(hk_world *world, uint16_t index, size_t *place, hk_ifaddr *address);

typedef struct hk_socket {
	uint64_t lost;          /* how many messages it has lost since it was opened */
	size_t waiting;         /* how many bytes the messages have that wait for it */
	uint32_t pid;           /* the process that opened it */
	uint8_t protocol;       /* the family that it hears, or 0 for all */
	bool loopback;          /* it hears the replies to its own writes */
	uint8_t id_n;           /* how many bytes its id has */
	char id[HK_NAME_BYTES]; /* its id, and zeros behind it */
} hk_socket;

/*
 * Puts the open socket at this place into `socket`; the places are from 0, without a gap, in the order in which they
 * were opened. HK_EBADF: there are fewer; `socket` stays.
 */
uint32_t hk_socket_at(hk_world *world, size_t place, hk_socket *socket);

typedef struct hk_entry {
	hk_route route;     /* as hk_packet tells it */
	uint32_t use_count; /* how many packets took it; it wraps */
	uint32_t locks;     /* the metrics that are locked, HK_RTV_.. */
	uint32_t mtu;
	uint32_t hopcount;
	uint32_t expire;
	uint32_t recvpipe;
	uint32_t sendpipe;
	uint32_t ssthresh;
	uint32_t rtt;
	uint32_t rttvar;
	uint32_t pksent;
	uint8_t genmask;    /* the bits of the mask of its clones, or HK_HOST where it has none */
} hk_entry;

/*
 * Puts the route of the table with this key and rank, the bits of its mask or HK_HOST, into `entry`; no use is counted.
 * HK_EINVAL: another rank than 0 to 33. HK_ESRCH: there is no such route. `entry` stays.
 */
uint32_t hk_route_of(hk_world *world, uint32_t key, uint8_t rank, hk_entry *entry);

/* ---- lines ---- */

/*
 * Does what a line of a script says (docs/FORMATS.md has the grammar), without its newline, and answers as the call of
 * that command would. An empty line and a comment are answered HK_OK, and their text is empty. HK_BAD: the grammar has
 * no such line; the world stays, and the text is `bad`. So hk_line and hk_text are a whole routesim.
 */
uint32_t hk_line(hk_world *world, const uint8_t *line, size_t n);

/* ---- what the last answer brought ---- */

/*
 * The messages of the last answer, one after another, each of which begins with its length (hk_message_length): answers
 * how many bytes they have, and copies them to the front of `out` where they all fit into its n bytes. The rest of
 * `out` stays, and so do the messages, until there is another answer. Of an answer without messages, and of a closed
 * world, 0.
 */
size_t hk_fetch(hk_world *world, uint8_t *out, size_t n);

/*
 * The text of the last answer, as hk_fetch gives messages: exactly the lines that routesim writes, each ended by a
 * newline. The last answer is that of the last command or line that the world was given. A call that is refused for its
 * parameters gives it none; neither do hk_fetch, hk_text, and an hk_open of an open world.
 */
size_t hk_text(hk_world *world, uint8_t *out, size_t n);

/* The length of a message, which its first two bytes say. */
static inline size_t hk_message_length(const uint8_t *message)
{
	return (size_t)message[0] << 8 | message[1];
}

/* How many bytes hk_fetch and hk_text have to give. */
static inline size_t hk_fetch_size(hk_world *world)
{
	uint8_t none;
	return hk_fetch(world, &none, 0);
}

static inline size_t hk_text_size(hk_world *world)
{
	uint8_t none;
	return hk_text(world, &none, 0);
}

/* ---- the numbers of messages, which <net/route.h> of 4.4BSD names without HK_ ---- */

/* The version, and the types. */
enum {
	HK_RTM_VERSION = 3,
	HK_RTM_ADD = 1,
	HK_RTM_DELETE = 2,
	HK_RTM_CHANGE = 3,
	HK_RTM_GET = 4,
	HK_RTM_LOSING = 5,
	HK_RTM_REDIRECT = 6,
	HK_RTM_MISS = 7,
	HK_RTM_LOCK = 8,
	HK_RTM_OLDADD = 9,
	HK_RTM_OLDDEL = 10,
	HK_RTM_RESOLVE = 11,
	HK_RTM_NEWADDR = 12,
	HK_RTM_DELADDR = 13,
	HK_RTM_IFINFO = 14
};

/* Which addresses stand behind the header, in this order: the bits of addrs. */
enum {
	HK_RTA_DST = 0x1,
	HK_RTA_GATEWAY = 0x2,
	HK_RTA_NETMASK = 0x4,
	HK_RTA_GENMASK = 0x8,
	HK_RTA_IFP = 0x10,
	HK_RTA_IFA = 0x20,
	HK_RTA_AUTHOR = 0x40,
	HK_RTA_BRD = 0x80
};

/* The flags of a route; of an interface's address HK_IFA_ROUTE and HK_RTF_CLONING. */
enum {
	HK_RTF_UP = 0x1,
	HK_RTF_GATEWAY = 0x2,
	HK_RTF_HOST = 0x4,
	HK_RTF_REJECT = 0x8,
	HK_RTF_DYNAMIC = 0x10,
	HK_RTF_MODIFIED = 0x20,
	HK_RTF_DONE = 0x40,
	HK_RTF_MASK = 0x80,
	HK_RTF_CLONING = 0x100,
	HK_RTF_XRESOLVE = 0x200,
	HK_RTF_LLINFO = 0x400,
	HK_RTF_STATIC = 0x800,
	HK_RTF_BLACKHOLE = 0x1000,
	HK_RTF_PROTO2 = 0x4000,
	HK_RTF_PROTO1 = 0x8000,
	HK_IFA_ROUTE = 0x1
};

/* The metrics that a message sets, and those that are locked: the bits of inits and of locks. */
enum {
	HK_RTV_MTU = 0x1,
	HK_RTV_HOPCOUNT = 0x2,
	HK_RTV_EXPIRE = 0x4,
	HK_RTV_RPIPE = 0x8,
	HK_RTV_SPIPE = 0x10,
	HK_RTV_SSTHRESH = 0x20,
	HK_RTV_RTT = 0x40,
	HK_RTV_RTTVAR = 0x80
};

/* Where the fields of a header begin, how many bytes each has, the highest first, and where the header ends: of an
 * rt_msghdr, */
enum {
	HK_AT_LENGTH = 0,    /* 2, of the whole message */
	HK_AT_VERSION = 2,   /* 1 */
	HK_AT_KIND = 3,      /* 1, the type */
	HK_AT_INDEX = 4,     /* 2 */
	HK_AT_PADDING = 6,   /* 2 */
	HK_AT_FLAGS = 8,     /* 4 */
	HK_AT_ADDRS = 12,    /* 4 */
	HK_AT_PID = 16,      /* 4 */
	HK_AT_SEQ = 20,      /* 4 */
	HK_AT_ERRNO = 24,    /* 4 */
	HK_AT_USE = 28,      /* 4 */
	HK_AT_INITS = 32,    /* 4 */
	HK_AT_LOCKS = 36,    /* 4, the first of the ten metrics */
	HK_AT_MTU = 40,      /* 4 */
	HK_AT_HOPCOUNT = 44, /* 4 */
	HK_AT_EXPIRE = 48,   /* 4 */
	HK_AT_RECVPIPE = 52, /* 4 */
	HK_AT_SENDPIPE = 56, /* 4 */
	HK_AT_SSTHRESH = 60, /* 4 */
	HK_AT_RTT = 64,      /* 4 */
	HK_AT_RTTVAR = 68,   /* 4 */
	HK_AT_PKSENT = 72,   /* 4 */
	HK_HEADER_BYTES = 76
};

/* and of an ifa_msghdr, which HK_RTM_NEWADDR and HK_RTM_DELADDR have, with the same three in front. */
enum {
	HK_IFA_AT_ADDRS = 4,    /* 4 */
	HK_IFA_AT_FLAGS = 8,    /* 4 */
	HK_IFA_AT_INDEX = 12,   /* 2 */
	HK_IFA_AT_PADDING = 14, /* 2 */
	HK_IFA_AT_METRIC = 16,  /* 4 */
	HK_IFA_HEADER_BYTES = 20
};

/* The bytes of an IPv4 address in a message, the most of a mask as the machine makes one, and of a socket's queue. */
enum { HK_INET_BYTES = 16, HK_MASK_BYTES = 8, HK_QUEUE_BYTES = 8192 };

/* ---- messages in words ---- */

/*
 * Shows a message as people read one: the fields of its header by their names, and each address on a line of its own
 * (docs/FORMATS.md, `A message in words`). The reply to a GET is
 *
 *     RTM_GET: length 116, version 3, pid 100, seq 1, index 0
 *      flags 00000141<UP,DONE,CLONING>
 *      addrs 00000007<DST,GATEWAY,NETMASK>
 *      DST 10.0.0.0
 *      GATEWAY 10.0.0.1
 *      NETMASK 255.0.0.0 (/8)
 *
 * Puts into `size` how many bytes the text has, and copies it to the front of `out` where all of it fits into the n
 * bytes; the rest of `out` stays. The text is lines of ASCII, each ended by a newline, with no 0 behind them. Any bytes
 * have one: that of bytes which are no message shows them in hexadecimal, and says why.
 *
 * This is no command. It has no world: none is looked at, none changes, and none has to be open. Threads may call it at
 * the same time.
 *
 * HK_ENOBUFS: `size` and `out` stay. HK_ENOMEM: the text doesn't fit; `size` says how many bytes it has, and `out`
 * stays. So an n of 0 asks for the size alone.
 */
uint32_t hk_show(const uint8_t *message, size_t message_n, uint8_t *out, size_t n, size_t *size);

/* ---- a message taken apart ---- */

/* The fields of a message's header. Those that it hasn't are 0: HK_RTM_NEWADDR and HK_RTM_DELADDR have no pid, seq, error,
 * use_count, inits and metrics, and the others no metric. */
typedef struct hk_header {
	uint32_t flags;     /* HK_RTF_.. of its route, or those of its interface's address */
	uint32_t addrs;     /* which addresses it names, HK_RTA_.. */
	uint32_t pid;       /* the process that wrote it */
	uint32_t seq;       /* the number by which its writer knows it */
	uint32_t error;     /* the errno by which it was refused, or 0 */
	uint32_t use_count; /* how often its route was used */
	uint32_t inits;     /* the metrics that it sets, HK_RTV_.. */
	uint32_t locks;     /* the metrics that are locked, HK_RTV_.. */
	uint32_t mtu;
	uint32_t hopcount;
	uint32_t expire;
	uint32_t recvpipe;
	uint32_t sendpipe;
	uint32_t ssthresh;
	uint32_t rtt;
	uint32_t rttvar;
	uint32_t pksent;
	uint32_t metric;    /* of its interface's address */
	uint16_t index;     /* the number of its interface */
	uint8_t kind;       /* its type, HK_RTM_.. */
} hk_header;

/*
 * Puts the fields of a message's header into `header`. This, as all that follows here, is no command: it has no world,
 * wants no memory, and threads may call it at the same time.
 *
 * HK_LENGTH: fewer bytes than the header of its type has, or another length than it says; `header` stays. HK_VERSION:
 * another version than 3. HK_OVERRUN: an address passes the end. In these two `header` has the fields all the same, since
 * a socket also hears what was refused.
 */
uint32_t hk_message_header(const uint8_t *message, size_t n, hk_header *header);

/* What an address is read as: none of the others, an IPv4 address, a mask, a link-layer address. */
enum { HK_FORM_BYTES = 0, HK_FORM_INET = 1, HK_FORM_MASK = 2, HK_FORM_LINK = 3 };

/* An address as it stands in a message. */
typedef struct hk_sockaddr {
	size_t at;       /* where its bytes begin in the message */
	uint32_t inet;   /* its number where it is an IPv4 address, or else 0 */
	uint8_t n;       /* how many bytes it has, without padding; at least 1 */
	uint8_t form;    /* HK_FORM_.. */
	uint8_t bits;    /* how many bits it has where it is a mask, or else 0 */
	uint8_t family;  /* HK_AF_.., or 0 where it has none, as a mask */
} hk_sockaddr;

/*
 * Puts the address of this bit, HK_RTA_.., into `address`. HK_RTA_NETMASK and HK_RTA_GENMASK are read as a mask where
 * they are one; each address is else an IPv4 address of 8 to 16 bytes, a link-layer address of 8 to 32, or bytes.
 *
 * HK_LENGTH, HK_VERSION, HK_OVERRUN: as of hk_message_header. HK_ABSENT: no address of this bit is named, or the message
 * ends before it; or there is no such bit. In all these `address` stays.
 */
uint32_t hk_message_address(const uint8_t *message, size_t n, uint32_t bit, hk_sockaddr *address);

/* ---- messages in the layouts of systems of today ---- */

/* The systems: 4.4BSD as it is here, FreeBSD, OpenBSD, NetBSD up to 7 and macOS, these on 64-bit machines that keep the
 * lowest byte first. */
enum { HK_44BSD = 0, HK_FREEBSD = 1, HK_OPENBSD = 2, HK_NETBSD = 3, HK_MACOS = 4 };

/* The most bytes of a message that was made so. */
#define HK_MOST_CONVERTED 2304

/*
 * Gives a message of one system in the layout of another (docs/FORMATS.md, `The layouts of systems of today`). Puts into
 * `size` how many bytes it has there, and copies it to the front of `out` where all of it fits into the n bytes; the rest
 * of `out` stays. What has no place in the other layout is left out.
 *
 * This is no command. It has no world, wants no memory, and threads may call it at the same time.
 *
 * HK_EINVAL: a number is no system's. HK_KIND, HK_LENGTH, HK_VERSION, HK_OVERRUN, HK_WIDE: the message has no counterpart.
 * In all these `size` and `out` stay. HK_ENOMEM: it doesn't fit; `size` says how many bytes it has, and `out` stays.
 */
uint32_t hk_convert(uint32_t from, uint32_t to, const uint8_t *message, size_t message_n, uint8_t *out, size_t n,
                    size_t *size);

/* ---- one field of a header: each answers as hk_message_header, and where that leaves `header`, the number stays ---- */

static inline uint32_t hk_message_kind(const uint8_t *message, size_t n, uint8_t *kind)
{
	hk_header header;
	uint32_t code = hk_message_header(message, n, &header);

	if (code != HK_LENGTH)
		*kind = header.kind;
	return code;
}

static inline uint32_t hk_message_flags(const uint8_t *message, size_t n, uint32_t *flags)
{
	hk_header header;
	uint32_t code = hk_message_header(message, n, &header);

	if (code != HK_LENGTH)
		*flags = header.flags;
	return code;
}

static inline uint32_t hk_message_index(const uint8_t *message, size_t n, uint16_t *index)
{
	hk_header header;
	uint32_t code = hk_message_header(message, n, &header);

	if (code != HK_LENGTH)
		*index = header.index;
	return code;
}

static inline uint32_t hk_message_pid(const uint8_t *message, size_t n, uint32_t *pid)
{
	hk_header header;
	uint32_t code = hk_message_header(message, n, &header);

	if (code != HK_LENGTH)
		*pid = header.pid;
	return code;
}

static inline uint32_t hk_message_seq(const uint8_t *message, size_t n, uint32_t *seq)
{
	hk_header header;
	uint32_t code = hk_message_header(message, n, &header);

	if (code != HK_LENGTH)
		*seq = header.seq;
	return code;
}

static inline uint32_t hk_message_errno(const uint8_t *message, size_t n, uint32_t *error)
{
	hk_header header;
	uint32_t code = hk_message_header(message, n, &header);

	if (code != HK_LENGTH)
		*error = header.error;
	return code;
}

static inline uint32_t hk_message_use(const uint8_t *message, size_t n, uint32_t *use_count)
{
	hk_header header;
	uint32_t code = hk_message_header(message, n, &header);

	if (code != HK_LENGTH)
		*use_count = header.use_count;
	return code;
}

static inline uint32_t hk_message_inits(const uint8_t *message, size_t n, uint32_t *inits)
{
	hk_header header;
	uint32_t code = hk_message_header(message, n, &header);

	if (code != HK_LENGTH)
		*inits = header.inits;
	return code;
}

/* A metric, by its bit HK_RTV_... HK_EINVAL: it is no such bit. */
static inline uint32_t hk_message_metric(const uint8_t *message, size_t n, uint32_t bit, uint32_t *metric)
{
	hk_header header;
	uint32_t code = hk_message_header(message, n, &header);

	if (code == HK_LENGTH)
		return code;
	switch (bit) {
	case HK_RTV_MTU: *metric = header.mtu; return code;
	case HK_RTV_HOPCOUNT: *metric = header.hopcount; return code;
	case HK_RTV_EXPIRE: *metric = header.expire; return code;
	case HK_RTV_RPIPE: *metric = header.recvpipe; return code;
	case HK_RTV_SPIPE: *metric = header.sendpipe; return code;
	case HK_RTV_SSTHRESH: *metric = header.ssthresh; return code;
	case HK_RTV_RTT: *metric = header.rtt; return code;
	case HK_RTV_RTTVAR: *metric = header.rttvar; return code;
	default: return HK_EINVAL;
	}
}

/* ---- the same with names and ids as C strings ---- */

static inline uint32_t hk_attach(hk_world *world, const char *name, uint8_t kind, uint8_t type_number,
                                 const uint8_t *link, size_t link_n)
{
	return hk_attach_n(world, (const uint8_t *)name, strlen(name), kind, type_number, link, link_n);
}

static inline uint32_t hk_add_address(hk_world *world, const char *name, uint32_t address, uint8_t prefix, bool cloning,
                                      bool has_far, uint32_t far)
{
	return hk_add_address_n(world, (const uint8_t *)name, strlen(name), address, prefix, cloning, has_far, far);
}

static inline uint32_t hk_remove_address(hk_world *world, const char *name, uint32_t address)
{
	return hk_remove_address_n(world, (const uint8_t *)name, strlen(name), address);
}

static inline uint32_t hk_listen(hk_world *world, const char *id, uint32_t pid, uint8_t protocol)
{
	return hk_listen_n(world, (const uint8_t *)id, strlen(id), pid, protocol);
}

static inline uint32_t hk_shut(hk_world *world, const char *id)
{
	return hk_shut_n(world, (const uint8_t *)id, strlen(id));
}

static inline uint32_t hk_loopback(hk_world *world, const char *id, bool on)
{
	return hk_loopback_n(world, (const uint8_t *)id, strlen(id), on);
}

static inline uint32_t hk_write(hk_world *world, const char *id, const uint8_t *message, size_t n)
{
	return hk_write_n(world, (const uint8_t *)id, strlen(id), message, n);
}

/*
 * Writes a message of another system. One that has no counterpart is refused at once, and heard by nobody:
 * HK_EPROTONOSUPPORT for HK_VERSION, and else HK_EINVAL.
 */
static inline uint32_t hk_write_as(uint32_t system, hk_world *world, const char *id, const uint8_t *message, size_t n)
{
	uint8_t own[HK_MOST_CONVERTED];
	size_t size = 0;
	uint32_t code = hk_convert(system, HK_44BSD, message, n, own, sizeof own, &size);

	if (code == HK_OK)
		return hk_write(world, id, own, size);
	return code == HK_VERSION ? HK_EPROTONOSUPPORT : HK_EINVAL;
}

/*
 * Of the n bytes of messages that hk_fetch gave, the one at `at` in the layout of a system, as hk_convert puts it into
 * `out`; then `at` is behind it. Where that answers otherwise than HK_OK `at` stays, and so says which message it is.
 * HK_EINVAL, too: no whole message is there, as at the end.
 */
static inline uint32_t hk_next_as(uint32_t system, const uint8_t *messages, size_t n, size_t *at, uint8_t *out, size_t room, size_t *size)
{
	size_t left = *at < n ? n - *at : 0;
	size_t length = left < 2 ? 0 : hk_message_length(messages + *at);
	uint32_t code;

	if (length == 0 || length > left)
		return HK_EINVAL;
	code = hk_convert(HK_44BSD, system, messages + *at, length, out, room, size);
	if (code == HK_OK)
		*at += length;
	return code;
}

static inline uint32_t hk_add_route(hk_world *world, const char *id, const hk_request *request)
{
	return hk_add_route_n(world, (const uint8_t *)id, strlen(id), request);
}

static inline uint32_t hk_delete_route(hk_world *world, const char *id, const hk_request *request)
{
	return hk_delete_route_n(world, (const uint8_t *)id, strlen(id), request);
}

static inline uint32_t hk_change_route(hk_world *world, const char *id, const hk_request *request)
{
	return hk_change_route_n(world, (const uint8_t *)id, strlen(id), request);
}

static inline uint32_t hk_get_route(hk_world *world, const char *id, const hk_request *request)
{
	return hk_get_route_n(world, (const uint8_t *)id, strlen(id), request);
}

static inline uint32_t hk_lock_route(hk_world *world, const char *id, const hk_request *request)
{
	return hk_lock_route_n(world, (const uint8_t *)id, strlen(id), request);
}

static inline uint32_t hk_read(hk_world *world, const char *id)
{
	return hk_read_n(world, (const uint8_t *)id, strlen(id));
}

static inline uint32_t hk_lost(hk_world *world, const char *id, uint64_t *lost)
{
	return hk_lost_n(world, (const uint8_t *)id, strlen(id), lost);
}

#ifdef __cplusplus
}
#endif

#endif
