/* For kernels without SCTP, as containers and small virtual machines have: a library to preload, by which Osmocom's programs
 * carry M3UA over TCP. A message of M3UA says its own length (RFC 4666 3.1.4): by that TCP's octets are cut into messages.
 * It is for trials on one machine: there is one path and one stream, and no notifications.
 *
 *     cc -shared -fPIC -O2 -o sctp_over_tcp.so sctp_over_tcp.c -ldl
 */
#define _GNU_SOURCE
#include <arpa/inet.h>
#include <dlfcn.h>
#include <errno.h>
#include <netinet/in.h>
#include <netinet/sctp.h>
#include <poll.h>
#include <stdint.h>
#include <string.h>
#include <sys/socket.h>

/* The head of a message of M3UA, in whose last four octets its whole length stands; the class of messages that carry data, and
 * their payload identifier. */
enum { HEAD = 8, LENGTH_AT = 4, CLASS_AT = 2, TRANSFER = 1, M3UA = 3 };

int socket(int domain, int type, int protocol)
{
	static int (*real)(int, int, int);

	if (!real)
		real = dlsym(RTLD_NEXT, "socket");
	if (protocol != IPPROTO_SCTP)
		return real(domain, type, protocol);
	return real(domain, SOCK_STREAM | (type & (SOCK_NONBLOCK | SOCK_CLOEXEC)), IPPROTO_TCP);
}

int setsockopt(int file, int level, int name, const void *value, socklen_t length)
{
	static int (*real)(int, int, int, const void *, socklen_t);

	if (!real)
		real = dlsym(RTLD_NEXT, "setsockopt");
	return level == IPPROTO_SCTP ? 0 : real(file, level, name, value, length);
}

int getsockopt(int file, int level, int name, void *value, socklen_t *length)
{
	static int (*real)(int, int, int, void *, socklen_t *);

	if (!real)
		real = dlsym(RTLD_NEXT, "getsockopt");
	if (level != IPPROTO_SCTP)
		return real(file, level, name, value, length);
	memset(value, 0, *length);
	return 0;
}

static socklen_t room_of(const struct sockaddr *address)
{
	return address->sa_family == AF_INET6 ? sizeof(struct sockaddr_in6) : sizeof(struct sockaddr_in);
}

int sctp_bindx(int file, struct sockaddr *addresses, int count, int flags)
{
	(void)count;
	(void)flags;
	return bind(file, addresses, room_of(addresses));
}

int sctp_connectx(int file, struct sockaddr *addresses, int count, sctp_assoc_t *association)
{
	(void)count;
	if (association)
		*association = 1;
	return connect(file, addresses, room_of(addresses));
}

int sctp_send(int file, const void *octets, size_t length, const struct sctp_sndrcvinfo *about, int flags)
{
	(void)about;
	return send(file, octets, length, flags | MSG_NOSIGNAL);
}

/* Looks at so many octets; how many are there, 0 at the end of the stream. */
static ssize_t peek(int file, void *into, size_t length)
{
	return recv(file, into, length, MSG_PEEK | MSG_DONTWAIT);
}

/* Waits until so many octets are there, and looks at them; 0 where the stream ends before. */
static ssize_t look(int file, void *into, size_t length)
{
	struct pollfd ended = { .fd = file, .events = POLLRDHUP };
	ssize_t came;

	while ((came = peek(file, into, length)) > 0 && (size_t)came < length)
		if (poll(&ended, 1, 20) > 0)
			return peek(file, into, length) == (ssize_t)length ? (ssize_t)length : 0;
	return came;
}

int sctp_recvmsg(int file, void *octets, size_t room, struct sockaddr *from, socklen_t *from_length,
		 struct sctp_sndrcvinfo *about, int *flags)
{
	uint8_t head[HEAD];
	uint32_t length;
	ssize_t came = look(file, head, sizeof(head));

	(void)from;
	(void)from_length;
	if (came <= 0)
		return came;
	memcpy(&length, head + LENGTH_AT, sizeof(length));
	length = ntohl(length);
	if (length < HEAD || length > room) {
		errno = EBADMSG;
		return -1;
	}
	if (about) {
		memset(about, 0, sizeof(*about));
		about->sinfo_ppid = htonl(M3UA);
		/* stream 0 is for management alone (RFC 4666 1.4.7) */
		about->sinfo_stream = head[CLASS_AT] == TRANSFER;
	}
	if (flags)
		*flags = MSG_EOR;
	came = look(file, octets, length);
	return came <= 0 ? came : recv(file, octets, length, MSG_DONTWAIT);
}
