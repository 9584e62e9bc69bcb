/*
 * The library against another implementation of BFD, which speaks over UDP (RFC 5881, single hop,
 * IPv4). The control packet is the same octets there as behind the G-ACh header of a CC, so this host
 * puts that header before what comes in and takes it off what goes out, and drives the library as a
 * card does. It plays five steps (UP, a cut wire, UP, a lock, UP), prints what the session says and
 * what it hears, each with its time, and ends non-zero where an expected state does not come in time
 * or does not last. hosts/interop builds and runs it; docs/INTEROP.md says what is bridged.
 */
#define _GNU_SOURCE
#include <arpa/inet.h>
#include <errno.h>
#include <inttypes.h>
#include <net/if.h>
#include <netinet/in.h>
#include <poll.h>
#include <stdarg.h>
#include <stdio.h>
#include <stdlib.h>
#include <string.h>
#include <sys/ioctl.h>
#include <sys/socket.h>
#include <time.h>
#include <unistd.h>

#include "korvezul_names.h"

#define LABEL 100
#define DISCRIMINATOR 17
#define BFD_PORT 3784
#define FIRST_SOURCE_PORT 49152 /* RFC 5881, 4: the source port is 49152 to 65535 */
#define SOURCE_PORTS 16384
#define SINGLE_HOP_TTL 255
#define LOOKS_MS 10
#define AT_ONCE 64     /* packets taken before the timers are looked at again */
#define NOT_UP 1000000 /* RFC 5880, 6.8.3: while not Up nobody sends more than once a second */
#define NEVER_HEARD 255

/* The G-ACh header of a CC, and the longest BFD packet that can come: its Length is one octet. */
static const uint8_t cc_header[4] = {0x10, 0, 0, 0x22};
#define LONGEST (sizeof cc_header + 255)

struct card {
    struct korvezul_session row[KORVEZUL_RECORDS];
    struct korvezul_head head;
    struct korvezul_report_answer says;
    uint8_t hears, hears_diagnostic;
    int in, out;
    struct sockaddr_in peer;
    const char *device;
    uint32_t period;
    uint64_t next_cc;
    unsigned long sent, unsent, accepted, locked, refused, polls, other_ttl;
    int last_error;
};

static struct card card;

static void stop(const char *what) {
    fprintf(stderr, "interop: %s: %s\n", what, strerror(errno));
    exit(2);
}

static uint64_t microseconds(void) {
    struct timespec t;
    if (clock_gettime(CLOCK_MONOTONIC, &t) != 0)
        stop("clock");
    return (uint64_t)t.tv_sec * 1000000 + (uint64_t)t.tv_nsec / 1000;
}

/* A line of the timeline, with the time as the other side's log has it, so that the two sort together. */
__attribute__((format(printf, 1, 2))) static void tell(const char *form, ...) {
    struct timespec t;
    struct tm utc;
    char day[32];
    va_list rest;
    if (clock_gettime(CLOCK_REALTIME, &t) != 0 || gmtime_r(&t.tv_sec, &utc) == NULL)
        stop("clock");
    strftime(day, sizeof day, "%Y-%m-%d %H:%M:%S", &utc);
    printf("%s.%03ld card ", day, t.tv_nsec / 1000000);
    va_start(rest, form);
    vprintf(form, rest);
    va_end(rest);
    printf("\n");
    fflush(stdout);
}

static void must(const char *call, uint32_t answer) {
    if (answer == KORVEZUL_ACCEPTED)
        return;
    fprintf(stderr, "interop: %s: %" PRIu32 ", %s\n", call, answer, korvezul_answer_name(answer));
    exit(2);
}

/* The loss began one microsecond behind period times multiplier, worked out by the library. */
static void tell_loss(struct card *c) {
    struct korvezul_question q = {.circuit = korvezul_ours(LABEL), .thing = KORVEZUL_A_LOSS};
    struct korvezul_cause w = korvezul_why(c->row, KORVEZUL_RECORDS, &c->head, q);
    must("why", w.answer);
    tell("loss since %" PRIu64 " us behind the last message heard, now %" PRIu64 " us", w.end - w.reading,
         w.age);
}

/* Tells the report where it is another than the one told before. */
static void look(struct card *c) {
    struct korvezul_report_answer r = korvezul_report(c->row, KORVEZUL_RECORDS, &c->head, korvezul_ours(LABEL)),
                                  was = c->says;
    must("report", r.answer);
    if (r.state == was.state && r.loss == was.loss && r.alarm == was.alarm && r.rdi == was.rdi &&
        r.crossing == was.crossing && was.answer == r.answer)
        return;
    c->says = r;
    tell("is %s, loss %d, alarm %d, remote defect %d, crossing %d", korvezul_state_name(r.state), r.loss,
         r.alarm, r.rdi, r.crossing);
    if (r.loss && !was.loss)
        tell_loss(c);
}

/* A packet that cannot be sent is a packet lost, which is what the other side is there to notice. */
static void send_cc(struct card *c) {
    uint8_t m[KORVEZUL_CC_OCTETS];
    ssize_t n;
    must("tick", korvezul_tick(c->row, KORVEZUL_RECORDS, &c->head, microseconds()));
    must("write CC", korvezul_write_cc(c->row, KORVEZUL_RECORDS, &c->head, korvezul_ours(LABEL), m, sizeof m));
    n = sendto(c->out, m + sizeof cc_header, sizeof m - sizeof cc_header, 0, (struct sockaddr *)&c->peer,
               sizeof c->peer);
    if (n == (ssize_t)(sizeof m - sizeof cc_header)) {
        c->sent++;
    } else {
        c->unsent++;
        c->last_error = errno;
    }
}

/* RFC 5880, 6.8.7: each interval is shortened at random, by up to a quarter. */
static void send_when_due(struct card *c) {
    uint64_t now = microseconds();
    if (now < c->next_cc)
        return;
    send_cc(c);
    c->next_cc = now + c->period - c->period / 100 * ((uint64_t)rand() % 26);
}

static void count(struct card *c, uint32_t answer) {
    if (answer == KORVEZUL_ACCEPTED)
        c->accepted++;
    else if (answer == KORVEZUL_LOCKED)
        c->locked++;
    else
        c->refused++;
}

/* RFC 5880, 6.5: a poll is answered without waiting for the timer; the library sets F, since it owes it. */
static void hear(struct card *c, const uint8_t *message, size_t octets) {
    struct korvezul_cc_read r = korvezul_read_cc(message, octets);
    uint32_t answer =
        korvezul_receive(c->row, KORVEZUL_RECORDS, &c->head, korvezul_ours(LABEL), message, octets, microseconds());
    count(c, answer);
    if (r.answer != KORVEZUL_ACCEPTED) {
        tell("refuses a packet: %s, at octet %" PRIu64, korvezul_answer_name(r.answer), r.place);
        return;
    }
    if (r.packet.state != c->hears || r.packet.diagnostic != c->hears_diagnostic) {
        c->hears = r.packet.state;
        c->hears_diagnostic = r.packet.diagnostic;
        tell("hears %s, diagnostic %d%s", korvezul_state_name(c->hears), c->hears_diagnostic,
             answer == KORVEZUL_LOCKED ? ", and is locked" : "");
    }
    look(c);
    if (r.packet.poll && answer == KORVEZUL_ACCEPTED) {
        c->polls++;
        tell("hears a poll and answers it");
        send_cc(c);
    }
}

/* The TTL that a packet came with, or -1: the socket asks for it with every packet. */
static int ttl_of(struct msghdr *m) {
    int ttl = -1;
    for (struct cmsghdr *h = CMSG_FIRSTHDR(m); h != NULL; h = CMSG_NXTHDR(m, h))
        if (h->cmsg_level == IPPROTO_IP && h->cmsg_type == IP_TTL && h->cmsg_len >= CMSG_LEN(sizeof ttl))
            memcpy(&ttl, CMSG_DATA(h), sizeof ttl);
    return ttl;
}

/* Takes one packet from the socket; false where none waits. RFC 5881, 5: another TTL is not from the link. */
static int take(struct card *c) {
    union {
        struct cmsghdr aligned;
        uint8_t octets[CMSG_SPACE(sizeof(int))];
    } control;
    uint8_t message[LONGEST];
    struct sockaddr_in from = {0};
    struct iovec to = {message + sizeof cc_header, sizeof message - sizeof cc_header};
    struct msghdr m = {.msg_name = &from,
                       .msg_namelen = sizeof from,
                       .msg_iov = &to,
                       .msg_iovlen = 1,
                       .msg_control = &control,
                       .msg_controllen = sizeof control};
    ssize_t n = recvmsg(c->in, &m, MSG_DONTWAIT);
    if (n < 0 && (errno == EAGAIN || errno == EINTR))
        return 0;
    if (n < 0)
        stop("receive");
    memcpy(message, cc_header, sizeof cc_header);
    if (ttl_of(&m) != SINGLE_HOP_TTL)
        c->other_ttl++;
    else if (from.sin_addr.s_addr == c->peer.sin_addr.s_addr)
        hear(c, message, sizeof cc_header + (size_t)n);
    return 1;
}

/* What a card does all the time: hear, send at the period, look every 10 ms. */
static void turn(struct card *c) {
    struct pollfd p = {.fd = c->in, .events = POLLIN};
    if (poll(&p, 1, LOOKS_MS) < 0 && errno != EINTR)
        stop("poll");
    for (int i = 0; i < AT_ONCE && take(c); i++)
        ;
    send_when_due(c);
    must("tick", korvezul_tick(c->row, KORVEZUL_RECORDS, &c->head, microseconds()));
    look(c);
}

static void set_wire(const char *device, int up) {
    struct ifreq q = {0};
    int s = socket(AF_INET, SOCK_DGRAM | SOCK_CLOEXEC, 0);
    memcpy(q.ifr_name, device, strnlen(device, sizeof q.ifr_name - 1));
    if (s < 0 || ioctl(s, SIOCGIFFLAGS, &q) != 0)
        stop(device);
    q.ifr_flags = (short)(up ? q.ifr_flags | IFF_UP : q.ifr_flags & ~IFF_UP);
    if (ioctl(s, SIOCSIFFLAGS, &q) != 0)
        stop(device);
    close(s);
}

static void nothing(struct card *c) { (void)c; }
static void cut(struct card *c) { set_wire(c->device, 0); }
static void mend(struct card *c) { set_wire(c->device, 1); }

static void lock(struct card *c) {
    must("lock", korvezul_lock(c->row, KORVEZUL_RECORDS, &c->head, korvezul_ours(LABEL), microseconds()));
}

static void unlock(struct card *c) {
    must("unlock", korvezul_unlock(c->row, KORVEZUL_RECORDS, &c->head, korvezul_ours(LABEL), microseconds()));
}

/* What is done, what is to come of it, within how many intervals, and how many periods it has to last. */
struct step {
    const char *title;
    void (*act)(struct card *c);
    uint8_t state, loss;
    int hears, hears_diagnostic; /* -1: whatever it is */
    uint64_t within, lasts;
};

static const struct step steps[] = {
    {"the session is opened", nothing, KORVEZUL_UP, 0, KORVEZUL_UP, -1, 6, 6},
    {"the wire is cut", cut, KORVEZUL_DOWN, 1, -1, -1, 4, 4},
    {"the wire is mended", mend, KORVEZUL_UP, 0, KORVEZUL_UP, -1, 6, 6},
    {"the session is locked", lock, KORVEZUL_ADMIN_DOWN, 0, KORVEZUL_DOWN, 3, 4, 6},
    {"the session is unlocked", unlock, KORVEZUL_UP, 0, KORVEZUL_UP, -1, 6, 6},
};

static int as_expected(const struct card *c, const struct step *s) {
    return c->says.state == s->state && c->says.loss == s->loss && (s->hears < 0 || c->hears == s->hears) &&
           (s->hears_diagnostic < 0 || c->hears_diagnostic == s->hears_diagnostic);
}

/* A loss comes by the own clock; where the other side has to speak, its interval while not Up counts. */
static uint64_t limit_of(const struct card *c, const struct step *s) {
    uint64_t interval = s->hears >= 0 && c->period < NOT_UP ? NOT_UP : c->period;
    return s->within * interval;
}

static int play(struct card *c, const struct step *s) {
    uint64_t start, reached;
    tell("-- %s", s->title);
    s->act(c);
    start = microseconds();
    do {
        turn(c);
        reached = microseconds();
    } while (!as_expected(c, s) && reached - start <= limit_of(c, s));
    while (as_expected(c, s) && microseconds() - reached < s->lasts * c->period)
        turn(c);
    if (as_expected(c, s)) {
        tell("-- as expected after %" PRIu64 " ms, and for %" PRIu64 " periods", (reached - start) / 1000,
             s->lasts);
        return 1;
    }
    tell("-- NOT as expected: %s, loss %d, hearing %s wanted; last error in sending: %s",
         korvezul_state_name(s->state), s->loss,
         s->hears < 0 ? "anything" : korvezul_state_name((uint32_t)s->hears),
         c->last_error == 0 ? "none" : strerror(c->last_error));
    return 0;
}

/* Two sockets, as RFC 5881, 4 has it: what comes in is for port 3784, what goes out is from a high port. */
static int bound(struct in_addr own, uint16_t port) {
    struct sockaddr_in at = {.sin_family = AF_INET, .sin_port = htons(port), .sin_addr = own};
    int yes = 1, ttl = SINGLE_HOP_TTL, s = socket(AF_INET, SOCK_DGRAM | SOCK_CLOEXEC, 0);
    if (s < 0 || bind(s, (struct sockaddr *)&at, sizeof at) != 0)
        stop("socket");
    if (setsockopt(s, IPPROTO_IP, IP_TTL, &ttl, sizeof ttl) != 0 ||
        setsockopt(s, IPPROTO_IP, IP_RECVTTL, &yes, sizeof yes) != 0)
        stop("TTL");
    return s;
}

/* UDP carries no CV, so the MEP-IDs, which only CVs have, are never seen. */
static void open_session(struct card *c) {
    struct korvezul_mep_id own = {.kind = KORVEZUL_LSP, .global = 7, .node = 10, .local = 0x00050001};
    struct korvezul_mep_id expected = {.kind = KORVEZUL_LSP, .global = 7, .node = 20, .local = 0x00050001};
    struct korvezul_settings s = {.own = own,
                                  .expected = expected,
                                  .label = LABEL,
                                  .discriminator = DISCRIMINATOR,
                                  .period = c->period};
    must("empty", korvezul_empty(c->row, KORVEZUL_RECORDS, &c->head));
    must("open", korvezul_open(c->row, KORVEZUL_RECORDS, &c->head, korvezul_opened_by_us(s), microseconds()));
    c->says.answer = KORVEZUL_NO_SESSION;
    c->hears = NEVER_HEARD;
}

/* A step takes the device down: only in a network that was made for this, which the caller is not in. */
static void be_in_a_namespace(void) {
    char own[64] = {0}, caller[64] = {0}, path[64];
    snprintf(path, sizeof path, "/proc/%ld/ns/net", (long)getppid());
    if (readlink("/proc/self/ns/net", own, sizeof own - 1) < 0 ||
        readlink(path, caller, sizeof caller - 1) < 0)
        stop("network namespace");
    if (strcmp(own, caller) != 0)
        return;
    fprintf(stderr, "interop: this is the caller's own network: run hosts/interop\n");
    exit(2);
}

static void begin(struct card *c, char **arguments) {
    struct in_addr own;
    char *end;
    unsigned long ms = strtoul(arguments[4], &end, 10);
    if (inet_pton(AF_INET, arguments[1], &own) != 1 ||
        inet_pton(AF_INET, arguments[2], &c->peer.sin_addr) != 1 || *end != 0 || ms < 1 || ms > 10000) {
        fprintf(stderr, "interop: two IPv4 addresses, a device and a period of 1 to 10000 ms are wanted\n");
        exit(2);
    }
    c->peer.sin_family = AF_INET;
    c->peer.sin_port = htons(BFD_PORT);
    c->device = arguments[3];
    c->period = (uint32_t)ms * 1000;
    c->in = bound(own, BFD_PORT);
    c->out = bound(own, (uint16_t)(FIRST_SOURCE_PORT + getpid() % SOURCE_PORTS));
    open_session(c);
}

int main(int count, char **arguments) {
    size_t good = 0, all = sizeof steps / sizeof steps[0];
    if (count != 5) {
        fprintf(stderr, "usage: interop OWN-ADDRESS PEER-ADDRESS DEVICE PERIOD-MS (by hosts/interop)\n");
        return 2;
    }
    if (korvezul_version() != KORVEZUL_VERSION) {
        fprintf(stderr, "interop: header and library are of two versions\n");
        return 2;
    }
    be_in_a_namespace();
    begin(&card, arguments);
    while (good < all && play(&card, &steps[good]))
        good++;
    tell("-- packets: %lu sent, %lu not sent, %lu accepted, %lu while locked, %lu refused, %lu of another "
         "TTL, "
         "%lu polls answered",
         card.sent, card.unsent, card.accepted, card.locked, card.refused, card.other_ttl, card.polls);
    return good == all && card.refused == 0 && card.other_ttl == 0 ? 0 : 1;
}
