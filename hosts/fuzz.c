/*
 * The library under random input. Five commands:
 *
 *   fuzz play < CAPTURE          plays a capture by calls, and prints what `watch` would
 *   fuzz log < LOG > LOG         plays a log by calls, and writes it again with the answers that they get
 *   fuzz calls SEED N LIST       makes N random calls on a table of its own, in every mode and on
 *                                groups, writes them as a list, and prints what they answered
 *   fuzz dhc SEED N LIST         reads and writes N random DHC messages in the same way
 *   fuzz random SEED SECONDS     any bytes as row, set, clock, message and buffer; what must hold
 *                                of every call is looked at after each
 *
 * All that is lent stands against pages that nobody may touch, so that a step too far ends the run.
 */
#define _DEFAULT_SOURCE
#include <inttypes.h>
#include <stdio.h>
#include <stdlib.h>
#include <string.h>
#include <sys/mman.h>
#include <time.h>

#include "korvezul.h"

#define ROW (KORVEZUL_RECORDS * sizeof(struct korvezul_session))
#define PAGE 4096
#define MOST 20480
#define WATCH_CV 44 /* the CV, and the buffer for it, of a session in a capture */

/* ---- memory to lend, between two pages that may not be touched */

struct lender {
    uint8_t *pages;
};

static struct lender a_lender(void) {
    struct lender l;
    l.pages = mmap(NULL, MOST + 2 * PAGE, PROT_NONE, MAP_PRIVATE | MAP_ANONYMOUS, -1, 0);
    if (l.pages == MAP_FAILED || mprotect(l.pages + PAGE, MOST, PROT_READ | PROT_WRITE) != 0)
        abort();
    return l;
}

/* n octets that end, or that start, where the pages do. */
static void *lend(const struct lender *l, size_t n, int at_end) {
    return l->pages + PAGE + (at_end ? MOST - n : 0);
}

/* ---- random numbers */

static uint64_t seed;

static uint64_t any(void) {
    seed ^= seed >> 12;
    seed ^= seed << 25;
    seed ^= seed >> 27;
    return seed * UINT64_C(2685821657736338717);
}

static uint64_t below(uint64_t n) { return (any() >> 16) % n; }

static int once_in(uint64_t n) { return below(n) == 0; }

static void fill(void *at, size_t n) {
    uint8_t *o = at;
    for (size_t i = 0; i < n; i++)
        o[i] = (uint8_t)(any() >> 32);
}

/* ---- a call with its arguments, and what it said */

/* A capture has the first nine. */
enum kind {
    TICK,
    OPEN,
    CLOSE,
    LOCK,
    UNLOCK,
    RECEIVE,
    REPORT,
    WRITE_CC,
    WRITE_CV,
    EMPTY,
    SET_GROUP,
    SET_AC,
    RETURN_GROUP,
    ASK_GROUP,
    KINDS
};

static const char *const names[KINDS] = {"tick",   "open",     "close",    "lock",  "unlock",        "receive",
                                         "report", "write CC", "write CV", "empty", "set a group",   "AC of a group",
                                         "return", "ask of a group"};

struct call {
    enum kind kind;
    uint64_t reading;
    uint32_t label;
    uint32_t party; /* who calls */
    struct korvezul_settings settings;
    struct korvezul_group_settings group; /* its service PW is the label */
    uint8_t ac;
    uint8_t *octets; /* the message, or the buffer */
    size_t size;
};

struct said {
    uint32_t answer;
    struct korvezul_report_answer report;
    struct korvezul_group_report group;
};

static struct said make(struct korvezul_session *row, size_t n, struct korvezul_head *head,
                        const struct call *c) {
    const struct korvezul_circuit circuit = {c->label, c->party};
    const struct korvezul_opening opening = {c->settings, c->party};
    const struct korvezul_grouping grouping = {c->group, c->party};
    const struct korvezul_group_name group = {c->party, c->group.id};
    const struct korvezul_ac_of ac = {group, c->ac};
    struct korvezul_group_answer asked;
    struct said s;
    memset(&s, 0, sizeof s);
    switch (c->kind) {
    case TICK: s.answer = korvezul_tick(row, n, head, c->reading); break;
    case OPEN: s.answer = korvezul_open(row, n, head, opening, c->reading); break;
    case CLOSE: s.answer = korvezul_close(row, n, head, circuit, c->reading); break;
    case LOCK: s.answer = korvezul_lock(row, n, head, circuit, c->reading); break;
    case UNLOCK: s.answer = korvezul_unlock(row, n, head, circuit, c->reading); break;
    case RECEIVE: s.answer = korvezul_receive(row, n, head, circuit, c->octets, c->size, c->reading); break;
    case REPORT:
        s.report = korvezul_report(row, n, head, circuit);
        s.answer = s.report.answer;
        break;
    case WRITE_CC: s.answer = korvezul_write_cc(row, n, head, circuit, c->octets, c->size); break;
    case WRITE_CV: s.answer = korvezul_write_cv(row, n, head, circuit, c->octets, c->size); break;
    case SET_GROUP: s.answer = korvezul_set_group(row, n, head, grouping, c->reading); break;
    case SET_AC: s.answer = korvezul_set_ac(row, n, head, ac, c->reading); break;
    case RETURN_GROUP: s.answer = korvezul_return_group(row, n, head, group, c->reading); break;
    case ASK_GROUP:
        asked = korvezul_ask_group(row, n, head, group);
        s.answer = asked.answer;
        s.group = asked.group;
        break;
    default: s.answer = korvezul_empty(row, n, head); break;
    }
    return s;
}

/* The octets of a CV that has this MEP-ID: the header's, the packet's, and the MEP-ID's, type to end. */
static size_t cv_size(const struct korvezul_mep_id *id) {
    return id->kind == KORVEZUL_PSEUDOWIRE ? 46u + id->agi_length : 44;
}

/* Where a message that was received went wrong, which receive does not say: by the reader of its
 * channel. Of a header that is refused all three say the same; what is too short is so at its end, a DHC
 * message too, whose reader has no place. */
static uint64_t place_of(uint32_t answer, const uint8_t *o, size_t n) {
    if (answer == KORVEZUL_SHORT)
        return n;
    if (n >= 4 && o[3] == 0x23)
        return korvezul_read_cv(o, n).place;
    if (n >= 4 && o[3] == 0x58)
        return korvezul_read_fault(o, n).place;
    return korvezul_read_cc(o, n).place;
}

/* The line that `watch` prints for a record. */
static void line(uint64_t number, const struct call *c, const struct said *s) {
    printf("%" PRIu64 " %" PRIu32, number, s->answer);
    if (c->kind == RECEIVE && s->answer >= KORVEZUL_SHORT && s->answer <= KORVEZUL_FAULT)
        printf(" %" PRIu64, place_of(s->answer, c->octets, c->size));
    if (s->answer == 0 && c->kind == REPORT)
        printf(" %d %d %d %d %d %d %d", s->report.state, s->report.crossing, s->report.loss, s->report.alarm,
               s->report.rdi, s->report.blocked, s->report.conditions);
    if (s->answer == 0 && c->kind == ASK_GROUP)
        printf(" %d %d %d", s->group.pw, s->group.ac, s->group.forwarding);
    if (s->answer == 0 && (c->kind == WRITE_CC || c->kind == WRITE_CV)) {
        printf(" ");
        for (size_t i = 0; i < (c->kind == WRITE_CC ? KORVEZUL_CC_OCTETS : WATCH_CV); i++)
            printf("%02x", c->octets[i]);
    }
    printf("\n");
}

/* ---- captures */

static uint64_t number(const uint8_t *o, int n) {
    uint64_t x = 0;
    while (n-- > 0)
        x = x << 8 | *o++;
    return x;
}

static uint8_t *put(uint8_t *o, int n, uint64_t x) {
    for (int i = 0; i < n; i++)
        o[i] = (uint8_t)(x >> 8 * (n - 1 - i));
    return o + n;
}

static struct korvezul_mep_id mep_of(uint16_t kind, const uint8_t *o) {
    struct korvezul_mep_id id = {
        {0}, (uint32_t)number(o, 4), (uint32_t)number(o + 4, 4), (uint32_t)number(o + 8, 4), kind, 0, 0};
    return id;
}

/* An open's body; one that does not fit has discriminator 0 and is answered 10 at the latest. Twelve
 * octets are no value of a pseudowire. */
static struct korvezul_settings settings_of(uint32_t label, const uint8_t *body, size_t n) {
    struct korvezul_settings s;
    memset(&s, 0, sizeof s);
    s.label = label;
    if (n != 35 || body[34] > 3 || number(body + 8, 2) == KORVEZUL_PSEUDOWIRE)
        return s;
    s.discriminator = (uint32_t)number(body, 4);
    s.period = (uint32_t)number(body + 4, 4);
    s.own = mep_of((uint16_t)number(body + 8, 2), body + 10);
    s.expected = mep_of((uint16_t)number(body + 8, 2), body + 22);
    s.follow_link = body[34] & 1;
    s.follow_lock = body[34] >> 1;
    return s;
}

/* The call of a record, of which these are the first 16 octets and the body. */
static struct call call_of(const uint8_t *begin, const uint8_t *body, size_t size, const struct lender *lent) {
    struct call c;
    memset(&c, 0, sizeof c);
    c.kind = (enum kind)number(begin + 12, 2);
    c.reading = number(begin, 8);
    c.label = (uint32_t)number(begin + 8, 4);
    c.party = korvezul_party_of(c.label);
    c.settings = settings_of(c.label, body, size);
    c.size = c.kind == RECEIVE ? size : WATCH_CV;
    c.octets = lend(lent, c.size, 1);
    if (c.kind == RECEIVE)
        memcpy(c.octets, body, size);
    return c;
}

static int play(void) {
    struct lender rows = a_lender(), heads = a_lender(), lent = a_lender();
    struct korvezul_session *row = lend(&rows, ROW, 1);
    struct korvezul_head *head = lend(&heads, sizeof *head, 1);
    uint8_t begin[16], body[2048];
    if (fread(begin, 1, 8, stdin) != 8 || memcmp(begin, "TPO\0\1\0\0\0", 8) != 0) {
        printf("bad header\n");
        return 0;
    }
    korvezul_empty(row, KORVEZUL_RECORDS, head);
    for (uint64_t i = 1;; i++) {
        size_t got = fread(begin, 1, 16, stdin), size = got == 16 ? number(begin + 14, 2) : 0;
        struct call c;
        struct said s;
        if (got == 0)
            return 0;
        if (got < 16 || number(begin + 12, 2) > 8 || size > sizeof body ||
            fread(body, 1, size, stdin) != size) {
            printf("cut\n");
            return 0;
        }
        c = call_of(begin, body, size, &lent);
        s = make(row, KORVEZUL_RECORDS, head, &c);
        line(i, &c, &s);
    }
}

/* The record of a call: how many octets it has, or 0 where a card has no such record to write, since the body
 * is that of no open or of a call that has none. */
static size_t record_of(uint8_t *o, size_t room, const struct call *c, uint32_t answer, size_t body) {
    struct korvezul_logged w = {c->reading, c->label, (uint16_t)c->kind, (uint16_t)answer};
    if (c->kind == OPEN)
        return c->settings.discriminator != 0 && korvezul_log_open(o, room, c->settings, c->reading, w.answer) == 0
                   ? KORVEZUL_LOG_OPEN_OCTETS
                   : 0;
    return korvezul_log_call(o, room, w, c->octets, body) == 0 ? KORVEZUL_LOG_CALL_OCTETS + body : 0;
}

static int write_log_again(void) {
    struct lender rows = a_lender(), heads = a_lender(), lent = a_lender(), records = a_lender();
    struct korvezul_session *row = lend(&rows, ROW, 1);
    struct korvezul_head *head = lend(&heads, sizeof *head, 1);
    uint8_t begin[18], body[2048], *o = lend(&records, sizeof begin + sizeof body, 1);
    uint64_t others = 0;
    if (fread(begin, 1, 8, stdin) != 8 || korvezul_log_header(o, 8) != 0 || fwrite(o, 1, 8, stdout) != 8)
        return 1;
    korvezul_empty(row, KORVEZUL_RECORDS, head);
    while (fread(begin, 1, sizeof begin, stdin) == sizeof begin) {
        size_t size = number(begin + 14, 2), n;
        struct call c;
        uint32_t answer;
        if (size > sizeof body || fread(body, 1, size, stdin) != size)
            return 1;
        c = call_of(begin, body, size, &lent);
        answer = make(row, KORVEZUL_RECORDS, head, &c).answer;
        n = record_of(o, sizeof begin + sizeof body, &c, answer, size);
        if (n == 0) {
            put(begin + 16, 2, answer);
            memcpy(o, begin, sizeof begin);
            memcpy(o + sizeof begin, body, size);
            n = sizeof begin + size;
            others++;
        }
        if (fwrite(o, 1, n, stdout) != n)
            return 1;
    }
    fprintf(stderr, "%" PRIu64 "\n", others);
    return 0;
}

/* ---- random calls, steered a little so that most of them mean something */

/* AGIs of one or two lengths, mostly, which differ in one octet or in none; of other types too. */
static struct korvezul_mep_id some_mep(uint16_t kind) {
    static const uint8_t lengths[] = {0, 1, 7, 8, 9, 16, 24, 25, 31, 32};
    struct korvezul_mep_id id = {{1, 2, 3, 4}, (uint32_t)below(2), (uint32_t)below(2), 0, kind, 0, 0};
    id.agi_type = (uint8_t)once_in(4);
    id.agi_length = once_in(2) ? 9 : lengths[below(sizeof lengths)];
    if (once_in(30))
        id.agi_length = (uint8_t)(once_in(2) ? 33 : any());
    if (once_in(2))
        id.agi[below(4)] ^= UINT64_C(1) << below(64);
    return id;
}

/* One of 40 of a party, two of them often, so that some sessions are told much in a short time. */
static uint32_t some_label(void) {
    uint32_t first = once_in(2) ? 16 : KORVEZUL_FIRST_OF_THEIRS;
    return once_in(50) ? (uint32_t)any() : first + (uint32_t)below(once_in(2) ? 2 : 40);
}

/* The discriminator that a label mostly has; both parties give out the same. */
static uint32_t usual_discriminator(uint32_t label) {
    return korvezul_party_of(label) == KORVEZUL_OURS ? label : label - KORVEZUL_FIRST_OF_THEIRS + 16;
}

/* Who calls on a label: mostly its own party. */
static uint32_t some_party(uint32_t label) {
    return !once_in(25) ? korvezul_party_of(label) : once_in(4) ? (uint32_t)any() : (uint32_t)below(3);
}

static uint16_t some_kind(void) { return (uint16_t)(once_in(30) ? below(5) : below(3)); }

static uint8_t some_mode(void) { return (uint8_t)(once_in(30) ? any() : below(3)); }

/* A list, like a capture, has one kind for both MEP-IDs. */
static struct korvezul_settings some_settings(uint32_t label, int as_watch) {
    struct korvezul_settings s;
    uint16_t kind = (uint16_t)(once_in(30) ? below(4) : below(2));
    memset(&s, 0, sizeof s);
    s.label = label;
    s.discriminator = once_in(40) ? 0 : once_in(8) ? 1 + (uint32_t)below(90) : usual_discriminator(label);
    s.period = once_in(40) ? (uint32_t)any() : once_in(2) ? 1000 : 1000000;
    s.own = some_mep(as_watch ? kind : some_kind());
    s.expected = some_mep(as_watch ? kind : some_kind());
    s.follow_link = (uint8_t)below(2);
    s.follow_lock = (uint8_t)below(2);
    s.mode = some_mode();
    return s;
}

/* Time goes by slowly, or now and then quickly, so that crossings and conditions come to an end. */
static uint64_t some_reading(uint64_t clock) {
    static const uint64_t steps[] = {0,       1,       2,       2999,    3000,     3001,    3000000,
                                     3000001, 3499999, 3500000, 7000000, 69999999, 70000000};
    static int quickly;
    if (once_in(1000))
        quickly = !quickly;
    if (once_in(60))
        return any();
    if (once_in(60))
        return clock - below(3);
    if (once_in(100))
        return clock + steps[below(sizeof steps / sizeof *steps)];
    return clock + below(quickly ? 200000 : 2000);
}

static struct korvezul_packet some_packet(void) {
    struct korvezul_packet p;
    memset(&p, 0, sizeof p);
    p.my = once_in(20) ? 0 : 1 + (uint32_t)below(3);
    p.your = once_in(3) ? 16 + (uint32_t)below(80) : 0;
    p.transmit = (uint32_t)any();
    p.receive = (uint32_t)any();
    p.echo = (uint32_t)any();
    p.diagnostic = (uint8_t)below(once_in(9) ? 40 : 10);
    p.state = (uint8_t)below(once_in(9) ? 6 : 4);
    p.multiplier = once_in(20) ? 0 : (uint8_t)(1 + below(5));
    p.poll = (uint8_t)below(2);
    p.final = (uint8_t)below(2);
    p.independent = (uint8_t)below(2);
    p.demand = (uint8_t)below(once_in(20) ? 256 : 2);
    return p;
}

static struct korvezul_fault some_fault(void) {
    struct korvezul_fault f;
    memset(&f, 0, sizeof f);
    f.node = (uint32_t)below(3);
    f.interface_number = (uint32_t)below(2);
    f.global = (uint32_t)any();
    f.kind = (uint8_t)(1 + below(once_in(20) ? 3 : 2));
    f.link_down = (uint8_t)below(2);
    f.removed = (uint8_t)once_in(4);
    f.refresh = (uint8_t)(once_in(20) ? below(256) : 1 + below(20));
    f.has_if_id = (uint8_t)below(2);
    f.has_global_id = (uint8_t)below(once_in(20) ? 256 : 2);
    /* what is absent has no numbers, or the message is not written */
    if (f.has_if_id == 0 && !once_in(20))
        f.node = f.interface_number = 0;
    if (f.has_global_id == 0 && !once_in(20))
        f.global = 0;
    return f;
}

/* The ID that the group of a label mostly has; both parties give out the same. */
static uint32_t some_id(uint32_t label) {
    return once_in(40) ? (uint32_t)any() : once_in(10) ? (uint32_t)below(64) : usual_discriminator(label) % 64;
}

/* A group for a label, whose neighbour is mostly its DNI-PW; and what a peer coordinates on that neighbour. */
static struct korvezul_group_settings some_group(uint32_t label) {
    struct korvezul_group_settings g;
    memset(&g, 0, sizeof g);
    g.id = some_id(label);
    g.peer = 55 + (uint32_t)once_in(6);
    g.service = label;
    g.dni = once_in(10) ? some_label() : once_in(4) ? label : label ^ 1;
    g.role = (uint8_t)below(once_in(10) ? 256 : 2);
    return g;
}

static struct korvezul_dhc some_coordination(uint32_t label) {
    struct korvezul_dhc d;
    memset(&d, 0, sizeof d);
    d.id = some_id(label ^ 1);
    d.status.present = (uint8_t)below(2);
    d.switching.present = (uint8_t)(d.status.present == 0 ? 1 : below(2));
    if (d.status.present != 0) {
        d.status.source = 55 + (uint32_t)once_in(6);
        d.status.protection = (uint8_t)below(2);
        d.status.degrade = (uint8_t)below(2);
        d.status.fail = (uint8_t)below(2);
    }
    if (d.switching.present != 0) {
        d.switching.source = 55 + (uint32_t)once_in(6);
        d.switching.switches = (uint8_t)below(2);
        d.switching.protection = (uint8_t)below(2);
    }
    return d;
}

/* A plain message for a label: most of them, where there is a choice, as its peer would send it. */
static size_t plain_message(uint8_t *o, uint32_t label) {
    struct korvezul_packet p = some_packet();
    struct korvezul_mep_id id = some_mep((uint16_t)below(3));
    if (!once_in(8))
        p.your = usual_discriminator(label);
    switch (below(8)) {
    case 0: return korvezul_write_cv_message(o, 128, p, id) == 0 ? cv_size(&id) : 0;
    case 1:
    case 2: return korvezul_write_fault_message(o, 128, some_fault()) == 0 ? 9 + o[8] : 0;
    case 3:
    case 4:
        return korvezul_write_dhc_message(o, 128, some_coordination(label)) == 0 ? 12 + (size_t)number(o + 8, 2) : 0;
    default: return korvezul_write_cc_message(o, 128, p) == 0 ? 28 : 0;
    }
}

/* A message in at most 128 octets: random, or plain and then perhaps damaged, cut or padded. */
static size_t some_message(uint8_t *o, uint32_t label) {
    size_t n = 0;
    fill(o, 128);
    if (once_in(12))
        return below(129);
    while (n == 0)
        n = plain_message(o, label);
    if (once_in(4))
        o[below(n)] = (uint8_t)any();
    if (once_in(15))
        n = below(n + 1);
    if (once_in(6))
        n += below(40);
    return n;
}

/* A call on a table, its octets lent; a buffer of any size, or of one that `watch` lends. Now and
 * then nothing is closed for a while, so that the table fills up. */
static struct call some_call(const struct korvezul_head *head, const struct lender *lent, int as_watch) {
    static const enum kind often[] = {TICK,     OPEN,     OPEN,      CLOSE,   LOCK,         UNLOCK,    UNLOCK,  RECEIVE,
                                      RECEIVE,  RECEIVE,  RECEIVE,   RECEIVE, RECEIVE,      RECEIVE,   REPORT,  REPORT,
                                      WRITE_CC, WRITE_CV, SET_GROUP, SET_AC,  RETURN_GROUP, ASK_GROUP, ASK_GROUP};
    static int filling;
    uint8_t m[128];
    struct call c;
    memset(&c, 0, sizeof c);
    c.kind = often[below(sizeof often / sizeof *often)];
    if (once_in(2000))
        filling = !filling;
    if (c.kind == CLOSE && filling)
        c.kind = REPORT;
    c.label = some_label();
    c.party = some_party(c.label);
    c.reading = some_reading(head->clock);
    c.settings = some_settings(c.label, as_watch);
    c.group = some_group(c.label);
    c.ac = (uint8_t)below(once_in(10) ? 256 : 2);
    if (c.kind == RECEIVE) {
        c.size = some_message(m, c.label);
        c.octets = lend(lent, c.size, as_watch || once_in(2));
        memcpy(c.octets, m, c.size);
    } else {
        c.size = as_watch ? WATCH_CV : below(KORVEZUL_CV_OCTETS + 12);
        c.octets = lend(lent, c.size, as_watch || once_in(2));
        fill(c.octets, c.size);
    }
    return c;
}

/* The octets of an open in a capture. */
static size_t open_body(uint8_t *o, const struct korvezul_settings *s) {
    const struct korvezul_mep_id *own = &s->own, *expected = &s->expected;
    uint8_t *end = put(put(put(o, 4, s->discriminator), 4, s->period), 2, own->kind);
    end = put(put(put(end, 4, own->global), 4, own->node), 4, own->local);
    end = put(put(put(end, 4, expected->global), 4, expected->node), 4, expected->local);
    end = put(end, 1, s->follow_link + 2u * s->follow_lock);
    return (size_t)(end - o);
}

/* A call on a group as a line of a list: the first names the service PW, the last brings no reading. */
static void listed_on_group(FILE *to, const struct call *c) {
    static const char *const kinds[] = {"group", "ac", "return", "ask"};
    const struct korvezul_group_settings *g = &c->group;
    fprintf(to, "%" PRIu64 " %" PRIu32 " %s party=%" PRIu32 " id=%" PRIu32, c->kind == ASK_GROUP ? 0 : c->reading,
            c->kind == SET_GROUP ? g->service : 0, kinds[c->kind - SET_GROUP], c->party, g->id);
    if (c->kind == SET_GROUP)
        fprintf(to, " role=%d peer=%" PRIu32 " dni=%" PRIu32, g->role, g->peer, g->dni);
    if (c->kind == SET_AC)
        fprintf(to, " ac=%d", c->ac);
    fprintf(to, "\n");
}

/* A call as a line of a list: a capture has no place for a mode, nor for the party. */
static void listed(FILE *to, const struct call *c) {
    static const char *const kinds[] = {"tick",    "open",   "close",    "lock",    "unlock",
                                        "receive", "report", "write-cc", "write-cv"};
    uint8_t opening[35];
    const uint8_t *body = c->kind == OPEN ? opening : c->octets;
    size_t size = c->kind == OPEN ? open_body(opening, &c->settings) : c->kind == RECEIVE ? c->size : 0;
    if (c->kind >= SET_GROUP) {
        listed_on_group(to, c);
        return;
    }
    fprintf(to, "%" PRIu64 " %" PRIu32 " %s", c->reading, c->label, kinds[c->kind]);
    if (c->kind == OPEN)
        fprintf(to, " mode=%d", c->settings.mode);
    if (c->kind != TICK)
        fprintf(to, " party=%" PRIu32, c->party);
    fprintf(to, " hex ");
    for (size_t i = 0; i < size; i++)
        fprintf(to, "%02x", body[i]);
    fprintf(to, "\n");
}

static int calls(uint64_t count, const char *path) {
    struct lender rows = a_lender(), heads = a_lender(), lent = a_lender();
    struct korvezul_session *row = lend(&rows, ROW, 1);
    struct korvezul_head *head = lend(&heads, sizeof *head, 1);
    FILE *to = fopen(path, "w");
    if (to == NULL)
        return 1;
    fill(row, ROW);
    korvezul_empty(row, KORVEZUL_RECORDS, head);
    for (uint64_t i = 1; i <= count; i++) {
        struct call c = some_call(head, &lent, 1);
        struct said s;
        listed(to, &c);
        if (c.kind == OPEN && c.settings.own.kind == KORVEZUL_PSEUDOWIRE)
            c.settings.discriminator = 0; /* as `settings_of` reads it */
        s = make(row, KORVEZUL_RECORDS, head, &c);
        line(i, &c, &s);
    }
    return fclose(to) != 0;
}

/* ---- what must hold of every call */

static const struct call *at_fault;

static void must(int holds, const char *what) {
    if (!holds) {
        printf("finding: %s, in %s\n", what, at_fault == NULL ? "a message" : names[at_fault->kind]);
        exit(1);
    }
}

static int ones(uint64_t x) {
    int n = 0;
    for (; x != 0; x &= x - 1)
        n++;
    return n;
}

/* The answers that a call can give, beside 0 and 26. */
static int may_answer(enum kind kind, uint32_t answer) {
    static const char *const sets[KINDS] = {
        "\1", "\1\12\13\14", "\1\2", "\1\2", "\1\2", "\1\2\3\4\5\6\7\10\11\16\30\31", "\2", "\2\15", "\2\15",
        "",   "\1\2\12\13", "\1\30", "\1\30", "\30"};
    return answer == 0 || answer == 26 || (answer < 26 && strchr(sets[kind], (int)answer) != NULL);
}

struct table {
    struct korvezul_session row[KORVEZUL_RECORDS + 2];
    struct korvezul_head head;
    uint8_t octets[128];
};

/* The record of the open session of a label, and its settings. */
static const struct korvezul_session *session_at(const struct table *t, uint32_t label) {
    for (size_t i = 0; i < KORVEZUL_RECORDS; i++)
        if ((t->head.occupied >> i & 1) != 0 && t->row[i].settings.label == label)
            return &t->row[i];
    return NULL;
}

static const struct korvezul_settings *settings_at(const struct table *t, uint32_t label) {
    const struct korvezul_session *s = session_at(t, label);
    return s == NULL ? NULL : &s->settings;
}

/* The octets that an accepted call wrote. */
static size_t written(const struct table *t, const struct call *c) {
    const struct korvezul_settings *s = settings_at(t, c->label);
    if (s == NULL || (c->kind != WRITE_CC && c->kind != WRITE_CV))
        return 0;
    return c->kind == WRITE_CC ? KORVEZUL_CC_OCTETS : cv_size(&s->own);
}

/* What hangs on the mode of the session that an accepted call speaks of: a source in UP misses nothing,
 * and a source asks for nothing. */
static void look_at_mode(const struct table *before, const struct table *after, const struct call *c,
                         const struct said *s) {
    const struct korvezul_settings *g = settings_at(before, c->label);
    int source = g != NULL && g->mode == KORVEZUL_SOURCE;
    if (g == NULL || s->answer != 0)
        return;
    if (c->kind == REPORT && source && s->report.state == KORVEZUL_UP)
        must(s->report.loss == 0 && s->report.alarm == 0, "a source in UP misses something");
    if (c->kind == WRITE_CC || c->kind == WRITE_CV) {
        must(number(after->octets + 16, 4) == g->period, "another transmit interval than the period");
        must(number(after->octets + 20, 4) == (source ? 0 : g->period), "another required interval");
    }
}

/* Whose labels and groups a call may see. */
static void look_at_party(const struct call *c, const struct said *s) {
    if (c->kind == TICK || c->kind == EMPTY || s->answer == 26 || s->answer == 1)
        return;
    if (c->kind > SET_GROUP)
        must(c->party <= KORVEZUL_THEIRS || s->answer == 24, "nobody has a group");
    else if (c->party != korvezul_party_of(c->label))
        must(s->answer == (c->kind == OPEN ? 10 : 2), "a label of another party is seen");
}

/* What asking tells, each number in its place and by Table 1; what setting and AC leave in a record; and that a DHC
 * message leaves the session of its own label. */
static void look_at_group(const struct table *before, const struct table *after, const struct call *c,
                          const struct said *s) {
    static const uint8_t most[] = {KORVEZUL_DROPS, KORVEZUL_DNI_WITH_AC, KORVEZUL_PW_WITH_DNI, KORVEZUL_PW_WITH_AC};
    const struct korvezul_session *own = session_at(before, c->label);
    const struct korvezul_group_report *r = &s->group;
    if (c->kind == ASK_GROUP && s->answer != 0)
        must((r->pw | r->ac | r->forwarding) == 0, "a group that is not there tells something");
    if (s->answer != 0)
        return;
    if (c->kind == ASK_GROUP) {
        must((r->pw | r->ac) <= 1, "a PW or AC is neither active nor standby");
        must(r->forwarding == most[2 * r->pw + r->ac] || (r->forwarding == 0 && r->pw != r->ac),
             "what is forwarded is not in Table 1");
    }
    if (c->kind == SET_GROUP) {
        const struct korvezul_group *g = &session_at(after, c->label)->group;
        must(own->group.set == 0 && g->set == 1 && g->id == c->group.id && g->peer == c->group.peer &&
                 g->dni == c->group.dni && g->role == (c->group.role != 0) && g->ac == 0 && (g->role & g->pw) == 0,
             "a group is set otherwise");
    }
    if (c->kind == RECEIVE && c->size >= 4 && number(c->octets + 2, 2) == 9)
        must(memcmp(own, &after->row[own - before->row], sizeof *own) == 0, "a DHC message changes its own label");
}

static void look(const struct table *before, const struct table *after, size_t n, const struct call *c,
                 const struct said *s) {
    int changed = 0;
    size_t kept = s->answer == 0 ? written(before, c) : 0;
    static const uint8_t noughts[7];
    must(may_answer(c->kind, s->answer), "an answer that this call does not give");
    must(n == KORVEZUL_RECORDS || s->answer == 26, "a row of another length is taken");
    look_at_party(c, s);
    for (size_t i = 0; i < n; i++)
        changed += memcmp(&before->row[i], &after->row[i], sizeof before->row[i]) != 0;
    if (s->answer != 0 || c->kind == REPORT || c->kind == ASK_GROUP)
        must(changed == 0 && memcmp(&before->head, &after->head, sizeof before->head) == 0 &&
                 memcmp(before->octets, after->octets, c->size) == 0,
             "a refusal, a report or asking changes a byte");
    if (s->answer != 0 && c->kind == REPORT)
        must(memcmp(&s->report.state, noughts, sizeof noughts) == 0, "a refused report shows something");
    must(changed <= 1, "more than one record changes");
    must(ones(before->head.occupied ^ after->head.occupied) <= (c->kind == OPEN || c->kind == CLOSE) ||
             c->kind == EMPTY,
         "the set of places changes");
    if (s->answer == 0 && (c->kind <= RECEIVE || (c->kind >= SET_GROUP && c->kind != ASK_GROUP)))
        must(after->head.clock == c->reading, "the clock is not the reading");
    must(kept <= c->size, "more is written than there is room for");
    must(memcmp(before->octets + kept, after->octets + kept, c->size - kept) == 0,
         "an octet behind what is written changes");
    if (kept > 0) {
        struct korvezul_cc_read cc = korvezul_read_cc(after->octets, c->size);
        struct korvezul_cv_read cv = korvezul_read_cv(after->octets, c->size);
        must(c->kind == WRITE_CC ? cc.answer == 0 && cc.place == kept : cv.answer == 0 && cv.place == kept,
             "what is written is not read");
    }
    look_at_mode(before, after, c, s);
    look_at_group(before, after, c, s);
}

static int is_nought(const void *at, size_t n) {
    const uint8_t *o = at;
    while (n > 0 && o[n - 1] == 0)
        n--;
    return n == 0;
}

/* What a reader says beside its fields: a place that fits the answer, and noughts beside a refusal. */
static void look_at_place(uint32_t answer, uint64_t place, size_t n, int noughts) {
    must(answer == 0 || noughts, "a refused message shows something");
    switch (answer) {
    case KORVEZUL_ACCEPTED: must(place >= 9 && place <= n, "a message uses octets that are not there"); break;
    case KORVEZUL_SHORT: must(place == n, "a message is too short at another place than its end"); break;
    case KORVEZUL_HEADER: must(place == 0, "a header is wrong at another place than 0"); break;
    case KORVEZUL_CHANNEL: must(place == 2, "a channel is wrong at another place than 2"); break;
    case KORVEZUL_BFD: must((place >= 4 && place <= 8) || place == 12, "no field of a packet"); break;
    case KORVEZUL_MEP_ID: must(place >= 28 && place < n, "no field of a MEP-ID"); break;
    case KORVEZUL_FAULT: must(place >= 4 && place < n, "no field of a fault message"); break;
    default: must(0, "an answer that no reader gives");
    }
}

/* The octets that an accepted message uses are enough, and one less is too few. */
static void look_at_used(uint32_t enough, uint32_t less) {
    must(enough == KORVEZUL_ACCEPTED, "the octets used are not accepted");
    must(less == KORVEZUL_SHORT, "one octet less than the octets used is not too short");
}

static void look_at_places(const uint8_t *o, size_t n) {
    struct korvezul_cc_read cc = korvezul_read_cc(o, n);
    struct korvezul_cv_read cv = korvezul_read_cv(o, n);
    struct korvezul_fault_read fault = korvezul_read_fault(o, n);
    look_at_place(cc.answer, cc.place, n, is_nought(&cc.packet, 27));
    look_at_place(cv.answer, cv.place, n,
                  is_nought(&cv.packet, 27) && is_nought(&cv.mep, sizeof cv.mep) &&
                      (cv.part | cv.part_octets) == 0);
    look_at_place(fault.answer, fault.place, n, is_nought(&fault.fault, 18));
    if (cc.answer == 0)
        look_at_used(korvezul_read_cc(o, cc.place).answer, korvezul_read_cc(o, cc.place - 1).answer);
    if (cv.answer == 0)
        look_at_used(korvezul_read_cv(o, cv.place).answer, korvezul_read_cv(o, cv.place - 1).answer);
    if (fault.answer == 0)
        look_at_used(korvezul_read_fault(o, fault.place).answer,
                     korvezul_read_fault(o, fault.place - 1).answer);
}

/* An accepted CV that was read is written, and reads back to the same; the part is its MEP-ID. */
static void look_at_cv(const uint8_t *o, size_t n, const struct korvezul_cv_read *cv) {
    size_t size = cv_size(&cv->mep), part = cv->part_octets;
    struct korvezul_mep_id_read alone = korvezul_read_mep_id(o + cv->part, part);
    struct korvezul_cv_read r;
    uint8_t again[128];
    must(korvezul_write_cv_message(again, size, cv->packet, cv->mep) == 0,
         "a CV that was read is not written");
    must(korvezul_write_cv_message(again, size - 1, cv->packet, cv->mep) == KORVEZUL_BUFFER,
         "a CV is written into a buffer that is too short");
    r = korvezul_read_cv(again, size);
    must(r.answer == 0 && memcmp(&r.packet, &cv->packet, 27) == 0 &&
             memcmp(&r.mep, &cv->mep, sizeof r.mep) == 0,
         "a CV reads back to something else");
    must(cv->part + part <= n && part == size - 28 && memcmp(o + cv->part, again + 28, part) == 0,
         "the MEP-ID part is not that of the message");
    must(alone.answer == 0 && memcmp(&alone.mep, &cv->mep, sizeof alone.mep) == 0,
         "the MEP-ID alone is another one");
    must(korvezul_read_mep_id(o + cv->part, part - 1).answer == KORVEZUL_SHORT, "a cut MEP-ID is read");
}

/* What an accepted message says can be written, and reads back to the same. */
static void look_at_message(const struct lender *lent) {
    uint8_t m[128], again[128];
    size_t n = some_message(m, some_label());
    uint8_t *o = lend(lent, n, once_in(2));
    struct korvezul_cc_read cc;
    struct korvezul_cv_read cv;
    struct korvezul_fault_read fault;
    memcpy(o, m, n);
    at_fault = NULL;
    cc = korvezul_read_cc(o, n);
    cv = korvezul_read_cv(o, n);
    fault = korvezul_read_fault(o, n);
    must((cc.answer == 0) + (cv.answer == 0) + (fault.answer == 0) <= 1, "one message of two kinds");
    look_at_places(o, n);
    if (cc.answer == 0) {
        struct korvezul_cc_read r;
        must(korvezul_write_cc_message(again, 28, cc.packet) == 0, "a CC that was read is not written");
        r = korvezul_read_cc(again, 28);
        must(r.answer == 0 && memcmp(&r.packet, &cc.packet, 27) == 0, "a CC reads back to something else");
    }
    if (cv.answer == 0)
        look_at_cv(o, n, &cv);
    if (fault.answer == 0) {
        struct korvezul_fault_read r;
        must(korvezul_write_fault_message(again, 25, fault.fault) == 0,
             "a fault message that was read is not written");
        r = korvezul_read_fault(again, 9 + again[8]);
        must(r.answer == 0 && memcmp(&r.fault, &fault.fault, 18) == 0,
             "a fault message reads back to something else");
    }
    must(memcmp(o, m, n) == 0, "a message that was lent to be read changes");
}

/* A MEP-ID without what is nobody's field. */
static struct korvezul_mep_id plain(struct korvezul_mep_id id) {
    if (id.kind != KORVEZUL_PSEUDOWIRE)
        id.agi_type = id.agi_length = 0;
    for (unsigned i = id.agi_length; i < 32; i++)
        id.agi[i / 8] &= ~(UINT64_C(0xff) << (56 - 8 * (i % 8)));
    return id;
}

/* Fields that are written read back to the same fields, every one of them. */
static void look_at_fields(void) {
    struct korvezul_packet p = some_packet();
    struct korvezul_mep_id id = some_mep((uint16_t)below(4)), read = plain(id);
    struct korvezul_fault f = some_fault();
    uint8_t m[KORVEZUL_CV_OCTETS] = {0};
    at_fault = NULL;
    if (korvezul_write_cc_message(m, sizeof m, p) == 0) {
        struct korvezul_cc_read r = korvezul_read_cc(m, sizeof m);
        must(r.answer == 0 && memcmp(&r.packet, &p, 27) == 0, "fields of a CC are lost");
    }
    if (korvezul_write_cv_message(m, sizeof m, p, id) == 0) {
        struct korvezul_cv_read r = korvezul_read_cv(m, sizeof m);
        must(r.answer == 0 && r.place == cv_size(&id) && memcmp(&r.packet, &p, 27) == 0 &&
                 memcmp(&r.mep, &read, sizeof read) == 0,
             "fields of a CV are lost");
    }
    if (korvezul_write_fault_message(m, sizeof m, f) == 0) {
        struct korvezul_fault_read r = korvezul_read_fault(m, sizeof m);
        must(r.answer == 0 && memcmp(&r.fault, &f, 18) == 0, "fields of a fault message are lost");
    }
}

/* ---- DHC messages */

/* The fields of the struct end before its last octet, which is nobody's. */
#define DHC_FIELDS (offsetof(struct korvezul_dhc, switching) + offsetof(struct korvezul_dhc_switching, protection) + 1)

static uint8_t some_bit(void) { return (uint8_t)(once_in(40) ? any() >> 32 : below(2)); }

static struct korvezul_dhc some_dhc(void) {
    struct korvezul_dhc d;
    memset(&d, 0, sizeof d);
    d.id = (uint32_t)any();
    if (!once_in(3)) {
        struct korvezul_dhc_status a = {(uint32_t)any(), (uint32_t)any(), (uint32_t)any(), 1, some_bit(), some_bit(),
                                        some_bit()};
        d.status = a;
    }
    if (!once_in(3)) {
        struct korvezul_dhc_switching b = {(uint32_t)any(), (uint32_t)any(), (uint32_t)any(), 1, some_bit(),
                                           some_bit()};
        d.switching = b;
    }
    return d;
}

/* One TLV at most so many octets from the end; how many it has. Mostly of a length that its type has. */
static size_t some_tlv(uint8_t *o, size_t most) {
    uint64_t type = once_in(4) ? below(5) : 1 + below(2);
    size_t n = type == 1 ? 20 : type == 2 ? 16 : below(9);
    if (once_in(12))
        n = below(24);
    if (4 + n > most)
        return 0;
    put(put(o, 2, type), 2, once_in(20) ? below(24) : n);
    fill(o + 4, n);
    return 4 + n;
}

/* A DHC message in at most 128 octets: plain, or of any TLVs, then perhaps damaged, cut or padded. */
static size_t some_dhc_message(uint8_t *o) {
    size_t n = 12;
    fill(o, 128);
    if (once_in(20))
        return below(129);
    if (once_in(3) && korvezul_write_dhc_message(o, 128, some_dhc()) == 0) {
        n += number(o + 8, 2);
    } else {
        for (uint64_t tlvs = below(5); tlvs > 0; tlvs--)
            n += some_tlv(o + n, 128 - n);
        put(put(o, 2, UINT64_C(0x1000)), 2, 9);
        put(o + 8, 2, n - 12 + (once_in(10) ? below(5) : 0));
    }
    if (once_in(4))
        o[once_in(2) ? below(n) : below(16)] = (uint8_t)(once_in(2) ? below(24) : any() >> 32);
    if (once_in(15))
        n = below(n + 1);
    if (once_in(6) && n < 88)
        n += below(40);
    return n;
}

/* What is read of any octets: noughts beside a refusal, else what can be written, and reads back. */
static uint32_t look_at_dhc(const struct lender *lent) {
    uint8_t m[128], again[KORVEZUL_DHC_OCTETS + 1];
    size_t n = some_dhc_message(m), size;
    uint8_t *o = lend(lent, n, once_in(2));
    struct korvezul_dhc_read r, back;
    memcpy(o, m, n);
    at_fault = NULL;
    r = korvezul_read_dhc(o, n);
    must(memcmp(o, m, n) == 0, "a message that was lent to be read changes");
    if (r.answer != KORVEZUL_ACCEPTED) {
        must(is_nought(&r.dhc, DHC_FIELDS), "fields beside a refusal");
        return r.answer;
    }
    size = r.dhc.status.present == 0      ? KORVEZUL_DHC_SWITCHING_OCTETS
           : r.dhc.switching.present == 0 ? KORVEZUL_DHC_STATUS_OCTETS
                                          : KORVEZUL_DHC_OCTETS;
    memset(again, 0xee, sizeof again);
    must(korvezul_write_dhc_message(again, size - 1, r.dhc) == KORVEZUL_BUFFER && again[0] == 0xee,
         "a DHC message is written where there is no room");
    must(korvezul_write_dhc_message(again, size, r.dhc) == 0 && again[size] == 0xee,
         "a DHC message that was read is not written");
    back = korvezul_read_dhc(again, size);
    must(back.answer == 0 && memcmp(&back.dhc, &r.dhc, DHC_FIELDS) == 0, "a DHC message reads back to something else");
    return 0;
}

/* Fields that are written become octets that read back to the same fields, which are written again octet for octet;
 * others leave the buffer alone. */
static uint32_t look_at_dhc_fields(const struct lender *lent) {
    struct korvezul_dhc d = some_dhc();
    uint8_t before[80], again[KORVEZUL_DHC_OCTETS], *o;
    size_t n = below(sizeof before), size;
    uint32_t answer;
    if (once_in(30))
        d.status.present = some_bit();
    if (once_in(30))
        d.switching.present = some_bit();
    size = 12u + 24u * (d.status.present != 0) + 20u * (d.switching.present != 0);
    o = lend(lent, n, once_in(2));
    fill(o, n);
    memcpy(before, o, n);
    at_fault = NULL;
    answer = korvezul_write_dhc_message(o, n, d);
    if (answer == KORVEZUL_ACCEPTED) {
        struct korvezul_dhc_read r = korvezul_read_dhc(o, n);
        must(r.answer == 0 && memcmp(&r.dhc, &d, DHC_FIELDS) == 0, "fields of a DHC message are lost");
        must(korvezul_write_dhc_message(again, size, r.dhc) == 0 && memcmp(again, o, size) == 0,
             "a plain DHC message is written again with other octets");
        memcpy(before, o, size);
    }
    must(memcmp(o, before, n) == 0, "octets beside a refusal or behind a DHC message change");
    return answer;
}

static void print_tlv(FILE *to, uint8_t present, const uint32_t *numbers, const uint8_t *bits, int count) {
    if (present == 0) {
        fprintf(to, " -");
        return;
    }
    fprintf(to, " %" PRIu32 "/%" PRIu32 "/%" PRIu32, numbers[0], numbers[1], numbers[2]);
    for (int i = 0; i < count; i++)
        fprintf(to, "/%d", bits[i]);
}

static void print_dhc(FILE *to, const struct korvezul_dhc *d) {
    const struct korvezul_dhc_status *a = &d->status;
    const struct korvezul_dhc_switching *b = &d->switching;
    const uint32_t status[] = {a->destination, a->source, a->pw}, switching[] = {b->destination, b->source, b->pw};
    const uint8_t status_bits[] = {a->protection, a->degrade, a->fail}, bits[] = {b->switches, b->protection};
    fprintf(to, " %" PRIu32, d->id);
    print_tlv(to, a->present, status, status_bits, 3);
    print_tlv(to, b->present, switching, bits, 2);
}

static void print_hex(FILE *to, const uint8_t *o, size_t n) {
    fprintf(to, n == 0 ? " -" : " ");
    for (size_t i = 0; i < n; i++)
        fprintf(to, "%02x", o[i]);
}

/* Random messages and fields as a list, and what they are answered. */
static int dhc_messages(uint64_t count, const char *path) {
    struct lender lent = a_lender();
    FILE *to = fopen(path, "w");
    uint8_t m[128];
    if (to == NULL)
        return 1;
    for (; count > 0; count--) {
        if (once_in(3)) {
            struct korvezul_dhc d = some_dhc();
            size_t room = 28 + below(40);
            uint8_t *o = lend(&lent, room, 1);
            uint32_t answer = korvezul_write_dhc_message(o, room, d);
            fprintf(to, "write %zu", room);
            print_dhc(to, &d);
            printf("%" PRIu32, answer);
            if (answer == KORVEZUL_ACCEPTED)
                print_hex(stdout, o, 12 + (size_t)number(o + 8, 2));
        } else {
            size_t n = some_dhc_message(m);
            uint8_t *o = lend(&lent, n, 1);
            struct korvezul_dhc_read r;
            memcpy(o, m, n);
            fprintf(to, "read");
            print_hex(to, m, n);
            r = korvezul_read_dhc(o, n);
            printf("%" PRIu32, r.answer);
            if (r.answer == KORVEZUL_ACCEPTED)
                print_dhc(stdout, &r.dhc);
        }
        fprintf(to, "\n");
        printf("\n");
    }
    return fclose(to) != 0;
}

/* ---- configurations: nested entries, some of them damaged, read again by positions in the octets */

/* One entry with all that is in it, at most so many octets; how many it has. */
static size_t some_entry(uint8_t *o, size_t most, int level) {
    static const uint16_t usual[4][3] = {{0, 0, 0}, {1, 2, 3}, {1, 1, 9}, {16, 16, 9}};
    uint16_t type = once_in(12) ? (uint16_t)below(20) : usual[level][below(3)];
    size_t n = level == 1 ? (type == 2 ? 12 : 4) : below(9);
    if (level > 1 && type == usual[level][0]) {
        size_t entries = below(4);
        fill(o + 4, 4);
        for (n = 4; entries > 0 && n + 40 < most; entries--)
            n += some_entry(o + 4 + n, most - 4 - n, level - 1);
    } else {
        fill(o + 4, n);
        if (type == 2)
            put(o + 4, 4, once_in(8) ? below(1200) : 1000 + below(9999001));
    }
    put(put(o, 2, type), 2, n + (once_in(25) ? below(5) : 0));
    fill(o + 4 + n, (4 - n % 4) % 4);
    return 4 + (n + 3) / 4 * 4;
}

static size_t some_configuration(uint8_t *o, size_t most) {
    size_t n = 0, entries = once_in(3) ? 1 + below(2) : 0;
    if (entries == 0 || once_in(2)) {
        must(korvezul_write_configuration(o, most, (uint32_t)(1 + below(9)), (uint32_t)(1000 + below(99))) == 0,
             "a configuration is not written");
        n = 40;
    }
    for (; entries > 0; entries--)
        n += some_entry(o + n, most - n - 64, 3);
    for (; once_in(2) && n > 0;)
        o[below(n)] = (uint8_t)(once_in(2) ? below(20) : any() >> 32);
    return once_in(8) ? below(n + 1) : n;
}

/* What was met: an entry past its holder's end, a wrong length, how often each of the four, the two
 * numbers. */
struct met {
    int past, wrong, functions, configurations, discriminators, timers;
    uint64_t discriminator, period;
};

static void walk(const uint8_t *o, size_t at, size_t end, int level, uint16_t authentication, struct met *m) {
    while (at < end) {
        size_t n, next;
        uint64_t type;
        if (end - at < 4)
            break;
        type = number(o + at, 2);
        n = (size_t)number(o + at + 2, 2);
        for (next = at + 4 + n; (next - at) % 4 != 0; next++)
            ;
        if (next > end)
            break;
        if ((level == 3 && type == 16) || (level == 2 && type == 1)) {
            *(level == 3 ? &m->functions : &m->configurations) += 1;
            m->wrong |= n < 4;
            if (n >= 4)
                walk(o, at + 8, at + 4 + n, level - 1, authentication, m);
        }
        if (level == 1 && type == 1) {
            m->discriminators++;
            m->wrong |= n != 4;
            m->discriminator = n == 4 ? number(o + at + 4, 4) : 0;
        }
        if (level == 1 && type == 2) {
            m->timers++;
            m->wrong |= n != 12;
            m->period = n == 12 ? number(o + at + 4, 4) : 0;
        }
        if (level == 1 && type == authentication)
            m->wrong |= n != 4;
        at = next;
    }
    m->past |= at < end;
}

static uint32_t answer_of(const struct met *m, uint16_t authentication) {
    if (authentication == 1 || authentication == 2)
        return KORVEZUL_RANGE;
    if (m->past)
        return KORVEZUL_PAST;
    if (m->wrong)
        return KORVEZUL_LENGTH;
    if (m->functions != 1 || m->configurations != 1 || m->discriminators != 1 || m->timers != 1)
        return KORVEZUL_NEEDED;
    return m->discriminator == 0 || m->period < 1000 || m->period > 10000000 ? KORVEZUL_RANGE : KORVEZUL_ACCEPTED;
}

static uint32_t look_at_configuration(const struct lender *lent) {
    uint8_t made[512], again[41];
    size_t n = some_configuration(made, sizeof made);
    uint16_t authentication = (uint16_t)(once_in(4) ? below(5) : 3);
    uint8_t *o = lend(lent, n, once_in(2));
    struct korvezul_configuration_read r, back;
    struct met m;
    memset(&m, 0, sizeof m);
    memcpy(o, made, n);
    at_fault = NULL;
    r = korvezul_read_configuration(o, n, authentication);
    walk(made, 0, n, 3, authentication, &m);
    must(r.answer == answer_of(&m, authentication), "a configuration is answered otherwise");
    must(memcmp(o, made, n) == 0, "octets that were lent to be read change");
    if (r.answer != 0) {
        must(r.discriminator == 0 && r.period == 0, "numbers beside a refusal");
        return r.answer;
    }
    must(r.discriminator == m.discriminator && r.period == m.period, "a configuration reads to other numbers");
    memset(again, 0xee, sizeof again);
    must(korvezul_write_configuration(again, 40, r.discriminator, r.period) == 0 && again[40] == 0xee,
         "a configuration that was read is not written");
    back = korvezul_read_configuration(again, 40, authentication);
    must(memcmp(&back, &r, sizeof r) == 0, "a configuration reads back to something else");
    return 0;
}

/* ---- records of a log, written again number by number */

static struct korvezul_mep_id some_logged_mep(void) {
    struct korvezul_mep_id id = {{0}, (uint32_t)any(), (uint32_t)any(), (uint32_t)any(), KORVEZUL_LSP, 0, 0};
    if (once_in(20))
        id.agi[below(4)] = UINT64_C(1) << below(64);
    if (once_in(20))
        id.agi_type = (uint8_t)any();
    if (once_in(20))
        id.agi_length = (uint8_t)any();
    return id;
}

/* Any numbers, and mostly what a record can hold of the rest. */
static struct korvezul_settings some_logged_settings(void) {
    struct korvezul_settings s;
    memset(&s, 0, sizeof s);
    s.own = some_logged_mep();
    s.expected = some_logged_mep();
    s.own.kind = s.expected.kind = (uint16_t)(once_in(4) ? any() >> 32 : below(3));
    if (once_in(10))
        s.expected.kind = some_kind();
    s.label = (uint32_t)any();
    s.discriminator = (uint32_t)any();
    s.period = (uint32_t)any();
    s.follow_link = (uint8_t)below(once_in(20) ? 256 : 2);
    s.follow_lock = (uint8_t)below(once_in(20) ? 256 : 2);
    s.mode = once_in(10) ? some_mode() : 0;
    return s;
}

/* A record has 12 octets for a MEP-ID, one type for both, two marks, and no mode. */
static int fits_a_record(const struct korvezul_settings *s) {
    int bare = is_nought(s->own.agi, sizeof s->own.agi) && is_nought(s->expected.agi, sizeof s->expected.agi) &&
               (s->own.agi_type | s->own.agi_length | s->expected.agi_type | s->expected.agi_length) == 0;
    return bare && s->own.kind == s->expected.kind && s->own.kind != KORVEZUL_PSEUDOWIRE && s->mode == 0 &&
           (s->follow_link | s->follow_lock) <= 1;
}

/* What is lent to be written to holds these octets afterwards, and behind them what it held; or all of it. */
struct room {
    uint8_t *lent, before[2200];
    size_t size;
};

static void make_room(struct room *r, const struct lender *lender, size_t needed) {
    r->size = once_in(3) ? below(needed + 1) : needed + below(9);
    r->lent = lend(lender, r->size, once_in(2));
    fill(r->lent, r->size);
    memcpy(r->before, r->lent, r->size);
}

static uint32_t look_at_room(struct room *r, uint32_t answer, int fits, const uint8_t *record, size_t n) {
    must(answer == (!fits ? KORVEZUL_RANGE : r->size < n ? KORVEZUL_BUFFER : KORVEZUL_ACCEPTED),
         "a record of a log is answered otherwise");
    if (answer == KORVEZUL_ACCEPTED)
        memcpy(r->before, record, n);
    must(memcmp(r->lent, r->before, r->size) == 0, "a record of a log has other octets");
    return answer;
}

static uint8_t *record_head(uint8_t *o, const struct korvezul_logged *w, size_t octets) {
    o = put(put(o, 8, w->time), 4, w->label);
    return put(put(put(o, 2, w->kind), 2, octets), 2, w->answer);
}

static struct korvezul_logged some_logged(void) {
    struct korvezul_logged w = {any(), (uint32_t)any(), (uint16_t)(once_in(2) ? 5 : below(10)), (uint16_t)below(27)};
    if (once_in(10))
        w.kind = (uint16_t)(any() >> 32);
    if (once_in(10))
        w.answer = (uint16_t)(any() >> 32);
    return w;
}

static uint32_t look_at_logged_open(const struct lender *lender) {
    struct korvezul_settings s = some_logged_settings(), back;
    struct korvezul_logged w = some_logged();
    uint8_t record[KORVEZUL_LOG_OPEN_OCTETS];
    struct room r;
    uint32_t answer;
    make_room(&r, lender, sizeof record);
    w.label = s.label;
    w.kind = KORVEZUL_CALL_OPEN;
    open_body(record_head(record, &w, 35), &s);
    answer = korvezul_log_open(r.lent, r.size, s, w.time, w.answer);
    look_at_room(&r, answer, fits_a_record(&s), record, sizeof record);
    if (answer == KORVEZUL_ACCEPTED) {
        back = settings_of(s.label, r.lent + KORVEZUL_LOG_CALL_OCTETS, 35);
        must(memcmp(&back, &s, offsetof(struct korvezul_settings, mode) + 1) == 0, "an open reads back to another");
    }
    return answer;
}

static uint32_t look_at_logged_call(const struct lender *lender, const struct lender *messages) {
    uint8_t record[2200], message[2100];
    struct korvezul_logged w = some_logged();
    size_t n = once_in(20) ? 2040 + below(20) : once_in(3) ? 0 : below(90);
    uint8_t *lent = lend(messages, n, once_in(2));
    struct room r;
    uint32_t answer;
    int known = w.kind <= 8 && w.kind != KORVEZUL_CALL_OPEN;
    fill(lent, n);
    memcpy(message, lent, n);
    make_room(&r, lender, KORVEZUL_LOG_CALL_OCTETS + n);
    memcpy(record_head(record, &w, n), message, n);
    answer = korvezul_log_call(r.lent, r.size, w, lent, n);
    must(memcmp(lent, message, n) == 0, "a message that was lent to be logged changes");
    return look_at_room(&r, answer, known && (n == 0 || (w.kind == KORVEZUL_CALL_RECEIVE && n <= 2048)), record,
                        KORVEZUL_LOG_CALL_OCTETS + n);
}

static uint32_t look_at_log_header(const struct lender *lender) {
    static const uint8_t header[] = {'T', 'P', 'L', 0, 1, 0, 0, 0};
    struct room r;
    make_room(&r, lender, sizeof header);
    return look_at_room(&r, korvezul_log_header(r.lent, r.size), 1, header, sizeof header);
}

/* A table that is lent: any bytes, or one that calls made with a few bytes damaged. */
static void some_table(const struct table *base, struct korvezul_session *row, size_t size,
                       struct korvezul_head *head) {
    if (once_in(8)) {
        fill(row, size);
        fill(head, sizeof *head);
        if (once_in(2))
            head->occupied &= any() & any() & any() & any() & any();
        return;
    }
    memcpy(row, base->row, size);
    *head = base->head;
    for (uint64_t k = below(3); k > 0 && size > 0; k--)
        ((uint8_t *)row)[below(size)] = (uint8_t)(once_in(2) ? any() : below(6));
    if (once_in(10))
        head->occupied ^= UINT64_C(1) << below(64);
    if (once_in(10))
        head->clock = some_reading(head->clock);
}

static void keep(struct table *to, const struct korvezul_session *row, size_t size,
                 const struct korvezul_head *head, const struct call *c) {
    memcpy(to->row, row, size);
    to->head = *head;
    memcpy(to->octets, c->octets, c->size);
}

/* A call, looked at, and made once more on the same bytes: nothing is remembered between calls. */
static uint32_t tried(struct korvezul_session *row, size_t n, struct korvezul_head *head,
                      const struct call *c) {
    static struct table before, after;
    size_t size = n * sizeof *row;
    struct said s, twice;
    at_fault = c;
    keep(&before, row, size, head, c);
    s = make(row, n, head, c);
    keep(&after, row, size, head, c);
    look(&before, &after, n, c, &s);
    memcpy(row, before.row, size);
    *head = before.head;
    memcpy(c->octets, before.octets, c->size);
    twice = make(row, n, head, c);
    must(s.answer == twice.answer && memcmp(&s.report.state, &twice.report.state, 7) == 0 &&
             memcmp(&s.group, &twice.group, sizeof s.group) == 0,
         "the same call answers otherwise");
    must(memcmp(row, after.row, size) == 0 && memcmp(head, &after.head, sizeof *head) == 0 &&
             memcmp(c->octets, after.octets, c->size) == 0,
         "the same call leaves other bytes");
    return s.answer;
}

static void print_count(const char *name, const uint64_t count[27]) {
    printf("%s:", name);
    for (int i = 0; i < 27; i++)
        if (count[i] != 0)
            printf(" %d x%" PRIu64, i, count[i]);
    printf("\n");
}

static int at_random(double seconds) {
    struct lender rows = a_lender(), heads = a_lender(), lent = a_lender(), records = a_lender();
    static struct table base;
    static uint64_t counts[KINDS][27], messages, configurations[27], headers[27], opens[27], others[27];
    static uint64_t read[27], written[27];
    clock_t start = clock();
    for (; (double)(clock() - start) / CLOCKS_PER_SEC < seconds; messages++) {
        size_t n = once_in(25) ? below(KORVEZUL_RECORDS + 3) : KORVEZUL_RECORDS, size = n * sizeof *base.row;
        struct korvezul_session *row = lend(&rows, size, once_in(2));
        struct korvezul_head *head = lend(&heads, sizeof *head, once_in(2));
        struct call c;
        /* the table that calls make goes on, and now and then begins again */
        if (messages % 20000 == 0)
            korvezul_empty(base.row, KORVEZUL_RECORDS, &base.head);
        c = some_call(&base.head, &lent, 0);
        if (c.reading < UINT64_C(1) << 62)
            make(base.row, KORVEZUL_RECORDS, &base.head, &c);
        some_table(&base, row, size, head);
        c = some_call(head, &lent, 0);
        if (once_in(100))
            c.kind = EMPTY;
        counts[c.kind][tried(row, n, head, &c)]++;
        look_at_message(&lent);
        look_at_fields();
        configurations[look_at_configuration(&lent)]++;
        read[look_at_dhc(&lent)]++;
        written[look_at_dhc_fields(&lent)]++;
        headers[look_at_log_header(&records)]++;
        opens[look_at_logged_open(&records)]++;
        others[look_at_logged_call(&records, &lent)]++;
    }
    for (int k = 0; k < KINDS; k++)
        print_count(names[k], counts[k]);
    print_count("DHC messages read", read);
    print_count("DHC messages written", written);
    print_count("configurations", configurations);
    print_count("headers of a log", headers);
    print_count("opens of a log", opens);
    print_count("other records of a log", others);
    printf("messages: %" PRIu64 "\n", messages);
    return 0;
}

int main(int argc, char **argv) {
    if (argc >= 3)
        seed = (strtoull(argv[2], NULL, 10) + 1) * UINT64_C(0x9e3779b97f4a7c15);
    if (argc == 2 && strcmp(argv[1], "play") == 0)
        return play();
    if (argc == 2 && strcmp(argv[1], "log") == 0)
        return write_log_again();
    if (argc == 5 && strcmp(argv[1], "calls") == 0)
        return calls(strtoull(argv[3], NULL, 10), argv[4]);
    if (argc == 5 && strcmp(argv[1], "dhc") == 0)
        return dhc_messages(strtoull(argv[3], NULL, 10), argv[4]);
    if (argc == 4 && strcmp(argv[1], "random") == 0)
        return at_random(strtod(argv[3], NULL));
    fprintf(stderr, "fuzz play | fuzz log | fuzz calls SEED N LIST | fuzz dhc SEED N LIST | "
                    "fuzz random SEED SECONDS\n");
    return 2;
}
