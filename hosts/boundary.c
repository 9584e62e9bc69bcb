/*
 * What crosses between a host and the library, held to this header from outside: the version, every
 * field of a record and of a message at its place, why a session is as it is, where each reader says that
 * a message went wrong, each mark and each number that a writer must refuse, MEP-IDs of every form, rows
 * of another length lent to each call, calls in the name of each party, configurations, the records of a log, DHC
 * messages, and dual-homing groups.
 * hosts/run compares what is printed with hosts/timeline-boundary.
 */
#include <inttypes.h>
#include <stdio.h>
#include <stdlib.h>
#include <string.h>

#include "korvezul_names.h"

static void need(int holds, const char *what) {
    if (!holds) {
        printf("boundary: %s is not as this header has it\n", what);
        exit(1);
    }
}

static void check_version(void) {
    need(KORVEZUL_VERSION == 0x070100, "version of the header");
    need(korvezul_version() == KORVEZUL_VERSION, "version of the library");
    printf("version %d.%d.%d: header and library agree\n", KORVEZUL_VERSION_MAJOR, KORVEZUL_VERSION_MINOR,
           KORVEZUL_VERSION_PATCH);
}

/* Every field of a record, as the library stored it, read through the header: a session of a
 * pseudowire that is opened as a sink, hears a CC, takes an LKR and is crossed, with values that tell the fields
 * apart. */
static struct korvezul_session row[KORVEZUL_RECORDS];
static struct korvezul_head head;
static const struct korvezul_settings told = {{{UINT64_C(0x8081828384858687), UINT64_C(0x88898a8b8c8d8e8f),
                                                UINT64_C(0x9091929394959697), UINT64_C(0x98999a9b9c9d9e9f)},
                                               0x41424344,
                                               0x45464748,
                                               0x494a4b4c,
                                               KORVEZUL_PSEUDOWIRE,
                                               0x4d,
                                               32},
                                              {{UINT64_C(0xa0a1a2a3a4a5a6a7), UINT64_C(0xa8a9aaabacadaeaf),
                                                UINT64_C(0xb0b1b2b3b4b5b6b7), UINT64_C(0xb8b9babbbcbdbebf)},
                                               0x51525354,
                                               0x55565758,
                                               0x595a5b5c,
                                               KORVEZUL_PSEUDOWIRE,
                                               0x5d,
                                               31},
                                              0x11121,
                                              0x21222324,
                                              0x313233,
                                              1,
                                              0,
                                              KORVEZUL_SINK};

static void check_opened(void) {
    memset(row, 0xa5, sizeof row);
    need(korvezul_empty(row, KORVEZUL_RECORDS, &head) == 0, "empty");
    need(korvezul_open(row, KORVEZUL_RECORDS, &head, korvezul_opened_by_us(told), 0x010203) == 0, "open");
    need(head.clock == 0x010203 && head.occupied == 1, "head");
    need(memcmp(&row[0].settings, &told, offsetof(struct korvezul_settings, mode) + 1) == 0, "settings");
    need(row[0].timed == 0x010203 && row[0].state == 1 && row[0].crossing == 0, "timed, state, crossing");
    need(row[0].peer.remote == 0 && row[0].peer.multiplier == 3, "peer of a new session");
    static const struct korvezul_group none = {0, 0, 0, 0, 0, 0, 0};
    need(memcmp(&row[0].group, &none, sizeof none) == 0, "no group in a new session, whatever lay in its place");
    need(((const unsigned char *)&row[1])[0] == 0xa5, "a record next to it");
}

static void check_heard(struct korvezul_packet p) {
    const struct korvezul_peer *peer = &row[0].peer;
    uint8_t m[KORVEZUL_CC_OCTETS];
    need(korvezul_write_cc_message(m, sizeof m, p) == 0, "CC");
    need(korvezul_receive(row, KORVEZUL_RECORDS, &head, korvezul_ours(told.label), m, sizeof m, 0x010204) == 0,
         "heard CC");
    need(row[0].timed == 0x010204 && row[0].state == 2, "timed, state of one that heard");
    need(peer->remote == p.my && peer->multiplier == 5 && peer->diagnostic == 9 && peer->owed == 1, "peer");
}

static void check_taken(struct korvezul_fault f) {
    const struct korvezul_condition *c = row[0].conditions;
    uint8_t m[KORVEZUL_FAULT_OCTETS];
    need(korvezul_write_fault_message(m, sizeof m, f) == 0, "LKR");
    need(korvezul_receive(row, KORVEZUL_RECORDS, &head, korvezul_ours(told.label), m, sizeof m, 0x010205) == 0,
         "taken LKR");
    need(c[0].at == 0x010205 && c[0].refresh == 20 && c[0].link_down == 1, "condition");
    need(c[0].key.node == f.node && c[0].key.interface_number == f.interface_number, "IF_ID of a key");
    need(c[0].key.global == f.global && c[0].key.carrier == 1, "Global_ID of a key");
    need(c[0].key.kind == 2 && c[0].key.present == 1, "type and mark of a key");
    need(c[1].key.kind == 0 && c[3].key.kind == 0, "empty conditions");
}

/* What a label is asked, and what it answers. */
static struct korvezul_cause asked(uint8_t thing, struct korvezul_key key) {
    struct korvezul_question q;
    memset(&q, 0xa5, sizeof q);
    q.circuit = korvezul_ours(told.label);
    q.key = key;
    q.thing = thing;
    return korvezul_why(row, KORVEZUL_RECORDS, &head, q);
}

static void answers(uint8_t thing, struct korvezul_key key, uint64_t reading, uint64_t end) {
    struct korvezul_cause c = asked(thing, key);
    need(c.answer == 0 && c.reading == reading && c.age == head.clock - reading && c.end == end,
         "answer, reading, age, end");
    need(c.head.clock == head.clock && c.head.occupied == head.occupied, "head beside a cause");
}

/* Each thing of that session, and a number that is none. A loss stood from five periods and 1 behind the
 * CC. */
static void check_why(void) {
    static struct korvezul_session before[KORVEZUL_RECORDS];
    const struct korvezul_key key = row[0].conditions[0].key, none = {0, 0, 0, 0, 0, 0};
    const uint64_t lost = 0x010204 + 5 * (uint64_t)told.period + 1;
    struct korvezul_cause c;
    answers(KORVEZUL_A_CROSSING, none, 0x010206, 0x010206 + 3500000);
    need(asked(KORVEZUL_A_LOSS, none).answer == KORVEZUL_NOT_SO, "no loss yet");
    need(korvezul_tick(row, KORVEZUL_RECORDS, &head, lost) == 0, "tick");
    memcpy(before, row, sizeof row);
    answers(KORVEZUL_A_LOSS, none, 0x010204, lost);
    answers(KORVEZUL_HELD_BACK, none, 0x010205, 0x010205 + 70000000);
    answers(KORVEZUL_A_CONDITION, key, 0x010205, 0x010205 + 70000000);
    c = asked(5, key);
    need(c.answer == KORVEZUL_NOT_SO && c.reading == 0 && c.age == 0 && c.end == 0, "noughts beside a refusal");
    need(memcmp(before, row, sizeof row) == 0, "a question changes nothing");
    printf("a crossing, a loss, an alarm held back and a condition: reading, age and end\n");
}

static void check_layout(void) {
    struct korvezul_packet p = {.my = 0x61626364, .diagnostic = 9, .state = 1, .multiplier = 5, .poll = 1};
    struct korvezul_fault f = {0x71727374, 0x75767778, 0x797a7b7c, 2, 1, 0, 20, 1, 1};
    uint8_t m[KORVEZUL_CC_OCTETS];
    check_opened();
    check_heard(p);
    check_taken(f);
    p.your = 1;
    need(korvezul_write_cc_message(m, sizeof m, p) == 0, "crossed CC");
    need(korvezul_receive(row, KORVEZUL_RECORDS, &head, korvezul_ours(told.label), m, sizeof m, 0x010206) == 0,
         "crossed CC taken");
    need(row[0].crossed == 0x010206 && row[0].crossing == 1, "crossed, crossing");
    printf("every field of a record is where the header has it\n");
    check_why();
}

/* Every field of a message, told apart by the octets that it becomes, and read back from them. */
static void check_octets(void) {
    static const uint8_t cv_octets[] = {0x10, 0,    0,    0x23, 0x3f, 0xa8, 0x15, 0x18, 0x01, 0x02, 0x03,
                                        0x04, 0x05, 0x06, 0x07, 0x08, 0x09, 0x0a, 0x0b, 0x0c, 0x0d, 0x0e,
                                        0x0f, 0x10, 0x11, 0x12, 0x13, 0x14, 0,    1,    0,    0x0c, 0x21,
                                        0x22, 0x23, 0x24, 0x25, 0x26, 0x27, 0x28, 0x29, 0x2a, 0x2b, 0x2c};
    static const uint8_t fault_octets[] = {0x10, 0,    0,    0x58, 0x10, 2,    2,    0x14, 0x0a, 1,
                                           8,    0x31, 0x32, 0x33, 0x34, 0x35, 0x36, 0x37, 0x38};
    static const uint8_t removed_octets[] = {0x10, 0, 0, 0x58, 0x10, 1,    1,   0x05,
                                             0x06, 2, 4, 0x39, 0x3a, 0x3b, 0x3c};
    struct korvezul_packet p = {0x01020304, 0x05060708, 0x090a0b0c, 0x0d0e0f10, 0x11121314, 0x1f,
                                2,          0x15,       1,          0,          1,          0};
    struct korvezul_mep_id id = {{0}, 0x21222324, 0x25262728, 0x292a2b2c, KORVEZUL_LSP, 0, 0};
    struct korvezul_fault f = {0x31323334, 0x35363738, 0, 2, 1, 0, 0x14, 1, 0},
                          r = {0, 0, 0x393a3b3c, 1, 0, 1, 5, 0, 1};
    struct korvezul_cv_read v = korvezul_read_cv(cv_octets, sizeof cv_octets);
    struct korvezul_fault_read w = korvezul_read_fault(fault_octets, sizeof fault_octets);
    uint8_t m[KORVEZUL_CV_OCTETS];
    need(korvezul_write_cv_message(m, sizeof m, p, id) == 0 && memcmp(m, cv_octets, 44) == 0, "CV written");
    need(v.answer == 0 && v.place == 44 && v.part == 28 && v.part_octets == 16 &&
             memcmp(&v.packet, &p, offsetof(struct korvezul_packet, demand) + 1) == 0,
         "packet read");
    need(memcmp(&v.mep, &id, sizeof id) == 0, "MEP-ID read");
    need(korvezul_write_fault_message(m, 19, f) == 0 && memcmp(m, fault_octets, 19) == 0, "LKR written");
    need(w.answer == 0 && w.place == 19 &&
             memcmp(&w.fault, &f, offsetof(struct korvezul_fault, has_global_id) + 1) == 0,
         "LKR read");
    need(korvezul_write_fault_message(m, 15, r) == 0 && memcmp(m, removed_octets, 15) == 0, "AIS written");
    p.state = 3;
    p.poll = p.independent = 0;
    p.final = p.demand = 1;
    need(korvezul_write_cc_message(m, sizeof m, p) == 0 && m[5] == 0xd2, "F and D");
    printf("every field of a message becomes its octets, and reads back\n");
}

/* A pseudowire with an AGI of n octets: its octets, type to end, and what they are read to. */
static size_t pseudowire_octets(uint8_t *o, uint8_t n) {
    static const uint8_t value[] = {0x21, 0x22, 0x23, 0x24, 0x25, 0x26, 0x27,
                                    0x28, 0x29, 0x2a, 0x2b, 0x2c, 9};
    o[0] = o[2] = 0;
    o[1] = KORVEZUL_PSEUDOWIRE;
    o[3] = (uint8_t)(14 + n);
    memcpy(o + 4, value, sizeof value);
    o[17] = n;
    for (uint8_t i = 0; i < n; i++)
        o[18 + i] = (uint8_t)(0x61 + i);
    return 18u + n;
}

static void need_pseudowire(const struct korvezul_mep_id *id, uint8_t n) {
    need(id->global == 0x21222324 && id->node == 0x25262728 && id->local == 0x292a2b2c,
         "numbers of a MEP-ID");
    need(id->kind == KORVEZUL_PSEUDOWIRE && id->agi_type == 9 && id->agi_length == n, "type and AGI length");
    for (unsigned i = 0; i < 32; i++)
        need((uint8_t)(id->agi[i / 8] >> (56 - 8 * (i % 8))) == (i < n ? 0x61 + i : 0), "octet of an AGI");
}

/* Its CV, from a writer of messages and from a session: one octet less is too few, and no more is
 * touched. What stands in the struct behind the AGI is not written. */
static void check_pseudowire(uint8_t n) {
    const struct korvezul_packet p = {.my = 1, .multiplier = 3};
    uint8_t o[50], m[KORVEZUL_CV_OCTETS + 1];
    size_t part = pseudowire_octets(o, n), size = 28 + part;
    struct korvezul_mep_id_read r = korvezul_read_mep_id(o, part);
    struct korvezul_settings s = {.label = 100, .discriminator = 17, .period = 1000000};
    struct korvezul_cv_read v;
    need(r.answer == 0, "MEP-ID alone");
    need_pseudowire(&r.mep, n);
    for (unsigned i = n; i < 32; i++)
        r.mep.agi[i / 8] |= UINT64_C(0xee) << (56 - 8 * (i % 8));
    s.own = r.mep; /* and what is expected is a Section: the two may differ */
    memset(m, 0xa5, sizeof m);
    need(korvezul_write_cv_message(m, size - 1, p, r.mep) == KORVEZUL_BUFFER && m[0] == 0xa5, "CV too long");
    need(korvezul_write_cv_message(m, sizeof m, p, r.mep) == 0, "CV of a pseudowire");
    need(memcmp(m + 28, o, part) == 0 && m[size] == 0xa5, "octets of a MEP-ID");
    v = korvezul_read_cv(m, sizeof m);
    need(v.answer == 0 && v.place == size && v.part == 28 && v.part_octets == part,
         "CV of a pseudowire read");
    need_pseudowire(&v.mep, n);
    need(korvezul_empty(row, KORVEZUL_RECORDS, &head) == 0, "empty");
    need(korvezul_open(row, KORVEZUL_RECORDS, &head, korvezul_opened_by_us(s), 0) == 0, "pseudowire opened");
    memset(m, 0xa5, sizeof m);
    need(korvezul_write_cv(row, KORVEZUL_RECORDS, &head, korvezul_ours(100), m, size - 1) == KORVEZUL_BUFFER &&
             m[0] == 0xa5,
         "CV of a session, too long");
    need(korvezul_write_cv(row, KORVEZUL_RECORDS, &head, korvezul_ours(100), m, size) == 0, "CV of a session");
    need(memcmp(m + 28, o, part) == 0 && m[size] == 0xa5, "octets of a session's MEP-ID");
}

static void check_pseudowires(void) {
    for (uint8_t n = 0; n <= 32; n++)
        check_pseudowire(n);
    printf("pseudowires with an AGI of 0 to 32 octets: CVs of 46 to 78\n");
}

static void print_octets(const char *name, uint32_t answer, const uint8_t *o, size_t n) {
    printf("%s: %" PRIu32 "\n           ", name, answer);
    for (size_t i = 0; i < n; i++)
        printf("%02x", o[i]);
    printf("\n");
}

/* A message with another value in each field, named: two fields that change places are other octets
 * than those stored. */
static void written(void) {
    struct korvezul_packet p = {.my = 0x01020304,
                                .your = 0x05060708,
                                .transmit = 0x090a0b0c,
                                .receive = 0x0d0e0f10,
                                .echo = 0x11121314,
                                .diagnostic = 0x1f,
                                .state = 2,
                                .multiplier = 0x15};
    struct korvezul_mep_id section = {
        .kind = KORVEZUL_SECTION, .global = 0x21222324, .node = 0x25262728, .local = 0x292a2b2c};
    struct korvezul_fault f = {.node = 0x31323334,
                               .interface_number = 0x35363738,
                               .global = 0x393a3b3c,
                               .kind = 1,
                               .refresh = 20,
                               .has_if_id = 1,
                               .has_global_id = 1};
    uint8_t *const flags[] = {&p.poll, &p.final, &p.independent, &p.demand};
    static const char *const names[] = {"CC with P", "CC with F", "CC with C", "CC with D"};
    uint8_t m[KORVEZUL_CV_OCTETS];
    for (size_t i = 0; i < 4; i++) {
        *flags[i] = 1;
        print_octets(names[i], korvezul_write_cc_message(m, sizeof m, p), m, KORVEZUL_CC_OCTETS);
        *flags[i] = 0;
    }
    print_octets("CV of a Section", korvezul_write_cv_message(m, sizeof m, p, section), m, 44);
    print_octets("CV of a pseudowire", korvezul_write_cv_message(m, sizeof m, p, told.own), m,
                 KORVEZUL_CV_OCTETS);
    f.link_down = 1;
    print_octets("AIS with L", korvezul_write_fault_message(m, sizeof m, f), m, KORVEZUL_FAULT_OCTETS);
    f.link_down = 0;
    f.removed = 1;
    print_octets("AIS with R", korvezul_write_fault_message(m, sizeof m, f), m, KORVEZUL_FAULT_OCTETS);
}

/* Where each reader says that a message went wrong, with one octet after the other set to a value, and
 * how many octets the whole one uses, padded. What is beside a refusal must be noughts. */
static void *padded(const uint8_t *from, size_t n, uint8_t *to, size_t at, uint8_t value) {
    memcpy(to, from, n);
    memset(to + n, 0xee, 3);
    if (at < n)
        to[at] = value;
    return to;
}

static void place(uint32_t answer, uint64_t at, const void *fields, size_t n) {
    const uint8_t *o = fields;
    for (size_t i = 0; answer != KORVEZUL_ACCEPTED && i < n; i++)
        need(o[i] == 0, "a field beside a refusal");
    printf(" %" PRIu32 "/%" PRIu64, answer, at);
}

static void cv_places(struct korvezul_packet p, struct korvezul_mep_id id, size_t n, uint8_t value) {
    uint8_t m[KORVEZUL_CV_OCTETS], o[KORVEZUL_CV_OCTETS + 3];
    need(korvezul_write_cv_message(m, n, p, id) == 0, "CV");
    for (size_t i = 0; i <= n; i++) {
        struct korvezul_cv_read r = korvezul_read_cv(padded(m, n, o, i, value), n + 3);
        need(r.answer == 0 || (r.part == 0 && r.part_octets == 0), "part beside a refusal");
        place(r.answer, r.place, &r.packet, offsetof(struct korvezul_packet, demand) + 1);
        for (size_t k = 0; r.answer != KORVEZUL_ACCEPTED && k < sizeof r.mep; k++)
            need(((const uint8_t *)&r.mep)[k] == 0, "a MEP-ID beside a refusal");
    }
}

static void places(uint8_t value) {
    struct korvezul_packet p = {.my = 1, .your = 2, .state = 2, .multiplier = 3};
    struct korvezul_mep_id lsp = {.kind = KORVEZUL_LSP};
    struct korvezul_mep_id pseudowire = {.kind = KORVEZUL_PSEUDOWIRE, .agi_type = 1, .agi_length = 3};
    struct korvezul_fault f = {.kind = 1, .refresh = 1, .has_if_id = 1, .has_global_id = 1};
    uint8_t m[KORVEZUL_CV_OCTETS], o[KORVEZUL_CV_OCTETS + 3];
    need(korvezul_write_cc_message(m, sizeof m, p) == 0, "CC");
    printf("CC:");
    for (size_t i = 0; i <= KORVEZUL_CC_OCTETS; i++) {
        struct korvezul_cc_read r =
            korvezul_read_cc(padded(m, KORVEZUL_CC_OCTETS, o, i, value), KORVEZUL_CC_OCTETS + 3);
        place(r.answer, r.place, &r.packet, offsetof(struct korvezul_packet, demand) + 1);
    }
    printf("\nCV:");
    cv_places(p, lsp, 44, value);
    printf("\nCV of a pseudowire:");
    cv_places(p, pseudowire, 49, value);
    need(korvezul_write_fault_message(m, sizeof m, f) == 0, "AIS");
    printf("\nAIS:");
    for (size_t i = 0; i <= KORVEZUL_FAULT_OCTETS; i++) {
        struct korvezul_fault_read r =
            korvezul_read_fault(padded(m, KORVEZUL_FAULT_OCTETS, o, i, value), KORVEZUL_FAULT_OCTETS + 3);
        place(r.answer, r.place, &r.fault, offsetof(struct korvezul_fault, has_global_id) + 1);
    }
    printf("\n");
}

/* A writer's answer, and whether it left the buffer as it was: a refusal must. */
static uint8_t buffer[KORVEZUL_CV_OCTETS];

static uint32_t held(uint32_t answer) {
    for (size_t i = 0; answer != KORVEZUL_ACCEPTED && i < sizeof buffer; i++)
        need(buffer[i] == 0xa5, "an octet of a buffer beside a refusal");
    memset(buffer, 0xa5, sizeof buffer);
    return answer;
}

static struct korvezul_packet packet = {.my = 17, .your = 34, .state = 3, .multiplier = 3};
static struct korvezul_mep_id mep = {.kind = KORVEZUL_LSP};
static struct korvezul_fault fault = {.kind = 1, .refresh = 1};
static struct korvezul_settings settings = {.label = 100, .discriminator = 17, .period = 1000000};

static uint32_t cc(void) { return held(korvezul_write_cc_message(buffer, sizeof buffer, packet)); }
static uint32_t cv(void) { return held(korvezul_write_cv_message(buffer, sizeof buffer, packet, mep)); }
static uint32_t ais(void) { return held(korvezul_write_fault_message(buffer, sizeof buffer, fault)); }

static uint32_t opening(void) {
    need(korvezul_empty(row, KORVEZUL_RECORDS, &head) == 0, "empty");
    return korvezul_open(row, KORVEZUL_RECORDS, &head, korvezul_opened_by_us(settings), 0);
}

/* The answers to a mark, or a mode, of 0, 1, 2, 3 and 255. */
static void mark(uint32_t (*call)(void), const char *name, uint8_t *at) {
    static const uint8_t values[] = {0, 1, 2, 3, 255};
    printf("%s of 0, 1, 2, 3, 255:", name);
    for (size_t i = 0; i < sizeof values; i++) {
        *at = values[i];
        printf(" %" PRIu32, call());
    }
    *at = 0;
    printf("\n");
}

static void marks(void) {
    mark(cc, "CC, P", &packet.poll);
    mark(cc, "CC, F", &packet.final);
    mark(cc, "CC, C", &packet.independent);
    mark(cc, "CC, D", &packet.demand);
    mark(cv, "CV, P", &packet.poll);
    mark(cv, "CV, F", &packet.final);
    mark(cv, "CV, C", &packet.independent);
    mark(cv, "CV, D", &packet.demand);
    mark(ais, "AIS, L", &fault.link_down);
    mark(ais, "AIS, R", &fault.removed);
    mark(ais, "AIS, IF_ID", &fault.has_if_id);
    mark(ais, "AIS, Global_ID", &fault.has_global_id);
    mark(opening, "open, follow link-down", &settings.follow_link);
    mark(opening, "open, follow lock", &settings.follow_lock);
    mark(opening, "open, mode", &settings.mode);
}

/* The answers to a MEP-ID of each kind, with an AGI length. */
static void kinds(uint32_t (*call)(void), const char *name, struct korvezul_mep_id *at) {
    const struct korvezul_mep_id before = *at;
    static const uint8_t lengths[] = {0, 32, 33, 255};
    for (size_t i = 0; i < sizeof lengths; i++) {
        printf("%s of kind 0, 1, 2, 3, 65535 with an AGI length of %d:", name, lengths[i]);
        at->agi_length = lengths[i];
        for (uint32_t kind = 0; kind <= 3; kind++) {
            at->kind = (uint16_t)kind;
            printf(" %" PRIu32, call());
        }
        at->kind = 65535;
        printf(" %" PRIu32 "\n", call());
    }
    *at = before;
}

static void mep_ids(void) {
    kinds(cv, "CV", &mep);
    kinds(opening, "open, own", &settings.own);
    kinds(opening, "open, expected", &settings.expected);
}

/* The answers to the octets of a MEP-ID alone: cut behind each octet, and with an octet more; and with
 * another type, length or AGI length. */
static void alone(void) {
    uint8_t o[22];
    size_t n = pseudowire_octets(o, 3);
    o[n] = 0xee;
    printf("a MEP-ID of 21 octets, cut and padded:");
    for (size_t i = 0; i <= sizeof o; i++)
        printf(" %" PRIu32, korvezul_read_mep_id(o, i).answer);
    printf("\nits type, length and AGI length one more:");
    for (size_t i = 1; i <= 17; i += i == 1 ? 2 : 14) {
        o[i]++;
        printf(" %" PRIu32, korvezul_read_mep_id(o, sizeof o).answer);
        o[i]--;
    }
    o[1] = 3;
    printf("\nof type 3, of 4 octets and of 3: %" PRIu32 " %" PRIu32 "\n", korvezul_read_mep_id(o, 4).answer,
           korvezul_read_mep_id(o, 3).answer);
}

/* A number behind an absent IF_ID or Global_ID, and behind one that is there. */
static void behind(const char *name, uint32_t *number, uint8_t *present) {
    *number = 1;
    printf("%s of 1, absent and present: %" PRIu32, name, ais());
    *present = 1;
    printf(" %" PRIu32 "\n", ais());
    *number = 0;
    *present = 0;
}

static void absent(void) {
    behind("Node", &fault.node, &fault.has_if_id);
    behind("Interface", &fault.interface_number, &fault.has_if_id);
    behind("Global_ID", &fault.global, &fault.has_global_id);
}

/* The calls on a table, each accepted on that of `kept`: a session of each party that is crossed, both with
 * one discriminator, and its CC; and a group of each party, ours a working PE, theirs a protection PE. The ID of the
 * group is the label of the session, its service PW has the second label behind that, and its DNI-PW, which is UP, the
 * third. */
struct table {
    struct korvezul_session row[KORVEZUL_RECORDS + 1];
    struct korvezul_head head;
    uint8_t buffer[KORVEZUL_CV_OCTETS];
};

static struct table kept, lent;
static const struct korvezul_settings usual = {
    .own = {.kind = KORVEZUL_LSP, .global = 7, .node = 10, .local = 1},
    .expected = {.kind = KORVEZUL_LSP, .global = 7, .node = 20, .local = 1},
    .discriminator = 17,
    .period = 1000000};
static uint8_t message[KORVEZUL_CC_OCTETS];
#define SERVICE 2
#define DNI 3
#define PEER 55
/* what the calls are on: of the label before it an open session */
static struct korvezul_circuit circuit;

#define LENT(records) lent.row, records, &lent.head
static uint32_t empty(size_t n) { return korvezul_empty(LENT(n)); }
static uint32_t tick(size_t n) { return korvezul_tick(LENT(n), 1); }
static uint32_t open_next(size_t n) {
    struct korvezul_opening opening = {.settings = usual, .party = circuit.party};
    opening.settings.label = circuit.label + 1;
    opening.settings.discriminator++;
    return korvezul_open(LENT(n), opening, 1);
}
static uint32_t close_it(size_t n) { return korvezul_close(LENT(n), circuit, 1); }
static uint32_t lock(size_t n) { return korvezul_lock(LENT(n), circuit, 1); }
static uint32_t unlock(size_t n) { return korvezul_unlock(LENT(n), circuit, 1); }
static uint32_t receive(size_t n) { return korvezul_receive(LENT(n), circuit, message, sizeof message, 1); }
static uint32_t report(size_t n) { return korvezul_report(LENT(n), circuit).answer; }
static uint32_t why(size_t n) {
    struct korvezul_question crossing = {.circuit = circuit, .thing = KORVEZUL_A_CROSSING};
    return korvezul_why(LENT(n), crossing).answer;
}
static uint32_t write_cc(size_t n) {
    return korvezul_write_cc(LENT(n), circuit, lent.buffer, sizeof lent.buffer);
}
static uint32_t write_cv(size_t n) {
    return korvezul_write_cv(LENT(n), circuit, lent.buffer, sizeof lent.buffer);
}

static struct korvezul_group_name group(void) {
    struct korvezul_group_name name = {.party = circuit.party, .id = circuit.label};
    return name;
}
static uint32_t set_another(size_t n) {
    struct korvezul_grouping another = {.party = circuit.party};
    another.settings.id = circuit.label + 1;
    another.settings.service = circuit.label;
    another.settings.dni = circuit.label + DNI;
    return korvezul_set_group(LENT(n), another, 1);
}
static uint32_t set_ac(size_t n) {
    struct korvezul_ac_of active = {.group = group(), .ac = KORVEZUL_ACTIVE};
    return korvezul_set_ac(LENT(n), active, 1);
}
static uint32_t return_it(size_t n) { return korvezul_return_group(LENT(n), group(), 1); }
static uint32_t ask(size_t n) { return korvezul_ask_group(LENT(n), group()).answer; }
static uint32_t receive_dhc(size_t n) {
    struct korvezul_dhc d = {.id = circuit.label, .switching = {.source = PEER, .present = 1, .switches = 1}};
    struct korvezul_circuit on = {.label = circuit.label + DNI, .party = circuit.party};
    uint8_t m[KORVEZUL_DHC_SWITCHING_OCTETS];
    need(korvezul_write_dhc_message(m, sizeof m, d) == 0, "DHC message");
    return korvezul_receive(LENT(n), on, m, sizeof m, 1);
}

static const struct {
    const char *name;
    uint32_t (*call)(size_t);
} calls[] = {{"empty", empty},           {"tick", tick},           {"open", open_next},  {"close", close_it},
             {"lock", lock},             {"unlock", unlock},       {"receive", receive}, {"report", report},
             {"write CC", write_cc},     {"write CV", write_cv},   {"why", why},         {"set group", set_another},
             {"AC of a group", set_ac},  {"return", return_it},    {"ask", ask},         {"receive DHC", receive_dhc}};
#define NAMES_NONE 2 /* the first two name no party */

static void opened_and_crossed(struct korvezul_circuit on) {
    struct korvezul_opening opening = {.settings = usual, .party = on.party};
    opening.settings.label = on.label;
    need(korvezul_open(kept.row, KORVEZUL_RECORDS, &kept.head, opening, 0) == 0, "open");
    need(korvezul_receive(kept.row, KORVEZUL_RECORDS, &kept.head, on, message, sizeof message, 0) == 0,
         "crossed CC taken");
}

/* The two PWs of a group, the second of them heard; and the group, with numbers that tell its fields apart. */
static void homed(struct korvezul_circuit by, uint8_t role) {
    const struct korvezul_group_settings s = {
        .id = by.label, .peer = PEER, .service = by.label + SERVICE, .dni = by.label + DNI, .role = role};
    const struct korvezul_grouping grouping = {.settings = s, .party = by.party};
    const struct korvezul_circuit dni = {.label = s.dni, .party = by.party};
    struct korvezul_opening opening = {.settings = usual, .party = by.party};
    struct korvezul_packet init = {.my = 9, .state = KORVEZUL_INIT, .multiplier = 3};
    uint8_t m[KORVEZUL_CC_OCTETS];
    for (uint32_t i = SERVICE; i <= DNI; i++) {
        opening.settings.label = by.label + i;
        opening.settings.discriminator = usual.discriminator + i;
        need(korvezul_open(kept.row, KORVEZUL_RECORDS, &kept.head, opening, 0) == 0, "open");
    }
    init.your = opening.settings.discriminator;
    need(korvezul_write_cc_message(m, sizeof m, init) == 0, "CC");
    need(korvezul_receive(kept.row, KORVEZUL_RECORDS, &kept.head, dni, m, sizeof m, 0) == 0, "heard CC");
    need(korvezul_set_group(kept.row, KORVEZUL_RECORDS, &kept.head, grouping, 0) == 0, "group");
}

static void prepare(void) {
    memset(&kept, 0xa5, sizeof kept);
    need(korvezul_empty(kept.row, KORVEZUL_RECORDS, &kept.head) == 0, "empty");
    packet.your = usual.discriminator + 1;
    need(korvezul_write_cc_message(message, sizeof message, packet) == 0, "crossed CC");
    opened_and_crossed(korvezul_ours(100));
    opened_and_crossed(korvezul_theirs(500100));
    homed(korvezul_ours(100), KORVEZUL_WORKING);
    homed(korvezul_theirs(500100), KORVEZUL_PROTECTION);
    packet.your = usual.discriminator;
    need(korvezul_write_cc_message(message, sizeof message, packet) == 0, "CC");
}

/* A call on a copy of `kept`; beside a refusal no byte of it changes. */
static uint32_t called(size_t k, size_t records) {
    uint32_t answer;
    memcpy(&lent, &kept, sizeof kept);
    answer = calls[k].call(records);
    need(answer == KORVEZUL_ACCEPTED || memcmp(&lent, &kept, sizeof kept) == 0, "a byte beside a refusal");
    return answer;
}

/* Each call on a row of another length is answered 26 and changes no byte; of 64 it is accepted. */
static void rows(void) {
    static const size_t lengths[] = {0, KORVEZUL_RECORDS - 1, KORVEZUL_RECORDS + 1, KORVEZUL_RECORDS};
    prepare();
    circuit = korvezul_ours(100);
    for (size_t k = 0; k < sizeof calls / sizeof *calls; k++) {
        printf("%s on a row of 0, 63, 65, 64:", calls[k].name);
        for (size_t i = 0; i < sizeof lengths / sizeof *lengths; i++)
            printf(" %" PRIu32, called(k, lengths[i]));
        printf("\n");
    }
}

/* Each call that names a party, on a label of ours and on one of theirs, or on their groups: no other than its own
 * party sees them, and 256 is another number than 0. */
static void parties(void) {
    static const uint32_t labels[] = {100, 500100}, numbers[] = {0, 1, 2, 256, 257, UINT32_MAX};
    need(korvezul_party_of(499999) == KORVEZUL_OURS && korvezul_party_of(500000) == KORVEZUL_THEIRS,
         "whose label it is");
    for (size_t k = NAMES_NONE; k < sizeof calls / sizeof *calls; k++)
        for (size_t i = 0; i < sizeof labels / sizeof *labels; i++) {
            printf("%s, %" PRIu32 ", by 0, 1, 2, 256, 257, 4294967295:", calls[k].name, labels[i]);
            circuit.label = labels[i];
            for (size_t j = 0; j < sizeof numbers / sizeof *numbers; j++) {
                circuit.party = numbers[j];
                printf(" %" PRIu32, called(k, KORVEZUL_RECORDS));
            }
            printf("\n");
        }
}

/* Each number from 0 to 27 that has a name. */
static void names(void) {
    for (uint32_t i = 0; i <= 27; i++)
        if (strcmp(korvezul_answer_name(i), "unknown") != 0)
            printf("%" PRIu32 " %s\n", i, korvezul_answer_name(i));
    for (uint32_t i = 0; i <= 4; i++)
        printf("state %" PRIu32 " %s\n", i, korvezul_state_name(i));
    for (uint32_t i = 0; i <= 3; i++)
        printf("mode %" PRIu32 " %s\n", i, korvezul_mode_name(i));
    for (uint32_t i = 0; i <= 2; i++)
        printf("party %" PRIu32 " %s\n", i, korvezul_party_name(i));
    for (uint32_t i = 0; i <= 2; i++)
        printf("role %" PRIu32 " %s\n", i, korvezul_role_name(i));
    for (uint32_t i = 0; i <= 2; i++)
        printf("PW or AC %" PRIu32 " %s\n", i, korvezul_activity_name(i));
    for (uint32_t i = 0; i <= 4; i++)
        printf("forwarding %" PRIu32 " %s\n", i, korvezul_forwarding_name(i));
}

/* A configuration with every octet of its two numbers another, written and read, and each answer of
 * reader and writer once. */
static void configurations(void) {
    static const uint16_t settings[] = {3, 1, 2};
    uint8_t m[44];
    struct korvezul_configuration_read r;
    memset(m, 0xee, sizeof m);
    print_octets("configuration", korvezul_write_configuration(m, sizeof m, 0x01020304, 0x00650b0c), m, sizeof m);
    for (size_t i = 0; i < 3; i++) {
        r = korvezul_read_configuration(m, 40, settings[i]);
        printf("read with %" PRIu16 ": %" PRIu32 " %" PRIu32 " %" PRIu32 "\n", settings[i], r.answer, r.discriminator,
               r.period);
    }
    printf("39, 41, 8, 4 and 0 octets read:");
    for (size_t i = 0; i < 5; i++) {
        static const size_t octets[] = {39, 41, 8, 4, 0};
        r = korvezul_read_configuration(m, octets[i], 3);
        need(r.discriminator == 0 && r.period == 0, "a number beside a refusal");
        printf(" %" PRIu32, r.answer);
    }
    m[3] = 4;
    r = korvezul_read_configuration(m, 8, 3);
    printf("\nan empty list: %" PRIu32, r.answer);
    m[3] = 3;
    r = korvezul_read_configuration(m, 8, 3);
    printf("\nflags of 3 octets: %" PRIu32 "\n", r.answer);
    printf("not written: %" PRIu32 " %" PRIu32 "\n", korvezul_write_configuration(m, sizeof m, 0, 1000000),
           korvezul_write_configuration(m, 39, 17, 1000000));
}

/* Records of a log. What is lent is filled before each call; a refusal leaves every octet of it, and a record
 * those behind it. */
static uint8_t log_room[KORVEZUL_LOG_CALL_OCTETS + KORVEZUL_LOG_MESSAGE_OCTETS + 4];
static uint8_t log_message[KORVEZUL_LOG_MESSAGE_OCTETS + 1];
static struct korvezul_settings opened;
static struct korvezul_logged did;

static uint32_t kept_behind(uint32_t answer, size_t n) {
    for (size_t i = answer == KORVEZUL_ACCEPTED ? n : 0; i < sizeof log_room; i++)
        need(log_room[i] == 0xee, "an octet of a log beside a refusal or behind a record");
    return answer;
}

static uint32_t log_header(size_t size) {
    memset(log_room, 0xee, sizeof log_room);
    return kept_behind(korvezul_log_header(log_room, size), KORVEZUL_LOG_HEADER_OCTETS);
}

static uint32_t log_open(size_t size) {
    memset(log_room, 0xee, sizeof log_room);
    return kept_behind(korvezul_log_open(log_room, size, opened, did.time, did.answer), KORVEZUL_LOG_OPEN_OCTETS);
}

static uint32_t log_call(size_t size, size_t octets) {
    memset(log_room, 0xee, sizeof log_room);
    return kept_behind(korvezul_log_call(log_room, size, did, log_message, octets),
                       KORVEZUL_LOG_CALL_OCTETS + octets);
}

/* Every octet of a record another, so that two numbers that change places are seen. */
static void records_of_a_log(void) {
    const struct korvezul_logged all = {UINT64_C(0x0102030405060708), 0x090a0b0c, KORVEZUL_CALL_RECEIVE, 0x0d0e};
    struct korvezul_settings s = {.own = {.global = 0x41424344, .node = 0x45464748, .local = 0x494a4b4c},
                                  .expected = {.global = 0x51525354, .node = 0x55565758, .local = 0x595a5b5c},
                                  .label = 0x11121314,
                                  .discriminator = 0x21222324,
                                  .period = 0x31323334};
    s.own.kind = s.expected.kind = 0x4d4e;
    did = all;
    opened = s;
    for (size_t i = 0; i < sizeof log_message; i++)
        log_message[i] = (uint8_t)(0x61 + i);
    print_octets("header of a log", log_header(sizeof log_room), log_room, KORVEZUL_LOG_HEADER_OCTETS + 1);
    for (uint8_t marks = 0; marks < 4; marks++) {
        opened.follow_link = marks & 1;
        opened.follow_lock = marks >> 1;
        print_octets("open", log_open(sizeof log_room), log_room, KORVEZUL_LOG_OPEN_OCTETS + 1);
    }
    print_octets("receive", log_call(sizeof log_room, 6), log_room, KORVEZUL_LOG_CALL_OCTETS + 7);
    did.kind = KORVEZUL_CALL_TICK;
    print_octets("tick", log_call(sizeof log_room, 0), log_room, KORVEZUL_LOG_CALL_OCTETS + 1);
    did.kind = KORVEZUL_CALL_RECEIVE;
    printf("2,048 octets received: %" PRIu32, log_call(sizeof log_room, KORVEZUL_LOG_MESSAGE_OCTETS));
    need(memcmp(log_room + KORVEZUL_LOG_CALL_OCTETS, log_message, KORVEZUL_LOG_MESSAGE_OCTETS) == 0,
         "the longest message of a record");
    printf(", and one more: %" PRIu32 "\n", log_call(sizeof log_room, sizeof log_message));
}

/* The answers of a buffer of every size up to what is needed, of which the last alone may be 0. */
static void rooms_of_a_log(void) {
    size_t header = 0, opening = 0, plain = 0, received = 0;
    while (log_header(header) == KORVEZUL_BUFFER)
        header++;
    while (log_open(opening) == KORVEZUL_BUFFER)
        opening++;
    while (log_call(plain, 0) == KORVEZUL_BUFFER)
        plain++;
    while (log_call(received, 6) == KORVEZUL_BUFFER)
        received++;
    printf("13 below %zu, %zu, %zu, %zu octets, and then: %" PRIu32 " %" PRIu32 " %" PRIu32 " %" PRIu32 "\n", header,
           opening, plain, received, log_header(header), log_open(opening), log_call(plain, 0),
           log_call(received, 6));
}

static void kinds_of_a_log(void) {
    static const uint16_t numbers[] = {0, 1, 2, 3, 4, 5, 6, 7, 8, 9, 256, 65535};
    for (size_t octets = 0; octets < 2; octets++) {
        printf("calls 0 to 9, 256, 65535 with %zu octets:", octets);
        for (size_t i = 0; i < sizeof numbers / sizeof *numbers; i++) {
            did.kind = numbers[i];
            printf(" %" PRIu32, log_call(sizeof log_room, octets));
            need(log_call(0, octets) == (log_call(sizeof log_room, octets) == 0 ? 13u : 10u), "10 before 13");
        }
        printf("\n");
    }
}

static uint32_t log_opened(void) {
    uint32_t answer = log_open(sizeof log_room);
    need(log_open(0) == (answer == KORVEZUL_ACCEPTED ? KORVEZUL_BUFFER : KORVEZUL_RANGE), "10 before 13");
    return answer;
}

/* The answers to a setting of an open: marks and mode, then of each MEP-ID what a record has no octets for,
 * then the types. */
static void settings_of_a_log(void) {
    struct korvezul_mep_id *const ends[] = {&opened.own, &opened.expected};
    static const char *const names[] = {"own", "expected"};
    opened.follow_link = opened.follow_lock = 0;
    mark(log_opened, "log, follow link-down", &opened.follow_link);
    mark(log_opened, "log, follow lock", &opened.follow_lock);
    mark(log_opened, "log, mode", &opened.mode);
    for (size_t k = 0; k < 2; k++) {
        const struct korvezul_mep_id before = *ends[k];
        printf("log, %s, each word of an AGI, AGI type, AGI length:", names[k]);
        for (size_t i = 0; i < 4; i++) {
            ends[k]->agi[i] = i % 2 == 0 ? 1 : UINT64_C(1) << 63;
            printf(" %" PRIu32, log_opened());
            *ends[k] = before;
        }
        ends[k]->agi_type = 1;
        printf(" %" PRIu32, log_opened());
        *ends[k] = before;
        ends[k]->agi_length = 1;
        printf(" %" PRIu32 "\n", log_opened());
        *ends[k] = before;
    }
    for (uint16_t kind = 0; kind < 4; kind++) {
        printf("log, own of kind %d, expected of 0, 1, 2, 3:", kind);
        opened.own.kind = kind;
        for (opened.expected.kind = 0; opened.expected.kind < 4; opened.expected.kind++)
            printf(" %" PRIu32, log_opened());
        printf("\n");
    }
}

/* DHC messages. The fields of the struct end before its last octet, which is nobody's. */
#define DHC_FIELDS (offsetof(struct korvezul_dhc, switching) + offsetof(struct korvezul_dhc_switching, protection) + 1)
static struct korvezul_dhc dhc = {.id = 0x01020304,
                                  .status = {0x11121314, 0x15161718, 0x191a1b1c, 1, 0, 0, 0},
                                  .switching = {0x21222324, 0x25262728, 0x292a2b2c, 1, 0, 0}};

static uint32_t coordination(void) { return held(korvezul_write_dhc_message(buffer, sizeof buffer, dhc)); }

/* What is read of octets; beside a refusal noughts. */
static struct korvezul_dhc_read dhc_read(const uint8_t *o, size_t n) {
    struct korvezul_dhc_read r = korvezul_read_dhc(o, n);
    for (size_t i = 0; r.answer != KORVEZUL_ACCEPTED && i < DHC_FIELDS; i++)
        need(((const uint8_t *)&r.dhc)[i] == 0, "a field of a DHC message beside a refusal");
    return r;
}

/* Written into no more than it needs, and read back to every field; one octet less to write into is 13, and one
 * less to read 3. */
static void there_and_back(const char *name, size_t n) {
    uint8_t m[KORVEZUL_DHC_OCTETS + 1];
    struct korvezul_dhc_read r;
    memset(m, 0xa5, sizeof m);
    need(korvezul_write_dhc_message(m, n - 1, dhc) == KORVEZUL_BUFFER && m[0] == 0xa5, "DHC message too long");
    print_octets(name, korvezul_write_dhc_message(m, n, dhc), m, n);
    need(m[n] == 0xa5, "an octet behind a DHC message");
    r = dhc_read(m, n);
    need(r.answer == 0 && memcmp(&r.dhc, &dhc, DHC_FIELDS) == 0, "DHC message read");
    need(dhc_read(m, n - 1).answer == KORVEZUL_SHORT, "DHC message cut");
}

/* Each bit alone, and either TLV alone. */
static void dhc_written(void) {
    const struct korvezul_dhc both = dhc;
    const struct korvezul_dhc_status no_status = {0, 0, 0, 0, 0, 0, 0};
    const struct korvezul_dhc_switching no_switching = {0, 0, 0, 0, 0, 0};
    uint8_t *const bits[] = {&dhc.status.protection, &dhc.status.degrade, &dhc.status.fail, &dhc.switching.switches,
                             &dhc.switching.protection};
    static const char *const names[] = {"PW Status with P", "PW Status with D", "PW Status with F", "Switching with S",
                                        "Switching with P"};
    for (size_t i = 0; i < sizeof bits / sizeof *bits; i++) {
        *bits[i] = 1;
        there_and_back(names[i], KORVEZUL_DHC_OCTETS);
        *bits[i] = 0;
    }
    dhc.switching = no_switching;
    there_and_back("PW Status alone", KORVEZUL_DHC_STATUS_OCTETS);
    dhc = both;
    dhc.status = no_status;
    there_and_back("Switching alone", KORVEZUL_DHC_SWITCHING_OCTETS);
    dhc = both;
}

/* The answers with one octet after the other set to a value, and with none; then with the message cut behind
 * each. */
static void dhc_octets(void) {
    static const uint8_t values[] = {0, 255};
    uint8_t m[KORVEZUL_DHC_OCTETS], o[KORVEZUL_DHC_OCTETS + 3];
    need(korvezul_write_dhc_message(m, sizeof m, dhc) == 0, "DHC message");
    for (size_t k = 0; k < sizeof values; k++) {
        printf("octets set to %d:", values[k]);
        for (size_t i = 0; i <= sizeof m; i++)
            printf(" %" PRIu32, dhc_read(padded(m, sizeof m, o, i, values[k]), sizeof o).answer);
        printf("\n");
    }
    printf("cut behind 0, 1, 2, ..:");
    for (size_t i = 0; i <= sizeof m; i++)
        printf(" %" PRIu32, dhc_read(m, i).answer);
    printf("\n");
}

/* The answers to a message of which one octet of the total, of a type or of a length is another by one or the
 * two TLVs change places. */
static void dhc_tlvs(void) {
    static const size_t places[] = {9, 13, 15, 37, 39};
    uint8_t m[KORVEZUL_DHC_OCTETS], o[KORVEZUL_DHC_OCTETS + 3];
    struct korvezul_dhc_read r;
    need(korvezul_write_dhc_message(m, sizeof m, dhc) == 0, "DHC message");
    printf("total, type and length of each one less, and one more:");
    for (size_t i = 0; i < sizeof places / sizeof *places; i++) {
        size_t at = places[i];
        printf(" %" PRIu32, dhc_read(padded(m, sizeof m, o, at, (uint8_t)(m[at] - 1)), sizeof o).answer);
        printf("/%" PRIu32, dhc_read(padded(m, sizeof m, o, at, (uint8_t)(m[at] + 1)), sizeof o).answer);
    }
    memcpy(o, m, 12);
    memcpy(o + 12, m + 36, 20);
    memcpy(o + 32, m + 12, 24);
    r = dhc_read(o, sizeof m);
    need(r.answer == 0 && memcmp(&r.dhc, &dhc, DHC_FIELDS) == 0, "the TLVs in the other order");
    o[8] = o[9] = 0;
    printf("\nno TLV: %" PRIu32 "\n", dhc_read(o, sizeof m).answer);
}

/* A number or a bit behind a TLV that is absent, and behind one that is there. */
static void dhc_behind(const char *name, uint32_t *number, uint8_t *present) {
    *number = 1;
    *present = 0;
    printf("%s of 1, absent and present: %" PRIu32, name, coordination());
    *present = 1;
    printf(" %" PRIu32 "\n", coordination());
    *number = 0;
}

static void dhc_numbers(void) {
    struct korvezul_dhc_status *a = &dhc.status;
    struct korvezul_dhc_switching *b = &dhc.switching;
    a->destination = a->source = a->pw = b->destination = b->source = b->pw = 0;
    dhc_behind("destination of PW Status", &a->destination, &a->present);
    dhc_behind("source of PW Status", &a->source, &a->present);
    dhc_behind("DNI-PW ID of PW Status", &a->pw, &a->present);
    dhc_behind("destination of Switching", &b->destination, &b->present);
    dhc_behind("source of Switching", &b->source, &b->present);
    dhc_behind("DNI-PW ID of Switching", &b->pw, &b->present);
    mark(coordination, "PW Status, P", &a->protection);
    mark(coordination, "PW Status, D", &a->degrade);
    mark(coordination, "PW Status, F", &a->fail);
    mark(coordination, "Switching, S", &b->switches);
    mark(coordination, "Switching, P", &b->protection);
    mark(coordination, "PW Status there beside Switching", &a->present);
    mark(coordination, "absent PW Status, P", &a->protection);
    mark(coordination, "absent PW Status, D", &a->degrade);
    mark(coordination, "absent PW Status, F", &a->fail);
    mark(coordination, "Switching there without PW Status", &b->present);
    a->present = 1;
    mark(coordination, "absent Switching, S", &b->switches);
    mark(coordination, "absent Switching, P", &b->protection);
    a->present = 0;
    need(korvezul_write_dhc_message(buffer, 0, dhc) == KORVEZUL_RANGE, "10 before 13");
}

/* Dual-homing groups: what the calls below name, on a copy of `kept`, of which a refusal changes no byte. */
static struct korvezul_grouping setting;
static struct korvezul_ac_of active;
static struct korvezul_group_name name;
static struct korvezul_circuit arrival;
static uint8_t coordinating[KORVEZUL_DHC_OCTETS];
static size_t coordinating_octets, lent_records;
static uint64_t group_reading;

static uint32_t set_it(void) { return korvezul_set_group(LENT(lent_records), setting, group_reading); }
static uint32_t ac_it(void) { return korvezul_set_ac(LENT(lent_records), active, group_reading); }
static uint32_t give_back(void) { return korvezul_return_group(LENT(lent_records), name, group_reading); }
static uint32_t coordinate(void) {
    return korvezul_receive(LENT(lent_records), arrival, coordinating, coordinating_octets, group_reading);
}

/* Asking leaves every byte, answered or refused, and tells nothing beside a refusal. */
static struct korvezul_group_answer told_of(struct korvezul_group_name of) {
    static struct table before;
    struct korvezul_group_answer a;
    memcpy(&before, &lent, sizeof lent);
    a = korvezul_ask_group(LENT(lent_records), of);
    need(memcmp(&before, &lent, sizeof lent) == 0, "asking changes nothing");
    need(a.answer == 0 || (a.group.pw | a.group.ac | a.group.forwarding) == 0, "three noughts beside a refusal");
    return a;
}
static uint32_t ask_it(void) { return told_of(name).answer; }

static void answer_of(uint32_t (*call)(void)) {
    uint32_t answer;
    memcpy(&lent, &kept, sizeof kept);
    answer = call();
    need(answer == KORVEZUL_ACCEPTED || memcmp(&lent, &kept, sizeof kept) == 0, "a byte beside a refusal");
    printf(" %" PRIu32, answer);
}

/* What the calls name where they are accepted, at clock 5. */
static void accepted_arguments(void) {
    static const struct korvezul_group_settings s = {
        .id = 101, .peer = PEER, .service = 100, .dni = 100 + DNI, .role = KORVEZUL_WORKING};
    static const struct korvezul_dhc both = {.id = 100,
                                             .status = {.source = PEER, .present = 1},
                                             .switching = {.source = PEER, .present = 1}};
    setting = korvezul_grouped_by_us(s);
    name = active.group = korvezul_our_group(100);
    active.ac = KORVEZUL_ACTIVE;
    arrival = korvezul_ours(100 + DNI);
    need(korvezul_write_dhc_message(coordinating, sizeof coordinating, both) == 0, "DHC message");
    coordinating_octets = sizeof coordinating;
    lent_records = KORVEZUL_RECORDS;
    group_reading = 5;
}

/* Every field of a group where the library put it: in the record of its service PW, the first that was opened, and in
 * no other. */
static void check_group(void) {
    const struct korvezul_group_settings s = {
        .id = 0x61626364, .peer = 0x65666768, .service = 100, .dni = 100 + SERVICE, .role = KORVEZUL_PROTECTION};
    const struct korvezul_group *g = &lent.row[0].group;
    const struct korvezul_group_name by_id = korvezul_our_group(s.id);
    const struct korvezul_ac_of on = {.group = by_id, .ac = KORVEZUL_ACTIVE};
    struct korvezul_group_answer a;
    memcpy(&lent, &kept, sizeof kept);
    need(korvezul_set_group(LENT(KORVEZUL_RECORDS), korvezul_grouped_by_us(s), 6) == 0, "group");
    need(g->id == s.id && g->peer == s.peer && g->dni == s.dni, "ID, peer and DNI-PW of a group");
    need(g->set == 1 && g->role == 1 && g->pw == 0 && g->ac == 0, "mark, role, PW and AC of a group");
    need(korvezul_set_ac(LENT(KORVEZUL_RECORDS), on, 7) == 0 && g->ac == 1 && g->pw == 0, "AC of a group");
    a = korvezul_ask_group(LENT(KORVEZUL_RECORDS), by_id);
    need(a.answer == 0 && a.group.pw == 0 && a.group.ac == 1, "PW and AC of a group that is asked");
    need(lent.head.clock == 7 && lent.head.occupied == kept.head.occupied, "head behind a group");
    need(memcmp(&lent.row[1], &kept.row[1], sizeof kept.row - sizeof kept.row[0]) == 0, "a record without the group");
    printf("every field of a group is where the header has it, in the record of its service PW alone\n");
}

/* Each refusal while the ones behind it hold too, then accepted. */
static void group_refusals(void) {
    const uint64_t below = 4, above = UINT64_C(1) << 63;
    accepted_arguments();
    printf("set group: row, readings, labels, one of them, theirs, one for both, service PW taken, ID taken:");
    setting.settings.id = 100;
    setting.settings.service = setting.settings.dni = 999;
    group_reading = below;
    lent_records = KORVEZUL_RECORDS - 1;
    answer_of(set_it);
    lent_records = KORVEZUL_RECORDS;
    answer_of(set_it);
    group_reading = above;
    answer_of(set_it);
    group_reading = 5;
    answer_of(set_it);
    setting.settings.service = 100 + SERVICE;
    answer_of(set_it);
    setting.settings.dni = 500100;
    answer_of(set_it);
    setting.settings.dni = 100 + SERVICE;
    answer_of(set_it);
    setting.settings.dni = 100;
    setting.settings.id = 101;
    answer_of(set_it);
    setting.settings.service = 100 + DNI;
    setting.settings.id = 100;
    answer_of(set_it);
    setting.settings.id = 101;
    answer_of(set_it);
    printf("\nAC, return and ask: row, reading, ID, theirs, nobody's:");
    for (int k = 0; k < 3; k++) {
        uint32_t (*const call)(void) = k == 0 ? ac_it : k == 1 ? give_back : ask_it;
        accepted_arguments();
        name.id = active.group.id = 999;
        group_reading = below;
        lent_records = KORVEZUL_RECORDS - 1;
        answer_of(call);
        lent_records = KORVEZUL_RECORDS;
        answer_of(call);
        group_reading = 5;
        answer_of(call);
        name.id = active.group.id = 500100;
        answer_of(call);
        name.id = active.group.id = 100;
        name.party = active.group.party = 256;
        answer_of(call);
        name.party = active.group.party = KORVEZUL_OURS;
        answer_of(call);
        printf(k < 2 ? "," : "\n");
    }
}

/* The same of a DHC message. */
static void dhc_refusals(void) {
    accepted_arguments();
    printf("DHC message: row, reading, label, three octets, nibble, channel, cut, no TLV, ID, label, either source:");
    coordinating[0] = 0;
    coordinating_octets = 3;
    arrival = korvezul_ours(999);
    group_reading = 4;
    lent_records = 0;
    answer_of(coordinate);
    lent_records = KORVEZUL_RECORDS;
    answer_of(coordinate);
    group_reading = 5;
    answer_of(coordinate);
    arrival = korvezul_ours(100);
    answer_of(coordinate);
    coordinating_octets = sizeof coordinating - 1;
    coordinating[3] = 0x0a;
    answer_of(coordinate);
    coordinating[0] = 0x10;
    answer_of(coordinate);
    coordinating[3] = 9;
    coordinating[9] = 0x2c;
    answer_of(coordinate);
    coordinating[9] = 0;
    coordinating[7]++;
    answer_of(coordinate);
    coordinating[9] = 0x2c;
    coordinating_octets = sizeof coordinating;
    answer_of(coordinate);
    coordinating[7]--;
    answer_of(coordinate);
    arrival = korvezul_ours(100 + DNI);
    coordinating[23]++;
    answer_of(coordinate);
    coordinating[23]--;
    coordinating[47]++;
    answer_of(coordinate);
    coordinating[47]--;
    answer_of(coordinate);
    printf("\n");
}

static void print_told(struct korvezul_group_name of) {
    struct korvezul_group_answer a = told_of(of);
    need(a.answer == KORVEZUL_ACCEPTED, "a group that is there");
    printf(" %s, %s, %s", korvezul_activity_name(a.group.pw), korvezul_activity_name(a.group.ac),
           korvezul_forwarding_name(a.group.forwarding));
}

/* Roles and ACs of every number but 0 are those of 1. */
static void numbers_of_a_group(void) {
    static const uint8_t values[] = {0, 1, 2, 255};
    accepted_arguments();
    for (size_t i = 0; i < sizeof values; i++) {
        const struct korvezul_group *g = &lent.row[2].group;
        memcpy(&lent, &kept, sizeof kept);
        active.ac = values[i];
        need(ac_it() == 0, "AC");
        printf("AC of %d: %d; ", values[i], g->ac);
        need(korvezul_close(LENT(KORVEZUL_RECORDS), korvezul_ours(100 + SERVICE), 5) == 0, "close");
        setting.settings.role = values[i];
        setting.settings.service = 100 + DNI;
        setting.settings.dni = 100;
        need(set_it() == 0, "set");
        g = &lent.row[3].group;
        printf("role of %d: %d, PW %d\n", values[i], g->role, g->pw);
    }
}

/* What a DHC message does to a working PE and to a protection PE, and what return makes of it. */
static void switchover(void) {
    static const struct {
        const char *name;
        struct korvezul_dhc dhc;
    } told_by[] = {{"PW Status with P and D", {.status = {.present = 1, .protection = 1, .degrade = 1}}},
                   {"PW Status with F", {.status = {.present = 1, .fail = 1}}},
                   {"Switching with P", {.switching = {.present = 1, .protection = 1}}},
                   {"Switching with S", {.switching = {.present = 1, .switches = 1}}},
                   {"F, and Switching without S", {.status = {.present = 1, .fail = 1}, .switching = {.present = 1}}},
                   {"F, and Switching with S",
                    {.status = {.present = 1, .fail = 1}, .switching = {.present = 1, .switches = 1}}}};
    accepted_arguments();
    for (size_t i = 0; i < sizeof told_by / sizeof *told_by; i++) {
        printf("%s:\n", told_by[i].name);
        memcpy(&lent, &kept, sizeof kept);
        for (uint32_t party = KORVEZUL_OURS; party <= KORVEZUL_THEIRS; party++) {
            const uint32_t first = party == KORVEZUL_OURS ? 100 : 500100;
            struct korvezul_dhc d = told_by[i].dhc;
            name.party = arrival.party = party;
            name.id = d.id = first;
            arrival.label = first + DNI;
            d.status.source = d.status.present * PEER;
            d.switching.source = d.switching.present * PEER;
            need(korvezul_write_dhc_message(coordinating, sizeof coordinating, d) == 0, "DHC message");
            coordinating_octets = 12u + 24u * d.status.present + 20u * d.switching.present;
            printf("  %s:", korvezul_role_name(party));
            print_told(name);
            need(coordinate() == 0, "DHC message taken");
            printf(";");
            print_told(name);
            need(give_back() == 0, "return");
            printf("; returned");
            print_told(name);
            printf("\n");
        }
    }
}

/* Table 1 of RFC 8185, each row with the DNI-PW up and down, which a lock makes it. */
static void table_1(void) {
    for (int row_of = 0; row_of < 8; row_of++) {
        accepted_arguments();
        memcpy(&lent, &kept, sizeof kept);
        active.ac = (row_of & 2) == 0;
        coordinating[55] = row_of < 4 ? 0 : 2; /* S */
        need(ac_it() == 0 && coordinate() == 0, "AC and DHC message");
        if ((row_of & 1) != 0)
            need(korvezul_lock(LENT(KORVEZUL_RECORDS), arrival, 5) == 0, "lock");
        printf("DNI-PW %s:", (row_of & 1) == 0 ? "up" : "down");
        print_told(name);
        printf("\n");
    }
}

/* A working PE's PW at the last reading without a loss of the service PW and at the first with it, by a tick; and
 * behind a crossed CC on it. */
static void ailing(void) {
    static const uint64_t ticks[] = {3000000, 3000001};
    uint8_t m[KORVEZUL_CC_OCTETS];
    struct korvezul_packet crossed = {.my = 9, .your = 1, .state = KORVEZUL_UP, .multiplier = 3};
    accepted_arguments();
    for (size_t i = 0; i < 2; i++) {
        memcpy(&lent, &kept, sizeof kept);
        need(korvezul_tick(LENT(KORVEZUL_RECORDS), ticks[i]) == 0, "tick");
        printf("tick to %" PRIu64 ":", ticks[i]);
        print_told(name);
        printf("\n");
    }
    memcpy(&lent, &kept, sizeof kept);
    need(korvezul_write_cc_message(m, sizeof m, crossed) == 0, "crossed CC");
    arrival.label = 100 + SERVICE;
    need(korvezul_receive(LENT(KORVEZUL_RECORDS), arrival, m, sizeof m, 5) == 0, "crossed CC taken");
    printf("crossed CC:");
    print_told(name);
    printf("\n");
}

static void groups(void) {
    prepare();
    need(korvezul_tick(kept.row, KORVEZUL_RECORDS, &kept.head, 5) == 0, "tick");
    check_group();
    group_refusals();
    dhc_refusals();
    numbers_of_a_group();
    switchover();
    table_1();
    ailing();
}

static void headline(const char *text) { printf("-- %s\n", text); }

int main(void) {
    check_version();
    check_layout();
    check_octets();
    check_pseudowires();
    headline("each field in its own octets");
    written();
    headline("answer and place, with one octet after the other set to 0, and with none");
    places(0);
    headline("and set to 255");
    places(255);
    headline("marks");
    marks();
    headline("MEP-IDs");
    mep_ids();
    alone();
    headline("numbers behind what is absent");
    absent();
    headline("rows of another length");
    rows();
    headline("parties");
    parties();
    headline("configurations");
    configurations();
    headline("records of a log");
    records_of_a_log();
    rooms_of_a_log();
    kinds_of_a_log();
    settings_of_a_log();
    headline("DHC messages");
    dhc_written();
    dhc_octets();
    dhc_tlvs();
    dhc_numbers();
    headline("dual-homing groups");
    groups();
    headline("names");
    names();
    return 0;
}
