/*
 * A host of the library in C: two tables in one process, joined by a wire that this host can cross,
 * cut and silence. It prints a timeline (reading, end, call, answer, what was said), which hosts/run
 * compares with hosts/timeline. Each end keeps a log of what it did; `card LOG-A LOG-B` leaves them in
 * two files, which hosts/run asks about the reports of the timeline.
 */
#include <inttypes.h>
#include <stdio.h>
#include <stdlib.h>
#include <string.h>

#include "korvezul_names.h"

/* The octets of a log, and the labels of the open sessions that are not in it. */
struct log {
    uint8_t octets[16384];
    size_t size;
    uint32_t beside[KORVEZUL_RECORDS];
    size_t besides;
};

/* One end of the circuit: a table of its own with its log, and the label that its session listens on. */
struct end {
    const char *name;
    struct korvezul_session row[KORVEZUL_RECORDS];
    struct korvezul_head head;
    uint32_t label;
    struct log log;
};

static struct end a = {.name = "A", .label = 100};
static struct end b = {.name = "B", .label = 200};
static uint64_t now;
static const uint8_t nothing[1];

static void said(const struct end *e, const char *call, uint32_t label, uint32_t answer) {
    printf("%9" PRIu64 " %s %s", now, e->name, call);
    if (label != 0)
        printf(" %" PRIu32, label);
    printf(": %" PRIu32, answer);
    if (answer != KORVEZUL_ACCEPTED)
        printf(", %s", korvezul_answer_name(answer));
    printf("\n");
}

static void octets(const uint8_t *o, size_t n) {
    printf("           ");
    for (size_t i = 0; i < n; i++)
        printf("%02x", o[i]);
    printf("\n");
}

/* ---- the log of an end: a record behind each call. A record has no room for the settings of a
 * pseudowire or of an independent session; such a label stands beside the log until its session is
 * closed, and to every other label an accepted call on it is what a tick is. */

#define REST(log) (log)->octets + (log)->size, sizeof(log)->octets - (log)->size

static void written(struct log *log, uint32_t answer, size_t n) {
    if (answer != KORVEZUL_ACCEPTED) {
        printf("a log is full, or a message does not fit into it\n");
        exit(1);
    }
    log->size += n;
}

static void record(struct log *log, struct korvezul_logged what, const uint8_t *message, size_t n) {
    written(log, korvezul_log_call(REST(log), what, message, n), KORVEZUL_LOG_CALL_OCTETS + n);
}

static void record_tick(struct log *log) {
    struct korvezul_logged what = {.time = now, .kind = KORVEZUL_CALL_TICK};
    record(log, what, nothing, 0);
}

/* Where a label stands beside the log, or how many labels do. */
static size_t place_beside(const struct log *log, uint32_t label) {
    size_t i = 0;
    while (i < log->besides && log->beside[i] != label)
        i++;
    return i;
}

/* A call with its message and its answer. What 13 and 26 are about, a buffer and a row, is in no record. */
static uint32_t logged_message(struct end *e, uint16_t kind, uint32_t label, uint32_t answer,
                               const uint8_t *message, size_t n) {
    struct log *log = &e->log;
    struct korvezul_logged what = {.time = now, .label = label, .kind = kind, .answer = (uint16_t)answer};
    size_t place = place_beside(log, label);
    if (answer == KORVEZUL_BUFFER || answer == KORVEZUL_TABLE)
        return answer;
    if (place == log->besides) {
        record(log, what, message, n);
    } else if (answer == KORVEZUL_ACCEPTED && kind <= KORVEZUL_CALL_RECEIVE) {
        record_tick(log);
        if (kind == KORVEZUL_CALL_CLOSE)
            log->beside[place] = log->beside[--log->besides];
    }
    return answer;
}

static uint32_t logged(struct end *e, uint16_t kind, uint32_t label, uint32_t answer) {
    return logged_message(e, kind, label, answer, nothing, 0);
}

/* An open. One that is refused may be so for a session beside the log, and is left out then. */
static uint32_t logged_open(struct end *e, struct korvezul_settings s, uint32_t answer) {
    struct log *log = &e->log;
    uint32_t n;
    if (answer == KORVEZUL_TABLE || (answer != KORVEZUL_ACCEPTED && log->besides > 0))
        return answer;
    n = korvezul_log_open(REST(log), s, now, (uint16_t)answer);
    if (n != KORVEZUL_RANGE) {
        written(log, n, KORVEZUL_LOG_OPEN_OCTETS);
    } else if (answer == KORVEZUL_ACCEPTED) {
        log->beside[log->besides++] = s.label;
        record_tick(log);
    }
    return answer;
}

/* A log begins where the table is made empty. */
static void empty(struct end *e) {
    uint32_t answer = korvezul_empty(e->row, KORVEZUL_RECORDS, &e->head);
    e->log.size = e->log.besides = 0;
    written(&e->log, korvezul_log_header(REST(&e->log)), KORVEZUL_LOG_HEADER_OCTETS);
    said(e, "empty", 0, answer);
}

static int leave(const struct log *log, const char *path) {
    FILE *to = fopen(path, "wb");
    if (to == NULL)
        return 1;
    return (fwrite(log->octets, 1, log->size, to) != log->size) | (fclose(to) != 0);
}

/* ---- the calls, each with a line of the timeline and a record of the log */

static void tick(struct end *e) {
    uint32_t answer = korvezul_tick(e->row, KORVEZUL_RECORDS, &e->head, now);
    said(e, "tick", 0, logged(e, KORVEZUL_CALL_TICK, 0, answer));
}

static void report(struct end *e) {
    struct korvezul_report_answer r = korvezul_report(e->row, KORVEZUL_RECORDS, &e->head, korvezul_ours(e->label));
    said(e, "report", e->label, logged(e, KORVEZUL_CALL_REPORT, e->label, r.answer));
    if (r.answer == KORVEZUL_ACCEPTED)
        printf("           %s, crossing %d, loss %d, alarm %d, RDI %d, blocked %d, conditions %d\n",
               korvezul_state_name(r.state), r.crossing, r.loss, r.alarm, r.rdi, r.blocked, r.conditions);
}

static void receive(struct end *e, const uint8_t *message, size_t n) {
    uint32_t answer = korvezul_receive(e->row, KORVEZUL_RECORDS, &e->head, korvezul_ours(e->label), message, n, now);
    said(e, "receive", e->label, logged_message(e, KORVEZUL_CALL_RECEIVE, e->label, answer, message, n));
}

static void lock(struct end *e) {
    uint32_t answer = korvezul_lock(e->row, KORVEZUL_RECORDS, &e->head, korvezul_ours(e->label), now);
    said(e, "lock", e->label, logged(e, KORVEZUL_CALL_LOCK, e->label, answer));
}

static void unlock(struct end *e) {
    uint32_t answer = korvezul_unlock(e->row, KORVEZUL_RECORDS, &e->head, korvezul_ours(e->label), now);
    said(e, "unlock", e->label, logged(e, KORVEZUL_CALL_UNLOCK, e->label, answer));
}

/* Close, of the first records of the row. */
static void close_of(struct end *e, size_t records) {
    uint32_t answer = korvezul_close(e->row, records, &e->head, korvezul_ours(e->label), now);
    said(e, "close", e->label, logged(e, KORVEZUL_CALL_CLOSE, e->label, answer));
}

static uint32_t write_cv(struct end *e, uint32_t label, uint8_t *m, size_t n) {
    uint32_t answer = korvezul_write_cv(e->row, KORVEZUL_RECORDS, &e->head, korvezul_ours(label), m, n);
    said(e, "write CV", label, logged(e, KORVEZUL_CALL_WRITE_CV, label, answer));
    return answer;
}

/* The CC that one end is to send, heard by the other. */
static void pass_cc(struct end *from, struct end *to) {
    uint8_t m[KORVEZUL_CC_OCTETS];
    uint32_t answer;
    tick(from);
    answer = korvezul_write_cc(from->row, KORVEZUL_RECORDS, &from->head, korvezul_ours(from->label), m, sizeof m);
    said(from, "write CC", from->label, logged(from, KORVEZUL_CALL_WRITE_CC, from->label, answer));
    if (answer == KORVEZUL_ACCEPTED) {
        octets(m, sizeof m);
        receive(to, m, sizeof m);
    }
}

/* The same for the CV of any label of the sender; its reader says how many octets it has. */
static void pass_cv(struct end *from, uint32_t label, struct end *to) {
    uint8_t m[KORVEZUL_CV_OCTETS] = {0};
    tick(from);
    if (write_cv(from, label, m, sizeof m) == KORVEZUL_ACCEPTED) {
        size_t n = (size_t)korvezul_read_cv(m, sizeof m).place;
        octets(m, n);
        receive(to, m, n);
    }
}

static void both(void) {
    pass_cc(&a, &b);
    pass_cc(&b, &a);
}

/* Once a second, both ways. */
static void exchange(uint64_t from, uint64_t to) {
    for (now = from; now < to; now += 1000000)
        both();
    now = to;
    both();
}

static struct korvezul_mep_id lsp(uint32_t node) {
    struct korvezul_mep_id id = {.kind = KORVEZUL_LSP, .global = 7, .node = node, .local = 0x00050001};
    return id;
}

/* A pseudowire from its octets: AC_ID 5, and an AGI of type 1 and 9 octets, of which the last is `group`. */
static struct korvezul_mep_id pseudowire(uint8_t node, uint8_t group) {
    const uint8_t o[] = {0, 2, 0, 23, 0,   0,   0,   7,   0,   0,   0,   node, 0,    0,
                         0, 5, 1, 9,  'g', 'r', 'o', 'u', 'p', ' ', 'n', 'o',  group};
    return korvezul_read_mep_id(o, sizeof o).mep;
}

static void open_in_mode(struct end *e, uint32_t label, uint32_t discriminator, struct korvezul_mep_id own,
                         struct korvezul_mep_id expected, uint8_t mode) {
    char call[32] = "open";
    struct korvezul_settings s = {.own = own,
                                  .expected = expected,
                                  .label = label,
                                  .discriminator = discriminator,
                                  .period = 1000000,
                                  .follow_link = 1,
                                  .follow_lock = 0,
                                  .mode = mode};
    uint32_t answer = korvezul_open(e->row, KORVEZUL_RECORDS, &e->head, korvezul_opened_by_us(s), now);
    if (mode != KORVEZUL_COORDINATED)
        snprintf(call, sizeof call, "open as %s", korvezul_mode_name(mode));
    said(e, call, label, logged_open(e, s, answer));
}

static void open_session(struct end *e, uint32_t label, uint32_t discriminator, struct korvezul_mep_id own,
                         struct korvezul_mep_id expected) {
    open_in_mode(e, label, discriminator, own, expected, KORVEZUL_COORDINATED);
}

/* AIS with link down from a node in between, refreshed every second. */
static void ais(struct end *to) {
    struct korvezul_fault f = {.node = 30,
                               .interface_number = 4,
                               .global = 7,
                               .kind = 1,
                               .link_down = 1,
                               .refresh = 1,
                               .has_if_id = 1,
                               .has_global_id = 1};
    uint8_t m[KORVEZUL_FAULT_OCTETS];
    uint32_t answer = korvezul_write_fault_message(m, sizeof m, f);
    printf("%9" PRIu64 " AIS written: %" PRIu32 "\n", now, answer);
    octets(m, sizeof m);
    receive(to, m, sizeof m);
}

static void headline(const char *text) { printf("-- %s\n", text); }

/* What the readers and the writers refuse: a message of each kind, and fields. */
static void message_refusals(uint8_t *cc, uint8_t *fault, struct korvezul_packet p) {
    static const struct korvezul_packet none;
    struct korvezul_cc_read r = korvezul_read_cc(cc, 27);
    struct korvezul_cv_read v = korvezul_read_cv(cc, KORVEZUL_CC_OCTETS);
    struct korvezul_fault_read w;
    printf("CC of 27 octets: %" PRIu32 " at %" PRIu64 ", and %s\n", r.answer, r.place,
           memcmp(&r.packet, &none, offsetof(struct korvezul_packet, demand) + 1) == 0 ? "noughts"
                                                                                       : "something");
    printf("CC read as a CV: %" PRIu32 " at %" PRIu64 "\n", v.answer, v.place);
    fault[10] = 3;
    w = korvezul_read_fault(fault, 15);
    printf("Global_ID of length 3: %" PRIu32 " at %" PRIu64 "\n", w.answer, w.place);
    printf("CC into 27 octets: %" PRIu32 "\n", korvezul_write_cc_message(cc, 27, p));
    p.poll = 2;
    printf("P of 2 written: %" PRIu32 "\n", korvezul_write_cc_message(cc, KORVEZUL_CC_OCTETS, p));
}

/* The readers and writers of messages alone. */
static void messages(void) {
    uint8_t cc[KORVEZUL_CC_OCTETS], cv[47] = {0}, fault[KORVEZUL_FAULT_OCTETS];
    struct korvezul_packet p = {.my = 17,
                                .your = 34,
                                .transmit = 1000000,
                                .receive = 1000000,
                                .echo = 0,
                                .diagnostic = 3,
                                .state = 3,
                                .multiplier = 3,
                                .final = 1};
    struct korvezul_fault f = {.kind = 2, .refresh = 20, .removed = 1, .global = 9, .has_global_id = 1};
    struct korvezul_cc_read r;
    struct korvezul_cv_read v;
    struct korvezul_fault_read w;
    printf("write CC: %" PRIu32, korvezul_write_cc_message(cc, sizeof cc, p));
    r = korvezul_read_cc(cc, sizeof cc);
    printf(", read: %" PRIu32 ", %" PRIu64 " octets, my %" PRIu32 ", your %" PRIu32
           ", state %d, diagnostic %d, F %d\n",
           r.answer, r.place, r.packet.my, r.packet.your, r.packet.state, r.packet.diagnostic,
           r.packet.final);
    printf("write CV: %" PRIu32, korvezul_write_cv_message(cv, sizeof cv, p, lsp(20)));
    v = korvezul_read_cv(cv, sizeof cv);
    printf(", read: %" PRIu32 ", %" PRIu64 " octets of 47, node %" PRIu32 ", part from octet %" PRIu32 "\n",
           v.answer, v.place, v.mep.node, v.part);
    octets(cv + v.part, v.part_octets);
    printf("write LKR: %" PRIu32, korvezul_write_fault_message(fault, sizeof fault, f));
    w = korvezul_read_fault(fault, 15);
    printf(", read: %" PRIu32 ", %" PRIu64
           " octets, type %d, R %d, refresh %d, IF_ID %d, Global_ID %d: %" PRIu32 "\n",
           w.answer, w.place, w.fault.kind, w.fault.removed, w.fault.refresh, w.fault.has_if_id,
           w.fault.has_global_id, w.fault.global);
    message_refusals(cc, fault, p);
}

static void both_report(void) {
    report(&a);
    report(&b);
}

static void tick_and_report(struct end *e, uint64_t reading) {
    now = reading;
    tick(e);
    report(e);
}

static void come_up(void) {
    headline("two tables made empty, a session opened in each");
    empty(&a);
    empty(&b);
    open_session(&a, 100, 17, lsp(10), lsp(20));
    open_session(&b, 200, 34, lsp(20), lsp(10));
    headline("CC goes both ways until both are UP");
    exchange(0, 2000000);
    both_report();
    headline("CV goes both ways, and each end is the one expected");
    now = 2500000;
    pass_cv(&a, a.label, &b);
    pass_cv(&b, b.label, &a);
    both_report();
}

static void cross(void) {
    headline("the CV of another circuit of A comes out at B: crossed, blocked, down");
    now = 3000000;
    open_session(&a, 101, 18, lsp(11), lsp(21));
    pass_cv(&a, 101, &b);
    report(&b);
    headline("set right again: B is held down until 3.5 seconds after the crossed message");
    exchange(3000000, 6000000);
    both_report();
    tick_and_report(&b, 6499999);
    tick_and_report(&b, 6500000);
    headline("nothing holds B any more: both come up");
    exchange(7000000, 9000000);
    both_report();
}

static void cut(void) {
    headline("the wire is cut: no loss at 3 periods, a loss and its alarm one microsecond later");
    tick_and_report(&a, 12000000);
    now = 12000001;
    tick(&a);
    tick(&b);
    both_report();
    headline("AIS tells A why: the alarm is held back while it stands");
    ais(&a);
    report(&a);
    tick_and_report(&a, 15500000);
    tick_and_report(&a, 15500001);
    headline("the wire is whole: both come up again");
    exchange(16000000, 18000000);
    both_report();
}

static void lock_and_unlock(void) {
    headline("A is locked: B hears ADMIN DOWN, and A takes no BFD message");
    lock(&a);
    both();
    both_report();
    headline("and unlocked");
    unlock(&a);
    exchange(18000000, 20000000);
    both_report();
}

/* A buffer with one octet less than the CV of this pseudowire has stays as it is. */
static void too_short(struct end *e, uint32_t label) {
    uint8_t m[54];
    memset(m, 0xa5, sizeof m);
    write_cv(e, label, m, sizeof m);
    octets(m, sizeof m);
}

static void over_a_pseudowire(void) {
    headline("a pseudowire beside the LSP: its CV has 46 octets and those of its AGI");
    open_session(&a, 102, 19, pseudowire(10, '1'), pseudowire(20, '1'));
    open_session(&b, 202, 35, pseudowire(20, '1'), pseudowire(10, '1'));
    a.label = 102;
    b.label = 202;
    too_short(&a, 102);
    pass_cv(&a, 102, &b);
    pass_cv(&b, 202, &a);
    both_report();
    headline("the CV of another group comes out at B: its AGI differs in the last octet");
    open_session(&a, 103, 20, pseudowire(10, '2'), pseudowire(20, '2'));
    pass_cv(&a, 103, &b);
    report(&b);
    a.label = 100;
    b.label = 200;
}

static void refusals(void) {
    headline("refusals");
    now = 19999999;
    close_of(&a, KORVEZUL_RECORDS);
    now = 20000000;
    close_of(&a, KORVEZUL_RECORDS - 1);
    close_of(&a, KORVEZUL_RECORDS);
    report(&a);
}

/* One direction, from A to B: the source hears how the sink is, and what it misses itself is nothing. */
static void independently(void) {
    headline("an independent session from A to B: A is its source, B its sink");
    a.label = 104;
    b.label = 204;
    open_in_mode(&a, a.label, 21, lsp(10), lsp(20), KORVEZUL_SOURCE);
    open_in_mode(&b, b.label, 36, lsp(20), lsp(10), KORVEZUL_SINK);
    headline("both come up, and the source asks for nothing: its required receive interval is 0");
    both();
    pass_cc(&a, &b);
    both_report();
    headline("the wire is cut: the sink has a loss, the source has none");
    tick_and_report(&a, 23000001);
    tick_and_report(&b, 23000001);
    headline("the sink says so: the source shows a remote defect and stays UP");
    pass_cc(&b, &a);
    report(&a);
    headline("the CV of another circuit comes out at A: the source is blocked and stays UP");
    pass_cv(&b, 202, &a);
    report(&a);
    headline("the wire is whole: the UP of the source brings the sink up");
    pass_cc(&a, &b);
    report(&b);
    headline("a mode that is none");
    open_in_mode(&a, 105, 22, lsp(10), lsp(20), 3);
}

int main(int argc, char **argv) {
    if (korvezul_version() != KORVEZUL_VERSION) {
        printf("header and library are of two versions\n");
        return 1;
    }
    come_up();
    cross();
    cut();
    lock_and_unlock();
    over_a_pseudowire();
    refusals();
    independently();
    headline("messages alone");
    messages();
    return argc == 3 ? leave(&a.log, argv[1]) | leave(&b.log, argv[2]) : 0;
}
