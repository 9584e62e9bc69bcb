/*
 * One call on a table of 1 or 64 open sessions, for `hosts/cost` to count: `cost CALL OPEN STATE`.
 * The first 32 sessions are ours, the others theirs.
 * STATE is `usual` (labels in a row, sessions of LSPs, UP, no condition) or `worst` (labels that share
 * one mark of the scan, discriminators that share one in each party, sessions of pseudowires with the
 * longest AGI, four conditions standing and a crossing in each). For a call on a group, with 2 sessions or more, the
 * last session is the service PW of one and the session before it the DNI-PW; in the worst state every session has a
 * group.
 * Under valgrind the call alone is counted; without it the stack that it used is printed.
 */
#define _DEFAULT_SOURCE
#include <stdio.h>
#include <stdlib.h>
#include <string.h>
#include <ucontext.h>
#include <valgrind/callgrind.h>

#include "korvezul.h"

#define STACK 65536

static struct korvezul_session row[KORVEZUL_RECORDS];
static struct korvezul_head head;
static int worst;
static uint64_t now;
static unsigned last_place; /* every scan comes to it last */
static struct korvezul_circuit last; /* its label, called by its party */
static uint8_t cc[KORVEZUL_CC_OCTETS], cv[KORVEZUL_CV_OCTETS], ais[9 + 254], buffer[KORVEZUL_CV_OCTETS];
static uint8_t coordination[KORVEZUL_DHC_OCTETS];
static struct korvezul_dhc dhc = {7, {1, 55, 2, 1, 0, 0, 1}, {1, 55, 2, 1, 1, 0}};
static uint8_t configuration[40];
static size_t cv_octets; /* of the CV that is received */

static void accepted(uint32_t answer) {
    if (answer != 0) {
        fprintf(stderr, "cost: answer %u\n", (unsigned)answer);
        exit(1);
    }
}

/* In the worst state theirs are alike modulo 1,024 to ours; in the usual one no two labels are. */
static uint32_t label_of(unsigned i) {
    uint32_t n = i % KORVEZUL_PARTY_SESSIONS, first = i < KORVEZUL_PARTY_SESSIONS ? 0 : KORVEZUL_FIRST_OF_THEIRS;
    return worst ? (first + 1023) / 1024 * 1024 + 16 + 1024 * n : first + 100 + n;
}

static struct korvezul_circuit circuit_of(unsigned i) {
    struct korvezul_circuit c = {label_of(i), korvezul_party_of(label_of(i))};
    return c;
}

static struct korvezul_mep_id mep_of(uint32_t node, uint32_t local) {
    struct korvezul_mep_id lsp = {{0, 0, 0, 0}, 7, node, local, KORVEZUL_LSP, 0, 0};
    struct korvezul_mep_id pseudowire = {{1, 2, 3, 4}, 7, node, local, KORVEZUL_PSEUDOWIRE, 1, 32};
    return worst ? pseudowire : lsp;
}

static struct korvezul_opening opening_of(unsigned i) {
    struct korvezul_settings s = {mep_of(10, i), mep_of(20, i), label_of(i), label_of(i),
                                  10000000,      1,             1,           KORVEZUL_COORDINATED};
    struct korvezul_opening o = {s, circuit_of(i).party};
    return o;
}

static uint32_t id_of(unsigned i) { return 7 + i; }

static struct korvezul_grouping grouping_of(unsigned i) {
    struct korvezul_group_settings s = {id_of(i), 55, label_of(i), label_of(i ^ 1), KORVEZUL_WORKING};
    struct korvezul_grouping g = {s, circuit_of(i).party};
    return g;
}

static void receive(unsigned i, const uint8_t *m, size_t n) {
    accepted(korvezul_receive(row, KORVEZUL_RECORDS, &head, circuit_of(i), m, n, now));
}

static void write_cc(uint32_t your, uint8_t state) {
    struct korvezul_packet p = {9, your, 1000000, 1000000, 0, 0, state, 3, 1, 0, 0, 0};
    accepted(korvezul_write_cc_message(cc, sizeof cc, p));
}

/* Sessions that came UP, and in the worst state four conditions of one type and a crossing in each. */
static void prepare(unsigned open) {
    accepted(korvezul_empty(row, KORVEZUL_RECORDS, &head));
    for (unsigned i = 0; i < open; i++) {
        accepted(korvezul_open(row, KORVEZUL_RECORDS, &head, opening_of(i), now));
        write_cc(label_of(i), 1);
        receive(i, cc, sizeof cc);
        write_cc(label_of(i), 3);
        receive(i, cc, sizeof cc);
        for (uint32_t k = 0; worst && k < 4; k++) {
            struct korvezul_fault f = {1, k, 0, 1, 0, 0, 20, 1, 0};
            uint8_t m[19];
            accepted(korvezul_write_fault_message(m, sizeof m, f));
            receive(i, m, sizeof m);
        }
        if (worst) {
            write_cc(1, 3);
            receive(i, cc, sizeof cc);
        }
        last_place = i;
    }
    last = circuit_of(last_place);
}

/* The groups; `but_last` leaves the last to be set. */
static void prepare_groups(int but_last) {
    for (unsigned i = worst ? 0 : last_place; i + (unsigned)but_last <= last_place; i++)
        accepted(korvezul_set_group(row, KORVEZUL_RECORDS, &head, grouping_of(i), now));
    dhc.id = id_of(last_place);
}

/* What is received: a CC, a CV, and the fault message with the most TLVs, all passed over; and what is read alone. */
static void messages(void) {
    struct korvezul_packet p = {9, last.label, 1000000, 1000000, 0, 0, 3, 3, 1, 0, 0, 0};
    struct korvezul_mep_id expected = mep_of(20, last_place);
    struct korvezul_fault f = {0, 0, 0, 1, 1, 1, 20, 0, 0};
    accepted(korvezul_write_cc_message(cc, sizeof cc, p));
    accepted(korvezul_write_cv_message(cv, sizeof cv, p, expected));
    cv_octets = (size_t)korvezul_read_cv(cv, sizeof cv).place;
    accepted(korvezul_write_configuration(configuration, sizeof configuration, 17, 1000000));
    accepted(korvezul_write_dhc_message(coordination, sizeof coordination, dhc));
    accepted(korvezul_write_fault_message(ais, sizeof ais, f));
    ais[8] = 254;
    for (int i = 9; i < 9 + 254; i += 2)
        ais[i] = 3;
}

/* The calls, each with arguments that are accepted. */
#define TABLE row, KORVEZUL_RECORDS, &head
static const struct korvezul_packet packet = {9, 1, 1000000, 1000000, 0, 0, 3, 3, 1, 0, 0, 0};
static const struct korvezul_fault fault = {1, 2, 3, 1, 0, 0, 20, 1, 1};

static uint32_t none(void) { return 0; } /* what the counting itself costs */
static uint32_t empty(void) { return korvezul_empty(TABLE); }
static uint32_t tick(void) { return korvezul_tick(TABLE, now); }
static uint32_t open_one(void) { return korvezul_open(TABLE, opening_of(63), now); }
static uint32_t close_one(void) { return korvezul_close(TABLE, last, now); }
static uint32_t lock(void) { return korvezul_lock(TABLE, last, now); }
static uint32_t unlock(void) { return korvezul_unlock(TABLE, last, now); }
static uint32_t receive_cc(void) { return korvezul_receive(TABLE, last, cc, sizeof cc, now); }
static uint32_t receive_cv(void) { return korvezul_receive(TABLE, last, cv, cv_octets, now); }
static uint32_t receive_fault(void) { return korvezul_receive(TABLE, last, ais, sizeof ais, now); }
static struct korvezul_group_name name_of_last(void) {
    struct korvezul_group_name n = {last.party, id_of(last_place)};
    return n;
}
static uint32_t set_group(void) { return korvezul_set_group(TABLE, grouping_of(last_place), now); }
static uint32_t set_ac(void) {
    struct korvezul_ac_of ac = {name_of_last(), KORVEZUL_ACTIVE};
    return korvezul_set_ac(TABLE, ac, now);
}
static uint32_t return_group(void) { return korvezul_return_group(TABLE, name_of_last(), now); }
static uint32_t ask_group(void) { return korvezul_ask_group(TABLE, name_of_last()).answer; }
static uint32_t receive_dhc(void) {
    return korvezul_receive(TABLE, circuit_of(last_place ^ 1), coordination, sizeof coordination, now);
}
static uint32_t report(void) { return korvezul_report(TABLE, last).answer; }
static uint32_t why(void) { /* the last of four conditions; in the usual state none stands */
    struct korvezul_question q = {last, {1, 3, 0, 1, 1, 0}, KORVEZUL_A_CONDITION};
    uint32_t n = korvezul_why(TABLE, q).answer;
    return !worst && n == KORVEZUL_NOT_SO ? KORVEZUL_ACCEPTED : n;
}
static uint32_t cc_of_session(void) { return korvezul_write_cc(TABLE, last, buffer, sizeof buffer); }
static uint32_t cv_of_session(void) { return korvezul_write_cv(TABLE, last, buffer, sizeof buffer); }
static uint32_t read_cc(void) { return korvezul_read_cc(cc, sizeof cc).answer; }
static uint32_t read_cv(void) { return korvezul_read_cv(cv, cv_octets).answer; }
static uint32_t read_fault(void) { return korvezul_read_fault(ais, sizeof ais).answer; }
static uint32_t cc_message(void) { return korvezul_write_cc_message(buffer, sizeof buffer, packet); }
static uint32_t cv_message(void) {
    return korvezul_write_cv_message(buffer, sizeof buffer, packet, mep_of(20, 0));
}
static uint32_t read_mep_id(void) { return korvezul_read_mep_id(cv + 28, cv_octets - 28).answer; }
static uint32_t fault_message(void) { return korvezul_write_fault_message(buffer, sizeof buffer, fault); }
static uint32_t dhc_message(void) { return korvezul_write_dhc_message(buffer, sizeof buffer, dhc); }
static uint32_t read_dhc(void) { /* as it is written, with both TLVs */
    return korvezul_read_dhc(coordination, sizeof coordination).answer;
}
static uint32_t write_configuration(void) {
    return korvezul_write_configuration(buffer, sizeof buffer, 17, 1000000);
}
static uint32_t read_configuration(void) { /* as it is written: all four entries that are known */
    return korvezul_read_configuration(configuration, sizeof configuration, 3).answer;
}
static uint32_t log_header(void) { return korvezul_log_header(buffer, sizeof buffer); }
static uint32_t log_open(void) { /* of LSPs: a record holds no pseudowire */
    struct korvezul_mep_id lsp = {{0, 0, 0, 0}, 7, 10, 1, KORVEZUL_LSP, 0, 0};
    struct korvezul_settings s = {lsp, lsp, 100, 17, 10000000, 1, 1, KORVEZUL_COORDINATED};
    return korvezul_log_open(buffer, sizeof buffer, s, now, 0);
}
static uint32_t log_tick(void) {
    struct korvezul_logged w = {now, 0, KORVEZUL_CALL_TICK, 0};
    return korvezul_log_call(buffer, sizeof buffer, w, cc, 0);
}
static uint32_t log_cc(void) {
    struct korvezul_logged w = {now, last.label, KORVEZUL_CALL_RECEIVE, 0};
    return korvezul_log_call(buffer, sizeof buffer, w, cc, sizeof cc);
}

struct named {
    const char *name;
    uint32_t (*call)(void);
};

static const struct named calls[] = {
    {"none", none},
    {"empty", empty},
    {"tick", tick},
    {"open", open_one},
    {"close", close_one},
    {"lock", lock},
    {"unlock", unlock},
    {"receive-cc", receive_cc},
    {"receive-cv", receive_cv},
    {"receive-fault", receive_fault},
    {"report", report},
    {"why", why},
    {"write-cc", cc_of_session},
    {"write-cv", cv_of_session},
    {"read-cc", read_cc},
    {"read-cv", read_cv},
    {"read-fault", read_fault},
    {"read-mep-id", read_mep_id},
    {"write-cc-message", cc_message},
    {"write-cv-message", cv_message},
    {"write-fault-message", fault_message},
    {"read-dhc", read_dhc},
    {"write-dhc-message", dhc_message},
    {"read-configuration", read_configuration},
    {"write-configuration", write_configuration},
    {"log-header", log_header},
    {"log-open", log_open},
    {"log-tick", log_tick},
    {"log-receive-cc", log_cc}};

/* These on a table that has groups. */
static const struct named calls_with_groups[] = {{"set-group", set_group},       {"set-ac", set_ac},
                                                 {"return-group", return_group}, {"ask-group", ask_group},
                                                 {"receive-dhc", receive_dhc},   {"tick-with-groups", tick}};

static uint32_t (*measured)(void);
static int with_groups;

static void choose(const char *name) {
    for (size_t i = 0; i < sizeof calls / sizeof *calls; i++)
        if (strcmp(name, calls[i].name) == 0)
            measured = calls[i].call;
    for (size_t i = 0; i < sizeof calls_with_groups / sizeof *calls_with_groups; i++)
        if (strcmp(name, calls_with_groups[i].name) == 0) {
            measured = calls_with_groups[i].call;
            with_groups = 1;
        }
    if (measured == NULL)
        exit(2);
}

/* The call on a stack of its own, painted before. */
static ucontext_t outside, inside;
static uint32_t answer;

static void on_its_own(void) { answer = measured(); }

static uint8_t stack[STACK];

static size_t untouched(void) {
    size_t n = 0;
    while (stack[n] == 0xa5)
        n++;
    return n;
}

static void print_stack(void) {
    memset(stack, 0xa5, sizeof stack);
    getcontext(&inside);
    inside.uc_stack.ss_sp = stack;
    inside.uc_stack.ss_size = sizeof stack;
    inside.uc_link = &outside;
    makecontext(&inside, on_its_own, 0);
    swapcontext(&outside, &inside);
    printf("%zu\n", sizeof stack - untouched());
}

int main(int argc, char **argv) {
    unsigned open = argc == 4 ? (unsigned)atoi(argv[2]) : 0;
    if (open == 0 || open > KORVEZUL_RECORDS)
        return 2;
    choose(argv[1]);
    worst = strcmp(argv[3], "worst") == 0;
    /* an open that is accepted beside 63 */
    prepare(measured == open_one && open == KORVEZUL_RECORDS ? open - 1 : open);
    if (with_groups)
        prepare_groups(measured == set_group);
    messages();
    now = 1;
    if (RUNNING_ON_VALGRIND) {
        CALLGRIND_TOGGLE_COLLECT;
        answer = measured();
        CALLGRIND_TOGGLE_COLLECT;
    } else {
        print_stack();
    }
    accepted(answer);
    return 0;
}
