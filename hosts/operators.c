/*
 * Two operators' firmware on one row: each has labels of its own and gives out its discriminators without a
 * word to the other, so that both have 17 and 18. First both are orderly, and what they are told is printed,
 * line by line. Then each is run again beside another that is absent, orderly or unruly: an unruly one takes
 * all that it can get and calls on whatever label there is, in every name but the owner's. What an operator is
 * told is the same each time. hosts/run compares what is printed with hosts/timeline-operators, which
 * hosts/operators.rs prints too.
 */
#include <inttypes.h>
#include <stdarg.h>
#include <stdio.h>
#include <stdlib.h>
#include <string.h>

#include "korvezul_names.h"

#define STEPS 9
#define STEP 1000000 /* microseconds, and the period of every session */

/* The card: the row that both have their sessions in, and the clock, which it moves for both. */
static struct korvezul_session row[KORVEZUL_RECORDS];
static struct korvezul_head head;
static uint64_t now;
#define TABLE row, KORVEZUL_RECORDS, &head

/* The firmware of an operator: its party, its first label, and all that it was told. */
struct firmware {
    const char *name;
    uint32_t party;
    uint32_t first;
    const struct firmware *other;
    char told[8192];
    size_t size;
};

static struct firmware ours, theirs;
static int aloud;
static unsigned answers[27]; /* how often an unruly one was answered what */

static void tell(struct firmware *f, const char *format, ...) {
    char *line = f->told + f->size;
    va_list words;
    int n;
    va_start(words, format);
    n = vsnprintf(line, sizeof f->told - f->size, format, words);
    va_end(words);
    if (n < 0 || f->size + (size_t)n >= sizeof f->told) {
        printf("operators: too much is told\n");
        exit(1);
    }
    if (aloud)
        printf("%s", line);
    f->size += (size_t)n;
}

static void said(struct firmware *f, const char *call, uint32_t label, uint32_t answer) {
    tell(f, "%9" PRIu64 " %-6s %s %" PRIu32 ": %" PRIu32 "%s%s\n", now, f->name, call, label, answer,
         answer == 0 ? "" : ", ", answer == 0 ? "" : korvezul_answer_name(answer));
}

/* ---- the calls, each in the name of a party */

static struct korvezul_circuit circuit(uint32_t party, uint32_t label) {
    struct korvezul_circuit c = {label, party};
    return c;
}

static uint32_t opened(uint32_t party, uint32_t label, uint32_t discriminator) {
    struct korvezul_opening o = {.party = party};
    o.settings.own.kind = o.settings.expected.kind = KORVEZUL_LSP;
    o.settings.own.node = label;
    o.settings.expected.node = label + 1;
    o.settings.label = label;
    o.settings.discriminator = discriminator;
    o.settings.period = STEP;
    return korvezul_open(TABLE, o, now);
}

static uint32_t received(uint32_t party, uint32_t label, uint8_t state, uint32_t your) {
    struct korvezul_packet p = {.my = 9, .your = your, .transmit = STEP, .receive = STEP, .state = state, .multiplier = 3};
    uint8_t m[KORVEZUL_CC_OCTETS];
    uint32_t answer = korvezul_write_cc_message(m, sizeof m, p);
    return answer != 0 ? answer : korvezul_receive(TABLE, circuit(party, label), m, sizeof m, now);
}

static void open_one(struct firmware *f, uint32_t label, uint32_t discriminator) {
    said(f, "open", label, opened(f->party, label, discriminator));
}

static void hear(struct firmware *f, uint32_t label, uint8_t state, uint32_t your) {
    said(f, "receive", label, received(f->party, label, state, your));
}

static void close_one(struct firmware *f, uint32_t label) {
    said(f, "close", label, korvezul_close(TABLE, circuit(f->party, label), now));
}

static void report(struct firmware *f, uint32_t label) {
    struct korvezul_report_answer r = korvezul_report(TABLE, circuit(f->party, label));
    said(f, "report", label, r.answer);
    if (r.answer == KORVEZUL_ACCEPTED)
        tell(f, "           %s, crossing %d, loss %d, alarm %d, RDI %d, blocked %d, conditions %d\n",
             korvezul_state_name(r.state), r.crossing, r.loss, r.alarm, r.rdi, r.blocked, r.conditions);
}

static void write_cc(struct firmware *f, uint32_t label) {
    uint8_t m[KORVEZUL_CC_OCTETS];
    uint32_t answer = korvezul_write_cc(TABLE, circuit(f->party, label), m, sizeof m);
    said(f, "write CC", label, answer);
    if (answer != KORVEZUL_ACCEPTED)
        return;
    tell(f, "           ");
    for (size_t i = 0; i < sizeof m; i++)
        tell(f, "%02x", m[i]);
    tell(f, "\n");
}

/* ---- how an operator goes about its business, step by step */

static void absent(struct firmware *f, int step) { (void)f, (void)step; }

/* Three sessions that come up, are locked, fall silent, are closed and opened again; and at step 3 the calls of
 * one that has mistaken the other's labels for its own. */
static void orderly(struct firmware *f, int step) {
    const uint32_t a = f->first, b = a + 1, c = a + 2, foreign = f->other->first;
    switch (step) {
    case 0: open_one(f, a, 17), open_one(f, b, 18), open_one(f, c, 17); break;
    case 1: hear(f, a, KORVEZUL_INIT, 17), write_cc(f, a), report(f, a), report(f, b); break;
    case 2:
        hear(f, a, KORVEZUL_UP, 17);
        said(f, "lock", b, korvezul_lock(TABLE, circuit(f->party, b), now));
        report(f, a), report(f, b);
        break;
    case 3:
        open_one(f, foreign, 20), open_one(f, foreign + 9, 20);
        report(f, foreign), write_cc(f, foreign), hear(f, foreign, KORVEZUL_UP, 17), close_one(f, foreign);
        break;
    case 4:
        said(f, "unlock", b, korvezul_unlock(TABLE, circuit(f->party, b), now));
        open_one(f, c, 19), write_cc(f, c), report(f, c);
        break;
    case 5: report(f, a); break;
    case 6: report(f, a), write_cc(f, a); break; /* 4 s after it was heard */
    case 7: hear(f, a, KORVEZUL_UP, 18), report(f, a); break; /* 18 is of b */
    default: close_one(f, b), report(f, b), open_one(f, b, 18), report(f, b), report(f, c);
    }
}

static void count(uint32_t answer) { answers[answer < 27 ? answer : 26]++; }

/* Every call but an open on a label. */
static void meddle(uint32_t party, uint32_t label) {
    struct korvezul_circuit c = circuit(party, label);
    uint8_t m[KORVEZUL_CV_OCTETS];
    count(received(party, label, KORVEZUL_ADMIN_DOWN, 99));
    count(korvezul_lock(TABLE, c, now));
    count(korvezul_write_cc(TABLE, c, m, sizeof m));
    count(korvezul_write_cv(TABLE, c, m, sizeof m));
    count(korvezul_report(TABLE, c).answer);
    count(korvezul_unlock(TABLE, c, now));
    count(korvezul_close(TABLE, c, now));
}

/* All sessions that there are to be had, with the discriminators 1 to 40, and all of them given up again; at each
 * step calls on the other's labels, in the own name and in that of nobody, and readings that have gone by. */
static void unruly(struct firmware *f, int step) {
    for (uint32_t i = 0; i < 40; i++)
        count(opened(f->party, f->first + i, 1 + i));
    for (uint32_t i = 0; i < 4; i++) {
        meddle(f->party, f->other->first + i);
        meddle(2, f->other->first + i);
        count(opened(f->party, f->other->first + i, 17 + i));
        count(opened(2, f->other->first + i, 17 + i));
    }
    now--;
    meddle(f->party, f->first);
    now++;
    for (uint32_t i = 0; i < 40 && step % 3 == 2; i++)
        meddle(f->party, f->first + i);
}

/* ---- a run of both */

typedef void manner(struct firmware *f, int step);

/* The card makes the row empty and moves the clock; at each step the other comes first. */
static void run(struct firmware *watched, manner *other_is) {
    struct firmware *other = watched == &ours ? &theirs : &ours;
    watched->size = other->size = 0;
    if (korvezul_empty(TABLE) != 0)
        exit(1);
    for (int step = 0; step < STEPS; step++) {
        now = (uint64_t)(step + 1) * STEP;
        if (korvezul_tick(TABLE, now) != 0)
            exit(1);
        other_is(other, step);
        orderly(watched, step);
    }
}

static void begin(struct firmware *f, const char *name, uint32_t party, uint32_t first, const struct firmware *other) {
    f->name = name;
    f->party = party;
    f->first = first;
    f->other = other;
}

/* What one is told beside one that is absent is what it is told beside any other. */
static void compare(struct firmware *watched) {
    static char alone[sizeof watched->told];
    static const struct {
        const char *name;
        manner *is;
    } manners[] = {{"orderly", orderly}, {"unruly", unruly}};
    size_t size, lines = 0;
    run(watched, absent);
    size = watched->size;
    memcpy(alone, watched->told, size);
    for (size_t i = 0; i < size; i++)
        lines += alone[i] == '\n';
    for (size_t i = 0; i < sizeof manners / sizeof *manners; i++) {
        run(watched, manners[i].is);
        printf("%s beside %s, %s: %zu lines, %s as beside nobody\n", watched->name, watched->other->name,
               manners[i].name, lines,
               watched->size == size && memcmp(watched->told, alone, size) == 0 ? "the same" : "NOT the same");
    }
}

int main(void) {
    begin(&ours, "ours", KORVEZUL_OURS, 100, &theirs);
    begin(&theirs, "theirs", KORVEZUL_THEIRS, KORVEZUL_FIRST_OF_THEIRS + 100, &ours);
    printf("-- both orderly\n");
    aloud = 1;
    run(&ours, orderly);
    aloud = 0;
    printf("-- one beside the other\n");
    compare(&ours);
    compare(&theirs);
    printf("the unruly were answered");
    for (unsigned i = 0; i < sizeof answers / sizeof *answers; i++)
        if (answers[i] > 0)
            printf(" %u x%u", i, answers[i]);
    printf("\n");
    return 0;
}
