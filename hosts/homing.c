/*
 * Dual homing (RFC 8185) with four PEs in one process, each with a table of its own. CE1 is homed to PE1 and PE2,
 * which are group 12, CE2 to PE3 and PE4, group 34. PE1 and PE3 are the working PEs and have the working service
 * PW between them, PE2 and PE4 the protection PEs with the protection one, and a DNI-PW joins the two of a group.
 * This host carries the octets, cuts and mends, is the operator and the AC redundancy, and sends what a PE has to
 * say to its peer; which PW is active and what is forwarded is the library's to say. It prints what changes, and
 * the way of a frame from each CE, walked by what the PEs forward. hosts/run compares it with
 * hosts/timeline-homing, which hosts/homing.rs prints too.
 */
#include <inttypes.h>
#include <stdarg.h>
#include <stdio.h>
#include <stdlib.h>
#include <string.h>

#include "korvezul_names.h"

/* Microseconds: the period of every session; between the first three DHC messages of a change, and between those
 * behind them (RFC 8185, 4.1). */
#define PERIOD 10000
#define RAPID 3300
#define AGAIN 1000000
#define ALL 4

/* Where a frame comes into a PE and goes out. The first two are pseudowires, with a session and a label each. */
enum port { PW, DNI, AC, NOWHERE };
static const char *const port_names[] = {"PW", "DNI-PW", "AC"};

/* What a PE puts into a DHC message: PW Status, Dual-Node Switching, or both. */
enum tlvs { BOTH, STATUS, SWITCHING };

struct pe {
    const char *name;
    uint32_t node, group, label[2];
    uint8_t role;
    struct pe *far[2]; /* who is at the other end of a pseudowire */
    int cut[2];        /* what it sends there is lost */
    struct korvezul_session row[KORVEZUL_RECORDS];
    struct korvezul_head head;
    struct korvezul_report_answer seen[2];
    struct korvezul_group_report told;
    int asked;              /* the far PE has asked for the protection PW */
    uint8_t fail, switches; /* F and S as it says them, in what, how often it has, and when it does again */
    enum tlvs tlvs;
    unsigned said;
    uint64_t next;
};

struct way {
    char text[96];
    int reaches;
    uint64_t since; /* when it last ceased to */
};

static struct pe pes[ALL];
static struct pe *const pe1 = &pes[0], *const pe2 = &pes[1], *const pe3 = &pes[2], *const pe4 = &pes[3];
static struct way ways[2];
static uint64_t now, period_due;
static unsigned answers[KORVEZUL_TABLE + 1], rows[8], carried, lost, dhc_carried, dhc_lost;
#define TABLE(p) (p)->row, KORVEZUL_RECORDS, &(p)->head

static void line(const char *format, ...) {
    va_list words;
    printf("%9" PRIu64 " ", now);
    va_start(words, format);
    vprintf(format, words);
    va_end(words);
    printf("\n");
}

static void headline(const char *text) { printf("-- %s\n", text); }

static void octets(const uint8_t *o, size_t n) {
    printf("           ");
    for (size_t i = 0; i < n; i++)
        printf("%02x", o[i]);
    printf("\n");
}

static void need(int holds, const struct pe *p, const char *what) {
    if (!holds) {
        printf("homing: at %" PRIu64 " %s: %s is not as it has to be\n", now, p->name, what);
        exit(1);
    }
}

/* Every answer is the one that is due, or the story ends there. */
static void due(const struct pe *p, const char *call, uint32_t answer, uint32_t wanted) {
    if (answer != wanted) {
        printf("homing: at %" PRIu64 " %s %s: %" PRIu32 " where %" PRIu32 " is due\n", now, p->name, call, answer,
               wanted);
        exit(1);
    }
    answers[answer]++;
}

/* ---- the way of a frame */

/* What a PE forwards joins two of its ports; a frame that comes in by the third is dropped. */
static enum port other_port(uint8_t forwarding, enum port in) {
    static const enum port joined[][2] = {{NOWHERE, NOWHERE}, {PW, AC}, {PW, DNI}, {DNI, AC}};
    const enum port *two = joined[forwarding];
    return in == two[0] ? two[1] : in == two[1] ? two[0] : NOWHERE;
}

static void add(struct way *w, const char *one, const char *two) {
    size_t used = strlen(w->text);
    int n = snprintf(w->text + used, sizeof w->text - used, "%s%s", one, two);
    need(n > 0 && (size_t)n < sizeof w->text - used, pe1, "the length of a way");
}

/* A CE sends by the AC that is active. A cut is no PE's to see: what goes into it is lost, until a loss tells. */
static struct way walk(int ce) {
    static const char *const ces[] = {"CE1", "CE2"};
    struct way w = {.text = ""};
    const struct pe *p = &pes[2 * ce];
    enum port in = AC, out;
    add(&w, ces[ce], "");
    if (p->told.ac == KORVEZUL_STANDBY)
        p++;
    if (p->told.ac == KORVEZUL_STANDBY) {
        add(&w, ", ", "no AC is active");
        return w;
    }
    add(&w, " -AC- ", p->name);
    while ((out = other_port(p->told.forwarding, in)) < AC) {
        add(&w, " -", port_names[out]);
        add(&w, "- ", p->cut[out] ? "lost" : p->far[out]->name);
        if (p->cut[out])
            return w;
        p = p->far[out];
        in = out;
    }
    add(&w, out == AC ? " -AC- " : " ", out == AC ? ces[(p - pes) / 2] : "drops it");
    w.reaches = out == AC && (p - pes) / 2 != ce;
    return w;
}

/* Where it has changed, and how long none got through. */
static void frames(void) {
    for (int ce = 0; ce < 2; ce++) {
        struct way *was = &ways[ce], is = walk(ce);
        if (strcmp(is.text, was->text) == 0)
            continue;
        if (is.reaches && !was->reaches && now > was->since)
            line("frame %s, again after %" PRIu64 " us", is.text, now - was->since);
        else
            line("frame %s", is.text);
        is.since = was->reaches ? now : was->since;
        *was = is;
    }
}

/* ---- looking at a PE, and what it has to say to its peer */

static void see(struct pe *p, int w) {
    struct korvezul_report_answer r = korvezul_report(TABLE(p), korvezul_ours(p->label[w])), *was = &p->seen[w];
    due(p, "report", r.answer, KORVEZUL_ACCEPTED);
    need(r.crossing == 0 && r.blocked == 0 && r.conditions == 0, p, "a report");
    if (r.state != was->state || r.loss != was->loss || r.rdi != was->rdi)
        line("%s %s %" PRIu32 ": %s, loss %d, RDI %d", p->name, port_names[w], p->label[w],
             korvezul_state_name(r.state), r.loss, r.rdi);
    *was = r;
}

/* What is forwarded is held to Table 1, whose rows are numbered from 0 on as they stand there. */
static struct korvezul_group_report ask(struct pe *p) {
    static const uint8_t table_1[8] = {KORVEZUL_PW_WITH_AC, KORVEZUL_PW_WITH_DNI, KORVEZUL_DNI_WITH_AC,
                                       KORVEZUL_DROPS,      KORVEZUL_PW_WITH_AC,  KORVEZUL_DROPS,
                                       KORVEZUL_DROPS,      KORVEZUL_DROPS};
    struct korvezul_group_answer a = korvezul_ask_group(TABLE(p), korvezul_our_group(p->group));
    int down = p->seen[DNI].state != KORVEZUL_UP;
    int row = 4 * down + 2 * (a.group.pw == KORVEZUL_STANDBY) + (a.group.ac == KORVEZUL_STANDBY);
    due(p, "ask", a.answer, KORVEZUL_ACCEPTED);
    need(a.group.pw <= KORVEZUL_ACTIVE && a.group.ac <= KORVEZUL_ACTIVE, p, "PW or AC");
    need(a.group.forwarding == table_1[row], p, "what is forwarded");
    rows[row]++;
    return a.group;
}

static void say(struct pe *p);

/* Behind every accepted call of a PE. A PE has something to say when F or S has changed: F is a loss of its service
 * PW, S is 1 where traffic is on the protection PW, as it knows it or is asked by the far PE. */
static void look(struct pe *p) {
    struct korvezul_group_report was = p->told;
    uint8_t fail, switches;
    see(p, PW);
    see(p, DNI);
    p->told = ask(p);
    if (memcmp(&was, &p->told, sizeof was) != 0)
        line("%s group %" PRIu32 ": PW %s, AC %s, %s", p->name, p->group, korvezul_activity_name(p->told.pw),
             korvezul_activity_name(p->told.ac), korvezul_forwarding_name(p->told.forwarding));
    frames();
    fail = p->seen[PW].loss;
    switches = p->asked || p->told.pw == (p->role == KORVEZUL_WORKING ? KORVEZUL_STANDBY : KORVEZUL_ACTIVE);
    if (fail == p->fail && switches == p->switches)
        return;
    p->fail = fail;
    p->switches = switches;
    p->said = 0;
    say(p);
}

static void tick(struct pe *p) {
    due(p, "tick", korvezul_tick(TABLE(p), now), KORVEZUL_ACCEPTED);
    look(p);
}

static void receive(struct pe *p, int w, const uint8_t *m, size_t n) {
    due(p, "receive", korvezul_receive(TABLE(p), korvezul_ours(p->label[w]), m, n, now), KORVEZUL_ACCEPTED);
}

/* The PW ID of a DNI-PW is 1000 and its group's. */
static struct korvezul_dhc message(const struct pe *p) {
    const uint32_t to = p->far[DNI]->node, pw = 1000 + p->group;
    const struct korvezul_dhc_status status = {to, p->node, pw, 1, p->role, 0, p->fail};
    const struct korvezul_dhc_switching switching = {to, p->node, pw, 1, p->switches, p->role};
    struct korvezul_dhc d = {.id = p->group};
    if (p->tlvs != SWITCHING)
        d.status = status;
    if (p->tlvs != STATUS)
        d.switching = switching;
    return d;
}

static void tell_said(const struct pe *p, int first, int gone) {
    const struct pe *to = p->far[DNI];
    char f[16] = "", s[16] = "";
    if (p->tlvs != SWITCHING)
        snprintf(f, sizeof f, ", F %d", p->fail);
    if (p->tlvs != STATUS)
        snprintf(s, sizeof s, ", S %d", p->switches);
    line("%s DHC to %s %" PRIu32 "%s%s%s: %s", p->name, to->name, to->label[DNI], f, s, first ? "" : ", again",
         gone ? "lost" : "0");
}

/* Whether a DHC message has moved the PW since the last look. */
static int moved(struct pe *p) {
    struct korvezul_group_answer a = korvezul_ask_group(TABLE(p), korvezul_our_group(p->group));
    due(p, "ask", a.answer, KORVEZUL_ACCEPTED);
    return a.group.pw != p->told.pw;
}

/* Three times in a row, and then on and on. What is said again is told where it is lost or moves the peer. When to
 * say it next is settled before the peer has its own say. */
static void say(struct pe *p) {
    static const size_t sizes[] = {KORVEZUL_DHC_OCTETS, KORVEZUL_DHC_STATUS_OCTETS, KORVEZUL_DHC_SWITCHING_OCTETS};
    const size_t size = sizes[p->tlvs];
    uint8_t m[KORVEZUL_DHC_OCTETS];
    struct pe *to = p->far[DNI];
    const int gone = p->cut[DNI], first = p->said == 0;
    p->said++;
    p->next = now + (p->said < 3 ? RAPID : AGAIN);
    due(p, "write DHC", korvezul_write_dhc_message(m, size, message(p)), KORVEZUL_ACCEPTED);
    if (gone) {
        dhc_lost++;
    } else {
        dhc_carried++;
        receive(to, DNI, m, size);
    }
    if (first || gone || moved(to))
        tell_said(p, first, gone);
    if (first)
        octets(m, size);
    if (!gone)
        look(to);
}

/* ---- the line between the PEs, and time */

/* A CC, or a CV, whose reader says how many octets it has. */
static size_t written(struct pe *p, int w, int cv, uint8_t *m) {
    const struct korvezul_circuit c = korvezul_ours(p->label[w]);
    struct korvezul_cv_read v;
    if (!cv) {
        due(p, "write CC", korvezul_write_cc(TABLE(p), c, m, KORVEZUL_CC_OCTETS), KORVEZUL_ACCEPTED);
        return KORVEZUL_CC_OCTETS;
    }
    due(p, "write CV", korvezul_write_cv(TABLE(p), c, m, KORVEZUL_CV_OCTETS), KORVEZUL_ACCEPTED);
    v = korvezul_read_cv(m, KORVEZUL_CV_OCTETS);
    due(p, "read CV", v.answer, KORVEZUL_ACCEPTED);
    return (size_t)v.place;
}

static void pass(struct pe *from, int w, int cv) {
    uint8_t m[KORVEZUL_CV_OCTETS] = {0};
    size_t n;
    tick(from);
    n = written(from, w, cv, m);
    if (from->cut[w]) {
        lost++;
        return;
    }
    carried++;
    receive(from->far[w], w, m, n);
    look(from->far[w]);
}

static void exchange(int cv) {
    for (int i = 0; i < ALL; i++) {
        pass(&pes[i], PW, cv);
        pass(&pes[i], DNI, cv);
    }
}

/* Everything that is due up to a reading, and a look at every PE at that reading. */
static void run(uint64_t to) {
    for (;;) {
        uint64_t at = period_due;
        for (int i = 0; i < ALL; i++)
            at = pes[i].next < at ? pes[i].next : at;
        if (at > to)
            break;
        now = at;
        for (int i = 0; i < ALL; i++)
            if (pes[i].next == now)
                say(&pes[i]);
        if (period_due == now) {
            period_due += PERIOD;
            exchange(0);
        }
    }
    now = to;
    for (int i = 0; i < ALL; i++)
        tick(&pes[i]);
}

/* Cuts, or mends, what a PE sends on a pseudowire. */
static void cut(struct pe *p, int w, int is_cut) {
    p->cut[w] = is_cut;
    line("%s to %s, %s: %s", p->name, p->far[w]->name, port_names[w], is_cut ? "cut" : "mended");
    frames();
}

static void cut_both(struct pe *p, int w, int is_cut) {
    cut(p, w, is_cut);
    cut(p->far[w], w, is_cut);
}

/* How all four stand: the rows of Table 1 that they are in, and the frames. */
static void picture(void) {
    for (struct pe *p = pes; p < pes + ALL; p++) {
        struct korvezul_group_report g = ask(p);
        need(memcmp(&g, &p->told, sizeof g) == 0, p, "what it was told");
        line("%s %s: PW %s, AC %s, DNI-PW %s: %s", p->name, korvezul_role_name(p->role), korvezul_activity_name(g.pw),
             korvezul_activity_name(g.ac), p->seen[DNI].state == KORVEZUL_UP ? "up" : "down",
             korvezul_forwarding_name(g.forwarding));
    }
    line("frame %s", ways[0].text);
    line("frame %s", ways[1].text);
}

/* ---- the operator's calls, each with how its group stands behind it, changed or not */

/* An end of a pseudowire by its octets: Global_ID 7, the node, the number as AC_ID, and an AGI of type 1. */
static struct korvezul_mep_id pseudowire(const struct pe *p, uint8_t number) {
    const uint8_t o[] = {0, 2, 0, 18,     0, 0, 0,   7,   10,  0,  0, (uint8_t)p->node,
                         0, 0, 0, number, 1, 4, 't', 'w', 'i', 'n'};
    struct korvezul_mep_id_read r = korvezul_read_mep_id(o, sizeof o);
    due(p, "read MEP-ID", r.answer, KORVEZUL_ACCEPTED);
    return r.mep;
}

/* A pseudowire has one number at both ends: the service PWs 13 and 24, the DNI-PWs 12 and 34. */
static void open_session(struct pe *p, int w) {
    const uint32_t here = p->node & 255, there = p->far[w]->node & 255;
    const uint8_t number = (uint8_t)(here < there ? 10 * here + there : 10 * there + here);
    struct korvezul_settings s = {.own = pseudowire(p, number),
                                  .expected = pseudowire(p->far[w], number),
                                  .label = p->label[w],
                                  .discriminator = 10 * here + 1 + (uint32_t)w,
                                  .period = PERIOD};
    due(p, "open", korvezul_open(TABLE(p), korvezul_opened_by_us(s), now), KORVEZUL_ACCEPTED);
    line("%s open %" PRIu32 ", %s to %s: 0", p->name, s.label, port_names[w], p->far[w]->name);
}

static struct korvezul_grouping grouping(const struct pe *p) {
    struct korvezul_group_settings s = {p->group, p->far[DNI]->node, p->label[PW], p->label[DNI], p->role};
    return korvezul_grouped_by_us(s);
}

static void look_anew(struct pe *p) {
    p->told.pw = UINT8_MAX;
    look(p);
}

static void set_group(struct pe *p) {
    due(p, "set", korvezul_set_group(TABLE(p), grouping(p), now), KORVEZUL_ACCEPTED);
    line("%s set group %" PRIu32 ", %s: 0", p->name, p->group, korvezul_role_name(p->role));
    look_anew(p);
}

static void set_ac(struct pe *p, uint8_t ac) {
    struct korvezul_ac_of of = {korvezul_our_group(p->group), ac};
    due(p, "AC", korvezul_set_ac(TABLE(p), of, now), KORVEZUL_ACCEPTED);
    line("%s AC %s: 0", p->name, korvezul_activity_name(ac));
    look_anew(p);
}

static void give_back(struct pe *p) {
    due(p, "return", korvezul_return_group(TABLE(p), korvezul_our_group(p->group), now), KORVEZUL_ACCEPTED);
    p->asked = 0;
    line("%s return %" PRIu32 ": 0", p->name, p->group);
    look_anew(p);
}

/* ---- what is refused: no octet of row and head has changed, the clock among them */

static struct pe kept;

static void refused(struct pe *p, const char *what, uint32_t answer, uint32_t wanted) {
    due(p, what, answer, wanted);
    need(memcmp(kept.row, p->row, sizeof p->row) == 0 && memcmp(&kept.head, &p->head, sizeof p->head) == 0, p,
         "the table behind a refusal");
    line("%s %s: %" PRIu32 ", %s", p->name, what, answer, korvezul_answer_name(answer));
}

/* Keeps the table, and then calls. */
#define REFUSED(p, what, call, wanted) \
    do { \
        kept = *(p); \
        refused(p, what, call, wanted); \
    } while (0)

static void refused_groups(void) {
    struct korvezul_grouping g = grouping(pe1);
    g.settings.dni = g.settings.service;
    REFUSED(pe1, "set, one label for both", korvezul_set_group(TABLE(pe1), g, now), KORVEZUL_RANGE);
    g = grouping(pe1);
    g.party = KORVEZUL_THEIRS;
    REFUSED(pe1, "set, by the other party", korvezul_set_group(TABLE(pe1), g, now), KORVEZUL_NO_SESSION);
    set_group(pe1);
    g = grouping(pe1);
    g.settings.id = 13;
    REFUSED(pe1, "set, a second group of the PW", korvezul_set_group(TABLE(pe1), g, now), KORVEZUL_TAKEN);
    g = grouping(pe1);
    g.settings.service = pe1->label[DNI];
    g.settings.dni = pe1->label[PW];
    REFUSED(pe1, "set, a second group of the ID", korvezul_set_group(TABLE(pe1), g, now), KORVEZUL_TAKEN);
}

static uint32_t asked(struct pe *p, struct korvezul_group_name name) {
    struct korvezul_group_answer a = korvezul_ask_group(TABLE(p), name);
    need(a.group.pw == 0 && a.group.ac == 0 && a.group.forwarding == 0, p, "noughts beside a refusal");
    return a.answer;
}

static void refused_calls(void) {
    const struct korvezul_group_name own = korvezul_our_group(12), none = korvezul_our_group(34);
    const struct korvezul_ac_of early = {own, 1}, nobody = {none, 1};
    REFUSED(pe2, "AC, a reading gone by", korvezul_set_ac(TABLE(pe2), early, now - 1), KORVEZUL_READING);
    REFUSED(pe2, "return, a reading gone by", korvezul_return_group(TABLE(pe2), own, now - 1), KORVEZUL_READING);
    REFUSED(pe2, "AC of 34", korvezul_set_ac(TABLE(pe2), nobody, now), KORVEZUL_NO_GROUP);
    REFUSED(pe2, "return 34", korvezul_return_group(TABLE(pe2), none, now), KORVEZUL_NO_GROUP);
    REFUSED(pe2, "ask 34", asked(pe2, none), KORVEZUL_NO_GROUP);
    REFUSED(pe2, "ask 12, by the other party", asked(pe2, korvezul_their_group(12)), KORVEZUL_NO_GROUP);
}

/* What would make PE2's PW active, but for what is wrong with it: a field, the label, an octet too few, or the length
 * of PW Status. */
static uint32_t wrong(struct korvezul_dhc d, uint32_t label, size_t n, uint8_t length) {
    uint8_t m[KORVEZUL_DHC_OCTETS];
    d.status.fail = d.switching.switches = 1;
    due(pe1, "write DHC", korvezul_write_dhc_message(m, sizeof m, d), KORVEZUL_ACCEPTED);
    m[15] = length;
    return korvezul_receive(TABLE(pe2), korvezul_ours(label), m, n, now);
}

static void refused_messages(void) {
    const struct korvezul_dhc good = message(pe1);
    const uint32_t dni = pe2->label[DNI];
    const size_t all = KORVEZUL_DHC_OCTETS;
    struct korvezul_dhc d = good;
    d.id = 34;
    REFUSED(pe2, "DHC of group 34", wrong(d, dni, all, 20), KORVEZUL_NO_GROUP);
    d = good;
    d.status.source = d.switching.source = pe3->node;
    REFUSED(pe2, "DHC from PE3", wrong(d, dni, all, 20), KORVEZUL_NO_GROUP);
    d.status.source = good.status.source;
    REFUSED(pe2, "DHC, Switching from PE3", wrong(d, dni, all, 20), KORVEZUL_NO_GROUP);
    REFUSED(pe2, "DHC on the service PW", wrong(good, pe2->label[PW], all, 20), KORVEZUL_NO_GROUP);
    REFUSED(pe2, "DHC on 999", wrong(good, 999, all, 20), KORVEZUL_NO_SESSION);
    REFUSED(pe2, "DHC, an octet short", wrong(good, dni, all - 1, 20), KORVEZUL_SHORT);
    REFUSED(pe2, "DHC, PW Status of 19 octets", wrong(good, dni, all, 19), KORVEZUL_DHC);
}

/* ---- the story */

static void begin(void) {
    static const char *const names[] = {"PE1", "PE2", "PE3", "PE4"};
    for (uint32_t i = 0; i < ALL; i++) {
        struct pe *p = &pes[i];
        p->name = names[i];
        p->node = 0x0a000001 + i;
        p->group = i < 2 ? 12 : 34;
        p->role = i % 2 == 0 ? KORVEZUL_WORKING : KORVEZUL_PROTECTION;
        p->label[PW] = 100 * (i + 1);
        p->label[DNI] = p->label[PW] + 10;
        p->far[PW] = &pes[i ^ 2];
        p->far[DNI] = &pes[i ^ 1];
        p->next = UINT64_MAX;
        due(p, "empty", korvezul_empty(TABLE(p)), KORVEZUL_ACCEPTED);
    }
}

static void set_up(void) {
    headline("four tables, a session for each end of each PW, a group at each PE; no AC is active at first");
    begin();
    REFUSED(pe1, "set, no session open", korvezul_set_group(TABLE(pe1), grouping(pe1), now), KORVEZUL_NO_SESSION);
    for (int i = 0; i < ALL; i++) {
        open_session(&pes[i], PW);
        open_session(&pes[i], DNI);
    }
    refused_groups();
    set_group(pe2);
    set_group(pe3);
    set_group(pe4);
    headline("the ACs of the working PEs become active; their PWs are, so that no DNI-PW is needed");
    set_ac(pe1, KORVEZUL_ACTIVE);
    set_ac(pe3, KORVEZUL_ACTIVE);
    headline("CCs both ways on every PW, each 10 ms: all come up");
    run(20000);
    headline("CVs both ways: each end is the one expected");
    now = 25000;
    exchange(1);
    picture();
}

static void refusals(void) {
    headline("what is refused, with row and head as they were");
    run(30000);
    refused_calls();
    refused_messages();
}

static void switchover(void) {
    headline("the working PW is cut behind the CCs of 50000: no loss at 3 periods");
    run(50000);
    cut_both(pe1, PW, 1);
    run(80000);
    picture();
    headline("a loss one microsecond later: the working PEs give the PW up and say so, and the others take over");
    run(80001);
    headline("said twice more, which moves nobody");
    run(90000);
    picture();
    headline("a return while the loss stands: PE1's PW stays standby");
    give_back(pe1);
}

static void ac_fails(void) {
    headline("the AC of PE1 fails as well: PE2's takes over, and no PW moves");
    run(110000);
    set_ac(pe1, KORVEZUL_STANDBY);
    set_ac(pe2, KORVEZUL_ACTIVE);
    picture();
}

static void mended(void) {
    headline("the working PW is mended: its sessions come up, F is 0 again, and nothing comes back by itself");
    run(120000);
    cut_both(pe1, PW, 0);
    run(150000);
    picture();
}

/* What the protection PEs said last was S 1, and they say it on and on. */
static void half_a_return(void) {
    headline("half a return, of the working PEs alone: the two sides no longer meet");
    run(200000);
    give_back(pe1);
    give_back(pe3);
    run(210000);
    picture();
    headline("the protection PEs say S 1 again when their second is over: it is taken back");
    run(1095000);
}

/* At one reading, so that none is told S 1 by another that has not returned yet. */
static void all_return(void) {
    for (int i = 0; i < ALL; i++)
        give_back(&pes[i]);
}

static void returned(void) {
    headline("the operator returns all four: the working PW again, and by the DNI-PW to the AC of PE2");
    run(1100000);
    all_return();
    run(1110000);
    picture();
}

static void dni_is_cut(void) {
    headline("the DNI-PW of PE1 and PE2 is cut, which this traffic needs");
    run(1200000);
    cut_both(pe1, DNI, 1);
    run(1230000);
    headline("it is down: only a PE with PW and AC both active forwards");
    run(1230001);
    picture();
    headline("the AC of PE1 is back, and PE1 does without the DNI-PW");
    run(1240000);
    set_ac(pe2, KORVEZUL_STANDBY);
    set_ac(pe1, KORVEZUL_ACTIVE);
}

static void twice_cut(void) {
    headline("the working PW is cut too: what PE1 says does not reach PE2");
    run(1250000);
    cut_both(pe1, PW, 1);
    run(1280001);
    run(1290000);
    picture();
    headline("the DNI-PW is mended, one way first: INIT is not up");
    run(1300000);
    cut(pe2, DNI, 0);
    run(1310000);
    cut(pe1, DNI, 0);
    run(1320000);
    headline("PE1 says it again when its second is over");
    run(2290000);
    headline("the working PW is mended, and all four return: traffic as at first");
    run(2300000);
    cut_both(pe1, PW, 0);
    run(2330000);
    all_return();
    run(2340000);
    picture();
}

/* Where PE1 cannot see the failure S comes to it from PE2 (RFC 8185, 4.2). What the protection PEs send each other is
 * a message of RFC 6378, and the host's. F alone is enough for a protection PE, and S alone for a working one. */
static void one_way(void) {
    headline("what PE1 sends to PE3 is lost: PE3 has a loss; PE1 hears of it, has none and keeps the PW");
    run(2400000);
    pe2->tlvs = SWITCHING;
    pe3->tlvs = STATUS;
    cut(pe1, PW, 1);
    run(2430001);
    run(2440000);
    picture();
    headline("asked over the protection PW, PE2 tells PE1, which gives the PW up and says so");
    line("PE4 asks PE2 for the protection PW");
    pe2->asked = 1;
    look(pe2);
    run(2450000);
    pe2->tlvs = pe3->tlvs = BOTH;
}

/* No loss of its own moves a protection PE, and no F a working one. */
static void protection_cut(void) {
    headline("the protection PW is cut as well: its PEs stay active, for only a return makes them standby");
    cut_both(pe2, PW, 1);
    run(2480001);
    picture();
    headline("all is mended, and all four return: traffic as at first");
    run(2490000);
    cut(pe1, PW, 0);
    cut_both(pe2, PW, 0);
    run(2520000);
    all_return();
    run(2530000);
    picture();
    headline("the protection PW is cut once more: nobody moves");
    run(2600000);
    cut_both(pe2, PW, 1);
    run(2630001);
    picture();
}

/* The end of the story: a look asks of every group. */
static void closed(void) {
    headline("the service PW of PE2 is closed: its group ends with it, and with that who a message is for");
    due(pe2, "close", korvezul_close(TABLE(pe2), korvezul_ours(pe2->label[PW]), now), KORVEZUL_ACCEPTED);
    line("PE2 close %" PRIu32 ": 0", pe2->label[PW]);
    REFUSED(pe2, "ask 12", asked(pe2, korvezul_our_group(12)), KORVEZUL_NO_GROUP);
    REFUSED(pe2, "DHC from PE1", wrong(message(pe1), pe2->label[DNI], KORVEZUL_DHC_OCTETS, 20), KORVEZUL_NO_GROUP);
}

static void count(void) {
    headline("in numbers");
    printf("CCs and CVs: %u came, %u were lost\n", carried, lost);
    printf("DHC messages: %u came, %u were lost\n", dhc_carried, dhc_lost);
    printf("answered");
    for (unsigned i = 0; i <= KORVEZUL_TABLE; i++)
        if (answers[i] > 0)
            printf(" %u x%u", i, answers[i]);
    printf("\nasked in the rows of Table 1");
    for (unsigned i = 0; i < 8; i++) {
        need(rows[i] > 0, pe1, "a row of Table 1 that nothing was in");
        printf(" %u x%u", i + 1, rows[i]);
    }
    printf("\n");
}

int main(void) {
    if (korvezul_version() != KORVEZUL_VERSION) {
        printf("header and library are of two versions\n");
        return 1;
    }
    set_up();
    refusals();
    switchover();
    ac_fails();
    mended();
    half_a_return();
    returned();
    dni_is_cut();
    twice_cut();
    one_way();
    protection_cut();
    closed();
    count();
    return 0;
}
