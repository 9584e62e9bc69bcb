/*
 * When a card has to look at its reports. Two cards hear the same messages on a session of period
 * 10 s, a crossed one among them every 10 s: one looks when its period timer comes, the other behind
 * each message and every 100 ms. Then how slow a timer may be to see a crossing by itself; and a loss
 * that a message ends before the next look. hosts/run compares what is printed with
 * hosts/timeline-seen, and compiles this file as C99 and as C++.
 */
#include <inttypes.h>
#include <stdio.h>

#include "korvezul_names.h"

#define LABEL 100
#define DISCRIMINATOR 17
#define PERIOD 10000000
#define LOOKS 100000

/* A card with a table of its own, and what it does with traffic. */
struct card {
    const char *name;
    int behind_messages;
    uint64_t timer;
    struct korvezul_session row[KORVEZUL_RECORDS];
    struct korvezul_head head;
    uint8_t blocked;
    int times;
};

static struct card by_period, by_looks, tried;

static void begin(struct card *c, const char *name, int behind_messages, uint64_t timer, uint32_t period) {
    const struct korvezul_mep_id own = {{0, 0, 0, 0}, 7, 10, 1, 1, 0, 0},
                                 expected = {{0, 0, 0, 0}, 7, 20, 1, 1, 0, 0};
    struct korvezul_settings s = {own, expected, LABEL, DISCRIMINATOR, period, 0, 0, KORVEZUL_COORDINATED};
    c->name = name;
    c->behind_messages = behind_messages;
    c->timer = timer;
    c->blocked = 0;
    c->times = 0;
    korvezul_empty(c->row, KORVEZUL_RECORDS, &c->head);
    korvezul_open(c->row, KORVEZUL_RECORDS, &c->head, korvezul_opened_by_us(s), 0);
}

static struct korvezul_report_answer report(struct card *c) {
    return korvezul_report(c->row, KORVEZUL_RECORDS, &c->head, korvezul_ours(LABEL));
}

/* What the sketch in docs/CARD.md does with a report: traffic is blocked, or free again. */
static void look(struct card *c) {
    struct korvezul_report_answer r = report(c);
    if (r.answer != KORVEZUL_ACCEPTED || r.blocked == c->blocked)
        return;
    c->blocked = r.blocked;
    c->times += r.blocked;
    printf("%9" PRIu64 " %s: %s, %s\n", c->head.clock, c->name, korvezul_state_name(r.state),
           r.blocked ? "blocked" : "free");
}

static void look_at(struct card *c, uint64_t now) {
    korvezul_tick(c->row, KORVEZUL_RECORDS, &c->head, now);
    look(c);
}

/* A CC for a discriminator: the session's own, or another circuit's. */
static void receive(struct card *c, uint8_t state, uint32_t your, uint64_t now) {
    struct korvezul_packet p = {34, your, PERIOD, PERIOD, 0, 0, state, 3, 0, 0, 0, 0};
    uint8_t m[KORVEZUL_CC_OCTETS];
    korvezul_write_cc_message(m, sizeof m, p);
    korvezul_receive(c->row, KORVEZUL_RECORDS, &c->head, korvezul_ours(LABEL), m, sizeof m, now);
    if (c->behind_messages)
        look(c);
}

/* What one card meets at a reading: 1 s behind each period its peer's CC, 3,000,001 us later the
 * crossed one, and its own timer. */
static void meet(struct card *c, uint64_t now) {
    if (now % PERIOD == 1000000)
        receive(c, now < PERIOD ? KORVEZUL_INIT : KORVEZUL_UP, DISCRIMINATOR, now);
    if (now % PERIOD == 4000001)
        receive(c, KORVEZUL_UP, 99, now);
    if (now % c->timer == 0)
        look_at(c, now);
}

static void half_a_minute(void) {
    begin(&by_period, "period timer alone", 0, PERIOD, PERIOD);
    begin(&by_looks, "behind messages and every 100 ms", 1, LOOKS, PERIOD);
    for (uint64_t now = 0; now <= 30000000; now += LOOKS) {
        meet(&by_period, now);
        meet(&by_looks, now);
        meet(&by_period, now + 1);
        meet(&by_looks, now + 1);
    }
    printf("%s: blocked %d times; %s: %d times\n", by_period.name, by_period.times, by_looks.name,
           by_looks.times);
}

/* A look, a crossed CC one microsecond later, and the next look. */
static void timer_alone(uint64_t gap) {
    begin(&tried, "timer alone", 0, gap, PERIOD);
    look_at(&tried, 0);
    receive(&tried, KORVEZUL_UP, 99, 1);
    look_at(&tried, gap);
    printf("a look every %" PRIu64 " us: a crossing is %s\n", gap,
           tried.times == 1 ? "seen" : "missed if it comes just behind a look");
}

/* UP and heard at 0; the loss of 3,000,001 ends by a CC 49 microseconds later. */
static void short_loss(void) {
    struct korvezul_report_answer before, behind;
    begin(&tried, "short loss", 0, LOOKS, 1000000);
    receive(&tried, KORVEZUL_INIT, DISCRIMINATOR, 0);
    look_at(&tried, 3000000);
    korvezul_tick(tried.row, KORVEZUL_RECORDS, &tried.head, 3000050);
    before = report(&tried);
    receive(&tried, KORVEZUL_UP, DISCRIMINATOR, 3000050);
    behind = report(&tried);
    printf("before the message: %s, loss %d; behind it: %s, loss %d\n", korvezul_state_name(before.state),
           before.loss, korvezul_state_name(behind.state), behind.loss);
}

int main(void) {
    printf("-- a crossed CC every 10 s on a session of period 10 s\n");
    half_a_minute();
    printf("-- by a timer alone\n");
    timer_alone(3500000);
    timer_alone(3500001);
    printf("-- a loss between two looks, ended by a message\n");
    short_loss();
    return 0;
}
