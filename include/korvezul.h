/*
 * Korvezul: MPLS-TP connectivity monitoring (BFD CC and CV, AIS, LKR) for a line card, and the switchover of
 * dual-homed pseudowires by groups and their coordination messages (DHC).
 *
 * C99; also C++. Link libkorvezul.a, which needs memcpy and memset and nothing else.
 *
 * Memory. The library allocates nothing and has no state of its own. A table is the host's: a row
 * of 64 session records and one head (the clock, and the set of occupied places), both lent for the
 * length of a call and never kept. Messages and buffers are lent the same way. Calls on different
 * tables may run at the same time; on one table nobody else may read or write row or head during a
 * call. What one call is lent must not overlap: row, head, message and buffer are apart. A pointer
 * is never null and is aligned for its type, also beside a length of 0.
 *
 * Parties. Two operators may have their sessions in one row, 32 each: labels below 500,000 are ours,
 * party 0, all others theirs, party 1. Every call but a tick, and making a row empty, names the party that
 * calls. A label of the other party is not open to it (2, and 10 on open), nor does it see the other's groups
 * (24), and from an empty row on what it is answered, reported, told and written hangs on nothing that the other
 * does, but on the clock. A host of one operator writes korvezul_ours(label) where a call has a circuit,
 * korvezul_our_group(id) where it names a group, and korvezul_opened_by_us(settings) and
 * korvezul_grouped_by_us(settings) to open and to set one.
 *
 * Time. A reading is the host's clock in microseconds. It may not run backwards (answer 1) and is
 * at most 9,223,372,036,854,775,807. Report, why, write and asking of a group speak at the reading of the last
 * accepted call that brought one: tick first to have them speak of now.
 *
 * Answers. 0 is accepted. Anything else is a refusal, and then no byte of row, head or buffer has
 * changed. Every call on a table is answered KORVEZUL_TABLE, before anything else, if what was
 * lent is not a table: nothing else is asked of the host, and no input can make a call fail
 * otherwise.
 */
#ifndef KORVEZUL_H
#define KORVEZUL_H

#include <stddef.h>
#include <stdint.h>

#ifdef __cplusplus
extern "C" {
#endif

/* The version of this header: 0x070100 is 7.1.0. korvezul_version() is the archive's; another major
 * number is another layout or another meaning, and the two must agree in it. 5: the settings have a mode,
 * in an octet that was nobody's before; 5.1: configurations are read and written; 5.2: records of a log
 * are written; 6: every call but a tick names its party, and a party has 32 sessions; DHC messages are read
 * and written; 7: a record has room for a dual-homing group, and a DHC message that is received is no 5; 7.1:
 * groups are set, returned and asked of, and a DHC message that is received reaches its group. */
#define KORVEZUL_VERSION_MAJOR 7
#define KORVEZUL_VERSION_MINOR 1
#define KORVEZUL_VERSION_PATCH 0
#define KORVEZUL_VERSION \
    (KORVEZUL_VERSION_MAJOR * 0x10000 + KORVEZUL_VERSION_MINOR * 0x100 + KORVEZUL_VERSION_PATCH)

/* The records of a row, how many of them one party may have open, and the first label that is theirs. */
#define KORVEZUL_RECORDS 64
#define KORVEZUL_PARTY_SESSIONS 32
#define KORVEZUL_FIRST_OF_THEIRS 500000
/* The octets of a CC that a session writes. */
#define KORVEZUL_CC_OCTETS 28
/* The longest plain CV, and the longest plain fault message. */
#define KORVEZUL_CV_OCTETS 78
#define KORVEZUL_FAULT_OCTETS 25
/* A plain DHC message with Dual-Node Switching alone, with PW Status alone, and with both. */
#define KORVEZUL_DHC_SWITCHING_OCTETS 32
#define KORVEZUL_DHC_STATUS_OCTETS 36
#define KORVEZUL_DHC_OCTETS 56
/* The octets before the first record of a log, those of an open, those of any other call without its
 * message, and the longest message that a record holds. */
#define KORVEZUL_LOG_HEADER_OCTETS 8
#define KORVEZUL_LOG_OPEN_OCTETS 53
#define KORVEZUL_LOG_CALL_OCTETS 18
#define KORVEZUL_LOG_MESSAGE_OCTETS 2048

enum korvezul_answer {
    KORVEZUL_ACCEPTED = 0,
    KORVEZUL_READING = 1,     /* the reading is below the clock, or above the greatest */
    KORVEZUL_NO_SESSION = 2,  /* no open session has this label, or it is not the caller's */
    KORVEZUL_SHORT = 3,       /* the message is shorter than its layout needs */
    KORVEZUL_HEADER = 4,      /* its first nibble is not 1, or its G-ACh version not 0 */
    KORVEZUL_CHANNEL = 5,     /* its channel is not CC, CV, fault or DHC (a reader of one kind: not that one) */
    KORVEZUL_BFD = 6,         /* a BFD reception rule is broken */
    KORVEZUL_MEP_ID = 7,      /* the MEP-ID's type is above 2, or its length or AGI length does not fit */
    KORVEZUL_FAULT = 8,       /* a field or a TLV of a fault message is wrong */
    KORVEZUL_CONDITIONS = 9,  /* a new condition, and four already stand */
    KORVEZUL_RANGE = 10,      /* a setting or a field to write is out of range, or would not be read; the label
                                 to be opened is not the caller's; a group with one label for both its PWs */
    KORVEZUL_TAKEN = 11,      /* the label is already open, or the local discriminator in the caller's party; the
                                 service PW has a group, or the caller one of this ID */
    KORVEZUL_FULL = 12,       /* 32 sessions of the caller are open */
    KORVEZUL_BUFFER = 13,     /* the lent buffer is too short */
    KORVEZUL_LOCKED = 14,     /* a BFD message for a locked session */
    KORVEZUL_NOT_SO = 15,     /* what is asked about does not stand */
    KORVEZUL_PAST = 16,       /* an entry of a configuration, padding included, past its holder's end */
    KORVEZUL_LENGTH = 17,     /* a known entry whose length its layout does not allow */
    KORVEZUL_NEEDED = 18,     /* a needed entry missing or twice */
    KORVEZUL_NO_GROUP = 24,   /* the caller has no group of this ID; or a DHC message that came on another label
                                 than its DNI-PW's, or not from its peer */
    KORVEZUL_DHC = 25,        /* a TLV of a DHC message past the total, of a wrong length or twice, or neither */
    KORVEZUL_TABLE = 26       /* not 64 records, or open records that no call can have left: one out of range, two
                                 of one label, two of one party and discriminator, over 32 of a party, two
                                 groups of one party and ID */
};

enum korvezul_state {
    KORVEZUL_ADMIN_DOWN = 0,  /* locked */
    KORVEZUL_DOWN = 1,
    KORVEZUL_INIT = 2,
    KORVEZUL_UP = 3
};

enum korvezul_kind {
    KORVEZUL_SECTION = 0,
    KORVEZUL_LSP = 1,
    KORVEZUL_PSEUDOWIRE = 2
};

/* The two operators of a row. A number above 1 is nobody: it owns no label. */
enum korvezul_party {
    KORVEZUL_OURS = 0,        /* labels below 500,000 */
    KORVEZUL_THEIRS = 1       /* all others */
};

/* How a session moves: by Figure 7, 8 or 9 of RFC 6428. A coordinated session watches both directions at
 * once. An independent one is for one direction: a source where its messages are sent, and a sink where they
 * are received and missed. */
enum korvezul_mode {
    KORVEZUL_COORDINATED = 0,
    KORVEZUL_SOURCE = 1,
    KORVEZUL_SINK = 2
};

/* Which of the two PEs of a dual-homing group this one is: the working PE, whose PW is active until something
 * ails it, or the protection PE, whose PW is standby until it is told. */
enum korvezul_role {
    KORVEZUL_WORKING = 0,
    KORVEZUL_PROTECTION = 1
};

/* Whether a service PW, or an AC, carries traffic. */
enum korvezul_activity {
    KORVEZUL_STANDBY = 0,
    KORVEZUL_ACTIVE = 1
};

/* What a PE forwards (RFC 8185, Table 1). With PW and AC both active it is KORVEZUL_PW_WITH_AC whatever the
 * DNI-PW does; the two behind it ask for a DNI-PW that is open and UP. All else is dropped. */
enum korvezul_forwarding {
    KORVEZUL_DROPS = 0,
    KORVEZUL_PW_WITH_AC = 1,  /* service PW <-> AC */
    KORVEZUL_PW_WITH_DNI = 2, /* service PW <-> DNI-PW: PW active, AC standby */
    KORVEZUL_DNI_WITH_AC = 3  /* DNI-PW <-> AC: PW standby, AC active */
};

/* A maintenance end point. kind 0, Section: Global_ID, Node, Interface. kind 1, LSP: Global_ID,
 * Node, and in `local` the Tunnel number (high 16 bits) and the LSP number (low 16 bits). kind 2,
 * pseudowire: Global_ID, Node, AC_ID, and an attachment group identifier of a type and of 0 to 32
 * octets, `agi_length`. Octet i of the AGI is in agi[i / 8], the first of a word in its highest eight
 * bits: (uint8_t)(agi[i / 8] >> (56 - 8 * (i % 8))), on any machine. korvezul_read_mep_id makes the
 * struct from octets.
 *
 * What a kind does not use (of 0 and 1 all three of the AGI) and the octets of `agi` behind
 * `agi_length` are nobody's: they may hold anything, are not written and not compared, and are 0 when
 * read. The length that goes on the line follows from kind and `agi_length`. */
struct korvezul_mep_id {
    uint64_t agi[4];
    uint32_t global;
    uint32_t node;
    uint32_t local;
    uint16_t kind;
    uint8_t agi_type;
    uint8_t agi_length;
};

/* What a session is opened with: the own and the expected MEP-ID, each of kind 0, 1 or 2, which may
 * differ in kind too, with an `agi_length` up to 32 where the kind is 2; label 16 to 1,048,575; a local
 * discriminator, not 0; the period in microseconds, 1,000 to 10,000,000; the marks "follow link-down" and
 * "follow lock", 0 or 1; and the mode, a korvezul_mode, where 0 is a coordinated session. Any other number
 * is out of range: 10 on open, and 26 in a record. */
struct korvezul_settings {
    struct korvezul_mep_id own;
    struct korvezul_mep_id expected;
    uint32_t label;
    uint32_t discriminator;
    uint32_t period;
    uint8_t follow_link;
    uint8_t follow_lock;
    uint8_t mode;
};

/* The label that a call is on, and the party that calls. */
struct korvezul_circuit {
    uint32_t label;
    uint32_t party;
};

/* What a session is opened with, and the party that opens it. */
struct korvezul_opening {
    struct korvezul_settings settings;
    uint32_t party;
};

/* What a dual-homing group is set with: the Dual-Homing Group ID and the Node_ID of the peer, any numbers; the
 * labels of the service PW and of the DNI-PW to the peer; and the role, a korvezul_role, where any number but 0
 * is the protection PE. One label may be the DNI-PW of several groups. */
struct korvezul_group_settings {
    uint32_t id;
    uint32_t peer;
    uint32_t service;
    uint32_t dni;
    uint8_t role;
};

/* The same, and the party that sets it. */
struct korvezul_grouping {
    struct korvezul_group_settings settings;
    uint32_t party;
};

/* The group of an ID, and the party that calls: each has its own IDs. */
struct korvezul_group_name {
    uint32_t party;
    uint32_t id;
};

/* A group, and what its AC is to be: a korvezul_activity, where any number but 0 is active. */
struct korvezul_ac_of {
    struct korvezul_group_name group;
    uint8_t ac;
};

/* What we call with: our label, our session to open. */
static inline struct korvezul_circuit korvezul_ours(uint32_t label) {
    struct korvezul_circuit circuit = {label, KORVEZUL_OURS};
    return circuit;
}

static inline struct korvezul_opening korvezul_opened_by_us(struct korvezul_settings settings) {
    struct korvezul_opening opening = {settings, KORVEZUL_OURS};
    return opening;
}

/* Our group, and the one that we set. */
static inline struct korvezul_group_name korvezul_our_group(uint32_t id) {
    struct korvezul_group_name group = {KORVEZUL_OURS, id};
    return group;
}

static inline struct korvezul_grouping korvezul_grouped_by_us(struct korvezul_group_settings settings) {
    struct korvezul_grouping group = {settings, KORVEZUL_OURS};
    return group;
}

/* What the second operator calls with. */
static inline struct korvezul_circuit korvezul_theirs(uint32_t label) {
    struct korvezul_circuit circuit = {label, KORVEZUL_THEIRS};
    return circuit;
}

static inline struct korvezul_opening korvezul_opened_by_them(struct korvezul_settings settings) {
    struct korvezul_opening opening = {settings, KORVEZUL_THEIRS};
    return opening;
}

static inline struct korvezul_group_name korvezul_their_group(uint32_t id) {
    struct korvezul_group_name group = {KORVEZUL_THEIRS, id};
    return group;
}

static inline struct korvezul_grouping korvezul_grouped_by_them(struct korvezul_group_settings settings) {
    struct korvezul_grouping group = {settings, KORVEZUL_THEIRS};
    return group;
}

/* Whose label it is, one out of range too: for a host that serves both, as `watch` does with a capture. */
static inline uint32_t korvezul_party_of(uint32_t label) {
    return label < KORVEZUL_FIRST_OF_THEIRS ? KORVEZUL_OURS : KORVEZUL_THEIRS;
}

/* The record of a session. It is the host's memory and the library's content: read a session with
 * korvezul_report, and copy or keep rows and heads as they are. A condition is told by its key: type,
 * IF_ID (`present` 1 where there is one) and Global_ID (`carrier` 1 where there is one). */
struct korvezul_key {
    uint32_t node;
    uint32_t interface_number;
    uint32_t global;
    uint8_t kind;
    uint8_t present;
    uint8_t carrier;
};

struct korvezul_condition {
    uint64_t at;
    struct korvezul_key key;
    uint8_t refresh;
    uint8_t link_down;
};

struct korvezul_peer {
    uint32_t remote;
    uint8_t multiplier;
    uint8_t diagnostic;
    uint8_t owed;
};

/* The dual-homing group of a service PW, in its record: the Dual-Homing Group ID, the peer's Node_ID and the
 * label of the DNI-PW; `set` is 1 where there is a group; `role` is 0 for the working PE and 1 for the protection
 * PE; `pw` and `ac` are 0 standby, 1 active. `pw` may be behind the clock: ask with korvezul_ask_group. */
struct korvezul_group {
    uint32_t id;
    uint32_t peer;
    uint32_t dni;
    uint8_t set;
    uint8_t role;
    uint8_t pw;
    uint8_t ac;
};

struct korvezul_session {
    uint64_t timed;
    uint64_t crossed;
    struct korvezul_condition conditions[4];
    struct korvezul_settings settings;
    struct korvezul_peer peer;
    uint8_t state;
    uint8_t crossing;
    struct korvezul_group group;
};

/* What is lent beside a row. Bit i of `occupied` is set while record i is an open session. */
struct korvezul_head {
    uint64_t clock;
    uint64_t occupied;
};

/* A report: 0 and seven numbers, or a refusal and seven noughts. `state` is a korvezul_state,
 * `conditions` a count up to 4, the others are 0 or 1. Traffic is to be blocked while `blocked` is
 * 1. A held-back alarm is loss 1 and alarm 0. A source in UP misses nothing: loss and alarm are 0 however
 * long it hears nothing, and `rdi` is what it was told last. Its crossing and its conditions show as ever. */
struct korvezul_report_answer {
    uint32_t answer;
    uint8_t state;
    uint8_t crossing;
    uint8_t loss;
    uint8_t alarm;
    uint8_t rdi;
    uint8_t blocked;
    uint8_t conditions;
};

/* What a group tells: whether its service PW and its AC are active, each a korvezul_activity, and what is
 * forwarded, a korvezul_forwarding. */
struct korvezul_group_report {
    uint8_t pw;
    uint8_t ac;
    uint8_t forwarding;
};

/* 0 and the three, or a refusal and three noughts. */
struct korvezul_group_answer {
    uint32_t answer;
    struct korvezul_group_report group;
};

/* What korvezul_why is asked about. */
enum korvezul_thing {
    KORVEZUL_A_CROSSING = 1,
    KORVEZUL_A_LOSS = 2,
    KORVEZUL_HELD_BACK = 3,   /* an alarm held back: a loss while conditions stand */
    KORVEZUL_A_CONDITION = 4  /* the condition of the key */
};

/* A question: a label, who asks and a thing, and beside KORVEZUL_A_CONDITION the key of the condition. The
 * key is nobody's otherwise. A number that is no thing stands for nothing: 15. */
struct korvezul_question {
    struct korvezul_circuit circuit;
    struct korvezul_key key;
    uint8_t thing;
};

/* Why it is so: clock and set as they are; of the message that accounts for the thing the reading and
 * the age at the clock; and the end, the first reading at which the thing no longer stands if nothing
 * more arrives, of a loss the first at which it stood. A loss is timed from an opening, an unlock or a
 * heard message. An alarm is held back by the condition that ends last, of equal ends by the later
 * message. Beside a refusal the three are noughts. */
struct korvezul_cause {
    struct korvezul_head head;
    uint64_t reading;
    uint64_t age;
    uint64_t end;
    uint32_t answer;
};

/* The fields of a BFD control packet; intervals in microseconds; P, F, C and D are 0 or 1. */
struct korvezul_packet {
    uint32_t my;
    uint32_t your;
    uint32_t transmit;
    uint32_t receive;
    uint32_t echo;
    uint8_t diagnostic;
    uint8_t state;
    uint8_t multiplier;
    uint8_t poll;
    uint8_t final;
    uint8_t independent;
    uint8_t demand;
};

/* The fields of a fault message: kind 1 AIS, 2 LKR; the flags L (link-down) and R (removed) 0 or 1;
 * refresh 1 to 20 seconds; and 1 or 0 for an IF_ID and a Global_ID that are there or not. Numbers
 * behind a 0 are 0 when read and must be 0 when written: they would be lost (10). */
struct korvezul_fault {
    uint32_t node;
    uint32_t interface_number;
    uint32_t global;
    uint8_t kind;
    uint8_t link_down;
    uint8_t removed;
    uint8_t refresh;
    uint8_t has_if_id;
    uint8_t has_global_id;
};

/* The fields of a DHC message (dual-homing coordination, channel 0x0009): the Dual-Homing Group ID, and of
 * PW Status and Dual-Node Switching 1 or 0 in `present` for one that is there or not, at least one of them.
 * Each has the Node_IDs of the PEs that it is for and from, and the DNI-PW ID. The bits are 0 or 1: P
 * (`protection`; 0 is the working PE), D (`degrade`) and F (`fail`) of the service PW, and S (`switches`, to
 * the protection PW). Numbers and bits behind a 0 are 0 when read and must be 0 when written (10). */
struct korvezul_dhc_status {
    uint32_t destination;
    uint32_t source;
    uint32_t pw;
    uint8_t present;
    uint8_t protection;
    uint8_t degrade;
    uint8_t fail;
};

struct korvezul_dhc_switching {
    uint32_t destination;
    uint32_t source;
    uint32_t pw;
    uint8_t present;
    uint8_t switches;
    uint8_t protection;
};

struct korvezul_dhc {
    uint32_t id;
    struct korvezul_dhc_status status;
    struct korvezul_dhc_switching switching;
};

/* What a reader answers: 0 and the fields, or a refusal and noughts; and beside either a place, an
 * offset from the first octet of the message. Octets behind a message are padding and are ignored.
 * By the answer, `place` is
 *   0  the octets that the message uses, padding left out: of a CC 4 + Length, of a CV 4 + Length + 4 +
 *      the MEP-ID's length, of a fault message 9 + the TLVs' total
 *   3  the octets that were handed in
 *   4  0: nibble and G-ACh version are octet 0
 *   5  2, where the channel type starts
 *   6  the field that breaks the rule: 4 version, 5 A or M, 6 multiplier, 7 Length, 8 My, 12 Your
 *   7  the MEP-ID's type, at 4 + Length; its length, at 4 + Length + 2; a pseudowire's AGI length, at
 *      4 + Length + 17
 *   8  4 version, 5 type, 7 refresh; of the first wrong TLV its type octet if it is one stray octet,
 *      the second of a type 1 or 2, or goes past the total, else its length octet
 * Of several such fields it is the earliest. A place may be 0 beside a refusal: the answer tells. */
struct korvezul_cc_read {
    uint64_t place;
    uint32_t answer;
    struct korvezul_packet packet;
};

/* The MEP-ID part of an accepted CV, type to end, is the `part_octets` octets of the message from
 * `part` on: 16, of a pseudowire 18 to 50. Both are 0 beside a refusal. */
struct korvezul_cv_read {
    uint64_t place;
    uint32_t answer;
    uint32_t part;
    uint32_t part_octets;
    struct korvezul_packet packet;
    struct korvezul_mep_id mep;
};

/* A MEP-ID alone: 0 and its fields, or a refusal and noughts. */
struct korvezul_mep_id_read {
    uint32_t answer;
    struct korvezul_mep_id mep;
};

struct korvezul_fault_read {
    uint64_t place;
    uint32_t answer;
    struct korvezul_fault fault;
};

/* A DHC message: 0 and its fields, or a refusal and noughts. */
struct korvezul_dhc_read {
    uint32_t answer;
    struct korvezul_dhc dhc;
};

/* What a configuration offers: 0 and the two numbers, or a refusal and noughts. */
struct korvezul_configuration_read {
    uint32_t answer;
    uint32_t discriminator;
    uint32_t period;
};

/* The calls by their numbers in a capture and in a log. */
enum korvezul_call {
    KORVEZUL_CALL_TICK = 0,
    KORVEZUL_CALL_OPEN = 1,   /* korvezul_log_open writes it */
    KORVEZUL_CALL_CLOSE = 2,
    KORVEZUL_CALL_LOCK = 3,
    KORVEZUL_CALL_UNLOCK = 4,
    KORVEZUL_CALL_RECEIVE = 5,
    KORVEZUL_CALL_REPORT = 6,
    KORVEZUL_CALL_WRITE_CC = 7,
    KORVEZUL_CALL_WRITE_CV = 8
};

/* What a card did, for its log: the call, a korvezul_call, with its reading and its label, and what it was
 * answered. Where a call brings no reading (a report, a write) or has no label (a tick) the number is
 * written and never looked at. */
struct korvezul_logged {
    uint64_t time;
    uint32_t label;
    uint16_t kind;
    uint16_t answer;
};

/* The version of the archive, to be compared with KORVEZUL_VERSION. */
uint32_t korvezul_version(void);

/* The table. `records` is the number of records of the row: 64, or the answer is KORVEZUL_TABLE. */

/* Makes a row an empty table at clock 0. The records are not looked at and may hold anything. */
uint32_t korvezul_empty(const struct korvezul_session *row, size_t records, struct korvezul_head *head);

/* Opens a session in the lowest free place of the row, in the mode of its settings. Places are not shared
 * out between the parties: 32 and 32 is all that there are. 26, 1, 10, 11, 12. */
uint32_t korvezul_open(struct korvezul_session *row, size_t records, struct korvezul_head *head,
                       struct korvezul_opening opening, uint64_t reading);

/* Gives the session of a label up. 26, 1, 2. */
uint32_t korvezul_close(struct korvezul_session *row, size_t records, struct korvezul_head *head,
                        struct korvezul_circuit circuit, uint64_t reading);

/* Locks a session (ADMIN DOWN), or unlocks it. Doing either twice is accepted. 26, 1, 2. */
uint32_t korvezul_lock(struct korvezul_session *row, size_t records, struct korvezul_head *head,
                       struct korvezul_circuit circuit, uint64_t reading);
uint32_t korvezul_unlock(struct korvezul_session *row, size_t records, struct korvezul_head *head,
                         struct korvezul_circuit circuit, uint64_t reading);

/* A message of any octets, from the G-ACh header on, that came in on a label.
 * 26, 1, 2, 3, 4, 5; then of a CC 3, 6, 3, 14; of a CV 3, 6, 3, 7, 3, 7, 14, the first 3 and 7 behind
 * the packet for type and length of the MEP-ID, the second for its value; of a fault message 3, 8, 3, 8,
 * 9; of a DHC message 3, 25, 24.
 * A DHC message is for the group of its ID in the party of the label: the label must be that of its DNI-PW, and
 * each of the two TLVs that is there must be from its peer, else 24. S makes the working PE's PW standby and the
 * protection PE's active; F without S makes the protection PE's active; no message does more, and none takes a
 * switch back. The session of the label is left as it was, and may be locked. */
uint32_t korvezul_receive(struct korvezul_session *row, size_t records, struct korvezul_head *head,
                          struct korvezul_circuit circuit, const uint8_t *message, size_t octets,
                          uint64_t reading);

/* The clock, which is both parties', moves on. 26, 1. */
uint32_t korvezul_tick(struct korvezul_session *row, size_t records, struct korvezul_head *head,
                       uint64_t reading);

/* Sets a dual-homing group for a service PW and a DNI-PW, two open sessions of the party. Its AC is standby.
 * The PW of a protection PE is standby; that of a working PE is active, unless a loss or a crossing of the
 * service PW stands at the reading. From then on the working PE's PW becomes standby at the first accepted call
 * with a reading, on whatever label, at which the service PW has a loss, and with an accepted crossed message on
 * it; what makes it active again is korvezul_return_group alone. The group ends with its service PW's session.
 * The DNI-PW may be closed: it is down, and its label opened again is the DNI-PW again.
 * 26, 1, 2 (either label), 10 (one label for both), 11. */
uint32_t korvezul_set_group(struct korvezul_session *row, size_t records, struct korvezul_head *head,
                            struct korvezul_grouping group, uint64_t reading);

/* The AC of a group becomes active or standby. The library does not watch it: the host says. 26, 1, 24. */
uint32_t korvezul_set_ac(struct korvezul_session *row, size_t records, struct korvezul_head *head,
                         struct korvezul_ac_of ac, uint64_t reading);

/* The operator's return to the working PW: the PW of a group is again what setting would make it; the AC stays.
 * Nothing tells the other PE: it is returned there too. 26, 1, 24. */
uint32_t korvezul_return_group(struct korvezul_session *row, size_t records, struct korvezul_head *head,
                               struct korvezul_group_name group, uint64_t reading);

/* PW, AC and what is forwarded of a group, at the clock. Nothing changes. 26, 24. */
struct korvezul_group_answer korvezul_ask_group(struct korvezul_session *row, size_t records,
                                                struct korvezul_head *head, struct korvezul_group_name group);

/* The report on a label at the clock. Nothing changes. 26, 2. */
struct korvezul_report_answer korvezul_report(struct korvezul_session *row, size_t records,
                                              struct korvezul_head *head, struct korvezul_circuit circuit);

/* Why a label shows what it shows, at the clock. Nothing changes. 26, 2, 15. */
struct korvezul_cause korvezul_why(struct korvezul_session *row, size_t records, struct korvezul_head *head,
                                   struct korvezul_question question);

/* Writes the CC (28 octets) or the CV (44; 46 and the AGI's octets, up to 78, where the own MEP-ID is a
 * pseudowire's) that the session of a label is to send, at the clock, to the front of a buffer of `size`
 * octets; what lies behind is not touched. A source writes a required receive interval of 0, every other
 * session its period. Where the host does not keep how long its CVs are, korvezul_read_cv of the buffer has
 * it in `place`. 26, 2, 13. */
uint32_t korvezul_write_cc(struct korvezul_session *row, size_t records, struct korvezul_head *head,
                           struct korvezul_circuit circuit, uint8_t *buffer, size_t size);
uint32_t korvezul_write_cv(struct korvezul_session *row, size_t records, struct korvezul_head *head,
                           struct korvezul_circuit circuit, uint8_t *buffer, size_t size);

/* Messages alone, without a table. Refusals: a CC 3, 4, 5, 3, 6, 3; a CV 3, 4, 5, 3, 6, 3, 7, 3, 7; a
 * fault message 3, 4, 5, 3, 8, 3, 8; a DHC message 3, 4, 5, 3, 25. */

struct korvezul_cc_read korvezul_read_cc(const uint8_t *message, size_t octets);
struct korvezul_cv_read korvezul_read_cv(const uint8_t *message, size_t octets);
struct korvezul_fault_read korvezul_read_fault(const uint8_t *message, size_t octets);

/* The two TLVs may come in either order, with others among them; bits that have no field, reserved octets and
 * those behind the total are not looked at. korvezul_receive, which hands the message to a group, gives the same
 * refusal where this one does. */
struct korvezul_dhc_read korvezul_read_dhc(const uint8_t *message, size_t octets);

/* A MEP-ID from its own octets, type to end, as it stands in a CV: to be opened with, or to be written.
 * Octets behind it are ignored. 3, 7, 3, 7. */
struct korvezul_mep_id_read korvezul_read_mep_id(const uint8_t *octets, size_t size);

/* Plain messages from their fields: 28 octets; 44, of a pseudowire 46 to 78; 9, 15, 19 or 25; and of a DHC
 * message 32, 36 or 56, PW Status first. 10, 13. */
uint32_t korvezul_write_cc_message(uint8_t *buffer, size_t size, struct korvezul_packet packet);
uint32_t korvezul_write_cv_message(uint8_t *buffer, size_t size, struct korvezul_packet packet,
                                   struct korvezul_mep_id mep);
uint32_t korvezul_write_fault_message(uint8_t *buffer, size_t size, struct korvezul_fault fault);
uint32_t korvezul_write_dhc_message(uint8_t *buffer, size_t size, struct korvezul_dhc dhc);

/* The settings of a session from LSP Ping records: a list of nested TLVs, OAM Functions, in it BFD
 * Configuration, in that Local Discriminator and Negotiation Timer Parameters, whose transmit interval
 * is the period. The draft suggests a type for each of these and none for BFD Authentication: that is
 * `authentication`. 10 if it is 1 or 2, whatever the octets are; then over the whole list 16, 17, 18,
 * 10. */
struct korvezul_configuration_read korvezul_read_configuration(const uint8_t *octets, size_t size,
                                                               uint16_t authentication);

/* Writes the two, 40 octets, all else nought. 10, 13. */
uint32_t korvezul_write_configuration(uint8_t *buffer, size_t size, uint32_t discriminator, uint32_t period);

/* A log of the calls on a table, from the time that it was made empty: the header, and then a record for
 * each call. Each of these writes to the front of a buffer and needs no table; what lies behind is not
 * touched. A record reads back to the call and the answer that it was written from. It has no room for a
 * party: the label says whose call it is. A call on a label that is not the caller's has no record: it is
 * answered 26, 1, 2 or 10 and changes nothing. Nor has a log a group: to all else an accepted call on one, and an
 * accepted DHC message, is a tick to its reading, and a tick is written for it. */

/* The 8 octets before the first record. 13. */
uint32_t korvezul_log_header(uint8_t *buffer, size_t size);

/* An open and what it was answered, 53 octets. A record has no room for every setting: 10 where the two
 * MEP-IDs differ in kind or are a pseudowire's, where `agi`, `agi_type` or `agi_length` of one is not 0, where
 * the mode is not 0, and where a mark is above 1. All other numbers are written as they are. Then 13. */
uint32_t korvezul_log_open(uint8_t *buffer, size_t size, struct korvezul_settings settings, uint64_t reading,
                           uint16_t answer);

/* Any other call and what it was answered, 18 octets and those of the message of a receive; every other
 * call has none, and `octets` is 0. 10 where the kind is 1 or above 8, where there are octets beside
 * another kind than 5, and where there are more than 2,048. Then 13. */
uint32_t korvezul_log_call(uint8_t *buffer, size_t size, struct korvezul_logged what, const uint8_t *message,
                           size_t octets);

/* The layout that the library was compiled with, held against this compiler's: a size or a place
 * that differs is an array of -1 elements. The numbers are those proved of the library's own structs
 * (crates/korvezul/proofs/Places.antt); hosts/run compares the two lists. */
#define KORVEZUL_CHECK(name, test) typedef char korvezul_check_##name[(test) ? 1 : -1]
#define KORVEZUL_PLACE(type, field, place) \
    KORVEZUL_CHECK(type##_##field, offsetof(struct korvezul_##type, field) == (place))
#define KORVEZUL_SIZE(type, size) KORVEZUL_CHECK(type##_size, sizeof(struct korvezul_##type) == (size))
#define KORVEZUL_ALIGNED(type, to) \
    struct korvezul_aligned_##type { \
        char octet; \
        struct korvezul_##type value; \
    }; \
    KORVEZUL_CHECK(type##_alignment, offsetof(struct korvezul_aligned_##type, value) == (to))

KORVEZUL_SIZE(mep_id, 48);
KORVEZUL_ALIGNED(mep_id, 8);
KORVEZUL_PLACE(mep_id, agi, 0);
KORVEZUL_PLACE(mep_id, global, 32);
KORVEZUL_PLACE(mep_id, node, 36);
KORVEZUL_PLACE(mep_id, local, 40);
KORVEZUL_PLACE(mep_id, kind, 44);
KORVEZUL_PLACE(mep_id, agi_type, 46);
KORVEZUL_PLACE(mep_id, agi_length, 47);

KORVEZUL_SIZE(settings, 112);
KORVEZUL_ALIGNED(settings, 8);
KORVEZUL_PLACE(settings, own, 0);
KORVEZUL_PLACE(settings, expected, 48);
KORVEZUL_PLACE(settings, label, 96);
KORVEZUL_PLACE(settings, discriminator, 100);
KORVEZUL_PLACE(settings, period, 104);
KORVEZUL_PLACE(settings, follow_link, 108);
KORVEZUL_PLACE(settings, follow_lock, 109);
KORVEZUL_PLACE(settings, mode, 110);

KORVEZUL_SIZE(circuit, 8);
KORVEZUL_ALIGNED(circuit, 4);
KORVEZUL_PLACE(circuit, label, 0);
KORVEZUL_PLACE(circuit, party, 4);

KORVEZUL_SIZE(opening, 120);
KORVEZUL_ALIGNED(opening, 8);
KORVEZUL_PLACE(opening, settings, 0);
KORVEZUL_PLACE(opening, party, 112);

KORVEZUL_SIZE(group_settings, 20);
KORVEZUL_ALIGNED(group_settings, 4);
KORVEZUL_PLACE(group_settings, id, 0);
KORVEZUL_PLACE(group_settings, peer, 4);
KORVEZUL_PLACE(group_settings, service, 8);
KORVEZUL_PLACE(group_settings, dni, 12);
KORVEZUL_PLACE(group_settings, role, 16);

KORVEZUL_SIZE(grouping, 24);
KORVEZUL_ALIGNED(grouping, 4);
KORVEZUL_PLACE(grouping, settings, 0);
KORVEZUL_PLACE(grouping, party, 20);

KORVEZUL_SIZE(group_name, 8);
KORVEZUL_ALIGNED(group_name, 4);
KORVEZUL_PLACE(group_name, party, 0);
KORVEZUL_PLACE(group_name, id, 4);

KORVEZUL_SIZE(ac_of, 12);
KORVEZUL_ALIGNED(ac_of, 4);
KORVEZUL_PLACE(ac_of, group, 0);
KORVEZUL_PLACE(ac_of, ac, 8);

KORVEZUL_SIZE(key, 16);
KORVEZUL_ALIGNED(key, 4);
KORVEZUL_PLACE(key, node, 0);
KORVEZUL_PLACE(key, interface_number, 4);
KORVEZUL_PLACE(key, global, 8);
KORVEZUL_PLACE(key, kind, 12);
KORVEZUL_PLACE(key, present, 13);
KORVEZUL_PLACE(key, carrier, 14);

KORVEZUL_SIZE(condition, 32);
KORVEZUL_ALIGNED(condition, 8);
KORVEZUL_PLACE(condition, at, 0);
KORVEZUL_PLACE(condition, key, 8);
KORVEZUL_PLACE(condition, refresh, 24);
KORVEZUL_PLACE(condition, link_down, 25);

KORVEZUL_SIZE(peer, 8);
KORVEZUL_ALIGNED(peer, 4);
KORVEZUL_PLACE(peer, remote, 0);
KORVEZUL_PLACE(peer, multiplier, 4);
KORVEZUL_PLACE(peer, diagnostic, 5);
KORVEZUL_PLACE(peer, owed, 6);

KORVEZUL_SIZE(group, 16);
KORVEZUL_ALIGNED(group, 4);
KORVEZUL_PLACE(group, id, 0);
KORVEZUL_PLACE(group, peer, 4);
KORVEZUL_PLACE(group, dni, 8);
KORVEZUL_PLACE(group, set, 12);
KORVEZUL_PLACE(group, role, 13);
KORVEZUL_PLACE(group, pw, 14);
KORVEZUL_PLACE(group, ac, 15);

KORVEZUL_SIZE(session, 288);
KORVEZUL_ALIGNED(session, 8);
KORVEZUL_PLACE(session, timed, 0);
KORVEZUL_PLACE(session, crossed, 8);
KORVEZUL_PLACE(session, conditions, 16);
KORVEZUL_PLACE(session, settings, 144);
KORVEZUL_PLACE(session, peer, 256);
KORVEZUL_PLACE(session, state, 264);
KORVEZUL_PLACE(session, crossing, 265);
KORVEZUL_PLACE(session, group, 268);

KORVEZUL_SIZE(head, 16);
KORVEZUL_ALIGNED(head, 8);
KORVEZUL_PLACE(head, clock, 0);
KORVEZUL_PLACE(head, occupied, 8);

KORVEZUL_SIZE(report_answer, 12);
KORVEZUL_ALIGNED(report_answer, 4);
KORVEZUL_PLACE(report_answer, answer, 0);
KORVEZUL_PLACE(report_answer, state, 4);
KORVEZUL_PLACE(report_answer, crossing, 5);
KORVEZUL_PLACE(report_answer, loss, 6);
KORVEZUL_PLACE(report_answer, alarm, 7);
KORVEZUL_PLACE(report_answer, rdi, 8);
KORVEZUL_PLACE(report_answer, blocked, 9);
KORVEZUL_PLACE(report_answer, conditions, 10);

KORVEZUL_SIZE(group_report, 3);
KORVEZUL_ALIGNED(group_report, 1);
KORVEZUL_PLACE(group_report, pw, 0);
KORVEZUL_PLACE(group_report, ac, 1);
KORVEZUL_PLACE(group_report, forwarding, 2);

KORVEZUL_SIZE(group_answer, 8);
KORVEZUL_ALIGNED(group_answer, 4);
KORVEZUL_PLACE(group_answer, answer, 0);
KORVEZUL_PLACE(group_answer, group, 4);

KORVEZUL_SIZE(question, 28);
KORVEZUL_ALIGNED(question, 4);
KORVEZUL_PLACE(question, circuit, 0);
KORVEZUL_PLACE(question, key, 8);
KORVEZUL_PLACE(question, thing, 24);

KORVEZUL_SIZE(cause, 48);
KORVEZUL_ALIGNED(cause, 8);
KORVEZUL_PLACE(cause, head, 0);
KORVEZUL_PLACE(cause, reading, 16);
KORVEZUL_PLACE(cause, age, 24);
KORVEZUL_PLACE(cause, end, 32);
KORVEZUL_PLACE(cause, answer, 40);

KORVEZUL_SIZE(packet, 28);
KORVEZUL_ALIGNED(packet, 4);
KORVEZUL_PLACE(packet, my, 0);
KORVEZUL_PLACE(packet, your, 4);
KORVEZUL_PLACE(packet, transmit, 8);
KORVEZUL_PLACE(packet, receive, 12);
KORVEZUL_PLACE(packet, echo, 16);
KORVEZUL_PLACE(packet, diagnostic, 20);
KORVEZUL_PLACE(packet, state, 21);
KORVEZUL_PLACE(packet, multiplier, 22);
KORVEZUL_PLACE(packet, poll, 23);
KORVEZUL_PLACE(packet, final, 24);
KORVEZUL_PLACE(packet, independent, 25);
KORVEZUL_PLACE(packet, demand, 26);

KORVEZUL_SIZE(fault, 20);
KORVEZUL_ALIGNED(fault, 4);
KORVEZUL_PLACE(fault, node, 0);
KORVEZUL_PLACE(fault, interface_number, 4);
KORVEZUL_PLACE(fault, global, 8);
KORVEZUL_PLACE(fault, kind, 12);
KORVEZUL_PLACE(fault, link_down, 13);
KORVEZUL_PLACE(fault, removed, 14);
KORVEZUL_PLACE(fault, refresh, 15);
KORVEZUL_PLACE(fault, has_if_id, 16);
KORVEZUL_PLACE(fault, has_global_id, 17);

KORVEZUL_SIZE(dhc_status, 16);
KORVEZUL_ALIGNED(dhc_status, 4);
KORVEZUL_PLACE(dhc_status, destination, 0);
KORVEZUL_PLACE(dhc_status, source, 4);
KORVEZUL_PLACE(dhc_status, pw, 8);
KORVEZUL_PLACE(dhc_status, present, 12);
KORVEZUL_PLACE(dhc_status, protection, 13);
KORVEZUL_PLACE(dhc_status, degrade, 14);
KORVEZUL_PLACE(dhc_status, fail, 15);

KORVEZUL_SIZE(dhc_switching, 16);
KORVEZUL_ALIGNED(dhc_switching, 4);
KORVEZUL_PLACE(dhc_switching, destination, 0);
KORVEZUL_PLACE(dhc_switching, source, 4);
KORVEZUL_PLACE(dhc_switching, pw, 8);
KORVEZUL_PLACE(dhc_switching, present, 12);
KORVEZUL_PLACE(dhc_switching, switches, 13);
KORVEZUL_PLACE(dhc_switching, protection, 14);

KORVEZUL_SIZE(dhc, 36);
KORVEZUL_ALIGNED(dhc, 4);
KORVEZUL_PLACE(dhc, id, 0);
KORVEZUL_PLACE(dhc, status, 4);
KORVEZUL_PLACE(dhc, switching, 20);

KORVEZUL_SIZE(cc_read, 40);
KORVEZUL_ALIGNED(cc_read, 8);
KORVEZUL_PLACE(cc_read, place, 0);
KORVEZUL_PLACE(cc_read, answer, 8);
KORVEZUL_PLACE(cc_read, packet, 12);

KORVEZUL_SIZE(cv_read, 96);
KORVEZUL_ALIGNED(cv_read, 8);
KORVEZUL_PLACE(cv_read, place, 0);
KORVEZUL_PLACE(cv_read, answer, 8);
KORVEZUL_PLACE(cv_read, part, 12);
KORVEZUL_PLACE(cv_read, part_octets, 16);
KORVEZUL_PLACE(cv_read, packet, 20);
KORVEZUL_PLACE(cv_read, mep, 48);

KORVEZUL_SIZE(mep_id_read, 56);
KORVEZUL_ALIGNED(mep_id_read, 8);
KORVEZUL_PLACE(mep_id_read, answer, 0);
KORVEZUL_PLACE(mep_id_read, mep, 8);

KORVEZUL_SIZE(fault_read, 32);
KORVEZUL_ALIGNED(fault_read, 8);
KORVEZUL_PLACE(fault_read, place, 0);
KORVEZUL_PLACE(fault_read, answer, 8);
KORVEZUL_PLACE(fault_read, fault, 12);

KORVEZUL_SIZE(dhc_read, 40);
KORVEZUL_ALIGNED(dhc_read, 4);
KORVEZUL_PLACE(dhc_read, answer, 0);
KORVEZUL_PLACE(dhc_read, dhc, 4);

KORVEZUL_SIZE(configuration_read, 12);
KORVEZUL_ALIGNED(configuration_read, 4);
KORVEZUL_PLACE(configuration_read, answer, 0);
KORVEZUL_PLACE(configuration_read, discriminator, 4);
KORVEZUL_PLACE(configuration_read, period, 8);

KORVEZUL_SIZE(logged, 16);
KORVEZUL_ALIGNED(logged, 8);
KORVEZUL_PLACE(logged, time, 0);
KORVEZUL_PLACE(logged, label, 8);
KORVEZUL_PLACE(logged, kind, 12);
KORVEZUL_PLACE(logged, answer, 14);

#undef KORVEZUL_ALIGNED
#undef KORVEZUL_SIZE
#undef KORVEZUL_PLACE
#undef KORVEZUL_CHECK

#ifdef __cplusplus
}
#endif

#endif
