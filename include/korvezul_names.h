/*
 * Names for the answers, states, parties, modes and of groups the roles, PWs and ACs and what is forwarded, of
 * korvezul.h, for logs and screens: the words of its comments, short. A number that is none of them is "unknown".
 */
#ifndef KORVEZUL_NAMES_H
#define KORVEZUL_NAMES_H

#include "korvezul.h"

static inline const char *korvezul_answer_name(uint32_t answer) {
    switch (answer) {
    case KORVEZUL_ACCEPTED: return "accepted";
    case KORVEZUL_READING: return "reading below the clock or too great";
    case KORVEZUL_NO_SESSION: return "no such session";
    case KORVEZUL_SHORT: return "message too short";
    case KORVEZUL_HEADER: return "no G-ACh header";
    case KORVEZUL_CHANNEL: return "other channel";
    case KORVEZUL_BFD: return "BFD rule broken";
    case KORVEZUL_MEP_ID: return "MEP-ID wrong";
    case KORVEZUL_FAULT: return "fault message wrong";
    case KORVEZUL_CONDITIONS: return "four conditions stand";
    case KORVEZUL_RANGE: return "out of range";
    case KORVEZUL_TAKEN: return "label, discriminator or group taken";
    case KORVEZUL_FULL: return "all sessions of the party open";
    case KORVEZUL_BUFFER: return "buffer too short";
    case KORVEZUL_LOCKED: return "session locked";
    case KORVEZUL_NOT_SO: return "does not stand";
    case KORVEZUL_PAST: return "entry past its holder's end";
    case KORVEZUL_LENGTH: return "entry of a wrong length";
    case KORVEZUL_NEEDED: return "needed entry missing or twice";
    case KORVEZUL_NO_GROUP: return "no such group";
    case KORVEZUL_DHC: return "DHC message wrong";
    case KORVEZUL_TABLE: return "not a table";
    default: return "unknown";
    }
}

static inline const char *korvezul_state_name(uint32_t state) {
    switch (state) {
    case KORVEZUL_ADMIN_DOWN: return "ADMIN DOWN";
    case KORVEZUL_DOWN: return "DOWN";
    case KORVEZUL_INIT: return "INIT";
    case KORVEZUL_UP: return "UP";
    default: return "unknown";
    }
}

static inline const char *korvezul_party_name(uint32_t party) {
    switch (party) {
    case KORVEZUL_OURS: return "ours";
    case KORVEZUL_THEIRS: return "theirs";
    default: return "unknown";
    }
}

static inline const char *korvezul_mode_name(uint32_t mode) {
    switch (mode) {
    case KORVEZUL_COORDINATED: return "coordinated";
    case KORVEZUL_SOURCE: return "source";
    case KORVEZUL_SINK: return "sink";
    default: return "unknown";
    }
}

static inline const char *korvezul_role_name(uint32_t role) {
    switch (role) {
    case KORVEZUL_WORKING: return "working";
    case KORVEZUL_PROTECTION: return "protection";
    default: return "unknown";
    }
}

static inline const char *korvezul_activity_name(uint32_t activity) {
    switch (activity) {
    case KORVEZUL_STANDBY: return "standby";
    case KORVEZUL_ACTIVE: return "active";
    default: return "unknown";
    }
}

static inline const char *korvezul_forwarding_name(uint32_t forwarding) {
    switch (forwarding) {
    case KORVEZUL_DROPS: return "drops all";
    case KORVEZUL_PW_WITH_AC: return "service PW with AC";
    case KORVEZUL_PW_WITH_DNI: return "service PW with DNI-PW";
    case KORVEZUL_DNI_WITH_AC: return "DNI-PW with AC";
    default: return "unknown";
    }
}

#endif
