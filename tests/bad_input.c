/* The C library with bad input: any 64 octets as a state, any width, any limit, any maps, areas that are too short or not there, packets and
 * stretches of any length.
 *
 * Each call is held against the rules below, which are its own, and each stretch against the calls octet by octet. Prints a line for each
 * failure and one at the end. Exit status: 0 where nothing failed, else 1. */
#include <stdio.h>
#include <string.h>

#include "kutarehopa.h"

#define LENGTH(array) (sizeof(array) / sizeof(array)[0])

enum { FLAG = 0x7E, ESCAPE = 0x7D, RESTART = 0xFF };
enum { RECEIVER_OCTETS = 26, SENDER_OCTETS = 38, PLAIN_OCTETS = 36 }; /* how many octets of a state its layout lists (docs/CLIBRARY.md) */

/* ---- The memory that a call is handed. Around each part lie guard octets, which no call may change. */

enum { GUARD = 64, MOST = KUTA_LARGEST_LIMIT + 256 }; /* more octets than any area, packet or COBS frame on the line has */
enum { MOST_PLAIN = KUTA_PLAIN_AREA(32, MOST) + 64 }; /* more than any packet here takes in plain PPP */

struct memory {
    uint8_t state[GUARD + KUTA_STATE + GUARD];
    uint8_t one[GUARD + MOST_PLAIN + GUARD]; /* the area low, or first, or that of a plain sender; or the plain sender of a pair */
    uint8_t other[GUARD + MOST + GUARD];     /* the area high, or second */
    uint8_t line[GUARD + MOST + GUARD];      /* octets of the line, or a packet, or a sending map */
};

/* The lengths that go with it. A part of length 0 is handed over as NULL. */
struct lengths {
    size_t one, other, line;
};

static const struct lengths nothing_lent = {0, 0, 0};

static uint8_t *part(uint8_t *guarded, size_t length) { return length == 0 ? NULL : guarded + GUARD; }

/* Only what is handed over, with its guards, is copied and compared. */
static void copy(struct memory *to, const struct memory *from, struct lengths n) {
    memcpy(to->state, from->state, sizeof to->state);
    memcpy(to->one, from->one, GUARD + n.one + GUARD);
    memcpy(to->other, from->other, GUARD + n.other + GUARD);
    memcpy(to->line, from->line, GUARD + n.line + GUARD);
}

static int same(const struct memory *m, const struct memory *as, struct lengths n) {
    return memcmp(m->state, as->state, sizeof m->state) == 0 && memcmp(m->one, as->one, GUARD + n.one + GUARD) == 0 &&
           memcmp(m->other, as->other, GUARD + n.other + GUARD) == 0 && memcmp(m->line, as->line, GUARD + n.line + GUARD) == 0;
}

/* ---- Pseudo-random numbers, the same at each run */

static uint32_t draw(void) {
    static uint32_t seed = 1662;
    seed ^= seed << 13;
    seed ^= seed >> 17;
    seed ^= seed << 5;
    return seed;
}

static unsigned below(unsigned bound) { return (unsigned)(draw() >> 8) % bound; }

static void draw_octets(uint8_t *octets, size_t count) {
    while (count-- > 0) *octets++ = (uint8_t)(draw() >> 24);
}

/* ---- Width and limit: what they make of lengths */

enum end { RECEIVER, SENDER };

static const uint8_t widths[] = {16, 32};

static int is_width(unsigned width) { return width == 16 || width == 32; }

static int is_limit(unsigned limit) { return limit >= KUTA_LEAST_PACKET && limit <= KUTA_LARGEST_LIMIT; }

static unsigned fcs_octets(unsigned width) { return width / 8; }

static unsigned shortest_frame(unsigned width) { return KUTA_LEAST_PACKET + fcs_octets(width); }

static unsigned longest_frame(unsigned width, unsigned limit) { return limit + fcs_octets(width); }

static unsigned most_decoded(unsigned width, unsigned limit) { return longest_frame(width, limit) + 1; }

static size_t least_area(enum end end, unsigned width, unsigned limit) {
    return end == RECEIVER ? KUTA_RECEIVER_AREA(width, limit) : KUTA_SENDER_AREA(width, limit);
}

/* More octets than a frame takes on the line; for a limit that is none, than with the default. */
static unsigned long_stretch(unsigned limit) { return (is_limit(limit) ? limit : KUTA_DEFAULT_LIMIT) + 256; }

/* Most often one of the two. */
static uint8_t draw_width(void) { return (uint8_t)(below(16) == 0 ? below(256) : widths[below(2)]); }

/* Those at the ends of the range and around the default, and some that are none. */
static const uint16_t limits[] = {
    0, 1, KUTA_LEAST_PACKET, KUTA_LEAST_PACKET + 1, 255, 256, KUTA_DEFAULT_LIMIT - 1, KUTA_DEFAULT_LIMIT, KUTA_DEFAULT_LIMIT + 1,
    KUTA_LARGEST_LIMIT - 1, KUTA_LARGEST_LIMIT, KUTA_LARGEST_LIMIT + 1, 32768, 32770, 65535};

/* Most often a small one, so that a few octets are too long; the largest seldom, since it takes time. */
static uint16_t draw_limit(void) {
    const unsigned drawn = below(128);
    if (drawn < 2) return (uint16_t)(draw() >> 16);
    if (drawn < 6) return limits[below(LENGTH(limits))];
    if (drawn < 7) return KUTA_LARGEST_LIMIT;
    return (uint16_t)(drawn < 24 ? KUTA_DEFAULT_LIMIT : KUTA_LEAST_PACKET + below(19));
}

/* RFC 1662's register over octets, bit by bit. */
static uint32_t register_over(unsigned width, uint32_t start, const uint8_t *octets, size_t count) {
    const uint32_t polynomial = width == 16 ? 0x8408 : 0xEDB88320;
    int bit;
    while (count-- > 0) {
        start ^= *octets++;
        for (bit = 0; bit < 8; bit++) start = start >> 1 ^ (start & 1 ? polynomial : 0);
    }
    return start;
}

/* Every bit set; of any width but 32, the 16 low ones. */
static uint32_t register_start(unsigned width) { return width == 32 ? 0xFFFFFFFF : 0xFFFF; }

/* Whether a frame's FCS fits. */
static int is_good(unsigned width, const uint8_t *frame, size_t length) {
    return register_over(width, register_start(width), frame, length) == (width == 16 ? 0xF0B8 : 0xDEBB20E3);
}

/* ---- States, by docs/READING.md ("In bounds") and the layout */

static unsigned number_at(const uint8_t *place) { return place[0] + 256u * place[1]; }

static void put_number(uint8_t *place, unsigned number) {
    place[0] = (uint8_t)(number & 255);
    place[1] = (uint8_t)(number >> 8);
}

static uint32_t long_at(const uint8_t *place) { return number_at(place) | (uint32_t)number_at(place + 2) << 16; }

static void put_long(uint8_t *place, uint32_t number) {
    put_number(place, number & 0xFFFF);
    put_number(place + 2, number >> 16);
}

static unsigned limit_of(const uint8_t *state) { return number_at(state + 2); }

static int is_valid(const uint8_t *state) { return is_width(state[1]) && is_limit(limit_of(state)); }

/* Where nothing is held the register is at its start. */
static int receiver_spelled(const uint8_t *s) {
    if (s[0] != 1 || s[5] > KUTA_MODE_ESCAPED || s[10] > 1 || s[13] > 1 || s[22] > 2 || s[23] > 1 || s[24] > 1) return 0;
    return s[13] == 1 || long_at(s + 16) == register_start(s[1]);
}

static int reads_plain(const uint8_t *s) { return s[5] == KUTA_MODE_PLAIN || s[5] == KUTA_MODE_ESCAPED; }

static int receiver_in_bounds(const uint8_t *s) {
    const unsigned decoded = number_at(s + 11), left = s[20], zeros = s[21], last = s[22], resumed = s[24], refusal = s[25];
    const unsigned most = most_decoded(s[1], limit_of(s));
    const int in_frame = s[23] == 1, held = s[13] == 1;
    if (decoded > most || (held && number_at(s + 14) > most) || left > 207 || zeros > 2) return 0;
    if (held && long_at(s + 16) > register_start(s[1])) return 0;
    if (refusal != 0 && refusal != KUTA_AREA_CHANGED && (refusal < KUTA_PLAIN_FRAME || refusal > KUTA_TOO_LONG)) return 0;
    if (refusal == KUTA_PLAIN_FRAME && (held || s[5] != KUTA_MODE_OFF)) return 0;
    if (!in_frame)
        return decoded == 0 && left == 0 && zeros == 0 && last == 0 && resumed == 0 && refusal == 0 && s[5] != KUTA_MODE_ESCAPED;
    if (reads_plain(s)) return left == 0 && zeros == 0 && last == 0;
    if (refusal != 0) return 1;
    return last == 0 ? resumed == 1 : last == 1 || left > 0 || decoded > 0;
}

static int sender_spelled(const uint8_t *s) { return s[0] == 1 && s[5] <= 2 && s[6] <= 1 && s[7] <= 1; }

static int lane_in_bounds(const uint8_t *s, unsigned length, unsigned position) {
    const int is_frame = length >= shortest_frame(s[1]) && length <= longest_frame(s[1], limit_of(s));
    return (length == 0 || is_frame) && position <= length + 1;
}

static int sender_in_bounds(const uint8_t *s) {
    const unsigned low = number_at(s + 8), low_position = number_at(s + 10), high = number_at(s + 12), high_position = number_at(s + 14);
    const unsigned lane = s[5], suspended = s[6], cut_due = s[7], left = s[16], zeros = s[17];
    const unsigned length = lane == 1 ? low : high, position = lane == 1 ? low_position : high_position;
    if (!lane_in_bounds(s, low, low_position) || !lane_in_bounds(s, high, high_position)) return 0;
    if (left > 207 || zeros > 2 || (left == 0 && zeros > 0)) return 0;
    if (lane == 0 && (left > 0 || cut_due)) return 0;
    if (lane != 0 && (length == 0 || position + left + zeros > length + 1)) return 0;
    if (suspended && (low == 0 || lane == 1)) return 0;
    return !cut_due || (lane == 1 && left == 0);
}

/* Of octets with a valid width and limit. */
static int stands(enum end end, const uint8_t *state) {
    return end == RECEIVER ? receiver_spelled(state) && receiver_in_bounds(state) : sender_spelled(state) && sender_in_bounds(state);
}

/* ---- Maps */

static int is_removed(uint32_t map, unsigned octet) { return octet < 0x20 && (map >> octet & 1) == 1; }

static int is_marked(const uint8_t *marks, unsigned octet) { return (marks[octet / 8] >> octet % 8 & 1) == 1; }

static void mark(uint8_t *marks, unsigned octet) { marks[octet / 8] = (uint8_t)(marks[octet / 8] | 1u << octet % 8); }

static void unmark(uint8_t *marks, unsigned octet) { marks[octet / 8] = (uint8_t)(marks[octet / 8] & ~(1u << octet % 8)); }

static int may_be_marked(unsigned octet) { return octet != (FLAG ^ 0x20) && (octet < 0x20 || octet >= 0x40); }

static int is_sending_map(const uint8_t *marks) {
    unsigned octet;
    for (octet = 0; octet < 256; octet++)
        if (is_marked(marks, octet) && !may_be_marked(octet)) return 0;
    return 1;
}

static int covers(const uint8_t *marks, uint32_t map) {
    unsigned octet;
    for (octet = 0; octet < 0x20; octet++)
        if (is_removed(map, octet) && !is_marked(marks, octet)) return 0;
    return 1;
}

static uint32_t draw_map(void) {
    switch (below(4)) {
    case 0: return 0;
    case 1: return 0xFFFFFFFF;
    case 2: return (uint32_t)1 << below(32);
    default: return draw();
    }
}

/* A sending map that goes with the receiving one. */
static void draw_marks(uint8_t *marks, uint32_t map) {
    const unsigned drawn = below(4);
    unsigned octet;
    memset(marks, drawn == 0 ? 0xFF : 0, KUTA_MARKS);
    if (drawn == 1) draw_octets(marks, KUTA_MARKS);
    if (drawn == 2) mark(marks, below(256));
    for (octet = 0; octet < 256; octet++) {
        if (is_removed(map, octet)) mark(marks, octet);
        if (!may_be_marked(octet)) unmark(marks, octet);
    }
}

/* ---- The calls, each on a memory and lengths */

enum call { RECEIVE, READ_ON, LOAD_LOW, LOAD_HIGH, NEXT, WRITE_ON };

static const char *const call_names[] = {"receive", "read_on", "load_low", "load_high", "next", "write_on"};

static enum end end_of(enum call call) { return call <= READ_ON ? RECEIVER : SENDER; }

static kuta_stretch alone(uint32_t answer) {
    kuta_stretch stretch;
    stretch.answer = answer;
    stretch.octets = 0;
    return stretch;
}

static kuta_stretch make(enum call call, struct memory *m, struct lengths n) {
    uint8_t *const state = m->state + GUARD, *const one = part(m->one, n.one), *const other = part(m->other, n.other);
    uint8_t *const line = part(m->line, n.line);
    switch (call) {
    case RECEIVE: return alone(kuta_receive(state, m->line[GUARD], one, n.one, other, n.other));
    case READ_ON: return kuta_read_on(state, line, n.line, one, n.one, other, n.other);
    case LOAD_LOW: return alone(kuta_load_low(state, line, n.line, one, n.one));
    case LOAD_HIGH: return alone(kuta_load_high(state, line, n.line, other, n.other));
    case NEXT: return alone(kuta_next(state, one, n.one, other, n.other));
    case WRITE_ON: break;
    }
    return kuta_write_on(state, one, n.one, other, n.other, line, n.line);
}

/* What read_on has to come to: receive for each octet, until one is answered by anything but Quiet. */
static kuta_stretch read_singly(struct memory *m, struct lengths n) {
    kuta_stretch stretch = alone(KUTA_QUIET);
    while (stretch.octets < n.line && stretch.answer == KUTA_QUIET) {
        const uint8_t octet = m->line[GUARD + stretch.octets++];
        stretch.answer = kuta_receive(m->state + GUARD, octet, part(m->one, n.one), n.one, part(m->other, n.other), n.other);
    }
    return stretch;
}

/* What write_on has to come to: next for each octet, until the first flag or the first that does not come. */
static kuta_stretch write_singly(struct memory *m, struct lengths n) {
    kuta_stretch stretch = alone(KUTA_QUIET);
    while (stretch.octets < n.line) {
        const uint32_t answer = kuta_next(m->state + GUARD, part(m->one, n.one), n.one, part(m->other, n.other), n.other);
        if (kuta_kind(answer) == KUTA_OCTET) m->line[GUARD + stretch.octets++] = (uint8_t)kuta_value(answer);
        else if (stretch.octets > 0) break;
        stretch.answer = answer;
        if (kuta_kind(answer) != KUTA_OCTET || kuta_value(answer) == FLAG) break;
    }
    return stretch;
}

/* ---- The rules */

static unsigned long passed, failed;
static struct memory before; /* as it was before the call that is tested */

static void check(int holds, const char *rule, const char *call, struct lengths n) {
    size_t i;
    if (holds) {
        passed++;
        return;
    }
    failed++;
    printf("FAILED: %s: %s; lengths %lu %lu %lu, state", call, rule, (unsigned long)n.one, (unsigned long)n.other, (unsigned long)n.line);
    for (i = 0; i < SENDER_OCTETS; i++) printf(" %02X", (unsigned)before.state[GUARD + i]);
    putchar('\n');
}

static int is_short(enum call call, const uint8_t *state, struct lengths n) {
    const size_t least = least_area(end_of(call), state[1], limit_of(state));
    return (call != LOAD_HIGH && n.one < least) || (call != LOAD_LOW && n.other < least);
}

static int is_loaded(enum call call, const uint8_t *state) {
    return (call == LOAD_LOW && number_at(state + 8) > 0) || (call == LOAD_HIGH && number_at(state + 12) > 0);
}

static int is_packet(size_t length, const uint8_t *state) { return length >= KUTA_LEAST_PACKET && length <= limit_of(state); }

/* The number by which the call has to be refused, or 0. Width and limit go first, since the least lengths follow them. */
static unsigned due_refusal(enum call call, const uint8_t *state, struct lengths n) {
    if (!is_valid(state)) return KUTA_BAD_STATE;
    if (is_short(call, state, n)) return KUTA_SHORT_AREA;
    if (!stands(end_of(call), state)) return KUTA_BAD_STATE;
    if (is_loaded(call, state)) return KUTA_LANE_LOADED;
    return (call == LOAD_LOW || call == LOAD_HIGH) && !is_packet(n.line, state) ? KUTA_BAD_LENGTH : 0;
}

/* Nothing is changed but what the call may change: listed octets of the state, and what it writes to. */
static int only_its_own(enum call call, const struct memory *m, struct lengths n, size_t octets) {
    static struct memory expected;
    const size_t frame = n.line + fcs_octets(before.state[GUARD + 1]);
    copy(&expected, &before, n);
    memcpy(expected.state + GUARD, m->state + GUARD, end_of(call) == RECEIVER ? RECEIVER_OCTETS : SENDER_OCTETS);
    if (call == RECEIVE || call == READ_ON) {
        memcpy(expected.one + GUARD, m->one + GUARD, n.one);
        memcpy(expected.other + GUARD, m->other + GUARD, n.other);
    }
    if (call == LOAD_LOW) memcpy(expected.one + GUARD, m->one + GUARD, frame);
    if (call == LOAD_HIGH) memcpy(expected.other + GUARD, m->other + GUARD, frame);
    if (call == WRITE_ON) memcpy(expected.line + GUARD, m->line + GUARD, octets);
    return same(m, &expected, n);
}

/* The area of a load that was done has the packet and its FCS. */
static int has_frame(unsigned width, const uint8_t *area, const uint8_t *packet, size_t length) {
    return memcmp(area, packet, length) == 0 && is_good(width, area, length + fcs_octets(width));
}

static int is_answer_of(enum call call, uint32_t answer) {
    const unsigned kind = kuta_kind(answer), value = kuta_value(answer);
    switch (call) {
    case RECEIVE:
    case READ_ON:
        return answer == KUTA_QUIET || kind == KUTA_PACKET || kind == KUTA_HELD ||
               (kind == KUTA_REFUSED && value == KUTA_PLAIN_FRAME && before.state[GUARD + 5] == KUTA_MODE_OFF) ||
               (kind == KUTA_REFUSED && value == KUTA_ESCAPE_OPEN && before.state[GUARD + 5] != KUTA_MODE_OFF) ||
               (kind == KUTA_REFUSED && ((value > KUTA_PLAIN_FRAME && value <= KUTA_BAD_CHECK) || value == KUTA_AREA_CHANGED));
    case LOAD_LOW:
    case LOAD_HIGH: return answer == (uint32_t)KUTA_DONE << 24;
    case NEXT:
    case WRITE_ON: break;
    }
    return (kind == KUTA_OCTET && value <= 255) || answer == (uint32_t)KUTA_IDLE << 24;
}

/* The area of a packet that was delivered has its FCS behind it. */
static int is_delivered(const struct memory *m, uint32_t answer) {
    const uint8_t *const state = before.state + GUARD;
    const size_t length = kuta_value(answer);
    if (!is_packet(length, state)) return 0;
    return is_good(state[1], (kuta_mark(answer) ? m->other : m->one) + GUARD, length + fcs_octets(state[1]));
}

/* In which mode a receiver may come to be. */
static int changes_over_rightly(const uint8_t *was, const uint8_t *is) {
    return was[5] == KUTA_MODE_OFF ? is[5] == KUTA_MODE_OFF : is[5] == was[5] || reads_plain(is);
}

/* What is held in COBS after an octet that is no flag: nothing if it begins a frame and is FF, or D1 with preemption on; else what was. */
static int holds_rightly(const uint8_t *was, const uint8_t *is, uint8_t octet) {
    const int begins = was[23] == 0;
    if (octet == FLAG || reads_plain(was)) return 1;
    if (was[13] == 0 || (begins && (octet == RESTART || (octet == 0xD1 && (was[4] & KUTA_PRE))))) return is[13] == 0;
    return memcmp(is + 13, was + 13, 7) == 0;
}

/* The register over what is held, in the area that does not work. */
static uint32_t register_held(const uint8_t *state, const struct memory *m) {
    return register_over(state[1], register_start(state[1]), (state[10] == 1 ? m->one : m->other) + GUARD, number_at(state + 14));
}

/* A D1 that begins a frame, with preemption on and something held: the held area works from then on, if its octets give the register that
 * is carried; else the frame is refused 21, and the areas do not change turns. */
static int resumes_rightly(const uint8_t *was, const uint8_t *is, const struct memory *m, uint8_t octet) {
    if (octet != 0xD1 || was[23] == 1 || was[13] == 0 || !(was[4] & KUTA_PRE) || reads_plain(was)) return 1;
    if (is[23] != 1 || is[24] != 1) return 0;
    if (long_at(was + 16) == register_held(was, m)) return is[25] == 0 && is[10] != was[10] && number_at(is + 11) == number_at(was + 14);
    return is[25] == KUTA_AREA_CHANGED && is[10] == was[10] && number_at(is + 11) == 0;
}

/* After Held, the register that is carried is the one of what is held. */
static int carries_rightly(const uint8_t *is, const struct memory *m) { return is[13] == 1 && long_at(is + 16) == register_held(is, m); }

/* ---- Plain PPP, and the FF that leads there: all that a call for such an octet does, if it is not refused */

static void let_go(uint8_t *s) {
    memset(s + 13, 0, 3);
    put_long(s + 16, register_start(s[1]));
}

/* An octet of the frame; what would be too many is not written. */
static void put_plain(struct memory *m, uint8_t octet) {
    uint8_t *const s = m->state + GUARD;
    const unsigned decoded = number_at(s + 11);
    s[23] = 1;
    if (decoded >= longest_frame(s[1], limit_of(s))) {
        s[25] = KUTA_TOO_LONG;
    } else {
        (s[10] == 1 ? m->other : m->one)[GUARD + decoded] = octet;
        put_number(s + 11, decoded + 1);
    }
}

/* The number by which a frame is refused at its flag, or 0. */
static unsigned plain_refusal(const struct memory *m) {
    const uint8_t *const s = m->state + GUARD;
    const unsigned decoded = number_at(s + 11);
    if (s[25] != 0) return s[25];
    if (decoded > longest_frame(s[1], limit_of(s))) return KUTA_TOO_LONG;
    if (s[5] == KUTA_MODE_ESCAPED) return KUTA_ESCAPE_OPEN;
    if (decoded < shortest_frame(s[1])) return KUTA_TOO_SHORT;
    return is_good(s[1], (s[10] == 1 ? m->other : m->one) + GUARD, decoded) ? 0 : KUTA_BAD_CHECK;
}

static uint32_t end_plain(struct memory *m) {
    uint8_t *const s = m->state + GUARD;
    const unsigned refusal = plain_refusal(m), length = number_at(s + 11) - fcs_octets(s[1]);
    if (s[24] == 1) let_go(s);
    s[5] = KUTA_MODE_PLAIN;
    put_number(s + 11, 0);
    memset(s + 20, 0, 6);
    if (refusal != 0) return (uint32_t)KUTA_REFUSED << 24 | refusal;
    return (uint32_t)KUTA_PACKET << 24 | (uint32_t)s[10] << 16 | length;
}

static void begin_with_FF(struct memory *m) {
    uint8_t *const s = m->state + GUARD;
    let_go(s);
    s[23] = 1;
    if (s[5] == KUTA_MODE_OFF) {
        s[25] = KUTA_PLAIN_FRAME;
    } else {
        s[5] = KUTA_MODE_PLAIN;
        put_plain(m, RESTART);
    }
}

static uint32_t read_plainly(struct memory *m, uint8_t octet) {
    uint8_t *const s = m->state + GUARD;
    if (s[13] == 0) put_number(s + 14, 0);
    if (!reads_plain(s)) {
        begin_with_FF(m);
    } else if (octet == FLAG) {
        if (s[23] == 1) return end_plain(m);
    } else if (s[25] != 0 || is_removed(long_at(s + 6), octet)) {
        /* nothing changes */
    } else if (s[5] == KUTA_MODE_ESCAPED) {
        s[5] = KUTA_MODE_PLAIN;
        put_plain(m, octet ^ 0x20);
    } else if (octet == ESCAPE) {
        s[5] = KUTA_MODE_ESCAPED;
        s[23] = 1;
    } else {
        put_plain(m, octet);
    }
    return KUTA_QUIET;
}

/* Of other octets nothing is said here. */
static void check_plain(const struct memory *m, struct lengths n, uint32_t answer) {
    static struct memory expected;
    const uint8_t *const was = before.state + GUARD, octet = m->line[GUARD];
    if (!reads_plain(was) && (was[23] == 1 || octet != RESTART)) return;
    copy(&expected, &before, n);
    check(read_plainly(&expected, octet) == answer, "plain PPP, the answer", "receive", n);
    check(same(m, &expected, n), "plain PPP, the memory", "receive", n);
}

/* A call that was not refused. */
static void check_taken(enum call call, const struct memory *m, struct lengths n, kuta_stretch got) {
    const char *const name = call_names[call];
    const unsigned width = before.state[GUARD + 1];
    check(is_answer_of(call, got.answer), "an answer that it has", name, n);
    check(only_its_own(call, m, n, got.octets), "nothing else is changed", name, n);
    check(memcmp(m->state + GUARD + 1, before.state + GUARD + 1, 4) == 0, "width, limit and settings stay", name, n);
    if (end_of(call) == RECEIVER) {
        check(memcmp(m->state + GUARD + 6, before.state + GUARD + 6, 4) == 0, "the map stays", name, n);
        check(changes_over_rightly(before.state + GUARD, m->state + GUARD), "what is read", name, n);
    }
    check(stands(end_of(call), m->state + GUARD), "the state stays in bounds", name, n);
    if (call == LOAD_LOW) check(has_frame(width, m->one + GUARD, m->line + GUARD, n.line), "the frame is loaded", name, n);
    if (call == LOAD_HIGH) check(has_frame(width, m->other + GUARD, m->line + GUARD, n.line), "the frame is loaded", name, n);
    if (call == RECEIVE) check(holds_rightly(before.state + GUARD, m->state + GUARD, m->line[GUARD]), "what is held", name, n);
    if (call == RECEIVE) check(resumes_rightly(before.state + GUARD, m->state + GUARD, m, m->line[GUARD]), "what is resumed", name, n);
    if (call == RECEIVE) check_plain(m, n, got.answer);
    if (kuta_kind(got.answer) == KUTA_HELD) check(carries_rightly(m->state + GUARD, m), "the register of what is held", name, n);
    if (kuta_kind(got.answer) == KUTA_PACKET) check(is_delivered(m, got.answer), "a packet and its FCS", name, n);
    if (kuta_kind(got.answer) == KUTA_IDLE) check(same(m, &before, n), "Idle changes nothing", name, n);
}

/* Makes a call, and checks it by all the rules. */
static kuta_stretch try_call(enum call call, struct memory *m, struct lengths n) {
    static struct memory singly;
    const char *const name = call_names[call];
    const int is_stretch = call == READ_ON || call == WRITE_ON;
    const unsigned refusal = due_refusal(call, m->state + GUARD, n);
    kuta_stretch got, wanted;
    copy(&before, m, n);
    got = make(call, m, n);
    check(got.octets <= n.line, "no more octets than there are", name, n);
    if (got.octets > n.line) got.octets = 0;
    if (is_stretch && n.line == 0) {
        check(got.answer == KUTA_QUIET && got.octets == 0, "an empty stretch is Quiet", name, n);
        check(same(m, &before, n), "an empty stretch changes nothing", name, n);
    } else if (refusal != 0) {
        check(got.answer == ((uint32_t)KUTA_REFUSED << 24 | refusal), "the refusal that is due", name, n);
        check(same(m, &before, n), "a refused call changes nothing", name, n);
    } else {
        check_taken(call, m, n, got);
    }
    if (is_stretch) {
        copy(&singly, &before, n);
        wanted = call == READ_ON ? read_singly(&singly, n) : write_singly(&singly, n);
        check(got.answer == wanted.answer && got.octets == wanted.octets, "as octet by octet, the answer", name, n);
        check(same(m, &singly, n), "as octet by octet, the memory", name, n);
    }
    return got;
}

/* The same, and everything is put back. */
static void try_out(enum call call, struct memory *m, size_t one, size_t other, size_t line) {
    struct lengths n;
    n.one = one;
    n.other = other;
    n.line = line;
    try_call(call, m, n);
    copy(m, &before, n);
}

static uint32_t open_end(enum end end, struct memory *m, uint8_t settings, uint8_t width, uint16_t limit, uint8_t plain, uint32_t map) {
    uint8_t *const state = m->state + GUARD;
    return end == RECEIVER ? kuta_receiver_open(state, settings, width, limit, plain, map) : kuta_sender_open(state, settings, width, limit);
}

static void put_head(uint8_t *state, uint8_t width, uint16_t limit) {
    state[0] = 1;
    state[1] = width;
    put_number(state + 2, limit);
}

/* A fresh state: what the layout lists is written, and nothing else. */
static void put_fresh(enum end end, uint8_t *state, uint8_t settings, uint8_t width, uint16_t limit, int plain, uint32_t map) {
    memset(state, 0, end == RECEIVER ? RECEIVER_OCTETS : SENDER_OCTETS);
    put_head(state, width, limit);
    state[4] = settings;
    if (end == SENDER) return;
    state[5] = plain ? KUTA_MODE_COBS : KUTA_MODE_OFF;
    put_long(state + 6, plain ? map : 0);
    put_long(state + 16, register_start(width));
}

static unsigned opening_refusal(uint8_t width, uint16_t limit) {
    return !is_limit(limit) ? KUTA_BAD_LIMIT : !is_width(width) ? KUTA_BAD_STATE : 0;
}

/* An opening is done whatever the octets were, and writes what the layout lists. It is refused for its limit, then for its width. */
static void try_open(enum end end, struct memory *m, uint8_t width, uint16_t limit) {
    static struct memory expected;
    const struct lengths none = nothing_lent;
    const char *const name = end == RECEIVER ? "receiver_open" : "sender_open";
    const uint8_t settings = (uint8_t)(draw() >> 24), plain = (uint8_t)(below(2) ? 0 : below(4) ? KUTA_PLAIN_ON : below(256));
    const uint32_t map = draw_map();
    const unsigned refusal = opening_refusal(width, limit);
    uint32_t answer;
    copy(&before, m, none);
    copy(&expected, m, none);
    answer = open_end(end, m, settings, width, limit, plain, map);
    if (refusal == 0) {
        put_fresh(end, expected.state + GUARD, settings, width, limit, plain, map);
        check(answer == (uint32_t)KUTA_DONE << 24, "it is done", name, none);
        check(same(m, &expected, none), "a fresh state", name, none);
    } else {
        check(answer == ((uint32_t)KUTA_REFUSED << 24 | refusal), "the refusal that is due", name, none);
        check(same(m, &expected, none), "a refused opening changes nothing", name, none);
    }
    copy(m, &before, none);
}

/* ---- One state: each call with areas that are long enough, one octet too short, as long as the other width wants them, and not there */

/* The least length of its areas. Of a state that is not valid, any. */
static size_t area_of(enum end end, const uint8_t *state) {
    return is_valid(state) ? least_area(end, state[1], limit_of(state)) : 4 + below(below(64) == 0 ? KUTA_LARGEST_LIMIT : 24);
}

/* Packets around the shortest and the longest that it takes, as far as the memory goes. */
enum { EDGES = 5 };

static size_t packet_at(unsigned edge, const uint8_t *state) {
    const size_t longest = limit_of(state) < MOST ? limit_of(state) : MOST - 1;
    return edge <= KUTA_LEAST_PACKET ? edge : longest + (edge - 1 - KUTA_LEAST_PACKET);
}

static void try_areas(enum end end, struct memory *m, size_t one, size_t other) {
    unsigned edge;
    try_out(end == RECEIVER ? RECEIVE : NEXT, m, one, other, 1);
    try_out(end == RECEIVER ? READ_ON : WRITE_ON, m, one, other, 0);
    try_out(end == RECEIVER ? READ_ON : WRITE_ON, m, one, other, 1 + below(40));
    for (edge = 0; end == SENDER && edge < EDGES; edge++) {
        try_out(LOAD_LOW, m, one, other, packet_at(edge, m->state + GUARD));
        try_out(LOAD_HIGH, m, one, other, packet_at(edge, m->state + GUARD));
    }
}

static void try_state(enum end end, struct memory *m) {
    const size_t least = area_of(end, m->state + GUARD), of_other = m->state[GUARD + 1] == 32 ? least - 2 : least + 2;
    try_open(end, m, 16, draw_limit());
    try_open(end, m, 32, draw_limit());
    try_open(end, m, draw_width(), draw_limit());
    try_areas(end, m, least, least);
    try_areas(end, m, least - 1, least);
    try_areas(end, m, least, least - 1);
    try_areas(end, m, of_other, of_other);
    try_areas(end, m, 0, least);
    try_areas(end, m, least, 0);
    try_areas(end, m, 0, 0);
}

/* The same at less cost, for very many states: some lengths, not all. */
static void try_state_once(enum end end, struct memory *m) {
    const uint8_t *const state = m->state + GUARD;
    const size_t least = area_of(end, state), one = least - (below(16) == 0), other = least - (below(16) == 0);
    const size_t line = below(64) == 0 ? below(long_stretch(limit_of(state)) + 1) : below(24);
    if (below(16) == 0) try_open(end, m, draw_width(), draw_limit());
    if (end == RECEIVER) {
        try_out(RECEIVE, m, one, other, 1);
        try_out(READ_ON, m, one, other, line);
    } else {
        try_out(below(2) ? LOAD_LOW : LOAD_HIGH, m, one, other, below(16) == 0 ? packet_at(below(EDGES), state) : line);
        try_out(NEXT, m, one, other, 1);
        try_out(WRITE_ON, m, one, other, line);
    }
}

/* ---- Many states */

/* Octets as a line has them: many codes, flags, escapes, zeros. */
static void draw_line(struct memory *m, size_t count) {
    static const uint8_t often[] = {0x00, 0x01, 0x02, 0x03, 0x05, 0x11, 0x5D, 0x5E, 0x7D, 0x7D, 0x7E,
                                    0x7E, 0xCF, 0xD0, 0xD1, 0xD2, 0xD3, 0xDF, 0xE0, 0xE1, 0xFE, 0xFF};
    size_t i;
    draw_octets(m->line + GUARD, count);
    for (i = 0; i < count; i++)
        if (below(2)) m->line[GUARD + i] = often[below(LENGTH(often))];
}

static void try_plain_states(enum end end, struct memory *m) {
    memset(m->state + GUARD, 0, KUTA_STATE);
    try_state(end, m);
    memset(m->state + GUARD, 0xFF, KUTA_STATE);
    try_state(end, m);
}

/* Each width with some limits, each limit with some widths. */
static void try_openings(enum end end, struct memory *m) {
    unsigned width, limit;
    size_t i;
    draw_octets(m->state + GUARD, KUTA_STATE);
    for (width = 0; width < 256; width++)
        for (i = 0; i < LENGTH(limits); i++) try_open(end, m, (uint8_t)width, limits[i]);
    for (limit = 0; limit < 65536; limit++) {
        try_open(end, m, 16, (uint16_t)limit);
        try_open(end, m, 32, (uint16_t)limit);
        try_open(end, m, (uint8_t)below(256), (uint16_t)limit);
    }
}

/* An end as it is in each mode: opened, and of a receiver in the last two behind FF and behind FF 7D. A sender has the first alone. */
static void bring_to(unsigned mode, enum end end, struct memory *m, uint8_t width, uint16_t limit) {
    static const uint8_t octets[] = {RESTART, ESCAPE};
    const size_t area = least_area(RECEIVER, width, limit);
    unsigned i;
    draw_octets(m->state + GUARD, KUTA_STATE);
    open_end(end, m, KUTA_ZXE | KUTA_PRE, width, limit, mode == KUTA_MODE_OFF ? KUTA_PLAIN_OFF : KUTA_PLAIN_ON, draw_map());
    for (i = KUTA_MODE_COBS; i < mode; i++)
        kuta_receive(m->state + GUARD, octets[i - KUTA_MODE_COBS], m->one + GUARD, area, m->other + GUARD, area);
    if (end == RECEIVER) check(kuta_mode(m->state + GUARD) == mode, "the mode", "receive", nothing_lent);
}

static unsigned modes_of(enum end end) { return end == RECEIVER ? KUTA_MODE_ESCAPED + 1 : 1; }

/* An end in each mode with each of the limits in it. */
static void try_limits(enum end end, struct memory *m, uint8_t width) {
    unsigned mode;
    size_t i;
    for (mode = 0; mode < modes_of(end); mode++) {
        for (i = 0; i < LENGTH(limits); i++) {
            bring_to(mode, end, m, width, KUTA_DEFAULT_LIMIT);
            put_number(m->state + GUARD + 2, limits[i]);
            try_state(end, m);
        }
    }
}

/* Each of the first octets of an end in each mode, changed to each value. */
static void try_changed_octets(enum end end, struct memory *m, uint8_t width, uint16_t limit, unsigned octets) {
    unsigned mode, place, value;
    for (mode = 0; mode < modes_of(end); mode++) {
        for (place = 0; place < octets; place++) {
            for (value = 0; value < 256; value++) {
                bring_to(mode, end, m, width, limit);
                m->state[GUARD + place] = (uint8_t)value;
                try_state(end, m);
            }
        }
    }
}

/* A frame of plain PPP, or one that COBS has begun with plain reading on, with counts at and beyond their bounds, each refusal remembered,
 * resumed or not, something held or nothing; and each octet that is another one there. */
static void try_plain_edges(struct memory *m, uint8_t width, uint16_t limit) {
    static const uint8_t octets[] = {FLAG, ESCAPE, RESTART, 0x00, 0x11, 0x1F, 0x20, 0x31, 0x5D, 0x5E, 0xD1};
    const unsigned longest = longest_frame(width, limit), shortest = shortest_frame(width);
    const unsigned counts[] = {0, 1, shortest - 1, shortest, longest - 1, longest, longest + 1, longest + 2};
    const size_t area = least_area(RECEIVER, width, limit);
    uint8_t *const s = m->state + GUARD;
    unsigned mode, refusal, marks;
    size_t i, j;
    for (mode = KUTA_MODE_OFF; mode <= KUTA_MODE_ESCAPED; mode++) {
        for (refusal = 0; refusal < 32; refusal++) {
            for (marks = 0; marks < 8; marks++) { /* in a frame, resumed, something held */
                for (i = 0; i < LENGTH(counts); i++) {
                    draw_octets(s, KUTA_STATE);
                    put_fresh(RECEIVER, s, KUTA_ZXE | KUTA_PRE, width, limit, mode != KUTA_MODE_OFF, draw_map());
                    s[5] = (uint8_t)mode;
                    put_number(s + 11, counts[i]);
                    s[13] = marks >> 2 & 1;
                    s[23] = marks & 1;
                    s[24] = marks >> 1 & 1;
                    s[25] = (uint8_t)refusal;
                    for (j = 0; j < LENGTH(octets); j++) {
                        m->line[GUARD] = octets[j];
                        try_out(RECEIVE, m, area, area, 1);
                    }
                }
            }
        }
    }
}

/* A count near one of its bounds, or any. */
static unsigned draw_count(unsigned most) {
    switch (below(6)) {
    case 0: return 0;
    case 1: return 1 + below(5);
    case 2: return most - below(most < 3 ? most + 1 : 3);
    case 3: return most + 1;
    default: return below(most + 1);
    }
}

static void draw_block(uint8_t *left, uint8_t *zeros, unsigned most) {
    *left = (uint8_t)(below(2) ? draw_count(most < 207 ? most : 207) : 0);
    *zeros = (uint8_t)(*left > 0 || below(8) == 0 ? below(3) : 0);
}

/* What every state begins with; the rest is anything. */
static void draw_state(uint8_t *s) {
    draw_octets(s, KUTA_STATE);
    s[0] = 1;
    s[1] = draw_width();
    put_number(s + 2, draw_limit());
}

/* All of a receiver's but its register. */
static void draw_counts_and_marks(uint8_t *s) {
    const int in_frame = below(4) > 0;
    unsigned most;
    draw_state(s);
    most = is_valid(s) ? most_decoded(s[1], limit_of(s)) : below(16);
    s[5] = (uint8_t)below(below(32) == 0 ? 6 : in_frame || below(8) == 0 ? 4 : 3);
    put_long(s + 6, draw_map());
    s[10] = (uint8_t)below(2);
    s[13] = (uint8_t)below(2);
    put_number(s + 14, draw_count(most));
    memset(s + 20, 0, 6);
    put_number(s + 11, in_frame ? draw_count(most) : 0);
    if (!in_frame) return;
    if (!reads_plain(s) || below(16) == 0) {
        draw_block(s + 20, s + 21, 207);
        s[22] = (uint8_t)below(3);
    }
    s[23] = 1;
    s[24] = (uint8_t)below(2);
    s[25] = (uint8_t)(below(4) == 0 ? 4 + below(8) : below(12) == 0 ? 20 + below(3) : 0);
}

/* Its register: in most states the one that is due, where something is held that of its octets; else another of the width, or a wider. */
static void draw_register(struct memory *m) {
    uint8_t *const s = m->state + GUARD;
    const unsigned most = is_valid(s) ? most_decoded(s[1], limit_of(s)) : 0;
    const uint32_t due = s[13] == 1 && number_at(s + 14) <= most ? register_held(s, m) : register_start(s[1]);
    const unsigned drawn = below(8);
    put_long(s + 16, drawn < 5 ? due : drawn < 6 ? draw() & register_start(s[1]) : drawn < 7 ? due + 1 : draw());
}

/* Of one that reads plain PPP the work area has often a frame whose FCS fits. */
static void draw_frame(struct memory *m) {
    const uint8_t *const s = m->state + GUARD;
    const unsigned decoded = number_at(s + 11);
    uint8_t *const area = (s[10] == 1 ? m->other : m->one) + GUARD;
    uint8_t check_sequence[4];
    if (!is_valid(s) || !reads_plain(s) || decoded < shortest_frame(s[1]) || decoded > most_decoded(s[1], limit_of(s)) || below(2)) return;
    put_long(check_sequence, ~register_over(s[1], register_start(s[1]), area, decoded - fcs_octets(s[1])));
    memcpy(area + decoded - fcs_octets(s[1]), check_sequence, fcs_octets(s[1]));
}

/* A receiver that may well stand; what it does not look at is anything. */
static void draw_receiver(struct memory *m) {
    draw_counts_and_marks(m->state + GUARD);
    draw_frame(m);
    draw_register(m);
}

/* The length of a loaded lane. */
static unsigned draw_length(const uint8_t *s) {
    const unsigned more = is_valid(s) ? limit_of(s) - KUTA_LEAST_PACKET : below(16);
    return shortest_frame(s[1]) - (below(16) == 0) + draw_count(more);
}

/* What of its frame and the phantom is not covered yet. */
static unsigned rest_of(const uint8_t *lane) {
    const unsigned length = number_at(lane), position = number_at(lane + 2);
    return position > length ? 0 : length + 1 - position;
}

/* A sender that may well stand. */
static void draw_sender(uint8_t *s) {
    draw_state(s);
    s[5] = (uint8_t)below(3);
    put_number(s + 8, below(3) == 0 ? 0 : draw_length(s));
    put_number(s + 10, below(4) == 0 ? number_at(s + 8) + 1 : draw_count(number_at(s + 8) + 1));
    put_number(s + 12, below(2) ? 0 : draw_length(s));
    put_number(s + 14, below(4) == 0 ? number_at(s + 12) + 1 : draw_count(number_at(s + 12) + 1));
    s[6] = (uint8_t)(s[5] != 1 && below(2));
    s[16] = s[17] = 0;
    if (s[5] != 0) draw_block(s + 16, s + 17, rest_of(s[5] == 1 ? s + 8 : s + 12));
    s[7] = (uint8_t)(s[5] == 1 && s[16] == 0 && below(2));
}

static void try_drawn_states(enum end end, struct memory *m, unsigned long count) {
    uint8_t *const state = m->state + GUARD;
    unsigned long i;
    for (i = 0; i < count; i++) {
        if (i % 64 == 0) draw_line(m, long_stretch(KUTA_DEFAULT_LIMIT));
        else draw_line(m, 24);
        if (i % 8 == 0) draw_state(state);
        else if (i % 8 == 4) draw_octets(state, KUTA_STATE);
        else if (end == RECEIVER) draw_receiver(m);
        else draw_sender(state);
        if (i % 8 == 1) state[below(KUTA_STATE)] = (uint8_t)below(256);
        try_state_once(end, m);
    }
}

/* ---- Both ends joined, so that packets are delivered too: in stretches of any length, each checked as above */

static struct memory sending, receiving;
static uint8_t sent[2][KUTA_LARGEST_LIMIT]; /* of each lane, the packet on its way */
static size_t sent_length[2];
static unsigned long loaded, delivered;

/* The areas are just as long as the end's width and limit ask for. */
static struct lengths lent(enum end end, const struct memory *m, size_t line) {
    struct lengths n;
    n.one = n.other = area_of(end, m->state + GUARD);
    n.line = line;
    return n;
}

/* Some of them are too long, and refused. */
static void load_a_packet(unsigned lane, unsigned limit) {
    const size_t lengths[] = {2, 3, 2 + below(300), 2 + below(limit - 1), limit, limit + 1};
    const struct lengths n = lent(SENDER, &sending, lengths[below(LENGTH(lengths))]);
    draw_line(&sending, n.line);
    if (try_call(lane == 0 ? LOAD_LOW : LOAD_HIGH, &sending, n).answer != (uint32_t)KUTA_DONE << 24) return;
    memcpy(sent[lane], sending.line + GUARD, n.line);
    sent_length[lane] = n.line;
    loaded++;
}

static int is_on_its_way(const uint8_t *packet, size_t length) {
    return (length == sent_length[0] && memcmp(packet, sent[0], length) == 0) ||
           (length == sent_length[1] && memcmp(packet, sent[1], length) == 0);
}

/* Reads all of the octets; answers how many packets of those on their way came out of them. */
static unsigned read_all(const uint8_t *octets, size_t count) {
    unsigned packets = 0;
    while (count > 0) {
        const size_t most = count < MOST ? count : (size_t)MOST;
        const struct lengths n = lent(RECEIVER, &receiving, most < 40 || below(2) ? most : 1 + below((unsigned)most));
        kuta_stretch stretch;
        memcpy(receiving.line + GUARD, octets, n.line);
        stretch = try_call(READ_ON, &receiving, n);
        if (stretch.octets == 0) break; /* which has failed */
        if (kuta_kind(stretch.answer) == KUTA_PACKET)
            packets +=
                (unsigned)is_on_its_way((kuta_mark(stretch.answer) ? receiving.other : receiving.one) + GUARD, kuta_value(stretch.answer));
        octets += stretch.octets;
        count -= stretch.octets;
    }
    return packets;
}

enum { STEPS_TO_EMPTY = 200 }; /* for what is loaded at last; much more than two packets need */

/* Damage: one of so many stretches has an octet changed; 0 none. */
static void run_session(uint8_t settings, uint8_t width, uint16_t limit, unsigned steps, unsigned damage) {
    uint8_t octets[MOST];
    unsigned step;
    loaded = delivered = 0;
    open_end(SENDER, &sending, settings, width, limit, 0, 0);
    open_end(RECEIVER, &receiving, settings, width, limit, KUTA_PLAIN_OFF, 0);
    for (step = 0; step < steps + STEPS_TO_EMPTY; step++) {
        kuta_stretch stretch;
        if (step < steps && below(2)) load_a_packet(0, limit);
        if (step < steps && below(3) == 0) load_a_packet(1, limit);
        stretch = try_call(WRITE_ON, &sending, lent(SENDER, &sending, below(4) == 0 ? below(long_stretch(limit) + 1) : below(4 + limit / 10)));
        memcpy(octets, sending.line + GUARD, stretch.octets);
        if (damage > 0 && stretch.octets > 0 && below(damage) == 0) octets[below((unsigned)stretch.octets)] = (uint8_t)below(256);
        delivered += read_all(octets, stretch.octets);
    }
    if (damage == 0) check(delivered == loaded && loaded > 0, "all that was loaded is delivered", "both ends", nothing_lent);
}

static void run_sessions(uint8_t width, uint16_t limit, unsigned steps) {
    uint8_t settings;
    for (settings = 0; settings < 4; settings++) {
        run_session(settings, width, limit, steps, 0);
        run_session(settings, width, limit, steps, 4);
    }
}

/* ---- Plain PPP, sent */

/* The octets that a plain sender's packet takes on the line, by its width and marks; answers how many. */
static size_t stuff(const uint8_t *s, const uint8_t *packet, size_t length, uint8_t *line) {
    uint8_t frame[MOST + 4];
    size_t i, count = 0;
    memcpy(frame, packet, length);
    put_long(frame + length, ~register_over(s[1], register_start(s[1]), packet, length));
    for (i = 0; i < length + fcs_octets(s[1]); i++) {
        const int marked = is_marked(s + 4, frame[i]);
        if (marked) line[count++] = ESCAPE;
        line[count++] = marked ? frame[i] ^ 0x20 : frame[i];
    }
    line[count++] = FLAG;
    return count;
}

static unsigned due_plain_refusal(const uint8_t *s, size_t packet, size_t frame, size_t area) {
    if (!is_valid(s)) return KUTA_BAD_STATE;
    if (frame > area) return KUTA_SHORT_AREA;
    if (s[0] != 1 || !is_marked(s + 4, ESCAPE) || !is_marked(s + 4, FLAG) || !is_sending_map(s + 4)) return KUTA_BAD_STATE;
    return is_packet(packet, s) ? 0 : KUTA_BAD_LENGTH;
}

/* The packet is in the line, and the area is `one`. Answers how many octets were written. */
static size_t try_plain_send(struct memory *m, size_t packet, size_t area) {
    static struct memory expected;
    static uint8_t line[MOST_PLAIN];
    const uint8_t *const s = m->state + GUARD;
    const size_t frame = is_valid(s) ? stuff(s, m->line + GUARD, packet, line) : 0;
    const unsigned refusal = due_plain_refusal(s, packet, frame, area);
    struct lengths n = nothing_lent;
    uint32_t answer;
    n.one = area;
    n.line = packet;
    copy(&before, m, n);
    copy(&expected, m, n);
    answer = kuta_plain_send(s, part(m->line, packet), packet, part(m->one, area), area);
    if (refusal == 0) {
        memcpy(expected.one + GUARD, line, frame);
        check(answer == ((uint32_t)KUTA_WRITTEN << 24 | (uint32_t)frame) && kuta_written(answer) == frame, "the length", "plain_send", n);
        check(same(m, &expected, n), "the frame, and nothing else", "plain_send", n);
        check(frame <= KUTA_PLAIN_AREA(s[1], limit_of(s)), "the area that is always enough", "plain_send", n);
        return frame;
    }
    check(answer == ((uint32_t)KUTA_REFUSED << 24 | refusal) && kuta_written(answer) == 0, "the refusal that is due", "plain_send", n);
    check(same(m, &expected, n), "a refused call changes nothing", "plain_send", n);
    return 0;
}

/* With an area that is exactly long enough, one octet too short, longer, as long as is always enough, and not there. */
static void try_plain_areas(struct memory *m, size_t packet) {
    static uint8_t line[MOST_PLAIN];
    const uint8_t *const s = m->state + GUARD;
    const size_t frame = is_valid(s) ? stuff(s, m->line + GUARD, packet, line) : 1 + below(40);
    try_plain_send(m, packet, frame);
    try_plain_send(m, packet, frame - 1);
    try_plain_send(m, packet, frame + 1 + below(40));
    try_plain_send(m, packet, below((unsigned)frame));
    try_plain_send(m, packet, 0);
    if (is_valid(s)) try_plain_send(m, packet, KUTA_PLAIN_AREA(s[1], limit_of(s)));
}

/* Packets at both ends of what it takes; of octets as they come, all of which are escaped often, or all the same. */
static void try_plain_sender(struct memory *m) {
    const uint8_t *const s = m->state + GUARD;
    unsigned edge;
    for (edge = 0; edge < EDGES; edge++) {
        const size_t packet = packet_at(edge, s);
        if (below(4) == 0) memset(m->line + GUARD, below(2) ? ESCAPE : (int)below(256), packet);
        else if (below(2)) draw_line(m, packet);
        else draw_octets(m->line + GUARD, packet);
        try_plain_areas(m, packet);
    }
}

/* A plain sender; with some marks wrong, if asked for. */
static void draw_plain_sender(uint8_t *s, uint8_t width, uint16_t limit, int wrong) {
    draw_octets(s, KUTA_STATE);
    put_head(s, width, limit);
    draw_marks(s + 4, draw_map());
    mark(s + 4, ESCAPE);
    mark(s + 4, FLAG);
    if (!wrong) return;
    switch (below(5)) {
    case 0: unmark(s + 4, ESCAPE); break;
    case 1: unmark(s + 4, FLAG); break;
    case 2: mark(s + 4, FLAG ^ 0x20); break;
    case 3: mark(s + 4, 0x20 + below(0x20)); break;
    default: draw_octets(s + 4, KUTA_MARKS);
    }
}

static void try_plain_senders(struct memory *m) {
    uint8_t *const s = m->state + GUARD;
    unsigned i, octet;
    size_t j;
    memset(s, 0, KUTA_STATE);
    try_plain_sender(m);
    memset(s, 0xFF, KUTA_STATE);
    try_plain_sender(m);
    for (i = 0; i < LENGTH(widths); i++) {
        for (j = 0; j < LENGTH(limits); j++) {
            draw_plain_sender(s, widths[i], limits[j], 0);
            try_plain_sender(m);
        }
        for (octet = 0; octet < 256; octet++) { /* each mark alone beside those two, and each width and octet 0 */
            draw_plain_sender(s, widths[i], KUTA_LEAST_PACKET, 0);
            memset(s + 4, 0, KUTA_MARKS);
            mark(s + 4, ESCAPE);
            mark(s + 4, FLAG);
            mark(s + 4, octet);
            try_plain_sender(m);
            draw_plain_sender(s, (uint8_t)octet, draw_limit(), 0);
            try_plain_sender(m);
            draw_plain_sender(s, widths[i], KUTA_LEAST_PACKET + below(19), below(2));
            s[0] = (uint8_t)octet;
            try_plain_sender(m);
        }
    }
    for (i = 0; i < 20000; i++) {
        draw_plain_sender(s, draw_width(), draw_limit(), below(4) == 0);
        if (below(16) == 0) s[below(PLAIN_OCTETS)] = (uint8_t)below(256);
        try_plain_sender(m);
    }
}

/* ---- The opening of a pair: the receiver is in the state, the plain sender in `one`, the sending map in the line */

static void try_pair(struct memory *m, uint8_t width, uint16_t limit, uint32_t map) {
    static struct memory expected;
    const uint8_t *const marks = m->line + GUARD, settings = (uint8_t)(draw() >> 24);
    const int maps_agree = covers(marks, map) && is_sending_map(marks);
    const unsigned refusal = opening_refusal(width, limit) != 0 ? opening_refusal(width, limit) : maps_agree ? 0 : KUTA_BAD_MAPS;
    uint8_t *const pair_sender = expected.one + GUARD;
    struct lengths n = nothing_lent;
    uint32_t answer;
    n.one = KUTA_STATE;
    n.line = KUTA_MARKS;
    copy(&before, m, n);
    copy(&expected, m, n);
    answer = kuta_pair_open(m->one + GUARD, m->state + GUARD, settings, width, limit, map, marks);
    if (refusal == 0) {
        put_head(pair_sender, width, limit);
        memcpy(pair_sender + 4, marks, KUTA_MARKS);
        mark(pair_sender + 4, ESCAPE);
        mark(pair_sender + 4, FLAG);
        put_fresh(RECEIVER, expected.state + GUARD, settings, width, limit, 1, map);
        check(answer == (uint32_t)KUTA_DONE << 24, "it is done", "pair_open", n);
        check(same(m, &expected, n), "two fresh states", "pair_open", n);
    } else {
        check(answer == ((uint32_t)KUTA_REFUSED << 24 | refusal), "the refusal that is due", "pair_open", n);
        check(same(m, &expected, n), "a refused opening changes nothing", "pair_open", n);
    }
    copy(m, &before, n);
}

/* Each mark alone, with no receiving map, with that octet's bit and with all bits; each bit lacking; each width, each limit; any. */
static void try_pairs(struct memory *m) {
    uint8_t *const marks = m->line + GUARD;
    unsigned octet, limit, i;
    for (octet = 0; octet < 256; octet++) {
        memset(marks, 0, KUTA_MARKS);
        mark(marks, octet);
        try_pair(m, 16, KUTA_DEFAULT_LIMIT, 0);
        try_pair(m, 32, KUTA_DEFAULT_LIMIT, (uint32_t)1 << octet % 32);
        try_pair(m, 16, KUTA_LEAST_PACKET, 0xFFFFFFFF);
        try_pair(m, (uint8_t)octet, KUTA_LARGEST_LIMIT, 0);
        memset(marks, 0, KUTA_MARKS);
        memset(marks, 0xFF, 4);
        unmark(marks, octet % 32);
        try_pair(m, 32, KUTA_LARGEST_LIMIT, (uint32_t)1 << octet % 32);
        try_pair(m, 32, KUTA_LARGEST_LIMIT, ~((uint32_t)1 << octet % 32));
    }
    for (limit = 0; limit < 65536; limit++) {
        const uint32_t map = draw_map();
        draw_marks(marks, map);
        try_pair(m, draw_width(), (uint16_t)limit, map);
        try_pair(m, draw_width(), (uint16_t)limit, draw_map());
    }
    for (i = 0; i < 50000; i++) {
        draw_octets(m->one + GUARD, KUTA_STATE);
        draw_octets(m->state + GUARD, KUTA_STATE);
        draw_marks(marks, draw());
        if (below(2)) mark(marks, below(256));
        if (below(2)) unmark(marks, below(256));
        if (below(8) == 0) draw_octets(marks, KUTA_MARKS);
        try_pair(m, draw_width(), draw_limit(), draw_map());
    }
}

/* ---- A pair, joined: packets in plain PPP, with removed octets put in between */

static uint8_t plain_line[2 * MOST_PLAIN];

/* The line of the packet that was sent last, with octets put in that the map removes; answers how many octets it has. */
static size_t with_removed(size_t count, uint32_t map) {
    size_t i, length = 0;
    for (i = 0; i < count; i++) {
        const unsigned octet = below(32);
        if (is_removed(map, octet) && below(4) == 0) plain_line[length++] = (uint8_t)octet;
        plain_line[length++] = sending.one[GUARD + i];
    }
    return length;
}

static void run_plain_session(uint8_t width, uint16_t limit, uint32_t map, unsigned packets, unsigned damage) {
    static const uint8_t restart[] = {RESTART, FLAG};
    uint8_t marks[KUTA_MARKS];
    unsigned i;
    loaded = delivered = 0;
    draw_marks(marks, map);
    kuta_pair_open(sending.state + GUARD, receiving.state + GUARD, 0, width, limit, map, marks);
    sent_length[1] = 0;
    read_all(restart, sizeof restart);
    check(kuta_mode(receiving.state + GUARD) == KUTA_MODE_PLAIN, "plain PPP behind FF and a flag", "a pair", nothing_lent);
    for (i = 0; i < packets; i++) {
        const size_t lengths[] = {2, 3, 2 + below(limit - 1), limit, limit + 1u}; /* some are too long, and refused */
        size_t count;
        sent_length[0] = lengths[below(LENGTH(lengths))];
        draw_line(&sending, sent_length[0]);
        memcpy(sent[0], sending.line + GUARD, sent_length[0] <= limit ? sent_length[0] : 0);
        count = with_removed(try_plain_send(&sending, sent_length[0], KUTA_PLAIN_AREA(width, limit)), map);
        if (count == 0) continue;
        loaded++;
        if (damage > 0 && below(damage) == 0) plain_line[below((unsigned)count)] = (uint8_t)below(256);
        delivered += read_all(plain_line, count);
    }
    if (damage == 0) check(delivered == loaded && loaded > 0, "all that was sent is delivered", "a pair", nothing_lent);
}

static void run_plain_sessions(uint8_t width, uint16_t limit, unsigned packets) {
    unsigned i;
    for (i = 0; i < 8; i++) run_plain_session(width, limit, draw_map(), packets, i < 4 ? 0 : 3);
}

/* ---- pppfcs16 and pppfcs32 */

static void try_check_sequences(struct memory *m) {
    const uint8_t *const octets = m->line + GUARD;
    struct lengths n = {0, 0, 0};
    unsigned i;
    for (i = 0; i < 65536; i++) {
        const uint32_t start = draw();
        check(pppfcs16((uint16_t)i, NULL, 0) == i, "no octets, no change", "pppfcs16", n);
        check(pppfcs32(start, NULL, 0) == start, "no octets, no change", "pppfcs32", n);
    }
    draw_octets(m->line + GUARD, MOST);
    n.line = MOST;
    copy(&before, m, n);
    for (i = 0; i <= MOST; i += 1 + i / 256) {
        const uint32_t start = draw();
        n.line = i;
        check(pppfcs16((uint16_t)start, octets, i) == register_over(16, start & 0xFFFF, octets, i), "as bit by bit", "pppfcs16", n);
        check(pppfcs32(start, octets, i) == register_over(32, start, octets, i), "as bit by bit", "pppfcs32", n);
    }
    n.line = MOST;
    check(same(m, &before, n), "nothing is changed", "pppfcs16, pppfcs32", n);
}

static void try_end(enum end end, struct memory *m) {
    size_t i;
    try_plain_states(end, m);
    try_openings(end, m);
    for (i = 0; i < LENGTH(widths); i++) {
        try_limits(end, m, widths[i]);
        try_changed_octets(end, m, widths[i], KUTA_LEAST_PACKET, KUTA_STATE);
        try_changed_octets(end, m, widths[i], KUTA_DEFAULT_LIMIT, SENDER_OCTETS);
        if (end == RECEIVER) try_plain_edges(m, widths[i], KUTA_LEAST_PACKET);
        if (end == RECEIVER) try_plain_edges(m, widths[i], KUTA_LEAST_PACKET + 9);
    }
    try_drawn_states(end, m, end == RECEIVER ? 400000 : 300000);
}

int main(void) {
    static struct memory memory;
    size_t i;
    draw_octets((uint8_t *)&memory, sizeof memory);
    try_end(RECEIVER, &memory);
    try_end(SENDER, &memory);
    try_plain_senders(&memory);
    try_pairs(&memory);
    try_check_sequences(&memory);
    for (i = 0; i < LENGTH(widths); i++) {
        run_sessions(widths[i], KUTA_LEAST_PACKET, 5000);
        run_sessions(widths[i], KUTA_DEFAULT_LIMIT, 5000);
        run_sessions(widths[i], KUTA_LARGEST_LIMIT, 200);
        run_plain_sessions(widths[i], KUTA_LEAST_PACKET, 2000);
        run_plain_sessions(widths[i], KUTA_DEFAULT_LIMIT, 200);
        run_plain_sessions(widths[i], KUTA_LARGEST_LIMIT, 20);
    }
    printf("bad input: %lu passed, %lu failed\n", passed, failed);
    return failed == 0 && fclose(stdout) == 0 ? 0 : 1;
}
