/* Kutarehopa: the two ends of a PPP link framed with COBS and preemption, and of one in plain PPP, for C99 and C++. CLIBRARY.md is the
 * guide, READING.md the protocol (docs/ in the sources, share/doc/kutarehopa where it is installed).
 *
 * Every call is proved to answer, and to leave its state and its areas, as crates/kutarehopa/specs says, whatever octets, lengths and
 * states it is handed. Nothing checks the caller, though: every pointer must be valid for the length that goes with it (with length 0 it
 * may be NULL), a state is 64 octets, and no two of the memories that one call is handed may overlap, packets and octets of the line
 * included.
 *
 * A call keeps nothing of its own: it uses no heap, no global data and no system call. Calls that share no memory may be made at the same
 * time. A state does not say of which end it is: nobody notices where a sender's is handed to a receiver's call. For x86-64 Linux. */
#ifndef KUTAREHOPA_H
#define KUTAREHOPA_H

#include <stddef.h>
#include <stdint.h>

#ifdef __cplusplus
extern "C" {
#endif

#define KUTAREHOPA_VERSION "0.1"

/* ---- Lengths, in octets */

#define KUTA_STATE 64           /* a state, of either end or of a plain sender */
#define KUTA_LEAST_PACKET 2     /* the shortest packet; the longest has as many octets as the limit, below */
#define KUTA_LARGEST_LIMIT 16384

/* The least lengths of a sender's areas low and high and of a receiver's first and second, for an end opened with this width and limit.
 * With constants they serve as lengths of arrays. Those of width 32 and of a larger limit are long enough for the others too. */
#define KUTA_SENDER_AREA(width, limit) ((size_t)(limit) + (size_t)(width) / 8)
#define KUTA_RECEIVER_AREA(width, limit) (KUTA_SENDER_AREA(width, limit) + 1)

/* The most that a plain sender's frame takes with its flag, where every octet is escaped. Most frames take about half of it. */
#define KUTA_PLAIN_AREA(width, limit) (2 * KUTA_SENDER_AREA(width, limit) + 1)

#define KUTA_MARKS 32 /* a sending map: 256 marks */

/* ---- What both ends agreed on: settings, of which other bits are ignored; the width of the check sequence, 16 or 32 bits; and the limit,
 * how many octets a packet has at the most, 2 to KUTA_LARGEST_LIMIT. (PPP's MRU leaves out the protocol number, and is 2 or 4 less.) */

#define KUTA_ZXE 1 /* zero runs and pairs, the codes D3-FE */
#define KUTA_PRE 2 /* preemption: a low packet may be broken off and resumed */

#define KUTA_DEFAULT_WIDTH 16 /* where nothing else was agreed */
#define KUTA_DEFAULT_LIMIT 2048

#define KUTA_PLAIN_OFF 0 /* a receiver reads COBS alone */
#define KUTA_PLAIN_ON 1  /* from a frame on that begins FF it reads plain PPP */

/* ---- Answers
 *
 * What a call answers is a number of 32 bits: the highest octet is its kind, bit 16 a mark, the low 16 bits a value; 0 where there is none.
 * The names are of kinds: compare kuta_kind(answer) with them, not the answer. */

enum kuta_kinds {
    KUTA_QUIET = 0,   /* nothing to report; as a whole number 0 too */
    KUTA_PACKET = 1,  /* mark: it is in the second area, else in the first; value: its length */
    KUTA_HELD = 2,    /* a packet was broken off; mark: an older fragment was given up for it; value: octets held */
    KUTA_REFUSED = 3, /* value: the refusal's number, below */
    KUTA_DONE = 4,    /* the load or the opening was done */
    KUTA_OCTET = 5,   /* value: the octet to send */
    KUTA_IDLE = 6,    /* there is nothing to send */
    KUTA_WRITTEN = 7  /* a frame was written to an area; value: how many octets */
};

/* The kind, the mark (0 or 1) and the value of an answer. */
static inline unsigned kuta_kind(uint32_t answer) { return (unsigned)(answer >> 24); }
static inline unsigned kuta_mark(uint32_t answer) { return (unsigned)(answer >> 16 & 1); }
static inline unsigned kuta_value(uint32_t answer) { return (unsigned)(answer & 0xFFFF); }

/* How many octets a call wrote to its area; 0 where it was refused. */
static inline size_t kuta_written(uint32_t answer) { return kuta_kind(answer) == KUTA_WRITTEN ? kuta_value(answer) : 0; }

/* Refusals. 1 to 4, 19 and 23 refuse a call, which has then changed no octet of its state and of its areas. An opening tests the limit, 23,
 * and then the width, 3; that of a pair then the maps, 19. Any other call tests width and limit first, 3; then the rest in the order 2, 3,
 * 4, 1. 5 to 14, 18 and 21 are what the receiver reports of a frame that brings no packet; the call itself was taken. */
enum kuta_refusals {
    KUTA_BAD_LENGTH = 1,      /* load, plain send: a packet of fewer than 2 octets, or more than the limit */
    KUTA_SHORT_AREA = 2,      /* an area is shorter than its least length, for the state's width and limit; plain send: than the frame */
    KUTA_BAD_STATE = 3,       /* the width is neither 16 nor 32, or a state's limit out of range; the octets are no state (CLIBRARY.md), or one
                                 out of bounds (READING.md) */
    KUTA_LANE_LOADED = 4,     /* load: the lane's last packet is not sent yet */
    KUTA_PLAIN_FRAME = 5,     /* it begins FF: plain PPP, a restart of the link; nothing is held after it. With KUTA_PLAIN_OFF alone */
    KUTA_NOT_AGREED = 6,      /* a code that the settings do not allow */
    KUTA_NO_CODE = 7,         /* an octet that is no code here */
    KUTA_NOTHING_HELD = 8,    /* it resumes a packet, and nothing is held */
    KUTA_NOTHING_RESUMED = 9, /* it resumes a packet and ends at once */
    KUTA_TOO_LONG = 10,       /* more octets than the limit allows a frame */
    KUTA_CUT_OFF = 11,        /* it ends inside a block, and preemption is off */
    KUTA_UNFINISHED = 12,     /* it ends behind a block D0, which another must follow */
    KUTA_TOO_SHORT = 13,      /* fewer octets than a packet and its FCS */
    KUTA_BAD_CHECK = 14,      /* the FCS is wrong */
    KUTA_ESCAPE_OPEN = 18,    /* plain PPP: it ends behind an escape, 7D, which an octet must follow */
    KUTA_BAD_MAPS = 19,       /* opening a pair: the two maps do not go together (READING.md, "Plain PPP") */
    KUTA_AREA_CHANGED = 21,   /* it resumes a packet, and the octets held of it are not those that came; nothing is held from its D1 on */
    KUTA_BAD_LIMIT = 23       /* an opening: the limit is not from 2 to KUTA_LARGEST_LIMIT */
};

/* ---- The receiver
 *
 * It is lent two areas, the same two at every call: one takes in what comes, the other holds what is kept of a packet that was broken off.
 * Between calls nobody else writes to them. A write to octets that are held is found out when they are to be resumed, by their check
 * register (refusal 21; most writes, not all); any other write is not.
 *
 * With KUTA_PLAIN_ON, an FF that begins a frame lets go of what is held and changes over to plain PPP (RFC 1662, section 4): this frame and
 * all that follow are read so, and only an opening leads back to COBS. The FF itself is answered KUTA_QUIET; kuta_mode tells. */

enum kuta_modes {
    KUTA_MODE_OFF = 0,    /* COBS is read, and a frame that begins FF is refused 5 */
    KUTA_MODE_COBS = 1,   /* COBS is read, and no frame has begun FF yet */
    KUTA_MODE_PLAIN = 2,  /* plain PPP is read */
    KUTA_MODE_ESCAPED = 3 /* plain PPP is read, and an escape is open */
};

/* What a receiver reads. */
static inline unsigned kuta_mode(const uint8_t state[KUTA_STATE]) { return state[5]; }

/* Opens a receiver, whatever the state held before. Answers KUTA_DONE. `plain` is KUTA_PLAIN_OFF, or any other number for KUTA_PLAIN_ON.
 * `map` is then the receiving map: of the octets below 20 (hexadecimal) those whose bit it has, 1 << octet, are removed from plain PPP
 * wherever they come, also behind an escape. With KUTA_PLAIN_OFF it is taken as 0.
 * Refused 23: the limit is out of range. Refused 3: the width is neither 16 nor 32. Refused, the state stays. (Of larger numbers C hands
 * over the low bits: test them before.) */
uint32_t kuta_receiver_open(uint8_t state[KUTA_STATE], uint8_t settings, uint8_t width, uint16_t limit, uint8_t plain, uint32_t map);

/* Takes the next octet of the line. Answers KUTA_QUIET, KUTA_PACKET, KUTA_HELD or KUTA_REFUSED.
 * A packet stays where it is until the next call of this receiver.
 * Refused 2: first or second has fewer than KUTA_RECEIVER_AREA(width, limit) octets. Refused 3. Refused 5 to 14, 18 and 21: reports of a
 * frame. */
uint32_t kuta_receive(uint8_t state[KUTA_STATE], uint8_t octet, uint8_t *first, size_t first_length, uint8_t *second, size_t second_length);

/* How far a stretch of a line was read or written. */
typedef struct kuta_stretch {
    uint32_t answer; /* of the last call that was made for it; KUTA_QUIET, where none was */
    size_t octets;   /* how many octets were used, or written */
} kuta_stretch;

/* Takes octets of the line, up to and with the first that is answered by anything but KUTA_QUIET: the same as kuta_receive for each of
 * them, and faster. `octets` tells how many were used: go on behind them. It is 1 at least, where there were any; where the call is
 * refused 2 or 3 it is 1, and that octet was not taken in. Of no octets at all nothing is tested: KUTA_QUIET and 0. */
kuta_stretch kuta_read_on(uint8_t state[KUTA_STATE], const uint8_t *octets, size_t octets_length, uint8_t *first, size_t first_length,
                          uint8_t *second, size_t second_length);

/* ---- The sender
 *
 * It has two lanes, low and high, and is lent an area for each, the same at every call. A high packet goes before a low one, and breaks it
 * off where preemption was agreed. Between the load of a packet and its closing flag nobody else writes to its area. */

/* Opens a sender, as a receiver is opened. */
uint32_t kuta_sender_open(uint8_t state[KUTA_STATE], uint8_t settings, uint8_t width, uint16_t limit);

/* Loads a packet into a lane; `area` is that lane's. Answers KUTA_DONE: the packet is copied to the area, and its octets are free again.
 * Refused 2: the area has fewer than KUTA_SENDER_AREA(width, limit) octets. Refused 3. Refused 4: the lane's packet is not sent yet, and only
 * a load tells so. Refused 1. */
uint32_t kuta_load_low(uint8_t state[KUTA_STATE], const uint8_t *packet, size_t packet_length, uint8_t *area, size_t area_length);
uint32_t kuta_load_high(uint8_t state[KUTA_STATE], const uint8_t *packet, size_t packet_length, uint8_t *area, size_t area_length);

/* The next octet to send. Answers KUTA_OCTET, KUTA_IDLE or KUTA_REFUSED, and in the last two cases changes nothing.
 * Refused 2: low or high has fewer than KUTA_SENDER_AREA(width, limit) octets. Refused 3. */
uint32_t kuta_next(uint8_t state[KUTA_STATE], const uint8_t *low, size_t low_length, const uint8_t *high, size_t high_length);

/* Writes the next octets to `line`, up to and with the first flag (7E), as far as there is room: the same as kuta_next for each of them,
 * and faster. `octets` tells how many were written. The answer is KUTA_OCTET with the last of them: a flag closes a packet, or breaks a
 * low one off. Where none was written, it is KUTA_IDLE or KUTA_REFUSED. With no room at all nothing is tested: KUTA_QUIET and 0. What
 * lies behind the octets written stays. */
kuta_stretch kuta_write_on(uint8_t state[KUTA_STATE], const uint8_t *low, size_t low_length, const uint8_t *high, size_t high_length,
                           uint8_t *line, size_t line_length);

/* ---- Plain PPP, sent
 *
 * A plain sender keeps nothing from one packet to the next: its state has the width, the limit and a sending map, and no call but the
 * opening writes to it. The map says which octets are sent escaped, that is, as 7D and the octet xor 20 (hexadecimal). It is 256 marks:
 * that of an octet is bit octet % 8 of marks[octet / 8]. 7D and 7E always have one. */

/* Opens a plain sender, and a receiver as kuta_receiver_open with KUTA_PLAIN_ON does, whatever both states held before: what this sender
 * writes comes through at such a receiver that reads plain PPP, since the maps agree. `map` is the receiving map, `marks` the sending one,
 * to which 7D and 7E are added. Answers KUTA_DONE.
 * Refused 23: the limit is out of range. Refused 3: the width is neither 16 nor 32. Refused 19: `marks` lacks an octet of `map`, or has 5E
 * or one of 20 to 3F. Refused, both states stay. */
uint32_t kuta_pair_open(uint8_t sender[KUTA_STATE], uint8_t receiver[KUTA_STATE], uint8_t settings, uint8_t width, uint16_t limit,
                        uint32_t map, const uint8_t marks[KUTA_MARKS]);

/* Writes a packet to the beginning of `area` as a frame of plain PPP: the packet and its FCS, escaped, and a flag (7E) behind them, none
 * before. Answers KUTA_WRITTEN. What lies behind these octets stays.
 * Refused 3: width or limit. Refused 2: the frame and its flag do not fit, exactly then; KUTA_PLAIN_AREA(width, limit) octets always do for
 * a packet that is not refused 1. Refused 3: the other octets. Refused 1. Refused, nothing is written. */
uint32_t kuta_plain_send(const uint8_t sender[KUTA_STATE], const uint8_t *packet, size_t packet_length, uint8_t *area, size_t area_length);

/* ---- RFC 1662's check sequences, of 16 and of 32 bits: the register, from `start` on, over octets
 *
 * A register starts with all bits set (FFFF, FFFFFFFF). The FCS is its complement after the packet, low octet first; after packet and FCS
 * the register is F0B8, or DEBB20E3. Weak symbols: a program's own go before them. */

uint16_t pppfcs16(uint16_t start, const uint8_t *octets, size_t octets_length);
uint32_t pppfcs32(uint32_t start, const uint8_t *octets, size_t octets_length);

#ifdef __cplusplus
}
#endif

#endif
