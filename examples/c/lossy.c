/* Both ends of a link, joined by a lossy line: long packets of the low lane, urgent ones of the high lane that break them off, a line that
 * flips bits and drops octets, and a tally of what came through.
 *
 *     cc -o lossy lossy.c -lkutarehopa && ./lossy 10
 *
 * RATE, here 10, is how many of 10,000 octets the line damages; the same rate gives the same tally everywhere. `./lossy 10 32` is the same
 * with a check sequence of 32 bits in place of 16, `./lossy 10 32 16384` also with a limit of 16,384 octets in place of 2,048, which the long
 * packets have. Exit status: 0; 1 where a line without damage did not deliver everything, or the tally cannot be written; 2 where the command
 * is called wrongly. */
#include <stdio.h>
#include <stdlib.h>

#include "kutarehopa.h"

enum { SETTINGS = KUTA_ZXE | KUTA_PRE }; /* both ends are opened with the same */
enum { LOW, HIGH, LANES };
enum { WHOLE = 10000 };   /* what a rate is a part of */
enum { STRETCH = 64 };    /* octets written before the sender looks for an urgent packet again */
enum { URGENT_EACH = 5 }; /* an urgent packet comes with every fifth stretch */

static size_t packet_length[LANES] = {KUTA_DEFAULT_LIMIT, 24}; /* the first is the limit */
static const unsigned packets_to_send[LANES] = {40, 200};
static const char *const lane_name[LANES] = {"low", "high"};

/* The two ends. Each has its state and its areas, long enough for either width and any limit, and sees nothing of the other but the line. */
enum { SENDER_AREA = KUTA_SENDER_AREA(32, KUTA_LARGEST_LIMIT), RECEIVER_AREA = KUTA_RECEIVER_AREA(32, KUTA_LARGEST_LIMIT) };
static uint8_t sender[KUTA_STATE], low[SENDER_AREA], high[SENDER_AREA];
static uint8_t receiver[KUTA_STATE], first[RECEIVER_AREA], second[RECEIVER_AREA];

static struct {
    unsigned loaded[LANES], unaltered[LANES];
    unsigned never_sent; /* delivered, and yet no packet that was sent, or one that had come before */
    unsigned held, given_up;
    unsigned refused[KUTA_AREA_CHANGED + 1]; /* by number */
    unsigned long octets, flipped, dropped;
} tally;

/* A small generator (xorshift): never 0, if it does not start there. */
static uint32_t random_from(uint32_t *seed) {
    *seed ^= *seed << 13;
    *seed ^= *seed >> 17;
    *seed ^= *seed << 5;
    return *seed;
}

/* Refusals 1 to 3 of a call are a mistake of this program: a packet or an area of a wrong length, a state overwritten. */
static void own_fault(uint32_t answer) {
    fprintf(stderr, "lossy: call refused, number %u\n", kuta_value(answer));
    exit(1);
}

/* ---- Packets: the lane and the number tell every octet, so that the receiving side knows what was sent */

static void make_packet(unsigned lane, unsigned number, uint8_t *packet) {
    uint32_t seed = 1 + lane + LANES * number;
    size_t i;
    packet[0] = (uint8_t)lane;
    packet[1] = (uint8_t)number;
    for (i = 2; i < packet_length[lane]; i++) {
        const uint8_t octet = (uint8_t)(random_from(&seed) >> 24);
        packet[i] = octet < 64 ? 0 : octet; /* many zeros */
    }
}

static int is_sent(const uint8_t *packet, size_t length) {
    static uint8_t sent[KUTA_LARGEST_LIMIT];
    const unsigned lane = packet[0], number = packet[1];
    size_t i = 0;
    if (lane >= LANES || number >= tally.loaded[lane] || length != packet_length[lane]) return 0;
    make_packet(lane, number, sent);
    while (i < length && packet[i] == sent[i]) i++;
    return i == length;
}

/* ---- The sending side */

/* Loads the next packet of a lane, if that has one left. A lane takes one packet at a time: KUTA_LANE_LOADED says try again later. */
static void load_next(unsigned lane) {
    static uint8_t packet[KUTA_LARGEST_LIMIT];
    uint32_t answer;
    if (tally.loaded[lane] == packets_to_send[lane]) return;
    make_packet(lane, tally.loaded[lane], packet);
    answer = lane == LOW ? kuta_load_low(sender, packet, packet_length[lane], low, sizeof low)
                         : kuta_load_high(sender, packet, packet_length[lane], high, sizeof high);
    if (kuta_kind(answer) == KUTA_DONE) tally.loaded[lane]++;
    else if (kuta_value(answer) != KUTA_LANE_LOADED) own_fault(answer);
}

/* ---- The line */

/* Damages the octets in place; answers how many are left of them. */
static size_t damage(uint8_t *line, size_t length, unsigned rate) {
    static uint32_t seed = 20260;
    size_t i, left = 0;
    for (i = 0; i < length; i++) {
        const int hit = random_from(&seed) % WHOLE < rate;
        const uint32_t how = random_from(&seed) >> 28; /* 0 to 7: which bit to flip; 8 to 15: drop the octet */
        tally.octets++;
        if (hit && how >= 8) {
            tally.dropped++;
            continue;
        }
        if (hit) tally.flipped++;
        line[left++] = (uint8_t)(hit ? line[i] ^ (1u << how) : line[i]);
    }
    return left;
}

/* ---- The receiving side */

/* Packets of a lane come in the order of their numbers, so one that was sent before those that have come is there a second time. */
static void take_packet(const uint8_t *packet, size_t length) {
    static unsigned awaited[LANES];
    if (is_sent(packet, length) && packet[1] >= awaited[packet[0]]) {
        awaited[packet[0]] = packet[1] + 1u;
        tally.unaltered[packet[0]]++;
    } else {
        tally.never_sent++;
    }
}

static void take_report(uint32_t answer) {
    switch (kuta_kind(answer)) {
    case KUTA_PACKET: take_packet(kuta_mark(answer) ? second : first, kuta_value(answer)); break;
    case KUTA_HELD:
        tally.held++;
        tally.given_up += kuta_mark(answer);
        break;
    case KUTA_REFUSED:
        if (kuta_value(answer) < KUTA_PLAIN_FRAME) own_fault(answer);
        tally.refused[kuta_value(answer)]++;
        break;
    }
}

static void receive(const uint8_t *line, size_t length) {
    while (length > 0) {
        const kuta_stretch stretch = kuta_read_on(receiver, line, length, first, sizeof first, second, sizeof second);
        take_report(stretch.answer);
        line += stretch.octets;
        length -= stretch.octets;
    }
}

/* ---- All of it */

static int all_loaded(void) { return tally.loaded[LOW] == packets_to_send[LOW] && tally.loaded[HIGH] == packets_to_send[HIGH]; }

/* Sends everything, stretch by stretch: a packet of either lane may be loaded between any two. */
static void run(unsigned rate) {
    uint8_t line[STRETCH];
    unsigned count;
    for (count = 1;; count++) {
        kuta_stretch stretch;
        load_next(LOW);
        if (count % URGENT_EACH == 0) load_next(HIGH);
        stretch = kuta_write_on(sender, low, sizeof low, high, sizeof high, line, sizeof line);
        if (kuta_kind(stretch.answer) == KUTA_REFUSED) own_fault(stretch.answer);
        if (kuta_kind(stretch.answer) == KUTA_IDLE && all_loaded()) return;
        receive(line, damage(line, stretch.octets, rate));
    }
}

static unsigned frames_refused(void) {
    unsigned number, sum = 0;
    for (number = KUTA_PLAIN_FRAME; number <= KUTA_AREA_CHANGED; number++) sum += tally.refused[number];
    return sum;
}

static void print_tally(void) {
    unsigned lane, number;
    printf("line: %lu octets, %lu flipped, %lu dropped\n", tally.octets, tally.flipped, tally.dropped);
    for (lane = LOW; lane < LANES; lane++)
        printf("%s: %u loaded, %u delivered unaltered\n", lane_name[lane], tally.loaded[lane], tally.unaltered[lane]);
    printf("delivered, but never sent: %u\n", tally.never_sent);
    printf("fragments held: %u, older ones given up for them: %u\n", tally.held, tally.given_up);
    printf("frames refused: %u\n", frames_refused());
    for (number = KUTA_PLAIN_FRAME; number <= KUTA_AREA_CHANGED; number++)
        if (tally.refused[number] > 0) printf("  number %u: %u\n", number, tally.refused[number]);
}

static int all_delivered(void) {
    return tally.unaltered[LOW] == packets_to_send[LOW] && tally.unaltered[HIGH] == packets_to_send[HIGH] && tally.never_sent == 0 &&
           tally.given_up == 0 && frames_refused() == 0;
}

/* A number from 0 to `most`, or -1. */
static long number_of(const char *text, long most) {
    char *end;
    const long number = strtol(text, &end, 10);
    return *text < '0' || *text > '9' || *end != '\0' || number > most ? -1 : number;
}

/* Whether both ends take the width and the limit; each answers for itself. This line never has plain PPP, so plain reading stays off: with
 * it on, one octet that the line damages to an FF behind a flag would cost all that follows. */
static int open_both(uint8_t width, uint16_t limit) {
    return kuta_kind(kuta_sender_open(sender, SETTINGS, width, limit)) == KUTA_DONE &&
           kuta_kind(kuta_receiver_open(receiver, SETTINGS, width, limit, KUTA_PLAIN_OFF, 0)) == KUTA_DONE;
}

int main(int count, char **arguments) {
    const long rate = count >= 2 && count <= 4 ? number_of(arguments[1], WHOLE) : -1;
    const long width = count >= 3 ? number_of(arguments[2], UINT8_MAX) : KUTA_DEFAULT_WIDTH;
    const long limit = count == 4 ? number_of(arguments[3], UINT16_MAX) : KUTA_DEFAULT_LIMIT;
    if (rate < 0 || width < 0 || limit < (long)packet_length[HIGH] || !open_both((uint8_t)width, (uint16_t)limit)) {
        fprintf(stderr, "usage: lossy RATE [16|32 [LIMIT]]\nRATE: how many of %d octets the line damages, 0 to %d\n", WHOLE, WHOLE);
        fprintf(stderr, "LIMIT: the octets of the long packets, %d to %d\n", (int)packet_length[HIGH], KUTA_LARGEST_LIMIT);
        return 2;
    }
    packet_length[LOW] = (size_t)limit;
    run((unsigned)rate);
    print_tally();
    if (fclose(stdout) != 0) {
        perror("lossy: standard output: cannot be written");
        return 1;
    }
    if (rate == 0 && !all_delivered()) {
        fprintf(stderr, "lossy: the line damaged nothing, and yet not everything was delivered\n");
        return 1;
    }
    return 0;
}
