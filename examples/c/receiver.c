/* A receiver: reads the octets of a line from a file descriptor, here standard input, and prints a line for each report:
 *
 *     P 9 31 32 33 34 35 36 37 38 39   a packet: its length and its octets
 *     H 3 0                            a fragment of 3 octets is held; 1 in place of the 0, where an older one was given up for it
 *     R 14                             a refused frame, by its number (kutarehopa.h)
 *
 * From a frame on that begins FF, as after a restart of the peer, it reads plain PPP.
 *
 *     cc -o receiver receiver.c -lkutarehopa && ./receiver < CAPTURE
 *
 * `./receiver 32` is for a line with a check sequence of 32 bits in place of 16, `./receiver 16 9000` for one whose ends agreed on packets
 * of up to 9,000 octets in place of 2,048. Exit status: 0 at the end of input, 1 where something cannot be read or written, 2 where it is
 * called wrongly. */
#define _POSIX_C_SOURCE 200809L
#include <errno.h>
#include <stdio.h>
#include <stdlib.h>
#include <string.h>
#include <unistd.h>

#include "kutarehopa.h"

enum { SETTINGS = KUTA_ZXE | KUTA_PRE }; /* what both ends of this link agreed on */

/* All that a receiver needs: its state, and two areas that are nobody else's from the opening on. They are long enough for either width and
 * for any limit. */
struct receiver {
    uint8_t state[KUTA_STATE];
    uint8_t first[KUTA_RECEIVER_AREA(32, KUTA_LARGEST_LIMIT)], second[KUTA_RECEIVER_AREA(32, KUTA_LARGEST_LIMIT)];
};

static void print_packet(const uint8_t *packet, unsigned length) {
    unsigned i;
    printf("P %u", length);
    for (i = 0; i < length; i++) printf(" %02X", (unsigned)packet[i]);
    putchar('\n');
}

/* Does what an answer asks for. Answers whether the receiver can go on. */
static int handle(const struct receiver *receiver, uint32_t answer) {
    const unsigned value = kuta_value(answer);
    switch (kuta_kind(answer)) {
    case KUTA_QUIET: /* the octets are used up, and no frame was closed by the last of them */
        return 1;
    case KUTA_PACKET: /* Use it now, or copy it: the next call may write to its area. */
        print_packet(kuta_mark(answer) ? receiver->second : receiver->first, value);
        return 1;
    case KUTA_HELD: /* Nothing to do: the receiver keeps the fragment, and delivers the packet when the rest has come. */
        printf("H %u %u\n", value, kuta_mark(answer));
        return 1;
    case KUTA_REFUSED:
        if (value < KUTA_PLAIN_FRAME) break;
        /* A frame is lost, and the receiver goes on with the next one. */
        printf("R %u\n", value);
        return 1;
    }
    /* The call itself was refused: an area is too short, or the state was overwritten. That is this program's own fault: do not go on. */
    fprintf(stderr, "receiver: call refused, number %u\n", value);
    return 0;
}

/* Plain reading is on, with an empty map. A link that negotiates looks at kuta_mode after each report: from KUTA_MODE_PLAIN on the peer has
 * restarted, and only an opening like this one, once both ends have agreed on COBS again, leads back. */
static int open_receiver(struct receiver *receiver, uint8_t width, uint16_t limit) {
    return kuta_kind(kuta_receiver_open(receiver->state, SETTINGS, width, limit, KUTA_PLAIN_ON, 0)) == KUTA_DONE;
}

/* Hands all of the octets to the receiver. A stretch ends with each report, so several frames of one read take several calls. */
static int take(struct receiver *receiver, const uint8_t *octets, size_t length) {
    while (length > 0) {
        const kuta_stretch stretch = kuta_read_on(receiver->state, octets, length, receiver->first, sizeof receiver->first,
                                                  receiver->second, sizeof receiver->second);
        if (!handle(receiver, stretch.answer)) return 0;
        octets += stretch.octets; /* go on behind those that were used: none is lost, none is taken twice */
        length -= stretch.octets;
    }
    return 1;
}

/* read(2), again where a signal came in between. */
static ssize_t read_some(int descriptor, uint8_t *octets, size_t room) {
    ssize_t count;
    do {
        count = read(descriptor, octets, room);
    } while (count < 0 && errno == EINTR);
    return count;
}

/* The width of the check sequence or the limit, which both ends agreed on too; 0 of a word that is neither, and no opening takes that. */
static unsigned long number_of(const char *word, unsigned long most) {
    char *end;
    const unsigned long number = strtoul(word, &end, 10);
    return *word < '0' || *word > '9' || *end != '\0' || number > most ? 0 : number;
}

static int fault(const char *what) {
    fprintf(stderr, "receiver: %s: %s\n", what, strerror(errno));
    return 1;
}

int main(int count_of_words, char **words) {
    static struct receiver receiver;
    static uint8_t octets[4096]; /* any length will do: a frame may lie across two reads, and a read may have many frames */
    const uint8_t width = (uint8_t)(count_of_words > 1 ? number_of(words[1], UINT8_MAX) : KUTA_DEFAULT_WIDTH);
    const uint16_t limit = (uint16_t)(count_of_words > 2 ? number_of(words[2], UINT16_MAX) : KUTA_DEFAULT_LIMIT);
    ssize_t count;
    if (count_of_words > 3 || !open_receiver(&receiver, width, limit)) {
        fprintf(stderr, "usage: %s [16|32 [LIMIT]] < CAPTURE, where LIMIT is from 2 to %d\n", words[0], KUTA_LARGEST_LIMIT);
        return 2;
    }
    while ((count = read_some(STDIN_FILENO, octets, sizeof octets)) > 0) {
        if (!take(&receiver, octets, (size_t)count)) return 1;
        if (fflush(stdout) != 0 || ferror(stdout)) return fault("standard output: cannot be written"); /* before the wait for more */
    }
    if (count < 0) return fault("standard input: cannot be read");
    if (fclose(stdout) != 0) return fault("standard output: cannot be written");
    return 0; /* a frame without its closing flag is no report; what a later read brought would still complete it */
}
