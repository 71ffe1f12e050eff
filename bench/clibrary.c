/* The C library, measured: the jobs of the programs capture and send, over kuta_receive and kuta_next octet by octet or over the stretches.
 *
 *     clibrary capture-octets|capture-stretches < CAPTURE       the lines of capture
 *     clibrary send-octets|send-stretches < RECORDS             the octets of send, of records that wait for nothing
 */
#include <stdio.h>
#include <stdlib.h>
#include <string.h>

#include "kutarehopa.h"

enum { PIECE = 1 << 16, LONGEST_LINE = 16 + 3 * KUTA_DEFAULT_LIMIT };

static void fail(const char *what) {
    fprintf(stderr, "clibrary: %s\n", what);
    exit(1);
}

/* ---- Output, a page at a time */

static char page[PIECE + LONGEST_LINE];
static size_t filled;

static void write_page(void) {
    if (fwrite(page, 1, filled, stdout) != filled) fail("standard output cannot be written");
    filled = 0;
}

static void put(const char *text, size_t length) {
    memcpy(page + filled, text, length);
    filled += length;
    if (filled >= PIECE) write_page();
}

/* ---- capture */

enum { AREA = KUTA_RECEIVER_AREA(KUTA_DEFAULT_WIDTH, KUTA_DEFAULT_LIMIT) };
static uint8_t state[KUTA_STATE], one[AREA], other[AREA];

static void put_packet(const uint8_t *packet, unsigned length) {
    static const char digits[] = "0123456789ABCDEF";
    char line[LONGEST_LINE];
    size_t end = (size_t)sprintf(line, "P %u", length);
    unsigned i;
    for (i = 0; i < length; i++) {
        line[end++] = ' ';
        line[end++] = digits[packet[i] >> 4];
        line[end++] = digits[packet[i] & 15];
    }
    line[end++] = '\n';
    put(line, end);
}

static void report(uint32_t answer) {
    char line[32];
    switch (kuta_kind(answer)) {
    case KUTA_PACKET: put_packet(kuta_mark(answer) ? other : one, kuta_value(answer)); break;
    case KUTA_HELD: put(line, (size_t)sprintf(line, "H %u %u\n", kuta_value(answer), kuta_mark(answer))); break;
    case KUTA_REFUSED: put(line, (size_t)sprintf(line, "R %u\n", kuta_value(answer))); break;
    }
}

static void read_octets(const uint8_t *octets, size_t length) {
    size_t i;
    for (i = 0; i < length; i++) {
        const uint32_t answer = kuta_receive(state, octets[i], one, sizeof one, other, sizeof other);
        if (answer != KUTA_QUIET) report(answer);
    }
}

static void read_stretches(const uint8_t *octets, size_t length) {
    while (length > 0) {
        const kuta_stretch stretch = kuta_read_on(state, octets, length, one, sizeof one, other, sizeof other);
        report(stretch.answer);
        octets += stretch.octets;
        length -= stretch.octets;
    }
}

static void capture(void (*take)(const uint8_t *, size_t)) {
    static uint8_t piece[PIECE];
    size_t length;
    kuta_receiver_open(state, KUTA_ZXE | KUTA_PRE, KUTA_DEFAULT_WIDTH, KUTA_DEFAULT_LIMIT, KUTA_PLAIN_ON, 0);
    while ((length = fread(piece, 1, sizeof piece, stdin)) > 0) take(piece, length);
}

/* ---- send */

static void send_octets(void) {
    uint32_t answer;
    while (kuta_kind(answer = kuta_next(state, one, sizeof one, other, sizeof other)) == KUTA_OCTET) {
        page[filled++] = (char)kuta_value(answer);
        if (filled >= PIECE) write_page();
    }
}

static void send_stretches(void) {
    static uint8_t line[4096];
    kuta_stretch stretch;
    while ((stretch = kuta_write_on(state, one, sizeof one, other, sizeof other, line, sizeof line)).octets > 0)
        put((const char *)line, stretch.octets);
}

static void send_all(void (*send)(void)) {
    static uint8_t packet[KUTA_DEFAULT_LIMIT];
    uint8_t head[5];
    int settings = getchar();
    if (settings == EOF) fail("there is no settings octet");
    kuta_sender_open(state, (uint8_t)settings, KUTA_DEFAULT_WIDTH, KUTA_DEFAULT_LIMIT);
    while (fread(head, 1, sizeof head, stdin) == sizeof head) {
        const size_t length = head[3] * 256u + head[4];
        if (head[0] != 'L' || head[1] != 0 || head[2] != 0 || length > sizeof packet || fread(packet, 1, length, stdin) != length)
            fail("a record that is not for this");
        if (kuta_kind(kuta_load_low(state, packet, length, one, sizeof one)) != KUTA_DONE) fail("a load is refused");
        send();
    }
}

int main(int count, char **words) {
    const char *job = count == 2 ? words[1] : "";
    if (strcmp(job, "capture-octets") == 0) capture(read_octets);
    else if (strcmp(job, "capture-stretches") == 0) capture(read_stretches);
    else if (strcmp(job, "send-octets") == 0) send_all(send_octets);
    else if (strcmp(job, "send-stretches") == 0) send_all(send_stretches);
    else fail("capture-octets, capture-stretches, send-octets or send-stretches");
    write_page();
    if (fclose(stdout) != 0) fail("standard output cannot be written");
    return 0;
}
