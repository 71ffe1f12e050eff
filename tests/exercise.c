/* The exercise driver: a script of commands in, a line for each answer of the C library out. docs/EXERCISE.md has the format.
 * Exit status: 0; 1 where standard input cannot be read or standard output cannot be written. */
#include <errno.h>
#include <stdio.h>
#include <string.h>

#include "kutarehopa.h"

#define LENGTH(array) (sizeof(array) / sizeof(array)[0])

/* ---- Both ends and the plain sender, and the areas that they are lent */

enum { END_AREA = 20480, OUT_AREA = 40960 };
enum { LOW, HIGH, FIRST, SECOND, OUT };

struct area {
    uint8_t *octets;
    size_t whole, lent;
};

static uint8_t sender[KUTA_STATE], receiver[KUTA_STATE], plain_sender[KUTA_STATE];
static uint8_t low[END_AREA], high[END_AREA], first[END_AREA], second[END_AREA], out[OUT_AREA];
static struct area areas[] = {
    {low, END_AREA, KUTA_SENDER_AREA(KUTA_DEFAULT_WIDTH, KUTA_DEFAULT_LIMIT)},
    {high, END_AREA, KUTA_SENDER_AREA(KUTA_DEFAULT_WIDTH, KUTA_DEFAULT_LIMIT)},
    {first, END_AREA, KUTA_RECEIVER_AREA(KUTA_DEFAULT_WIDTH, KUTA_DEFAULT_LIMIT)},
    {second, END_AREA, KUTA_RECEIVER_AREA(KUTA_DEFAULT_WIDTH, KUTA_DEFAULT_LIMIT)},
    {out, OUT_AREA, KUTA_RECEIVER_AREA(KUTA_DEFAULT_WIDTH, KUTA_DEFAULT_LIMIT)},
};

static size_t least(size_t one, size_t other) { return one < other ? one : other; }

/* How many of `count` octets from place `at` on lie within the whole area. */
static size_t within(const struct area *area, size_t at, size_t count) { return at < area->whole ? least(count, area->whole - at) : 0; }

/* ---- Lines */

static void print_octet(uint8_t octet) {
    static const char digits[] = "0123456789ABCDEF";
    putchar(' ');
    putchar(digits[octet >> 4]);
    putchar(digits[octet & 15]);
}

static void print_part(const struct area *area, size_t at, size_t count) {
    const size_t end = at + within(area, at, count);
    for (; at < end; at++) print_octet(area->octets[at]);
    putchar('\n');
}

static void print_packet(unsigned place, unsigned length) {
    printf("P %u %u", place, length);
    print_part(&areas[FIRST + place], 0, length);
}

static void print_written(size_t length) {
    printf("W %lu", (unsigned long)length);
    print_part(&areas[OUT], 0, length);
}

static void print_answer(uint32_t answer) {
    switch (kuta_kind(answer)) {
    case KUTA_QUIET: break;
    case KUTA_PACKET: print_packet(kuta_mark(answer), kuta_value(answer)); break;
    case KUTA_HELD: printf("H %u %u\n", kuta_value(answer), kuta_mark(answer)); break;
    case KUTA_REFUSED: printf("R %u\n", kuta_value(answer)); break;
    case KUTA_DONE: fputs("D\n", stdout); break;
    case KUTA_OCTET:
        putchar('O');
        print_octet((uint8_t)kuta_value(answer));
        putchar('\n');
        break;
    case KUTA_IDLE: fputs("I\n", stdout); break;
    case KUTA_WRITTEN: print_written(kuta_written(answer)); break;
    default: printf("? %08lX\n", (unsigned long)answer); /* the header has no such answer */
    }
}

/* An opening that was done prints nothing. */
static void print_opening(uint32_t answer) {
    if (answer != (uint32_t)KUTA_DONE << 24) print_answer(answer);
}

/* ---- States handed in and written, number by number */

/* A number of `s` or `t`: its place among the octets of the state, how many octets it has, and by what its remainder is taken. */
struct field {
    unsigned place, octets;
    unsigned long modulus;
};

enum { HELD_OCTETS = 3 }; /* a mark, then the count; as one number 0, where nothing is held, else the count + 1 */

static const struct field sender_fields[] = {
    {4, 1, 256},    /* settings */
    {8, 2, 65536},  /* low length */
    {10, 2, 65536}, /* low position */
    {12, 2, 65536}, /* high length */
    {14, 2, 65536}, /* high position */
    {16, 1, 256},   /* data left */
    {17, 1, 256},   /* zeros due */
    {5, 1, 3},      /* lane on the line */
    {6, 1, 2},      /* suspended */
    {7, 1, 2},      /* cut due */
    {1, 1, 256},    /* width */
    {2, 2, 65536},  /* limit */
};

static const struct field receiver_fields[] = {
    {4, 1, 256},              /* settings */
    {10, 1, 2},               /* work area */
    {11, 2, 65536},           /* decoded */
    {13, HELD_OCTETS, 65536}, /* held */
    {20, 1, 256},             /* data left */
    {21, 1, 256},             /* zeros due */
    {22, 1, 3},               /* last block */
    {23, 1, 2},               /* in a frame */
    {24, 1, 2},               /* resumed */
    {25, 1, 256},             /* remembered refusal */
    {1, 1, 256},              /* width */
    {2, 2, 65536},            /* limit */
    {16, 2, 65536},           /* register, low half */
    {18, 2, 65536},           /* register, high half */
    {5, 1, 4},                /* mode */
    {6, 2, 65536},            /* map, low half */
    {8, 2, 65536},            /* map, high half */
};

static void put_number(uint8_t *place, unsigned long number) {
    place[0] = (uint8_t)(number & 255);
    place[1] = (uint8_t)(number >> 8 & 255);
}

static unsigned long number_at(const uint8_t *place) { return place[0] + 256ul * place[1]; }

static void put_field(uint8_t *state, struct field field, unsigned long given) {
    const unsigned long number = given % field.modulus;
    uint8_t *const place = state + field.place;
    if (field.octets == 1) {
        *place = (uint8_t)number;
    } else if (field.octets == 2) {
        put_number(place, number);
    } else {
        *place = number > 0;
        put_number(place + 1, number > 0 ? number - 1 : 0);
    }
}

static unsigned long field_of(const uint8_t *state, struct field field) {
    const uint8_t *const place = state + field.place;
    if (field.octets == 1) return *place;
    if (field.octets == 2) return number_at(place);
    return *place == 0 ? 0 : number_at(place + 1) + 1;
}

/* What has no number here is written as an opening writes it: octet 0, and zeros. */
static void hand_in(uint8_t *state, const struct field *fields, size_t count, const unsigned *numbers) {
    size_t i;
    memset(state, 0, KUTA_STATE);
    state[0] = 1;
    for (i = 0; i < count; i++) put_field(state, fields[i], numbers[i]);
}

static void print_state(char letter, const uint8_t *state, const struct field *fields, size_t count) {
    size_t i;
    putchar(letter);
    for (i = 0; i < count; i++) printf(" %lu", field_of(state, fields[i]));
    putchar('\n');
}

/* ---- The commands */

/* The operands of a command: its octet, number and long operands in their order, the octets of the one that is `octets n`, and those of
 * the one that is a sending map. */
struct operands {
    unsigned numbers[LENGTH(receiver_fields)];
    uint8_t octets[65535], marks[KUTA_MARKS];
    size_t length;
};

static void open_sender(const struct operands *given) {
    print_opening(kuta_sender_open(sender, (uint8_t)given->numbers[0], (uint8_t)given->numbers[1], (uint16_t)given->numbers[2]));
}

static void open_receiver(const struct operands *given) {
    print_opening(kuta_receiver_open(receiver, (uint8_t)given->numbers[0], (uint8_t)given->numbers[1], (uint16_t)given->numbers[2],
                                     (uint8_t)given->numbers[3], given->numbers[4]));
}

static void open_pair(const struct operands *given) {
    print_opening(kuta_pair_open(plain_sender, receiver, (uint8_t)given->numbers[0], (uint8_t)given->numbers[1],
                                 (uint16_t)given->numbers[2], given->numbers[3], given->marks));
}

static void load_low(const struct operands *given) {
    print_answer(kuta_load_low(sender, given->octets, given->length, low, areas[LOW].lent));
}

static void load_high(const struct operands *given) {
    print_answer(kuta_load_high(sender, given->octets, given->length, high, areas[HIGH].lent));
}

static void next_octets(const struct operands *given) {
    unsigned i;
    for (i = 0; i < given->numbers[0]; i++) print_answer(kuta_next(sender, low, areas[LOW].lent, high, areas[HIGH].lent));
}

static void receive(const struct operands *given) {
    size_t i;
    for (i = 0; i < given->length; i++)
        print_answer(kuta_receive(receiver, given->octets[i], first, areas[FIRST].lent, second, areas[SECOND].lent));
}

static void send_plain(const struct operands *given) {
    print_answer(kuta_plain_send(plain_sender, given->octets, given->length, out, areas[OUT].lent));
}

static void lend(const struct operands *given) {
    int i;
    for (i = LOW; i <= SECOND; i++) areas[i].lent = least(given->numbers[i], areas[i].whole);
}

static void lend_out(const struct operands *given) { areas[OUT].lent = least(given->numbers[0], areas[OUT].whole); }

static void fill(const struct operands *given) {
    const unsigned area = given->numbers[0], at = given->numbers[1];
    size_t count;
    if (area >= LENGTH(areas)) return;
    count = within(&areas[area], at, given->length);
    if (count > 0) memcpy(areas[area].octets + at, given->octets, count);
}

static void show(const struct operands *given) {
    static const struct area none = {NULL, 0, 0};
    const unsigned area = given->numbers[0];
    putchar('X');
    print_part(area < LENGTH(areas) ? &areas[area] : &none, given->numbers[1], given->numbers[2]);
}

static void hand_sender(const struct operands *given) { hand_in(sender, sender_fields, LENGTH(sender_fields), given->numbers); }

static void hand_receiver(const struct operands *given) { hand_in(receiver, receiver_fields, LENGTH(receiver_fields), given->numbers); }

static void hand_plain_sender(const struct operands *given) {
    memset(plain_sender, 0, KUTA_STATE);
    plain_sender[0] = 1;
    plain_sender[1] = (uint8_t)given->numbers[0];
    put_number(plain_sender + 2, given->numbers[1]);
    memcpy(plain_sender + 4, given->marks, KUTA_MARKS);
}

static void show_states(const struct operands *given) {
    (void)given;
    print_state('S', sender, sender_fields, LENGTH(sender_fields));
    print_state('T', receiver, receiver_fields, LENGTH(receiver_fields));
}

/* A command: its letter, its operands (1: octet, 2: number, 4: long, n: octets n, m: a sending map), and what it does. */
struct command {
    char letter;
    const char *operands;
    void (*carry_out)(const struct operands *given);
};

static const struct command commands[] = {
    {'o', "112", open_sender},
    {'O', "11214", open_receiver},
    {'l', "n", load_low},
    {'h', "n", load_high},
    {'n', "2", next_octets},
    {'r', "n", receive},
    {'a', "2222", lend},
    {'A', "2", lend_out},
    {'f', "12n", fill},
    {'s', "222222222222", hand_sender},
    {'t', "22222222222222222", hand_receiver},
    {'d', "", show_states},
    {'x', "122", show},
    {'p', "1124m", open_pair},
    {'P', "12m", hand_plain_sender},
    {'w', "n", send_plain},
};

/* ---- Input: each reader answers whether the input had all of what was to be read */

static int read_octet(unsigned *octet) {
    const int got = getchar();
    *octet = (unsigned)got;
    return got != EOF;
}

static int read_number(unsigned *number) {
    unsigned high_half;
    if (!read_octet(number) || !read_octet(&high_half)) return 0;
    *number += 256 * high_half;
    return 1;
}

static int read_long(unsigned *number) {
    unsigned high_half;
    if (!read_number(number) || !read_number(&high_half)) return 0;
    *number += 65536 * high_half;
    return 1;
}

static int read_octets(struct operands *given) {
    unsigned count;
    if (!read_number(&count)) return 0;
    given->length = fread(given->octets, 1, count, stdin);
    return given->length == count;
}

static int read_operands(const char *kinds, struct operands *given) {
    unsigned *number = given->numbers;
    int whole = 1;
    for (; whole && *kinds != '\0'; kinds++) {
        switch (*kinds) {
        case '1': whole = read_octet(number++); break;
        case '2': whole = read_number(number++); break;
        case '4': whole = read_long(number++); break;
        case 'n': whole = read_octets(given); break;
        default: whole = fread(given->marks, 1, KUTA_MARKS, stdin) == KUTA_MARKS;
        }
    }
    return whole;
}

static const struct command *command_of(unsigned letter) {
    size_t i;
    for (i = 0; i < LENGTH(commands); i++)
        if ((unsigned char)commands[i].letter == letter) return &commands[i];
    return NULL;
}

/* Carries out the next command; answers whether there was one. At one that is not there, or not whole, it ends with E. */
static int carry_out_next(void) {
    static struct operands given;
    const struct command *command;
    unsigned letter;
    if (!read_octet(&letter)) return 0;
    command = command_of(letter);
    if (command != NULL && read_operands(command->operands, &given)) {
        command->carry_out(&given);
        return 1;
    }
    if (!ferror(stdin)) fputs("E\n", stdout);
    return 0;
}

static int fault(const char *what) {
    fprintf(stderr, "exercise: %s: %s\n", what, strerror(errno));
    return 1;
}

int main(void) {
    static char input[1 << 16], output[1 << 16];
    static const uint8_t no_marks[KUTA_MARKS] = {0};
    int status = 0;
    setvbuf(stdin, input, _IOFBF, sizeof input);
    setvbuf(stdout, output, _IOFBF, sizeof output);
    kuta_sender_open(sender, 0, KUTA_DEFAULT_WIDTH, KUTA_DEFAULT_LIMIT);
    kuta_pair_open(plain_sender, receiver, 0, KUTA_DEFAULT_WIDTH, KUTA_DEFAULT_LIMIT, 0, no_marks);
    kuta_receiver_open(receiver, 0, KUTA_DEFAULT_WIDTH, KUTA_DEFAULT_LIMIT, KUTA_PLAIN_OFF, 0);
    while (carry_out_next() && !ferror(stdout)) {
    }
    if (ferror(stdin)) status = fault("standard input: cannot be read");
    if (ferror(stdout) || fclose(stdout) != 0) status = fault("standard output: cannot be written");
    return status;
}
