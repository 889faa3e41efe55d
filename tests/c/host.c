/* The C host of the comparison of hosts: reads a call list (tests/hosts.py says how it is written), makes each call, and writes all that it answers. */
#include <penguinjug.h>
#include <stdio.h>
#include <stdlib.h>
#include <string.h>

enum { POOL = 4608, DESC = 40, RECORDS = 49200, OUTPUT = 512, LINE = 1100 };

static pj_link board;
static uint8_t pool[POOL], records[RECORDS], output[OUTPUT], octets[LINE];
static uint16_t desc[DESC];
static long line_number;

/* The next word of a line, and the number that it is. */
static char *word(void) {
    char *w = strtok(NULL, " \n");
    if (!w) {
        fprintf(stderr, "host: line %ld can't be read\n", line_number);
        exit(EXIT_FAILURE);
    }
    return w;
}

static size_t number(size_t most) {
    size_t n = strtoul(word(), NULL, 10);
    if (n > most) {
        fprintf(stderr, "host: a number of line %ld is above %lu\n", line_number, (unsigned long)most);
        exit(EXIT_FAILURE);
    }
    return n;
}

static size_t hex(uint8_t *area, size_t most) {
    const char *w = word();
    char digits[3] = {0};
    size_t n = 0;
    for (; *w != '-' && *w && n < most; w += 2) {
        digits[0] = w[0];
        digits[1] = w[1];
        area[n++] = (uint8_t)strtoul(digits, NULL, 16);
    }
    return n;
}

static void put_hex(const void *area, size_t n) {
    static const char digits[] = "0123456789abcdef";
    const uint8_t *octet = (const uint8_t *)area;
    size_t i;
    putchar(' ');
    if (n == 0) putchar('-');
    for (i = 0; i < n; i++) {
        putchar(digits[octet[i] >> 4]);
        putchar(digits[octet[i] & 15]);
    }
}

/* Words low octet first, whatever the machine's order is. */
static void put_words(const uint16_t *area, size_t n) {
    uint8_t low_first[2 * DESC];
    size_t i;
    for (i = 0; i < n; i++) {
        low_first[2 * i] = (uint8_t)area[i];
        low_first[2 * i + 1] = (uint8_t)(area[i] >> 8);
    }
    put_hex(low_first, 2 * n);
}

static void answer(const char *call, int n, size_t count, const uint8_t *part, size_t length) {
    printf("%s %d %lu", call, n, (unsigned long)count);
    put_hex(part, length);
    put_hex(&board, sizeof board); /* fields low octet first, as they lie in memory where the library runs */
}

static void open_call(const char *call) {
    pj_settings s;
    size_t p, d;
    s.k = (uint16_t)number(65535);
    s.m = (uint16_t)number(65535);
    s.n = (uint16_t)number(65535);
    s.t = (uint16_t)number(65535);
    s.d = (uint16_t)number(65535);
    s.a = (uint16_t)number(65535);
    hex(s.mask, sizeof s.mask);
    s.filter = (uint8_t)number(255);
    s.itu = (uint8_t)number(255);
    s.orn = (uint8_t)number(255);
    p = number(POOL);
    d = number(DESC);
    answer(call, pj_open(&board, &s, pool, p, desc, d), 0, NULL, 0);
    put_hex(pool, p);
    put_words(desc, d);
}

static void wipe_call(const char *call) {
    size_t p = number(POOL), d = number(DESC);
    pj_wipe(&board, pool, p, desc, d);
    answer(call, 0, 0, NULL, 0);
    put_hex(pool, p);
    put_words(desc, d);
}

static void receive_call(const char *call) {
    size_t p = number(POOL), d = number(DESC), room = number(RECORDS), n = hex(octets, LINE), count;
    int refused = strcmp(call, "receive") == 0 ? pj_receive(&board, octets, n, pool, p, desc, d, records, room, &count)
                                               : pj_receive_octets(&board, octets, n, pool, p, desc, d, records, room, &count);
    answer(call, refused, count, NULL, 0);
    put_hex(pool, p);
    put_words(desc, d);
    put_hex(records, room);
}

static void send_call(const char *call) {
    size_t room = number(OUTPUT), n, count;
    int refused;
    if (strcmp(call, "send") == 0) {
        n = hex(octets, LINE);
        refused = pj_send(&board, octets, n, output, room, &count);
    } else {
        refused = pj_fill(&board, output, room, &count);
    }
    answer(call, refused, count, NULL, 0);
    put_hex(output, room);
}

static void slot_call(const char *call) {
    size_t p = number(POOL), d = number(DESC), length = 0;
    uint16_t slot = (uint16_t)number(65535);
    const uint8_t *unit = NULL;
    int refused = strcmp(call, "number") == 0 ? pj_read_number(&board, pool, p, desc, d, slot)
                  : strcmp(call, "read") == 0 ? pj_read(&board, pool, p, desc, d, slot, &unit, &length)
                                              : pj_hand_back(&board, pool, p, desc, d, slot);
    answer(call, refused, 0, unit, length);
    put_hex(pool, p);
    put_words(desc, d);
}

static void row_call(const char *call) {
    pj_row r = pj_row_value((uint16_t)number(65535));
    printf("%s 0 0 %d,%d,%d,%d,%d", call, r.m, r.n, r.t, r.d, r.a);
    put_hex(&board, sizeof board);
}

/* An octet of the link or the pool, or a descriptor word, as a host with a fault would write it. */
static void write_call(const char *call) {
    size_t i = number(65535);
    uint16_t v = (uint16_t)number(65535);
    if (strcmp(call, "link") == 0 && i < sizeof board) ((uint8_t *)&board)[i] = (uint8_t)v;
    if (strcmp(call, "pool") == 0 && i < POOL) pool[i] = (uint8_t)v;
    if (strcmp(call, "desc") == 0 && i < DESC) desc[i] = v;
    answer(call, 0, 0, NULL, 0);
}

static void make_call(const char *call) {
    if (strcmp(call, "open") == 0) open_call(call);
    else if (strcmp(call, "wipe") == 0) wipe_call(call);
    else if (strcmp(call, "receive") == 0 || strcmp(call, "octets") == 0) receive_call(call);
    else if (strcmp(call, "command") == 0) answer(call, pj_command(&board, (uint16_t)number(65535)), 0, NULL, 0);
    else if (strcmp(call, "clear") == 0) answer(call, pj_clear(&board, (uint16_t)number(65535)), 0, NULL, 0);
    else if (strcmp(call, "send") == 0 || strcmp(call, "fill") == 0) send_call(call);
    else if (strcmp(call, "row") == 0) row_call(call);
    else if (strcmp(call, "link") == 0 || strcmp(call, "pool") == 0 || strcmp(call, "desc") == 0) write_call(call);
    else slot_call(call);
    putchar('\n');
}

int main(void) {
    static char line[2 * LINE + 100];
    pj_new(&board);
    while (fgets(line, sizeof line, stdin)) {
        char *call = strtok(line, " \n");
        line_number++;
        if (call) make_call(call);
    }
    return EXIT_SUCCESS;
}
