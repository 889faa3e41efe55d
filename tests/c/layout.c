/* The layout of a link as C sees it is the one that the library has: every field gets a value of its own and is read back by its name there. */
#include <penguinjug.h>
#include <stdio.h>
#include <stdlib.h>
#include <string.h>

/* From the archive of crate capi_fields: the field of a number, in the header's order, then the octets of the gathering area. */
uint16_t pj_field(pj_link link, size_t number);

enum { FIELDS = 42, AREA = 279 };

static int failures;

static void expect(int holds, const char *what, size_t at) {
    if (!holds) {
        printf("layout: %s differs at %d\n", what, (int)at);
        failures++;
    }
}

/* A value of its own for each field: words above 255, so that a word read as an octet shows, and no two octets next to each other alike. */
static uint16_t word(size_t number) {
    return (uint16_t)(257 * number + 300);
}

static uint8_t octet(size_t number) {
    return (uint8_t)(number % 251 + 2);
}

static size_t place;
static uint16_t written[FIELDS + AREA];

static uint16_t put_word(void) {
    written[place] = word(place);
    return written[place++];
}

static uint8_t put_octet(void) {
    written[place] = octet(place);
    return (uint8_t)written[place++];
}

static void put_octets(uint8_t *area, size_t n) {
    size_t i;
    for (i = 0; i < n; i++) area[i] = put_octet();
}

static pj_link own_values(void) {
    pj_link l;
    l.settings.k = put_word();
    l.settings.m = put_word();
    l.settings.n = put_word();
    l.settings.t = put_word();
    l.settings.d = put_word();
    l.settings.a = put_word();
    put_octets(l.settings.mask, sizeof l.settings.mask);
    l.settings.filter = put_octet();
    l.settings.itu = put_octet();
    l.settings.orn = put_octet();
    l.counts.good = put_word();
    l.counts.over = put_word();
    l.counts.dropped = put_word();
    l.counts.lost = put_word();
    l.monitor.count = put_word();
    l.monitor.number = put_word();
    l.events = put_word();
    l.next = put_word();
    l.left = put_word();
    l.memory.length = put_word();
    put_octets(l.memory.octets, sizeof l.memory.octets);
    l.memory.alike = put_octet();
    l.line.bits = put_word();
    l.line.run = put_octet();
    l.line.hunting = put_octet();
    l.transmitter.flagged = put_octet();
    l.transmitter.count = put_octet();
    l.transmitter.wait = put_octet();
    l.transmitter.sent = put_octet();
    put_octets(l.transmitter.last, sizeof l.transmitter.last);
    l.opened = put_octet();
    l.counting = put_octet();
    l.mode = put_octet();
    put_octets(l.area, sizeof l.area);
    return l;
}

/* Every call that can refuse refuses this link as malformed and gives it back as it is. */
static void expect_given_back(pj_link given) {
    uint8_t pool[PJ_SLOT] = {0}, records[PJ_RECORDS] = {0}, output[PJ_OUTPUT] = {0}, octets[3] = {1, 2, 3};
    uint16_t words[2] = {0, 0};
    const uint8_t *unit;
    size_t n, length;
    pj_settings settings = pj_row_settings(1, 1);
    pj_link l = given;
    expect(pj_open(&l, &settings, pool, sizeof pool, words, 2) == 1 && memcmp(&l, &given, sizeof l) == 0, "open", 0);
    expect(pj_receive(&l, octets, 1, pool, sizeof pool, words, 2, records, sizeof records, &n) == 1 && memcmp(&l, &given, sizeof l) == 0 && n == 0, "receive", 0);
    expect(pj_receive_octets(&l, octets, 1, pool, sizeof pool, words, 2, records, sizeof records, &n) == 1 && memcmp(&l, &given, sizeof l) == 0 && n == 0,
           "receive_octets", 0);
    expect(pj_command(&l, 1) == 1 && memcmp(&l, &given, sizeof l) == 0, "command", 0);
    expect(pj_clear(&l, 1) == 1 && memcmp(&l, &given, sizeof l) == 0, "clear", 0);
    expect(pj_send(&l, octets, 3, output, sizeof output, &n) == 1 && memcmp(&l, &given, sizeof l) == 0 && n == 0, "send", 0);
    expect(pj_fill(&l, output, sizeof output, &n) == 1 && memcmp(&l, &given, sizeof l) == 0 && n == 0, "fill", 0);
    expect(pj_read_number(&l, pool, sizeof pool, words, 2, 0) == 1, "read_number", 0);
    expect(pj_read(&l, pool, sizeof pool, words, 2, 0, &unit, &length) == 1 && unit == NULL && length == 0, "read", 0);
    expect(pj_hand_back(&l, pool, sizeof pool, words, 2, 0) == 1 && memcmp(&l, &given, sizeof l) == 0, "hand_back", 0);
}

int main(void) {
    pj_link l = own_values();
    size_t i;
    expect(place == FIELDS + AREA, "the number of fields", place);
    expect(sizeof l == 338, "the size of a link", sizeof l);
    for (i = 0; i < FIELDS + AREA; i++) expect(pj_field(l, i) == written[i], "the field of a number", i);
    expect_given_back(l);
    if (failures == 0) printf("layout: %d fields and octets of a link are where the library has them\n", FIELDS + AREA);
    return failures == 0 ? EXIT_SUCCESS : EXIT_FAILURE;
}
