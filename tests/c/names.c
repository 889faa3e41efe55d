/* The names of the header mean what the library does: the limits as it has them, and each refusal, command, mode, status, event bit and record kind where a call shows it. */
#include <penguinjug.h>
#include <stdio.h>
#include <stdlib.h>
#include <string.h>

enum { SLOTS = 2, WORDS = 2 * SLOTS, POOL = PJ_SLOT * SLOTS };

static int tests, failures;

static void expect(int holds, const char *name) {
    tests++;
    if (!holds) {
        printf("names: %s is not what the library has\n", name);
        failures++;
    }
}

#define EQUAL(name, value) expect((size_t)(name) == (size_t)(value), #name)

static void limits(void) {
    pj_limits l = pj_limits_value();
    EQUAL(PJ_SLOT, l.sizes.slot);
    EQUAL(PJ_LEAST_SLOTS, l.sizes.slots.least);
    EQUAL(PJ_MOST_SLOTS, l.sizes.slots.most);
    EQUAL(PJ_LEAST_LONGEST, l.sizes.longest.least);
    EQUAL(PJ_MOST_LONGEST, l.sizes.longest.most);
    EQUAL(PJ_LEAST_COUNT, l.sizes.counts.least);
    EQUAL(PJ_MOST_COUNT, l.sizes.counts.most);
    EQUAL(PJ_MOST_LINE, l.sizes.line);
    EQUAL(PJ_RECORD, l.sizes.record);
    EQUAL(PJ_RECORDS, l.sizes.records);
    EQUAL(PJ_OUTPUT, l.sizes.output);
    EQUAL(PJ_LEAST_CONTENT, l.sizes.content.least);
    EQUAL(PJ_MOST_CONTENT, l.sizes.content.most);
    EQUAL(PJ_STATUS_EMPTY, l.statuses.empty);
    EQUAL(PJ_STATUS_GOOD, l.statuses.good);
    EQUAL(PJ_STATUS_CHECK_WRONG, l.statuses.check_wrong);
    EQUAL(PJ_STATUS_NOT_WHOLE, l.statuses.not_whole);
    EQUAL(PJ_EVENT_OVER, l.events.over);
    EQUAL(PJ_EVENT_BUSY, l.events.busy);
    EQUAL(PJ_EVENT_SUER, l.events.suer);
    EQUAL(PJ_EVENT_AERM, l.events.aerm);
    EQUAL(PJ_EVENT_OCTET, l.events.octet);
    EQUAL(PJ_EVENT_ABORT, l.events.abort);
    EQUAL(PJ_EVENT_LONG, l.events.long_unit);
    EQUAL(PJ_EVENT_SENT, l.events.sent);
    EQUAL(PJ_EVENT_FILL, l.events.fill);
}

/* A board whose memory the tests may spoil. */
static pj_link link_;
static uint8_t pool[POOL];
static uint16_t descriptors[WORDS];
static uint8_t records[PJ_RECORDS * (PJ_MOST_LINE + 1)];
static size_t count;

static int open_with(const pj_settings *settings) {
    pj_wipe(&link_, pool, sizeof pool, descriptors, WORDS);
    return pj_open(&link_, settings, pool, sizeof pool, descriptors, WORDS);
}

static int receive(const uint8_t *line, size_t n) {
    return pj_receive(&link_, line, n, pool, sizeof pool, descriptors, WORDS, records, sizeof records, &count);
}

static void refusals(void) {
    static const uint8_t line[PJ_MOST_LINE + 1] = {0};
    uint8_t output[PJ_OUTPUT];
    const uint8_t *unit;
    size_t length;
    pj_settings row = pj_row_settings(1, SLOTS), bad = row;
    pj_new(&link_);
    EQUAL(PJ_LINK_CLOSED, pj_command(&link_, PJ_MONITOR_OFF));
    bad.k = 0;
    EQUAL(PJ_SETTING_OUT_OF_RANGE, open_with(&bad));
    bad = row;
    bad.orn = 2;
    EQUAL(PJ_SETTING_OUT_OF_RANGE, open_with(&bad));
    pool[POOL - 1] = 1;
    EQUAL(PJ_MEMORY_NOT_ZERO, pj_open(&link_, &row, pool, sizeof pool, descriptors, WORDS));
    EQUAL(PJ_MEMORY_SIZE, pj_open(&link_, &row, pool, sizeof pool - 1, descriptors, WORDS));
    EQUAL(PJ_DONE, open_with(&row));
    EQUAL(PJ_LINK_OPEN, pj_open(&link_, &row, pool, sizeof pool, descriptors, WORDS));
    EQUAL(PJ_LINE_TOO_LONG, receive(line, PJ_MOST_LINE + 1));
    EQUAL(PJ_DONE, receive(line, PJ_MOST_LINE));
    EQUAL(PJ_RECORDS_TOO_SMALL, pj_receive(&link_, line, 2, pool, sizeof pool, descriptors, WORDS, records, 2 * PJ_RECORDS - 1, &count));
    EQUAL(PJ_OUTPUT_TOO_SMALL, pj_fill(&link_, output, PJ_OUTPUT - 1, &count));
    EQUAL(PJ_CONTENT_LENGTH, pj_send(&link_, line, PJ_LEAST_CONTENT - 1, output, sizeof output, &count));
    EQUAL(PJ_CONTENT_LENGTH, pj_send(&link_, line, PJ_MOST_CONTENT + 1, output, sizeof output, &count));
    EQUAL(PJ_COMMAND_UNKNOWN, pj_command(&link_, 0));
    EQUAL(PJ_COMMAND_UNKNOWN, pj_command(&link_, PJ_COUNT_OCTETS + 1));
    EQUAL(PJ_NO_SUCH_SLOT, pj_read(&link_, pool, sizeof pool, descriptors, WORDS, SLOTS, &unit, &length));
    EQUAL(PJ_SLOT_NOT_FILLED, pj_read(&link_, pool, sizeof pool, descriptors, WORDS, 0, &unit, &length));
    EQUAL(PJ_SLOT_NOT_FILLED, pj_hand_back(&link_, pool, sizeof pool, descriptors, WORDS, 0));
    link_.mode = PJ_MODE_IDLE + 1;
    EQUAL(PJ_LINK_MALFORMED, pj_clear(&link_, 0));
}

static void commands(void) {
    pj_settings row = pj_row_settings(1, SLOTS);
    open_with(&row);
    EQUAL(PJ_MODE_OFF, link_.mode);
    pj_command(&link_, PJ_START_FAILURE);
    EQUAL(PJ_MODE_FAILURE, link_.mode);
    pj_command(&link_, PJ_START_ALIGNMENT);
    EQUAL(PJ_MODE_ALIGNMENT, link_.mode);
    pj_command(&link_, PJ_MONITOR_OFF);
    EQUAL(PJ_MODE_OFF, link_.mode);
    pj_command(&link_, PJ_COUNT_OCTETS);
    expect(link_.counting == 1, "PJ_COUNT_OCTETS");
    link_.memory.length = 5;
    pj_command(&link_, PJ_MUST_HAND_OVER);
    expect(link_.memory.length == 0, "PJ_MUST_HAND_OVER");
}

/* Line octets whose last record is of one kind, with the event bit that goes with it. */
static void shows(const char *name, const pj_settings *settings, const char *line, size_t n, int kind, unsigned event) {
    open_with(settings);
    expect(receive((const uint8_t *)line, n) == PJ_DONE && count > 0 && pj_record_at(records, count - 1).kind == kind && (link_.events & event) == event, name);
}

static void kinds(void) {
    /* the fill-in unit 00 00 00 with its check octets, between flags */
    static const char one[] = "\x7e\0\0\0\xcc\xc6\x7e", three[] = "\x7e\0\0\0\xcc\xc6\x7e\0\0\0\xcc\xc6\x7e\0\0\0\xcc\xc6\x7e";
    static char zeros[PJ_MOST_LINE] = "\x7e";
    pj_settings row = pj_row_settings(1, SLOTS), filter = row;
    filter.filter = 1;
    shows("PJ_KIND_OVER", &row, one, sizeof one - 1, PJ_KIND_OVER, PJ_EVENT_OVER);
    EQUAL(PJ_STATUS_GOOD, descriptors[0]);
    EQUAL(PJ_STATUS_EMPTY, descriptors[2]);
    shows("PJ_KIND_DROPPED", &filter, three, sizeof three - 1, PJ_KIND_DROPPED, PJ_EVENT_OVER);
    shows("PJ_KIND_LOST", &row, three, sizeof three - 1, PJ_KIND_LOST, PJ_EVENT_BUSY);
    shows("PJ_KIND_CHECK_WRONG", &row, "\x7e\0\0\0\0\0\x7e", 7, PJ_KIND_CHECK_WRONG, PJ_EVENT_OVER);
    EQUAL(PJ_STATUS_CHECK_WRONG, descriptors[0]);
    /* 41 bits between flags: the second flag begins one bit late */
    shows("PJ_KIND_NOT_WHOLE", &row, "\x7e\0\0\0\0\0\xfc\0", 8, PJ_KIND_NOT_WHOLE, PJ_EVENT_OVER);
    EQUAL(PJ_STATUS_NOT_WHOLE, descriptors[0]);
    shows("PJ_KIND_SHORT", &row, "\x7e\0\0\0\x7e", 5, PJ_KIND_SHORT, 0);
    shows("PJ_KIND_LONG", &row, zeros, sizeof zeros, PJ_KIND_LONG, PJ_EVENT_LONG);
    shows("PJ_KIND_ABORT", &row, "\x7e\xff", 2, PJ_KIND_ABORT, PJ_EVENT_ABORT);
    row.itu = 1;
    shows("PJ_KIND_TICK", &row, "\x7e\xff\0\0\0\0\0\0\0\0\0\0\0\0\0\0", 16, PJ_KIND_TICK, PJ_EVENT_OCTET);
}

/* T = 1 and A = 1: the first errored event is the alarm. */
static void alarm(const char *name, uint16_t command, unsigned event) {
    pj_settings settings = pj_row_settings(2, SLOTS);
    settings.t = 1;
    open_with(&settings);
    pj_command(&link_, command);
    expect(receive((const uint8_t *)"\x7e\0\0\0\0\0\x7e", 7) == PJ_DONE && count == 1 && pj_record_at(records, 0).alarm == 1 && (link_.events & event) == event,
           name);
    EQUAL(PJ_MODE_IDLE, link_.mode);
    expect(pj_clear(&link_, (uint16_t)event) == PJ_DONE && (link_.events & event) == 0, "clear");
}

static void sending(void) {
    static const uint8_t content[3] = {0x1f, 2, 3}, sent[] = {0x7e, 0x1f, 0x04, 0x06, 0x6a, 0x11, 0xfc};
    pj_settings row = pj_row_settings(1, SLOTS);
    uint8_t output[PJ_OUTPUT];
    open_with(&row);
    expect(pj_send(&link_, content, 3, output, sizeof output, &count) == PJ_DONE && count == sizeof sent && memcmp(output, sent, sizeof sent) == 0, "send");
    EQUAL(PJ_EVENT_SENT, link_.events);
    expect(pj_fill(&link_, output, sizeof output, &count) == PJ_DONE && count == 6, "fill");
    EQUAL(PJ_EVENT_SENT | PJ_EVENT_FILL, link_.events);
}

/* Areas of no octets may be given as NULL. */
static void nothing(void) {
    const uint8_t *unit;
    size_t length;
    pj_wipe(&link_, NULL, 0, NULL, 0);
    EQUAL(PJ_LINK_CLOSED, pj_receive(&link_, NULL, 0, NULL, 0, NULL, 0, NULL, 0, &count));
    EQUAL(PJ_LINK_CLOSED, pj_read(&link_, NULL, 0, NULL, 0, 0, &unit, &length));
    EQUAL(PJ_LINK_CLOSED, pj_send(&link_, NULL, 0, NULL, 0, &count));
}

int main(void) {
    limits();
    refusals();
    commands();
    kinds();
    alarm("PJ_EVENT_SUER", PJ_START_FAILURE, PJ_EVENT_SUER);
    alarm("PJ_EVENT_AERM", PJ_START_ALIGNMENT, PJ_EVENT_AERM);
    sending();
    nothing();
    if (failures == 0) printf("names: %d uses of the header's names show what the library does\n", tests);
    return failures == 0 ? EXIT_SUCCESS : EXIT_FAILURE;
}
