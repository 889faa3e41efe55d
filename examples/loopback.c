/* A loop-back bench: what one board sends, the other receives. The receiving board drops repeats of the fill-in unit. */
#include <penguinjug.h>
#include <stdio.h>

enum { SLOTS = 4, WORDS = 2 * SLOTS };

typedef struct {
    pj_link link;
    uint8_t pool[PJ_SLOT * SLOTS];
    uint16_t descriptors[WORDS];
} board;

static int book(board *b, uint8_t filter) {
    pj_settings settings = pj_row_settings(1, SLOTS);
    settings.filter = filter;
    pj_wipe(&b->link, b->pool, sizeof b->pool, b->descriptors, WORDS);
    return pj_open(&b->link, &settings, b->pool, sizeof b->pool, b->descriptors, WORDS);
}

/* Feeds line octets, prints what came of them, and hands each unit's slot back. */
static int take(board *b, const uint8_t *line, size_t n) {
    static uint8_t records[PJ_RECORDS * PJ_OUTPUT];
    uint16_t slot = b->link.next;
    const uint8_t *unit;
    size_t count, length, i, j;
    int number = pj_receive(&b->link, line, n, b->pool, sizeof b->pool, b->descriptors, WORDS, records, sizeof records, &count);
    for (i = 0; i < count && number == PJ_DONE; i++) {
        if (pj_record_at(records, i).kind == PJ_KIND_DROPPED) {
            puts("dropped");
        } else if ((number = pj_read(&b->link, b->pool, sizeof b->pool, b->descriptors, WORDS, slot, &unit, &length)) == PJ_DONE) {
            printf("slot %d:", slot);
            for (j = 0; j < length; j++) printf(" %02x", unit[j]);
            puts("");
            number = pj_hand_back(&b->link, b->pool, sizeof b->pool, b->descriptors, WORDS, slot);
            slot = (uint16_t)((slot + 1) % SLOTS);
        }
    }
    return number;
}

int main(void) {
    static const uint8_t message[] = {0x80, 0x81, 0x05, 0xc5, 0x11, 0x40, 0x04, 0x00};
    static board sender, receiver;
    uint8_t line[PJ_OUTPUT];
    size_t n;
    int i, number = book(&sender, 0);
    if (number == PJ_DONE) number = book(&receiver, 1);
    for (i = 0; i < 7 && number == PJ_DONE; i++) {
        number = i % 3 == 0 ? pj_send(&sender.link, message, sizeof message, line, sizeof line, &n) : pj_fill(&sender.link, line, sizeof line, &n);
        if (number == PJ_DONE) number = take(&receiver, line, n);
    }
    printf("good %d, handed over %d, dropped %d, lost %d; %s\n", receiver.link.counts.good, receiver.link.counts.over, receiver.link.counts.dropped,
           receiver.link.counts.lost, pj_refusal(number));
    pj_wipe(&sender.link, sender.pool, sizeof sender.pool, sender.descriptors, WORDS);
    pj_wipe(&receiver.link, receiver.pool, sizeof receiver.pool, receiver.descriptors, WORDS);
    return number;
}
