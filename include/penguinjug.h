/* Penguinjug: one emulated SS7 signalling board, a link whose every call is proved to meet its contract.
 *
 * The link is a value: a call takes it and gives it back, and keeps nothing of the memory that it is lent. There are
 * two shapes of each call:
 *   - pj_receive(&link, ..): returns the number, 0 or that of a refusal, and stores the link back;
 *   - pj_receive_value(link, ..): the same by value, the function that is proved. The first shape calls it.
 *
 * No call asks that a link, a number or what stands in lent memory is right: each ends on every value of them, with the
 * answer that is said here. What a host owes is this, and no more:
 *   - each pointer is that of an area of as many elements as the length beside it says; it may be NULL where that length
 *     is 0 (not for the functions .._value);
 *   - an area that a call writes to overlaps neither the link nor another area lent to that call;
 *   - no other thread writes to a lent area or to the link during a call.
 * Links with areas of their own can be used by many threads at once: there is no hidden state.
 *
 * A refused call gives its number, the link as given and 0 for every other number, and changes no lent octet or word.
 * Faults are looked for in rising number. A link with a mode or a switch that is none (see pj_link) is refused as
 * malformed, 1; settings with a switch that is none are out of range, 4. */
#ifndef PENGUINJUG_H
#define PENGUINJUG_H

#include <stddef.h>
#include <stdint.h>

#ifdef __cplusplus
extern "C" {
#endif

/* Refusal numbers. */
#define PJ_DONE 0                 /* not refused */
#define PJ_LINK_MALFORMED 1       /* all calls but wipe */
#define PJ_LINK_CLOSED 2          /* all but open, wipe */
#define PJ_LINK_OPEN 3            /* open */
#define PJ_SETTING_OUT_OF_RANGE 4 /* open */
#define PJ_MEMORY_SIZE 5          /* pool not 280K octets or descriptors not 2K words: open, receive, read, hand back */
#define PJ_MEMORY_NOT_ZERO 6      /* open */
#define PJ_LINE_TOO_LONG 7        /* more than 1,024 line octets: receive */
#define PJ_RECORDS_TOO_SMALL 8    /* under 48 octets for each line octet: receive */
#define PJ_OUTPUT_TOO_SMALL 9     /* under 336 octets: send, fill */
#define PJ_CONTENT_LENGTH 10      /* not 3 to 276 octets: send */
#define PJ_COMMAND_UNKNOWN 11     /* command */
#define PJ_NO_SUCH_SLOT 12        /* K or more: read, hand back */
#define PJ_SLOT_NOT_FILLED 13     /* status not 0, 1 or 2, or length over 278: read, hand back */

/* Sizes in octets, and limits. */
#define PJ_SLOT 280            /* a slot of the pool */
#define PJ_LEAST_SLOTS 1       /* K */
#define PJ_MOST_SLOTS 16
#define PJ_LEAST_LONGEST 7     /* M, check octets included */
#define PJ_MOST_LONGEST 278
#define PJ_LEAST_COUNT 1       /* N, T, D and A */
#define PJ_MOST_COUNT 1024
#define PJ_MOST_LINE 1024      /* line octets of one receive */
#define PJ_RECORD 16           /* a record */
#define PJ_RECORDS 48          /* room for the records of one line octet */
#define PJ_OUTPUT 336          /* an output area, at least */
#define PJ_LEAST_CONTENT 3
#define PJ_MOST_CONTENT 276

/* A descriptor is two words: status, then length. */
#define PJ_STATUS_EMPTY 32768
#define PJ_STATUS_GOOD 0
#define PJ_STATUS_CHECK_WRONG 1
#define PJ_STATUS_NOT_WHOLE 2

/* Event bits, kept until cleared. */
#define PJ_EVENT_OVER 1    /* a unit was handed over, also an errored one */
#define PJ_EVENT_BUSY 2    /* BSY: a unit was lost, since the next slot was not empty */
#define PJ_EVENT_SUER 4    /* the failure monitor's alarm */
#define PJ_EVENT_AERM 8    /* the alignment monitor's alarm */
#define PJ_EVENT_OCTET 16  /* OCT: an octet tick in octet counting */
#define PJ_EVENT_ABORT 32  /* an abort was found */
#define PJ_EVENT_LONG 64   /* a long unit was found */
#define PJ_EVENT_SENT 128  /* content was sent */
#define PJ_EVENT_FILL 256  /* a fill-in unit was sent */

/* Commands. */
#define PJ_MONITOR_OFF 1     /* its counts stay */
#define PJ_START_FAILURE 2   /* SUERM, both counts zero */
#define PJ_START_ALIGNMENT 3 /* AERM, both counts zero */
#define PJ_MUST_HAND_OVER 4  /* the next unit: empties the filter's memory */
#define PJ_COUNT_OCTETS 5    /* enter octet counting */

/* The monitor's mode. */
#define PJ_MODE_OFF 0
#define PJ_MODE_FAILURE 1
#define PJ_MODE_ALIGNMENT 2
#define PJ_MODE_IDLE 3 /* where an alarm leaves it */

/* Kinds of records. */
#define PJ_KIND_OVER 0
#define PJ_KIND_DROPPED 1
#define PJ_KIND_LOST 2 /* good, but lost for want of a slot */
#define PJ_KIND_CHECK_WRONG 3
#define PJ_KIND_NOT_WHOLE 4
#define PJ_KIND_SHORT 5
#define PJ_KIND_LONG 6
#define PJ_KIND_ABORT 7
#define PJ_KIND_TICK 8 /* octet tick while counting */

/* What a booking says. A switch is 0, off, or 1, on. */
typedef struct pj_settings {
    uint16_t k;      /* slots, 1 to 16 */
    uint16_t m;      /* longest unit, 7 to 278 octets, check octets included */
    uint16_t n;      /* octets of an octet tick, 1 to 1,024 */
    uint16_t t;      /* threshold of the failure monitor, 1 to 1,024 */
    uint16_t d;      /* its decay, 1 to 1,024: each D-th event lowers the count */
    uint16_t a;      /* threshold of the alignment monitor, 1 to 1,024 */
    uint8_t mask[5]; /* a one: this bit of a unit's first five octets is compared by the filter */
    uint8_t filter;  /* repeats are dropped */
    uint8_t itu;     /* a long unit or an abort begins octet counting */
    uint8_t orn;     /* a lost unit begins octet counting */
} pj_settings;

/* Good units, and of those the units handed over, dropped and lost. Each goes round to 0 after 65,535. */
typedef struct pj_counts {
    uint16_t good;
    uint16_t over;
    uint16_t dropped;
    uint16_t lost;
} pj_counts;

/* The monitor's count and event number. */
typedef struct pj_monitor {
    uint16_t count;
    uint16_t number;
} pj_monitor;

/* What the filter remembers: a unit's length, 0 for none; its first octets under the mask; whether the unit before it
 * was like it (0 or 1). */
typedef struct pj_memory {
    uint16_t length;
    uint8_t octets[5];
    uint8_t alike;
} pj_memory;

/* The receiver: gathered bits, the run of ones, whether it hunts for a flag (0 or 1). */
typedef struct pj_line {
    uint16_t bits;
    uint8_t run;
    uint8_t hunting;
} pj_line;

/* The sender between calls: whether a flag has gone (0 or 1), how many bits wait and the octet that holds them, whether
 * content was sent (0 or 1) and its first two octets. */
typedef struct pj_transmitter {
    uint8_t flagged;
    uint8_t count;
    uint8_t wait;
    uint8_t sent;
    uint8_t last[2];
} pj_transmitter;

/* The link: 338 octets, none of them padding, so links can be copied by assignment and compared by memcmp. A host may
 * read every field and need write none. */
typedef struct pj_link {
    pj_settings settings;
    pj_counts counts;
    pj_monitor monitor;
    uint16_t events; /* event bits */
    uint16_t next;   /* the slot that the next unit goes to */
    uint16_t left;   /* N's counter */
    pj_memory memory;
    pj_line line;
    pj_transmitter transmitter;
    uint8_t opened;    /* 0 or 1 */
    uint8_t counting;  /* octet counting: 0 or 1 */
    uint8_t mode;      /* the monitor's mode, PJ_MODE_.. */
    uint8_t area[279]; /* the gathered bits */
} pj_link;

/* What the functions by value answer: the number, the link, and how many records were written or octets put out. */
typedef struct pj_answer {
    pj_link link;
    uint8_t number;
} pj_answer;

typedef struct pj_counted {
    size_t count;
    pj_link link;
    uint8_t number;
} pj_counted;

/* The part of the pool that holds a unit. */
typedef struct pj_part {
    size_t offset;
    size_t length;
    uint8_t number;
} pj_part;

/* The numbers of a row of settings. */
typedef struct pj_row {
    uint16_t m;
    uint16_t n;
    uint16_t t;
    uint16_t d;
    uint16_t a;
} pj_row;

/* The limits above as the library has them. */
typedef struct pj_range {
    size_t least;
    size_t most;
} pj_range;

typedef struct pj_sizes {
    size_t slot;
    pj_range slots;
    pj_range longest;
    pj_range counts;
    size_t line;
    size_t record;
    size_t records;
    size_t output;
    pj_range content;
} pj_sizes;

typedef struct pj_statuses {
    uint16_t empty;
    uint16_t good;
    uint16_t check_wrong;
    uint16_t not_whole;
} pj_statuses;

typedef struct pj_events {
    uint16_t over;
    uint16_t busy;
    uint16_t suer;
    uint16_t aerm;
    uint16_t octet;
    uint16_t abort;
    uint16_t long_unit; /* `long` is a word of C */
    uint16_t sent;
    uint16_t fill;
} pj_events;

typedef struct pj_limits {
    pj_sizes sizes;
    pj_statuses statuses;
    pj_events events;
} pj_limits;

/* The functions that are proved, by value. Each gives exactly what the call of its name below gives; no pointer may be
 * NULL. */
pj_link pj_new_value(void);
pj_answer pj_open_value(pj_link link, pj_settings settings, uint8_t *pool, size_t octets, uint16_t *descriptors,
                        size_t words);
pj_link pj_wipe_value(uint8_t *pool, size_t octets, uint16_t *descriptors, size_t words);
pj_counted pj_receive_value(pj_link link, const uint8_t *line, size_t n, uint8_t *pool, size_t octets,
                            uint16_t *descriptors, size_t words, uint8_t *records, size_t room);
pj_counted pj_receive_octets_value(pj_link link, const uint8_t *line, size_t n, uint8_t *pool, size_t octets,
                                   uint16_t *descriptors, size_t words, uint8_t *records, size_t room);
pj_answer pj_command_value(pj_link link, uint16_t command);
pj_answer pj_clear_value(pj_link link, uint16_t chosen);
pj_counted pj_send_value(pj_link link, const uint8_t *content, size_t n, uint8_t *output, size_t room);
pj_counted pj_fill_value(pj_link link, uint8_t *output, size_t room);
uint8_t pj_read_number_value(pj_link link, const uint8_t *pool, size_t octets, const uint16_t *descriptors,
                             size_t words, uint16_t slot);
pj_part pj_read_value(pj_link link, const uint8_t *pool, size_t octets, const uint16_t *descriptors, size_t words,
                      uint16_t slot);
pj_answer pj_hand_back_value(pj_link link, uint8_t *pool, size_t octets, uint16_t *descriptors, size_t words,
                             uint16_t slot);
pj_row pj_row_value(uint16_t number);
pj_limits pj_limits_value(void);

/* An area of no octets or words needs an address all the same. */
static inline uint8_t *pj_octets(uint8_t *area) {
    static uint8_t none[1];
    return area ? area : none;
}

static inline const uint8_t *pj_const_octets(const uint8_t *area) {
    static const uint8_t none[1] = {0};
    return area ? area : none;
}

static inline uint16_t *pj_words(uint16_t *area) {
    static uint16_t none[1];
    return area ? area : none;
}

static inline const uint16_t *pj_const_words(const uint16_t *area) {
    static const uint16_t none[1] = {0};
    return area ? area : none;
}

/* The new link, which is closed. */
static inline void pj_new(pj_link *link) {
    *link = pj_new_value();
}

/* The settings of a row, 1 normal, 2 emergency, 3 short and normal, 4 short and emergency, with k slots, the mask all
 * ones and the switches off. Any other row gives numbers that open refuses with 4. */
static inline pj_settings pj_row_settings(uint16_t row, uint16_t k) {
    pj_row r = pj_row_value(row);
    pj_settings s;
    s.k = k;
    s.m = r.m;
    s.n = r.n;
    s.t = r.t;
    s.d = r.d;
    s.a = r.a;
    s.mask[0] = s.mask[1] = s.mask[2] = s.mask[3] = s.mask[4] = 255;
    s.filter = s.itu = s.orn = 0;
    return s;
}

/* Opens a booking on a closed link, over memory that is all zero: 280K octets and 2K words. All slots are then empty,
 * the monitor is off, all counts are zero. Refused with 1, 3, 4, 5, 6. */
static inline int pj_open(pj_link *link, const pj_settings *settings, uint8_t *pool, size_t octets,
                          uint16_t *descriptors, size_t words) {
    pj_answer answer = pj_open_value(*link, *settings, pj_octets(pool), octets, pj_words(descriptors), words);
    *link = answer.link;
    return answer.number;
}

/* The wipe between bookings: zeroes all of both areas, whatever their lengths, and makes the link the new closed one.
 * Never refused. */
static inline void pj_wipe(pj_link *link, uint8_t *pool, size_t octets, uint16_t *descriptors, size_t words) {
    *link = pj_wipe_value(pj_octets(pool), octets, pj_words(descriptors), words);
}

/* Takes up to 1,024 line octets in, lowest bit first, bit by bit. Units go to slots, and *count records of 16 octets are
 * written to the front of the record area, which has at least 48 octets for each line octet; the rest of it is
 * unchanged. Refused with 1, 2, 5, 7, 8. */
static inline int pj_receive(pj_link *link, const uint8_t *line, size_t n, uint8_t *pool, size_t octets,
                             uint16_t *descriptors, size_t words, uint8_t *records, size_t room, size_t *count) {
    pj_counted answer = pj_receive_value(*link, pj_const_octets(line), n, pj_octets(pool), octets,
                                         pj_words(descriptors), words, pj_octets(records), room);
    *link = answer.link;
    *count = answer.count;
    return answer.number;
}

/* The same by whole octets: proved to give the same answer on every input, faster from about 16 octets a call on. */
static inline int pj_receive_octets(pj_link *link, const uint8_t *line, size_t n, uint8_t *pool, size_t octets,
                                    uint16_t *descriptors, size_t words, uint8_t *records, size_t room, size_t *count) {
    pj_counted answer = pj_receive_octets_value(*link, pj_const_octets(line), n, pj_octets(pool), octets,
                                                pj_words(descriptors), words, pj_octets(records), room);
    *link = answer.link;
    *count = answer.count;
    return answer.number;
}

/* One of the commands above. Refused with 1, 2, 11. */
static inline int pj_command(pj_link *link, uint16_t command) {
    pj_answer answer = pj_command_value(*link, command);
    *link = answer.link;
    return answer.number;
}

/* Clears the event bits that are ones in `chosen`; bits that are not set are no fault. Refused with 1, 2. */
static inline int pj_clear(pj_link *link, uint16_t chosen) {
    pj_answer answer = pj_clear_value(*link, chosen);
    *link = answer.link;
    return answer.number;
}

/* Sends 3 to 276 octets of content with their check octets as a unit, a flag behind it and, at the first output of a
 * booking, a flag before it. *count whole octets are written to the front of the output area, of at least 336 octets;
 * the rest of it is unchanged, and up to seven bits wait in the link. Refused with 1, 2, 9, 10. */
static inline int pj_send(pj_link *link, const uint8_t *content, size_t n, uint8_t *output, size_t room, size_t *count) {
    pj_counted answer = pj_send_value(*link, pj_const_octets(content), n, pj_octets(output), room);
    *link = answer.link;
    *count = answer.count;
    return answer.number;
}

/* Sends the fill-in unit of the last content sent; before any content, one flag. The rest as in send. Refused with 1,
 * 2, 9. */
static inline int pj_fill(pj_link *link, uint8_t *output, size_t room, size_t *count) {
    pj_counted answer = pj_fill_value(*link, pj_octets(output), room);
    *link = answer.link;
    *count = answer.count;
    return answer.number;
}

/* The number that read and hand back would answer. */
static inline int pj_read_number(const pj_link *link, const uint8_t *pool, size_t octets, const uint16_t *descriptors,
                                 size_t words, uint16_t slot) {
    return pj_read_number_value(*link, pj_const_octets(pool), octets, pj_const_words(descriptors), words, slot);
}

/* The unit in a slot, check octets included: *unit points into the pool, *length says how many octets. NULL and 0 where
 * refused: 1, 2, 5, 12, 13. */
static inline int pj_read(const pj_link *link, const uint8_t *pool, size_t octets, const uint16_t *descriptors,
                          size_t words, uint16_t slot, const uint8_t **unit, size_t *length) {
    pj_part part = pj_read_value(*link, pj_const_octets(pool), octets, pj_const_words(descriptors), words, slot);
    *unit = part.number == PJ_DONE ? pool + part.offset : NULL;
    *length = part.length;
    return part.number;
}

/* Gives a slot back: its octets and length zero, its status empty. Refused with 1, 2, 5, 12, 13. */
static inline int pj_hand_back(pj_link *link, uint8_t *pool, size_t octets, uint16_t *descriptors, size_t words,
                               uint16_t slot) {
    pj_answer answer = pj_hand_back_value(*link, pj_octets(pool), octets, pj_words(descriptors), words, slot);
    *link = answer.link;
    return answer.number;
}

/* A record, taken apart. */
typedef struct pj_record {
    uint8_t kind;      /* PJ_KIND_.. */
    uint8_t lost;      /* 1: lost for want of a slot; always for PJ_KIND_LOST, else only where errored, kinds 3 and 4 */
    uint16_t length;   /* whole octets of the unit, check octets included; 0 for kinds 6 to 8 */
    uint16_t count;    /* the monitor's count after it */
    uint16_t good;     /* the good count */
    uint8_t octets[5]; /* the unit's first whole octets, zero filled */
    uint8_t alarm;     /* 1: this event raised SUER or AERM */
} pj_record;

/* The i-th record of a record area. */
static inline pj_record pj_record_at(const uint8_t *records, size_t i) {
    const uint8_t *octet = records + PJ_RECORD * i;
    pj_record r;
    size_t j;
    r.kind = octet[0];
    r.lost = octet[1];
    r.length = (uint16_t)(octet[2] | octet[3] << 8);
    r.count = (uint16_t)(octet[4] | octet[5] << 8);
    r.good = (uint16_t)(octet[6] | octet[7] << 8);
    for (j = 0; j < sizeof r.octets; j++) {
        r.octets[j] = octet[8 + j];
    }
    r.alarm = octet[13];
    return r;
}

/* What a refusal number says, in words. */
static inline const char *pj_refusal(int number) {
    switch (number) {
    case PJ_DONE: return "not refused";
    case PJ_LINK_MALFORMED: return "link malformed";
    case PJ_LINK_CLOSED: return "link closed";
    case PJ_LINK_OPEN: return "link already open";
    case PJ_SETTING_OUT_OF_RANGE: return "a setting out of range";
    case PJ_MEMORY_SIZE: return "pool not exactly 280K octets or descriptors not 2K words";
    case PJ_MEMORY_NOT_ZERO: return "a pool octet or descriptor word not zero";
    case PJ_LINE_TOO_LONG: return "more than 1,024 line octets";
    case PJ_RECORDS_TOO_SMALL: return "record area under 48 octets for each line octet";
    case PJ_OUTPUT_TOO_SMALL: return "output area under 336 octets";
    case PJ_CONTENT_LENGTH: return "content not 3 to 276 octets";
    case PJ_COMMAND_UNKNOWN: return "command unknown";
    case PJ_NO_SUCH_SLOT: return "slot number K or more";
    case PJ_SLOT_NOT_FILLED: return "status not 0, 1 or 2, or length over 278";
    default: return "no refusal has this number";
    }
}

#ifdef __cplusplus
}
#endif

#endif
