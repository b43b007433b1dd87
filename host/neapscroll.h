/*
 * Neapscroll, the rider ledger: an electric book (fuel adjustment clause) and a steam book (quarterly cost adjustment).
 *
 * Declares what the proved static library libneapscroll.a exports, for C99 and C++; docs/LINKING.md says how to link it.
 * docs/GLOSSARY.md explains the terms; docs/REFUSALS.md says of each refusal what causes it and what to do.
 *
 * A book is a struct that the host owns: it goes in by value, and the next one comes back with the reply. A byte slice
 * is a pointer and a length, in that order. No call allocates, keeps anything, or has a precondition on its numbers; what
 * it takes for granted of a pointer, a bool and overlapping buffers is in docs/LINKING.md, Conventions.
 */
#ifndef NEAPSCROLL_H
#define NEAPSCROLL_H

#include <stdbool.h>
#include <stddef.h>
#include <stdint.h>

#ifdef __cplusplus
extern "C" {
#endif

/* A reply's number: 0, or the first refusal that applies. A refusal leaves book, place and buffer as they were. */
enum neapscroll_refusal {
    NEAPSCROLL_ACCEPTED = 0,
    NEAPSCROLL_NO_RECORD = 1,              /* reading: fewer than 2 bytes remain, as at the end of the bytes */
    NEAPSCROLL_UNKNOWN_KIND = 2,           /* the book has no such kind: any but 1 to 6, for steam any but 1 to 7 */
    NEAPSCROLL_STRAY_FIELD = 3,            /* a bit of the bit map, or a number other than 0, that the kind lacks */
    NEAPSCROLL_RECORD_CUT = 4,             /* reading: fewer bytes remain than the record has by its bit map */
    NEAPSCROLL_FIELD_OF_ZERO = 5,          /* reading: a field that the bit map names is 0, and should be left out */
    NEAPSCROLL_BOOK_OUTSIDE_LIMITS = 6,    /* the book handed in has a value outside its limits: damaged or not opened */
    NEAPSCROLL_FIELD_OUT_OF_RANGE = 7,     /* a number outside its range below; at opening the division or a quarter */
    NEAPSCROLL_FORBIDDEN_NOW = 8,          /* the month or its settlement: as a cost once settled, or settle in June */
    NEAPSCROLL_RECONCILIATION_RUNS = 9,    /* steam: reconcile while a reconciliation has months left */
    NEAPSCROLL_NOTHING_SOLD = 10,          /* settle without sales; for steam also with less than 1 mmBtu to file over */
    NEAPSCROLL_ADJUSTMENT_TOO_SMALL = 11,  /* steam: adjust by no more than a tenth of the annual fuel cost */
    NEAPSCROLL_OUTSIDE_LIMITS = 12,        /* the next book would hold a value outside the limits of the structs below */
    NEAPSCROLL_BUFFER_TOO_SHORT = 13       /* writing: the bytes to be written have no room in the buffer */
};

/* Kinds of a posting, each with its numbers in order, first, second, third, and the range of each. */
enum neapscroll_kind {
    /* electric: cents of fuel, of purchased energy and of emission allowances, -10^10 to 10^10 each */
    /* steam: cents of fuel, -10^10 to 10^10 */
    NEAPSCROLL_COST = 1,
    /* electric: kWh sold at the secondary and at the primary level, 0 to 10^10 each */
    /* steam: mmBtu sold, 0 to 10^8 */
    NEAPSCROLL_SALES = 2,
    /* electric: level, 0 to 1; kWh, -10^9 to 10^9, below 0 for a cancelled bill */
    /* steam: mmBtu, -10^7 to 10^7, likewise */
    NEAPSCROLL_BILL = 3,
    /* electric: kWh estimated for the twelve months of the new run, secondary and primary, 1 to 10^10 each */
    /* steam: mmBtu added to the year's sales where the quarter's are more than 5% off a year before, -10^8 to 10^8 */
    NEAPSCROLL_SETTLE = 4,
    /* electric: yearly interest rate in millionths, 0 to 200,000: 60,000 is 6% */
    /* steam: none */
    NEAPSCROLL_MONTH_END = 5,
    /* electric: level, 0 to 1; cents, -10^10 to 10^10, below 0 for a refund */
    /* steam: cents, -10^10 to 10^10, likewise; cents of annual fuel cost, 0 to 10^11, 0 where no review asks for it */
    NEAPSCROLL_ADJUST = 6,
    /* steam: months, 12 or 24; mmBtu estimated for them, 1 to 10^8 */
    /* electric: no such kind */
    NEAPSCROLL_RECONCILE = 7
};

enum neapscroll_level_number { NEAPSCROLL_SECONDARY = 0, NEAPSCROLL_PRIMARY = 1 };

enum neapscroll_division { NEAPSCROLL_L_AND_P = 0, NEAPSCROLL_MPS = 1 };

/* Bytes of a factor sheet: 16 rows of 80 characters and a line feed. */
enum neapscroll_length { NEAPSCROLL_SHEET_LENGTH = 1296 };

/* Money in whole cents; a book holds -10^12 to 10^12. */
typedef struct neapscroll_cents {
    int64_t cents;
} neapscroll_cents;

/* A factor: points of $0.0001 per kWh or per million BTU (mmBtu); a book holds -99,999 to 99,999. */
typedef struct neapscroll_points {
    int32_t points;
} neapscroll_points;

/* A kind and its three numbers; 0 for one that the kind lacks. */
typedef struct neapscroll_posting {
    uint8_t kind;
    int64_t first;
    int64_t second;
    int64_t third;
} neapscroll_posting;

/* A factor, and the cents that bills at it have still to bring in: below 0 for a credit, or once they brought in more. */
typedef struct neapscroll_run {
    neapscroll_points factor;
    neapscroll_cents due;
} neapscroll_run;

/*
 * A voltage level of the electric book.
 * carried: cents that earlier runs left, and adjustments; the next settlement files them.
 * interest: cents accrued since the last settlement; the next settlement files them.
 * pending: what the last settlement filed, until the end of February or August makes a run of it.
 * first, second: the runs that bills are at, November's settlement from March on, May's from September on, a year each.
 */
typedef struct neapscroll_level {
    neapscroll_cents carried;
    neapscroll_cents interest;
    neapscroll_run pending;
    neapscroll_run first;
    neapscroll_run second;
} neapscroll_level;

/* kWh by level, 0 to 10^10 each. */
typedef struct neapscroll_sales {
    int64_t secondary;
    int64_t primary;
} neapscroll_sales;

/*
 * The open period. cost, sales: since the last settlement. remainder: what rounding the customers' shares to whole cents
 * has left over, in hundred-thousandths of a cent, -50,000 to 50,000.
 */
typedef struct neapscroll_electric_period {
    neapscroll_cents cost;
    neapscroll_sales sales;
    int64_t remainder;
} neapscroll_electric_period;

/*
 * division: of enum neapscroll_division. month: 1 to 12.
 * settled: whether the month's settlement is done; November and May have one.
 */
typedef struct neapscroll_electric_book {
    uint8_t division;
    uint8_t month;
    bool settled;
    neapscroll_electric_period period;
    neapscroll_level secondary;
    neapscroll_level primary;
} neapscroll_electric_book;

/*
 * The open quarter. cost, sales: since the last settlement, sales in mmBtu, 0 to 10^8. remainder: what rounding the
 * customers' shares to whole cents has left over, in ten-thousandths of a cent, -5,000 to 5,000.
 */
typedef struct neapscroll_steam_period {
    neapscroll_cents cost;
    int64_t sales;
    int64_t remainder;
} neapscroll_steam_period;

/* A run over carried cents. months: those that it has left, at most 24; all is 0 where none runs. */
typedef struct neapscroll_reconciliation {
    neapscroll_run run;
    uint8_t months;
} neapscroll_reconciliation;

/*
 * month: 1 to 12. settled: whether the month's settlement is done; March, June, September and December have one.
 * quarters: mmBtu sold in the last four settled quarters, oldest first, 0 to 10^8 each.
 * carried: cents that runs left, and adjustments; a reconciliation makes a run of them.
 * pending: what the last settlement filed, until the end of February, May, August or November makes a run of it.
 * factors, dues: of runs 1 to 4, which begin in March, June, September and December, a year each.
 */
typedef struct neapscroll_steam_book {
    uint8_t month;
    bool settled;
    neapscroll_steam_period period;
    int64_t quarters[4];
    neapscroll_cents carried;
    neapscroll_run pending;
    neapscroll_points factors[4];
    neapscroll_cents dues[4];
    neapscroll_reconciliation reconciliation;
} neapscroll_steam_book;

/* Cents of both levels. */
typedef struct neapscroll_level_cents {
    neapscroll_cents secondary;
    neapscroll_cents primary;
} neapscroll_level_cents;

/* Points of both levels. */
typedef struct neapscroll_level_points {
    neapscroll_points secondary;
    neapscroll_points primary;
} neapscroll_level_points;

/*
 * What the electric book answers, and the book after it. number: 0, or the refusal's. filed: points, the factors of a
 * settlement. line: cents, of a bill. interest: cents, that month's, of a month end, on what is carried, pending and due and
 * on the share that settling the open period then would give. An amount that the posting's kind is not answered with is 0;
 * with a refusal, and at opening, all are.
 */
typedef struct neapscroll_electric_reply {
    uint8_t number;
    neapscroll_level_points filed;
    neapscroll_cents line;
    neapscroll_level_cents interest;
    neapscroll_electric_book book;
} neapscroll_electric_reply;

/* What the steam book answers, likewise. filed: points, the factor of a settlement. line: cents, of a bill. */
typedef struct neapscroll_steam_reply {
    uint8_t number;
    neapscroll_points filed;
    neapscroll_cents line;
    neapscroll_steam_book book;
} neapscroll_steam_reply;

/* 0, the place after the record and the posting; or a refusal's number, the place as it was and a posting of kind 0. */
typedef struct neapscroll_read {
    uint8_t number;
    size_t place;
    neapscroll_posting posting;
} neapscroll_read;

/* 0 and how many bytes were written to the front of the buffer; or a refusal's number and 0, every byte as it was. */
typedef struct neapscroll_written {
    uint8_t number;
    size_t length;
} neapscroll_written;

/* The fresh electric book of a division, in June. Refused (7) above 1: L&P's comes back, which is not to be posted to. */
neapscroll_electric_reply neapscroll_electric_open(uint8_t division);

/* What a posting to an electric book gives. Refused (2, 3, 6, 7, 8, 10, 12): the book as it was. */
neapscroll_electric_reply neapscroll_electric_post(neapscroll_electric_book book, neapscroll_posting posting);

/*
 * Writes the factor sheet that is filed with a settlement, before that is posted, to the front of a page: exactly
 * NEAPSCROLL_SHEET_LENGTH bytes, no terminator; bytes of the page past them are untouched. The book is the one to be
 * settled, which this does not do; the estimates are those of the posting, in kWh, 1 to 10^10 each.
 * Refused (6, 7, 8, 10, 12, 13), first as the posting is, then where the page is too short: the page as it was.
 */
neapscroll_written neapscroll_electric_sheet(neapscroll_electric_book book, neapscroll_sales estimates, uint8_t *page, size_t page_length);

/*
 * The fresh steam book after four quarters' sales in mmBtu, oldest first, in January. Refused (7) outside 0 to 10^8: the
 * book after four zeros comes back, which is not to be posted to.
 */
neapscroll_steam_reply neapscroll_steam_open(int64_t first, int64_t second, int64_t third, int64_t fourth);

/* What a posting to a steam book gives. Refused (2, 3, 6 to 12): the book as it was. */
neapscroll_steam_reply neapscroll_steam_post(neapscroll_steam_book book, neapscroll_posting posting);

/* Reads the record at a place, of the steam book or of the electric one. Refused (1 to 5): the place as it was. */
neapscroll_read neapscroll_read_record(bool steam, const uint8_t *bytes, size_t bytes_length, size_t place);

/* Writes the record of a posting, of at most 26 bytes. Refused (2, 3, 13): the buffer as it was. */
neapscroll_written neapscroll_write_record(bool steam, neapscroll_posting posting, uint8_t *buffer, size_t buffer_length);

/* Writes cents as text, as -0.90, of at most 21 bytes and no terminator. Refused (13): the buffer as it was. */
neapscroll_written neapscroll_write_cents(neapscroll_cents cents, uint8_t *buffer, size_t buffer_length);

/* Writes points as text, as -0.0009, of at most 12 bytes and no terminator. Refused (13): the buffer as it was. */
neapscroll_written neapscroll_write_points(neapscroll_points points, uint8_t *buffer, size_t buffer_length);

/* round(a/b), a half going away from zero; 0 for b below 1. */
int64_t neapscroll_round_div(int64_t a, int64_t b);

/*
 * The secondary level's weight in a settlement, of 100,000, by kWh times loss factor of either level; 0 where one of them
 * is below 0 or above 2 * 10^15.
 */
int64_t neapscroll_weight(int64_t secondary, int64_t primary);

/* How many bytes the journal program prints for an input: at most 41 * input_length + 82. */
size_t neapscroll_journal_length(const uint8_t *input, size_t input_length);

/*
 * Writes all that the journal program prints for an input; where the input itself is refused, its text says so.
 * Refused (13): the buffer as it was.
 */
neapscroll_written neapscroll_journal(const uint8_t *input, size_t input_length, uint8_t *buffer, size_t buffer_length);

/* The layouts that the library has; a compiler that lays a struct out otherwise stops here. */
#if defined(__cplusplus) && __cplusplus >= 201103L
#define NEAPSCROLL_SIZE(type, size) static_assert(sizeof(type) == (size), #type " has another size in the library")
#elif defined(__STDC_VERSION__) && __STDC_VERSION__ >= 201112L
#define NEAPSCROLL_SIZE(type, size) _Static_assert(sizeof(type) == (size), #type " has another size in the library")
#endif
#ifdef NEAPSCROLL_SIZE
NEAPSCROLL_SIZE(neapscroll_cents, 8);
NEAPSCROLL_SIZE(neapscroll_points, 4);
NEAPSCROLL_SIZE(neapscroll_posting, 32);
NEAPSCROLL_SIZE(neapscroll_run, 16);
NEAPSCROLL_SIZE(neapscroll_level, 64);
NEAPSCROLL_SIZE(neapscroll_sales, 16);
NEAPSCROLL_SIZE(neapscroll_electric_period, 32);
NEAPSCROLL_SIZE(neapscroll_electric_book, 168);
NEAPSCROLL_SIZE(neapscroll_steam_period, 24);
NEAPSCROLL_SIZE(neapscroll_reconciliation, 24);
NEAPSCROLL_SIZE(neapscroll_steam_book, 160);
NEAPSCROLL_SIZE(neapscroll_level_cents, 16);
NEAPSCROLL_SIZE(neapscroll_level_points, 8);
NEAPSCROLL_SIZE(neapscroll_electric_reply, 208);
NEAPSCROLL_SIZE(neapscroll_steam_reply, 176);
NEAPSCROLL_SIZE(neapscroll_read, 48);
NEAPSCROLL_SIZE(neapscroll_written, 16);
#undef NEAPSCROLL_SIZE
#endif

#ifdef __cplusplus
}
#endif

#endif
