/* A small billing host over the library: both books, a sheet, a record, rounding, a journal. It prints the answers. */
#include "neapscroll.h"

#include <inttypes.h>
#include <stdio.h>

/* Room for the longest text of an amount. */
enum { AMOUNT_LENGTH = 21 };

static void print_cents(neapscroll_cents cents)
{
    uint8_t text[AMOUNT_LENGTH];
    neapscroll_written written = neapscroll_write_cents(cents, text, sizeof text);
    printf(" %.*s", (int)written.length, (const char *)text);
}

static void print_points(neapscroll_points points)
{
    uint8_t text[AMOUNT_LENGTH];
    neapscroll_written written = neapscroll_write_points(points, text, sizeof text);
    printf(" %.*s", (int)written.length, (const char *)text);
}

static void print_refusal(uint8_t number)
{
    printf(" refused %u\n", (unsigned)number);
}

/* Posts to an electric book, prints the answer and gives the book after it. */
static neapscroll_electric_book electric_post(neapscroll_electric_book book, neapscroll_posting posting)
{
    neapscroll_electric_reply reply = neapscroll_electric_post(book, posting);
    printf("electric %u", (unsigned)posting.kind);
    if (reply.number != NEAPSCROLL_ACCEPTED) {
        print_refusal(reply.number);
        return reply.book;
    }
    switch (posting.kind) {
    case NEAPSCROLL_BILL:
        printf(" line");
        print_cents(reply.line);
        break;
    case NEAPSCROLL_SETTLE:
        printf(" filed");
        print_points(reply.filed.secondary);
        print_points(reply.filed.primary);
        break;
    case NEAPSCROLL_MONTH_END:
        printf(" interest");
        print_cents(reply.interest.secondary);
        print_cents(reply.interest.primary);
        break;
    default:
        printf(" done");
    }
    printf("\n");
    return reply.book;
}

/* Prints the factor sheet of a settlement that is still to be posted to the book. */
static void print_sheet(neapscroll_electric_book book, neapscroll_posting settle)
{
    neapscroll_sales estimates = {settle.first, settle.second};
    uint8_t page[NEAPSCROLL_SHEET_LENGTH];
    neapscroll_written written = neapscroll_electric_sheet(book, estimates, page, sizeof page);
    printf("sheet");
    if (written.number != NEAPSCROLL_ACCEPTED) {
        print_refusal(written.number);
        return;
    }
    printf("\n%.*s", (int)written.length, (const char *)page);
}

static neapscroll_electric_book electric_month_ends(neapscroll_electric_book book, int count, int64_t rate)
{
    neapscroll_posting month_end = {NEAPSCROLL_MONTH_END, rate, 0, 0};
    for (int month = 0; month < count; month++) {
        book = electric_post(book, month_end);
    }
    return book;
}

static void print_run(neapscroll_run run)
{
    print_points(run.factor);
    print_cents(run.due);
}

static void print_level(const char *name, neapscroll_level level)
{
    printf("%s", name);
    print_cents(level.carried);
    print_cents(level.interest);
    print_run(level.pending);
    print_run(level.first);
    print_run(level.second);
    printf("\n");
}

static void print_electric_book(neapscroll_electric_book book)
{
    printf("division %u month %u", (unsigned)book.division, (unsigned)book.month);
    printf(" settled %u cost", (unsigned)book.settled);
    print_cents(book.period.cost);
    printf(" sales %" PRId64 " %" PRId64, book.period.sales.secondary, book.period.sales.primary);
    printf(" remainder %" PRId64 "\n", book.period.remainder);
    print_level("secondary", book.secondary);
    print_level("primary", book.primary);
}

/* L&P from June to March: a settlement in November, billed from March on, and a next period open. */
static void electric(void)
{
    neapscroll_posting cost = {NEAPSCROLL_COST, 1500000, 400000, 100000};
    neapscroll_posting sales = {NEAPSCROLL_SALES, 600000, 400000, 0};
    neapscroll_posting settle = {NEAPSCROLL_SETTLE, 1250000, 800000, 0};
    neapscroll_posting bill = {NEAPSCROLL_BILL, NEAPSCROLL_SECONDARY, 1000000, 0};
    neapscroll_posting cancelled = {NEAPSCROLL_BILL, NEAPSCROLL_PRIMARY, -15, 0};
    neapscroll_posting refund = {NEAPSCROLL_ADJUST, NEAPSCROLL_PRIMARY, -90, 0};
    neapscroll_electric_reply opened = neapscroll_electric_open(NEAPSCROLL_L_AND_P);
    if (opened.number != NEAPSCROLL_ACCEPTED) {
        print_refusal(opened.number);
        return;
    }
    neapscroll_electric_book book = opened.book;
    book = electric_post(book, cost);
    book = electric_post(book, sales);
    /* June settles nothing and has no sheet: the book stays as it was, and the same settlement is taken in November. */
    print_sheet(book, settle);
    book = electric_post(book, settle);
    book = electric_month_ends(book, 5, 60000);
    print_sheet(book, settle);
    book = electric_post(book, settle);
    book = electric_month_ends(book, 4, 60000);
    book = electric_post(book, bill);
    book = electric_post(book, cancelled);
    book = electric_post(book, refund);
    book = electric_post(book, cost);
    print_electric_book(book);
}

/* Posts to a steam book, prints the answer and gives the book after it. */
static neapscroll_steam_book steam_post(neapscroll_steam_book book, neapscroll_posting posting)
{
    neapscroll_steam_reply reply = neapscroll_steam_post(book, posting);
    printf("steam %u", (unsigned)posting.kind);
    if (reply.number != NEAPSCROLL_ACCEPTED) {
        print_refusal(reply.number);
        return reply.book;
    }
    switch (posting.kind) {
    case NEAPSCROLL_BILL:
        printf(" line");
        print_cents(reply.line);
        break;
    case NEAPSCROLL_SETTLE:
        printf(" filed");
        print_points(reply.filed);
        break;
    default:
        printf(" done");
    }
    printf("\n");
    return reply.book;
}

static neapscroll_steam_book steam_month_ends(neapscroll_steam_book book, int count)
{
    neapscroll_posting month_end = {NEAPSCROLL_MONTH_END, 0, 0, 0};
    for (int month = 0; month < count; month++) {
        book = steam_post(book, month_end);
    }
    return book;
}

static void print_steam_book(neapscroll_steam_book book)
{
    printf("month %u settled %u cost", (unsigned)book.month, (unsigned)book.settled);
    print_cents(book.period.cost);
    printf(" sales %" PRId64 " remainder %" PRId64 " quarters", book.period.sales, book.period.remainder);
    for (int quarter = 0; quarter < 4; quarter++) {
        printf(" %" PRId64, book.quarters[quarter]);
    }
    printf("\ncarried");
    print_cents(book.carried);
    printf(" pending");
    print_run(book.pending);
    printf(" runs");
    for (int run = 0; run < 4; run++) {
        print_points(book.factors[run]);
        print_cents(book.dues[run]);
    }
    printf(" reconciliation");
    print_run(book.reconciliation.run);
    printf(" months %u\n", (unsigned)book.reconciliation.months);
}

/* A quarter settled in March, more than 5% off that of a year before; then a surcharge reconciled over a year. */
static void steam(void)
{
    neapscroll_posting cost = {NEAPSCROLL_COST, 3700000, 0, 0};
    neapscroll_posting sales = {NEAPSCROLL_SALES, 10000, 0, 0};
    neapscroll_posting settle = {NEAPSCROLL_SETTLE, 100, 0, 0};
    neapscroll_posting bill = {NEAPSCROLL_BILL, 3000, 0, 0};
    neapscroll_posting small = {NEAPSCROLL_ADJUST, 100000, 1000000, 0};
    neapscroll_posting enough = {NEAPSCROLL_ADJUST, 100001, 1000000, 0};
    neapscroll_posting reconcile = {NEAPSCROLL_RECONCILE, 12, 40000, 0};
    neapscroll_steam_reply opened = neapscroll_steam_open(9000, 10000, 10000, 10000);
    if (opened.number != NEAPSCROLL_ACCEPTED) {
        print_refusal(opened.number);
        return;
    }
    neapscroll_steam_book book = opened.book;
    book = steam_post(book, cost);
    book = steam_post(book, sales);
    book = steam_month_ends(book, 2);
    book = steam_post(book, settle);
    book = steam_month_ends(book, 3);
    book = steam_post(book, bill);
    book = steam_post(book, small);
    book = steam_post(book, enough);
    book = steam_post(book, reconcile);
    book = steam_post(book, reconcile);
    print_steam_book(book);
}

static void openings(void)
{
    printf("electric opening");
    print_refusal(neapscroll_electric_open(2).number);
    printf("steam opening");
    print_refusal(neapscroll_steam_open(-1, 0, 0, 0).number);
}

/* The record of a bill, written, read back, and read where none is. */
static void record(void)
{
    neapscroll_posting bill = {NEAPSCROLL_BILL, NEAPSCROLL_PRIMARY, -10, 0};
    uint8_t bytes[26];
    neapscroll_written written = neapscroll_write_record(false, bill, bytes, sizeof bytes);
    printf("record");
    for (size_t place = 0; place < written.length; place++) {
        printf(" %02X", (unsigned)bytes[place]);
    }
    neapscroll_read read = neapscroll_read_record(false, bytes, written.length, 0);
    printf("\nread %u to %zu:", (unsigned)read.number, read.place);
    printf(" %u %" PRId64, (unsigned)read.posting.kind, read.posting.first);
    printf(" %" PRId64 " %" PRId64 "\n", read.posting.second, read.posting.third);
    read = neapscroll_read_record(false, bytes, written.length, read.place);
    printf("read %u at %zu\n", (unsigned)read.number, read.place);
    written = neapscroll_write_record(false, bill, bytes, 17);
    printf("written %u, %zu bytes\n", (unsigned)written.number, written.length);
}

static void rounding(void)
{
    printf("round %" PRId64 "\n", neapscroll_round_div(-90, 100));
    printf("weight %" PRId64 "\n", neapscroll_weight(65065800000, 42492400000));
}

/* A journal: an opening and three records; then the same with a byte too few for its text. */
static void journal(void)
{
    static const uint8_t input[] = {
        0x00,
        0x01, 0x01, 0x00, 0x00, 0x00, 0x00, 0x00, 0x1E, 0x84, 0x80,
        0x03, 0x02, 0x00, 0x00, 0x00, 0x00, 0x00, 0x00, 0x03, 0xE8,
        0x04, 0x03, 0x00, 0x00, 0x00, 0x00, 0x00, 0x00, 0x00, 0x01, 0x00, 0x00, 0x00, 0x00, 0x00, 0x00, 0x00, 0x01,
    };
    uint8_t text[41 * sizeof input + 82];
    size_t length = neapscroll_journal_length(input, sizeof input);
    neapscroll_written written = neapscroll_journal(input, sizeof input, text, sizeof text);
    printf("journal %u, %zu bytes of %zu\n", (unsigned)written.number, written.length, length);
    printf("%.*s", (int)written.length, (const char *)text);
    written = neapscroll_journal(input, sizeof input, text, length - 1);
    printf("journal %u, %zu bytes\n", (unsigned)written.number, written.length);
}

int main(void)
{
    electric();
    steam();
    openings();
    record();
    rounding();
    journal();
    return 0;
}
