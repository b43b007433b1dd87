/* Prints what the sheet's call answers, and every byte of a page and behind it, for pages of one byte too few and of enough. */
#include "neapscroll.h"

#include <stdio.h>
#include <string.h>

/* A page, and bytes behind it that are not lent. */
enum { BYTES = 2 * NEAPSCROLL_SHEET_LENGTH };

static void print_page(neapscroll_electric_book book, size_t page_length)
{
    neapscroll_sales estimates = {1250000, 800000};
    uint8_t bytes[BYTES];
    memset(bytes, '#', sizeof bytes);
    neapscroll_written written = neapscroll_electric_sheet(book, estimates, bytes, page_length);
    printf("page of %zu: %u, %zu bytes\n", page_length, (unsigned)written.number, written.length);
    printf("%.*s\n", (int)sizeof bytes, (const char *)bytes);
}

static void print_pages(neapscroll_electric_book book)
{
    print_page(book, NEAPSCROLL_SHEET_LENGTH - 1);
    print_page(book, NEAPSCROLL_SHEET_LENGTH);
    print_page(book, NEAPSCROLL_SHEET_LENGTH + 1);
}

/* A book in June, where a settlement is refused, and then in November. */
int main(void)
{
    neapscroll_posting cost = {NEAPSCROLL_COST, 2000000, 0, 0};
    neapscroll_posting sales = {NEAPSCROLL_SALES, 600000, 400000, 0};
    neapscroll_posting month_end = {NEAPSCROLL_MONTH_END, 0, 0, 0};
    neapscroll_electric_book book = neapscroll_electric_open(NEAPSCROLL_L_AND_P).book;
    book = neapscroll_electric_post(book, cost).book;
    book = neapscroll_electric_post(book, sales).book;
    print_pages(book);
    for (int month = 0; month < 5; month++) {
        book = neapscroll_electric_post(book, month_end).book;
    }
    print_pages(book);
    return 0;
}
