/* Prints the size of every struct of the header, the place and size of each field, and every number that has a name. */
#include "neapscroll.h"

#include <stdio.h>

#define SIZE(type) printf("%s %zu\n", #type, sizeof(type))
#define FIELD(type, field) printf("%s.%s %zu %zu\n", #type, #field, offsetof(type, field), sizeof(((type *)0)->field))

#define NUMBER(name) printf("%s %d\n", #name, (int)(name))

static void amounts(void)
{
    SIZE(neapscroll_cents);
    FIELD(neapscroll_cents, cents);
    SIZE(neapscroll_points);
    FIELD(neapscroll_points, points);
    SIZE(neapscroll_run);
    FIELD(neapscroll_run, factor);
    FIELD(neapscroll_run, due);
}

static void electric(void)
{
    SIZE(neapscroll_level);
    FIELD(neapscroll_level, carried);
    FIELD(neapscroll_level, interest);
    FIELD(neapscroll_level, pending);
    FIELD(neapscroll_level, first);
    FIELD(neapscroll_level, second);
    SIZE(neapscroll_sales);
    FIELD(neapscroll_sales, secondary);
    FIELD(neapscroll_sales, primary);
    SIZE(neapscroll_electric_period);
    FIELD(neapscroll_electric_period, cost);
    FIELD(neapscroll_electric_period, sales);
    FIELD(neapscroll_electric_period, remainder);
    SIZE(neapscroll_electric_book);
    FIELD(neapscroll_electric_book, division);
    FIELD(neapscroll_electric_book, month);
    FIELD(neapscroll_electric_book, settled);
    FIELD(neapscroll_electric_book, period);
    FIELD(neapscroll_electric_book, secondary);
    FIELD(neapscroll_electric_book, primary);
}

static void steam(void)
{
    SIZE(neapscroll_steam_period);
    FIELD(neapscroll_steam_period, cost);
    FIELD(neapscroll_steam_period, sales);
    FIELD(neapscroll_steam_period, remainder);
    SIZE(neapscroll_reconciliation);
    FIELD(neapscroll_reconciliation, run);
    FIELD(neapscroll_reconciliation, months);
    SIZE(neapscroll_steam_book);
    FIELD(neapscroll_steam_book, month);
    FIELD(neapscroll_steam_book, settled);
    FIELD(neapscroll_steam_book, period);
    FIELD(neapscroll_steam_book, quarters);
    FIELD(neapscroll_steam_book, carried);
    FIELD(neapscroll_steam_book, pending);
    FIELD(neapscroll_steam_book, factors);
    FIELD(neapscroll_steam_book, dues);
    FIELD(neapscroll_steam_book, reconciliation);
}

static void postings(void)
{
    SIZE(neapscroll_posting);
    FIELD(neapscroll_posting, kind);
    FIELD(neapscroll_posting, first);
    FIELD(neapscroll_posting, second);
    FIELD(neapscroll_posting, third);
}

static void answers(void)
{
    SIZE(neapscroll_level_cents);
    FIELD(neapscroll_level_cents, secondary);
    FIELD(neapscroll_level_cents, primary);
    SIZE(neapscroll_level_points);
    FIELD(neapscroll_level_points, secondary);
    FIELD(neapscroll_level_points, primary);
    SIZE(neapscroll_electric_reply);
    FIELD(neapscroll_electric_reply, number);
    FIELD(neapscroll_electric_reply, filed);
    FIELD(neapscroll_electric_reply, line);
    FIELD(neapscroll_electric_reply, interest);
    FIELD(neapscroll_electric_reply, book);
    SIZE(neapscroll_steam_reply);
    FIELD(neapscroll_steam_reply, number);
    FIELD(neapscroll_steam_reply, filed);
    FIELD(neapscroll_steam_reply, line);
    FIELD(neapscroll_steam_reply, book);
    SIZE(neapscroll_read);
    FIELD(neapscroll_read, number);
    FIELD(neapscroll_read, place);
    FIELD(neapscroll_read, posting);
    SIZE(neapscroll_written);
    FIELD(neapscroll_written, number);
    FIELD(neapscroll_written, length);
}

static void refusals(void)
{
    NUMBER(NEAPSCROLL_ACCEPTED);
    NUMBER(NEAPSCROLL_NO_RECORD);
    NUMBER(NEAPSCROLL_UNKNOWN_KIND);
    NUMBER(NEAPSCROLL_STRAY_FIELD);
    NUMBER(NEAPSCROLL_RECORD_CUT);
    NUMBER(NEAPSCROLL_FIELD_OF_ZERO);
    NUMBER(NEAPSCROLL_BOOK_OUTSIDE_LIMITS);
    NUMBER(NEAPSCROLL_FIELD_OUT_OF_RANGE);
    NUMBER(NEAPSCROLL_FORBIDDEN_NOW);
    NUMBER(NEAPSCROLL_RECONCILIATION_RUNS);
    NUMBER(NEAPSCROLL_NOTHING_SOLD);
    NUMBER(NEAPSCROLL_ADJUSTMENT_TOO_SMALL);
    NUMBER(NEAPSCROLL_OUTSIDE_LIMITS);
    NUMBER(NEAPSCROLL_BUFFER_TOO_SHORT);
}

static void kinds(void)
{
    NUMBER(NEAPSCROLL_COST);
    NUMBER(NEAPSCROLL_SALES);
    NUMBER(NEAPSCROLL_BILL);
    NUMBER(NEAPSCROLL_SETTLE);
    NUMBER(NEAPSCROLL_MONTH_END);
    NUMBER(NEAPSCROLL_ADJUST);
    NUMBER(NEAPSCROLL_RECONCILE);
    NUMBER(NEAPSCROLL_SECONDARY);
    NUMBER(NEAPSCROLL_PRIMARY);
    NUMBER(NEAPSCROLL_L_AND_P);
    NUMBER(NEAPSCROLL_MPS);
}

static void lengths(void)
{
    NUMBER(NEAPSCROLL_SHEET_LENGTH);
}

int main(void)
{
    amounts();
    electric();
    steam();
    postings();
    answers();
    refusals();
    kinds();
    lengths();
    return 0;
}
