/*
 * moves: how far the limits move when their reference goes up by one spread, by
 * the plain count, on table 2: what the README is tested against. It prints a
 * row of a table for each band: how many references it has, from how many of
 * them the lower limit moves by 0, 1, 2 and 3 spreads, and from how many the
 * upper limit moves by 0, 1 and 2. A move that has no column is an error.
 */
#include <stdio.h>

#include "plain.h"

enum { LOWER_MOST = 3, UPPER_MOST = 2 };

/* The numbers of a band's row. */
struct row {
    uint32_t references;
    uint32_t lower[LOWER_MOST + 1];
    uint32_t upper[UPPER_MOST + 1];
};

static struct row rows[PLAIN_BANDS];

/* By how many spreads a limit moves from a reference to the next price, which
 * is the last price itself after the last; below 0 for down. */
static int32_t moves(uint32_t limit(uint32_t), uint32_t reference)
{
    uint32_t next = plain_up(reference, 1);
    return plain_place(limit(next)) - plain_place(limit(reference));
}

static bool count(uint32_t reference)
{
    struct row *row = &rows[plain_band_of(reference, PLAIN_BANDS)];
    int32_t lower = moves(plain_lower_limit, reference);
    int32_t upper = moves(plain_upper_limit, reference);
    if (lower < 0 || lower > LOWER_MOST || upper < 0 || upper > UPPER_MOST) {
        fprintf(stderr, "moves: from %u the lower limit moves by %d, the "
                "upper by %d\n", reference, (int)lower, (int)upper);
        return false;
    }
    row->references++;
    row->lower[lower]++;
    row->upper[upper]++;
    return true;
}

static void print_price(uint32_t price)
{
    printf("%u.%03u", price / 1000, price % 1000);
}

static void print_row(uint32_t band)
{
    const struct row *row = &rows[band];
    printf("| ");
    print_price(plain_band_bottom(band));
    printf(" to ");
    print_price(plain_band_top(band));
    printf(" | %u", row->references);
    for (int n = 0; n <= LOWER_MOST; n++)
        printf(" | %u", row->lower[n]);
    for (int n = 0; n <= UPPER_MOST; n++)
        printf(" | %u", row->upper[n]);
    printf(" |\n");
}

int main(void)
{
    plain_begin();
    for (uint32_t place = 0; place < plain_count(); place++)
        if (!count(plain_price(place)))
            return 1;
    for (uint32_t band = 0; band < PLAIN_BANDS; band++)
        print_row(band);
    return ferror(stdout) || fclose(stdout) != 0;
}
