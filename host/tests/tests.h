/*
 * The host tests, by what they look at.
 */
#ifndef TESTS_H
#define TESTS_H

void test_interface(void); /* interface.c: the header's own functions */
void test_ladder(void);    /* ladder.c: every place, steps by any number */
void test_prices(void);    /* prices.c: every price, steps and limits */
void test_moves(void);     /* moves.c: how far one spread moves a limit */
void test_bands(void);     /* bands.c: the band of every price */
void test_judging(void);   /* judging.c: questions and trades */
void test_prepared(void);  /* prepared.c: questions judged in two parts */
void test_strangers(void); /* strangers.c: order prices by any numbers */
void test_closes(void);    /* closes.c: closes and nominals between prices */
void test_walk(void);      /* walk.c: every price as a reference */
void test_refusals(void);  /* refusals.c: which references get 3 */
void test_security(void);  /* security.c: which codes get 15 */
void test_batches(void);   /* batches.c: lengths, buffers, every byte */
void test_tables(void);    /* tables.c: what tells the tables apart */
void test_unknown(void);   /* unknown.c: numbers that name no table */
void test_memory(void);    /* memory.c: guard pages, alignment, no bytes */
void test_days(void);      /* days.c: a day after every event */
void test_fills(void);     /* fills.c: the bytes of a filled question */

#endif
