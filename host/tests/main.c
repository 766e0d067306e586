/*
 * Runs the host tests: the library against the judge by the plain count.
 */
#include "report.h"
#include "tests.h"

int main(void)
{
    plain_begin();
    test_interface();
    test_ladder();
    test_prices();
    test_moves();
    test_bands();
    test_tables();
    test_unknown();
    test_judging();
    test_prepared();
    test_strangers();
    test_closes();
    test_walk();
    test_refusals();
    test_security();
    test_batches();
    test_memory();
    test_days();
    test_fills();
    return report_finish();
}
