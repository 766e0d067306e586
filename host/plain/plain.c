/*
 * The start of the plain count, and the table that it goes by.
 */
#include "plain_parts.h"

static void use(uint32_t table)
{
    plain_use_ladder(table - 1);
    plain_use_limits(table - 1);
}

void plain_begin(void)
{
    for (uint32_t table = 1; table <= PLAIN_TABLES; table++) {
        use(table);
        plain_begin_ladder();
        plain_begin_limits();
    }
    use(PLAIN_PHASE_1);
}

bool plain_use(uint32_t table)
{
    if (table < 1 || table > PLAIN_TABLES)
        return false;
    use(table);
    return true;
}
