/* Two jobs that must not run at the same time, from one thread that asks who may. */
#include "../dine.h"

#include <stdio.h>

int main(void)
{
    dine table = DINE_CLOSED;
    dine_task print, scan;
    if (dine_start(&table, 64, 256) != DINE_DONE)
        return 1;
    dine_join(&table, &print);
    dine_join(&table, &scan);
    dine_conflict(&table, print, scan);

    dine_hungry(&table, print);
    dine_hungry(&table, scan);
    printf("print begins: %u\n", (unsigned)dine_begin(&table, print));
    printf("scan begins: %u, not yet\n", (unsigned)dine_begin(&table, scan));
    dine_finish(&table, print);
    printf("scan begins: %u\n", (unsigned)dine_begin(&table, scan));

    dine_end(&table);
    return 0;
}
