#include "gaz_one.h"
#include <stdio.h>
#define ORDERS GAZ_TABLE, (const uint8_t *)"shop", 4, (const uint8_t *)"orders", 6

int main(void)
{
    struct gaz_one_space space = GAZ_ONE_SPACE_INIT;
    uint64_t ticket = 0;
    if (gaz_one_open(&space, 256, 2) != GAZ_DONE) return 1;
    gaz_one_context_begin(&space, 1);
    gaz_one_context_begin(&space, 2);
    printf("session 1 reads shop.orders: %u\n", gaz_one_acquire(&space, 1, ORDERS, GAZ_SR, GAZ_TRANSACTION, &ticket));
    printf("session 2 tries to change it: %u\n", gaz_one_try_acquire(&space, 2, ORDERS, GAZ_X, GAZ_TRANSACTION, &ticket));
    gaz_one_close(&space);
}
