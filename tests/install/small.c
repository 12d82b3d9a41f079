/* Packs one mark by the installed library, reads it back and prints it. */
#include <curlew.h>
#include <stdio.h>

int main(void)
{
    uint8_t slot[CURLEW_SLOT_SIZE], area[CURLEW_ITEM_SIZE], record[2], reply[CURLEW_READ_REPLY];
    struct curlew_table table = curlew_table_over(slot, sizeof slot, area, sizeof area);
    int64_t mark;

    curlew_table_add_int(&table, -417);
    if (curlew_pack("S", 1, table.slots, table.slots_used, table.area, table.area_used, record, sizeof record,
                    reply, CURLEW_PACK_REPLY) != CURLEW_OK)
        return 1;
    curlew_table_clear(&table);
    if (curlew_read("S", 1, record, sizeof record, table.slots, table.slots_room, table.area, table.area_room, 0,
                    reply, CURLEW_READ_REPLY) != CURLEW_OK
        || !curlew_table_use(&table, curlew_get_answer(reply).first, 1) || !curlew_table_int(&table, 0, 0, &mark))
        return 1;
    printf("%02x%02x %d\n", (unsigned)record[0], (unsigned)record[1], (int)mark);
    return 0;
}
