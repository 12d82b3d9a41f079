/*
 * The lines of code that the header has in the text of each call. tests/host/run puts them into lines.h, in the header's
 * order, each with a check that its call is accepted; here are the things that they name, and what they should have
 * made of them.
 */
#include "harness.h"

static const char layout[] = "A8 S2 S", new_layout[] = "A8 S2 S S";

int main(void)
{
    static const int64_t marks[] = {17, 0};
    static const uint8_t copy[] = {'A', 'd', 'a', ' ', ' ', ' ', ' ', ' ', 0, 17, 0, 1};
    uint8_t slots[3 * CURLEW_SLOT_SIZE], area[64], record[64], sheet[64], reply[CURLEW_MEAN_REPLY];
    uint8_t first_slots[3 * CURLEW_SLOT_SIZE], second_slots[3 * CURLEW_SLOT_SIZE], first_area[64], second_area[64];
    uint8_t report[3 * CURLEW_FINDING_SIZE], fields[CURLEW_MAX_LAYOUT * CURLEW_FIELD_SIZE];
    struct curlew_table table = curlew_table_over(slots, sizeof slots, area, sizeof area);
    char made[CURLEW_MAX_LAYOUT];
    size_t length = 0, copy_length = sizeof copy, planned = 0, added = 0, i;
    int marked = 0, same = 0, grows = 0, served = 0;
    uint32_t number = CURLEW_OK;
    int64_t mark = 0;
    double mean = 0;

    curlew_table_add_text(&table, "Ada", 3);
    curlew_table_add_ints(&table, marks, 2);
    curlew_table_add_int(&table, 5);
#include "lines.h"
    check(mark == 5 && marked, "curlew_read", "the third mark");
    check(planned == 3, "curlew_prepare", "a number for each field");
    check(curlew_table_count(&table) == 3 && same, "curlew_compare", "the name");
    check(mean == 5.0, "curlew_mean", "the mean of the third leg");
    check(grows && added == 1, "curlew_extends", "one field added");
    check(length == 8 && memcmp(made, "a6SuSuSu", length) == 0, "curlew_from_perl", "the layout");
    check(served && curlew_version() == CURLEW_VERSION_NUMBER, "curlew_version", "the version of the header");
    return summary();
}
