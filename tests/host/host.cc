// Both calls from C++: containers as runs, answers as values.
#include "curlew.h"

#include <array>
#include <cstdio>
#include <string>
#include <vector>

namespace {

struct table {
    std::vector<uint8_t> slots;
    std::vector<uint8_t> area;
    curlew_table values;

    table(size_t slot_count, size_t area_size) : slots(slot_count * CURLEW_SLOT_SIZE), area(area_size)
    {
        values = curlew_table_over(slots.data(), slots.size(), area.data(), area.size());
    }

    bool text(const std::string &value)
    {
        return curlew_table_add_text(&values, value.data(), value.size()) != 0;
    }

    bool list(const std::vector<int64_t> &numbers)
    {
        return curlew_table_add_ints(&values, numbers.data(), numbers.size()) != 0;
    }

    std::string text_at(size_t index) const
    {
        const char *text;
        size_t length;

        return curlew_table_text(&values, index, &text, &length) ? std::string(text, length) : "no text";
    }

    int64_t number_at(size_t index, size_t item, int64_t otherwise) const
    {
        curlew_table_int(&values, index, item, &otherwise);
        return otherwise;
    }
};

const uint8_t *bytes(const std::string &text)
{
    return reinterpret_cast<const uint8_t *>(text.data());
}

curlew_answer pack(const std::string &layout, const table &values, std::vector<uint8_t> &record)
{
    std::array<uint8_t, CURLEW_PACK_REPLY> reply;

    record.resize(CURLEW_MAX_RECORD);
    curlew_pack(bytes(layout), layout.size(), values.values.slots, values.values.slots_used, values.values.area,
                values.values.area_used, record.data(), record.size(), reply.data(), reply.size());
    curlew_answer answer = curlew_get_answer(reply.data());
    record.resize(answer.number == CURLEW_OK ? answer.first : 0);
    return answer;
}

curlew_answer read(const std::string &layout, const std::vector<uint8_t> &record, table &values)
{
    std::array<uint8_t, CURLEW_READ_REPLY> reply;

    curlew_read(bytes(layout), layout.size(), record.data(), record.size(), values.values.slots,
                values.values.slots_room, values.values.area, values.values.area_room, 0, reply.data(), reply.size());
    curlew_answer answer = curlew_get_answer(reply.data());
    if (answer.number == CURLEW_OK)
        curlew_table_use(&values.values, answer.first, values.slots.size() / CURLEW_SLOT_SIZE);
    return answer;
}

int failures = 0;

void check(bool good, const char *what)
{
    if (!good) {
        failures++;
        std::printf("failed: %s\n", what);
    }
}

}

int main()
{
    table narrow(1, 40);
    check(narrow.text("Ada") && !narrow.list({61, 0, -3}), "table that is too small");
    table values(2, 40);
    check(values.text("Ada") && values.list({61, 0, -3}), "table");

    std::vector<uint8_t> record;
    check(pack("A5 S3", values, record).number == CURLEW_OK, "packing");
    check(record == std::vector<uint8_t>({'A', 'd', 'a', ' ', ' ', 0, 61, 0, 0, 0xff, 0xfd}), "record");

    table back(3, 100);
    curlew_answer answer = read("A5 S3 S", record, back);
    check(answer.number == CURLEW_OK && answer.first == 2 && answer.second == 27, "reading");
    check(back.text_at(0) == "Ada", "name");
    check(back.number_at(1, 2, 77) == -3, "third mark");
    check(curlew_table_slot(&back.values, 2).kind == CURLEW_UNSET && back.number_at(2, 0, 77) == 77,
          "leg that nobody marked");

    answer = pack("A5 S4", values, record);
    check(answer.number == CURLEW_BAD_LIST && answer.first == 1, "refusal");
    check(std::string(curlew_refusal(answer.number)).find("than the count") != std::string::npos, "text");

    table none(0, 0);
    record.clear();
    check(pack("", none, record).number == CURLEW_OK && record.empty(), "empty packing");
    check(read("", record, none).number == CURLEW_OK, "empty reading");
    return failures == 0 ? 0 : 1;
}
