// The header from C++: its calls over the rows of vectors, and its decoders as
// functions to hand on. It is included twice here, and once more in
// header_main.c.

#include <cstddef>
#include <string>
#include <vector>

#include "shelf.h"
#include "shelf.h"

#define CHECK(holds)                                                           \
    if (!(holds))                                                              \
        return __LINE__

int check_header();

namespace {

typedef std::vector<uint8_t> bytes;

// A capacity of 60, a stock of 1, m 6; masters of 35 and of 40, a count, and
// the withdrawal of either.
const bytes stream = {1, 0, 0, 0, 60, 0, 1, 6, 2, 0, 0, 0, 35,
                      2, 0, 0, 0, 40, 3, 4, 0, 1, 4, 0, 2};
// The same stored sizes, with a trailer of 5.
const bytes trailers = {0x11, 0, 0, 0, 60, 0, 1, 6, 0, 5, 2, 0, 0, 0, 30,
                        2,    0, 0, 0, 35, 3, 4, 0, 1, 4, 0, 2};
// The same in production 1: a switch to it, and then the commands.
const bytes second = {1, 0, 0, 0, 60, 0, 1, 6, 5, 1, 2, 0, 0, 0, 35,
                      2, 0, 0, 0, 40, 3, 4, 0, 2, 4, 0, 3};

// A master of 30 to 40, settled at 50, at 35 and at 35 again; one of 5 to 4.
const bytes ranges = {1, 0, 0, 0, 60, 0, 1, 6, 6, 0,  0, 0, 30, 0, 0, 0, 40,
                      7, 0, 1, 0, 0,  0, 50, 7, 0, 1, 0, 0,  0, 35, 7, 0, 1,
                      0, 0, 0, 35, 6, 0, 0, 0, 5, 0, 0, 0, 4};

uint64_t shelve(const bytes &sent, std::vector<uint16_t> &answers,
                std::vector<uint32_t> &free_units)
{
    return shelf_stream(sent.data(), sent.size(), answers.data(), answers.size(),
                        free_units.data(), free_units.size());
}

uint64_t check_plan(const std::vector<uint32_t> &sizes, uint32_t bin)
{
    const std::vector<uint32_t> bins(sizes.size(), bin);

    return shelf_check_plan(sizes.data(), sizes.size(), bins.data(), bins.size(),
                            sizes.data(), sizes.size(), 60, 1);
}

uint64_t repack(const std::vector<uint32_t> &sizes, std::vector<uint16_t> &answers,
                uint32_t old)
{
    return shelf_repack(sizes.data(), sizes.size(), answers.data(), answers.size(), 60,
                        old);
}

uint64_t pair(const std::vector<uint32_t> &pictures,
              const std::vector<uint32_t> &sounds, std::vector<uint16_t> &answers)
{
    return shelf_pair(pictures.data(), pictures.size(), sounds.data(), sounds.size(),
                      answers.data(), answers.size(), 60);
}

std::string in_words(uint32_t (*number)(uint64_t), uint64_t result)
{
    return shelf_refusal_name(number(result));
}

} // namespace

// The line of the first check that fails, or 0.
int check_header()
{
    std::vector<uint16_t> answers(SHELF_MAX_COMMANDS, 7);
    std::vector<uint32_t> free_units(SHELF_MAX_COMMANDS, 7);
    uint64_t result = shelve(stream, answers, free_units);

    CHECK(!shelf_is_refused(result));
    CHECK(shelf_items(result) == 0 && shelf_opened(result) == 1);
    CHECK(shelf_looks(result) == 1 && shelf_most_looks(1) == 1);
    CHECK(!shelf_answer_is_refused(answers[0]));
    CHECK(answers[0] == 1 && free_units[0] == 25);
    CHECK(shelf_answer_refusal(answers[1]) == SHELF_REFUSAL_STOCK_SPENT);
    CHECK(free_units[1] == 0);
    CHECK(answers[2] == 1 && free_units[2] == 0);
    CHECK(answers[3] == 1 && free_units[3] == 60);
    CHECK(shelf_answer_refusal(answers[4]) == SHELF_REFUSAL_NOT_SHELVED);
    CHECK(free_units[4] == 0);
    CHECK(answers[5] == 7 && free_units[5] == 7);

    std::vector<uint16_t> other_answers(SHELF_MAX_COMMANDS, 7);
    std::vector<uint32_t> other_units(SHELF_MAX_COMMANDS, 7);
    CHECK(shelve(trailers, other_answers, other_units) == result);
    CHECK(other_answers == answers && other_units == free_units);

    CHECK(shelve(second, other_answers, other_units) == result);
    CHECK(other_answers[0] == 1 && other_units[0] == 0);
    for (size_t i = 0; i < 5; i++) {
        CHECK(other_answers[i + 1] == answers[i]);
        CHECK(other_units[i + 1] == free_units[i]);
    }

    CHECK(!shelf_is_refused(shelve(ranges, other_answers, other_units)));
    CHECK(other_answers[0] == 1 && other_units[0] == 20);
    CHECK(shelf_answer_refusal(other_answers[1]) == SHELF_REFUSAL_OUTSIDE_RANGE);
    CHECK(other_answers[2] == 1 && other_units[2] == 25);
    CHECK(shelf_answer_refusal(other_answers[3]) == SHELF_REFUSAL_NOT_RESERVED);
    CHECK(shelf_answer_refusal(other_answers[4]) == SHELF_REFUSAL_RANGE_WRONG);
    CHECK(other_units[1] == 0 && other_units[3] == 0 && other_units[4] == 0);

    bytes third = second;
    third[9] = 2;
    CHECK(shelf_refusal(shelve(third, other_answers, other_units)) ==
          SHELF_REFUSAL_NO_SUCH_PRODUCTION);

    free_units.resize(4);
    result = shelve(stream, answers, free_units);
    CHECK(shelf_refusal(result) == SHELF_REFUSAL_TOO_FEW_WORDS);
    CHECK(shelf_place(result) == stream.size());
    CHECK(in_words(shelf_refusal, result) ==
          "fewer words in a row than commands after the opening");

    CHECK(check_plan({30, 30}, 1) == 0);
    result = check_plan({30, 30, 1}, 1);
    CHECK(shelf_refusal(result) == SHELF_REFUSAL_OVERFULL);
    CHECK(shelf_place(result) == 3);
    CHECK(shelf_refusal(check_plan({30}, 2)) == SHELF_REFUSAL_ENTRY_BIN);

    std::vector<uint16_t> fresh(5, 7);
    result = repack({20, 35, 40, 25}, fresh, 3);
    CHECK(shelf_count(result) == 2 && !shelf_saves_nothing(result));
    CHECK(fresh == std::vector<uint16_t>({1, 2, 1, 2, 7}));
    CHECK(shelf_saves_nothing(repack({20, 35, 40, 25}, fresh, 2)));
    result = repack({20, 61, 0, 1, 1, 1}, fresh, 2);
    CHECK(shelf_refusal(result) == SHELF_REFUSAL_ENTRY_SIZE);
    CHECK(shelf_place(result) == 2);
    result = repack({20, 20, 20, 1, 1, 1}, fresh, 2);
    CHECK(shelf_refusal(result) == SHELF_REFUSAL_TOO_FEW_ANSWERS);
    CHECK(in_words(shelf_refusal, result) == "fewer answer words than sizes");
    CHECK(fresh == std::vector<uint16_t>({1, 2, 1, 2, 7}));

    std::vector<uint16_t> sound_of(5, 7);
    result = pair({40, 20, 50, 20}, {30, 15, 40}, sound_of);
    CHECK(!shelf_is_refused(result) && shelf_pairs(result) == 3);
    CHECK(sound_of == std::vector<uint16_t>({2, 3, 0, 1, 7}));
    result = pair({40, 20, 50, 20, 1, 1}, {30, 61, 0}, sound_of);
    CHECK(shelf_refusal(result) == SHELF_REFUSAL_ENTRY_SIZE);
    CHECK(shelf_place(result) == 8);
    result = pair({40, 20, 50, 20, 1, 1}, {30}, sound_of);
    CHECK(shelf_refusal(result) == SHELF_REFUSAL_TOO_FEW_ANSWERS);
    CHECK(sound_of == std::vector<uint16_t>({2, 3, 0, 1, 7}));

    std::vector<uint8_t> sheet(SHELF_SHEET_BYTES);
    CHECK(shelf_sheet(stream.data(), stream.size(), sheet.data()) == 2 * 41);
    return 0;
}
