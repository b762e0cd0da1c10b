/* What shelf.h says without a call: limits, decoders, names. It is included
 * twice here, and once more in header_main.c. */

#include <string.h>

#include "shelf.h"
#include "shelf.h"

#if SHELF_VERSION != 9
#error "these are the checks of version 9"
#endif

#if SHELF_MIN_M > SHELF_MAX_M || SHELF_MAX_CAPACITY < SHELF_MAX_SHEET_STREAM
#error "the limits are numbers to the preprocessor too"
#endif

#define CHECK(holds)                                                           \
    if (!(holds))                                                              \
        return __LINE__

int check_header(void);

/* The line of the first check that fails, or 0. */
int check_header(void)
{
    const uint64_t accepted = 0x0000000a10000200u;
    const uint64_t widest = 0x7fffffffffffffffu;
    const uint64_t no_words = 0x800000070000900au;
    const uint64_t no_production = 0x8000001200000008u;
    const uint64_t last_plan = 0x80000010ffffffffu;
    const uint64_t repacked = 0x0000000000001000u;
    const uint64_t saves_nothing = 0x0000000100001000u;
    const uint64_t last_size = 0x8000000d00001000u;
    const uint64_t last_sound = 0x8000000d00002000u;
    const uint64_t no_answers = 0x8000001600000000u;
    static const uint16_t figures[] = {0, 1, SHELF_MAX_STOCK, 0x7fff};
    static const uint32_t stocks[] = {1, 2, 4, 8, 16, 32, 64, 128, 256, 512};
    uint32_t number, other;
    size_t i;

    for (i = 0; i < sizeof stocks / sizeof *stocks; i++) {
        CHECK(shelf_most_looks(stocks[i]) == i + 1);
        CHECK(shelf_most_looks(stocks[i] + 1) == (i < 9 ? i + 2 : 10));
        CHECK(i < 2 || shelf_most_looks(stocks[i] - 1) == i + 1);
    }
    CHECK(shelf_most_looks(0) == 1);
    CHECK(shelf_most_looks(UINT32_MAX) == 10);

    CHECK(shelf_most_opened(0) == 0);
    CHECK(shelf_most_opened(1) == 3);
    CHECK(shelf_most_opened(2) == 5);
    CHECK(shelf_most_opened(10) == 18);
    CHECK(shelf_most_opened(306) == 511);
    CHECK(shelf_most_opened(307) == SHELF_MAX_STOCK);
    CHECK(shelf_most_opened(UINT32_MAX) == SHELF_MAX_STOCK);

    CHECK(!shelf_is_refused(accepted));
    CHECK(shelf_refusal(accepted) == 0);
    CHECK(shelf_items(accepted) == SHELF_MAX_COMMANDS);
    CHECK(shelf_opened(accepted) == SHELF_MAX_STOCK);
    CHECK(shelf_looks(accepted) == 10);

    /* None of the figures is taken for another. */
    CHECK(!shelf_is_refused(widest));
    CHECK(shelf_refusal(widest) == 0);
    CHECK(shelf_looks(widest) == 0x7fffffff && shelf_looks(0xffffffff) == 0);
    CHECK(shelf_items(widest) == 0xffff && shelf_items(0x7fffffff0000ffffu) == 0);
    CHECK(shelf_opened(widest) == 0xffff && shelf_opened(0x7fffffffffff0000u) == 0);

    CHECK(shelf_is_refused(no_words));
    CHECK(shelf_refusal(no_words) == SHELF_REFUSAL_TOO_FEW_WORDS);
    CHECK(shelf_place(no_words) == 10 + 9 * SHELF_MAX_COMMANDS);
    CHECK(shelf_refusal(no_production) == SHELF_REFUSAL_NO_SUCH_PRODUCTION);
    CHECK(shelf_place(no_production) == 8);

    CHECK(!shelf_is_refused(0) && shelf_refusal(0) == 0);
    CHECK(shelf_is_refused(last_plan));
    CHECK(shelf_refusal(last_plan) == SHELF_REFUSAL_OTHER_ITEMS);
    CHECK(shelf_place(last_plan) == 0xffffffff);

    CHECK(!shelf_is_refused(repacked) && !shelf_is_refused(saves_nothing));
    CHECK(shelf_count(repacked) == SHELF_MAX_ENTRIES);
    CHECK(shelf_count(saves_nothing) == SHELF_MAX_ENTRIES);
    CHECK(!shelf_saves_nothing(repacked) && shelf_saves_nothing(saves_nothing));
    CHECK(shelf_count(0) == 0 && !shelf_saves_nothing(0));
    CHECK(shelf_pairs(SHELF_MAX_ENTRIES) == SHELF_MAX_ENTRIES);
    CHECK(shelf_pairs(0) == 0 && shelf_pairs(1) == 1);
    CHECK(shelf_refusal(last_size) == SHELF_REFUSAL_ENTRY_SIZE);
    CHECK(shelf_place(last_size) == SHELF_MAX_ENTRIES);
    CHECK(shelf_refusal(last_sound) == SHELF_REFUSAL_ENTRY_SIZE);
    CHECK(shelf_place(last_sound) == 2 * SHELF_MAX_ENTRIES);
    CHECK(shelf_refusal(no_answers) == SHELF_REFUSAL_TOO_FEW_ANSWERS);
    CHECK(shelf_place(no_answers) == 0);

    for (i = 0; i < sizeof figures / sizeof *figures; i++) {
        CHECK(!shelf_answer_is_refused(figures[i]));
        CHECK(shelf_answer_refusal(figures[i]) == 0);
    }
    CHECK(shelf_answer_is_refused(32776));
    CHECK(shelf_answer_refusal(32776) == SHELF_REFUSAL_SIZE_ZERO);
    CHECK(shelf_answer_refusal(32777) == SHELF_REFUSAL_SIZE_ABOVE_CAPACITY);
    CHECK(shelf_answer_refusal(32778) == SHELF_REFUSAL_STOCK_SPENT);
    CHECK(shelf_answer_refusal(32785) == SHELF_REFUSAL_NOT_SHELVED);
    CHECK(shelf_answer_refusal(32787) == SHELF_REFUSAL_RANGE_WRONG);
    CHECK(shelf_answer_refusal(32788) == SHELF_REFUSAL_NOT_RESERVED);
    CHECK(shelf_answer_refusal(32789) == SHELF_REFUSAL_OUTSIDE_RANGE);

    /* Twenty-two names, no two alike, and one for all other numbers. */
    for (number = 0; number <= SHELF_REFUSAL_TOO_FEW_ANSWERS; number++)
        for (other = 0; other < number; other++)
            CHECK(strcmp(shelf_refusal_name(number),
                         shelf_refusal_name(other)) != 0);
    CHECK(strcmp(shelf_refusal_name(23), shelf_refusal_name(0)) == 0);
    CHECK(strcmp(shelf_refusal_name(0xffffffff), shelf_refusal_name(0)) == 0);
    return 0;
}
