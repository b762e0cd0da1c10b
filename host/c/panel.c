/* A panel's round: know how far a search can go, open a shelf for masters with
 * trailers, shelve those of two productions, take a master out again, keep a place
 * for one that is not finished and settle its size, read the answers, print the
 * vault sheet, check plans, repack what remains, put pictures and sounds together. */

#include <inttypes.h>
#include <stdio.h>

#include "shelf.h"

enum { CAPACITY = 60, STOCK = 6, M = 6, TRAILER = 1 };
enum {
    OPEN = 0x11,
    SHELVE = 0x02,
    COUNT = 0x03,
    WITHDRAW = 0x04,
    SWITCH = 0x05,
    RESERVE = 0x06,
    SETTLE = 0x07
};

/* A command and its operands, 0 where it has fewer than two. */
struct command {
    uint8_t byte;
    uint32_t operand, second;
};

static const struct command commands[] = {
    {SHELVE, 34, 0},   {SHELVE, 21, 0},   {SHELVE, 21, 0},   {SHELVE, 21, 0},
    {SHELVE, 21, 0},   {SHELVE, 21, 0},   {SHELVE, 21, 0},   {SWITCH, 1, 0},
    {SHELVE, 34, 0},   {SHELVE, 19, 0},   {SHELVE, 29, 0},   {SHELVE, 60, 0},
    {COUNT, 0, 0},     {WITHDRAW, 3, 0},  {SWITCH, 0, 0},    {WITHDRAW, 3, 0},
    {COUNT, 0, 0},     {RESERVE, 18, 22}, {SETTLE, 18, 23},  {SETTLE, 18, 19}};

enum { COMMANDS = sizeof commands / sizeof *commands };

static uint8_t stream[10 + 9 * COMMANDS];
static size_t length;

/* Of a production's master, by its command: the stored size, 0 where none is
 * shelved, and the cartridge. */
static uint32_t stored[2][COMMANDS], cartridge[2][COMMANDS];

/* The cartridges that a production has opened, emptied ones too. */
static uint32_t opened[2];

/* Appends a number of so many bytes, most significant first. */
static void put(uint32_t number, int bytes)
{
    while (bytes-- > 0)
        stream[length++] = (number >> (8 * bytes)) & 0xff;
}

/* Appends a command, its operands in as many bytes as each takes. */
static void append(const struct command *command)
{
    put(command->byte, 1);
    switch (command->byte) {
    case SHELVE:
        put(command->operand, 4);
        break;
    case WITHDRAW:
        put(command->operand, 2);
        break;
    case SWITCH:
        put(command->operand, 1);
        break;
    case RESERVE:
        put(command->operand, 4);
        put(command->second, 4);
        break;
    case SETTLE:
        put(command->operand, 2);
        put(command->second, 4);
        break;
    default:
        break;
    }
}

static void print_sheet(void)
{
    static uint8_t sheet[SHELF_SHEET_BYTES];

    fwrite(sheet, 1, shelf_sheet(stream, length, sheet), stdout);
}

/* Prints the answer to a master, a withdrawal or a settling; whether it is
 * accepted. The word stands between the operands, and is NULL where one is all. */
static int answered(const char *what, const char *word, struct command command,
                    uint16_t answer, uint32_t free_units)
{
    uint32_t refusal = shelf_answer_refusal(answer);

    printf("%s of %" PRIu32, what, command.operand);
    if (word != NULL)
        printf(" %s %" PRIu32, word, command.second);
    printf(": ");
    if (refusal == 0)
        printf("cartridge %" PRIu16 ", %" PRIu32 " free\n", answer, free_units);
    else
        printf("refused %" PRIu32 ", %s\n", refusal, shelf_refusal_name(refusal));
    return refusal == 0;
}

/* Keeps in mind that a master lies in this cartridge. */
static void keep(int production, size_t i, uint32_t size, uint16_t answer)
{
    stored[production][i] = size + TRAILER;
    cartridge[production][i] = answer;
    if (answer > opened[production])
        opened[production] = answer;
}

/* A production's masters still shelved, in the order of their commands, with their
 * cartridges and the highest of these; how many there are. */
static size_t still_shelved(int production, uint32_t *sizes, uint32_t *bins,
                            uint32_t *highest)
{
    size_t entries = 0, i;

    *highest = 0;
    for (i = 0; i < COMMANDS; i++)
        if (stored[production][i] > 0) {
            sizes[entries] = stored[production][i];
            bins[entries] = cartridge[production][i];
            if (bins[entries] > *highest)
                *highest = bins[entries];
            entries++;
        }
    return entries;
}

/* Prints why a plan or a row was refused. */
static void print_refusal(uint64_t result)
{
    uint32_t refusal = shelf_refusal(result);

    printf("refusal %" PRIu32 " at place %" PRIu32 ": %s\n", refusal,
           shelf_place(result), shelf_refusal_name(refusal));
}

/* Checks a plan of just these masters, in cartridges up to the highest, with the
 * second moved to this cartridge unless it is 0. */
static void report(const char *name, int production, uint32_t moved)
{
    uint32_t sizes[COMMANDS], bins[COMMANDS];
    uint32_t k;
    size_t entries = still_shelved(production, sizes, bins, &k);
    uint64_t result;

    if (moved > 0)
        bins[1] = moved;
    result = shelf_check_plan(sizes, entries, bins, entries, sizes, entries,
                              CAPACITY, k);
    printf("%s: ", name);
    if (shelf_is_refused(result))
        print_refusal(result);
    else
        printf("passed\n");
}

/* Says where the masters of a production go at the season's end. */
static void repack(int production)
{
    uint32_t sizes[COMMANDS], bins[COMMANDS], highest;
    uint32_t old = opened[production];
    uint16_t fresh[COMMANDS];
    size_t entries = still_shelved(production, sizes, bins, &highest), i;
    uint64_t result = shelf_repack(sizes, entries, fresh, COMMANDS, CAPACITY, old);

    if (shelf_is_refused(result)) {
        print_refusal(result);
        return;
    }
    printf("production %d repacked:", production);
    for (i = 0; i < entries; i++)
        printf(" %" PRIu32 " on %" PRIu16 ",", sizes[i], fresh[i]);
    printf(" %" PRIu32 " cartridges before, %" PRIu32 " after%s\n", old,
           shelf_count(result),
           shelf_saves_nothing(result) ? ": the move saves nothing" : "");
}

/* Says which picture and which sound go onto one cartridge, by their stored sizes. */
static void pair(void)
{
    static const uint32_t pictures[] = {40, 20, 50, 20}, sounds[] = {30, 15, 40};
    enum { PICTURES = sizeof pictures / sizeof *pictures };
    enum { SOUNDS = sizeof sounds / sizeof *sounds };
    uint16_t sound_of[PICTURES];
    uint64_t result = shelf_pair(pictures, PICTURES, sounds, SOUNDS, sound_of,
                                 PICTURES, CAPACITY);
    size_t i;

    if (shelf_is_refused(result)) {
        print_refusal(result);
        return;
    }
    printf("paired:");
    for (i = 0; i < PICTURES; i++)
        if (sound_of[i] > 0)
            printf(" %" PRIu32 " with %" PRIu32 ",", pictures[i],
                   sounds[sound_of[i] - 1]);
        else
            printf(" %" PRIu32 " alone,", pictures[i]);
    printf(" %" PRIu32 " pairs\n", shelf_pairs(result));
}

int main(void)
{
    uint16_t answers[COMMANDS];
    uint32_t free_units[COMMANDS];
    uint64_t result;
    uint32_t refusal;
    int production = 0;
    size_t i;

    printf("no search takes more than %" PRIu32 " looks\n", shelf_most_looks(STOCK));
    put(OPEN, 1);
    put(CAPACITY, 4);
    put(STOCK, 2);
    put(M, 1);
    put(TRAILER, 2);
    for (i = 0; i < COMMANDS; i++)
        append(&commands[i]);

    result = shelf_stream(stream, length, answers, COMMANDS, free_units,
                          COMMANDS);
    if (shelf_is_refused(result)) {
        refusal = shelf_refusal(result);
        fprintf(stderr, "refusal %" PRIu32 " at byte %" PRIu32 ": %s\n", refusal,
                shelf_place(result), shelf_refusal_name(refusal));
        return 1;
    }

    for (i = 0; i < COMMANDS; i++) {
        struct command sent = commands[i];

        switch (sent.byte) {
        case SHELVE:
            if (answered("master", NULL, sent, answers[i], free_units[i]))
                keep(production, i, sent.operand, answers[i]);
            break;
        case RESERVE:
            if (answered("master", "to", sent, answers[i], free_units[i]))
                keep(production, i, sent.second, answers[i]);
            break;
        case SETTLE:
            if (answered("settling", "at", sent, answers[i], free_units[i]))
                stored[production][sent.operand - 1] = sent.second + TRAILER;
            break;
        case WITHDRAW:
            if (answered("withdrawal", NULL, sent, answers[i], free_units[i]))
                stored[production][sent.operand - 1] = 0;
            break;
        case SWITCH:
            production = answers[i];
            printf("production %d\n", production);
            break;
        default:
            printf("%" PRIu16 " cartridges opened\n", answers[i]);
        }
    }
    printf("%" PRIu32 " masters in %" PRIu32 " cartridges, the longest search %" PRIu32
           " looks\n",
           shelf_items(result), shelf_opened(result), shelf_looks(result));
    print_sheet();

    /* The masters still shelved, in their stored sizes, and where they lie are a
     * plan of their own in each production. */
    report("production 0's own plan", 0, 0);
    report("production 1's own plan", 1, 0);

    /* Moving the first 21 beside the 34 and another 21 overfills cartridge 1. */
    report("a crowded plan", 0, 1);

    repack(0);
    repack(1);
    pair();
    return 0;
}
