/*
 * shelf.h - the shelving library: Refined First-Fit over a command stream, the
 * vault sheet of a stream, the plan checker, First-Fit-Decreasing for a closed shelf,
 * and as many pairs of a picture and a sound as can be had. docs/MANUAL.md tells the
 * whole of it. For C99 and later, and for C++.
 *
 * Link with libshelf.a, for x86-64 Linux: host/staticlib proves the library (the
 * crate shelf_c) and writes target/staticlib/libshelf.a. A call allocates nothing;
 * allow it 216 KB of stack (shelf_stream), 240 KB (shelf_sheet), 17 KB
 * (shelf_check_plan) or 104 KB (shelf_repack, shelf_pair).
 *
 * The calls are total: every input within the rules on pointers below has the
 * result described here. No call keeps a pointer, or any state, after it
 * returns.
 *
 * Pointers. Each row is a pointer and its length in elements. A pointer must
 * be valid for that many elements, aligned for its type, and not NULL, also
 * where the length is 0 (any address of the type will do then; nothing is read
 * or written through it). Neither row of shelf_stream may overlap the other or
 * the stream, nor may the sheet overlap the stream, nor the answers of shelf_repack
 * its sizes, nor those of shelf_pair its pictures or its sounds. The rows of
 * shelf_check_plan are only read and may overlap, and so may pictures and sounds.
 */
#ifndef SHELF_H
#define SHELF_H

#include <stddef.h>
#include <stdint.h>

/*
 * The version of this interface. It is raised by one whenever a call, a command,
 * a row, a result or a refusal is added or changes. Header and libshelf.a must
 * be of one version: nothing checks it.
 */
#define SHELF_VERSION 9

/*
 * Limits. Capacity, stock and sizes are at least 1; the trailer, and what is
 * counted, may be 0.
 */
#define SHELF_MAX_CAPACITY 16777216  /* units of a cartridge */
#define SHELF_MAX_STOCK 512          /* cartridges */
#define SHELF_MIN_M 6
#define SHELF_MAX_M 9
#define SHELF_MAX_TRAILER 65535      /* units; it may be above the capacity */
#define SHELF_MAX_COMMANDS 4096      /* after the opening */
#define SHELF_MAX_ENTRIES 4096       /* of a plan; its masters; its k; a row */
#define SHELF_MAX_SHEET_STREAM 32768 /* bytes of a stream with a sheet */

/* The most bytes of a sheet: 512 cartridge lines and 12 page lines of 41. */
#define SHELF_SHEET_BYTES 21484

/* The numbers of the refusals, in all calls and in answer words. */
enum {
    /* Of a stream. */
    SHELF_REFUSAL_NOT_OPENED = 1,
    SHELF_REFUSAL_UNKNOWN_COMMAND = 2,
    SHELF_REFUSAL_CUT_SHORT = 3,
    SHELF_REFUSAL_SECOND_OPENING = 4,
    SHELF_REFUSAL_OPENING_OUTSIDE_LIMITS = 5,
    SHELF_REFUSAL_TOO_MANY_COMMANDS = 6,
    SHELF_REFUSAL_TOO_FEW_WORDS = 7,
    /* Of one master. */
    SHELF_REFUSAL_SIZE_ZERO = 8,
    SHELF_REFUSAL_SIZE_ABOVE_CAPACITY = 9,
    SHELF_REFUSAL_STOCK_SPENT = 10,
    /* Of a plan; 11 to 13 also of rows of sizes. */
    SHELF_REFUSAL_CAPACITY_OUTSIDE_LIMITS = 11,
    SHELF_REFUSAL_ABOVE_LIMIT = 12,
    SHELF_REFUSAL_ENTRY_SIZE = 13,
    SHELF_REFUSAL_ENTRY_BIN = 14,
    SHELF_REFUSAL_OVERFULL = 15,
    SHELF_REFUSAL_OTHER_ITEMS = 16,
    /* Of a withdrawal. */
    SHELF_REFUSAL_NOT_SHELVED = 17,
    /* Of a stream again. */
    SHELF_REFUSAL_NO_SUCH_PRODUCTION = 18,
    /* Of one master with a range, in place of 8. */
    SHELF_REFUSAL_RANGE_WRONG = 19,
    /* Of a settling. */
    SHELF_REFUSAL_NOT_RESERVED = 20,
    SHELF_REFUSAL_OUTSIDE_RANGE = 21,
    /* Of rows of sizes. */
    SHELF_REFUSAL_TOO_FEW_ANSWERS = 22
};

#ifdef __cplusplus
extern "C" {
#endif

/*
 * Shelves a stream of commands.
 *
 * stream       stream_len bytes, only read. A command is one byte, given in hex,
 *              and its operands, unsigned, most significant byte first:
 *                  01  capacity (4 bytes), stock (2), m (1)   opening
 *                  11  the same, and then the trailer (2)     opening
 *                  02  size (4 bytes)                         shelve a master
 *                  03                                         count cartridges
 *                  04  command number (2 bytes)               take a master out
 *                  05  production (1 byte), 0 or 1            switch to it
 *                  06  least (4 bytes), greatest (4)          shelve a master whose
 *                                                             size is in this range
 *                  07  command number (2 bytes), size (4)     settle its size
 *              The first command is an opening, of either kind, and there is no
 *              other. The commands after it are numbered from 1.
 * answers      answers_len words.
 * free_units   free_len words.
 *
 * The trailer is the units that the cartridges' format writes after each master;
 * a stream opened with 01 has a trailer of 0. A master's stored size is its size
 * plus the trailer, exact also where it passes 32 bits. That is what the master
 * takes up: where it goes and whether it fits, a cartridge's load and its free
 * units all go by stored sizes. Only refusals 8, 19 and 21 do not: they go by sizes
 * as they are sent.
 *
 * A master of 06 is shelved by its greatest size, and takes up that until a 07 names
 * it and tells its size. From then on it takes up its own; its class, its cartridge
 * and the class of that stay as they are. A settled A is still an A, and an A goes to
 * any cartridge of class 1 with space, so that several may come to lie on one.
 * Whatever sizes within their ranges the masters not yet settled turn out to have, no
 * cartridge holds more than the capacity.
 *
 * Two productions draw on the stock. The commands after a 05 belong to the one
 * that it names, until the next 05; a stream starts in production 0. Each has its
 * own shelf: its own cartridges, numbered from 1, its own masters and its own
 * count of B2 masters. The stock is spent when both together have opened it all.
 * The commands are numbered through, whichever production they belong to.
 *
 * If the stream is accepted, the result is
 *     looks * 2^32 + masters still shelved * 2^16 + cartridges opened
 * (looks at most 10, the others below 2^16, and bit 63 is 0), of both productions
 * together. Still shelved are the masters accepted and not taken out; opened is
 * every cartridge that was opened, emptied or not; looks are the most that one
 * search took.
 *
 * A master's cartridge is searched for in a tree over the whole stock, also where
 * the other production has opened some of it. A node has the largest free space of
 * the permitted cartridges below it, and a look is a reading of one node: of the
 * root, and while the master fits, of the left half of each level, until one
 * cartridge is left. So a search takes 1 look if no permitted cartridge has space
 * (the master then opens a new one, or is refused with 10), and otherwise
 * shelf_most_looks(stock); it never takes more. Each master, of 02 or 06, makes one
 * search, but for those refused with 8, 9 or 19, and no other command makes any. The
 * figure is the largest over the searches of both productions, not their sum, and 0
 * if none was made.
 *
 * answers[n - 1] holds the answer to command n, where cartridges and masters are
 * those of its production:
 *     to 02   the number of the cartridge the master lies in, 1 to the stock;
 *             cartridges are numbered in order of opening; or
 *             32768 + 8    the size, without the trailer, is 0
 *             32768 + 9    the stored size is above the capacity
 *             32768 + 10   a new cartridge is called for, and the stock is spent
 *                          by both productions together
 *             of these the first that applies; a refused master leaves the
 *             shelf as it was, and the stream goes on
 *     to 03   the number of cartridges opened, 0 to the stock
 *     to 04   the number of the cartridge that the master left, which is the
 *             answer to the command named; or
 *             32768 + 17   no master of that number is on the shelf: the command
 *                          named is not an earlier 02 or 06, or was refused, or
 *                          its master is out already or the other production's
 *             and then the shelf is as it was, and the stream goes on. An
 *             emptied cartridge stays opened, keeps its number and class, and is
 *             chosen like any other of its class.
 *     to 05   the production, 0 or 1, also if it is the one already
 *     to 06   as to 02, by the greatest size, but in place of 8
 *             32768 + 19   the least, without the trailer, is 0 or above the
 *                          greatest
 *             comes first, and then 9 and 10
 *     to 07   the number of the cartridge the master lies in, which is the answer
 *             to the command named; or
 *             32768 + 20   no master of that number waits to be settled: the
 *                          command named is not an earlier 06, or was refused, or
 *                          its master is out, settled already or the other
 *                          production's
 *             32768 + 21   the size is below the least or above the greatest that
 *                          the command named gave, all without the trailer
 *             of these the first that applies, and then the shelf is as it was,
 *             and the stream goes on
 * free_units[n - 1] holds, where command n is answered by a master's cartridge,
 * the units free on that cartridge just after the command, with the master on it
 * (02, 06 and 07) or without (04): the capacity less the cartridge's load then. For
 * a refused command, and for 03 and 05, it holds 0. Words past the last command are
 * untouched, in either row.
 *
 * If the stream is refused, the result is
 *     2^63 + number * 2^32 + offset
 * and every word of both rows is untouched. The first faulty command decides; at
 * one command the order is 1, 6, 2, 4, 3, 18, 5, and 7 comes last of all.
 *     number  offset                    condition
 *     1       0                         the stream is empty, or its first byte
 *                                       is neither 01 nor 11
 *     2       of the command byte       the byte is none of 01 to 07 and 11
 *     3       of the command byte       operands cut short by the stream's end
 *     4       of the command byte       a second opening, of either kind, cut
 *                                       short or not
 *     5       0                         capacity, stock or m of the opening
 *                                       outside its limits
 *     6       of the 4097th command     more than 4096 commands after the
 *             after the opening         opening
 *     7       the stream's length       answers_len or free_len is below the
 *                                       number of commands after the opening
 *     18      of the command byte       the production of a 05 is above 1
 *
 * A word does not tell a cartridge's number from a count or a production: the
 * command does. Nor do 0 free units tell a full cartridge from a refusal: the
 * answer does.
 */
uint64_t shelf_stream(const uint8_t *stream, size_t stream_len,
                      uint16_t *answers, size_t answers_len,
                      uint32_t *free_units, size_t free_len);

/*
 * Writes the vault sheet of a stream: a text, with a line for each cartridge
 * that is opened once the whole stream is done, emptied or not, and for no other.
 *
 * stream       stream_len bytes, only read, as for shelf_stream.
 * sheet        SHELF_SHEET_BYTES bytes.
 *
 * The result is the length of the text, 0 to SHELF_SHEET_BYTES. The text stands
 * at the front of sheet, with no NUL behind it, and the bytes behind it are
 * untouched.
 *
 * A line has 40 characters and a newline. Numbers are right-aligned with
 * spaces. A cartridge's line is
 *     columns     1-4     6      8-15  17-24       26-29         others
 *     holds       number  class  load  free units  masters held  spaces
 * in rising number, all of production 0 and then all of production 1. Before each
 * 50 of a production, or what is left of 50, stands
 *     columns     1-4     6-8          others
 *     holds       PAGE    page number  spaces
 * with pages numbered from 1, and on from production 0 to production 1. So each
 * production starts a page with its cartridge 1; one that opened nothing has no
 * line. No line names the production: where only one has lines, the answers tell
 * which. Load and masters held are of the masters still shelved: the loads add up
 * to the stored sizes of these, as settled, or the greatest till then.
 *
 * Where there is no sheet, the text is one line, not filled up:
 *     X number offset     the stream is refused, as by shelf_stream with rows of
 *                         4096 words, so never with 7
 *     L 32768             stream_len is above 32768, whatever the bytes are;
 *                         shelf_stream takes longer ones
 */
uint64_t shelf_sheet(const uint8_t *stream, size_t stream_len, uint8_t *sheet);

/*
 * Checks that a plan packs the given masters, in their order, into cartridges
 * numbered 1 to k. Nothing is written. Sizes are taken as they are given: those
 * of a shelf's own masters, in the plan and in the list, must be stored sizes, as
 * settled, or the greatest till then. Each production has a plan of its own.
 *
 * sizes, bins  the plan: entry i is the size sizes[i] in the cartridge bins[i],
 *              for i below the lesser of sizes_len and bins_len. Elements that
 *              only one of the rows has are not part of the plan.
 * items        the sizes of the masters.
 * capacity     of a cartridge.
 * k            the highest cartridge number permitted; it may be larger than
 *              the number of cartridges used.
 *
 * The result is 0 if the plan passes. Otherwise it is
 *     2^63 + number * 2^32 + place
 * for the first of these, where "length" is the plan's number of entries:
 *     number  place                     condition
 *     11      0                         capacity outside its limits
 *     12      0                         k, the length or items_len above 4096
 *     16      the lesser length + 1     the length is not items_len
 * and then for the first entry, by place from 1, to which one applies, in this
 * order:
 *     16      of the entry              its size is not that of the same-placed
 *                                       master
 *     13      of the entry              its size is 0 or above the capacity
 *     14      of the entry              its cartridge is 0 or above k
 *     15      of the entry              with it, the sizes in its cartridge
 *                                       exceed the capacity
 */
uint64_t shelf_check_plan(const uint32_t *sizes, size_t sizes_len,
                          const uint32_t *bins, size_t bins_len,
                          const uint32_t *items, size_t items_len,
                          uint32_t capacity, uint32_t k);

/*
 * Repacks a row of sizes, those of a closed shelf or any others, by
 * First-Fit-Decreasing: the largest is placed first, equal ones in the order of the
 * row, each in the lowest-numbered cartridge where it still fits, and in a new one
 * if there is none. All cartridges are of one class, and they are fresh ones,
 * numbered from 1.
 *
 * sizes        sizes_len sizes, only read. They are taken as they are given: those of
 *              a shelf's own masters must be stored sizes, as settled, or the
 *              greatest till then, and each production is repacked by itself.
 * answers      answers_len words.
 * capacity     of a cartridge.
 * old          the cartridges that the masters lie on now, emptied ones too; it has
 *              no limit, and makes no difference to the answers.
 *
 * If the row is accepted, the result is the number of cartridges of the plan, at most
 * 4096, plus 2^32 if the move saves nothing (bit 63 is 0). It saves nothing exactly
 * if that number is not below old. answers[i] is the cartridge of sizes[i], in the
 * order of the row; each number from 1 to that of the cartridges is answered to some
 * size. Words past the last answer are untouched.
 *
 * The sizes and their answers are a plan that shelf_check_plan passes, with k that
 * number of cartridges. And twice that number is at most three times the cartridges
 * of any plan of these sizes that passes, with nothing added.
 *
 * If the row is refused, the result is
 *     2^63 + number * 2^32 + place
 * and every word of answers is untouched. It is the first of these:
 *     number  place                     condition
 *     11      0                         capacity outside its limits
 *     12      0                         sizes_len above 4096
 *     13      of the first such size,   a size is 0 or above the capacity
 *             from 1
 *     22      0                         answers_len is below sizes_len
 */
uint64_t shelf_repack(const uint32_t *sizes, size_t sizes_len,
                      uint16_t *answers, size_t answers_len,
                      uint32_t capacity, uint32_t old);

/*
 * Pairs pictures with sounds, one of each to a cartridge, by Algorithm PM: the
 * pictures are taken from the smallest, and each gets the largest sound that fits
 * beside it (the two sizes are at most the capacity together) among those counted
 * smaller than the last one used. The first picture for which there is none ends it.
 * Of equal sizes the later in its row is counted larger, so of equal pictures the
 * earlier comes first, and of equal sounds the later is used first.
 *
 * pictures     pictures_len sizes, only read. They are taken as they are given: where
 *              a trailer is written they must be stored sizes.
 * sounds       sounds_len sizes, only read, and taken likewise.
 * answers      answers_len words.
 * capacity     of a cartridge.
 *
 * If the rows are accepted, the result is the number of pairs, 0 to 4096, and nothing
 * else. answers[i] is the place of the sound of pictures[i], from 1 in the row of
 * sounds, or 0 if it has none. Words past the last picture are untouched.
 *
 * Each pair fits the capacity, no sound is used twice, and the result is the number
 * of the answers above 0. And no way of pairing the two rows, each pair fitting and
 * no picture and no sound in two pairs, has more pairs.
 *
 * If the rows are refused, the result is
 *     2^63 + number * 2^32 + place
 * and every word of answers is untouched. It is the first of these:
 *     number  place                     condition
 *     11      0                         capacity outside its limits
 *     12      0                         pictures_len or sounds_len above 4096
 *     13      of the first such size,   a size is 0 or above the capacity: pictures
 *             from 1                    first, then sounds, whose places count on,
 *                                       from pictures_len + 1
 *     22      0                         answers_len is below pictures_len
 */
uint64_t shelf_pair(const uint32_t *pictures, size_t pictures_len,
                    const uint32_t *sounds, size_t sounds_len,
                    uint16_t *answers, size_t answers_len, uint32_t capacity);

#ifdef __cplusplus
}
#endif

/*
 * Reading a result of shelf_stream, shelf_check_plan, shelf_repack or shelf_pair.
 */

/* Whether the stream, the plan or the rows are refused. */
static inline int shelf_is_refused(uint64_t result)
{
    return (result >> 63) != 0;
}

/* The number of its refusal; 0 if it is not refused. */
static inline uint32_t shelf_refusal(uint64_t result)
{
    return shelf_is_refused(result) ? (result >> 32) & 0x7fffffffu : 0;
}

/* Of a refused stream the offset, of a refused plan or refused rows the place. */
static inline uint32_t shelf_place(uint64_t result)
{
    return result & 0xffffffffu;
}

/* Of an accepted stream the masters still shelved, of both productions. */
static inline uint32_t shelf_items(uint64_t result)
{
    return (result >> 16) & 0xffffu;
}

/* Of an accepted stream the cartridges opened by both, emptied ones too. */
static inline uint32_t shelf_opened(uint64_t result)
{
    return result & 0xffffu;
}

/* Of an accepted stream the most looks of one search; 0 if none was made. */
static inline uint32_t shelf_looks(uint64_t result)
{
    return (result >> 32) & 0x7fffffffu;
}

/* Of a repacked row the cartridges of its plan. */
static inline uint32_t shelf_count(uint64_t result)
{
    return result & 0xffffffffu;
}

/* Of a repacked row whether these are not fewer than the old ones. */
static inline int shelf_saves_nothing(uint64_t result)
{
    return ((result >> 32) & 1) != 0;
}

/* Of paired rows the number of pairs. */
static inline uint32_t shelf_pairs(uint64_t result)
{
    return result & 0xffffffffu;
}

/*
 * The most looks that a search ever takes over this stock, known before the stream
 * is opened: 1 + h, where h is the least number with 2^h at least the stock. No
 * stream opens with a stock of 0 or one above SHELF_MAX_STOCK: these are taken for
 * 1 and for SHELF_MAX_STOCK.
 */
static inline uint32_t shelf_most_looks(uint32_t stock)
{
    uint32_t places = 1, looks = 1;

    while (places < stock && places < SHELF_MAX_STOCK) {
        places *= 2;
        looks++;
    }
    return looks;
}

/*
 * The most cartridges that a production ever opens of which no master was taken
 * out or settled, where a plan of its masters, by stored sizes (the greatest, of a
 * master of 06), that shelf_check_plan passes uses k cartridges: three times their
 * number is at most 5k + 5. For every k from 1 to SHELF_MAX_STOCK and every m there
 * is a stream that opens so many, with a stock of SHELF_MAX_STOCK. Of a smaller
 * stock no more than that are opened.
 */
static inline uint32_t shelf_most_opened(uint32_t k)
{
    if (k == 0)
        return 0;
    return k >= 307 ? SHELF_MAX_STOCK : (5 * k + 5) / 3;
}

/*
 * Reading an answer word of an accepted stream.
 */

/* Whether the command is refused. */
static inline int shelf_answer_is_refused(uint16_t word)
{
    return word >= 0x8000u;
}

/* The number of its refusal; 0 if it is not refused. */
static inline uint32_t shelf_answer_refusal(uint16_t word)
{
    return shelf_answer_is_refused(word) ? word & 0x7fffu : 0;
}

/* A refusal in words, by its number; never NULL. */
static inline const char *shelf_refusal_name(uint32_t number)
{
    switch (number) {
    case SHELF_REFUSAL_NOT_OPENED:
        return "the stream is empty or does not start with an opening";
    case SHELF_REFUSAL_UNKNOWN_COMMAND:
        return "unknown command byte";
    case SHELF_REFUSAL_CUT_SHORT:
        return "operands cut short by the end of the stream";
    case SHELF_REFUSAL_SECOND_OPENING:
        return "a second opening";
    case SHELF_REFUSAL_OPENING_OUTSIDE_LIMITS:
        return "capacity, stock or m outside its limits";
    case SHELF_REFUSAL_TOO_MANY_COMMANDS:
        return "more than 4096 commands after the opening";
    case SHELF_REFUSAL_TOO_FEW_WORDS:
        return "fewer words in a row than commands after the opening";
    case SHELF_REFUSAL_SIZE_ZERO:
        return "size 0";
    case SHELF_REFUSAL_SIZE_ABOVE_CAPACITY:
        return "size and trailer above the capacity";
    case SHELF_REFUSAL_STOCK_SPENT:
        return "a new cartridge is called for and the stock is spent";
    case SHELF_REFUSAL_CAPACITY_OUTSIDE_LIMITS:
        return "capacity outside its limits";
    case SHELF_REFUSAL_ABOVE_LIMIT:
        return "more than 4096 entries, masters or cartridges";
    case SHELF_REFUSAL_ENTRY_SIZE:
        return "the size is 0 or above the capacity";
    case SHELF_REFUSAL_ENTRY_BIN:
        return "the entry's cartridge is 0 or above k";
    case SHELF_REFUSAL_OVERFULL:
        return "with this entry its cartridge exceeds the capacity";
    case SHELF_REFUSAL_OTHER_ITEMS:
        return "the plan is not of these masters";
    case SHELF_REFUSAL_NOT_SHELVED:
        return "no master of that number is on the shelf";
    case SHELF_REFUSAL_NO_SUCH_PRODUCTION:
        return "no production has that number";
    case SHELF_REFUSAL_RANGE_WRONG:
        return "the least size is 0 or above the greatest";
    case SHELF_REFUSAL_NOT_RESERVED:
        return "no master of that number waits to be settled";
    case SHELF_REFUSAL_OUTSIDE_RANGE:
        return "the size is outside the master's range";
    case SHELF_REFUSAL_TOO_FEW_ANSWERS:
        return "fewer answer words than sizes";
    default:
        return "no refusal has this number";
    }
}

#endif
