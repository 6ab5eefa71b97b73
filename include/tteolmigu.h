/*
 * Tteolmigu: a hyphenator for print modules.
 *
 * Link with libtteolmigu.a, which './build tteolmigu' writes as target/staticlib/libtteolmigu.a. From the repository's top:
 *
 *     cc -std=c99 -Iinclude program.c target/staticlib/libtteolmigu.a -o program
 *
 * The archive is for x86-64 Linux and needs nothing of the C library but memcpy and memset. No call allocates, keeps anything of its own
 * for a later call, or reads or writes anything but the memory that it is lent: what a running text needs from piece to piece stands in
 * a state that the caller lends. So any number of threads may call at once as long as no two of them share a room or a state.
 *
 * Lent memory. Every text, table and room is a pointer and a size in bytes; a state is a pointer to TTEOLMIGU_STATE bytes. A pointer must
 * not be null, even where the size is 0, and must have as many bytes as the size says. Only 'room' is written, by tteolmigu_piece and
 * tteolmigu_end also 'state', and by tteolmigu_fit nothing; what is written must not overlap any other argument. Texts, tables and
 * states may hold any bytes, and widths any doubles: each call ends with a finding or with a numbered refusal, whatever they hold.
 *
 * Words. A word's bytes are letters, a to z and A to Z, and apostrophes (byte 39), each between two letters; capitals count as small,
 * and an apostrophe counts as a letter, for limits, margins and gaps alike. Any other byte, and an apostrophe elsewhere, is ground 3.
 * tteolmigu_1980 takes letters alone.
 *
 * Running text. tteolmigu_piece and tteolmigu_end take a whole text, in pieces that end anywhere, and find its words themselves; any byte
 * may stand between these. What is left open at the end of a piece stands in the state.
 *
 * Tables. A table is a head of 6 bytes, then C cells of 6 bytes each, then E entries of 5 bytes each, and nothing behind. Bytes 0 and 1
 * are the head's kind and the edition, both 1. Bytes 2 and 3 tell C and bytes 4 and 5 tell E, each with the high byte first. The length
 * is 6 + 6C + 5E. docs/FORMATS.md has cells and entries, to the byte.
 *
 * Widths. A width is a double, an IEEE 754 binary64 number, in millimetres. Sums of widths are taken one addition after the other, each
 * rounded once to a double: to nearest, ties to even, subnormal numbers kept. That is the processor's state as every program starts with
 * it; a thread that changed it (fesetround, flushing subnormals to zero, or feenableexcept, which a signalling not-a-number would
 * trip) must change it back before it calls tteolmigu_fit. The archive adds with SSE2's addsd alone, so that nothing is kept wider than
 * a double and no two operations become one; tests/floats holds it to that.
 *
 * Stack. Pack takes at most TTEOLMIGU_PACK_STACK bytes, piece and end at most TTEOLMIGU_PIECE_STACK, 1980 at most TTEOLMIGU_1980_STACK
 * and every other call at most TTEOLMIGU_STACK, whatever texts and tables hold; as compiled today these are 18,648 bytes for pack, 1,266
 * for piece, 1,138 for end, 280 for 1980, 770 for hyphenate, 354 for levels, 360 for check, 240 for lookup and at most 64 for fit. No
 * function calls itself, so that a chain of 2,048 entries takes no more than a single entry, and a long piece no more than a short one.
 * This isn't proved; tests/stack holds the archive to it, with the longest chains and the fullest lists. Where a program's symbols are
 * bound lazily, the loader takes stack of its own besides, once, at the first memset or memcpy.
 *
 * Answers. Each call returns one number of 64 bits. Bits 56 to 63 are 0 for a finding, else the number of the ground on which the call
 * refuses. A refusal tells in bits 48 to 55 the exception list it speaks of (1 the customer's, 2 the house's, 0 none) and in bits 0 to
 * 47 the place (0 where it tells none). What a finding has in the other bits stands at each call.
 *
 * Grounds:
 *    1  a margin outside 1 to 63
 *    2  the word is empty
 *    3  a byte of the word is no letter and no apostrophe between two letters; the place is its number, from 0
 *    4  the word has 64 bytes or more
 *    5  the break or level room has fewer than 64 bytes
 *    6  a bad exception line; the list, and as place the offset of the first bad line
 *    7  a bad pattern line; the place is the offset of the first bad line
 *    8  a text is over its limit: 32,768 bytes for patterns, 8,192 for each exception list
 *    9  the table's length or its first record is wrong
 *   10  the pack room has fewer than 59,398 bytes
 *   11  the table of this list would need more than 8,192 cells or 2,048 entries
 *   12  the table isn't right for the list
 *   13  a width outside 0 to 1,000, or not a number: the hyphen's, the line's, one of the 26 letters' or the apostrophe's
 *   14  the room for running text has fewer than three bytes for each byte held or in the piece
 *   21  the piece takes the running text past 1,048,576 bytes
 *
 * A refusal leaves room and state as they were, but for ground 11, which sets the room's first 59,398 bytes to zero.
 */
#ifndef TTEOLMIGU_H
#define TTEOLMIGU_H

#include <stddef.h>
#include <stdint.h>

#ifdef __cplusplus
extern "C" {
#endif

/* The version of this header and of the library that it declares. A later one has a greater TTEOLMIGU_VERSION. */
#define TTEOLMIGU_VERSION_MAJOR 2
#define TTEOLMIGU_VERSION_MINOR 1
#define TTEOLMIGU_VERSION_PATCH 0
#define TTEOLMIGU_VERSION (TTEOLMIGU_VERSION_MAJOR * 1000000 + TTEOLMIGU_VERSION_MINOR * 1000 + TTEOLMIGU_VERSION_PATCH)

/* Sizes that a caller needs for its rooms. */
#define TTEOLMIGU_ROOM 64u          /* a break or level room has at least so many bytes */
#define TTEOLMIGU_PACK_ROOM 59398u  /* a pack room has at least so many bytes, and no table has more */

/* Words and margins. */
#define TTEOLMIGU_WORD_LIMIT 63u    /* letters of a word, apostrophes among them, at most; at least 1 */
#define TTEOLMIGU_MARGIN_LEAST 1u   /* a margin, at least */
#define TTEOLMIGU_MARGIN_LIMIT 63u  /* a margin, at most */
#define TTEOLMIGU_LOOK_LIMIT 1040u  /* cells looked at for a word, at most: 16 * (63 + 2) */

/* Running text. */
#define TTEOLMIGU_STATE 72u              /* bytes of a state: 8 and TTEOLMIGU_WORD_LIMIT + 1 */
#define TTEOLMIGU_RUNNING_TEXT 1048576u  /* bytes of a running text, at most */
#define TTEOLMIGU_ROOM_PER_BYTE 3u       /* bytes of its room for each byte held or in the piece, at least */

/* The table machine of 1980, which has numbers of its own. */
#define TTEOLMIGU_1980_ROOM 64u     /* its break room has at least so many bytes */
#define TTEOLMIGU_1980_LETTERS 63u  /* letters of its words, at most; at least 1 */

/* Widths. */
#define TTEOLMIGU_WIDTHS 27u            /* letter widths: one for each letter, a to z, and behind them the apostrophe's */
#define TTEOLMIGU_APOSTROPHE_WIDTH 26u  /* where the apostrophe's stands among them, from 0 */
#define TTEOLMIGU_WIDTH_LEAST 0.0       /* a width, at least */
#define TTEOLMIGU_WIDTH_LIMIT 1000.0    /* a width, at most */

/* Lists. */
#define TTEOLMIGU_PATTERN_TEXT 32768u   /* bytes of a pattern list, at most */
#define TTEOLMIGU_PATTERN_LIMIT 16u     /* symbols of a pattern, at most; at least 1 */
#define TTEOLMIGU_LEVEL_LIMIT 9u        /* a level, at most */
#define TTEOLMIGU_EXCEPTION_TEXT 8192u  /* bytes of an exception list, at most; each list for itself */
#define TTEOLMIGU_EXCEPTION_LIMIT 63u   /* letters of an exception line and its apostrophes, at most, without its hyphens; at least 1 */
#define TTEOLMIGU_CUSTOMER_LIST 1u      /* the number of the customer's list in an answer */
#define TTEOLMIGU_HOUSE_LIST 2u         /* the number of the house's list in an answer */

/* Tables. */
#define TTEOLMIGU_EDITION 1u                       /* the edition that a head tells */
#define TTEOLMIGU_HEAD_SIZE 6u                     /* bytes of the head */
#define TTEOLMIGU_CELL_SIZE 6u                     /* bytes of a cell */
#define TTEOLMIGU_ENTRY_SIZE 5u                    /* bytes of an entry */
#define TTEOLMIGU_CELL_LIMIT 8192u                 /* cells of a table, C, at most; at least 1 */
#define TTEOLMIGU_ENTRY_LIMIT 2048u                /* entries of a table, E, at most; at least 0 */
#define TTEOLMIGU_TABLE_LEAST 12u                  /* bytes of a table, at least: a head and one cell */
#define TTEOLMIGU_TABLE_LIMIT TTEOLMIGU_PACK_ROOM  /* bytes of a table, at most */

/* Stack in bytes that a call takes at most: what tests/stack sees, with some air. */
#define TTEOLMIGU_STACK 1024u        /* hyphenate, levels, check, lookup and fit */
#define TTEOLMIGU_PACK_STACK 20480u  /* pack, which has its arrays there */
#define TTEOLMIGU_PIECE_STACK 2048u  /* piece and end */
#define TTEOLMIGU_1980_STACK 1536u   /* 1980 */

/* The numbers of the grounds, as listed above. */
enum tteolmigu_ground {
    TTEOLMIGU_MARGIN = 1,
    TTEOLMIGU_WORD_EMPTY = 2,
    TTEOLMIGU_NOT_LETTER = 3,
    TTEOLMIGU_WORD_LONG = 4,
    TTEOLMIGU_ROOM_SHORT = 5,
    TTEOLMIGU_BAD_EXCEPTION = 6,
    TTEOLMIGU_BAD_PATTERN = 7,
    TTEOLMIGU_TEXT_LONG = 8,
    TTEOLMIGU_TABLE_FORM = 9,
    TTEOLMIGU_PACK_ROOM_SHORT = 10,
    TTEOLMIGU_NO_FIT = 11,
    TTEOLMIGU_NOT_RIGHT = 12,
    TTEOLMIGU_BAD_WIDTH = 13,
    TTEOLMIGU_TEXT_ROOM_SHORT = 14,
    TTEOLMIGU_RUNNING_LONG = 21
};

/* What tteolmigu_fit finds. */
enum tteolmigu_fitting {
    TTEOLMIGU_WHOLE = 1, /* the whole word fits */
    TTEOLMIGU_BREAK = 2, /* the whole word doesn't, and this is the last of its breaks that fits with its hyphen */
    TTEOLMIGU_NONE = 3   /* neither the whole word nor a break fits */
};

/*
 * Breaks a word. The customer's exception line decides, else the house line, else the odd levels of the table. The margins bind all
 * three: no break has fewer than 'left' letters before it or fewer than 'right' behind it. A line decides even where they leave none
 * of its hyphens. Grounds 1, 5, 2, 4, 3, 8, 6, 9, in this order. A finding sets byte i of the room to 1 where a break lies after letter
 * i, the other bytes up to 63 to 0, and leaves later ones alone. tteolmigu_marks has the number of breaks, tteolmigu_looks the cells
 * looked at (0 where an exception line decides).
 */
uint64_t tteolmigu_hyphenate(uint64_t left, uint64_t right,
                             const uint8_t *word, size_t word_size,
                             const uint8_t *customer, size_t customer_size,
                             const uint8_t *house, size_t house_size,
                             const uint8_t *table, size_t table_size,
                             uint8_t *room, size_t room_size);

/*
 * The levels of a word's gaps over a table, whatever exception lists say. Grounds 5, 2, 4, 3, 9, in this order. A finding sets byte i
 * of the room to the level after letter i, for each gap inside the word, the other bytes up to 63 to 0, and leaves later ones alone.
 * tteolmigu_marks has the number of levels that aren't 0, tteolmigu_looks the cells looked at.
 */
uint64_t tteolmigu_levels(const uint8_t *word, size_t word_size,
                          const uint8_t *table, size_t table_size,
                          uint8_t *room, size_t room_size);

/*
 * Packs a pattern list into its first-fit table. Grounds 10, 8, 7, 11, in this order. A finding puts the table at the room's
 * beginning, zeros behind it up to byte 59,397, and leaves later bytes alone. tteolmigu_size has the table's length.
 */
uint64_t tteolmigu_pack(const uint8_t *patterns, size_t patterns_size,
                        uint8_t *room, size_t room_size);

/*
 * Accepts a table, whoever made it, exactly when it is right for the pattern list. Grounds 8, 7, 9, 12, in this order. Returns 0 where
 * it accepts.
 */
uint64_t tteolmigu_check(const uint8_t *patterns, size_t patterns_size,
                         const uint8_t *table, size_t table_size);

/*
 * Where a word's exception line stands, the customer's before the house's, as it is written: margins don't come into it. It never
 * refuses: where there is no line, and where the hyphenating call would refuse on ground 2, 4, 3, 8 or 6, it returns 0. Else
 * tteolmigu_list has the list that holds the line, tteolmigu_offset the line's offset in it and tteolmigu_length its length without
 * the line feed.
 */
uint64_t tteolmigu_lookup(const uint8_t *word, size_t word_size,
                          const uint8_t *customer, size_t customer_size,
                          const uint8_t *house, size_t house_size);

/*
 * Which break of a word fits a line: the whole word, else the last break that fits with its hyphen, else none. 'hyphen' and 'line' are
 * the widths of a hyphen and of the line, and 'widths' points to TTEOLMIGU_WIDTHS doubles, aligned as such: the widths of a to z, then
 * an apostrophe's. A capital is as wide as its small letter. The room is a break room as tteolmigu_hyphenate leaves it: of its bytes 1
 * to n - 1 for a word of n letters, each that isn't 0 is a break, and no other byte matters. Nothing is written.
 *
 * A width is the sum of the letters' widths from the left, starting at 0, each addition rounded once; for a break the hyphen's is
 * added last. It fits where it isn't above the line's. Grounds 5, 2, 4, 3, 13, in this order; all 29 widths are judged, whether the
 * word has the letter or not, and -0.0 is 0. tteolmigu_outcome has what came out, tteolmigu_gap for a break how many letters stand
 * before it.
 */
uint64_t tteolmigu_fit(double hyphen, double line, const double *widths,
                       const uint8_t *word, size_t word_size,
                       const uint8_t *room, size_t room_size);

/*
 * Breaks a word as the table machine of 1980 does, for archive reprints: suffixes, prefixes and pairs of consonants by its own tables,
 * without a list of exceptions. Words of 1 to 4 letters have no break and execute nothing; of a longer one with n letters a hyphen
 * stands before letters 3 to n - 2 alone. An apostrophe is ground 3 wherever it stands. Grounds 5, 2, 4, 3, in this order. A finding
 * sets byte i of the room to 1 where a break lies after letter i, the other bytes up to 63 to 0, and leaves later ones alone.
 * tteolmigu_1980_breaks has the number of breaks, tteolmigu_1980_executed that of the instructions, of both tables together. If more than
 * 20,000 were needed the machine would run out, and leave the room as it was; tteolmigu_1980_ran_out tells it.
 */
uint64_t tteolmigu_1980(const uint8_t *word, size_t word_size,
                        uint8_t *room, size_t room_size);

/*
 * Takes the next piece of a running text, and writes what is settled of it to the room's beginning, with a backslash and a hyphen in each
 * break.
 *
 * A word of a running text is a run of letters and of apostrophes that each stand between two letters, as long as it can be. One of at
 * most TTEOLMIGU_WORD_LIMIT bytes is broken as tteolmigu_hyphenate breaks it; a longer one goes through as it is. So does every byte
 * outside a word: apostrophes elsewhere, bytes over 127, zeros, and the backslashes and hyphens that the text has already.
 *
 * A piece may end anywhere, and may be empty. At its end exactly the unfinished word is held, and behind it an apostrophe, if one stands
 * there, since only the next byte says whether that belongs to the word. A word that grows past TTEOLMIGU_WORD_LIMIT is let go: all that
 * is held of it is written at once, and so is each later byte of it, an apostrophe too. So what the calls write, one behind the other,
 * and the sum of what they count don't depend on where the text is cut, from its first piece to its end, as long as margins, lists and
 * table stay the same. They may change from call to call, and a held word is judged by those of the call that finishes it.
 *
 * 'state' points to TTEOLMIGU_STATE bytes. Before the first piece they are all 0, and so tteolmigu_end leaves them. Between two calls
 * they may be copied, stored, and used elsewhere:
 *
 *    byte 0        how many bytes are held, a waiting apostrophe among them
 *    byte 1        1 inside a word that was let go, 2 where an apostrophe is the last byte of that so far, else 0
 *    bytes 2 to 5  how many bytes the text has so far, those held among them; the high byte first
 *    bytes 6, 7    0
 *    from 8 on     the held bytes as they were read, and zeros behind them
 *
 * What these calls leave has nothing held, or a good word, alone or with one apostrophe behind it, and nothing where byte 1 isn't 0. The
 * text has at most TTEOLMIGU_RUNNING_TEXT bytes, at least those held, and where byte 1 is 1 at least TTEOLMIGU_WORD_LIMIT + 1, where
 * it is 2 one more. Any other bytes are read as a new text's, as if all were 0.
 *
 * Grounds 1, 8, 6, 9, 21, 14, in this order, with the customer's list before the house's in 8 and in 6. Ground 21: the text would have
 * more than TTEOLMIGU_RUNNING_TEXT bytes; a shorter piece goes on with it. Ground 14: the room has fewer than TTEOLMIGU_ROOM_PER_BYTE
 * bytes for each byte held before the call, a waiting apostrophe too, and for each of the piece, even where less would do. A refusal
 * leaves every byte of state and room, also where the state is read as a new text. A finding leaves the room's bytes behind the text.
 * tteolmigu_text_length has the length of what is written, tteolmigu_looks the cells looked at for the words that this call finished
 * (0 for one that was let go and where an exception line decides).
 */
uint64_t tteolmigu_piece(uint8_t *state, uint64_t left, uint64_t right,
                         const uint8_t *customer, size_t customer_size,
                         const uint8_t *house, size_t house_size,
                         const uint8_t *table, size_t table_size,
                         const uint8_t *piece, size_t piece_size,
                         uint8_t *room, size_t room_size);

/*
 * Ends a running text: writes what is held, the word with its breaks and behind it the apostrophe that waited, and sets the state to 0,
 * so that the next piece begins a new text. State, room, margins, lists, table and answer are those of tteolmigu_piece. Grounds 1, 8, 6,
 * 9, 14, in this order; a refusal leaves the text open. A room of TTEOLMIGU_ROOM_PER_BYTE * (TTEOLMIGU_WORD_LIMIT + 1) bytes is enough
 * for any end.
 */
uint64_t tteolmigu_end(uint8_t *state, uint64_t left, uint64_t right,
                       const uint8_t *customer, size_t customer_size,
                       const uint8_t *house, size_t house_size,
                       const uint8_t *table, size_t table_size,
                       uint8_t *room, size_t room_size);

/* Of every answer: the number of the ground, 0 for a finding. */
static inline unsigned tteolmigu_number(uint64_t answer)
{
    return (unsigned)(answer >> 56);
}

/* Of a refusal on ground 6, and of the lookup's finding: the list, 0 where none. */
static inline unsigned tteolmigu_list(uint64_t answer)
{
    return (unsigned)(answer >> 48 & 0xffu);
}

/* Of a refusal: the place, 0 where none is told. */
static inline uint64_t tteolmigu_place(uint64_t answer)
{
    return answer & UINT64_C(0xffffffffffff);
}

/* Of a finding of hyphenate or levels: how many breaks, or how many levels that aren't 0. */
static inline unsigned tteolmigu_marks(uint64_t answer)
{
    return (unsigned)(answer >> 32 & 0xffffu);
}

/* Of a finding of hyphenate, levels, piece or end: how many cells were looked at. */
static inline uint32_t tteolmigu_looks(uint64_t answer)
{
    return (uint32_t)(answer & UINT64_C(0xffffffff));
}

/* Of a finding of piece or end: the length of the text written. */
static inline size_t tteolmigu_text_length(uint64_t answer)
{
    return (size_t)(answer >> 32 & 0xffffffu);
}

/* Of a finding of pack: the table's length. */
static inline size_t tteolmigu_size(uint64_t answer)
{
    return (size_t)(answer & UINT64_C(0xffffffffffff));
}

/* Of a finding of lookup: the line's offset in its list. */
static inline size_t tteolmigu_offset(uint64_t answer)
{
    return (size_t)(answer >> 16 & UINT64_C(0xffffffff));
}

/* Of a finding of lookup: the line's length. */
static inline size_t tteolmigu_length(uint64_t answer)
{
    return (size_t)(answer & 0xffffu);
}

/* Of a finding of fit: what came out, one of enum tteolmigu_fitting. */
static inline unsigned tteolmigu_outcome(uint64_t answer)
{
    return (unsigned)(answer >> 32 & 0xffu);
}

/* Of a finding of fit: the break's gap, how many letters stand before it; 0 where it is no break. */
static inline uint32_t tteolmigu_gap(uint64_t answer)
{
    return (uint32_t)(answer & UINT64_C(0xffffffff));
}

/* Of a finding of 1980: whether it ran out of instructions; breaks and executed ones are 0 then. */
static inline unsigned tteolmigu_1980_ran_out(uint64_t answer)
{
    return (unsigned)(answer >> 48 & 1u);
}

/* Of a finding of 1980: how many breaks. */
static inline unsigned tteolmigu_1980_breaks(uint64_t answer)
{
    return (unsigned)(answer >> 32 & 0xffffu);
}

/* Of a finding of 1980: how many instructions were executed. */
static inline uint32_t tteolmigu_1980_executed(uint64_t answer)
{
    return (uint32_t)(answer & UINT64_C(0xffffffff));
}

/*
 * What a table's head tells. The caller sees to it that the table has at least TTEOLMIGU_HEAD_SIZE bytes. Nothing else is asked of
 * them, so that a stranger's head may tell any numbers up to 65,535.
 */

/* The number of cells, C. */
static inline unsigned tteolmigu_cells(const uint8_t *table)
{
    return (unsigned)table[2] << 8 | table[3];
}

/* The number of entries, E. */
static inline unsigned tteolmigu_entries(const uint8_t *table)
{
    return (unsigned)table[4] << 8 | table[5];
}

/* The length that a table with so many cells and entries has, as for whoever has read the head and not yet the rest. */
static inline size_t tteolmigu_table_size(const uint8_t *table)
{
    return TTEOLMIGU_HEAD_SIZE + (size_t)TTEOLMIGU_CELL_SIZE * tteolmigu_cells(table) +
           (size_t)TTEOLMIGU_ENTRY_SIZE * tteolmigu_entries(table);
}

#ifdef __cplusplus
}
#endif

#endif
