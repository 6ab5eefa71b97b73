/*
 * The C interface from C: every call, accessor and constant of the header, on figures of document 01 and at the limits. Built as C99
 * and as C++.
 */
#include "tteolmigu.h"

#include <math.h>
#include <stdio.h>
#include <string.h>

static int passed = 0;
static int failed = 0;

static void expect(const char *name, int fact)
{
    if (fact) {
        passed++;
    } else {
        failed++;
        printf("header: FAILED: %s\n", name);
    }
}

#if TTEOLMIGU_VERSION < 1000000
#error "a version before the first one"
#endif

static uint8_t table[TTEOLMIGU_PACK_ROOM];
static uint8_t room[TTEOLMIGU_ROOM + 1];
static uint8_t large[TTEOLMIGU_TABLE_LIMIT + TTEOLMIGU_CELL_SIZE]; /* a text or table that may pass its limit */

static const uint8_t *bytes(const char *text)
{
    return (const uint8_t *)text;
}

static uint64_t hyphenate(uint64_t left, uint64_t right, const char *word, const char *customer, const char *house, size_t table_size)
{
    return tteolmigu_hyphenate(left, right, bytes(word), strlen(word), bytes(customer), strlen(customer), bytes(house), strlen(house),
                               table, table_size, room, sizeof room);
}

static uint64_t lookup(const char *word, const char *customer, const char *house)
{
    return tteolmigu_lookup(bytes(word), strlen(word), bytes(customer), strlen(customer), bytes(house), strlen(house));
}

static uint64_t pack(const char *patterns)
{
    return tteolmigu_pack(bytes(patterns), strlen(patterns), table, sizeof table);
}

static uint64_t levels_of(const char *word, const uint8_t *any, size_t size)
{
    return tteolmigu_levels(bytes(word), strlen(word), any, size, room, sizeof room);
}

/* So many letters, then an ending. The text holds until the next call. */
static const char *letters(size_t count, const char *ending)
{
    static char text[128];

    memset(text, 'a', count);
    strcpy(text + count, ending);
    return text;
}

static void put_head(uint8_t *any, unsigned edition, unsigned cells, unsigned entries)
{
    any[0] = 1;
    any[1] = (uint8_t)edition;
    any[2] = (uint8_t)(cells >> 8);
    any[3] = (uint8_t)cells;
    any[4] = (uint8_t)(entries >> 8);
    any[5] = (uint8_t)entries;
}

/* The number on which the levels call refuses a table that has nothing but a head. */
static unsigned judge_head(unsigned edition, unsigned cells, unsigned entries)
{
    memset(large, 0, sizeof large);
    put_head(large, edition, cells, entries);
    return tteolmigu_number(levels_of("on", large, tteolmigu_table_size(large)));
}

static void versions(void)
{
    expect("a patch counts one", TTEOLMIGU_VERSION % 1000 == TTEOLMIGU_VERSION_PATCH);
    expect("a minor version a thousand", TTEOLMIGU_VERSION / 1000 % 1000 == TTEOLMIGU_VERSION_MINOR);
    expect("a major version a million", TTEOLMIGU_VERSION / 1000000 == TTEOLMIGU_VERSION_MAJOR);
}

/* What is at its limit is answered, and what is one past it is refused. */
static void limits_of_words(void)
{
    size_t size = tteolmigu_size(pack(""));
    uint64_t r;

    r = hyphenate(1, 1, letters(TTEOLMIGU_WORD_LIMIT, ""), "", "", size);
    expect("the longest word", tteolmigu_number(r) == 0);
    r = hyphenate(1, 1, letters(TTEOLMIGU_WORD_LIMIT + 1, ""), "", "", size);
    expect("a longer one", tteolmigu_number(r) == TTEOLMIGU_WORD_LONG);
    r = hyphenate(TTEOLMIGU_MARGIN_LEAST, TTEOLMIGU_MARGIN_LIMIT, "on", "", "", size);
    expect("margins at their limits", tteolmigu_number(r) == 0);
    r = hyphenate(TTEOLMIGU_MARGIN_LIMIT, TTEOLMIGU_MARGIN_LEAST, "on", "", "", size);
    expect("the other way round", tteolmigu_number(r) == 0);
    r = hyphenate(TTEOLMIGU_MARGIN_LEAST - 1, 1, "on", "", "", size);
    expect("a left margin too small", tteolmigu_number(r) == TTEOLMIGU_MARGIN);
    r = hyphenate(1, TTEOLMIGU_MARGIN_LEAST - 1, "on", "", "", size);
    expect("a right margin too small", tteolmigu_number(r) == TTEOLMIGU_MARGIN);
    r = hyphenate(TTEOLMIGU_MARGIN_LIMIT + 1, 1, "on", "", "", size);
    expect("a left margin too great", tteolmigu_number(r) == TTEOLMIGU_MARGIN);
    r = hyphenate(1, TTEOLMIGU_MARGIN_LIMIT + 1, "on", "", "", size);
    expect("a right margin too great", tteolmigu_number(r) == TTEOLMIGU_MARGIN);
    r = tteolmigu_levels(bytes("on"), 2, table, size, room, TTEOLMIGU_ROOM);
    expect("a room of just the size", tteolmigu_number(r) == 0);
}

/* A text of equal letters is one bad line as long as it is within its size. */
static void limits_of_lists(void)
{
    size_t size = tteolmigu_size(pack(""));
    const uint8_t *none = bytes("");
    uint64_t r;

    memset(large, 'a', sizeof large);
    r = tteolmigu_pack(large, TTEOLMIGU_PATTERN_TEXT, table, sizeof table);
    expect("a pattern text of full size", tteolmigu_number(r) == TTEOLMIGU_BAD_PATTERN);
    r = tteolmigu_pack(large, TTEOLMIGU_PATTERN_TEXT + 1, table, sizeof table);
    expect("a longer pattern text", tteolmigu_number(r) == TTEOLMIGU_TEXT_LONG);
    r = tteolmigu_hyphenate(2, 3, bytes("on"), 2, large, TTEOLMIGU_EXCEPTION_TEXT, none, 0, table, size, room, sizeof room);
    expect("a customer's list of full size", tteolmigu_number(r) == TTEOLMIGU_BAD_EXCEPTION);
    expect("the customer's number", tteolmigu_list(r) == TTEOLMIGU_CUSTOMER_LIST);
    r = tteolmigu_hyphenate(2, 3, bytes("on"), 2, large, TTEOLMIGU_EXCEPTION_TEXT + 1, none, 0, table, size, room, sizeof room);
    expect("a longer customer's list", tteolmigu_number(r) == TTEOLMIGU_TEXT_LONG);
    r = tteolmigu_hyphenate(2, 3, bytes("on"), 2, none, 0, large, TTEOLMIGU_EXCEPTION_TEXT, table, size, room, sizeof room);
    expect("a house list of full size", tteolmigu_number(r) == TTEOLMIGU_BAD_EXCEPTION);
    expect("the house's number", tteolmigu_list(r) == TTEOLMIGU_HOUSE_LIST);
    r = tteolmigu_hyphenate(2, 3, bytes("on"), 2, none, 0, large, TTEOLMIGU_EXCEPTION_TEXT + 1, table, size, room, sizeof room);
    expect("a longer house list", tteolmigu_number(r) == TTEOLMIGU_TEXT_LONG);

    r = hyphenate(2, 3, "on", letters(TTEOLMIGU_EXCEPTION_LIMIT, "\n"), "", size);
    expect("the longest exception", tteolmigu_number(r) == 0);
    r = hyphenate(2, 3, "on", letters(TTEOLMIGU_EXCEPTION_LIMIT + 1, "\n"), "", size);
    expect("a longer exception", tteolmigu_number(r) == TTEOLMIGU_BAD_EXCEPTION);
    r = pack(letters(TTEOLMIGU_PATTERN_LIMIT, "1\n"));
    expect("the longest pattern", tteolmigu_number(r) == 0);
    r = pack(letters(TTEOLMIGU_PATTERN_LIMIT + 1, "1\n"));
    expect("a longer pattern", tteolmigu_number(r) == TTEOLMIGU_BAD_PATTERN);
}

static void limits_of_tables(void)
{
    const unsigned edition = TTEOLMIGU_EDITION, cells = TTEOLMIGU_CELL_LIMIT, entries = TTEOLMIGU_ENTRY_LIMIT;
    size_t size, level;
    uint64_t r;

    expect("the smallest table", tteolmigu_size(pack("")) == TTEOLMIGU_TABLE_LEAST);
    expect("its cell", tteolmigu_cells(table) == 1 && tteolmigu_entries(table) == 0);
    expect("the least of all", judge_head(edition, 1, 0) == 0 && tteolmigu_table_size(large) == TTEOLMIGU_TABLE_LEAST);
    expect("no cell", judge_head(edition, 0, 0) == TTEOLMIGU_TABLE_FORM);
    expect("the most of all", judge_head(edition, cells, entries) == 0 && tteolmigu_table_size(large) == TTEOLMIGU_TABLE_LIMIT);
    expect("a cell more", judge_head(edition, cells + 1, entries) == TTEOLMIGU_TABLE_FORM);
    expect("an entry more", judge_head(edition, cells, entries + 1) == TTEOLMIGU_TABLE_FORM);
    expect("another edition", judge_head(edition + 1, 1, 0) == TTEOLMIGU_TABLE_FORM);
    put_head(large, edition, 0x1234, 0x0789);
    expect("two bytes of cells", tteolmigu_cells(large) == 0x1234);
    expect("two bytes of entries", tteolmigu_entries(large) == 0x0789);
    put_head(large, edition, 0xffff, 0xffff);
    expect("the longest length that a head tells", tteolmigu_table_size(large) == 6 + 11 * (size_t)0xffff);

    /* The pattern's level is the third byte of the only entry, behind cells 0 and 1. */
    size = tteolmigu_size(pack("a9\n"));
    level = TTEOLMIGU_HEAD_SIZE + 2 * TTEOLMIGU_CELL_SIZE + 2;
    expect("two cells and an entry", size == TTEOLMIGU_HEAD_SIZE + 2 * TTEOLMIGU_CELL_SIZE + TTEOLMIGU_ENTRY_SIZE);
    r = levels_of("aa", table, size);
    expect("the highest level", tteolmigu_marks(r) == 1 && room[1] == TTEOLMIGU_LEVEL_LIMIT);
    expect("its byte", table[level] == TTEOLMIGU_LEVEL_LIMIT);
    table[level]++;
    r = levels_of("aa", table, size);
    expect("a higher level", tteolmigu_marks(r) == 0 && room[1] == 0);
    r = tteolmigu_check(bytes("a9\n"), 3, table, size);
    expect("a higher level isn't right", tteolmigu_number(r) == TTEOLMIGU_NOT_RIGHT);
}

/* Two cells with the symbol 1 that lead round: each walk over the letter "a" goes on to its limit or to the word's edge. */
static void limit_of_looks(void)
{
    uint8_t round[TTEOLMIGU_HEAD_SIZE + 3 * TTEOLMIGU_CELL_SIZE] = {0};
    unsigned looks = 2; /* the edges */
    size_t place;
    uint64_t r;

    put_head(round, TTEOLMIGU_EDITION, 3, 0);
    memcpy(round + TTEOLMIGU_HEAD_SIZE + TTEOLMIGU_CELL_SIZE, "\2\1\0\1\0\0\2\1\0\1\0\0", 2 * TTEOLMIGU_CELL_SIZE);
    for (place = 1; place <= TTEOLMIGU_WORD_LIMIT; place++)
        looks += place < TTEOLMIGU_PATTERN_LIMIT ? (unsigned)place + 1 : TTEOLMIGU_PATTERN_LIMIT;
    r = levels_of(letters(TTEOLMIGU_WORD_LIMIT, ""), round, sizeof round);
    expect("the looks of a circle", tteolmigu_number(r) == 0 && tteolmigu_looks(r) == looks);
    expect("within the limit", looks <= TTEOLMIGU_LOOK_LIMIT);
    expect("the limit of looks", TTEOLMIGU_LOOK_LIMIT == TTEOLMIGU_PATTERN_LIMIT * (TTEOLMIGU_WORD_LIMIT + 2));
}

/* The next greater double of one that isn't below 0; of -0.0 the next smaller one. */
static double beyond(double width)
{
    uint64_t bits;

    memcpy(&bits, &width, sizeof bits);
    bits++;
    memcpy(&width, &bits, sizeof width);
    return width;
}

static double widths[TTEOLMIGU_WIDTHS];

static void set_widths(double width)
{
    size_t letter;

    for (letter = 0; letter < TTEOLMIGU_WIDTHS; letter++)
        widths[letter] = width;
}

static uint64_t fit(double hyphen, double line, const char *word)
{
    return tteolmigu_fit(hyphen, line, widths, bytes(word), strlen(word), room, TTEOLMIGU_ROOM);
}

static int fits(uint64_t answer, unsigned outcome, uint32_t gap)
{
    return tteolmigu_number(answer) == 0 && tteolmigu_outcome(answer) == outcome && tteolmigu_gap(answer) == gap;
}

/*
 * The number on which a width is refused, as the hyphen's, as the line's, as that of a letter which the word hasn't, and as the
 * apostrophe's.
 */
static int judged(double width, unsigned number)
{
    int same;

    set_widths(1.0);
    same = tteolmigu_number(fit(width, 1.0, "on")) == number && tteolmigu_number(fit(1.0, width, "on")) == number;
    widths['z' - 'a'] = width;
    same = same && tteolmigu_number(fit(1.0, 1.0, "on")) == number;
    set_widths(1.0);
    widths[TTEOLMIGU_APOSTROPHE_WIDTH] = width;
    return same && tteolmigu_number(fit(1.0, 1.0, "on")) == number;
}

/* The breaks that the hyphenating call leaves in its room, on lines of many widths. */
static void fits_of_words(void)
{
    size_t size = tteolmigu_size(pack("hen5at\nhy3ph\n"));
    uint8_t before[sizeof room];
    uint64_t r;

    set_widths(0.5);
    widths['y' - 'a'] = 1.5;
    r = hyphenate(2, 3, "hyphenation", "", "", size);
    expect("two breaks", tteolmigu_marks(r) == 2 && room[2] != 0 && room[6] != 0);
    memcpy(before, room, sizeof room);
    expect("the whole word fits", fits(fit(0.25, 6.5, "hyphenation"), TTEOLMIGU_WHOLE, 0));
    expect("the last break fits", fits(fit(0.25, 6.4, "hyphenation"), TTEOLMIGU_BREAK, 6));
    expect("it just fits", fits(fit(0.25, 4.25, "Hyphenation"), TTEOLMIGU_BREAK, 6));
    expect("the first break fits", fits(fit(0.25, 4.2, "hYphenation"), TTEOLMIGU_BREAK, 2));
    expect("none fits", fits(fit(0.25, 2.2, "hyphenation"), TTEOLMIGU_NONE, 0));
    expect("the whole word without its hyphen", fits(fit(9.0, 6.5, "hyphenation"), TTEOLMIGU_WHOLE, 0));
    expect("a break outside the word", fits(fit(0.25, 1.2, "ny"), TTEOLMIGU_NONE, 0));
    set_widths(0.1);
    expect("ten tenths are less than 1", fits(fit(0.0, 0.9999999999999999, "hyphenates"), TTEOLMIGU_WHOLE, 0));
    expect("three are more than 0.3", fits(fit(0.0, 0.3, "one"), TTEOLMIGU_BREAK, 2));
    room[2] = 0;
    expect("as a break isn't", fits(fit(0.0, 0.3, "one"), TTEOLMIGU_NONE, 0));
    room[2] = before[2];
    expect("the room is only read", memcmp(room, before, sizeof room) == 0);
}

/* An apostrophe between two letters is one of the word's, for its breaks, its margins, its lines and its width. */
static void words_with_apostrophes(void)
{
    size_t size = tteolmigu_size(pack("l'1e\n"));
    uint64_t r;

    r = hyphenate(2, 3, "L'Entrata", "", "", size);
    expect("a break behind an apostrophe", tteolmigu_marks(r) == 1 && room[2] == 1 && tteolmigu_looks(r) == 13);
    set_widths(1.0);
    widths[TTEOLMIGU_APOSTROPHE_WIDTH] = 0.5;
    expect("its width", fits(fit(0.25, 8.5, "L'Entrata"), TTEOLMIGU_WHOLE, 0) && fits(fit(0.25, 1.75, "L'Entrata"), TTEOLMIGU_BREAK, 2));
    expect("a wider one", fits(fit(0.25, 1.7, "L'Entrata"), TTEOLMIGU_NONE, 0));
    r = hyphenate(3, 3, "l'entrata", "", "", size);
    expect("it counts for the margin", tteolmigu_number(r) == 0 && tteolmigu_marks(r) == 0);
    r = hyphenate(2, 2, "l'entrata", "l'-en-tra-ta\n", "", size);
    expect("an exception line with one", tteolmigu_marks(r) == 3 && room[2] == 1 && room[4] == 1 && room[7] == 1);
    expect("first", hyphenate(2, 3, "'entrata", "", "", size) == (uint64_t)TTEOLMIGU_NOT_LETTER << 56);
    expect("last", hyphenate(2, 3, "un'", "", "", size) == ((uint64_t)TTEOLMIGU_NOT_LETTER << 56 | 2));
    expect("two", hyphenate(2, 3, "l''entrata", "", "", size) == ((uint64_t)TTEOLMIGU_NOT_LETTER << 56 | 1));
    expect("before a digit", hyphenate(2, 3, "l'1", "", "", size) == ((uint64_t)TTEOLMIGU_NOT_LETTER << 56 | 1));
    expect("at a pattern's ends", tteolmigu_number(pack("'l1'\n")) == 0);
    expect("beside an edge", pack(".'l1\n") == (uint64_t)TTEOLMIGU_BAD_PATTERN << 56);
}

static uint64_t reprint(const char *word)
{
    return tteolmigu_1980(bytes(word), strlen(word), room, TTEOLMIGU_1980_ROOM);
}

/* The machine of 1980: what it finds, its limits, and what it leaves in the room. */
static void words_of_1980(void)
{
    uint8_t before[sizeof room];
    uint64_t r;

    memset(room, 7, sizeof room);
    r = reprint("Understatement");
    expect("1980", tteolmigu_number(r) == 0 && tteolmigu_1980_ran_out(r) == 0);
    expect("its breaks", tteolmigu_1980_breaks(r) == 3 && room[2] == 1 && room[5] == 1 && room[10] == 1);
    expect("its instructions", tteolmigu_1980_executed(r) == 15);
    expect("no other break", room[0] == 0 && room[1] == 0 && room[3] == 0 && room[11] == 0 && room[TTEOLMIGU_1980_ROOM - 1] == 0);
    memcpy(before, room, sizeof room);
    expect("a short word", reprint("late") == 0 && room[2] == 0);
    memcpy(room, before, sizeof room);
    expect("before the word", reprint("lately") == 10);
    memcpy(room, before, sizeof room);
    expect("its longest word", tteolmigu_number(reprint(letters(TTEOLMIGU_1980_LETTERS, ""))) == 0);
    memcpy(room, before, sizeof room);
    expect("a longer one", reprint(letters(TTEOLMIGU_1980_LETTERS + 1, "1")) == (uint64_t)TTEOLMIGU_WORD_LONG << 56);
    expect("no word", reprint("") == (uint64_t)TTEOLMIGU_WORD_EMPTY << 56);
    expect("an apostrophe", reprint("l'entrata") == ((uint64_t)TTEOLMIGU_NOT_LETTER << 56 | 1));
    r = tteolmigu_1980(bytes(""), 0, room, TTEOLMIGU_1980_ROOM - 1);
    expect("a short room before all", r == (uint64_t)TTEOLMIGU_ROOM_SHORT << 56);
    expect("refusals leave the room", memcmp(room, before, sizeof room) == 0);
    r = UINT64_C(1) << 48;
    expect("how running out is read", tteolmigu_number(r) == 0 && tteolmigu_1980_ran_out(r) == 1 && tteolmigu_1980_breaks(r) == 0);
}

#define OLD 77 /* what rooms for running text hold before a call, and what the byte behind a state holds */

static uint8_t state[TTEOLMIGU_STATE + 1];
static uint8_t output[1024];
static uint8_t book[TTEOLMIGU_RUNNING_TEXT + 1]; /* a text that may pass its limit */
static uint8_t wide[TTEOLMIGU_ROOM_PER_BYTE * TTEOLMIGU_RUNNING_TEXT + 1];

/* A state by its layout, with a byte behind it that no call may change. */
static void put_state(uint8_t *any, const char *held, unsigned run, uint32_t total)
{
    memset(any, 0, TTEOLMIGU_STATE);
    any[0] = (uint8_t)strlen(held);
    any[1] = (uint8_t)run;
    any[2] = (uint8_t)(total >> 24);
    any[3] = (uint8_t)(total >> 16);
    any[4] = (uint8_t)(total >> 8);
    any[5] = (uint8_t)total;
    memcpy(any + 8, held, strlen(held));
    any[TTEOLMIGU_STATE] = OLD;
}

static int state_is(const char *held, unsigned run, uint32_t total)
{
    uint8_t sheet[sizeof state];

    put_state(sheet, held, run, total);
    return memcmp(state, sheet, sizeof state) == 0;
}

/* A piece with margins 2 and 3 and a house list, in a room of just the size that it needs. */
static uint64_t feed(const char *text, const char *house, size_t table_size)
{
    size_t size = strlen(text);

    memset(output, OLD, sizeof output);
    return tteolmigu_piece(state, 2, 3, bytes(""), 0, bytes(house), strlen(house), table, table_size, bytes(text), size, output,
                           TTEOLMIGU_ROOM_PER_BYTE * (state[0] + size));
}

/* The end, likewise. */
static uint64_t finish(const char *house, size_t table_size)
{
    memset(output, OLD, sizeof output);
    return tteolmigu_end(state, 2, 3, bytes(""), 0, bytes(house), strlen(house), table, table_size, output,
                         (size_t)TTEOLMIGU_ROOM_PER_BYTE * state[0]);
}

/* Whether a call wrote this text and nothing behind it. */
static int wrote(uint64_t answer, const char *text, uint32_t looks)
{
    size_t size = strlen(text), i;
    int same = tteolmigu_number(answer) == 0 && tteolmigu_text_length(answer) == size && tteolmigu_looks(answer) == looks;

    same = same && answer == ((uint64_t)size << 32 | looks) && memcmp(output, text, size) == 0;
    for (i = size; i < sizeof output; i++)
        same = same && output[i] == OLD;
    return same;
}

/* What is written, held and counted, and the state's bytes one by one. */
static void pieces_of_text(void)
{
    size_t size = tteolmigu_size(pack("he2n\nhena4\nhen5at\nhy3ph\n2io\n1na\nn2at\no2n\n1tio\n"));
    uint32_t evening = tteolmigu_looks(hyphenate(2, 3, "evening", "", "", size));
    uint64_t r;

    put_state(state, "", 0, 0);
    expect("a first piece", wrote(feed("A Hyphen", "", size), "A ", 3));
    expect("how many bytes are held", state[0] == 6);
    expect("no run was let go", state[1] == 0);
    expect("the total, its high byte first", state[2] == 0 && state[3] == 0 && state[4] == 0 && state[5] == 8);
    expect("two zeros", state[6] == 0 && state[7] == 0);
    expect("the held bytes as they were read", memcmp(state + 8, "Hyphen", 6) == 0);
    expect("and nothing else", state_is("Hyphen", 0, 8));
    expect("a word that goes on", wrote(feed("ation, on'", "", size), "Hy\\-phen\\-ation, ", 27) && state_is("on'", 0, 18));
    expect("behind an apostrophe", wrote(feed("On", "", size), "", 0) && state_is("on'On", 0, 20));
    expect("an empty piece", wrote(feed("", "", size), "", 0) && state_is("on'On", 0, 20));
    expect("the end", wrote(finish("", size), "on'On", 11) && state_is("", 0, 0));
    expect("an end with nothing held", wrote(finish("", size), "", 0) && state_is("", 0, 0));
    put_state(state, "", 0, 0xfedcb);
    expect("a greater total", wrote(feed("on.", "", size), "on.", 6));
    expect("its bytes", state[2] == 0 && state[3] == 0x0f && state[4] == 0xed && state[5] == 0xce && state_is("", 0, 0xfedce));

    put_state(state, "", 0, 0);
    expect("apostrophes that aren't inner ones", wrote(feed("'on''on'1 'on", "", size), "'on''on'1 '", 12) && state_is("on", 0, 13));
    expect("one at the end", wrote(feed("'", "", size), "", 0) && wrote(finish("", size), "on'", 6));
    expect("before a second one", wrote(feed("on'", "", size), "", 0) && wrote(feed("'", "", size), "on''", 6) && state_is("", 0, 4));
    expect("which begins no word", wrote(feed("'", "", size), "'", 0) && state_is("", 0, 5));
    expect("backslashes and hyphens", wrote(feed("\\-on- \\-", "", size), "\\-on- \\-", 6) && state_is("", 0, 13));
    memset(output, OLD, sizeof output);
    r = tteolmigu_piece(state, 2, 3, bytes(""), 0, bytes(""), 0, table, size, bytes("\0on\377\0"), 5, output, 15);
    expect("bytes 0 and 255", tteolmigu_text_length(r) == 5 && tteolmigu_looks(r) == 6 && memcmp(output, "\0on\377\0\115", 6) == 0);

    put_state(state, "", 0, 0);
    r = feed("evening", "eve-ning\n", size);
    expect("a word waits for its list", wrote(r, "", 0) && wrote(feed(".", "", size), "evening.", evening));
    r = feed("evening", "", size);
    expect("the other way round", wrote(r, "", 0) && wrote(feed(".", "eve-ning\n", size), "eve\\-ning.", 0));
    expect("and to the end", wrote(feed("evening", "", size), "", 0) && wrote(finish("eve-ning\n", size), "eve\\-ning", 0));
    r = feed("hyphenation", "", size);
    size = tteolmigu_size(pack(""));
    expect("a word waits for its table", wrote(r, "", 0) && wrote(feed(".", "", size), "hyphenation.", 13));
    r = feed("metal", "met-al\n", size);
    memset(output, OLD, sizeof output);
    r = tteolmigu_end(state, 2, 2, bytes(""), 0, bytes("met-al\n"), 7, table, size, output, 15);
    expect("and for its margins", wrote(r, "met\\-al", 0));
    size = tteolmigu_size(pack("a2b\n1b\n1b2a\n"));
    put_state(state, "", 0, 0);
    expect("the example of docs/FORMATS.md", wrote(feed("Cab", "", size), "", 0) && state_is("Cab", 0, 3));
    expect("its second piece", wrote(feed("bage'", "", size), "", 0) && state_is("Cabbage'", 0, 8));
    expect("its third piece", wrote(feed(", a cab", "", size), "Cab\\-bage', a ", 17) && state_is("cab", 0, 15));
    expect("its last piece", wrote(feed("bage", "", size), "", 0) && state_is("cabbage", 0, 19));
    expect("its end", wrote(finish("", size), "cab\\-bage", 13) && state_is("", 0, 0));
    r = UINT64_C(0xffffff) << 32 | 0xfedcba98u;
    expect("how an answer is read", tteolmigu_text_length(r) == 0xffffff && tteolmigu_looks(r) == 0xfedcba98u);
}

/* Words at the limit are held, and longer ones let go. */
static void long_runs(void)
{
    size_t size = tteolmigu_size(pack(""));
    const unsigned most = TTEOLMIGU_WORD_LIMIT;
    char held[TTEOLMIGU_WORD_LIMIT + 4];

    put_state(state, "", 0, 0);
    strcpy(held, letters(most, "'"));
    expect("the longest word is held", wrote(feed(letters(most, ""), "", size), "", 0) && state_is(letters(most, ""), 0, most));
    expect("with an apostrophe", wrote(feed("'", "", size), "", 0) && state_is(held, 0, most + 1));
    expect("it fills the state", TTEOLMIGU_STATE == 8 + strlen(held) && state[TTEOLMIGU_STATE - 1] == '\'');
    expect("and is written whole", wrote(finish("", size), held, most + 2));
    strcat(held, "b");
    expect("another one", wrote(feed(letters(most, "'"), "", size), "", 0));
    expect("a letter more lets it go", wrote(feed("b", "", size), held, 0) && state_is("", 1, most + 2));
    expect("so each later letter", wrote(feed("C", "", size), "C", 0) && state_is("", 1, most + 3));
    expect("an apostrophe too", wrote(feed("'", "", size), "'", 0) && state_is("", 2, most + 4));
    expect("and the letter behind it", wrote(feed("d", "", size), "d", 0) && state_is("", 1, most + 5));
    expect("two apostrophes end it", wrote(feed("''", "", size), "''", 0) && state_is("", 0, most + 7));
    expect("and a word begins", wrote(feed("on", "", size), "", 0) && state_is("on", 0, most + 9));
    strcpy(held, "on");
    strcat(held, letters(most, ""));
    expect("which grows past the limit at once", wrote(feed(letters(most, ""), "", size), held, 0) && state_is("", 1, 2 * most + 9));
    expect("the end of a run that was let go", wrote(finish("", size), "", 0) && state_is("", 0, 0));
    strcpy(held, letters(most - 1, "'"));
    expect("an apostrophe at the limit", wrote(feed(held, "", size), "", 0) && state_is(held, 0, most));
    strcat(held, "b");
    expect("is one of the run's", wrote(feed("b", "", size), held, 0) && state_is("", 1, most + 1));
    expect("and a space ends it", wrote(feed(" on ", "", size), " on ", 4) && state_is("", 0, most + 5));
}

/* The state's bytes as an empty piece leaves them, in a room for just what is held. */
static int stays(const char *held, unsigned run, uint32_t total)
{
    put_state(state, held, run, total);
    return wrote(feed("", "", tteolmigu_table_size(table)), "", 0) && state_is(held, run, total);
}

/* A state with one byte changed is read as a new text's, by a piece and by the end, without a room for what it seems to hold. */
static int renews(const char *held, unsigned run, uint32_t total, size_t place, unsigned byte)
{
    size_t size = tteolmigu_table_size(table);
    uint8_t none = 0;
    int same;

    put_state(state, held, run, total);
    state[place] = (uint8_t)byte;
    same = tteolmigu_piece(state, 2, 3, &none, 0, &none, 0, table, size, &none, 0, &none, 0) == 0 && state_is("", 0, 0);
    put_state(state, held, run, total);
    state[place] = (uint8_t)byte;
    same = same && tteolmigu_end(state, 2, 3, &none, 0, &none, 0, table, size, &none, 0) == 0 && state_is("", 0, 0);
    put_state(state, held, run, total);
    state[place] = (uint8_t)byte;
    memset(output, OLD, sizeof output);
    return same && wrote(tteolmigu_piece(state, 2, 3, &none, 0, &none, 0, table, size, bytes("1 o"), 3, output, 9), "1 ", 0) &&
           state_is("o", 0, 3) && none == 0;
}

static void states_of_text(void)
{
    const unsigned most = TTEOLMIGU_WORD_LIMIT;
    const uint32_t all = TTEOLMIGU_RUNNING_TEXT;
    char held[TTEOLMIGU_WORD_LIMIT + 3];
    size_t place;
    int same = 1;

    pack("");
    strcpy(held, letters(most, "'"));
    expect("a new text", stays("", 0, 0));
    expect("nothing held", stays("", 0, 1) && stays("", 0, all));
    expect("a word held", stays("a", 0, 1) && stays("Z", 0, all) && stays("l'E", 0, 3) && stays(letters(most, ""), 0, most));
    expect("an apostrophe behind it", stays("a'", 0, 2) && stays("l'e'", 0, all) && stays(held, 0, most + 1));
    expect("a word let go", stays("", 1, most + 1) && stays("", 1, all));
    expect("an apostrophe behind that", stays("", 2, most + 2) && stays("", 2, all));

    expect("a text too long", renews("", 0, all, 5, 1) && renews("on", 0, all, 5, 1) && renews("", 1, all, 5, 1));
    expect("far too long", renews("", 0, 0, 2, 1) && renews("on", 0, 2, 2, 255));
    expect("shorter than what is held", renews("on", 0, 2, 5, 1) && renews("a'", 0, 2, 5, 1) && renews(held, 0, most + 1, 5, most));
    expect("than a word let go", renews("", 1, most + 1, 5, most) && renews("", 0, 0, 1, 1));
    expect("than that with an apostrophe", renews("", 2, most + 2, 5, most + 1) && renews("", 1, most + 1, 1, 2));
    expect("another run", renews("", 0, all, 1, 3) && renews("", 0, all, 1, 255));
    expect("held in a run let go", renews("on", 0, all, 1, 1) && renews("on'", 0, all, 1, 2));
    expect("bytes 6 and 7", renews("on", 0, all, 6, 1) && renews("on", 0, all, 7, 1));
    expect("a longer word", renews(held, 0, all, 8 + most, 'a'));
    expect("fewer or more held", renews("on", 0, all, 0, 1) && renews("on", 0, all, 0, 3) && renews(held, 0, all, 0, most + 2) &&
                                     renews("on", 0, all, 0, 255));
    expect("no word", renews("on", 0, all, 8, '\'') && renews("one", 0, all, 9, '1') && renews("on", 0, all, 9, 0) &&
                          renews("a'", 0, all, 8, '\'') && renews("a'b", 0, all, 10, '\'') && renews("a'bc", 0, all, 10, '\''));
    expect("no letter", renews("a", 0, all, 8, '@') && renews("a", 0, all, 8, '[') && renews("a", 0, all, 8, '`') &&
                            renews("a", 0, all, 8, '{') && renews("a", 0, all, 8, 0xe1));
    for (place = 8; place < TTEOLMIGU_STATE; place++)
        same = same && renews("", 0, all, place, 1) && renews("", 1, all, place, 'a') && (place < 10 || renews("on", 0, all, place, 'a'));
    expect("a byte behind what is held", same);
}

/* What a call on running text is lent, so that one thing after the other can be put right. */
struct loan {
    uint64_t left, right;
    const uint8_t *customer;
    size_t customer_size;
    const uint8_t *house;
    size_t house_size;
    size_t table_size, piece_size, room_size;
};

static uint64_t lend_piece(const struct loan *loan)
{
    return tteolmigu_piece(state, loan->left, loan->right, loan->customer, loan->customer_size, loan->house, loan->house_size, table,
                           loan->table_size, book, loan->piece_size, output, loan->room_size);
}

static uint64_t lend_end(const struct loan *loan)
{
    return tteolmigu_end(state, loan->left, loan->right, loan->customer, loan->customer_size, loan->house, loan->house_size, table,
                         loan->table_size, output, loan->room_size);
}

/* The refusals of a piece and of an end, neither of which may change a byte of state or room. */
static int refuses(const struct loan *loan, uint64_t of_piece, uint64_t of_end)
{
    uint8_t before[sizeof state];
    uint64_t r;
    int same;

    memcpy(before, state, sizeof state);
    memset(output, OLD, sizeof output);
    r = lend_piece(loan);
    same = r == of_piece && memcmp(state, before, sizeof state) == 0;
    r = lend_end(loan);
    same = same && r == of_end && memcmp(state, before, sizeof state) == 0;
    memcpy(state, before, sizeof state);
    return same && wrote(0, "", 0); /* nothing, that is */
}

static uint64_t ground(unsigned number, unsigned list, uint64_t place)
{
    return (uint64_t)number << 56 | (uint64_t)list << 48 | place;
}

static void grounds_of_text(void)
{
    const size_t size = tteolmigu_size(pack("")), over = TTEOLMIGU_EXCEPTION_TEXT + 1;
    const uint64_t short_room = ground(TTEOLMIGU_TEXT_ROOM_SHORT, 0, 0), long_text = ground(TTEOLMIGU_RUNNING_LONG, 0, 0);
    struct loan loan = {TTEOLMIGU_MARGIN_LEAST - 1, TTEOLMIGU_MARGIN_LIMIT + 1, large, over, large, over, size - 1, 3, 5};
    uint64_t r;

    /* Everything is wrong, and is put right in the order in which it is judged. */
    memset(large, 'a', sizeof large);
    memset(book, '.', sizeof book);
    put_state(state, "on", 0, TTEOLMIGU_RUNNING_TEXT - 2);
    expect("a left margin", refuses(&loan, ground(TTEOLMIGU_MARGIN, 0, 0), ground(TTEOLMIGU_MARGIN, 0, 0)));
    loan.left = TTEOLMIGU_MARGIN_LIMIT;
    expect("a right margin", refuses(&loan, ground(TTEOLMIGU_MARGIN, 0, 0), ground(TTEOLMIGU_MARGIN, 0, 0)));
    loan.right = TTEOLMIGU_MARGIN_LEAST;
    expect("a long list", refuses(&loan, ground(TTEOLMIGU_TEXT_LONG, 0, 0), ground(TTEOLMIGU_TEXT_LONG, 0, 0)));
    loan.customer_size = TTEOLMIGU_EXCEPTION_TEXT;
    expect("the other one before a bad line", refuses(&loan, ground(TTEOLMIGU_TEXT_LONG, 0, 0), ground(TTEOLMIGU_TEXT_LONG, 0, 0)));
    loan.house = bytes("on\no--n\n");
    loan.house_size = 8;
    expect("the customer's bad line", refuses(&loan, ground(TTEOLMIGU_BAD_EXCEPTION, 1, 0), ground(TTEOLMIGU_BAD_EXCEPTION, 1, 0)));
    loan.customer_size = over;
    expect("a long customer's list alone", refuses(&loan, ground(TTEOLMIGU_TEXT_LONG, 0, 0), ground(TTEOLMIGU_TEXT_LONG, 0, 0)));
    loan.customer_size = 0;
    expect("the house's bad line", refuses(&loan, ground(TTEOLMIGU_BAD_EXCEPTION, 2, 3), ground(TTEOLMIGU_BAD_EXCEPTION, 2, 3)));
    loan.house_size = 3;
    expect("a table cut short", refuses(&loan, ground(TTEOLMIGU_TABLE_FORM, 0, 0), ground(TTEOLMIGU_TABLE_FORM, 0, 0)));
    loan.table_size = size;
    expect("a text too long before a short room", refuses(&loan, long_text, short_room));
    loan.piece_size = 2;
    expect("a short room", refuses(&loan, short_room, short_room));
    loan.room_size = TTEOLMIGU_ROOM_PER_BYTE * (2 + 2) - 1;
    memset(output, OLD, sizeof output);
    expect("by one byte", lend_piece(&loan) == short_room && state_is("on", 0, TTEOLMIGU_RUNNING_TEXT - 2));
    loan.room_size++;
    expect("a room of just the size", wrote(lend_piece(&loan), "on..", 0) && state_is("", 0, TTEOLMIGU_RUNNING_TEXT));
    put_state(state, "on'", 0, 3);
    loan.room_size = TTEOLMIGU_ROOM_PER_BYTE * 3 - 1;
    loan.piece_size = 0;
    expect("short for what is held", refuses(&loan, short_room, short_room));
    loan.room_size++;
    memset(output, OLD, sizeof output);
    expect("just enough for the end", wrote(lend_end(&loan), "on'", 0) && state_is("", 0, 0));

    /* A state that is read as a new text's is handed back as it was. */
    memset(state, 0xff, TTEOLMIGU_STATE);
    loan.piece_size = TTEOLMIGU_RUNNING_TEXT + 1;
    loan.left = 0;
    expect("any state and a margin", refuses(&loan, ground(TTEOLMIGU_MARGIN, 0, 0), ground(TTEOLMIGU_MARGIN, 0, 0)));
    loan.left = 1;
    r = lend_piece(&loan);
    expect("any state and a text too long", r == long_text && state[0] == 0xff && state[TTEOLMIGU_STATE - 1] == 0xff);
    loan.piece_size = 3;
    loan.room_size = 8;
    r = lend_piece(&loan);
    expect("any state and a short room", r == short_room && state[0] == 0xff && state[TTEOLMIGU_STATE - 1] == 0xff);
    loan.room_size = 9;
    memset(output, OLD, sizeof output);
    expect("any state and enough", wrote(lend_piece(&loan), "...", 0) && state_is("", 0, 3));
}

/* A text of the greatest length: words of 63 letters with a break at every gap, and a space behind each. */
static void limits_of_text(void)
{
    const size_t all = TTEOLMIGU_RUNNING_TEXT, line = TTEOLMIGU_WORD_LIMIT + 1, words = all / line;
    size_t size = tteolmigu_size(pack("a1\n")), from, to;
    uint8_t none = 0;
    uint64_t r;
    int same = 1;

    memset(book, 'a', sizeof book);
    for (from = line - 1; from < all; from += line)
        book[from] = ' ';
    memset(wide, OLD, sizeof wide);
    put_state(state, "", 0, 0);
    r = tteolmigu_piece(state, 1, 1, &none, 0, &none, 0, table, size, book, all + 1, wide, sizeof wide);
    expect("a byte over the limit", r == ground(TTEOLMIGU_RUNNING_LONG, 0, 0) && state_is("", 0, 0) && wide[0] == OLD);
    r = tteolmigu_piece(state, 1, 1, &none, 0, &none, 0, table, size, book, all, wide, TTEOLMIGU_ROOM_PER_BYTE * all - 1);
    expect("a byte less than three for each", r == ground(TTEOLMIGU_TEXT_ROOM_SHORT, 0, 0) && state_is("", 0, 0) && wide[0] == OLD);
    r = tteolmigu_piece(state, 1, 1, &none, 0, &none, 0, table, size, book, all, wide, TTEOLMIGU_ROOM_PER_BYTE * all);
    expect("the longest text", tteolmigu_number(r) == 0 && state_is("", 0, (uint32_t)all));
    expect("its length", tteolmigu_text_length(r) == words * (3 * line - 4));
    expect("its count", tteolmigu_looks(r) == words * (line + 1));
    for (from = to = 0; from < all; from++) {
        if (from % line != 0 && book[from] != ' ') {
            same = same && wide[to] == '\\' && wide[to + 1] == '-';
            to += 2;
        }
        same = same && wide[to++] == book[from];
    }
    expect("its words", same && to == tteolmigu_text_length(r) && wide[to] == OLD);
    r = tteolmigu_piece(state, 1, 1, &none, 0, &none, 0, table, size, &none, 1, wide, sizeof wide);
    expect("a byte behind it", r == ground(TTEOLMIGU_RUNNING_LONG, 0, 0) && state_is("", 0, (uint32_t)all));
    expect("no byte behind it", wrote(feed("", "", size), "", 0) && state_is("", 0, (uint32_t)all));
    expect("its end", wrote(finish("", size), "", 0) && state_is("", 0, 0));

    put_state(state, "", 0, (uint32_t)all - 3);
    expect("a piece too long for the rest", feed("on..", "", size) == ground(TTEOLMIGU_RUNNING_LONG, 0, 0));
    expect("a shorter one", wrote(feed("on'", "", size), "", 0) && state_is("on'", 0, (uint32_t)all));
    expect("what is held then", wrote(finish("", size), "on'", 4) && state_is("", 0, 0));
}

static void limits_of_widths(void)
{
    uint64_t r;

    memset(room, 0, sizeof room);
    expect("a width for each letter and the apostrophe", TTEOLMIGU_WIDTHS == 'z' - 'a' + 2);
    expect("the apostrophe's is the last", TTEOLMIGU_APOSTROPHE_WIDTH == TTEOLMIGU_WIDTHS - 1);
    expect("limits of widths are doubles", sizeof TTEOLMIGU_WIDTH_LEAST == 8 && sizeof TTEOLMIGU_WIDTH_LIMIT == 8);
    expect("the least width", judged(TTEOLMIGU_WIDTH_LEAST, 0));
    expect("0 with a minus", judged(-0.0, 0));
    expect("less than 0", judged(beyond(-0.0), TTEOLMIGU_BAD_WIDTH));
    expect("the least above 0", judged(beyond(0.0), 0));
    expect("the greatest width", judged(TTEOLMIGU_WIDTH_LIMIT, 0));
    expect("a greater width", judged(beyond(TTEOLMIGU_WIDTH_LIMIT), TTEOLMIGU_BAD_WIDTH));
    expect("not a number", judged(NAN, TTEOLMIGU_BAD_WIDTH) && judged(-NAN, TTEOLMIGU_BAD_WIDTH));
    expect("infinite", judged(INFINITY, TTEOLMIGU_BAD_WIDTH) && judged(-INFINITY, TTEOLMIGU_BAD_WIDTH));

    set_widths(-1.0);
    r = fit(0.0, 1.0, "on");
    expect("a width tells no place", r == (uint64_t)TTEOLMIGU_BAD_WIDTH << 56);
    expect("a digit goes before", fit(0.0, 1.0, "o1") == ((uint64_t)TTEOLMIGU_NOT_LETTER << 56 | 1));
    expect("a long word before", fit(0.0, 1.0, letters(TTEOLMIGU_WORD_LIMIT + 1, "1")) == (uint64_t)TTEOLMIGU_WORD_LONG << 56);
    expect("an empty word before", fit(0.0, 1.0, "") == (uint64_t)TTEOLMIGU_WORD_EMPTY << 56);
    r = tteolmigu_fit(0.0, 1.0, widths, bytes(""), 0, room, TTEOLMIGU_ROOM - 1);
    expect("a short room before all", r == (uint64_t)TTEOLMIGU_ROOM_SHORT << 56);
    set_widths(1.0);
    expect("a line for the longest word", fits(fit(0.0, 63.0, letters(TTEOLMIGU_WORD_LIMIT, "")), TTEOLMIGU_WHOLE, 0));
}

int main(void)
{
    const char *nine = "he2n\nhena4\nhen5at\nhy3ph\n2io\n1na\nn2at\no2n\n1tio\n";
    const uint8_t breaks[] = {0, 0, 1, 0, 0, 0, 1, 0, 0, 0, 0, 0};
    const uint8_t levels[] = {0, 0, 3, 0, 0, 2, 5, 4, 2, 0, 2, 0};
    const uint8_t zeros[TTEOLMIGU_ROOM] = {0};
    uint64_t r;
    size_t size;

    r = tteolmigu_pack(bytes(nine), strlen(nine), table, sizeof table);
    size = tteolmigu_size(r);
    expect("pack finds", tteolmigu_number(r) == 0 && size == 233);
    expect("the table's head", memcmp(table, "\1\1\0\40\0\7", 6) == 0);
    expect("its cells and entries", tteolmigu_cells(table) == 32 && tteolmigu_entries(table) == 7);
    expect("the length that it tells", tteolmigu_table_size(table) == size);
    r = tteolmigu_check(bytes(nine), strlen(nine), table, size);
    expect("check accepts", r == 0);
    r = tteolmigu_check(bytes(nine), strlen(nine) - 5, table, size);
    expect("check refuses a shorter list", tteolmigu_number(r) == TTEOLMIGU_NOT_RIGHT && tteolmigu_place(r) == 0);
    r = tteolmigu_check(bytes(nine), strlen(nine) - 1, table, size);
    expect("a list without its last line feed", tteolmigu_number(r) == TTEOLMIGU_BAD_PATTERN && tteolmigu_place(r) == strlen(nine) - 5);
    r = tteolmigu_check(bytes(nine), strlen(nine), table, size - 1);
    expect("a table cut short", tteolmigu_number(r) == TTEOLMIGU_TABLE_FORM);

    room[TTEOLMIGU_ROOM] = 77;
    r = hyphenate(2, 3, "hyphenation", "", "", size);
    expect("hyphenate finds", tteolmigu_number(r) == 0 && tteolmigu_marks(r) == 2 && tteolmigu_looks(r) == 27);
    expect("its breaks", memcmp(room, breaks, sizeof breaks) == 0 && room[TTEOLMIGU_ROOM] == 77);
    r = tteolmigu_levels(bytes("hyphenation"), 11, table, size, room, sizeof room);
    expect("levels finds", tteolmigu_number(r) == 0 && tteolmigu_marks(r) == 6 && tteolmigu_looks(r) == 27);
    expect("its levels", memcmp(room, levels, sizeof levels) == 0);
    r = hyphenate(2, 2, "metal", "", "met-al\n", size);
    expect("a house line", tteolmigu_marks(r) == 1 && tteolmigu_looks(r) == 0 && room[3] == 1);
    r = hyphenate(2, 3, "metal", "", "met-al\n", size);
    expect("a house line and a right margin", r == 0 && memcmp(room, zeros, sizeof zeros) == 0);
    r = hyphenate(4, 1, "metal", "met-al\n", "meta-l\n", size);
    expect("a customer's line and a left margin", r == 0 && memcmp(room, zeros, sizeof zeros) == 0);
    r = lookup("metal", "", "met-al\n");
    expect("which is looked up as it is written", tteolmigu_list(r) == 2 && tteolmigu_length(r) == 6);
    r = hyphenate(0, 3, "on", "", "", size);
    expect("a margin of 0", tteolmigu_number(r) == TTEOLMIGU_MARGIN);
    r = hyphenate(UINT64_C(0xffffffffffffffff), 3, "on", "", "", size);
    expect("a margin of 2^64 - 1", tteolmigu_number(r) == TTEOLMIGU_MARGIN);
    r = hyphenate(2, 3, "", "", "", size);
    expect("an empty word", tteolmigu_number(r) == TTEOLMIGU_WORD_EMPTY);
    r = hyphenate(2, 3, "ab1", "", "", size);
    expect("a digit", tteolmigu_number(r) == TTEOLMIGU_NOT_LETTER && tteolmigu_place(r) == 2 && tteolmigu_list(r) == 0);
    r = hyphenate(2, 3, "on", "on\n", "on\no--n\n", size);
    expect("a bad house line", tteolmigu_number(r) == TTEOLMIGU_BAD_EXCEPTION && tteolmigu_list(r) == 2 && tteolmigu_place(r) == 3);
    r = tteolmigu_levels(bytes("on"), 2, table, size, room, TTEOLMIGU_ROOM - 1);
    expect("a short room", tteolmigu_number(r) == TTEOLMIGU_ROOM_SHORT);
    r = tteolmigu_pack(bytes(nine), strlen(nine), table, sizeof table - 1);
    expect("a short pack room", tteolmigu_number(r) == TTEOLMIGU_PACK_ROOM_SHORT);

    r = lookup("Metal", "id-ler\n", "evening\nmet-al\n");
    expect("lookup", tteolmigu_number(r) == 0 && tteolmigu_list(r) == 2 && tteolmigu_offset(r) == 8 && tteolmigu_length(r) == 6);
    r = lookup("metal", "id-ler\nmetal\n", "met-al\n");
    expect("the customer's line", tteolmigu_list(r) == 1 && tteolmigu_offset(r) == 7 && tteolmigu_length(r) == 5);
    expect("no line", lookup("on", "", "met-al\n") == 0);
    expect("no refusal", lookup("o1", "", "met-al\n") == 0);

    versions();
    fits_of_words();
    words_with_apostrophes();
    words_of_1980();
    pieces_of_text();
    long_runs();
    states_of_text();
    grounds_of_text();
    limits_of_text();
    limits_of_words();
    limits_of_widths();
    limits_of_lists();
    limits_of_tables();
    limit_of_looks();

    printf("%d passed, %d failed\n", passed, failed);
    return failed != 0;
}
