/*
 * The stack that the calls take, on input as hostile as it can be made.
 *
 * Each case runs twice: on the main thread, where its answer must be that of document 01, and in a child, on a thread with little
 * stack, where answer, room and state must be the same. That stack is lent by the test. It has LIMIT bytes (for pack its arrays' size
 * more) beyond what a thread with nothing to do takes, and below it lies memory that nobody may touch. It is coloured before, so that
 * afterwards one sees how deep it was used; no call may take more than the header says.
 */
#include "tteolmigu.h"

#include <limits.h>
#include <pthread.h>
#include <signal.h>
#include <stdio.h>
#include <stdlib.h>
#include <string.h>
#include <sys/mman.h>
#include <sys/wait.h>
#include <unistd.h>

#define LIMIT 16384u                   /* every call's stack, without the packer's arrays */
#define ARRAYS (10240u + 8192u + 29u)  /* the packer's: entries, taken bases, a mask */
#define ALIGN 64u                      /* thread data wants a stack's end aligned so */
#define WIDE 262144u                   /* all of the lent memory; a thread gets its lower part */
#define GUARD 65536u                   /* below it; more than any frame, so that none steps over it */
#define COLOUR 0xa5
#define OLD 7                          /* what rooms hold before a call */

#define CELLS 8192u
#define ENTRIES 2048u
#define LETTERS 63u
#define LONGEST 16u
#define SYMBOLS 28u
#define PATTERNS 32768u
#define EXCEPTIONS 8192u
#define WORDS 9u        /* words of a piece of running text, behind the one that was held */
#define LONG_RUN 9000u  /* letters with an apostrophe behind each, for a word that was let go */

enum call { NOTHING, TAKE, HYPHENATE, LEVELS, PACK, CHECK, LOOKUP, FIT, ARCHIVE, PIECE, END, CALLS };

static const char *const names[CALLS] = {"nothing", "take", "hyphenate", "levels", "pack", "check",
                                         "lookup",  "fit",  "1980",      "piece",  "end"};

struct bytes {
    uint8_t *at;
    size_t size;
};

/* One case: a call and what it is lent. What a call doesn't take is left out. */
struct job {
    enum call call;
    struct bytes word, customer, house, list, table;
    double hyphen, line, widths[TTEOLMIGU_WIDTHS];
    struct bytes state, piece;
};

/* What a child tells; its memory is shared with the parent. */
struct told {
    uint64_t answer;
    int same_room; /* and state */
    size_t thread; /* bytes that the whole thread took */
    size_t below;  /* bytes below the frame of the thread's function, which makes the call */
};

static int passed = 0;
static int failed = 0;
static uint8_t room[TTEOLMIGU_PACK_ROOM];
static uint8_t other_room[TTEOLMIGU_PACK_ROOM];
static uint8_t state[TTEOLMIGU_STATE];
static uint8_t other_state[TTEOLMIGU_STATE];
static uint8_t *stack;       /* the lowest byte that may be used */
static struct told *told;
static struct told empty;    /* of a thread with nothing to do */
static size_t most[CALLS];   /* the largest 'below' of each call */
static size_t beyond[CALLS]; /* the largest number of bytes that a thread took beyond the empty one */

static void expect(const char *call, const char *what, const char *how, int fact)
{
    if (fact) {
        passed++;
    } else {
        failed++;
        printf("stack: FAILED: %s, %s: %s\n", call, what, how);
    }
}

/* Takes at least so many bytes of stack, to see that the test sees it. */
static __attribute__((noinline)) uint64_t take(size_t size)
{
    volatile uint8_t bytes[size];

    for (size_t i = size; i > 0; i--)
        bytes[i - 1] = 1;
    return bytes[0];
}

static uint64_t make_call(const struct job *job, uint8_t *marks, uint8_t *flow)
{
    switch (job->call) {
    case TAKE:
        return take(job->word.size);
    case HYPHENATE:
        return tteolmigu_hyphenate(1, 1, job->word.at, job->word.size, job->customer.at, job->customer.size, job->house.at,
                                   job->house.size, job->table.at, job->table.size, marks, TTEOLMIGU_ROOM);
    case LEVELS:
        return tteolmigu_levels(job->word.at, job->word.size, job->table.at, job->table.size, marks, TTEOLMIGU_ROOM);
    case PACK:
        return tteolmigu_pack(job->list.at, job->list.size, marks, TTEOLMIGU_PACK_ROOM);
    case CHECK:
        return tteolmigu_check(job->list.at, job->list.size, job->table.at, job->table.size);
    case LOOKUP:
        return tteolmigu_lookup(job->word.at, job->word.size, job->customer.at, job->customer.size, job->house.at,
                                job->house.size);
    case FIT:
        /* As the room stands before a call, every gap is a break. */
        return tteolmigu_fit(job->hyphen, job->line, job->widths, job->word.at, job->word.size, marks, TTEOLMIGU_ROOM);
    case ARCHIVE:
        return tteolmigu_1980(job->word.at, job->word.size, marks, TTEOLMIGU_1980_ROOM);
    case PIECE:
        return tteolmigu_piece(flow, 1, 1, job->customer.at, job->customer.size, job->house.at, job->house.size, job->table.at,
                               job->table.size, job->piece.at, job->piece.size, marks, TTEOLMIGU_PACK_ROOM);
    case END:
        return tteolmigu_end(flow, 1, 1, job->customer.at, job->customer.size, job->house.at, job->house.size, job->table.at,
                             job->table.size, marks, TTEOLMIGU_PACK_ROOM);
    default:
        return 0;
    }
}

static uint8_t *frame;

static void *on_thread(void *job)
{
    frame = __builtin_frame_address(0);
    told->answer = make_call(job, other_room, other_state);
    return NULL;
}

/* The state that a case begins with; the others have none. */
static void set_state(uint8_t *flow, const struct job *job)
{
    memset(flow, 0, TTEOLMIGU_STATE);
    if (job->state.size == TTEOLMIGU_STATE)
        memcpy(flow, job->state.at, TTEOLMIGU_STATE);
}

/* In a child: the case on a thread with so many bytes of stack. */
static int in_child(struct job *job, size_t size)
{
    pthread_attr_t attributes;
    pthread_t thread;
    size_t unused = 0;

    memset(stack, COLOUR, size);
    memset(other_room, OLD, sizeof other_room);
    set_state(other_state, job);
    if (pthread_attr_init(&attributes) != 0 || pthread_attr_setstack(&attributes, stack, size) != 0 ||
        pthread_create(&thread, &attributes, on_thread, job) != 0 || pthread_join(thread, NULL) != 0)
        return 1;
    while (unused < size && stack[unused] == COLOUR)
        unused++;
    told->thread = size - unused;
    told->below = (size_t)(frame - (stack + unused));
    told->same_room = memcmp(room, other_room, sizeof room) == 0 && memcmp(state, other_state, sizeof state) == 0;
    return 0;
}

/* Runs a case in a child, so that a stack that runs over ends the child alone: 0, or the signal that ended it, or -1. */
static int apart(struct job *job, size_t size)
{
    int status = 0;
    pid_t child = fork();

    if (child == 0) {
        alarm(60);
        _exit(in_child(job, size));
    }
    if (child < 0 || waitpid(child, &status, 0) != child)
        return -1;
    if (WIFSIGNALED(status))
        return WTERMSIG(status);
    return WEXITSTATUS(status) == 0 ? 0 : -1;
}

/* The stack of a call's thread. Its end must be aligned for thread data; the header's limits are held to the byte. */
static size_t size_for(enum call call)
{
    size_t size = empty.thread + LIMIT + (call == PACK ? ARRAYS : 0);

    if (size < (size_t)PTHREAD_STACK_MIN)
        size = (size_t)PTHREAD_STACK_MIN;
    return (size + ALIGN - 1) / ALIGN * ALIGN;
}

/* What the header allows a call. */
static size_t allowed(enum call call)
{
    switch (call) {
    case PACK:
        return TTEOLMIGU_PACK_STACK;
    case ARCHIVE:
        return TTEOLMIGU_1980_STACK;
    case PIECE:
    case END:
        return TTEOLMIGU_PIECE_STACK;
    default:
        return TTEOLMIGU_STACK;
    }
}

/* One case with the answer that it must give. Room and state are left as on the main thread. */
static void one(const char *what, struct job job, uint64_t want)
{
    const char *name = names[job.call];
    int ended;

    memset(room, OLD, sizeof room);
    set_state(state, &job);
    expect(name, what, "another answer", make_call(&job, room, state) == want);
    ended = apart(&job, size_for(job.call));
    expect(name, what, ended == SIGSEGV ? "the stack runs over" : "no end on a thread", ended == 0);
    /* Where it runs over, more of it shows by how much. */
    if (ended == 0 || apart(&job, WIDE) == 0) {
        expect(name, what, "another answer, room or state on a thread", told->answer == want && told->same_room);
        expect(name, what, "more stack than the header says", told->below <= allowed(job.call));
        if (most[job.call] < told->below)
            most[job.call] = told->below;
        if (beyond[job.call] < told->thread - empty.thread)
            beyond[job.call] = told->thread - empty.thread;
    }
}

/* A finding of our cases has this mark at every gap of a word of 63 letters; a refusal leaves the room alone. */
static void marks_are(const char *what, uint64_t want, uint8_t mark)
{
    uint8_t sheet[TTEOLMIGU_ROOM];

    memset(sheet, tteolmigu_number(want) == 0 ? mark : OLD, sizeof sheet);
    if (tteolmigu_number(want) == 0)
        sheet[0] = sheet[LETTERS] = 0;
    expect("room", what, "other marks", memcmp(room, sheet, sizeof sheet) == 0);
}

static void hyphenate(const char *what, struct bytes word, struct bytes customer, struct bytes house, struct bytes table,
                      uint64_t want)
{
    one(what, (struct job){.call = HYPHENATE, .word = word, .customer = customer, .house = house, .table = table}, want);
    marks_are(what, want, 1);
}

static void levels(const char *what, struct bytes word, struct bytes table, uint64_t want)
{
    one(what, (struct job){.call = LEVELS, .word = word, .table = table}, want);
    marks_are(what, want, 9);
}

static void pack(const char *what, struct bytes list, uint64_t want)
{
    one(what, (struct job){.call = PACK, .list = list}, want);
}

static void check(const char *what, struct bytes list, struct bytes table, uint64_t want)
{
    one(what, (struct job){.call = CHECK, .list = list, .table = table}, want);
}

static void lookup(const char *what, struct bytes word, struct bytes customer, struct bytes house, uint64_t want)
{
    one(what, (struct job){.call = LOOKUP, .word = word, .customer = customer, .house = house}, want);
}

/* A hyphen of 0.05 and letters of 0.1, but that the last width, an apostrophe's, is given. The room is only read. */
static void fit(const char *what, struct bytes word, double line, double last, uint64_t want)
{
    struct job job = {.call = FIT, .word = word, .hyphen = 0.05, .line = line};
    uint8_t sheet[TTEOLMIGU_ROOM];

    for (size_t i = 0; i + 1 < TTEOLMIGU_WIDTHS; i++)
        job.widths[i] = 0.1;
    job.widths[TTEOLMIGU_WIDTHS - 1] = last;
    one(what, job, want);
    memset(sheet, OLD, sizeof sheet);
    expect("room", what, "written", memcmp(room, sheet, sizeof sheet) == 0);
}

static void reprint(const char *what, struct bytes word, uint64_t want)
{
    one(what, (struct job){.call = ARCHIVE, .word = word}, want);
}

/* What a call on running text leaves at the room's beginning, and OLD behind it. */
static void text_is(const char *what, struct bytes text)
{
    size_t rest = text.size;

    while (rest < sizeof room && room[rest] == OLD)
        rest++;
    expect("room", what, "another text", rest == sizeof room && memcmp(room, text.at, text.size) == 0);
}

/* A piece and what it writes and leaves, or neither where it refuses. */
static void piece(const char *what, struct bytes before, struct bytes text, struct bytes customer, struct bytes house,
                  struct bytes table, uint64_t want, struct bytes output, struct bytes after)
{
    one(what, (struct job){.call = PIECE, .state = before, .piece = text, .customer = customer, .house = house, .table = table}, want);
    text_is(what, output);
    expect("state", what, "another one", memcmp(state, after.at, sizeof state) == 0);
}

static void end(const char *what, struct bytes before, struct bytes customer, struct bytes house, struct bytes table, uint64_t want,
                struct bytes output, struct bytes after)
{
    one(what, (struct job){.call = END, .state = before, .customer = customer, .house = house, .table = table}, want);
    text_is(what, output);
    expect("state", what, "another one", memcmp(state, after.at, sizeof state) == 0);
}

static uint64_t refusal(uint64_t ground, uint64_t list, uint64_t place)
{
    return ground << 56 | list << 48 | place;
}

static uint64_t finding(uint64_t marks, uint64_t looks)
{
    return marks << 32 | looks;
}

/* Texts and tables are made once and live as long as the test. */
static struct bytes fresh(size_t size)
{
    struct bytes made = {malloc(size), size};

    if (made.at == NULL)
        exit(2);
    memset(made.at, 0, size);
    return made;
}

static struct bytes spelt(const char *word)
{
    struct bytes made = fresh(strlen(word));

    memcpy(made.at, word, made.size);
    return made;
}

static struct bytes copy(struct bytes bytes)
{
    struct bytes made = fresh(bytes.size);

    memcpy(made.at, bytes.at, bytes.size);
    return made;
}

/* The same with one byte changed. */
static struct bytes with(struct bytes bytes, size_t place, uint8_t byte)
{
    struct bytes made = copy(bytes);

    made.at[place] = byte;
    return made;
}

/* The same with one byte more, which no text of full size may have. */
static struct bytes longer(struct bytes bytes)
{
    struct bytes made = fresh(bytes.size + 1);

    memcpy(made.at, bytes.at, bytes.size);
    made.at[bytes.size] = '\n';
    return made;
}

/* One text behind the other. */
static struct bytes joined(struct bytes first, struct bytes second)
{
    struct bytes made = fresh(first.size + second.size);

    memcpy(made.at, first.at, first.size);
    memcpy(made.at + first.size, second.at, second.size);
    return made;
}

static struct bytes times(size_t count, struct bytes bytes)
{
    struct bytes made = fresh(count * bytes.size);

    for (size_t i = 0; i < count; i++)
        memcpy(made.at + i * bytes.size, bytes.at, bytes.size);
    return made;
}

/* A word with a break at every gap. */
static struct bytes broken(struct bytes word)
{
    struct bytes made = fresh(3 * word.size - 2);

    for (size_t i = 0; i < word.size; i++) {
        made.at[3 * i] = word.at[i];
        if (i + 1 < word.size)
            memcpy(made.at + 3 * i + 1, "\\-", 2);
    }
    return made;
}

/* The state of a running text that has so many bytes, and these of them held. */
static struct bytes flow(struct bytes held, uint8_t run, size_t total)
{
    struct bytes made = fresh(TTEOLMIGU_STATE);

    made.at[0] = (uint8_t)held.size;
    made.at[1] = run;
    made.at[2] = (uint8_t)(total >> 24);
    made.at[3] = (uint8_t)(total >> 16);
    made.at[4] = (uint8_t)(total >> 8);
    made.at[5] = (uint8_t)total;
    memcpy(made.at + 8, held.at, held.size);
    return made;
}

/* So many letters that count, after a beginning of equal ones. */
static void count(uint8_t *letters, size_t size, size_t digits, size_t number)
{
    memset(letters, 'a', size);
    for (size_t i = 0; i < digits; i++, number /= 26)
        letters[size - 1 - i] = (uint8_t)('a' + number % 26);
}

/*
 * A full exception list: a line of one letter, then 65 of 63 letters with a hyphen at every gap. These count from a number on, so that
 * they differ in the last two letters only.
 */
#define LINE (2 * LETTERS)
#define LINES ((EXCEPTIONS - 2) / LINE)

static struct bytes exceptions(size_t from)
{
    struct bytes list = fresh(EXCEPTIONS);
    uint8_t letters[LETTERS], *at = list.at;

    *at++ = 'a';
    *at++ = '\n';
    for (size_t line = 0; line < LINES; line++) {
        count(letters, LETTERS, 2, from + line);
        for (size_t i = 0; i < LETTERS; i++) {
            *at++ = letters[i];
            *at++ = i + 1 < LETTERS ? '-' : '\n';
        }
    }
    return list;
}

/* The same with an apostrophe as each line's second letter, hyphens on both sides of it. */
static struct bytes apostrophes(struct bytes list)
{
    struct bytes made = copy(list);

    for (size_t line = 0; line < LINES; line++)
        made.at[2 + line * LINE + 2] = '\'';
    return made;
}

/* Three letters in all orders, as tests/programs has them: a pattern list of the largest size that is packed. */
static struct bytes triples(void)
{
    struct bytes list = fresh(PATTERNS);
    size_t line = 0;

    for (; 5 * line + 8 < PATTERNS; line++) {
        count(list.at + 5 * line, 3, 3, line);
        memcpy(list.at + 5 * line + 3, "1\n", 2);
    }
    memcpy(list.at + 5 * line, "zzzzzz1\n", 8);
    return list;
}

/* Sixteen letters a line, of which the first three count, so that each line needs thirteen cells of its own. */
static struct bytes many_cells(void)
{
    struct bytes list = fresh(PATTERNS);
    size_t line = 0;

    for (; 18 * line + 8 < PATTERNS; line++) {
        memset(list.at + 18 * line, 'a', LONGEST);
        count(list.at + 18 * line, 3, 3, line);
        memcpy(list.at + 18 * line + LONGEST, "1\n", 2);
    }
    memcpy(list.at + 18 * line, "zzzzzz1\n", 8);
    return list;
}

/*
 * Sixteen letters a line, of which the last three count, with a digit at each of the seventeen gaps. They are all 9, or the last four
 * count too, so that nearly all entries before them are new ones.
 */
#define FULL (2 * LONGEST + 2)

static struct bytes many_entries(size_t lines, int counting)
{
    struct bytes list = fresh(FULL * lines);
    uint8_t letters[LONGEST];

    for (size_t line = 0; line < lines; line++) {
        uint8_t *at = list.at + FULL * line;
        size_t number = line;

        count(letters, LONGEST, 3, line);
        memset(at, '9', FULL);
        for (size_t i = 0; i < LONGEST; i++)
            at[2 * i + 1] = letters[i];
        for (size_t i = 0; counting && i < 4; i++, number /= 9)
            at[FULL - 2 - 2 * i] = (uint8_t)('1' + number % 9);
        at[FULL - 1] = '\n';
    }
    return list;
}

/* The patterns a9, aa9, .., of 1 to 16 symbols. */
static struct bytes repeated(void)
{
    struct bytes list = fresh(LONGEST * (LONGEST + 5) / 2);
    uint8_t *at = list.at;

    for (size_t symbols = 1; symbols <= LONGEST; symbols++) {
        memset(at, 'a', symbols);
        memcpy(at + symbols, "9\n", 2);
        at += symbols + 2;
    }
    return list;
}

static void put(uint8_t *at, size_t number)
{
    at[0] = (uint8_t)(number >> 8);
    at[1] = (uint8_t)number;
}

static uint8_t *cell(struct bytes table, size_t number)
{
    return table.at + 6 + 6 * number;
}

static uint8_t *entry(struct bytes table, size_t number)
{
    return table.at + 6 + 6 * CELLS + 5 * (number - 1);
}

static void set(struct bytes table, size_t number, size_t symbol, size_t link)
{
    cell(table, number)[1] = (uint8_t)symbol;
    put(cell(table, number) + 2, link);
    put(cell(table, number) + 4, ENTRIES);
}

/*
 * A table of the largest size with free cells and the longest chain: entry k has next k - 1. The distances are 0 up to a number; each
 * is named by hundreds of entries, but with level 9 only by those that are reached last.
 */
static struct bytes chained(size_t distances)
{
    struct bytes table = fresh(TTEOLMIGU_PACK_ROOM);

    table.at[0] = 1;
    table.at[1] = 1;
    put(table.at + 2, CELLS);
    put(table.at + 4, ENTRIES);
    for (size_t i = 0; i < CELLS; i++)
        cell(table, i)[0] = 2;
    for (size_t k = 1; k <= ENTRIES; k++) {
        entry(table, k)[0] = 3;
        entry(table, k)[1] = (uint8_t)((k - 1) % distances);
        entry(table, k)[2] = k <= distances ? 9 : (uint8_t)(1 + k % 8);
        put(entry(table, k) + 3, k - 1);
    }
    return table;
}

/* Every 28th number is a base from which all symbols match, links lead round among these, and every output is the longest chain. */
static struct bytes circles(void)
{
    struct bytes table = chained(2);

    for (size_t i = 0; i < CELLS; i++)
        set(table, i, i == 0 ? 0 : (i - 1) % SYMBOLS + 1, SYMBOLS * (1 + 7 * i % (CELLS / SYMBOLS - 1)));
    return table;
}

/* Random bodies behind right kinds. */
static struct bytes rubbish(void)
{
    struct bytes table = chained(1);
    uint32_t state = 1962;

    for (size_t i = 6; i < table.size; i++) {
        state = state * 1664525 + 1013904223;
        if (i < 6 + 6 * CELLS ? (i - 6) % 6 != 0 : (i - 6 - 6 * CELLS) % 5 != 0)
            table.at[i] = (uint8_t)(state >> 24);
    }
    return table;
}

/* A list packed on the main thread, into the room. */
static struct bytes packed(const char *what, struct bytes list)
{
    struct bytes table = {room, tteolmigu_size(tteolmigu_pack(list.at, list.size, room, sizeof room))};

    expect("pack", what, "no table, or one that isn't right", tteolmigu_check(list.at, list.size, table.at, table.size) == 0);
    return table;
}

/* A right table for a list with a 9 at every gap of its lines: its packed cells, with the longest chain as each line's output. */
static struct bytes right_for(const char *what, struct bytes list)
{
    struct bytes table = chained(LONGEST + 1);
    size_t cells = (packed(what, list).size - 6 - 5 * (LONGEST + 1)) / 6;

    memcpy(cell(table, 0), room + 6, 6 * cells);
    for (size_t i = 0; i < cells; i++)
        if (cell(table, i)[4] != 0 || cell(table, i)[5] != 0)
            put(cell(table, i) + 4, ENTRIES);
    return table;
}

/* A right table for the repeated letter: one cell leads to itself, and each of the sixteen patterns has the longest chain. */
static struct bytes round_and_round(void)
{
    struct bytes table = chained(1);

    set(table, 1, 1, 1);
    set(table, 2, 1, 1);
    return table;
}

/* What a thread takes by itself, and that both the colour and the forbidden memory show what a call takes. */
static void look_at_threads(void)
{
    struct job job = {.call = NOTHING};

    if (apart(&job, WIDE) != 0) {
        printf("stack: no thread can be made on lent memory\n");
        exit(2);
    }
    empty = *told;
    printf("an empty thread takes %zu bytes, %zu of them below its function's frame\n", empty.thread, empty.below);
    printf("a call gets a stack of %zu bytes (rounded up by %zu)\n", size_for(CHECK), size_for(CHECK) - LIMIT - empty.thread);
    printf("pack gets one of %zu bytes (rounded up by %zu)\n", size_for(PACK), size_for(PACK) - LIMIT - ARRAYS - empty.thread);
    job.call = TAKE;
    job.word.size = 5000;
    expect("take", "5,000 bytes", "not seen", apart(&job, size_for(TAKE)) == 0 && told->below >= 5000 && told->below < 5200);
    job.word.size = LIMIT + ALIGN;
    expect("take", "more than the limit", "not seen", apart(&job, WIDE) == 0 && told->thread > size_for(TAKE));
    expect("take", "more than the limit", "not stopped", apart(&job, size_for(TAKE)) == SIGSEGV);
}

int main(void)
{
    /* What can be wrong with the entry that a chain reaches last. */
    static const struct {
        const char *what;
        size_t byte;
        uint8_t value;
    } faults[] = {
        {"a distance too far at the end", 1, LONGEST + 1},
        {"level 0 at the end", 2, 0},
        {"level 10 at the end", 2, 10},
        {"a level of another pattern at the end", 2, 8},
        {"a next that isn't lower at the end", 4, 1},
    };
    const struct bytes none = fresh(1);
    const struct bytes nothing = {none.at, 0};
    const size_t last = EXCEPTIONS - LINE;
    const uint64_t all = LETTERS - 1;
    uint64_t looks = 0;
    struct bytes word = fresh(LETTERS), digit;
    struct bytes held, others, twice;
    struct bytes list, nines, table;
    struct bytes space, mark, words, many, run, over, text, output;
    struct bytes waits, after, start; /* states */

    stack = mmap(NULL, GUARD + WIDE, PROT_READ | PROT_WRITE, MAP_PRIVATE | MAP_ANONYMOUS, -1, 0);
    told = mmap(NULL, sizeof *told, PROT_READ | PROT_WRITE, MAP_SHARED | MAP_ANONYMOUS, -1, 0);
    if (stack == MAP_FAILED || told == MAP_FAILED || mprotect(stack, GUARD, PROT_NONE) != 0)
        return 2;
    stack += GUARD;
    setvbuf(stdout, NULL, _IOLBF, 0);
    look_at_threads();

    /* The word is the last line of the list that holds it; another list has 65 other words, and a bad one its last line twice. */
    count(word.at, LETTERS, 2, LINES - 1);
    digit = with(word, LETTERS - 1, '1');
    held = exceptions(0);
    others = exceptions(LINES);
    twice = copy(others);
    memcpy(twice.at + last, twice.at + last - LINE, LINE);
    for (size_t place = 0; place < LETTERS + 2; place++)
        looks += LETTERS + 2 - place < LONGEST ? LETTERS + 2 - place : LONGEST;
    table = circles();

    levels("circles and the longest chain", word, table, finding(all, looks));
    levels("an apostrophe", with(word, 1, '\''), table, finding(all, looks));
    levels("a digit as last byte", digit, table, refusal(3, 0, LETTERS - 1));
    levels("a wrong head", word, with(table, 5, 1), refusal(9, 0, 0));

    hyphenate("circles, no exceptions", word, nothing, nothing, table, finding(all, looks));
    hyphenate("circles, two full lists", word, others, others, table, finding(all, looks));
    hyphenate("the house's last line", word, others, held, table, finding(all, 0));
    hyphenate("the customer's last line", word, held, others, table, finding(all, 0));
    hyphenate("the customer's last line bad", word, twice, held, table, refusal(6, 1, last));
    hyphenate("the house's last line bad", word, held, twice, table, refusal(6, 2, last));
    hyphenate("a list too long", word, held, longer(held), table, refusal(8, 0, 0));
    hyphenate("apostrophes in the last line", with(word, 1, '\''), apostrophes(others), apostrophes(held), table, finding(all, 0));
    hyphenate("an apostrophe at the end", word, held, with(held, EXCEPTIONS - 2, '\''), table, refusal(6, 2, last));
    hyphenate("a wrong head", word, held, held, with(table, 5, 1), refusal(9, 0, 0));

    lookup("the house's last line", word, others, held, UINT64_C(2) << 48 | last << 16 | (LINE - 1));
    lookup("the customer's last line", word, held, held, UINT64_C(1) << 48 | last << 16 | (LINE - 1));
    lookup("no line", word, others, others, 0);
    lookup("the house's last line bad", word, held, twice, 0);

    fit("the whole word", word, 6.3, 0.1, UINT64_C(1) << 32);
    fit("the last break", word, 6.29, 0.1, UINT64_C(2) << 32 | 62);
    fit("the first break", word, 0.16, 0.1, UINT64_C(2) << 32 | 1);
    fit("no break", word, 0.14, 0.1, UINT64_C(3) << 32);
    fit("a digit as last byte", digit, 6.3, 0.1, refusal(3, 0, LETTERS - 1));
    fit("a word too long", longer(word), 6.3, 0.1, refusal(4, 0, 0));
    fit("the last width too great", word, 6.3, 1001.0, refusal(13, 0, 0));
    fit("an apostrophe of 1", with(word, 1, '\''), 1.16, 1.0, UINT64_C(2) << 32 | 2);

    /* Of all words tried, the second executes the most instructions; the third comes to a place before the word's. */
    reprint("no suffix and no prefix", word, finding(0, 2));
    reprint("the most instructions", spelt("ininininininininininininininininininininininininininininintreed"), finding(28, 142));
    reprint("before the word", spelt("lated"), finding(0, 9));
    reprint("a short word", spelt("late"), 0);
    reprint("a digit as last byte", digit, refusal(3, 0, LETTERS - 1));
    reprint("an apostrophe", with(word, 1, '\''), refusal(3, 0, 1));
    reprint("a word too long", longer(word), refusal(4, 0, 0));

    /*
     * Running text: the longest word is held with an apostrophe behind it, and the piece brings it to its end and has more of them, all
     * with the longest chains, or all in full lists. A word that was let go goes on through a whole piece.
     */
    space = spelt(" ");
    mark = spelt("'");
    words = times(WORDS, joined(word, space));
    many = times(WORDS, joined(broken(word), space));
    waits = flow(joined(word, mark), 0, LETTERS + 1);
    text = joined(space, joined(words, joined(word, mark)));
    output = joined(broken(word), joined(mark, joined(space, many)));
    after = flow(joined(word, mark), 0, LETTERS + 1 + text.size);
    run = times(LONG_RUN, joined(spelt("n"), mark));
    over = times(WORDS, joined(word, joined(word, space)));
    start = flow(nothing, 0, 0);
    piece("circles, no exceptions", waits, text, nothing, nothing, table, finding(output.size, (WORDS + 1) * looks), output, after);
    piece("circles, two full lists", waits, text, others, others, table, finding(output.size, (WORDS + 1) * looks), output, after);
    piece("the house's last line", waits, text, others, held, table, finding(output.size, 0), output, after);
    piece("the customer's last line", waits, text, held, others, table, finding(output.size, 0), output, after);
    piece("a word let go at its end", waits, spelt("n"), held, others, table, finding(LETTERS + 2, 0),
          joined(word, joined(mark, spelt("n"))), flow(nothing, 1, LETTERS + 2));
    piece("a word let go that goes on", flow(nothing, 1, LETTERS + 1), run, held, others, table, finding(run.size, 0), run,
          flow(nothing, 2, LETTERS + 1 + run.size));
    piece("words let go one behind the other", start, over, others, others, table, finding(over.size, 0), over,
          flow(nothing, 0, over.size));
    piece("a state that can't be", with(waits, 6, 1), text, others, others, table,
          finding(1 + many.size, WORDS * looks), joined(space, many), flow(joined(word, mark), 0, text.size));
    piece("the customer's last line bad", waits, text, twice, held, table, refusal(6, 1, last), nothing, waits);
    piece("the house's last line bad", waits, text, held, twice, table, refusal(6, 2, last), nothing, waits);
    piece("a list too long", waits, text, held, longer(held), table, refusal(8, 0, 0), nothing, waits);
    piece("a wrong head", waits, text, held, held, with(table, 5, 1), refusal(9, 0, 0), nothing, waits);
    piece("a text too long", flow(joined(word, mark), 0, TTEOLMIGU_RUNNING_TEXT), space, held, others, table, refusal(21, 0, 0), nothing,
          flow(joined(word, mark), 0, TTEOLMIGU_RUNNING_TEXT));
    piece("a room too short", waits, times(TTEOLMIGU_PACK_ROOM / TTEOLMIGU_ROOM_PER_BYTE, space), held, others, table, refusal(14, 0, 0),
          nothing, waits);

    output = joined(broken(word), mark);
    end("circles, no exceptions", waits, nothing, nothing, table, finding(output.size, looks), output, start);
    end("circles, two full lists", waits, others, others, table, finding(output.size, looks), output, start);
    end("the house's last line", waits, others, held, table, finding(output.size, 0), output, start);
    end("the customer's last line", waits, held, others, table, finding(output.size, 0), output, start);
    end("a word let go", flow(nothing, 2, TTEOLMIGU_RUNNING_TEXT), others, others, table, 0, nothing, start);
    end("a state that can't be", with(waits, 6, 1), others, others, table, 0, nothing, start);
    end("the house's last line bad", waits, held, twice, table, refusal(6, 2, last), nothing, waits);
    end("a wrong head", waits, held, held, with(table, 5, 1), refusal(9, 0, 0), nothing, waits);

    list = triples();
    pack("a list of full size", list, packed("a list of full size", list).size);
    pack("the last line bad", with(list, PATTERNS - 1, '1'), refusal(7, 0, PATTERNS - 8));
    pack("apostrophes", spelt("l'1e\n'l1'\n"), packed("apostrophes", spelt("l'1e\n'l1'\n")).size);
    pack("a list too long", longer(list), refusal(8, 0, 0));
    pack("too many cells", many_cells(), refusal(11, 0, 0));
    pack("too many entries", many_entries(PATTERNS / FULL, 1), refusal(11, 0, 0));

    /* The same symbols as in the last list are packed where they need few entries. */
    nines = many_entries(PATTERNS / FULL, 0);
    table = right_for("many lines", nines);
    check("every line with the longest chain", nines, table, 0);
    for (size_t i = 0; i < sizeof faults / sizeof *faults; i++) {
        struct bytes wrong = copy(table);

        entry(wrong, 1)[faults[i].byte] = faults[i].value;
        check(faults[i].what, nines, wrong, refusal(12, 0, 0));
    }
    nines = many_entries(1, 0);
    check("one line with the longest chain", nines, right_for("one line", nines), 0);
    check("a circle", repeated(), round_and_round(), 0);
    check("all paths", repeated(), circles(), refusal(12, 0, 0));
    check("rubbish", list, rubbish(), refusal(12, 0, 0));
    check("the last line bad", with(list, PATTERNS - 1, '1'), table, refusal(7, 0, PATTERNS - 8));
    check("a wrong head", list, with(table, 5, 1), refusal(9, 0, 0));

    for (enum call call = HYPHENATE; call < CALLS; call++)
        printf("%-9s takes at most %6zu bytes of stack, %6zu beyond an empty thread\n", names[call], most[call], beyond[call]);
    printf("%d passed, %d failed\n", passed, failed);
    return failed != 0;
}
