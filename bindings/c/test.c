/* Calls each function at the edges that the header names, and looks at what it answers and leaves: the numbers of every
   room, and one on each side of it. */
#include "kaori.h"

#include <stdio.h>
#include <string.h>

enum { ROWS = 8, OLD = 0x07070707 };
#define LENGTH(room) (sizeof(room) / sizeof *(room))

static int failed;
#define EXPECT(what) \
    do { \
        if (!(what)) failed = printf("bindings/c/test.c:%d: %s\n", __LINE__, #what); \
    } while (0)

/* The rooms of a call, each between two numbers that nobody may write to. */
typedef struct {
    uint32_t before_tokens, tokens[KAORI_TOKEN_WIDTH * ROWS];
    uint32_t before_nodes, nodes[KAORI_NODE_WIDTH * ROWS];
    uint32_t before_links, links[KAORI_LINK_WIDTH * ROWS];
    uint32_t before_symbols, symbols[KAORI_SYMBOL_WIDTH * ROWS];
    uint32_t before_scratch, scratch[KAORI_SCRATCH_WIDTH * ROWS];
    uint32_t before_answer, answer[KAORI_ANSWER_ROOM + 2], after;
} rooms;

static int all(const uint32_t *room, size_t length, uint32_t number) {
    size_t i = 0;
    while (i < length && room[i] == number) i++;
    return i == length;
}

static rooms fresh(void) {
    rooms r;
    memset(&r, 7, sizeof r);
    return r;
}

static int fences(const rooms *r) {
    return r->before_tokens == OLD && r->before_nodes == OLD && r->before_links == OLD && r->before_symbols == OLD &&
           r->before_scratch == OLD && r->before_answer == OLD && r->after == OLD && r->answer[8] == OLD &&
           r->answer[9] == OLD;
}

static int four_are(const rooms *r, uint32_t number) {
    return all(r->nodes, LENGTH(r->nodes), number) && all(r->links, LENGTH(r->links), number) &&
           all(r->symbols, LENGTH(r->symbols), number) && all(r->scratch, LENGTH(r->scratch), number);
}

static uint32_t parse(rooms *r, const char *text, const uint32_t *tokens, size_t length, uint32_t limit, size_t room) {
    return kaori_parse((const uint8_t *)text, strlen(text), tokens, length, limit, r->nodes, LENGTH(r->nodes), r->links,
                       LENGTH(r->links), r->symbols, LENGTH(r->symbols), r->scratch, LENGTH(r->scratch), r->answer,
                       room);
}

static uint32_t from_text(rooms *r, const char *text, uint32_t limit, size_t list, size_t room) {
    return kaori_read((const uint8_t *)text, strlen(text), r->tokens, list, limit, r->nodes, LENGTH(r->nodes), r->links,
                      LENGTH(r->links), r->symbols, LENGTH(r->symbols), r->scratch, LENGTH(r->scratch), r->answer, room);
}

/* `a;` and its Eof, and what stands in the rooms for it. */
static const uint32_t list[] = {KAORI_IDENTIFIER, 0, 1, KAORI_SEMICOLON, 1, 2, KAORI_EOF, 2, 2};
static const uint32_t accepted[] = {0, 2, 1, 1, 0, 0, 0, KAORI_NO_KIND};
static const uint32_t two_rows[] = {KAORI_NODE_IDENTIFIER, 0, 1, 0, 0, 1, 0, 0, 0, 1, KAORI_NODE_BLOCK, 0, 0, 0, 1, KAORI_ABSENT, 0, 0, 0, KAORI_ABSENT};

static int holds_it(const rooms *r) {
    return memcmp(r->answer, accepted, sizeof accepted) == 0 && memcmp(r->nodes, two_rows, sizeof two_rows) == 0 &&
           all(r->nodes + LENGTH(two_rows), LENGTH(r->nodes) - LENGTH(two_rows), 0) &&
           all(r->links, LENGTH(r->links), 0) && r->symbols[0] == 0 && r->symbols[1] == 1 &&
           all(r->symbols + 2, LENGTH(r->symbols) - 2, 0) && all(r->scratch, LENGTH(r->scratch), 0) && fences(r);
}

static int answered(const rooms *r, uint32_t code, uint32_t at, uint32_t start, uint32_t end, uint32_t expected) {
    uint32_t numbers[] = {code, 0, 0, 0, at, start, end, expected};
    return memcmp(r->answer, numbers, sizeof numbers) == 0 && fences(r);
}

static void parsing(void) {
    rooms r = fresh();
    EXPECT(parse(&r, "a;", list, 9, 64, 10) == KAORI_OK && holds_it(&r));
    EXPECT(all(r.tokens, LENGTH(r.tokens), OLD));
    r = fresh();
    EXPECT(parse(&r, "a;", list, 9, 64, 7) == KAORI_SMALL_ANSWER);
    EXPECT(four_are(&r, OLD) && all(r.answer, 10, OLD) && fences(&r));
    EXPECT(parse(&r, "a;", list, 9, 64, 0) == KAORI_SMALL_ANSWER && all(r.answer, 10, OLD));
    EXPECT(parse(&r, "a;", list, 8, 64, 8) == KAORI_BAD_COUNT && answered(&r, 1, 0, 0, 0, KAORI_NO_KIND));
    EXPECT(parse(&r, "a;", list, 0, 64, 8) == KAORI_BAD_COUNT);
    EXPECT(parse(&r, "a;", list, 9, 0, 8) == KAORI_BAD_LIMIT);
    EXPECT(parse(&r, "a;", list, 9, 65, 8) == KAORI_BAD_LIMIT);
    EXPECT(parse(&r, "a\x80", list, 9, 64, 8) == KAORI_HIGH_BYTE && answered(&r, 5, 0, 1, 2, KAORI_NO_KIND));
    EXPECT(parse(&r, "a", list, 9, 64, 8) == KAORI_BAD_TOKEN && answered(&r, 6, 1, 1, 2, KAORI_NO_KIND));
    EXPECT(parse(&r, "a;", list, 6, 64, 8) == KAORI_BAD_EOF && answered(&r, 7, 1, 1, 2, KAORI_NO_KIND));
    EXPECT(four_are(&r, OLD));
    uint32_t two[] = {KAORI_IDENTIFIER, 0, 1, KAORI_IDENTIFIER, 2, 3, KAORI_EOF, 3, 3};
    EXPECT(parse(&r, "a b", two, 9, 64, 8) == KAORI_REQUIRED && answered(&r, 8, 1, 2, 3, KAORI_SEMICOLON));
    EXPECT(four_are(&r, 0));
}

static void reading(void) {
    rooms r = fresh();
    EXPECT(from_text(&r, "a;", 64, LENGTH(r.tokens), 8) == KAORI_OK && holds_it(&r));
    EXPECT(memcmp(r.tokens, list, sizeof list) == 0 && all(r.tokens + 9, LENGTH(r.tokens) - 9, 0));
    r = fresh();
    EXPECT(from_text(&r, "a;", 64, LENGTH(r.tokens), 7) == KAORI_SMALL_ANSWER && all(r.answer, 10, OLD));
    EXPECT(from_text(&r, "a\xff", 64, LENGTH(r.tokens), 8) == KAORI_HIGH_BYTE && all(r.tokens, LENGTH(r.tokens), OLD));
    EXPECT(from_text(&r, "a @", 64, LENGTH(r.tokens), 8) == KAORI_NO_TOKEN && answered(&r, 16, 0, 2, 3, KAORI_NO_KIND));
    EXPECT(all(r.tokens, LENGTH(r.tokens), 0) && four_are(&r, OLD));
    r = fresh();
    EXPECT(from_text(&r, "a;", 64, 8, 8) == KAORI_BAD_COUNT && all(r.tokens, 8, 0) && r.tokens[8] == OLD);
    EXPECT(from_text(&r, "a;b;c;d;", 64, LENGTH(r.tokens), 8) == KAORI_BAD_COUNT && four_are(&r, OLD));
    EXPECT(from_text(&r, "((a));", 2, LENGTH(r.tokens), 8) == KAORI_TOO_DEEP && answered(&r, 11, 2, 2, 3, KAORI_NO_KIND));
    EXPECT(four_are(&r, 0) && r.tokens[0] == KAORI_LEFT_PAREN);
    EXPECT(from_text(&r, "", 64, 3, 8) == KAORI_OK && r.tokens[0] == KAORI_EOF && r.answer[KAORI_NODES] == 1);
}

/* A call in the first numbers of the rooms: so many of nodes, links, symbols and scratch. */
static uint32_t parse_in(rooms *r, const char *text, const uint32_t *tokens, size_t length, const size_t *n) {
    return kaori_parse((const uint8_t *)text, strlen(text), tokens, length, 64, r->nodes, n[0], r->links, n[1], r->symbols,
                       n[2], r->scratch, n[3], r->answer, 8);
}

/* The numbers that were lent are all zeros, and those past them as they were. */
static int zeros(const rooms *r, const size_t *n) {
    const uint32_t *four[] = {r->nodes, r->links, r->symbols, r->scratch};
    const size_t lengths[] = {LENGTH(r->nodes), LENGTH(r->links), LENGTH(r->symbols), LENGTH(r->scratch)};
    int right = 1;
    for (size_t i = 0; i < LENGTH(four); i++)
        right = right && all(four[i], n[i], 0) && all(four[i] + n[i], lengths[i] - n[i], OLD);
    return right;
}

/* `a;` in rooms of just what it needs: its rows, and a row of scratch for each token. Before that each room in turn with a
   number less: the root's row and its link do not fit at the Eof, the symbol at its name. */
static void just_enough(void) {
    static const size_t enough[] = {KAORI_NODE_WIDTH * 2, KAORI_LINK_WIDTH * 1, KAORI_SYMBOL_WIDTH * 1, KAORI_SCRATCH_WIDTH * 3};
    static const uint32_t place[][3] = {{2, 2, 2}, {2, 2, 2}, {0, 0, 1}};
    for (size_t small = 0; small <= LENGTH(enough); small++) {
        rooms r = fresh();
        size_t n[LENGTH(enough)];
        for (size_t i = 0; i < LENGTH(enough); i++) n[i] = enough[i] - (i == small);
        uint32_t code = parse_in(&r, "a;", list, 9, n);
        if (small < LENGTH(place))
            EXPECT(code == KAORI_SMALL_ROOM && zeros(&r, n) &&
                   answered(&r, 4, place[small][0], place[small][1], place[small][2], KAORI_NO_KIND));
        else if (small < LENGTH(enough))
            EXPECT(code == KAORI_SMALL_ROOM && answered(&r, 4, 0, 0, 0, KAORI_NO_KIND) && four_are(&r, OLD));
        else
            EXPECT(code == KAORI_OK && memcmp(r.answer, accepted, sizeof accepted) == 0 && fences(&r) &&
                   memcmp(r.nodes, two_rows, sizeof two_rows) == 0 && r.nodes[n[0]] == OLD && all(r.links, n[1], 0) &&
                   r.links[n[1]] == OLD && r.symbols[0] == 0 && r.symbols[1] == 1 && r.symbols[n[2]] == OLD &&
                   all(r.scratch, n[3], 0) && r.scratch[n[3]] == OLD);
    }
}

/* Rows of nodes, links and symbols, and the token of `f(a);` at which the first row does not fit: a symbol's at its name,
   a name's row at the next token, the call's link and row after the `)`, the root's at the Eof. */
static void row_by_row(void) {
    static const uint32_t tokens[] = {KAORI_IDENTIFIER, 0, 1, KAORI_LEFT_PAREN, 1, 2, KAORI_IDENTIFIER, 2, 3, KAORI_RIGHT_PAREN, 3, 4, KAORI_SEMICOLON, 4, 5, KAORI_EOF, 5, 5};
    static const uint32_t steps[][4] = {{0, 0, 0, 0}, {0, 0, 1, 1}, {1, 0, 1, 2}, {1, 0, 2, 3}, {2, 0, 2, 4}, {2, 1, 2, 4}, {3, 1, 2, 5}, {3, 2, 2, 5}};
    static const uint32_t whole[] = {0, 4, 2, 2, 0, 0, 0, KAORI_NO_KIND};
    size_t n[] = {KAORI_NODE_WIDTH * 4, KAORI_LINK_WIDTH * 2, KAORI_SYMBOL_WIDTH * 2, KAORI_SCRATCH_WIDTH * 6};
    rooms full = fresh(), r = fresh();
    EXPECT(parse(&full, "f(a);", tokens, LENGTH(tokens), 64, 8) == KAORI_OK);
    EXPECT(parse_in(&r, "f(a);", tokens, LENGTH(tokens), n) == KAORI_OK && memcmp(r.answer, whole, sizeof whole) == 0);
    EXPECT(memcmp(r.nodes, full.nodes, 4 * n[0]) == 0 && memcmp(r.links, full.links, 4 * n[1]) == 0 &&
           memcmp(r.symbols, full.symbols, 4 * n[2]) == 0 && fences(&r));
    for (size_t i = 0; i < LENGTH(steps); i++) {
        uint32_t at = steps[i][3];
        n[0] = KAORI_NODE_WIDTH * steps[i][0];
        n[1] = KAORI_LINK_WIDTH * steps[i][1];
        n[2] = KAORI_SYMBOL_WIDTH * steps[i][2];
        r = fresh();
        EXPECT(parse_in(&r, "f(a);", tokens, LENGTH(tokens), n) == KAORI_SMALL_ROOM && zeros(&r, n));
        EXPECT(answered(&r, 4, at, tokens[3 * at + 1], tokens[3 * at + 2], KAORI_NO_KIND));
    }
}

/* An Eof alone, and no node row: the answer of scratch that is too small. What is left tells which it was. */
static void the_same_numbers(void) {
    static const uint32_t eof[] = {KAORI_EOF, 0, 0};
    size_t n[] = {0, 0, 0, KAORI_SCRATCH_WIDTH};
    rooms r = fresh();
    EXPECT(parse_in(&r, "", eof, 3, n) == KAORI_SMALL_ROOM && answered(&r, 4, 0, 0, 0, KAORI_NO_KIND) && zeros(&r, n));
    r = fresh();
    n[3]--;
    EXPECT(parse_in(&r, "", eof, 3, n) == KAORI_SMALL_ROOM && answered(&r, 4, 0, 0, 0, KAORI_NO_KIND) && four_are(&r, OLD));
}

/* f, a, -a, the call, the root: each row's parent, and from the inmost name outward. */
static void parents(void) {
    static const uint32_t named_by[] = {3, 2, 3, 4, KAORI_ABSENT}, outward[] = {1, 2, 3, 4};
    rooms r = fresh();
    EXPECT(from_text(&r, "f(-a);", 64, LENGTH(r.tokens), 8) == KAORI_OK && r.answer[KAORI_NODES] == LENGTH(named_by));
    for (size_t i = 0; i < LENGTH(named_by); i++) EXPECT(r.nodes[KAORI_NODE_WIDTH * i + KAORI_PARENT] == named_by[i]);
    uint32_t row = 1;
    for (size_t i = 0; i < LENGTH(outward) && row < LENGTH(named_by); i++) {
        EXPECT(row == outward[i]);
        row = r.nodes[KAORI_NODE_WIDTH * row + KAORI_PARENT];
    }
    EXPECT(row == KAORI_ABSENT);
}

/* Built-in names `show` and `print`, and `show(a);`: show is symbol 0, print 1 and a 2. */
static const char names[] = "showprint";
static const uint32_t name_rows[] = {0, 4, 4, 9, 7};
static const char script[] = "show(a);";
static const uint32_t script_list[] = {KAORI_IDENTIFIER, 0, 4, KAORI_LEFT_PAREN, 4, 5, KAORI_IDENTIFIER, 5, 6, KAORI_RIGHT_PAREN, 6, 7, KAORI_SEMICOLON, 7, 8, KAORI_EOF, 8, 8};

/* A call beside names, with so many numbers of the symbol room and of scratch. */
static uint32_t beside(rooms *r, const char *lent, const uint32_t *rows, size_t length, size_t symbols,
                       size_t scratch) {
    return kaori_parse_with((const uint8_t *)lent, strlen(lent), rows, length, (const uint8_t *)script, strlen(script),
                            script_list, LENGTH(script_list), KAORI_FIRST_EDITION, 64, r->nodes, LENGTH(r->nodes),
                            r->links, LENGTH(r->links), r->symbols, symbols, r->scratch, scratch, r->answer, 8);
}

static uint32_t text_beside(rooms *r, const uint32_t *rows, size_t length, const char *text) {
    return kaori_read_with((const uint8_t *)names, strlen(names), rows, length, (const uint8_t *)text, strlen(text),
                           r->tokens, LENGTH(r->tokens), KAORI_FIRST_EDITION, 64, r->nodes, LENGTH(r->nodes), r->links,
                           LENGTH(r->links), r->symbols, LENGTH(r->symbols), r->scratch, LENGTH(r->scratch), r->answer,
                           8);
}

static int part_is(const rooms *r, uint32_t symbol, const char *bytes, size_t length) {
    struct kaori_part part =
        kaori_name_part((const uint8_t *)names, strlen(names), (const uint8_t *)script, strlen(script), r->symbols,
                        LENGTH(r->symbols), r->answer[KAORI_SYMBOLS], 2, symbol);
    return part.code == (symbol < 3 ? KAORI_OK : KAORI_NO_NAME) && (const char *)part.bytes == bytes &&
           part.length == length;
}

static void built_in(void) {
    static const uint32_t whole[] = {0, 4, 2, 3, 0, 0, 0, KAORI_NO_KIND}, rows[] = {0, 4, 4, 9, 5, 6};
    rooms r = fresh(), plain = fresh();
    /* a fifth number is left over */
    for (size_t length = 4; length <= 5; length++) {
        r = fresh();
        EXPECT(beside(&r, names, name_rows, length, LENGTH(r.symbols), LENGTH(r.scratch)) == KAORI_OK && fences(&r));
        EXPECT(memcmp(r.answer, whole, sizeof whole) == 0 && memcmp(r.symbols, rows, sizeof rows) == 0);
        EXPECT(all(r.symbols + 6, LENGTH(r.symbols) - 6, 0) && all(r.scratch, LENGTH(r.scratch), 0));
        EXPECT(r.nodes[3] == 0 && r.nodes[KAORI_NODE_WIDTH + 3] == 2);
    }
    EXPECT(part_is(&r, 0, names, 4) && part_is(&r, 1, names + 4, 5) && part_is(&r, 2, script + 5, 1));
    EXPECT(part_is(&r, 3, script, 0) && part_is(&r, KAORI_ABSENT, script, 0));
    /* but for the symbols, the rows are those of the script alone; and beside no names all is as without */
    EXPECT(parse(&plain, script, script_list, LENGTH(script_list), 64, 8) == KAORI_OK &&
           plain.answer[KAORI_SYMBOLS] == 2);
    EXPECT(plain.nodes[3] == 0 && plain.nodes[KAORI_NODE_WIDTH + 3] == 1);
    r.nodes[KAORI_NODE_WIDTH + 3] = 1;
    EXPECT(memcmp(r.nodes, plain.nodes, sizeof r.nodes) == 0 && memcmp(r.links, plain.links, sizeof r.links) == 0);
    r = fresh();
    EXPECT(beside(&r, "", name_rows, 0, LENGTH(r.symbols), LENGTH(r.scratch)) == KAORI_OK &&
           memcmp(&r, &plain, sizeof r) == 0);
    /* a string that spells a built-in name has its symbol, and from the text all is the same */
    r = fresh();
    EXPECT(text_beside(&r, name_rows, 4, "\"print\";") == KAORI_OK && r.nodes[3] == 1 && r.answer[KAORI_SYMBOLS] == 2);
    EXPECT(text_beside(&r, name_rows, 4, script) == KAORI_OK && memcmp(r.symbols, rows, sizeof rows) == 0);
    EXPECT(memcmp(r.answer, whole, sizeof whole) == 0 && memcmp(r.tokens, script_list, sizeof script_list) == 0);
}

/* What is wrong with built-in names, and in which order it is found. */
static void wrong_names(void) {
    static const uint32_t twice[] = {0, 4, 0, 4}, back[] = {4, 0}, past[] = {0, 10}, empty[] = {4, 4}, two[] = {0, 2};
    static uint32_t many[KAORI_SYMBOL_WIDTH * (KAORI_NAMES_MAX + 1)];
    static char long_text[KAORI_TEXT_MAX + 2];
    rooms r = fresh();
    size_t s = LENGTH(r.symbols), scratch = LENGTH(r.scratch);
    memset(long_text, 'a', KAORI_TEXT_MAX + 1);
    for (size_t i = 0; i < LENGTH(many); i++) many[i] = (uint32_t)(i % 2 == 0 ? 0 : i / 2 + 1);
    EXPECT(beside(&r, names, twice, 4, s, scratch) == KAORI_BAD_NAMES && answered(&r, 18, 0, 0, 0, KAORI_NO_KIND));
    EXPECT(beside(&r, names, back, 2, s, scratch) == KAORI_BAD_NAMES &&
           beside(&r, names, past, 2, s, scratch) == KAORI_BAD_NAMES);
    EXPECT(beside(&r, names, empty, 2, s, scratch) == KAORI_BAD_NAMES &&
           beside(&r, "if", two, 2, s, scratch) == KAORI_BAD_NAMES);
    EXPECT(beside(&r, "1234", twice, 2, s, scratch) == KAORI_BAD_NAMES &&
           beside(&r, "nil ", twice, 2, s, scratch) == KAORI_BAD_NAMES);
    EXPECT(beside(&r, long_text, twice, 0, s, scratch) == KAORI_BAD_NAMES);
    long_text[KAORI_TEXT_MAX] = 0;
    EXPECT(beside(&r, long_text, many, LENGTH(many), s, scratch) == KAORI_BAD_NAMES);
    /* 64 names are right; they do not fit the symbol room */
    EXPECT(beside(&r, long_text, many, LENGTH(many) - 2, s, scratch) == KAORI_SMALL_ROOM);
    /* scratch, the names, their rows, and then the text */
    EXPECT(beside(&r, names, twice, 4, s, scratch - 7) == KAORI_SMALL_ROOM &&
           beside(&r, names, twice, 4, 3, scratch) == KAORI_BAD_NAMES);
    EXPECT(beside(&r, names, name_rows, 4, 3, scratch) == KAORI_SMALL_ROOM && answered(&r, 4, 0, 0, 0, KAORI_NO_KIND));
    EXPECT(text_beside(&r, twice, 4, "a @") == KAORI_NO_TOKEN && text_beside(&r, twice, 4, "a;") == KAORI_BAD_NAMES);
    EXPECT(four_are(&r, OLD));
    /* the names' rows fit, and the script's own does not */
    EXPECT(beside(&r, names, name_rows, 4, 5, scratch) == KAORI_SMALL_ROOM && answered(&r, 4, 2, 5, 6, KAORI_NO_KIND));
    EXPECT(all(r.symbols, 5, 0) && r.symbols[5] == OLD && all(r.nodes, LENGTH(r.nodes), 0));
}

/* A text in an edition, beside no names, with so many numbers of scratch; and the tokens that were made. */
static uint32_t in_edition(rooms *r, const char *text, uint32_t edition, uint32_t limit, size_t scratch) {
    return kaori_read_with((const uint8_t *)names, 0, name_rows, 0, (const uint8_t *)text, strlen(text), r->tokens,
                           LENGTH(r->tokens), edition, limit, r->nodes, LENGTH(r->nodes), r->links, LENGTH(r->links),
                           r->symbols, LENGTH(r->symbols), r->scratch, scratch, r->answer, 8);
}

static uint32_t list_in_edition(rooms *r, const char *text, size_t length, uint32_t edition, uint32_t limit) {
    return kaori_parse_with((const uint8_t *)names, 0, name_rows, 0, (const uint8_t *)text, strlen(text), r->tokens, length,
                            edition, limit, r->nodes, LENGTH(r->nodes), r->links, LENGTH(r->links), r->symbols,
                            LENGTH(r->symbols), r->scratch, LENGTH(r->scratch), r->answer, 8);
}

static int row_is(const rooms *r, uint32_t row, uint32_t kind, uint32_t start, uint32_t end, uint32_t first) {
    const uint32_t *numbers = r->nodes + KAORI_NODE_WIDTH * row;
    return numbers[0] == kind && numbers[1] == start && numbers[2] == end && numbers[3] == first;
}

/* What the second edition has and the first has not, and what is no edition. */
static void editions(void) {
    static const uint32_t none[] = {0, 3, 255, KAORI_ABSENT};
    rooms r = fresh(), plain = fresh();
    size_t scratch = LENGTH(r.scratch);
    EXPECT(in_edition(&r, "f(-a);", 1, 64, scratch) == KAORI_OK &&
           from_text(&plain, "f(-a);", 64, LENGTH(plain.tokens), 8) == KAORI_OK && memcmp(&r, &plain, sizeof r) == 0);
    EXPECT(in_edition(&r, "f(-a);", 2, 64, scratch) == KAORI_OK && memcmp(&r, &plain, sizeof r) == 0);
    /* `not` */
    EXPECT(in_edition(&r, "not a and b;", 1, 1, scratch) == KAORI_TOO_DEEP && answered(&r, 11, 1, 4, 5, KAORI_NO_KIND));
    EXPECT(in_edition(&r, "not a and b;", 1, 2, scratch) == KAORI_OK && row_is(&r, 2, KAORI_NODE_AND, 4, 11, 0) &&
           row_is(&r, 3, KAORI_NODE_NOT, 0, 3, 2));
    EXPECT(in_edition(&r, "not a and b;", 2, 1, scratch) == KAORI_TOO_DEEP && answered(&r, 11, 0, 0, 3, KAORI_NO_KIND));
    EXPECT(in_edition(&r, "not a and b;", 2, 2, scratch) == KAORI_OK && row_is(&r, 1, KAORI_NODE_NOT, 0, 5, 0) &&
           row_is(&r, 3, KAORI_NODE_AND, 0, 11, 1));
    /* a bare `return` */
    EXPECT(in_edition(&r, "return;", 1, 64, scratch) == KAORI_OPERAND && answered(&r, 9, 1, 6, 7, KAORI_NO_KIND));
    EXPECT(in_edition(&r, "return;", 2, 64, scratch) == KAORI_OK && row_is(&r, 0, KAORI_NODE_RETURN, 0, 6, KAORI_ABSENT));
    EXPECT(list_in_edition(&r, "return;", 9, 2, 64) == KAORI_OK && row_is(&r, 0, KAORI_NODE_RETURN, 0, 6, KAORI_ABSENT));
    EXPECT(in_edition(&r, "{return}", 2, 1, scratch) == KAORI_OK && r.answer[KAORI_NODES] == 3);
    EXPECT(in_edition(&r, "return", 2, 64, scratch) == KAORI_OPERAND && answered(&r, 9, 1, 6, 6, KAORI_NO_KIND));
    /* a chain after a parenthesised expression: the callee is the inner row */
    EXPECT(in_edition(&r, "(f)(x);", 1, 64, scratch) == KAORI_REQUIRED && answered(&r, 8, 3, 3, 4, KAORI_SEMICOLON));
    EXPECT(in_edition(&r, "(f)(x);", 2, 64, scratch) == KAORI_OK && row_is(&r, 2, KAORI_NODE_CALL, 3, 6, 0));
    /* no edition: after 3, before any 4, and the rooms stay as they were */
    for (size_t i = 0; i < LENGTH(none); i++) {
        r = fresh();
        EXPECT(in_edition(&r, "a;", none[i], 64, 0) == KAORI_BAD_EDITION && answered(&r, 21, 0, 0, 0, KAORI_NO_KIND));
        EXPECT(four_are(&r, OLD) && memcmp(r.tokens, list, sizeof list) == 0);
        EXPECT(list_in_edition(&r, "a;", 9, none[i], 64) == KAORI_BAD_EDITION && four_are(&r, OLD));
        EXPECT(list_in_edition(&r, "a\x80", 9, none[i], 64) == KAORI_BAD_EDITION && four_are(&r, OLD));
        EXPECT(list_in_edition(&r, "a;", 9, none[i], 0) == KAORI_BAD_LIMIT && four_are(&r, OLD));
        EXPECT(in_edition(&r, "a @", none[i], 64, scratch) == KAORI_NO_TOKEN && four_are(&r, OLD));
    }
    EXPECT(in_edition(&r, "a;", 2, 64, 0) == KAORI_SMALL_ROOM && four_are(&r, OLD));
}

/* A guard's text beside names, with so many numbers of scratch and of the answer's room. */
static uint32_t guard_beside(rooms *r, const uint32_t *rows, size_t length, const char *text, uint32_t edition,
                             uint32_t limit, size_t scratch, size_t room) {
    return kaori_read_guard_with((const uint8_t *)names, strlen(names), rows, length, (const uint8_t *)text, strlen(text),
                                 r->tokens, LENGTH(r->tokens), edition, limit, r->nodes, LENGTH(r->nodes), r->links,
                                 LENGTH(r->links), r->symbols, LENGTH(r->symbols), r->scratch, scratch, r->answer, room);
}

static uint32_t guard(rooms *r, const char *text, uint32_t edition, uint32_t limit) {
    return guard_beside(r, name_rows, 0, text, edition, limit, LENGTH(r->scratch), 8);
}

/* A guard's text and tokens, in the first numbers of the rooms: so many of nodes, links, symbols and scratch. */
static uint32_t guard_in(rooms *r, const char *text, const uint32_t *tokens, size_t length, uint32_t edition,
                         uint32_t limit, const size_t *n, size_t room) {
    return kaori_guard_with((const uint8_t *)names, 0, name_rows, 0, (const uint8_t *)text, strlen(text), tokens, length,
                            edition, limit, r->nodes, n[0], r->links, n[1], r->symbols, n[2], r->scratch, n[3], r->answer,
                            room);
}

static const size_t whole_rooms[] = {KAORI_NODE_WIDTH * ROWS, KAORI_LINK_WIDTH * ROWS, KAORI_SYMBOL_WIDTH * ROWS, KAORI_SCRATCH_WIDTH * ROWS};

/* A guard that is accepted in an edition, with all its rows. Behind the last one's parent, which is absent, stands no root. */
typedef struct {
    const char *text;
    uint32_t edition, counts[3], nodes[KAORI_NODE_WIDTH * 5], links[KAORI_LINK_WIDTH], symbols[KAORI_SYMBOL_WIDTH * 3];
} guarded;

static const guarded guards[] = {
    {"a", 1, {1, 0, 1}, {KAORI_NODE_IDENTIFIER, 0, 1, 0, 0, 1, 0, 0, 0, KAORI_ABSENT}, {0}, {0, 1}},
    {"typed == 0 and refreshed", 1, {5, 0, 2},
     {KAORI_NODE_IDENTIFIER, 0, 5, 0, 0, 5, 0, 0, 0, 2, KAORI_NODE_NUMBER, 9, 10, 0, 0, 0, 0, 0, 0, 2,
      KAORI_NODE_BINARY, 0, 10, 5, 0, 1, 0, 0, 0, 4, KAORI_NODE_IDENTIFIER, 15, 24, 1, 15, 24, 0, 0, 0, 4,
      KAORI_NODE_AND, 0, 24, 2, 3, 0, 0, 0, 0, KAORI_ABSENT},
     {0}, {0, 5, 15, 24}},
    {"f(x).y", 1, {4, 1, 3},
     {KAORI_NODE_IDENTIFIER, 0, 1, 0, 0, 1, 0, 0, 0, 2, KAORI_NODE_IDENTIFIER, 2, 3, 1, 2, 3, 0, 0, 0, 2,
      KAORI_NODE_CALL, 1, 4, 0, 0, 1, 0, 0, 0, 3, KAORI_NODE_PROPERTY, 4, 6, 2, 2, 5, 6, 0, 0, KAORI_ABSENT},
     {1}, {0, 1, 2, 3, 5, 6}},
    /* what the editions have of their own */
    {"not a and b", 1, {4, 0, 2},
     {KAORI_NODE_IDENTIFIER, 4, 5, 0, 4, 5, 0, 0, 0, 2, KAORI_NODE_IDENTIFIER, 10, 11, 1, 10, 11, 0, 0, 0, 2,
      KAORI_NODE_AND, 4, 11, 0, 1, 0, 0, 0, 0, 3, KAORI_NODE_NOT, 0, 3, 2, 0, 0, 0, 0, 0, KAORI_ABSENT},
     {0}, {4, 5, 10, 11}},
    {"not a and b", 2, {4, 0, 2},
     {KAORI_NODE_IDENTIFIER, 4, 5, 0, 4, 5, 0, 0, 0, 1, KAORI_NODE_NOT, 0, 5, 0, 0, 0, 0, 0, 0, 3,
      KAORI_NODE_IDENTIFIER, 10, 11, 1, 10, 11, 0, 0, 0, 3, KAORI_NODE_AND, 0, 11, 1, 2, 0, 0, 0, 0, KAORI_ABSENT},
     {0}, {4, 5, 10, 11}},
    {"(a)(b)", 2, {3, 1, 2},
     {KAORI_NODE_IDENTIFIER, 1, 2, 0, 1, 2, 0, 0, 0, 2, KAORI_NODE_IDENTIFIER, 4, 5, 1, 4, 5, 0, 0, 0, 2,
      KAORI_NODE_CALL, 3, 6, 0, 0, 1, 0, 0, 0, KAORI_ABSENT},
     {1}, {1, 2, 4, 5}},
};

static int holds_guard(const rooms *r, const guarded *g) {
    const uint32_t numbers[] = {0, g->counts[0], g->counts[1], g->counts[2], 0, 0, 0, KAORI_NO_KIND};
    size_t nodes = KAORI_NODE_WIDTH * g->counts[0], links = KAORI_LINK_WIDTH * g->counts[1], symbols = KAORI_SYMBOL_WIDTH * g->counts[2];
    return memcmp(r->answer, numbers, sizeof numbers) == 0 && memcmp(r->nodes, g->nodes, nodes * sizeof *g->nodes) == 0 &&
           memcmp(r->links, g->links, links * sizeof *g->links) == 0 &&
           memcmp(r->symbols, g->symbols, symbols * sizeof *g->symbols) == 0 &&
           all(r->nodes + nodes, LENGTH(r->nodes) - nodes, 0) && all(r->links + links, LENGTH(r->links) - links, 0) &&
           all(r->symbols + symbols, LENGTH(r->symbols) - symbols, 0) && all(r->scratch, LENGTH(r->scratch), 0) && fences(r);
}

/* The list that was made, up to its Eof. */
static size_t made(const rooms *r) {
    size_t length = 0;
    while (r->tokens[length] != KAORI_EOF) length += KAORI_TOKEN_WIDTH;
    return length + KAORI_TOKEN_WIDTH;
}

static void guards_read(void) {
    for (size_t i = 0; i < LENGTH(guards); i++) {
        const guarded *g = guards + i;
        rooms r = fresh(), from_list = fresh();
        EXPECT(guard(&r, g->text, g->edition, 64) == KAORI_OK && holds_guard(&r, g));
        EXPECT(all(r.tokens + made(&r), LENGTH(r.tokens) - made(&r), 0));
        EXPECT(guard_in(&from_list, g->text, r.tokens, made(&r), g->edition, 64, whole_rooms, 10) == KAORI_OK);
        EXPECT(holds_guard(&from_list, g) && all(from_list.tokens, LENGTH(from_list.tokens), OLD));
        /* the script with a `;` behind it has these rows, and a root, which is the last one's parent */
        char text[32];
        rooms script = fresh();
        uint32_t last = g->counts[0] - 1, *parent = script.nodes + KAORI_NODE_WIDTH * last + KAORI_PARENT;
        snprintf(text, sizeof text, "%s;", g->text);
        EXPECT(in_edition(&script, text, g->edition, 64, LENGTH(script.scratch)) == KAORI_OK);
        EXPECT(script.answer[KAORI_NODES] == last + 2 && *parent == last + 1);
        *parent = KAORI_ABSENT;
        EXPECT(memcmp(script.nodes, g->nodes, KAORI_NODE_WIDTH * (last + 1) * sizeof *g->nodes) == 0);
        /* rooms of just these rows are enough */
        const size_t n[] = {KAORI_NODE_WIDTH * g->counts[0], KAORI_LINK_WIDTH * g->counts[1], KAORI_SYMBOL_WIDTH * g->counts[2], made(&r)};
        from_list = fresh();
        EXPECT(guard_in(&from_list, g->text, r.tokens, made(&r), g->edition, 64, n, 8) == KAORI_OK);
        EXPECT(memcmp(from_list.nodes, g->nodes, n[0] * sizeof *g->nodes) == 0 && from_list.nodes[n[0]] == OLD && fences(&from_list));
    }
    /* beside names: print is symbol 1, and x the third */
    rooms r = fresh();
    EXPECT(guard_beside(&r, name_rows, 4, "print(x)", 1, 64, LENGTH(r.scratch), 8) == KAORI_OK && r.nodes[3] == 1 &&
           r.nodes[KAORI_NODE_WIDTH + 3] == 2 && r.answer[KAORI_NODES] == 3 && r.answer[KAORI_SYMBOLS] == 3);
    /* from the last row inward: what stands below the call */
    EXPECT(kaori_child(r.nodes, 30, r.links, 3, 2, 0) == 0 && kaori_child(r.nodes, 30, r.links, 3, 2, 1) == 1 &&
           kaori_children(r.nodes, 30, 2) == 4);
}

/* A guard that is refused in an edition within a limit: code, token, its span, and the kind that was required. */
static const struct {
    const char *text;
    uint32_t edition, limit, code, at, start, end, expected;
} no_guards[] = {
    {"a;", 1, 64, 8, 1, 1, 2, KAORI_EOF},
    {"a;", 2, 64, 8, 1, 1, 2, KAORI_EOF},
    {"a = b", 1, 64, 8, 1, 2, 3, KAORI_EOF},
    {"(a)(b)", 1, 64, 8, 3, 3, 4, KAORI_EOF},
    {"a }", 1, 64, 8, 1, 2, 3, KAORI_EOF},
    {"(a", 1, 64, 8, 2, 2, 2, KAORI_RIGHT_PAREN},
    {"", 1, 64, 9, 0, 0, 0, KAORI_NO_KIND},
    {"for", 2, 64, 9, 0, 0, 3, KAORI_NO_KIND},
    {"return a", 2, 64, 9, 0, 0, 6, KAORI_NO_KIND},
    {"((a))", 1, 2, 11, 2, 2, 3, KAORI_NO_KIND},
    {"not a", 2, 1, 11, 0, 0, 3, KAORI_NO_KIND},
    /* the four, whatever stands before and behind them; the first of them */
    {"a {", 1, 64, 17, 1, 2, 3, KAORI_NO_KIND},
    {"a {", 2, 64, 17, 1, 2, 3, KAORI_NO_KIND},
    {"if a", 1, 64, 17, 0, 0, 2, KAORI_NO_KIND},
    {"|x| x", 2, 64, 17, 0, 0, 1, KAORI_NO_KIND},
    {"f(#{})", 1, 64, 17, 2, 2, 3, KAORI_NO_KIND},
    {"a; b |", 1, 64, 17, 3, 5, 6, KAORI_NO_KIND},
    {"((a)) {", 1, 2, 17, 5, 6, 7, KAORI_NO_KIND},
};

static void guards_refused(void) {
    for (size_t i = 0; i < LENGTH(no_guards); i++) {
        uint32_t code = no_guards[i].code, at = no_guards[i].at, start = no_guards[i].start, end = no_guards[i].end;
        rooms r = fresh(), from_list = fresh();
        EXPECT(guard(&r, no_guards[i].text, no_guards[i].edition, no_guards[i].limit) == code);
        EXPECT(answered(&r, code, at, start, end, no_guards[i].expected) && four_are(&r, code == KAORI_OUTSIDE ? OLD : 0));
        EXPECT(all(r.tokens + made(&r), LENGTH(r.tokens) - made(&r), 0));
        EXPECT(guard_in(&from_list, no_guards[i].text, r.tokens, made(&r), no_guards[i].edition, no_guards[i].limit,
                        whole_rooms, 8) == code);
        EXPECT(answered(&from_list, code, at, start, end, no_guards[i].expected) &&
               four_are(&from_list, code == KAORI_OUTSIDE ? OLD : 0));
    }
    /* no message for 17 */
    uint8_t room[KAORI_MESSAGE_ROOM] = {'.'};
    EXPECT(kaori_message(KAORI_OUTSIDE, KAORI_NO_KIND, KAORI_LEFT_BRACE, room, LENGTH(room)) == 0 && room[0] == '.');
}

/* `a {` is 17 after all that comes before reading, and before what is met in reading; an answer that is too small is first. */
static void guards_in_order(void) {
    static const uint32_t outside[] = {KAORI_IDENTIFIER, 0, 1, KAORI_LEFT_BRACE, 2, 3, KAORI_EOF, 3, 3};
    static const uint32_t twice[] = {0, 4, 0, 4};
    static const size_t no_rows[] = {0, 0, 0, 9}, no_scratch[] = {80, 24, 16, 8};
    rooms r = fresh();
    EXPECT(guard_in(&r, "a {", outside, 9, 1, 64, whole_rooms, 7) == KAORI_SMALL_ANSWER && all(r.answer, 10, OLD));
    EXPECT(guard_beside(&r, name_rows, 0, "a", 1, 64, LENGTH(r.scratch), 7) == KAORI_SMALL_ANSWER);
    EXPECT(four_are(&r, OLD) && all(r.tokens, LENGTH(r.tokens), OLD) && all(r.answer, 10, OLD) && fences(&r));
    EXPECT(guard_in(&r, "a {", outside, 8, 1, 64, whole_rooms, 8) == KAORI_BAD_COUNT);
    EXPECT(guard_in(&r, "a {", outside, 9, 3, 65, whole_rooms, 8) == KAORI_BAD_LIMIT);
    EXPECT(guard_in(&r, "a {", outside, 9, 3, 64, no_scratch, 8) == KAORI_BAD_EDITION);
    EXPECT(guard_in(&r, "a {", outside, 9, 2, 64, no_scratch, 8) == KAORI_SMALL_ROOM);
    EXPECT(guard_beside(&r, twice, 4, "a {", 1, 64, LENGTH(r.scratch), 8) == KAORI_BAD_NAMES);
    EXPECT(guard_in(&r, "a {\x80", outside, 9, 1, 64, no_rows, 8) == KAORI_HIGH_BYTE);
    EXPECT(guard_in(&r, "a (", outside, 9, 1, 64, no_rows, 8) == KAORI_BAD_TOKEN);
    EXPECT(guard_in(&r, "a {", outside, 6, 1, 64, no_rows, 8) == KAORI_BAD_EOF);
    EXPECT(guard_in(&r, "a {", outside, 9, 1, 64, no_rows, 8) == KAORI_OUTSIDE && answered(&r, 17, 1, 2, 3, KAORI_NO_KIND));
    EXPECT(guard(&r, "a { @", 1, 64) == KAORI_NO_TOKEN && four_are(&r, OLD));
    /* and without it no row fits */
    static const uint32_t one[] = {KAORI_IDENTIFIER, 0, 1, KAORI_EOF, 1, 1};
    EXPECT(guard_in(&r, "a", one, 6, 1, 64, no_rows, 8) == KAORI_SMALL_ROOM && answered(&r, 4, 0, 0, 1, KAORI_NO_KIND));
    EXPECT(all(r.scratch, 9, 0) && r.scratch[9] == OLD && r.nodes[0] == OLD);
}

/* As bindings/README.md has it. */
static void a_guard(void) {
    static const uint8_t no_names[1];
    static const uint32_t no_rows[1];
    rooms r = fresh();
    const char *text = "typed == 0 and refreshed";
    if (kaori_read_guard_with(no_names, 0, no_rows, 0, (const uint8_t *)text, strlen(text), r.tokens, LENGTH(r.tokens),
                              KAORI_FIRST_EDITION, 64, r.nodes, LENGTH(r.nodes), r.links, LENGTH(r.links), r.symbols,
                              LENGTH(r.symbols), r.scratch, LENGTH(r.scratch), r.answer, KAORI_ANSWER_ROOM) == KAORI_OK) {
        const uint32_t *last = r.nodes + KAORI_NODE_WIDTH * (r.answer[KAORI_NODES] - 1);
        EXPECT(last[0] == KAORI_NODE_AND && last[KAORI_PARENT] == KAORI_ABSENT);
    }
    EXPECT(r.answer[KAORI_CODE] == KAORI_OK);
}

/* A text that is refused in an edition, by a code at a token; and then what kaori_expected has of it: how many kinds could
   have stood there, the lowest, the set, and the open constructs. */
typedef struct {
    const char *text;
    uint32_t edition, limit, code, at, count, lowest;
    uint64_t set;
    uint32_t open, chain[2 * KAORI_OPENING_WIDTH];
} sample;

static const sample samples[] = {
    {"f(a", 1, 64, 8, 3, 17, KAORI_PLUS, 0xc6bfee, 1, {KAORI_EXPRESSION, 0}},
    {"f(a,", 1, 64, 8, 4, 16, KAORI_PLUS, 0xde2011f0016, 1, {KAORI_EXPRESSION, 0}},
    {"{ let x }", 1, 64, 8, 3, 1, KAORI_ASSIGN, 1, 1, {KAORI_BLOCK, 0}},
    {"x = y = z;", 1, 64, 8, 3, 16, KAORI_PLUS, 0x20000c29fee, 0, {0}},
    {"if a b", 1, 64, 8, 2, 16, KAORI_PLUS, 0xd29fee, 2, {KAORI_IF, 0, KAORI_BLOCK, 2}},
    {"import", 1, 64, 8, 1, 1, KAORI_IDENTIFIER, 0x80000000000, 0, {0}},
    {"for", 1, 64, 10, 0, 25, KAORI_PLUS, 0x1dfbdf1b0016, 0, {0}},
    {";", 1, 64, 9, 0, 25, KAORI_PLUS, 0x1dfbdf1b0016, 1, {KAORI_EXPRESSION, 0}},
    {"-", 1, 64, 9, 1, 15, KAORI_PLUS, 0xde2011b0016, 2, {KAORI_EXPRESSION, 0, KAORI_SIGN, 0}},
    /* what the editions have of their own */
    {"return;", 1, 64, 9, 1, 15, KAORI_PLUS, 0xde2011b0016, 1, {KAORI_EXPRESSION, 1}},
    {"return", 2, 64, 9, 1, 16, KAORI_PLUS, 0xfe2011b0016, 1, {KAORI_EXPRESSION, 1}},
    {"{ return", 2, 64, 9, 2, 17, KAORI_PLUS, 0xfe2013b0016, 2, {KAORI_BLOCK, 0, KAORI_EXPRESSION, 2}},
    {"(f)(x);", 1, 64, 8, 3, 15, KAORI_ASSIGN, 0x20000c01fef, 0, {0}},
    {"(f) x;", 2, 64, 8, 3, 17, KAORI_ASSIGN, 0x20000c29fef, 0, {0}},
    {"not", 1, 64, 9, 1, 15, KAORI_PLUS, 0xde2011b0016, 2, {KAORI_EXPRESSION, 0, KAORI_EXPRESSION, 1}},
    {"not", 2, 64, 9, 1, 15, KAORI_PLUS, 0xde2011b0016, 2, {KAORI_EXPRESSION, 0, KAORI_SIGN, 0}},
    /* 11: no set, and as many as the limit */
    {"((a));", 1, 2, 11, 2, 0, KAORI_NO_KIND, 0, 2, {KAORI_EXPRESSION, 0, KAORI_EXPRESSION, 1}},
    {"{-a;}", 1, 2, 11, 1, 0, KAORI_NO_KIND, 0, 2, {KAORI_BLOCK, 0, KAORI_EXPRESSION, 1}},
    {"not a;", 2, 1, 11, 0, 0, KAORI_NO_KIND, 0, 1, {KAORI_EXPRESSION, 0}},
};

/* A room for what is told, with a number on each side. */
typedef struct {
    uint32_t before, numbers[KAORI_TOLD_ROOM], after;
} told_room;

static told_room untold(void) {
    told_room t;
    memset(&t, 7, sizeof t);
    return t;
}

static int told(const told_room *t, uint32_t count, uint32_t lowest, uint32_t open, const uint32_t *chain) {
    const uint32_t *pairs = t->numbers + KAORI_TOLD_CHAIN;
    size_t used = KAORI_OPENING_WIDTH * open;
    return t->before == OLD && t->after == OLD && t->numbers[KAORI_TOLD_COUNT] == count &&
           t->numbers[KAORI_TOLD_LOWEST] == lowest && t->numbers[KAORI_TOLD_OPEN] == open &&
           memcmp(pairs, chain, used * sizeof *pairs) == 0 &&
           all(pairs + used, KAORI_OPENING_WIDTH * KAORI_OPEN_MAX - used, 0);
}

static int nothing(const told_room *t) { return told(t, 0, KAORI_NO_KIND, 0, t->numbers); }

static uint64_t tell(const rooms *r, const sample *s, uint32_t code, uint32_t at, told_room *t, size_t room) {
    return kaori_expected(r->tokens, LENGTH(r->tokens), s->edition, s->limit, code, at, t->numbers, room);
}

static void expecting(void) {
    for (size_t i = 0; i < LENGTH(samples); i++) {
        const sample *s = samples + i;
        rooms r = fresh();
        told_room t = untold();
        EXPECT(in_edition(&r, s->text, s->edition, s->limit, LENGTH(r.scratch)) == s->code && r.answer[KAORI_AT] == s->at);
        EXPECT(tell(&r, s, s->code, s->at, &t, KAORI_TOLD_ROOM) == s->set);
        EXPECT(told(&t, s->count, s->lowest, s->open, s->chain));
        EXPECT(!kaori_expects(s->set, r.tokens[KAORI_TOKEN_WIDTH * s->at]) && !kaori_expects(s->set, 64));
        EXPECT(s->set == 0 || kaori_expects(s->set, s->lowest));
        /* a room of a number less stays as it was, and so does one of none; what is past the room as well */
        t = untold();
        EXPECT(tell(&r, s, s->code, s->at, &t, KAORI_TOLD_ROOM - 1) == s->set && all(t.numbers, KAORI_TOLD_ROOM, OLD));
        EXPECT(tell(&r, s, s->code, s->at, &t, 0) == s->set && all(t.numbers, KAORI_TOLD_ROOM, OLD));
        EXPECT(tell(&r, s, s->code, s->at, &t, KAORI_TOLD_ROOM + 1) == s->set);
        EXPECT(told(&t, s->count, s->lowest, s->open, s->chain));
        /* the list may end with the token: what comes after it does not matter */
        t = untold();
        EXPECT(kaori_expected(r.tokens, KAORI_TOKEN_WIDTH * (s->at + 1), s->edition, s->limit, s->code, s->at, t.numbers,
                              KAORI_TOLD_ROOM) == s->set);
        EXPECT(told(&t, s->count, s->lowest, s->open, s->chain));
        /* another code, and another token */
        for (uint32_t code = 0; code < 24; code++) {
            t = untold();
            EXPECT(code == s->code || (tell(&r, s, code, s->at, &t, KAORI_TOLD_ROOM) == 0 && nothing(&t)));
        }
        for (uint32_t at = 0; at <= ROWS; at++) {
            t = untold();
            EXPECT(at == s->at || (tell(&r, s, s->code, at, &t, KAORI_TOLD_ROOM) == 0 && nothing(&t)));
        }
        t = untold();
        EXPECT(tell(&r, s, s->code, KAORI_ABSENT, &t, KAORI_TOLD_ROOM) == 0 && nothing(&t));
        /* no edition, no limit, no list */
        static const uint32_t none[] = {0, 3, 256, KAORI_ABSENT}, limits[] = {0, 65, KAORI_ABSENT};
        for (size_t j = 0; j < LENGTH(none); j++) {
            sample other = *s;
            other.edition = none[j];
            t = untold();
            EXPECT(tell(&r, &other, s->code, s->at, &t, KAORI_TOLD_ROOM) == 0 && nothing(&t));
        }
        for (size_t j = 0; j < LENGTH(limits); j++) {
            sample other = *s;
            other.limit = limits[j];
            t = untold();
            EXPECT(tell(&r, &other, s->code, s->at, &t, KAORI_TOLD_ROOM) == 0 && nothing(&t));
        }
        for (size_t length = 0; length < LENGTH(r.tokens); length++) {
            uint64_t set = kaori_expected(r.tokens, length, s->edition, s->limit, s->code, s->at, t.numbers, KAORI_TOLD_ROOM);
            int right = length % KAORI_TOKEN_WIDTH == 0 && s->at < length / KAORI_TOKEN_WIDTH;
            EXPECT(right ? set == s->set && told(&t, s->count, s->lowest, s->open, s->chain) : set == 0 && nothing(&t));
        }
    }
}

/* Parentheses up to each limit, and one more: 11, with as many open as the limit. An Eof in the place of the last one within it is
   what is wrong then, with as many open; alone it is a script. */
static void as_deep(void) {
    static uint32_t tokens[KAORI_TOKEN_WIDTH * (KAORI_TOKENS_MAX + 1)];
    for (uint32_t i = 0; i < KAORI_TOKENS_MAX + 1; i++) tokens[KAORI_TOKEN_WIDTH * i] = KAORI_LEFT_PAREN;
    for (uint32_t limit = 1; limit <= KAORI_LIMIT_MAX; limit++) {
        told_room t = untold();
        uint32_t chain[KAORI_OPENING_WIDTH * KAORI_OPEN_MAX] = {0};
        for (uint32_t i = 0; i < limit; i++) chain[KAORI_OPENING_WIDTH * i + 1] = i;
        EXPECT(kaori_expected(tokens, KAORI_TOKEN_WIDTH * KAORI_TOKENS_MAX, 1, limit, KAORI_TOO_DEEP, limit, t.numbers,
                              KAORI_TOLD_ROOM) == 0);
        EXPECT(told(&t, 0, KAORI_NO_KIND, limit, chain));
        tokens[KAORI_TOKEN_WIDTH * (limit - 1)] = KAORI_EOF;
        uint64_t set = kaori_expected(tokens, KAORI_TOKEN_WIDTH * limit, 2, limit, KAORI_OPERAND, limit - 1, t.numbers,
                                      KAORI_TOLD_ROOM);
        EXPECT(limit == 1 ? set == 0 && nothing(&t) : set == UINT64_C(0xde2011b0016) && told(&t, 15, KAORI_PLUS, limit, chain));
        tokens[KAORI_TOKEN_WIDTH * (limit - 1)] = KAORI_LEFT_PAREN;
    }
    /* a list that is too long */
    told_room t = untold();
    EXPECT(kaori_expected(tokens, LENGTH(tokens), 1, 8, KAORI_TOO_DEEP, 8, t.numbers, KAORI_TOLD_ROOM) == 0 && nothing(&t));
}

static uint32_t name_place(uint32_t count, uint32_t built, uint32_t symbol, uint32_t *answer, size_t room) {
    static const uint32_t rows[] = {0, 9, 0, 9, 3, 3, 3, 2, 8, 8, 7, 9, 1};
    return kaori_name((const uint8_t *)names, strlen(names), (const uint8_t *)script, strlen(script), rows, LENGTH(rows),
                      count, built, symbol, answer, room);
}

/* The place of a name, of rows that no reader wrote: a row is held to its own text, which the symbol's number chooses. */
static void naming(void) {
    static const uint32_t places[][3] = {{0, 0, 9}, {15, 0, 0}, {0, 3, 3}, {15, 0, 0}, {0, 8, 8}, {15, 0, 0}, {15, 0, 0}, {15, 0, 0}};
    uint32_t answer[] = {OLD, OLD, OLD, OLD};
    for (uint32_t symbol = 0; symbol < LENGTH(places); symbol++) {
        EXPECT(name_place(LENGTH(places), 1, symbol, answer, 4) == places[symbol][0]);
        EXPECT(memcmp(answer, places[symbol], sizeof places[symbol]) == 0 && answer[3] == OLD);
    }
    EXPECT(name_place(2, 2, 1, answer, 3) == KAORI_OK && answer[KAORI_NAME_END] == 9);
    EXPECT(name_place(1, 2, 1, answer, 3) == KAORI_NO_NAME && answer[KAORI_NAME_END] == 0);
    EXPECT(name_place(2, 2, 1, answer, 2) == KAORI_SMALL_ANSWER && answer[KAORI_CODE] == KAORI_NO_NAME);
}

static void telling(void) {
    uint8_t room[54];
    memset(room, '.', sizeof room);
    EXPECT(kaori_message(8, KAORI_NUMBER_LITERAL, KAORI_STRING_LITERAL, room, 51) == 0 && room[0] == '.');
    EXPECT(kaori_message(8, KAORI_NUMBER_LITERAL, 45, room, 52) == 0 && room[0] == '.');
    EXPECT(kaori_message(7, KAORI_NUMBER_LITERAL, 0, room, 52) == 0 && room[0] == '.');
    EXPECT(kaori_message(KAORI_BAD_EDITION, KAORI_NO_KIND, 0, room, 52) == 0 && room[0] == '.');
    EXPECT(kaori_message(12, KAORI_NO_KIND, KAORI_NUMBER_LITERAL, room, 52) == 0 && room[0] == '.');
    EXPECT(kaori_message(11, KAORI_NO_KIND, 0, room, 54) == 15 && memcmp(room, "nested too deep.", 16) == 0);
    EXPECT(kaori_message(8, KAORI_NUMBER_LITERAL, KAORI_STRING_LITERAL, room, 52) == 52 && room[52] == '.');
    EXPECT(memcmp(room, "expected <number literal> and found <string literal>", 52) == 0);

    uint32_t answer[] = {OLD, OLD, OLD, OLD};
    const uint8_t text[] = {'a', '\n', 'b'};
    static const uint8_t long_text[KAORI_TEXT_MAX + 1];
    EXPECT(kaori_place(text, 3, 2, answer, 2) == KAORI_SMALL_ANSWER && all(answer, 4, OLD));
    EXPECT(kaori_place(text, 3, 3, answer, 4) == KAORI_OK && answer[KAORI_LINE] == 2 && answer[KAORI_COLUMN] == 2);
    EXPECT(answer[KAORI_CODE] == KAORI_OK && answer[3] == OLD);
    EXPECT(kaori_place(text, 3, 4, answer, 3) == KAORI_PAST_TEXT && answer[0] == 14 && answer[1] == 0 && answer[2] == 0);
    const uint8_t ends[] = {'a', '\r', '\n', '\n', '\r', '\r'};
    const uint32_t places[][2] = {{1, 1}, {1, 2}, {1, 3}, {2, 1}, {3, 1}, {4, 1}, {5, 1}};
    for (size_t i = 0; i < LENGTH(places); i++) {
        EXPECT(kaori_place(ends, sizeof ends, i, answer, 3) == KAORI_OK);
        EXPECT(answer[KAORI_LINE] == places[i][0] && answer[KAORI_COLUMN] == places[i][1]);
    }
    EXPECT(kaori_place(long_text, sizeof long_text, 0, answer, 3) == KAORI_LONG_TEXT && answer[0] == 2);
}

/* The text of each code, and of numbers that are none. 8 and 9 name kinds, and 16 depends on the byte at the start. */
static void reasons(void) {
    static const char *const texts[] = {"",
                                        "too many tokens: a script has at most 4,095",
                                        "file too large: a script has at most 65,536 bytes",
                                        "the depth limit is not from 1 to 64",
                                        "too little room for the rows",
                                        "a byte that is not ASCII",
                                        "a token whose kind, place or text is wrong",
                                        "the end of the file is not the last token alone",
                                        "expected `;` and found `if`",
                                        "expected a <operand> and found: `if`",
                                        "for is not supported",
                                        "nested too deep",
                                        "",
                                        "too little room for the answer",
                                        "a place past the end of the text",
                                        "no such row or name",
                                        "no token starts here",
                                        "a guard has no {, if, | or #",
                                        "the built-in names are wrong",
                                        "the scripts' count, cuts or rooms are wrong",
                                        "the choice's length is not the statement count",
                                        "the edition is neither 1 nor 2",
                                        "the rows are not those of a tree",
                                        ""};
    static const uint8_t text[] = {'a', '@', '"'};
    uint8_t room[54], message[54];
    for (uint32_t code = 0; code < LENGTH(texts); code++) {
        size_t length = strlen(texts[code]);
        memset(room, '.', sizeof room);
        memset(message, '.', sizeof message);
        EXPECT(kaori_reason(text, 3, code, 1, KAORI_SEMICOLON, KAORI_KEYWORD_IF, room, 53) == length);
        EXPECT(length <= 52 && memcmp(room, texts[code], length) == 0 && room[length] == '.' && room[53] == '.');
        /* 8 to 11 as kaori_message has them */
        if (KAORI_REQUIRED <= code && code <= KAORI_TOO_DEEP)
            EXPECT(kaori_message(code, KAORI_SEMICOLON, KAORI_KEYWORD_IF, message, 53) == length &&
                   memcmp(room, message, sizeof room) == 0);
        /* too little room */
        memset(room, '.', sizeof room);
        EXPECT(kaori_reason(text, 3, code, 1, KAORI_SEMICOLON, KAORI_KEYWORD_IF, room, 51) == 0 && room[0] == '.');
    }
    EXPECT(kaori_reason(text, 3, KAORI_ABSENT, 1, 0, 0, room, 54) == 0 && room[0] == '.');
    EXPECT(kaori_reason(text, 3, KAORI_REQUIRED, 1, KAORI_SEMICOLON, 45, room, 54) == 0 && room[0] == '.');
    EXPECT(kaori_reason(text, 3, KAORI_NO_TOKEN, 2, 0, 0, room, 52) == 27 && memcmp(room, "a string that is not closed.", 28) == 0);
    EXPECT(kaori_reason(text, 2, KAORI_NO_TOKEN, 2, 0, 0, room, 52) == 20 && memcmp(room, "no token starts here", 20) == 0);
    EXPECT(kaori_reason(text, 3, KAORI_NO_TOKEN, KAORI_ABSENT, 0, 0, room, 52) == 20);
}

/* A script, one of its rows, and what stands at the places below it. */
typedef struct {
    const char *text;
    uint32_t edition, row;
    size_t places;
    uint32_t children[8];
} offspring;

#define NO KAORI_ABSENT
static const offspring offsprings[] = {
    /* f, a, b, -b, the call, the root, and no row */
    {"f(a,-b);", 1, 0, 3, {NO, NO, NO}},
    {"f(a,-b);", 1, 3, 3, {2, NO, NO}},
    {"f(a,-b);", 1, 4, 5, {0, 1, 3, NO, NO}},
    {"f(a,-b);", 1, 5, 4, {NO, 4, NO, NO}},
    {"f(a,-b);", 1, 6, 3, {NO, NO, NO}},
    {"f(a,-b);", 1, KAORI_ABSENT, 3, {NO, NO, NO}},
    /* two sides; a property's object, a `not`'s, an assignment's and a name's right side */
    {"a.x+b;", 1, 1, 3, {0, NO, NO}},
    {"a.x+b;", 1, 3, 3, {1, 2, NO}},
    {"not a and b;", 1, 3, 3, {2, NO, NO}},
    {"not a and b;", 2, 3, 3, {1, 2, NO}},
    {"a = b;", 1, 2, 3, {0, 1, NO}},
    {"let x = a;", 1, 1, 3, {0, NO, NO}},
    /* a map: each key and its value, which may be absent */
    {"#{a: b, c};", 1, 3, 7, {NO, 0, 1, 2, NO, NO, NO}},
    /* a block and its tail; a function's block; a lambda's body; what an `if` and a loop have */
    {"{ a; b }", 1, 2, 4, {NO, 0, 1, NO}},
    {"fun f(x, y) { x; }", 1, 2, 3, {1, NO, NO}},
    {"|x| x + 1;", 1, 3, 3, {2, NO, NO}},
    {"if a {} else {}", 1, 3, 3, {0, 1, 2}},
    {"if a {}", 1, 2, 3, {0, 1, NO}},
    {"while a {}", 1, 2, 3, {0, 1, NO}},
    {"return;", 2, 0, 3, {NO, NO, NO}},
    {"return a;", 2, 1, 3, {0, NO, NO}},
};

static void below(void) {
    enum { MANY = 16 };
    uint32_t tokens[KAORI_TOKEN_WIDTH * MANY], nodes[KAORI_NODE_WIDTH * MANY], links[KAORI_LINK_WIDTH * MANY];
    uint32_t symbols[KAORI_SYMBOL_WIDTH * MANY], scratch[KAORI_SCRATCH_WIDTH * MANY], answer[KAORI_ANSWER_ROOM];
    for (size_t i = 0; i < LENGTH(offsprings); i++) {
        const offspring *o = offsprings + i;
        EXPECT(kaori_read_with((const uint8_t *)names, 0, name_rows, 0, (const uint8_t *)o->text, strlen(o->text), tokens,
                               LENGTH(tokens), o->edition, 64, nodes, LENGTH(nodes), links, LENGTH(links), symbols,
                               LENGTH(symbols), scratch, LENGTH(scratch), answer, LENGTH(answer)) == KAORI_OK);
        size_t nodes_len = KAORI_NODE_WIDTH * answer[KAORI_NODES], links_len = KAORI_LINK_WIDTH * answer[KAORI_LINKS];
        EXPECT(kaori_children(nodes, nodes_len, o->row) == o->places);
        for (size_t place = 0; place < LENGTH(o->children); place++)
            EXPECT(kaori_child(nodes, nodes_len, links, links_len, o->row, place) ==
                   (place < o->places ? o->children[place] : NO));
        EXPECT(kaori_child(nodes, nodes_len, links, links_len, o->row, SIZE_MAX) == NO);
        /* a row that is not wholly in the room, and links that are not there */
        if (o->row < answer[KAORI_NODES]) {
            size_t short_len = KAORI_NODE_WIDTH * (size_t)o->row + KAORI_PARENT;
            EXPECT(kaori_children(nodes, short_len, o->row) == 3 && kaori_child(nodes, short_len, links, links_len, o->row, 0) == NO);
        }
        for (size_t place = 1; place + 2 < o->places; place++)
            EXPECT(kaori_child(nodes, nodes_len, links, 0, o->row, place) == NO);
    }
}

/* The rows of a room, as the check takes them: so many numbers of each room, and so many rows of them. */
typedef struct {
    size_t nodes, links, symbols, scratch;
    uint32_t counts[3], edition;
} handed;

static handed hand(const rooms *r, uint32_t edition) {
    handed h = {LENGTH(r->nodes), LENGTH(r->links), LENGTH(r->symbols), LENGTH(r->scratch),
                {r->answer[KAORI_NODES], r->answer[KAORI_LINKS], r->answer[KAORI_SYMBOLS]}, edition};
    return h;
}

/* A verdict, which is also its code's value; what is read stays as it was, and scratch is as the header says: OLD before the
   call, and after it the zeros of all that was lent, or as it was. */
static int verdict(rooms *r, const handed *h, uint32_t code, uint32_t rule, uint32_t row) {
    uint32_t answer[] = {OLD, OLD, OLD, OLD};
    const uint32_t numbers[] = {code, rule, row, OLD};
    rooms before;
    memset(r->scratch, 7, sizeof r->scratch);
    before = *r;
    uint32_t value = kaori_check(r->nodes, h->nodes, r->links, h->links, r->symbols, h->symbols, h->counts[0],
                                 h->counts[1], h->counts[2], h->edition, r->scratch, h->scratch, answer, 3);
    int cleared = code == KAORI_OK || code == KAORI_BAD_ROWS;
    size_t zeros_upto = cleared ? h->scratch : 0;
    int right = all(r->scratch, zeros_upto, 0) && all(r->scratch + zeros_upto, LENGTH(r->scratch) - zeros_upto, OLD);
    memcpy(r->scratch, before.scratch, sizeof r->scratch);
    return value == code && memcmp(answer, numbers, sizeof answer) == 0 && right && memcmp(r, &before, sizeof before) == 0;
}

/* From a row, child by child: how often each is met. */
static void meet(const rooms *r, uint32_t row, uint32_t *times) {
    size_t nodes = KAORI_NODE_WIDTH * r->answer[KAORI_NODES], links = KAORI_LINK_WIDTH * r->answer[KAORI_LINKS];
    times[row]++;
    for (size_t place = 0; place < kaori_children(r->nodes, nodes, row); place++) {
        uint32_t child = kaori_child(r->nodes, nodes, r->links, links, row, place);
        if (child != KAORI_ABSENT) meet(r, child, times);
    }
}

/* Scripts, whose rows pass in their edition; in rooms that have more, and in rooms of just the rows. */
static void own_rows(void) {
    static const char *const texts[] = {"",
                                        "a;",
                                        "f(-a);",
                                        "a.x+b;",
                                        "a=not b;",
                                        "\"s\";true;",
                                        "1;nil;",
                                        "let x=a;",
                                        "#{a:b};",
                                        "{a;b}",
                                        "if a{}",
                                        "while a{}",
                                        "|x|x;",
                                        "fun f(){}",
                                        "import a:b;",
                                        "return a;",
                                        "return;",
                                        "(f)(x);"};
    for (size_t i = 0; i < LENGTH(texts); i++) {
        for (uint32_t edition = 1; edition <= 2; edition++) {
            rooms r = fresh();
            uint32_t code = in_edition(&r, texts[i], edition, 64, LENGTH(r.scratch));
            /* the last two are scripts of the second edition alone */
            EXPECT(code == KAORI_OK || (edition == 1 && i + 2 >= LENGTH(texts)));
            if (code != KAORI_OK) continue;
            handed h = hand(&r, edition);
            EXPECT(verdict(&r, &h, KAORI_OK, 0, 0));
            h.nodes = KAORI_NODE_WIDTH * h.counts[0];
            h.links = KAORI_LINK_WIDTH * h.counts[1];
            h.symbols = KAORI_SYMBOL_WIDTH * h.counts[2];
            h.scratch = h.counts[0] + 2 * h.counts[1];
            EXPECT(verdict(&r, &h, KAORI_OK, 0, 0));
            uint32_t times[ROWS] = {0};
            meet(&r, h.counts[0] - 1, times);
            EXPECT(all(times, h.counts[0], 1) && all(times + h.counts[0], ROWS - h.counts[0], 0));
            /* a number less in any room, and a row more */
            size_t *lent[] = {&h.nodes, &h.links, &h.symbols, &h.scratch};
            for (size_t j = 0; j < LENGTH(lent); j++) {
                if (*lent[j] == 0) continue;
                --*lent[j];
                EXPECT(verdict(&r, &h, KAORI_NOT_LENT, 0, 0));
                ++*lent[j];
            }
            for (size_t j = 0; j < LENGTH(h.counts); j++) {
                h.counts[j]++;
                EXPECT(verdict(&r, &h, KAORI_NOT_LENT, 0, 0));
                h.counts[j] += KAORI_ABSENT - h.counts[j];
                EXPECT(verdict(&r, &h, KAORI_NOT_LENT, 0, 0));
                h.counts[j] = r.answer[KAORI_NODES + j];
            }
        }
    }
}

/* A script of an edition, up to three numbers of its rows that are changed, and the first rule that does not hold then, with
   the first row that breaks it. */
typedef struct {
    const char *text;
    uint32_t edition;
    struct {
        uint32_t room, at, number;
    } changes[3];
    uint32_t rule, row;
} breach;

/* The room and the place in it of number i of a node row, and of a link row. */
#define NODE(r, i) 0, KAORI_NODE_WIDTH *(r) + (i)
#define LINK(r, i) 1, KAORI_LINK_WIDTH *(r) + (i)
static const breach breaches[] = {
    /* f, a, -a, the call, which has a link, the root, which has the other */
    {"f(-a);", 1, {{NODE(2, 0), 0}}, KAORI_RULE_KINDS, 2},
    {"f(-a);", 1, {{NODE(4, 0), 27}}, KAORI_RULE_KINDS, 4},
    {"f(-a);", 1, {{NODE(1, 3), 2}}, KAORI_RULE_RANGES, 1},
    {"f(-a);", 1, {{NODE(2, 3), 2}}, KAORI_RULE_RANGES, 2},
    {"f(-a);", 1, {{NODE(3, 5), 3}}, KAORI_RULE_RANGES, 3},
    {"f(-a);", 1, {{NODE(4, 3), KAORI_ABSENT}}, KAORI_RULE_RANGES, 4},
    {"f(-a);", 1, {{NODE(2, 4), 2}}, KAORI_RULE_EARLIER, 2},
    {"f(-a);", 1, {{LINK(0, 0), 3}}, KAORI_RULE_EARLIER, 3},
    {"f(-a);", 1, {{LINK(0, 0), 0}}, KAORI_RULE_ONCE, 0},
    {"f(-a);", 1, {{LINK(0, 0), 1}}, KAORI_RULE_ONCE, 1},
    {"f(-a);", 1, {{NODE(2, 4), KAORI_ABSENT}}, KAORI_RULE_ONCE, 1},
    {"f(-a);", 1, {{NODE(4, 4), 0}, {NODE(4, 5), 3}}, KAORI_RULE_ROOT, 4},
    {"f(-a);", 1, {{NODE(3, 6), 1}}, KAORI_RULE_UNUSED, 3},
    {"f(-a);", 1, {{NODE(0, 8), KAORI_ABSENT}}, KAORI_RULE_UNUSED, 0},
    {"f(-a);", 1, {{LINK(0, 2), 1}}, KAORI_RULE_UNUSED, 3},
    {"f(-a);", 1, {{NODE(0, 9), 4}}, KAORI_RULE_PARENTS, 0},
    {"f(-a);", 1, {{NODE(4, 9), 0}}, KAORI_RULE_PARENTS, 4},
    /* the first rule, though an earlier row breaks a later one; and the first row that breaks it */
    {"f(-a);", 1, {{NODE(0, 8), 1}, {NODE(4, 0), 27}}, KAORI_RULE_KINDS, 4},
    {"f(-a);", 1, {{NODE(0, 9), 0}, {LINK(0, 1), 1}, {NODE(3, 5), 9}}, KAORI_RULE_RANGES, 3},
    {"f(-a);", 1, {{NODE(2, 9), 4}, {NODE(1, 9), 3}}, KAORI_RULE_PARENTS, 1},
    /* a list that starts elsewhere: an empty one, and the second of an import */
    {"f();", 1, {{NODE(1, 4), 1}}, KAORI_RULE_LISTS, 1},
    {"import a:b;", 1, {{NODE(0, 5), 0}}, KAORI_RULE_LISTS, 0},
    /* the symbol of a name in a list and of a string, a Boolean */
    {"import a:b;", 1, {{LINK(1, 0), 2}}, KAORI_RULE_RANGES, 0},
    {"\"s\";true;", 1, {{NODE(0, 3), 1}}, KAORI_RULE_RANGES, 0},
    {"\"s\";true;", 1, {{NODE(1, 3), 2}}, KAORI_RULE_RANGES, 1},
    /* what may be absent leaves a row that nobody names; a key may not be: here `b` is made a `not` of `a` */
    {"return a;", 2, {{NODE(1, 3), KAORI_ABSENT}}, KAORI_RULE_ONCE, 0},
    {"{a;b}", 1, {{NODE(2, 5), KAORI_ABSENT}}, KAORI_RULE_ONCE, 1},
    {"#{a:b};", 1, {{LINK(0, 0), KAORI_ABSENT}, {NODE(1, 0), KAORI_NODE_NOT}, {NODE(1, 3), 0}}, KAORI_RULE_ABSENT, 2},
};

static void broken_rows(void) {
    for (size_t i = 0; i < LENGTH(breaches); i++) {
        const breach *b = breaches + i;
        rooms r = fresh();
        EXPECT(in_edition(&r, b->text, b->edition, 64, LENGTH(r.scratch)) == KAORI_OK);
        handed h = hand(&r, b->edition);
        /* no change is of the first number of all, so three zeros are none */
        for (size_t j = 0; j < LENGTH(b->changes) && b->changes[j].room + b->changes[j].at != 0; j++)
            (b->changes[j].room == 0 ? r.nodes : r.links)[b->changes[j].at] = b->changes[j].number;
        if (!verdict(&r, &h, KAORI_BAD_ROWS, b->rule, b->row)) failed = printf("bindings/c/test.c: breach %zu\n", i);
        /* in rooms of just the rows it is the same */
        h.nodes = KAORI_NODE_WIDTH * h.counts[0];
        h.links = KAORI_LINK_WIDTH * h.counts[1];
        h.symbols = KAORI_SYMBOL_WIDTH * h.counts[2];
        h.scratch = h.counts[0] + 2 * h.counts[1];
        EXPECT(verdict(&r, &h, KAORI_BAD_ROWS, b->rule, b->row));
    }
}

/* What depends on the counts, on the edition and on the room for the answer. */
static void handed_over(void) {
    static const uint32_t none[] = {0, 3, 258, KAORI_ABSENT};
    rooms r = fresh();
    EXPECT(in_edition(&r, "f(-a);", 1, 64, LENGTH(r.scratch)) == KAORI_OK);
    handed whole = hand(&r, 1), h = whole;
    /* no rows; all but the root; a link more, which no list has, and one less */
    h.counts[0] = 0;
    EXPECT(verdict(&r, &h, KAORI_BAD_ROWS, KAORI_RULE_ROOT, 0));
    h.counts[1] = h.counts[2] = 0;
    h.nodes = h.links = h.symbols = h.scratch = 0;
    EXPECT(verdict(&r, &h, KAORI_BAD_ROWS, KAORI_RULE_ROOT, 0));
    h = whole;
    h.counts[0] = 4;
    EXPECT(verdict(&r, &h, KAORI_BAD_ROWS, KAORI_RULE_ROOT, 3));
    h = whole;
    h.counts[1] = 3;
    EXPECT(verdict(&r, &h, KAORI_BAD_ROWS, KAORI_RULE_LISTS, 4));
    h.counts[1] = 1;
    EXPECT(verdict(&r, &h, KAORI_BAD_ROWS, KAORI_RULE_RANGES, 4));
    /* too few symbols; more of them, and their numbers, do not matter */
    h = whole;
    h.counts[2] = 1;
    EXPECT(verdict(&r, &h, KAORI_BAD_ROWS, KAORI_RULE_RANGES, 1));
    h.counts[2] = ROWS;
    memset(r.symbols, 0xff, sizeof r.symbols);
    EXPECT(verdict(&r, &h, KAORI_OK, 0, 0));
    /* nor do spans, of rows and of names */
    for (uint32_t row = 0; row < whole.counts[0]; row++) memset(r.nodes + KAORI_NODE_WIDTH * row + 1, 0xff, 2 * sizeof *r.nodes);
    for (uint32_t row = 0; row < 2; row++) memset(r.nodes + KAORI_NODE_WIDTH * row + 4, 0xff, 2 * sizeof *r.nodes);
    EXPECT(verdict(&r, &whole, KAORI_OK, 0, 0));
    /* no edition: after what was not lent, before any rule */
    r.nodes[0] = 0;
    for (size_t i = 0; i < LENGTH(none); i++) {
        h = whole;
        h.edition = none[i];
        EXPECT(verdict(&r, &h, KAORI_BAD_EDITION, 0, 0));
        h.counts[1] = ROWS + 1;
        EXPECT(verdict(&r, &h, KAORI_NOT_LENT, 0, 0));
    }
    /* a `return` without a child, by either edition */
    EXPECT(in_edition(&r, "return;", 2, 64, LENGTH(r.scratch)) == KAORI_OK);
    h = hand(&r, 2);
    EXPECT(verdict(&r, &h, KAORI_OK, 0, 0));
    h.edition = 1;
    EXPECT(verdict(&r, &h, KAORI_BAD_ROWS, KAORI_RULE_ABSENT, 0));
    /* a guard's rows have no block */
    EXPECT(guard(&r, "f(a)", 1, 64) == KAORI_OK);
    h = hand(&r, 1);
    EXPECT(verdict(&r, &h, KAORI_BAD_ROWS, KAORI_RULE_ROOT, 2));
    /* too little room for the answer, before all else */
    for (size_t room = 0; room < KAORI_CHECK_ROOM; room++) {
        uint32_t answer[] = {OLD, OLD, OLD};
        rooms before = r;
        EXPECT(kaori_check(r.nodes, 0, r.links, 0, r.symbols, 0, 1, 0, 0, 3, r.scratch, LENGTH(r.scratch), answer, room) ==
               KAORI_SMALL_ANSWER);
        EXPECT(all(answer, 3, OLD) && memcmp(&r, &before, sizeof r) == 0);
    }
}

/* A script beside `show` and `print` in an edition, and how many tokens each of its statements has, the `;` counted. */
enum { STATEMENTS = 3 };
typedef struct {
    const char *text;
    uint32_t edition;
    size_t statements, tokens[STATEMENTS];
} dropped;

static const dropped drops[] = {
    {"", 1, 0, {0}},
    {"a;", 1, 1, {2}},
    {"a;b;a;", 1, 3, {2, 2, 2}},
    {"b;a;b;", 2, 3, {2, 2, 2}},
    /* symbols of built-in names, and of strings */
    {"show;a;print;", 1, 3, {2, 2, 2}},
    {"\"a\";a;\"\";", 1, 3, {2, 2, 2}},
    {"\"print\";1;b;", 2, 3, {2, 2, 2}},
    /* what has rows and links below it */
    {"f(a);a;", 1, 2, {5, 2}},
    {"a;f(b);", 2, 2, {2, 5}},
    {"{a;b}b;", 1, 2, {5, 2}},
    {"import a:b;", 1, 1, {5}},
    {"b;import a:b;", 1, 2, {2, 5}},
    {"|x|x;y;", 1, 2, {5, 2}},
    {"let x=a;x;", 2, 2, {5, 2}},
    {"if a{}a;", 1, 2, {4, 2}},
    {"#{a:b};", 1, 1, {7}},
    {"return;a;", 2, 2, {2, 2}},
    {"(f)(x);", 2, 1, {7}},
};

/* A call over so many numbers of each room, as the counts say; the answer's room has six numbers, and one past it. */
static uint32_t drop(rooms *r, const handed *h, uint32_t built, const uint8_t *choice, size_t length, uint32_t *answer) {
    return kaori_drop(r->nodes, h->nodes, r->links, h->links, r->symbols, h->symbols, h->counts[0], h->counts[1], h->counts[2],
                      built, h->edition, choice, length, r->scratch, h->scratch, answer, KAORI_DROP_ROOM);
}

/* The first numbers of a room, then zeros up to a place, and past it as it was. */
static int packed(const uint32_t *room, size_t length, const uint32_t *first, size_t count, size_t used) {
    return count <= used && memcmp(room, first, count * sizeof *room) == 0 && all(room + count, used - count, 0) &&
           all(room + used, length - used, OLD);
}

/* Every choice: what is left are the rows of the tokens that are kept, spans and all. The numbers past the rows in use, which
   reading has cleared, are made old again first. */
static void statements_dropped(void) {
    for (size_t i = 0; i < LENGTH(drops); i++) {
        const dropped *d = drops + i;
        for (unsigned bits = 0; bits < 1u << d->statements; bits++) {
            rooms r = fresh(), shorter = fresh();
            uint32_t answer[KAORI_DROP_ROOM + 1], kept[KAORI_TOKEN_WIDTH * ROWS];
            uint8_t choice[STATEMENTS];
            size_t from = 0, length = 0;
            memset(answer, 7, sizeof answer);
            EXPECT(kaori_read_with((const uint8_t *)names, strlen(names), name_rows, 4, (const uint8_t *)d->text, strlen(d->text),
                                   r.tokens, LENGTH(r.tokens), d->edition, 64, r.nodes, LENGTH(r.nodes), r.links,
                                   LENGTH(r.links), r.symbols, LENGTH(r.symbols), r.scratch, LENGTH(r.scratch), r.answer, 8) ==
                   KAORI_OK);
            for (size_t j = 0; j <= d->statements; j++) {
                size_t upto = from + KAORI_TOKEN_WIDTH * (j < d->statements ? d->tokens[j] : 1);
                int keep = j == d->statements || (bits >> j & 1) != 0;
                /* any byte but 0 keeps */
                if (j < d->statements) choice[j] = (uint8_t)(keep ? 255 >> j : 0);
                if (keep) memcpy(kept + length, r.tokens + from, (upto - from) * sizeof *kept);
                if (keep) length += upto - from;
                from = upto;
            }
            EXPECT(kept[length - KAORI_TOKEN_WIDTH] == KAORI_EOF);
            EXPECT(kaori_parse_with((const uint8_t *)names, strlen(names), name_rows, 4, (const uint8_t *)d->text,
                                    strlen(d->text), kept, length, d->edition, 64, shorter.nodes, LENGTH(shorter.nodes),
                                    shorter.links, LENGTH(shorter.links), shorter.symbols, LENGTH(shorter.symbols),
                                    shorter.scratch, LENGTH(shorter.scratch), shorter.answer, 8) == KAORI_OK);
            handed h = hand(&r, d->edition);
            size_t nodes = KAORI_NODE_WIDTH * h.counts[0], links = KAORI_LINK_WIDTH * h.counts[1], symbols = KAORI_SYMBOL_WIDTH * h.counts[2];
            memset(r.nodes + nodes, 7, sizeof r.nodes - nodes * sizeof *r.nodes);
            memset(r.links + links, 7, sizeof r.links - links * sizeof *r.links);
            memset(r.symbols + symbols, 7, sizeof r.symbols - symbols * sizeof *r.symbols);
            memset(r.scratch, 7, sizeof r.scratch);
            /* just so much scratch as is asked for */
            h.scratch = 2 * (h.counts[0] + h.counts[1]) + h.counts[2];
            EXPECT(drop(&r, &h, 2, choice, d->statements, answer) == KAORI_OK);
            const uint32_t *left = shorter.answer;
            const uint32_t numbers[] = {KAORI_OK, left[KAORI_NODES], left[KAORI_LINKS], left[KAORI_SYMBOLS], 0, 0, OLD};
            if (memcmp(answer, numbers, sizeof numbers) != 0 ||
                !packed(r.nodes, LENGTH(r.nodes), shorter.nodes, KAORI_NODE_WIDTH * left[KAORI_NODES], nodes) ||
                !packed(r.links, LENGTH(r.links), shorter.links, KAORI_LINK_WIDTH * left[KAORI_LINKS], links) ||
                !packed(r.symbols, LENGTH(r.symbols), shorter.symbols, KAORI_SYMBOL_WIDTH * left[KAORI_SYMBOLS], symbols) ||
                !all(r.scratch, h.scratch, 0) || !all(r.scratch + h.scratch, LENGTH(r.scratch) - h.scratch, OLD) || !fences(&r))
                failed = printf("bindings/c/test.c: drop %zu, choice %u\n", i, bits);
            /* what is left can be dropped in its turn, or kept as it is */
            memcpy(h.counts, answer + KAORI_NODES, sizeof h.counts);
            rooms before = r;
            memset(choice, 1, sizeof choice);
            length = r.nodes[KAORI_NODE_WIDTH * (h.counts[0] - 1) + 4];
            EXPECT(drop(&r, &h, 2, choice, length, answer) == KAORI_OK && memcmp(&r, &before, sizeof r) == 0);
            EXPECT(memcmp(answer, numbers, sizeof numbers) == 0);
        }
    }
}

/* A refusal: its numbers, the three rooms as they were, and scratch all zeros as far as it was lent, or as it was. */
static int kept_back(const rooms *r, const handed *h, uint32_t built, size_t length, uint32_t code, uint32_t rule, uint32_t row) {
    static const uint8_t choice[STATEMENTS + 1] = {1, 0, 1, 1};
    uint32_t answer[] = {OLD, OLD, OLD, OLD, OLD, OLD, OLD};
    const uint32_t numbers[] = {code, 0, 0, 0, rule, row, OLD};
    rooms after = *r;
    memset(after.scratch, 7, sizeof after.scratch);
    uint32_t value = drop(&after, h, built, choice, length, answer);
    size_t zeros_upto = code == KAORI_BAD_ROWS || code == KAORI_BAD_CHOICE ? h->scratch : 0;
    int right = all(after.scratch, zeros_upto, 0) &&
                all(after.scratch + zeros_upto, LENGTH(after.scratch) - zeros_upto, OLD);
    memcpy(after.scratch, r->scratch, sizeof after.scratch);
    return value == code && memcmp(answer, numbers, sizeof numbers) == 0 && right && memcmp(&after, r, sizeof after) == 0;
}

static void statements_kept(void) {
    static const uint32_t none[] = {0, 3, 257, KAORI_ABSENT};
    rooms r = fresh();
    EXPECT(in_edition(&r, "a;b;a;", 1, 64, LENGTH(r.scratch)) == KAORI_OK);
    handed whole = hand(&r, 1), h = whole;
    size_t least = 2 * (h.counts[0] + h.counts[1]) + h.counts[2];
    /* a byte more, or fewer */
    for (size_t length = 0; length <= STATEMENTS + 1; length++)
        EXPECT(length == STATEMENTS || kept_back(&r, &whole, 0, length, KAORI_BAD_CHOICE, 0, 0));
    /* a row more than there is in a room; more built-in names than symbols; a number of scratch less than is asked for */
    for (size_t i = 0; i < LENGTH(h.counts); i++) {
        h.counts[i] = ROWS + 1;
        EXPECT(kept_back(&r, &h, 0, STATEMENTS, KAORI_NOT_LENT, 0, 0));
        h.counts[i] = KAORI_ABSENT;
        EXPECT(kept_back(&r, &h, 0, STATEMENTS, KAORI_NOT_LENT, 0, 0));
        h = whole;
    }
    EXPECT(kept_back(&r, &whole, 3, STATEMENTS, KAORI_NOT_LENT, 0, 0));
    EXPECT(kept_back(&r, &whole, KAORI_ABSENT, STATEMENTS, KAORI_NOT_LENT, 0, 0));
    h.scratch = least - 1;
    EXPECT(kept_back(&r, &h, 0, STATEMENTS, KAORI_NOT_LENT, 0, 0));
    h.scratch = least;
    EXPECT(kept_back(&r, &h, 0, 0, KAORI_BAD_CHOICE, 0, 0));
    /* rows that break a rule: before the choice, after the edition, and that after what was not lent */
    r.nodes[KAORI_NODE_WIDTH + 9] = 0;
    EXPECT(kept_back(&r, &whole, 0, STATEMENTS, KAORI_BAD_ROWS, KAORI_RULE_PARENTS, 1));
    EXPECT(kept_back(&r, &whole, 0, 0, KAORI_BAD_ROWS, KAORI_RULE_PARENTS, 1));
    h = whole;
    h.counts[0]--;
    EXPECT(kept_back(&r, &h, 0, STATEMENTS, KAORI_BAD_ROWS, KAORI_RULE_ONCE, 0));
    for (size_t i = 0; i < LENGTH(none); i++) {
        h = whole;
        h.edition = none[i];
        EXPECT(kept_back(&r, &h, 0, 0, KAORI_BAD_EDITION, 0, 0));
        EXPECT(kept_back(&r, &h, 3, 0, KAORI_NOT_LENT, 0, 0));
    }
    h = whole;
    memset(h.counts, 0, sizeof h.counts);
    EXPECT(kept_back(&r, &h, 0, 0, KAORI_BAD_ROWS, KAORI_RULE_ROOT, 0));
    /* a bare `return` is no row of the first edition, and a guard has no statements */
    EXPECT(in_edition(&r, "return;", 2, 64, LENGTH(r.scratch)) == KAORI_OK);
    h = hand(&r, 1);
    EXPECT(kept_back(&r, &h, 0, 1, KAORI_BAD_ROWS, KAORI_RULE_ABSENT, 0));
    EXPECT(guard(&r, "f(a)", 1, 64) == KAORI_OK);
    h = hand(&r, 1);
    EXPECT(kept_back(&r, &h, 0, 0, KAORI_BAD_ROWS, KAORI_RULE_ROOT, 2));
    /* too little room for the answer, before all else */
    for (size_t room = 0; room < KAORI_DROP_ROOM; room++) {
        static const uint8_t choice[1];
        uint32_t answer[] = {OLD, OLD, OLD, OLD, OLD, OLD};
        rooms before = r;
        EXPECT(kaori_drop(r.nodes, 0, r.links, 0, r.symbols, 0, 1, 0, 0, 1, 3, choice, 0, r.scratch, LENGTH(r.scratch), answer,
                          room) == KAORI_SMALL_ANSWER);
        EXPECT(all(answer, LENGTH(answer), OLD) && memcmp(&r, &before, sizeof r) == 0);
    }
}

/* A station's scripts in one call: good ones, and refused ones between them, beside `show` and `print`. */
enum { SCRIPTS = 5, PAST = 4 };
static const char *const station[SCRIPTS] = {"show(a);", "b c", "not x and x;", "", "d @"};

/* The joined text and list, the rooms of SCRIPTS parts of ROWS rows, the answers, and numbers past each of them. */
typedef struct {
    uint8_t text[64];
    uint32_t cuts[2 * SCRIPTS], tokens[KAORI_TOKEN_WIDTH * ROWS * SCRIPTS + PAST];
    uint32_t nodes[KAORI_NODE_WIDTH * ROWS * SCRIPTS + PAST], links[KAORI_LINK_WIDTH * ROWS * SCRIPTS + PAST];
    uint32_t symbols[KAORI_SYMBOL_WIDTH * ROWS * SCRIPTS + PAST], scratch[KAORI_SCRATCH_WIDTH * ROWS * SCRIPTS + PAST];
    uint32_t answers[KAORI_ANSWER_ROOM * SCRIPTS + PAST];
} joined;

/* The texts one behind another, a room of ROWS tokens for each list, and rooms as they were. */
static joined join(void) {
    joined j;
    memset(&j, 7, sizeof j);
    for (uint32_t i = 0, end = 0; i < SCRIPTS; i++) {
        memcpy(j.text + end, station[i], strlen(station[i]));
        j.cuts[2 * i] = end += (uint32_t)strlen(station[i]);
        j.cuts[2 * i + 1] = KAORI_TOKEN_WIDTH * ROWS * (i + 1);
    }
    return j;
}

/* What is handed over of it: so many numbers of each, nodes, links, symbols, scratch and answers last. */
typedef struct {
    size_t cuts, text, list, rooms[5];
    uint32_t part;
} lengths;

static lengths all_of(const joined *j) {
    lengths n = {LENGTH(j->cuts), j->cuts[2 * SCRIPTS - 2], LENGTH(j->tokens),
                 {LENGTH(j->nodes), LENGTH(j->links), LENGTH(j->symbols), LENGTH(j->scratch), LENGTH(j->answers)}, ROWS};
    return n;
}

static uint32_t parse_all(joined *j, const lengths *n, uint32_t edition) {
    return kaori_parse_scripts((const uint8_t *)names, strlen(names), name_rows, 4, j->text, n->text, j->tokens, n->list,
                               j->cuts, n->cuts, edition, 64, n->part, j->nodes, n->rooms[0], j->links, n->rooms[1],
                               j->symbols, n->rooms[2], j->scratch, n->rooms[3], j->answers, n->rooms[4]);
}

static uint32_t read_all(joined *j, const lengths *n, uint32_t edition) {
    return kaori_read_scripts((const uint8_t *)names, strlen(names), name_rows, 4, j->text, n->text, j->tokens, n->list,
                              j->cuts, n->cuts, edition, 64, n->part, j->nodes, n->rooms[0], j->links, n->rooms[1],
                              j->symbols, n->rooms[2], j->scratch, n->rooms[3], j->answers, n->rooms[4]);
}

/* Each script's list, parts and answer are those of a call on it alone, in rooms that are as long as a part. */
static int as_alone(const joined *j, uint32_t edition) {
    int right = 1;
    for (size_t i = 0; i < SCRIPTS; i++) {
        rooms r = fresh();
        kaori_read_with((const uint8_t *)names, strlen(names), name_rows, 4, (const uint8_t *)station[i],
                        strlen(station[i]), r.tokens, LENGTH(r.tokens), edition, 64, r.nodes, LENGTH(r.nodes), r.links,
                        LENGTH(r.links), r.symbols, LENGTH(r.symbols), r.scratch, LENGTH(r.scratch), r.answer, 8);
        right = right && memcmp(j->tokens + LENGTH(r.tokens) * i, r.tokens, sizeof r.tokens) == 0 &&
                memcmp(j->nodes + LENGTH(r.nodes) * i, r.nodes, sizeof r.nodes) == 0 &&
                memcmp(j->links + LENGTH(r.links) * i, r.links, sizeof r.links) == 0 &&
                memcmp(j->symbols + LENGTH(r.symbols) * i, r.symbols, sizeof r.symbols) == 0 &&
                memcmp(j->scratch + LENGTH(r.scratch) * i, r.scratch, sizeof r.scratch) == 0 &&
                memcmp(j->answers + KAORI_ANSWER_ROOM * i, r.answer, KAORI_ANSWER_ROOM * sizeof *r.answer) == 0;
    }
    return right;
}

static int past_stays(const joined *j) {
    return all(j->tokens + LENGTH(j->tokens) - PAST, PAST, OLD) && all(j->nodes + LENGTH(j->nodes) - PAST, PAST, OLD) &&
           all(j->links + LENGTH(j->links) - PAST, PAST, OLD) &&
           all(j->symbols + LENGTH(j->symbols) - PAST, PAST, OLD) &&
           all(j->scratch + LENGTH(j->scratch) - PAST, PAST, OLD) &&
           all(j->answers + LENGTH(j->answers) - PAST, PAST, OLD);
}

static void scripts_read(void) {
    static const uint32_t codes[][SCRIPTS] = {{0, 8, 0, 0, 16}, {0, 8, 0, 0, 16}, {21, 21, 21, 21, 16}};
    for (uint32_t edition = 1; edition <= LENGTH(codes); edition++) {
        joined j = join(), lists = j, old = j;
        lengths n = all_of(&j);
        EXPECT(read_all(&j, &n, edition) == KAORI_OK && as_alone(&j, edition) && past_stays(&j));
        EXPECT(memcmp(j.text, old.text, sizeof j.text) == 0 && memcmp(j.cuts, old.cuts, sizeof j.cuts) == 0);
        for (size_t i = 0; i < SCRIPTS; i++) EXPECT(j.answers[KAORI_ANSWER_ROOM * i] == codes[edition - 1][i]);
        /* the lists that were made, up to each Eof, are read as they are given; the one that was not is no list */
        uint32_t end = 0;
        for (size_t i = 0; i < SCRIPTS; i++) {
            const uint32_t *made = j.tokens + KAORI_TOKEN_WIDTH * ROWS * i;
            for (size_t at = 0; i + 1 < SCRIPTS && (at == 0 || made[at - KAORI_TOKEN_WIDTH] != KAORI_EOF); at += 3, end += 3)
                memcpy(lists.tokens + end, made + at, KAORI_TOKEN_WIDTH * sizeof *made);
            lists.cuts[2 * i + 1] = end;
        }
        EXPECT(parse_all(&lists, &n, edition) == KAORI_OK && past_stays(&lists));
        EXPECT(lists.answers[KAORI_ANSWER_ROOM * (SCRIPTS - 1)] == KAORI_BAD_COUNT);
        size_t nodes = KAORI_NODE_WIDTH * ROWS * (SCRIPTS - 1), answers = KAORI_ANSWER_ROOM * (SCRIPTS - 1);
        EXPECT(memcmp(lists.nodes, j.nodes, nodes * sizeof *j.nodes) == 0 &&
               all(lists.nodes + nodes, LENGTH(lists.nodes) - nodes, OLD));
        EXPECT(memcmp(lists.answers, j.answers, answers * sizeof *j.answers) == 0);
    }
    /* spans are within the script: of `not x and x;` the `and`, and of `b c` the `c` */
    joined j = join();
    lengths n = all_of(&j);
    EXPECT(read_all(&j, &n, 1) == KAORI_OK);
    const uint32_t *both = j.nodes + KAORI_NODE_WIDTH * (2 * ROWS + 2), *refused = j.answers + KAORI_ANSWER_ROOM;
    EXPECT(both[0] == KAORI_NODE_AND && both[1] == 4 && both[2] == 11);
    EXPECT(refused[KAORI_AT] == 1 && refused[KAORI_START] == 2 && refused[KAORI_END] == 3 && refused[KAORI_EXPECTED] == KAORI_SEMICOLON);
    /* `show` is a built-in name in each script; the first's own name follows them */
    EXPECT(j.answers[KAORI_SYMBOLS] == 3 && j.symbols[4] == 5 && j.symbols[5] == 6);
    /* the last cut need not reach the ends, and a script with no tokens is its own 1 */
    j = join();
    n.cuts = 2;
    EXPECT(read_all(&j, &n, 1) == KAORI_OK && j.answers[KAORI_CODE] == KAORI_OK && j.answers[KAORI_ANSWER_ROOM] == OLD &&
           j.nodes[KAORI_NODE_WIDTH * ROWS] == OLD && j.tokens[KAORI_TOKEN_WIDTH * ROWS] == OLD);
    j.cuts[1] = 0;
    EXPECT(parse_all(&j, &n, 1) == KAORI_OK && j.answers[KAORI_CODE] == KAORI_BAD_COUNT);
}

/* Every reason for 19, each by itself, and what is just enough. */
static void scripts_turned_away(void) {
    static const size_t widths[] = {KAORI_NODE_WIDTH, KAORI_LINK_WIDTH, KAORI_SYMBOL_WIDTH, KAORI_SCRATCH_WIDTH};
    static const uint32_t parts[] = {ROWS + 1, 1000, UINT32_C(1) << 31, KAORI_ABSENT};
    joined j = join(), old = j;
    lengths whole = all_of(&j), n = whole;
#define TURNED_AWAY(n) \
    (parse_all(&j, &(n), 1) == KAORI_TURNED_AWAY && read_all(&j, &(n), 3) == KAORI_TURNED_AWAY && memcmp(&j, &old, sizeof j) == 0)
    /* no script, an odd list, more than 32 */
    n.cuts = 0;
    EXPECT(TURNED_AWAY(n));
    for (n.cuts = 1; n.cuts < 2 * SCRIPTS; n.cuts += 2) EXPECT(TURNED_AWAY(n));
    static const uint32_t zeros[2 * (KAORI_SCRIPTS_MAX + 1)];
    static uint32_t answers[KAORI_ANSWER_ROOM * (KAORI_SCRIPTS_MAX + 1)];
    for (uint32_t count = KAORI_SCRIPTS_MAX; count <= KAORI_SCRIPTS_MAX + 1; count++) {
        uint32_t code = kaori_parse_scripts((const uint8_t *)names, 0, name_rows, 0, j.text, 0, j.tokens, 0, zeros, 2 * count, 1,
                                            64, 0, j.nodes, 0, j.links, 0, j.symbols, 0, j.scratch, 0, answers, LENGTH(answers));
        EXPECT(code == (count == KAORI_SCRIPTS_MAX ? KAORI_OK : KAORI_TURNED_AWAY));
        EXPECT(answers[KAORI_ANSWER_ROOM * (KAORI_SCRIPTS_MAX - 1)] == KAORI_BAD_COUNT &&
               all(answers + KAORI_ANSWER_ROOM * KAORI_SCRIPTS_MAX, KAORI_ANSWER_ROOM, 0));
    }
    /* each cut by itself, back and past the end */
    for (size_t i = 0; i < LENGTH(j.cuts); i++) {
        uint32_t right = j.cuts[i];
        if (i >= 2 && j.cuts[i - 2] != 0) {
            j.cuts[i] = old.cuts[i] = j.cuts[i - 2] - 1;
            EXPECT(TURNED_AWAY(whole));
        }
        j.cuts[i] = old.cuts[i] = (uint32_t)(i % 2 == 0 ? whole.text : whole.list) + 1;
        EXPECT(TURNED_AWAY(whole));
        j.cuts[i] = old.cuts[i] = KAORI_ABSENT;
        EXPECT(TURNED_AWAY(whole));
        j.cuts[i] = old.cuts[i] = right;
    }
    n = whole;
    n.text--;
    EXPECT(TURNED_AWAY(n));
    n = whole;
    n.list = KAORI_TOKEN_WIDTH * ROWS * SCRIPTS - 1;
    EXPECT(TURNED_AWAY(n));
    /* each room a number short, and parts that have more rows than there are */
    for (size_t i = 0; i < LENGTH(whole.rooms); i++) {
        n = whole;
        n.rooms[i] = (i < LENGTH(widths) ? widths[i] * ROWS : KAORI_ANSWER_ROOM) * SCRIPTS - 1;
        EXPECT(TURNED_AWAY(n));
    }
    n = whole;
    for (size_t i = 0; i < LENGTH(parts); i++) {
        n.part = parts[i];
        EXPECT(TURNED_AWAY(n));
    }
    /* what is just enough */
    n = whole;
    n.list -= PAST;
    for (size_t i = 0; i < LENGTH(whole.rooms); i++) n.rooms[i] -= PAST;
    EXPECT(read_all(&j, &n, 1) == KAORI_OK && as_alone(&j, 1) && past_stays(&j));
#undef TURNED_AWAY
}

/* The kinds, each by the name that a message has for it. */
static void kinds(void) {
    static const struct {
        uint32_t kind;
        const char *name;
    } all[] = {
        {KAORI_KEYWORD_AND, "`and`"},     {KAORI_KEYWORD_OR, "`or`"},         {KAORI_KEYWORD_NOT, "`not`"},
        {KAORI_KEYWORD_LET, "`let`"},     {KAORI_KEYWORD_CONST, "`const`"},   {KAORI_KEYWORD_REF, "`ref`"},
        {KAORI_KEYWORD_FUN, "`fun`"},     {KAORI_KEYWORD_FOR, "`for`"},       {KAORI_KEYWORD_WHILE, "`while`"},
        {KAORI_KEYWORD_BREAK, "`break`"}, {KAORI_KEYWORD_CONTINUE, "`continue`"}, {KAORI_KEYWORD_IF, "`if`"},
        {KAORI_KEYWORD_ELSE, "`else`"},   {KAORI_KEYWORD_RETURN, "`return`"}, {KAORI_KEYWORD_IMPORT, "`import`"},
        {KAORI_KEYWORD_TRUE, "`true`"},   {KAORI_KEYWORD_FALSE, "`false`"},   {KAORI_KEYWORD_NIL, "`nil`"},
    };
    EXPECT(KAORI_KEYWORDS == 22 && KAORI_NUMBER_LITERAL == 40 && KAORI_EOF == 44 && LENGTH(all) == 18);
    for (size_t i = 0; i < LENGTH(all); i++) {
        uint8_t room[KAORI_MESSAGE_ROOM];
        size_t length = kaori_message(KAORI_OPERAND, KAORI_NO_KIND, all[i].kind, room, LENGTH(room));
        EXPECT(all[i].kind == KAORI_KEYWORDS + i && length == 32 + strlen(all[i].name) && memcmp(room + 32, all[i].name, length - 32) == 0);
    }
}

int main(void) {
    parsing();
    reading();
    just_enough();
    row_by_row();
    the_same_numbers();
    parents();
    built_in();
    wrong_names();
    editions();
    guards_read();
    guards_refused();
    guards_in_order();
    a_guard();
    expecting();
    as_deep();
    naming();
    telling();
    reasons();
    below();
    own_rows();
    broken_rows();
    handed_over();
    statements_dropped();
    statements_kept();
    scripts_read();
    scripts_turned_away();
    kinds();
    return failed != 0;
}
