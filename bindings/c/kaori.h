/* The proved reader of Kaori scripts and guards, for C. Link libstation.a, which `bindings/archive` writes for x86-64
   Linux; it needs memcpy and memset of the C library and nothing else.

   Every function takes any numbers and any rooms, ends, and has one answer. What the proof cannot see, the caller sees to:
   - a pointer is not null, also where its length is 0, and is aligned for its type;
   - a length counts elements, not bytes, and so many elements stand behind the pointer;
   - what a function writes to overlaps nothing else that is handed over in the same call; what it only reads may
     overlap what it only reads;
   - no other thread writes to what is handed over, or reads what is written to, during the call.
   Nothing is kept after a call, nothing is allocated, and there is no state: calls on different rooms may run at once.
   Nothing is written outside the lent rooms. */
#ifndef KAORI_H
#define KAORI_H

#include <stddef.h>
#include <stdint.h>

#ifdef __cplusplus
extern "C" {
#endif

/* How many numbers a token of a list has, and a row of each room. A room's rows are its whole rows. */
enum {
    KAORI_TOKEN_WIDTH = 3,
    KAORI_NODE_WIDTH = 10,
    KAORI_LINK_WIDTH = 3,
    KAORI_SYMBOL_WIDTH = 2,
    KAORI_SCRATCH_WIDTH = 3
};

/* The most tokens of a script, the Eof counted, the most bytes of its text and of the built-in names' text, the greatest
   depth limit, the most built-in names, and the most scripts of one call. */
enum {
    KAORI_TOKENS_MAX = 4096,
    KAORI_TEXT_MAX = 65536,
    KAORI_LIMIT_MAX = 64,
    KAORI_NAMES_MAX = 64,
    KAORI_SCRIPTS_MAX = 32
};

/* The editions of the language. In the second `not` takes an operand as a sign does, its span runs to the operand's end,
   and it counts as an opening; `return` before `;` or `}` has an absent child and its own token's span; and calls and dots
   may follow a `)` that closes an expression. */
enum { KAORI_FIRST_EDITION = 1, KAORI_SECOND_EDITION = 2 };

/* The least room for an answer of the six functions that read a script or a guard, which is also that for each script of the
   two that read up to 32; for one of kaori_place, for one of kaori_name, for one of kaori_check, for one of kaori_drop, for a
   text of kaori_message or kaori_reason, and for what kaori_expected tells. */
enum {
    KAORI_ANSWER_ROOM = 8,
    KAORI_PLACE_ROOM = 3,
    KAORI_NAME_ROOM = 3,
    KAORI_CHECK_ROOM = 3,
    KAORI_DROP_ROOM = 6,
    KAORI_MESSAGE_ROOM = 52,
    KAORI_TOLD_ROOM = 131
};

/* What stands where in an answer of those that read. After 0: code, three counts of rows, 0, 0, 0, 255. After a refusal:
   code, 0, 0, 0, the number of the token, where it starts and ends in the text, and the kind of token that was required
   there, or 255. Refusals 5 and 16 have no token but a byte, and 1, 2, 3, 18, 21 and a 4 that was not met in reading have no
   place: their numbers are then 0. */
enum {
    KAORI_CODE,
    KAORI_NODES,
    KAORI_LINKS,
    KAORI_SYMBOLS,
    KAORI_AT,
    KAORI_START,
    KAORI_END,
    KAORI_EXPECTED
};

/* And in an answer of kaori_place, of kaori_name and of kaori_check, after its code. */
enum { KAORI_LINE = 1, KAORI_COLUMN };
enum { KAORI_NAME_START = 1, KAORI_NAME_END };
enum { KAORI_RULE = 1, KAORI_ROW };

/* And in an answer of kaori_drop, after its code and the three counts of rows, which stand at KAORI_NODES, KAORI_LINKS and
   KAORI_SYMBOLS. */
enum { KAORI_DROP_RULE = 4, KAORI_DROP_ROW };

/* And in what kaori_expected tells: how many kinds could have stood there, the lowest of them (KAORI_NO_KIND where there is
   none), how many constructs are open, and from KAORI_TOLD_CHAIN on two numbers for each of these, the outermost first: its
   sort, and the number of the token that opens it. There are KAORI_OPEN_MAX such pairs; those that are not used are 0. */
enum { KAORI_TOLD_COUNT, KAORI_TOLD_LOWEST, KAORI_TOLD_OPEN, KAORI_TOLD_CHAIN };
enum { KAORI_OPENING_WIDTH = 2, KAORI_OPEN_MAX = 64 };

/* Sorts of open constructs, which are those that the depth counts. A sign is a prefix `+`, `-` or `^`, in edition 2 a `not`
   too. */
enum { KAORI_EXPRESSION, KAORI_BLOCK, KAORI_IF, KAORI_SIGN };

/* Codes. The first that applies is the answer; in reading, from left to right, the first that is met. At one token a 4 for
   a link's or a node's row comes first, then 11, then a 4 for a symbol's row, then 8, 9 and 10. 12 is not used. */
enum {
    KAORI_OK = 0,
    KAORI_BAD_COUNT = 1,       /* the list's length is not three times a count from 1 to 4,096; of kaori_read: too many
                                  tokens, or too little room for their list */
    KAORI_LONG_TEXT = 2,       /* text over 65,536 bytes */
    KAORI_BAD_LIMIT = 3,       /* depth limit 0 or over 64 */
    KAORI_SMALL_ROOM = 4,      /* scratch has fewer rows than there are tokens; then, the symbol room has fewer rows than
                                  there are built-in names; or, met in reading, a row does not fit the room of its sort */
    KAORI_HIGH_BYTE = 5,       /* a byte of the text over 127 */
    KAORI_BAD_TOKEN = 6,       /* a token's kind, span or lexeme is wrong */
    KAORI_BAD_EOF = 7,         /* Eof before the last token, or no Eof there */
    KAORI_REQUIRED = 8,        /* another kind of token was required */
    KAORI_OPERAND = 9,         /* an operand was required */
    KAORI_FOR = 10,            /* a statement starts with `for` */
    KAORI_TOO_DEEP = 11,       /* an opening would pass the depth limit */
    KAORI_SMALL_ANSWER = 13,   /* too little room for the answer: nothing was done */
    KAORI_PAST_TEXT = 14,      /* of kaori_place: the offset is past the text */
    KAORI_NO_NAME = 15,        /* of kaori_name: the symbol is not below the count, or its row does not fit its text */
    KAORI_NOT_LENT = 15,       /* of kaori_check and kaori_drop: a count of rows passes what was lent, or scratch is too small
                                  for them; of kaori_drop too: there are more built-in names than symbols */
    KAORI_NO_TOKEN = 16,       /* of kaori_read: no token starts at a byte */
    KAORI_OUTSIDE = 17,        /* of a guard: a token that no guard has, `{`, `if`, `|` or `#`. After 7, before reading */
    KAORI_BAD_NAMES = 18,      /* the built-in names: their text is over 65,536 bytes, they are over 64, a span is wrong, one
                                  is no identifier, or two are the same. After a 4 for scratch, before any other 4 */
    KAORI_TURNED_AWAY = 19,    /* of kaori_parse_scripts and kaori_read_scripts: there are no scripts or over 32, the cuts
                                  are wrong, or a room is too small for the parts. Before all else; no script's own code */
    KAORI_BAD_CHOICE = 20,     /* of kaori_drop: the choice's length is not the number of the root's statements. After 22 */
    KAORI_BAD_EDITION = 21,    /* the edition is neither 1 nor 2. After 3, before any 4; of kaori_check and kaori_drop after
                                  15, before 22 */
    KAORI_BAD_ROWS = 22        /* of kaori_check and kaori_drop: the rows break a rule */
};

/* The rules that kaori_check holds rows to, in their order. */
enum {
    KAORI_RULE_KINDS = 1, /* each kind is one of 1 to 26 */
    KAORI_RULE_RANGES,    /* operators, Booleans and symbols are below their number, and lists within the link rows */
    KAORI_RULE_EARLIER,   /* a row that is named, as a child or in a list, is an earlier one, or absent */
    KAORI_RULE_ONCE,      /* every row but the last is named once */
    KAORI_RULE_ROOT,      /* the last row is a block with no tail */
    KAORI_RULE_LISTS,     /* in the order of the rows each list starts where the last one ends, and they have all links */
    KAORI_RULE_ABSENT,    /* absent is at most a tail, an `else`, a map entry's value, in edition 2 a `return`'s child */
    KAORI_RULE_UNUSED,    /* unused numbers are 0, of link rows too */
    KAORI_RULE_PARENTS    /* the parent is the row that names this one, and the last row's is absent */
};

/* `expected` where no certain kind was required. */
enum { KAORI_NO_KIND = 255 };

/* The absent number of a row: a block's tail, an `else`, a map entry's value, what a `return` of edition 2 gives back, the
   last row's parent. */
#define KAORI_ABSENT UINT32_C(4294967295)

/* Kinds of tokens, 0 to 44. */
enum {
    KAORI_ASSIGN,
    KAORI_PLUS,
    KAORI_MINUS,
    KAORI_MULTIPLY,
    KAORI_CARET,
    KAORI_DIVIDE,
    KAORI_MODULO,
    KAORI_NOT_EQUAL,
    KAORI_EQUAL,
    KAORI_GREATER_EQUAL,
    KAORI_LESS_EQUAL,
    KAORI_GREATER,
    KAORI_LESS,
    KAORI_COMMA,
    KAORI_COLON,
    KAORI_DOT,
    KAORI_PIPE,
    KAORI_LEFT_PAREN,
    KAORI_RIGHT_PAREN,
    KAORI_HASH,
    KAORI_LEFT_BRACE,
    KAORI_RIGHT_BRACE,
    KAORI_KEYWORDS, /* the first keyword. Each is KAORI_KEYWORD_ and its word: KAORI_FOR is a code, KAORI_IF a sort */
    KAORI_KEYWORD_AND = KAORI_KEYWORDS,
    KAORI_KEYWORD_OR,
    KAORI_KEYWORD_NOT,
    KAORI_KEYWORD_LET,
    KAORI_KEYWORD_CONST,
    KAORI_KEYWORD_REF,
    KAORI_KEYWORD_FUN,
    KAORI_KEYWORD_FOR,
    KAORI_KEYWORD_WHILE,
    KAORI_KEYWORD_BREAK,
    KAORI_KEYWORD_CONTINUE,
    KAORI_KEYWORD_IF,
    KAORI_KEYWORD_ELSE,
    KAORI_KEYWORD_RETURN,
    KAORI_KEYWORD_IMPORT,
    KAORI_KEYWORD_TRUE,
    KAORI_KEYWORD_FALSE,
    KAORI_KEYWORD_NIL,
    KAORI_NUMBER_LITERAL,
    KAORI_SEMICOLON,
    KAORI_STRING_LITERAL,
    KAORI_IDENTIFIER,
    KAORI_EOF
};

/* Kinds of nodes. A row is ten numbers: kind, where its span starts and ends in the text, six more, of which the unused
   are 0, and its parent's row. Behind each kind stand those of the six that are used. A child is a row's number, always
   an earlier one. NAME is three numbers: symbol, start, end. LIST is two: first link row, how many. The parent is the one
   row, always a later one, that has this row as a child or in a list. The last row is the script's root, a block with the
   span 0, 0 and no tail; its parent is absent, and no other row's is. So from any row, parent by parent, the root is
   reached. A guard has no root: its last row is the expression's own, whose parent is absent in the same way. */
enum {
    KAORI_NODE_BINARY = 1,      /* operator, left, right; operators from 0: + - * / % == != > >= < <= */
    KAORI_NODE_AND,             /* left, right */
    KAORI_NODE_OR,              /* left, right */
    KAORI_NODE_NOT,             /* child */
    KAORI_NODE_UNARY,           /* operator, child; operators from 0: - ^ */
    KAORI_NODE_ASSIGN,          /* left, right */
    KAORI_NODE_VARIABLE,        /* NAME, right */
    KAORI_NODE_CONSTANT,        /* NAME, right */
    KAORI_NODE_REF,             /* NAME, right */
    KAORI_NODE_IDENTIFIER,      /* NAME */
    KAORI_NODE_STRING,          /* symbol */
    KAORI_NODE_NUMBER,          /* nothing: its text is its span */
    KAORI_NODE_BOOLEAN,         /* 0 or 1 */
    KAORI_NODE_NIL,             /* nothing */
    KAORI_NODE_CALL,            /* callee, LIST of nodes */
    KAORI_NODE_PROPERTY,        /* object, NAME */
    KAORI_NODE_MAP,             /* LIST of entries */
    KAORI_NODE_FUNCTION,        /* NAME, LIST of names, block */
    KAORI_NODE_LAMBDA,          /* LIST of names, body */
    KAORI_NODE_BLOCK,           /* LIST of nodes, tail or absent */
    KAORI_NODE_IF,              /* condition, then, else or absent */
    KAORI_NODE_WHILE,           /* condition, block */
    KAORI_NODE_RETURN,          /* child, in edition 2 or absent */
    KAORI_NODE_BREAK,           /* nothing */
    KAORI_NODE_CONTINUE,        /* nothing */
    KAORI_NODE_IMPORT           /* LIST of path names, LIST of names */
};

/* Which of a node row's numbers is its parent's row, counted from 0. */
enum { KAORI_PARENT = 9 };

/* A link row is an item of a list: a node (its row, 0, 0), a name (symbol, start, end) or a map's entry (key's row,
   value's row or absent, 0). A symbol row is where the symbol first stands in the text, start and end; a name's symbol
   is its text, a string's what stands between its quotes; symbols are numbered in the order of their first places. Beside
   built-in names the first symbols are theirs, with their own rows, which are places in their text; the script's follow. */

/* Built-in names, which are lent beside a script: they have the same symbols in every script, 0 onward. They are a text and
   rows of two numbers, where each name starts and ends there; names may share bytes, and a number left over is not looked
   at. A name or a string of the script that spells one of them has its symbol, and no row of its own. */

/* How much room to lend. Scratch needs as many rows as there are tokens, the Eof counted. The node, link and symbol rooms
   may be of any size: a script is read where its rows fit, and answered by 4 where they do not.
   - As many rows as there are tokens are always enough, in each room; for symbols with a row more for each built-in name.
   - The counts of an answer of 0 are just what that script needs: with so many rows it is read, with a row less it is not.
   - A first guess for other scripts: two thirds of the tokens for nodes, a third for links, a quarter for symbols, and four
     rows more in each; bindings/README.md has what was measured. After a 4 lend more, and call again.
   There are two sorts of 4. Where scratch has too few rows, or the symbol room fewer than there are built-in names, no place
   is given, and the rooms are left as they were. Else the 4 was met in reading: the place is the token at which the first
   row did not fit, and all rooms are left zeros. A symbol's row is met at its name or string, a node's links and then its
   row at the token after the node, the root's at the Eof, and there too an import's that the Eof stops. Tell the two apart
   by what was lent, not by the answer: of an Eof alone with the span 0, 0 and no node row the eight numbers are
   4 0 0 0 0 0 0 255, as they are for scratch.
   A guard has the rows of the script that it is with a `;` behind it, each met at the same token, but for the root's row and
   its link. */

/* Reads a script of edition 1 that is given as its text and its tokens.
   Takes: the text; the tokens, three numbers each (kind, start, end), Eof last; the depth limit, 1 to 64; four rooms,
   whatever they hold, scratch with a row for each token and the others of any size; and a room of 8 numbers or more for
   the answer.
   Answers: the code: 0, 1 to 11 or 13. A 4 for scratch comes before 5.
   Leaves: in the answer's room the eight numbers, the rest as it was; after 0 in the other rooms the script's rows and
   then zeros to each room's end, scratch all zeros; after 1, 2, 3, 5, 6, 7 and a 4 for scratch the four rooms as they
   were; after 8 to 11 and a 4 in reading the four rooms all zeros; after 13 everything as it was. */
uint32_t kaori_parse(const uint8_t *text, size_t text_len, const uint32_t *tokens, size_t tokens_len, uint32_t limit,
                     uint32_t *nodes, size_t nodes_len, uint32_t *links, size_t links_len, uint32_t *symbols,
                     size_t symbols_len, uint32_t *scratch, size_t scratch_len, uint32_t *answer, size_t answer_len);

/* Reads a script of edition 1 that is given as its text alone: makes its tokens, and reads them.
   Takes: the text; a room for the tokens, three numbers for each and the Eof; the rest as kaori_parse.
   Answers: the code. The token maker's refusals come first, in the order 2, 5, 16, 1; then 3, 4 and 8 to 11 as
   kaori_parse has them for the tokens that were made. 13 comes before all.
   Leaves: in the tokens' room the tokens and then zeros, or as it was after 2, 5 and 13, or zeros throughout after 16 and
   1; the four rooms as they were after 1, 2, 5, 13 and 16, else as kaori_parse leaves them; in the answer's room the
   eight numbers, but after 13. */
uint32_t kaori_read(const uint8_t *text, size_t text_len, uint32_t *tokens, size_t tokens_len, uint32_t limit,
                    uint32_t *nodes, size_t nodes_len, uint32_t *links, size_t links_len, uint32_t *symbols,
                    size_t symbols_len, uint32_t *scratch, size_t scratch_len, uint32_t *answer, size_t answer_len);

/* The same beside built-in names and in the edition that is named: the names' text and their rows come first, the edition
   stands before the limit, and the rest is as in kaori_parse. In edition 1 with no names' text and no rows the answer is
   that of kaori_parse.
   Answers: the code: 0, 1 to 11, 13, 18 or 21. 21, a 4 for scratch, 18 and a 4 for the built-in names' rows come in this
   order, after 3 and before 5.
   Leaves: as kaori_parse, and after 21, 18 and a 4 for the built-in names' rows the four rooms as they were. After 0 the
   symbol rows begin with the built-in names', and are counted with them. */
uint32_t kaori_parse_with(const uint8_t *names, size_t names_len, const uint32_t *name_rows, size_t name_rows_len,
                          const uint8_t *text, size_t text_len, const uint32_t *tokens, size_t tokens_len,
                          uint32_t edition, uint32_t limit, uint32_t *nodes, size_t nodes_len, uint32_t *links,
                          size_t links_len, uint32_t *symbols, size_t symbols_len, uint32_t *scratch,
                          size_t scratch_len, uint32_t *answer, size_t answer_len);

/* And as kaori_read: the token maker's refusals come first, then 3, 21, 4, 18 and 8 to 11 as kaori_parse_with has them. */
uint32_t kaori_read_with(const uint8_t *names, size_t names_len, const uint32_t *name_rows, size_t name_rows_len,
                         const uint8_t *text, size_t text_len, uint32_t *tokens, size_t tokens_len, uint32_t edition,
                         uint32_t limit, uint32_t *nodes, size_t nodes_len, uint32_t *links, size_t links_len,
                         uint32_t *symbols, size_t symbols_len, uint32_t *scratch, size_t scratch_len,
                         uint32_t *answer, size_t answer_len);

/* Reads a guard that is given as its text and its tokens, beside built-in names and in the edition that is named: one
   expression, and then Eof, with no `;`.
   Takes: what kaori_parse_with takes. No token may be `{`, `if`, `|` or `#`.
   Answers: the code: 0, 1 to 9, 11, 13, 17, 18 or 21. 17 comes after 7 and before reading, at the first token of the list
   that is one of the four; its numbers are that token's, and no kind is required there. All else is as in
   kaori_parse_with, but that where tokens remain behind the expression it is 8, and Eof is required.
   Leaves: as kaori_parse_with, and after 17 the four rooms as they were. After 0 there is no root: the last row is the
   expression's own, and its parent is absent. */
uint32_t kaori_guard_with(const uint8_t *names, size_t names_len, const uint32_t *name_rows, size_t name_rows_len,
                          const uint8_t *text, size_t text_len, const uint32_t *tokens, size_t tokens_len,
                          uint32_t edition, uint32_t limit, uint32_t *nodes, size_t nodes_len, uint32_t *links,
                          size_t links_len, uint32_t *symbols, size_t symbols_len, uint32_t *scratch,
                          size_t scratch_len, uint32_t *answer, size_t answer_len);

/* And from its text alone, as kaori_read_with: the token maker's refusals come first, then 3, 21, 4, 18, 17, 8, 9 and 11 as
   kaori_guard_with has them. After 17 the tokens stand in their room, as after any refusal that is not the token maker's. */
uint32_t kaori_read_guard_with(const uint8_t *names, size_t names_len, const uint32_t *name_rows, size_t name_rows_len,
                               const uint8_t *text, size_t text_len, uint32_t *tokens, size_t tokens_len,
                               uint32_t edition, uint32_t limit, uint32_t *nodes, size_t nodes_len, uint32_t *links,
                               size_t links_len, uint32_t *symbols, size_t symbols_len, uint32_t *scratch,
                               size_t scratch_len, uint32_t *answer, size_t answer_len);

/* Reads up to 32 scripts in one call: one joined text, one joined list of tokens, and cuts. Each script is read by itself, as
   kaori_parse_with reads it from its own text and tokens in its own parts of the rooms: a refused one changes nothing for
   the others.
   Cuts: two numbers for each script, where it ends in the text and where in the list's numbers. The first script starts at 0
   in both, each other one where the one before it ends; the last need not reach the ends. A token's span counts within its
   script, and so do the spans in rows and answers. Equal cuts are allowed: a script with no tokens is its own 1.
   Parts: `part` is a number of rows, one for all scripts and all four rooms. Script i has rows part * i to part * (i + 1) of
   each: its node rows start at nodes + KAORI_NODE_WIDTH * part * i, and so on for the links, the symbols and scratch. As many
   rows as the longest list has tokens, and one more for each built-in name, are always enough.
   Each script's answer: script i's eight numbers start at answers + KAORI_ANSWER_ROOM * i, its code first.
   Takes: names, edition and limit, one for all; the rest as kaori_parse_with, with the cuts behind the list and `part` behind
   the limit; and rooms of `part` rows or more for each script.
   Answers: 0, whatever the scripts' own codes are; or 19, before all else, for
   - no script, or more than 32;
   - an odd number of cuts;
   - a cut that goes back, or past the end of the text or the list;
   - a room with fewer rows than the parts have, or too little room for the answers (there is no 13 here).
   Leaves: after 0 each script's parts and answer as kaori_parse_with leaves them, and the numbers past the parts and past the
   answers as they were; after 19 everything as it was. */
uint32_t kaori_parse_scripts(const uint8_t *names, size_t names_len, const uint32_t *name_rows, size_t name_rows_len,
                             const uint8_t *text, size_t text_len, const uint32_t *tokens, size_t tokens_len,
                             const uint32_t *cuts, size_t cuts_len, uint32_t edition, uint32_t limit, uint32_t part,
                             uint32_t *nodes, size_t nodes_len, uint32_t *links, size_t links_len, uint32_t *symbols,
                             size_t symbols_len, uint32_t *scratch, size_t scratch_len, uint32_t *answers,
                             size_t answers_len);

/* And from the joined text alone, each script as kaori_read_with reads it: its part of `tokens`, from the cut before it to its
   own, takes the tokens that are made of its text, so that the cuts give each script its room for tokens. */
uint32_t kaori_read_scripts(const uint8_t *names, size_t names_len, const uint32_t *name_rows, size_t name_rows_len,
                            const uint8_t *text, size_t text_len, uint32_t *tokens, size_t tokens_len,
                            const uint32_t *cuts, size_t cuts_len, uint32_t edition, uint32_t limit, uint32_t part,
                            uint32_t *nodes, size_t nodes_len, uint32_t *links, size_t links_len, uint32_t *symbols,
                            size_t symbols_len, uint32_t *scratch, size_t scratch_len, uint32_t *answers,
                            size_t answers_len);

/* The text of a refusal, with no byte 0 at its end.
   Takes: the refusal's code and `expected`; the kind of the token at its place; and a room of 52 bytes or more.
   Answers: the text's length, at most 52. It is 0 for a code that is not 8 to 11, where the text needs a kind over 44,
   and for a room under 52 bytes.
   Leaves: the text at the room's start, all bytes past it as they were. */
size_t kaori_message(uint32_t code, uint32_t expected, uint32_t found, uint8_t *room, size_t room_len);

/* The text of any refusal, with no byte 0 at its end: that of kaori_message for 8 to 11, and one for each other code above.
   Takes: the script's text; the refusal's code, start and `expected`; the kind of the token at its place; and a room of 52
   bytes or more. The script's text matters for 16 alone, which has two: `a string that is not closed` where the byte at
   the start is a quote, and else `no token starts here`. The kinds matter for 8 and 9 alone, and may else be any numbers.
   Answers: the text's length, at most 52. It is 0 for a number that is no code (0, 12, and over 22), where the text
   needs a kind over 44, and for a room under 52 bytes.
   Leaves: the text at the room's start, all bytes past it as they were. */
size_t kaori_reason(const uint8_t *text, size_t text_len, uint32_t code, uint32_t start, uint32_t expected,
                    uint32_t found, uint8_t *room, size_t room_len);

/* What could have stood at a token where reading is refused, and what was open there.
   Takes: the tokens that were read, as kaori_parse takes them or kaori_read leaves them (the numbers past the token do not
   matter, but their count does: it is three times 1 to 4,096); the edition and the limit that they were read by; the
   refusal's code and the number of its token; and a room of 131 numbers or more for all but the set.
   Answers: the set of kinds: kind k is in it where its binary digit k, counted from 0 at the lowest, is 1 (kaori_expects).
   A kind is in the set exactly when some script, however long and deep, begins with the tokens before the place and then
   that kind; Eof, when the tokens before it are a whole script. The refused token's kind never is, and `for` is in no set.
   For 8, 9 and 10 that is the set; after 11 it is empty. An 8's own `expected` need not be in it: of `import` and then Eof
   it is `;`, and only a name could have stood there.
   Leaves: in the room the 131 numbers, the rest as it was. The chain has what the refusal lies inside of, each closed once
   it is whole: what opens at the refused token is open there. After 11 there are as many as the limit. A room of fewer
   numbers stays as it was, and the set is answered all the same.
   For any other code, a list, an edition or a limit that is refused before reading, or a token at which reading is not
   refused by this code, the set and the chain are empty: 0, and in the room 0, KAORI_NO_KIND and zeros.
   A guard has no hint: the list is taken as a script's, and what is told then is not what could have stood in a guard. */
uint64_t kaori_expected(const uint32_t *tokens, size_t tokens_len, uint32_t edition, uint32_t limit, uint32_t code,
                        uint32_t at, uint32_t *told, size_t told_len);

/* Whether a kind is in a set. */
static inline int kaori_expects(uint64_t set, uint32_t kind) { return kind < 64 && (set >> kind & 1) != 0; }

/* The line and the column of an offset. A line ends at a byte 10, at 13 10 together, or at a 13 alone; the 10 of a pair
   is still on the old line. Columns count bytes; both count from 1.
   Takes: the text; the offset; and a room of 3 numbers or more for the answer.
   Answers: the code: 0, also for the offset at the text's end; 2, 13 or 14.
   Leaves: in the answer's room code, line and column, the last two 0 after 2 and 14, and the rest as it was; after 13 all
   as it was. */
uint32_t kaori_place(const uint8_t *text, size_t text_len, size_t offset, uint32_t *answer, size_t answer_len);

/* Where the name of a symbol starts and ends in its text: the built-in names' for a symbol below `built`, and else the
   script's. A string's symbol may have an empty name.
   Takes: the two texts; the symbol room, and how many rows of it are in use; the number of built-in names; the symbol; and
   a room of 3 numbers or more for the answer. Without built-in names `names_len` and `built` are 0.
   Answers: the code: 0, 13 or 15. After a call that was answered with 0 each symbol below the count has a name: with the
   texts that were lent, the room that was left, and the counts of symbols and of built-in names.
   Leaves: in the answer's room code, start and end, the last two 0 after 15, and the rest as it was; after 13 all as it
   was. */
uint32_t kaori_name(const uint8_t *names, size_t names_len, const uint8_t *text, size_t text_len,
                    const uint32_t *symbols, size_t symbols_len, uint32_t count, uint32_t built, uint32_t symbol,
                    uint32_t *answer, size_t answer_len);

/* What stands at a place below a row: the number of a row, or KAORI_ABSENT. By place the children stand in the order of the
   text, whatever the row's kind; absent ones among them are passed over. Place 0 is what comes before a list, or the first
   child; from place 1 on stand the items of a list, of a map's each key and then its value; two more places follow.
   Takes: the node rows and the link rows, as they were left; the row; and the place, from 0.
   Answers: the child's row. It is KAORI_ABSENT where nothing stands at the place, past the last place, and for a row or a
   link row that is not in its room.
   Leaves: nothing is written. */
uint32_t kaori_child(const uint32_t *nodes, size_t nodes_len, const uint32_t *links, size_t links_len, uint32_t row,
                     size_t place);

/* How many places there are below a row: three, and those of its list. Past them kaori_child answers KAORI_ABSENT.
   Takes: the node rows, as they were left; and the row.
   Answers: the number of places: 3 also for a row that has no child or is not in the room.
   Leaves: nothing is written. */
size_t kaori_children(const uint32_t *nodes, size_t nodes_len, uint32_t row);

/* Whether rows that another build wrote hold a tree, in the edition that is named: the nine rules above.
   Takes: the node, link and symbol rooms, and how many rows of each are in use; the edition, which matters for `return`
   alone; scratch, whatever it holds, with a number for each node row and two for each link row; and a room of 3 numbers or
   more for the answer.
   Answers: the code: 0, 13, 15, 21 or 22; 13, 15 and 21 come first, in this order. After 0 all rules hold: from the last
   row, child by child, each row is met once, and from each row, parent by parent, the last. What the functions that read a
   script leave after 0 passes, in its edition. A guard's rows do not: their last row is no block.
   What has no rule: spans and the numbers of symbol rows, so hold them to a text before it is read there, as kaori_name
   does; which kinds stand below which, and in which order of the text; and how deep rows nest: up to as many as there are,
   so that a walk that calls itself may run out of stack. From the first row to the last children come before parents.
   Leaves: in the answer's room code, rule and row, and the rest as it was. After 22 the rule is the first that does not
   hold, and the row the first that breaks it, itself or in its links: of rule 4 the first that is not named once, of rule
   5 the last, or 0 where there are no rows, of rule 6 the last where links are left over. After any other code both are 0.
   After 0 and 22 scratch is all zeros, to its end; after 15 and 21 it is as it was; after 13 everything is as it was.
   Nothing else is written. */
uint32_t kaori_check(const uint32_t *nodes, size_t nodes_len, const uint32_t *links, size_t links_len,
                     const uint32_t *symbols, size_t symbols_len, uint32_t node_count, uint32_t link_count,
                     uint32_t symbol_count, uint32_t edition, uint32_t *scratch, size_t scratch_len, uint32_t *answer,
                     size_t answer_len);

/* Drops statements of a script: keeps those of the root's statements that are chosen, and packs the rows that are theirs to the
   front of the rooms, so that what is freed can be lent again.
   Takes: the node, link and symbol rooms, and how many rows of each are in use; how many of the symbols are built-in names, 0
   without them; the edition; the choice, a byte for each of the root's statements in their order, which is 0 where the
   statement is dropped; scratch, whatever it holds, with two numbers for each node and link row and one for each symbol; and
   a room of 6 numbers or more for the answer.
   Answers: the code: 0, 13, 15, 20, 21 or 22; where several apply, the first of 13, 15, 21, 22 and 20.
   Leaves: after 0 the rows of what is kept at the front of the three rooms, zeros in those that were in use behind them, and
   all past these as it was. Of a script that was read here they are the rows that the functions that read leave for its tokens
   without those of the dropped statements and their `;`: numbers are counted anew, spans are places in the old text, and a
   symbol's row is where it first stands in what is kept. Built-in names keep their symbols and rows. Rows that another build
   wrote are packed too; what is left of them passes kaori_check, and more is not promised.
   After a refusal the three rooms are as they were. In the answer's room stand code, how many node, link and symbol rows are
   left, and two zeros; after 22 code, three zeros, and the rule and the row as kaori_check has them; after 15, 20 and 21 code
   and five zeros; the rest is as it was. After 0, 20 and 22 scratch is all zeros, to its end; after 15 and 21 it is as it was;
   after 13 everything is as it was. */
uint32_t kaori_drop(uint32_t *nodes, size_t nodes_len, uint32_t *links, size_t links_len, uint32_t *symbols,
                    size_t symbols_len, uint32_t node_count, uint32_t link_count, uint32_t symbol_count,
                    uint32_t builtins, uint32_t edition, const uint8_t *choice, size_t choice_len, uint32_t *scratch,
                    size_t scratch_len, uint32_t *answer, size_t answer_len);

/* A name as a part of the text that has it, with the code 0; or 15 and no bytes. */
struct kaori_part {
    uint32_t code;
    const uint8_t *bytes;
    size_t length;
};

static inline struct kaori_part kaori_name_part(const uint8_t *names, size_t names_len, const uint8_t *text,
                                                size_t text_len, const uint32_t *symbols, size_t symbols_len,
                                                uint32_t count, uint32_t built, uint32_t symbol) {
    uint32_t place[KAORI_NAME_ROOM];
    struct kaori_part part;
    part.code = kaori_name(names, names_len, text, text_len, symbols, symbols_len, count, built, symbol, place,
                           KAORI_NAME_ROOM);
    part.bytes = (symbol < built ? names : text) + place[KAORI_NAME_START];
    part.length = place[KAORI_NAME_END] - place[KAORI_NAME_START];
    return part;
}

#ifdef __cplusplus
}
#endif

#endif
