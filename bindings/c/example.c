/* Reads a script and prints what the program `rows` prints of it. Of a refusal it prints its text, its line as well, what
   could have stood there, and what was open: `example LIMIT EDITION < script`. With a third word it reads a guard, which has
   no such hint. */
#include "kaori.h"

#include <inttypes.h>
#include <stdio.h>
#include <stdlib.h>

#define LENGTH(room) (sizeof(room) / sizeof *(room))

static const uint8_t no_names[1];
static const uint32_t no_rows[1];
static uint8_t text[KAORI_TEXT_MAX + 1];
static uint32_t tokens[KAORI_TOKEN_WIDTH * KAORI_TOKENS_MAX], nodes[KAORI_NODE_WIDTH * KAORI_TOKENS_MAX];
static uint32_t links[KAORI_LINK_WIDTH * KAORI_TOKENS_MAX], symbols[KAORI_SYMBOL_WIDTH * KAORI_TOKENS_MAX];
static uint32_t scratch[KAORI_SCRATCH_WIDTH * KAORI_TOKENS_MAX];

static void print(const char *name, const uint32_t *rows, size_t width, uint32_t count) {
    for (uint32_t row = 0; row < count; row++) {
        printf("%s%" PRIu32, name, row);
        for (size_t i = 0; i < width; i++) printf(" %" PRIu32, rows[width * row + i]);
        printf("\n");
    }
}

/* A kind as messages write it: between `expected ` and ` and found `, where it stands on both sides. */
static void spell(uint32_t kind) {
    uint8_t message[KAORI_MESSAGE_ROOM];
    size_t written = kaori_message(KAORI_REQUIRED, kind, kind, message, LENGTH(message));
    printf(" %.*s", (int)((written - 20) / 2), (const char *)message + 9);
}

/* What could have stood at the place of a refusal, and what was open there, each with the number of its token. */
static void tell(const uint32_t *answer, uint32_t edition, uint32_t limit) {
    static const char *const sorts[] = {"expression", "block", "if", "sign"};
    uint32_t told[KAORI_TOLD_ROOM], at = answer[KAORI_AT];
    uint64_t set = kaori_expected(tokens, LENGTH(tokens), edition, limit, answer[KAORI_CODE], at, told, LENGTH(told));
    if (set != 0) {
        printf("%" PRIu32 " could have stood there:", told[KAORI_TOLD_COUNT]);
        for (uint32_t kind = told[KAORI_TOLD_LOWEST]; kind <= KAORI_EOF; kind++)
            if (kaori_expects(set, kind)) spell(kind);
        printf("\n");
    }
    for (uint32_t i = 0; i < told[KAORI_TOLD_OPEN]; i++) {
        const uint32_t *opening = told + KAORI_TOLD_CHAIN + KAORI_OPENING_WIDTH * i;
        printf("%s%s %" PRIu32, i == 0 ? "open: " : ", ", sorts[opening[0]], opening[1]);
    }
    if (told[KAORI_TOLD_OPEN] != 0) printf("\n");
}

static void explain(const uint32_t *answer, size_t length) {
    uint8_t reason[KAORI_MESSAGE_ROOM];
    uint32_t place[KAORI_PLACE_ROOM], found = tokens[KAORI_TOKEN_WIDTH * answer[KAORI_AT]];
    size_t written = kaori_reason(text, length, answer[KAORI_CODE], answer[KAORI_START], answer[KAORI_EXPECTED], found,
                                  reason, LENGTH(reason));
    printf("refused %" PRIu32 " %" PRIu32 " %" PRIu32 " %" PRIu32 " %" PRIu32 "\n", answer[KAORI_CODE],
           answer[KAORI_AT], answer[KAORI_START], answer[KAORI_END], answer[KAORI_EXPECTED]);
    printf("%.*s\n", (int)written, (const char *)reason);
    if (kaori_place(text, length, answer[KAORI_START], place, LENGTH(place)) == KAORI_OK)
        printf("line %" PRIu32 ", column %" PRIu32 "\n", place[KAORI_LINE], place[KAORI_COLUMN]);
}

int main(int argc, char **argv) {
    uint32_t limit = argc > 1 ? (uint32_t)strtoul(argv[1], NULL, 10) : KAORI_LIMIT_MAX;
    uint32_t edition = argc > 2 ? (uint32_t)strtoul(argv[2], NULL, 10) : KAORI_FIRST_EDITION;
    int is_guard = argc > 3;
    uint32_t answer[KAORI_ANSWER_ROOM];
    size_t length = fread(text, 1, sizeof text, stdin);
    /* beside no names: their pointers are not null */
    uint32_t code = (is_guard ? kaori_read_guard_with : kaori_read_with)(
        no_names, 0, no_rows, 0, text, length, tokens, LENGTH(tokens), edition, limit, nodes, LENGTH(nodes), links,
        LENGTH(links), symbols, LENGTH(symbols), scratch, LENGTH(scratch), answer, LENGTH(answer));
    if (code != KAORI_OK) {
        explain(answer, length);
        if (!is_guard) tell(answer, edition, limit);
        return 1;
    }
    printf("ok %" PRIu32 " %" PRIu32 " %" PRIu32 "\n", answer[KAORI_NODES], answer[KAORI_LINKS], answer[KAORI_SYMBOLS]);
    print("", nodes, KAORI_NODE_WIDTH, answer[KAORI_NODES]);
    print("link ", links, KAORI_LINK_WIDTH, answer[KAORI_LINKS]);
    print("sym ", symbols, KAORI_SYMBOL_WIDTH, answer[KAORI_SYMBOLS]);
    return 0;
}
