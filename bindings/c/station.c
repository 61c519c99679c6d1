/* Reads the scripts of a station in one call and prints a line for each: how many rows it has, or its line, its column and why
   it was refused. `station FILE..`, up to 32 files. */
#include "kaori.h"

#include <inttypes.h>
#include <stdio.h>

#define LENGTH(room) (sizeof(room) / sizeof *(room))

/* Rooms for the scripts that this station has: so many tokens in each, and so a part of as many rows. */
enum { TOKENS = 1024, LIST = KAORI_TOKEN_WIDTH * TOKENS };

static const uint8_t no_names[1];
static const uint32_t no_rows[1];
static uint8_t text[(KAORI_TEXT_MAX + 1) * (KAORI_SCRIPTS_MAX + 1)];
static uint32_t tokens[LIST * KAORI_SCRIPTS_MAX], nodes[KAORI_NODE_WIDTH * TOKENS * KAORI_SCRIPTS_MAX];
static uint32_t links[KAORI_LINK_WIDTH * TOKENS * KAORI_SCRIPTS_MAX];
static uint32_t symbols[KAORI_SYMBOL_WIDTH * TOKENS * KAORI_SCRIPTS_MAX];
static uint32_t scratch[KAORI_SCRATCH_WIDTH * TOKENS * KAORI_SCRIPTS_MAX];
static uint32_t cuts[2 * (KAORI_SCRIPTS_MAX + 1)], answers[KAORI_ANSWER_ROOM * KAORI_SCRIPTS_MAX];

/* A refused script's line, column and reason. Its spans are places in its own part of the text. */
static void explain(uint32_t script, const uint32_t *answer) {
    uint32_t start = script == 0 ? 0 : cuts[2 * script - 2], place[KAORI_PLACE_ROOM];
    const uint32_t *list = tokens + LIST * script;
    size_t length = cuts[2 * script] - start;
    uint8_t reason[KAORI_MESSAGE_ROOM];
    size_t written = kaori_reason(text + start, length, answer[KAORI_CODE], answer[KAORI_START], answer[KAORI_EXPECTED],
                                  list[KAORI_TOKEN_WIDTH * answer[KAORI_AT]], reason, LENGTH(reason));
    if (kaori_place(text + start, length, answer[KAORI_START], place, LENGTH(place)) == KAORI_OK)
        printf("line %" PRIu32 ", column %" PRIu32 ": ", place[KAORI_LINE], place[KAORI_COLUMN]);
    printf("%.*s\n", (int)written, (const char *)reason);
}

int main(int argc, char **argv) {
    uint32_t scripts = 0, end = 0;
    /* one byte and one script too many are told by 2 and by 19 */
    for (; scripts <= KAORI_SCRIPTS_MAX && (int)scripts + 1 < argc; scripts++) {
        FILE *file = fopen(argv[scripts + 1], "rb");
        if (file == NULL) return 2;
        end += (uint32_t)fread(text + end, 1, KAORI_TEXT_MAX + 1, file);
        fclose(file);
        cuts[2 * scripts] = end;
        cuts[2 * scripts + 1] = LIST * (scripts + 1);
    }
    uint32_t code = kaori_read_scripts(no_names, 0, no_rows, 0, text, end, tokens, LENGTH(tokens), cuts, 2 * scripts,
                                       KAORI_FIRST_EDITION, KAORI_LIMIT_MAX, TOKENS, nodes, LENGTH(nodes), links,
                                       LENGTH(links), symbols, LENGTH(symbols), scratch, LENGTH(scratch), answers,
                                       LENGTH(answers));
    if (code != KAORI_OK) {
        uint8_t reason[KAORI_MESSAGE_ROOM];
        size_t written = kaori_reason(text, 0, code, 0, KAORI_NO_KIND, KAORI_NO_KIND, reason, LENGTH(reason));
        printf("%.*s\n", (int)written, (const char *)reason);
        return 1;
    }
    for (uint32_t i = 0; i < scripts; i++) {
        const uint32_t *answer = answers + KAORI_ANSWER_ROOM * i;
        printf("%s: ", argv[i + 1]);
        if (answer[KAORI_CODE] == KAORI_OK)
            printf("%" PRIu32 " rows\n", answer[KAORI_NODES]);
        else
            explain(i, answer);
    }
    return 0;
}
