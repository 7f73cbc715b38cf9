/* A host in C: loads the sheet of `x: x`, follows the x of the body to its definition, renames the definition, and
 * follows again. follow SHEET prints what it finds, a line a step; its exit status is 1 where something could not be
 * done. */
#include "lang_ast.h"

#include <stdio.h>
#include <stdlib.h>

/* The kind of an Ident, and the place of the body. */
#define IDENT 18
#define BODY_FROM 3
#define BODY_TO 4

static uint8_t reply[LANG_AST_REPLY_BYTES];
static uint8_t buffer[LANG_AST_BUFFER_BYTES];

static unsigned of_reply(size_t at) {
    return (unsigned)lang_ast_word(reply, at);
}

static void said(const char *step, uint32_t refusal) {
    printf("%s: refusal %u, place %u, answer %u, to %u, length %u\n", step, (unsigned)refusal, of_reply(LANG_AST_REPLY_PLACE),
           of_reply(LANG_AST_REPLY_ANSWER), of_reply(LANG_AST_REPLY_TO), of_reply(LANG_AST_REPLY_LENGTH));
    if (refusal != lang_ast_word(reply, LANG_AST_REPLY_REFUSAL)) {
        printf("but the reply says %u\n", of_reply(LANG_AST_REPLY_REFUSAL));
        exit(1);
    }
}

/* Whether the pointer at this offset of the store is that of a node. */
static int points_to(const uint8_t *store, size_t pointer, uint32_t kind, uint32_t from, uint32_t to) {
    return lang_ast_word(store, pointer + LANG_AST_POINTER_KIND) == kind &&
           lang_ast_word(store, pointer + LANG_AST_POINTER_FROM) == from &&
           lang_ast_word(store, pointer + LANG_AST_POINTER_TO) == to;
}

/* The expression of a node, or how many there are if it has none. */
static uint32_t expression_of(const uint8_t *store, uint32_t kind, uint32_t from, uint32_t to) {
    uint32_t count = lang_ast_word(store, LANG_AST_EXPR_COUNT);
    for (uint32_t number = count; number-- > 0;) {
        size_t row = LANG_AST_EXPRS + (size_t)number * LANG_AST_EXPR_BYTES;
        size_t pointer = LANG_AST_EXPR_POINTERS + (size_t)number * LANG_AST_POINTER_BYTES;
        if (lang_ast_word(store, row + LANG_AST_EXPR_SORT) != LANG_AST_SORT_NO_NODE && points_to(store, pointer, kind, from, to)) {
            return number;
        }
    }
    return count;
}

/* Where a name is defined. */
static void show_place(const uint8_t *store, uint32_t name) {
    size_t pointer = LANG_AST_NAME_POINTERS + (size_t)name * LANG_AST_POINTER_BYTES;
    printf("n%u of %u is at %u to %u\n", (unsigned)name, (unsigned)lang_ast_word(store, LANG_AST_NAME_COUNT),
           (unsigned)lang_ast_word(store, pointer + LANG_AST_POINTER_FROM),
           (unsigned)lang_ast_word(store, pointer + LANG_AST_POINTER_TO));
}

static size_t read_sheet(const char *path, uint8_t *sheet, size_t most) {
    FILE *file = fopen(path, "rb");
    if (file == NULL) {
        perror(path);
        exit(1);
    }
    size_t length = fread(sheet, 1, most, file);
    fclose(file);
    return length;
}

static void ask(const uint8_t *store, uint32_t use, uint32_t name) {
    said("ask the use", lang_ast_ask_reference(store, LANG_AST_STORE_BYTES, use, buffer, sizeof buffer, reply, sizeof reply));
    said("ask the name", lang_ast_ask_name(store, LANG_AST_STORE_BYTES, name, buffer, sizeof buffer, reply, sizeof reply));
}

/* Gives a name a text, in a buffer of so many bytes for what that moves. */
static void change_name(const char *step, uint8_t *store, uint32_t name, const char *text, size_t length, size_t moved_length) {
    said(step, lang_ast_change_name(store, LANG_AST_STORE_BYTES, name, (const uint8_t *)text, length, buffer, moved_length, reply,
                                    sizeof reply));
}

/* Nothing is lent: the pointers of empty slices are not looked at. */
static void lend_nothing(void) {
    printf("nothing lent: %u %u %u %u %u\n", (unsigned)lang_ast_load(NULL, 0, NULL, 0, NULL, 0),
           (unsigned)lang_ast_ask_reference(NULL, 0, 0, NULL, 0, NULL, 0),
           (unsigned)lang_ast_ask_name(NULL, 0, 0, NULL, 0, NULL, 0),
           (unsigned)lang_ast_change_reference(NULL, 0, 0, NULL, 0, NULL, 0, NULL, 0),
           (unsigned)lang_ast_change_name(NULL, 0, 0, NULL, 0, NULL, 0, NULL, 0));
}

int main(int count, char **words) {
    static uint8_t sheet[4096];
    uint8_t *store = calloc(1, LANG_AST_STORE_BYTES);
    if (count != 2 || store == NULL) {
        fprintf(stderr, "follow SHEET\n");
        return 1;
    }
    size_t length = read_sheet(words[1], sheet, sizeof sheet);
    lend_nothing();
    said("load no sheet", lang_ast_load(NULL, 0, store, LANG_AST_STORE_BYTES, reply, sizeof reply));
    said("ask too early", lang_ast_ask_reference(store, LANG_AST_STORE_BYTES, 0, NULL, 0, reply, sizeof reply));
    said("load", lang_ast_load(sheet, length, store, LANG_AST_STORE_BYTES, reply, sizeof reply));
    uint32_t use = expression_of(store, IDENT, BODY_FROM, BODY_TO);
    printf("the body is e%u of %u\n", (unsigned)use, (unsigned)lang_ast_word(store, LANG_AST_EXPR_COUNT));
    said("follow", lang_ast_ask_reference(store, LANG_AST_STORE_BYTES, use, buffer, sizeof buffer, reply, sizeof reply));
    if (lang_ast_word(reply, LANG_AST_REPLY_ANSWER) != LANG_AST_ANSWER_DEFINITION) {
        return 1;
    }
    uint32_t name = lang_ast_word(reply, LANG_AST_REPLY_TO);
    show_place(store, name);
    ask(store, use, name);
    printf("first use: e%u\n", (unsigned)lang_ast_word(buffer, 0));
    change_name("name it y in too short a buffer", store, name, "y", 1, 3);
    change_name("name it x, which it is, in none", store, name, "x", 1, 0);
    change_name("name it y", store, name, "y", 1, sizeof buffer);
    printf("first moved: e%u\n", (unsigned)lang_ast_word(buffer, 0));
    ask(store, use, name);
    said("use y", lang_ast_change_reference(store, LANG_AST_STORE_BYTES, use, (const uint8_t *)"y", 1, buffer, 4, reply, sizeof reply));
    ask(store, use, name);
    said("ask without a buffer", lang_ast_ask_name(store, LANG_AST_STORE_BYTES, name, NULL, 0, reply, sizeof reply));
    change_name("name it nothing", store, name, NULL, 0, 4);
    free(store);
    return 0;
}
