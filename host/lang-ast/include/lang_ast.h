/* The names of a Nix file: the five calls of liblang_ast.a, for hosts in C.
 *
 * docs/STORE.md has the layout of the store, the reply and the buffer; docs/SHEET.md has the sheet.
 *
 * To link: `cc host.c -L<folder> -llang_ast`, the library behind the sources. The archive is for x86-64 Linux and needs
 * nothing but the C library.
 *
 * - What is lent is bytes: a pointer and a length. No bytes, lengths, numbers and texts are forbidden; what can't be
 *   used is refused. Where a length is 0 the pointer is not looked at. No pointer need be aligned.
 * - A call keeps no pointer. What it writes must overlap nothing else that it is lent.
 * - Each call returns the number of the refusal, 0 for none. A refusal writes neither the store nor the buffer.
 * - Calls on different stores may run at the same time, and so may askings of one store. A load takes up to one
 *   mebibyte of stack.
 *
 * Expressions and names are numbered from 0, each on their own. These are not the node numbers of the sheet: how many
 * there are stands in the store, at LANG_AST_EXPR_COUNT and LANG_AST_NAME_COUNT, and the tables of pointers say which
 * node each is of, by the kind and the place that the sheet gave the node. To find the expression of a node, look from
 * the last row of LANG_AST_EXPR_POINTERS down, skipping the expressions of sort 0, which are of no node; a use of a
 * name is of sort LANG_AST_SORT_REFERENCE. To find the name of a node, look from the last row of
 * LANG_AST_NAME_POINTERS down. docs/STORE.md has all tables, and says which nodes have an expression or a name.
 */
#ifndef LANG_AST_H
#define LANG_AST_H

#include <stddef.h>
#include <stdint.h>

#ifdef __cplusplus
extern "C" {
#endif

/* The least bytes of a store. A store of zeros is one with nothing in it. */
#define LANG_AST_STORE_BYTES 3948672
/* The least bytes of a reply. */
#define LANG_AST_REPLY_BYTES 20
/* The most bytes of a new text, and of all of them together since the load. */
#define LANG_AST_TEXT_LIMIT 255
#define LANG_AST_CHANGE_ROOM 8192

/* A buffer of so many bytes is never too short, for an asking or a change. */
#define LANG_AST_BUFFER_BYTES 65536

/* A word, of a store, a reply or a buffer: the number in the four bytes from bytes[at] on, lowest first. */
static inline uint32_t lang_ast_word(const uint8_t *bytes, size_t at) {
    return (uint32_t)bytes[at] | (uint32_t)bytes[at + 1] << 8 | (uint32_t)bytes[at + 2] << 16 |
           (uint32_t)bytes[at + 3] << 24;
}

/* Where in a store some of its words and tables stand. Row n of a table begins n times the bytes of a row behind the
 * table's beginning. */
#define LANG_AST_EXPR_COUNT 0 /* how many expressions there are */
#define LANG_AST_NAME_COUNT 4 /* how many names there are */
#define LANG_AST_EXPRS 64     /* a row for each expression */
#define LANG_AST_EXPR_BYTES 20
#define LANG_AST_EXPR_SORT 4 /* where in such a row the sort stands */
#define LANG_AST_SORT_NO_NODE 0
#define LANG_AST_SORT_REFERENCE 21
#define LANG_AST_EXPR_POINTERS 327764 /* a pointer for each expression; that of one of sort 0 means nothing */
#define LANG_AST_NAME_POINTERS 950356 /* a pointer for each name */
#define LANG_AST_POINTER_BYTES 12
#define LANG_AST_POINTER_KIND 0 /* where in a pointer the node's kind stands, and its place */
#define LANG_AST_POINTER_FROM 4
#define LANG_AST_POINTER_TO 8

/* Where in a reply its words stand. One that a call has nothing for is 0. */
#define LANG_AST_REPLY_REFUSAL 0 /* the refusal's number, 0 for none */
#define LANG_AST_REPLY_PLACE 4   /* its place */
#define LANG_AST_REPLY_ANSWER 8  /* what a Reference means, one of the answers below */
#define LANG_AST_REPLY_TO 12     /* the number of the definition, or the index of the built-in name */
#define LANG_AST_REPLY_LENGTH 16 /* how many numbers the list in the buffer has */

/* What a Reference means. */
#define LANG_AST_ANSWER_NONE 0
#define LANG_AST_ANSWER_DEFINITION 1
#define LANG_AST_ANSWER_BUILTIN 2 /* one of 22 names, by its index */
#define LANG_AST_ANSWER_WITHS 3   /* an attribute of one of the Withs in the buffer, innermost first */

/* Refusals, and what their place is where it is not 0. */
#define LANG_AST_SHEET_TOO_LONG 1   /* more than 1,048,576 bytes */
#define LANG_AST_FORM 2             /* a line is missing, not in form or too many: its first byte */
#define LANG_AST_VALUE 3            /* the number of nodes, a kind or a kid's number is out of range: the line's first byte */
#define LANG_AST_KID_COUNT 4        /* too few or too many kids: the node */
#define LANG_AST_WRONG_KID 5        /* a kid out of order, of the wrong kind or wrongly absent: the parent */
#define LANG_AST_TOO_DEEP 6         /* deeper than 256: the parent */
#define LANG_AST_NOT_MET 7          /* nodes outside the tree: the lowest */
#define LANG_AST_TEXT_TOO_LONG 8    /* a new text of more than 255 bytes: 255 */
#define LANG_AST_STORE_TOO_SHORT 21 /* the store or the reply is too short; a reply that is too short is not written */
#define LANG_AST_STORE_UNSOUND 22   /* the store's bytes are damaged or of no store */
#define LANG_AST_NOTHING_LOADED 23
#define LANG_AST_NO_SUCH_NUMBER 24   /* no such expression or name: the number */
#define LANG_AST_NOT_A_REFERENCE 25  /* the number */
#define LANG_AST_BUFFER_TOO_SHORT 26 /* the list's length: four bytes for each number are wanted */
#define LANG_AST_ROOM_SPENT 27       /* all changes since the load would have more than 8,192 bytes */
#define LANG_AST_WRONG_FLAG 31       /* a flag that its kind does not have: the line's first byte */
#define LANG_AST_WRONG_TEXT 32       /* a text that its kind, with its flag, does not have: the line's first byte */
#define LANG_AST_WRONG_RANGE 33      /* `from` above `to`, or one of them too large: the line's first byte */
#define LANG_AST_MOVED_BUFFER_TOO_SHORT 34 /* how many References a change moves: four bytes for each are wanted */

/* Loads a sheet into the store, which may hold anything before. */
uint32_t lang_ast_load(const uint8_t *sheet, size_t sheet_length, uint8_t *store, size_t store_length, uint8_t *reply,
                       size_t reply_length);

/* What the Reference with this expression number means. Withs are listed in the buffer, a word for each number. */
uint32_t lang_ast_ask_reference(const uint8_t *store, size_t store_length, uint32_t number, uint8_t *buffer, size_t buffer_length,
                                uint8_t *reply, size_t reply_length);

/* The References that mean the name with this number, listed in the buffer, ascending. */
uint32_t lang_ast_ask_name(const uint8_t *store, size_t store_length, uint32_t number, uint8_t *buffer, size_t buffer_length,
                           uint8_t *reply, size_t reply_length);

/* Sets the text of the Reference with this expression number. Afterwards all answers are those of the file with the
 * new text. The References whose answer is another than before, at most this one, are listed in `moved`, and
 * LANG_AST_REPLY_LENGTH of the reply says how many they are. */
uint32_t lang_ast_change_reference(uint8_t *store, size_t store_length, uint32_t number, const uint8_t *text, size_t text_length,
                                   uint8_t *moved, size_t moved_length, uint8_t *reply, size_t reply_length);

/* Sets the text of the name with this number, and of no Reference. Afterwards all answers are those of the file with
 * the new text. The References whose answer is another than before are listed in `moved`, ascending, and
 * LANG_AST_REPLY_LENGTH of the reply says how many they are. */
uint32_t lang_ast_change_name(uint8_t *store, size_t store_length, uint32_t number, const uint8_t *text, size_t text_length,
                              uint8_t *moved, size_t moved_length, uint8_t *reply, size_t reply_length);

#ifdef __cplusplus
}
#endif

#endif
