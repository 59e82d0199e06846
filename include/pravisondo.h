/* Pravisondo for C and C++: the check of a proposed parse tree, the check of its derivation alone, the checks of single
 * images, and two packers.
 *
 * On x86-64, once `bash samples/library` has built the library:
 *     cc loader.c -Iinclude target/staticlib/libexported.a
 * samples/loader.c is the least program that uses it. The bytes of the images are described in README.md.
 *
 * For every call:
 * - A list is a pointer and its number of elements. No pointer may be NULL, not even where that number is 0.
 * - Every content and every length of the inputs is answered; no image has to be tested beforehand. Inputs are
 *   only read.
 * - The lists that a call may write (sets, indentations, output) overlap no other list of that call, and no other
 *   thread uses them meanwhile. What a call is not said to write stays as it was.
 * - Nothing is allocated and nothing is kept from one call to the next. Calls may run side by side in threads, also
 *   on the same inputs.
 * - A stack of 256 KiB is enough, for the deepest tree as well: docs/BENCHMARKS.md, "Stack", has what was measured.
 */
#ifndef PRAVISONDO_H
#define PRAVISONDO_H

#include <stddef.h>
#include <stdint.h>

#ifdef __cplusplus
extern "C" {
#endif

/* Limits, to size lists by. With lists of these sizes number 4 is never given. */
#define PRAVISONDO_MOST_NODES 4096                                   /* of a tree; entries of `indentations` */
#define PRAVISONDO_MOST_SETS (2 * PRAVISONDO_MOST_NODES)             /* entries of `sets`, two a node */
#define PRAVISONDO_MOST_TOKENS 4096                                  /* of a sheet */
#define PRAVISONDO_MOST_GRAMMAR_BYTES (16 + 6 * 1024 + 4 * 4096)     /* 22,544: a grammar image */
#define PRAVISONDO_MOST_TOKEN_BYTES (6 + 4 * PRAVISONDO_MOST_TOKENS) /* 16,390: a token image */
#define PRAVISONDO_MOST_TREE_BYTES (6 + 2 * PRAVISONDO_MOST_NODES)   /* 8,198: a tree image */

/* A set is stored as two numbers, low and high: all whole numbers from low to high, both included. This high stands
 * for no upper bound. An empty set is stored as low 1, high 0, and in no other set is high below low. */
#define PRAVISONDO_NO_UPPER_BOUND 4294967295u

/* A token's column is 0 to 4,095, or this where the lexer is to ignore its indentation, as on a joined line: no column.
 * Such a token satisfies >, >= and free against every indentation, and = against none. */
#define PRAVISONDO_NO_COLUMN 65535u

/* The numbers of the answers. D is the number of nodes of the tree image and K that of tokens of the token image;
 * nodes, tokens and bytes are counted from 0. Where nothing else is said, nothing is written. */
enum {
    PRAVISONDO_ACCEPTED = 0,       /* accepted, derived, well formed, or packed. Place: 0. Written: as the call says */
    PRAVISONDO_GRAMMAR_IMAGE = 1,  /* grammar image. Place: byte of the first field that breaks its rule;
                                      the image's length if that is under 16 */
    PRAVISONDO_TOKEN_IMAGE = 2,    /* token image. Place: byte of that field; the image's length if under 6 */
    PRAVISONDO_TREE_IMAGE = 3,     /* tree image. Place: as for 2 */
    PRAVISONDO_NO_ROOM = 4,        /* `sets` under 2D entries, or else `indentations` under D; a packer's output too
                                      short. Place: 2D, or D; the bytes needed */
    PRAVISONDO_WRONG_NODE = 5,     /* the node's left side is not the nonterminal due. Place: the node */
    PRAVISONDO_NODES_END = 6,      /* a node is due and none remains. Place: D */
    PRAVISONDO_WRONG_TOKEN = 7,    /* the next token is not the terminal due. Place: the token */
    PRAVISONDO_TOKENS_END = 8,     /* a token is due and none remains. Place: K */
    PRAVISONDO_TOO_DEEP = 9,       /* a node deeper than 1,024, with 1 for the root. Place: the node */
    PRAVISONDO_NODES_REMAIN = 10,  /* the tree is complete and nodes remain. Place: the first unused node */
    PRAVISONDO_TOKENS_REMAIN = 11, /* the tree is complete and tokens remain. Place: the first unused token */
    PRAVISONDO_EMPTY_SET = 12,     /* the root's set is empty: no indentations satisfy all relations.
                                      Place: the highest-numbered node with an empty set. Written: the first 2D
                                      entries of `sets` */
    PRAVISONDO_ENTRIES = 13,       /* packers: over 4,096 entries, an empty tree list, or two lists of unequal length.
                                      Place: 0 */
    PRAVISONDO_COLUMN = 14         /* token packer: a column of 4,096 to 65,534. Place: the index of the first such */
};

/* Every call gives a number, a place and a length as one answer of 64 bits. These three take it apart. */

/* Bits 0 to 7: the number, one of the enum above. */
static inline uint8_t pravisondo_number(uint64_t answer)
{
    return (uint8_t)(answer & 0xff);
}

/* Bits 8 to 31: the length in bytes of the image that a packer wrote; 0 after any refusal and for every other call. */
static inline uint32_t pravisondo_length(uint64_t answer)
{
    return (uint32_t)(answer >> 8 & 0xffffff);
}

/* Bits 32 to 63: the place. The enum says for each number what it counts. */
static inline uint32_t pravisondo_place(uint64_t answer)
{
    return (uint32_t)(answer >> 32);
}

/* Whether the nodes of the tree image are a right tree over the tokens, and whether every node can be given an
 * indentation so that all relations hold. Number 0 to 12. The refusals are tested in the order 1 to 12, but 5 to 9
 * arise in one walk through the tree in preorder, and the first met is given.
 * On 0, for each node n from 0 to D - 1: its set, which are all indentations that it can have with the nodes below it,
 * at sets[2n] (low) and sets[2n + 1] (high); and at indentations[n] the least that it has in any choice that satisfies
 * all relations. Together these are such a choice, and none exceeds 5,118.
 * On 12 the sets alone are written. On any other number neither list is. Later entries are never written. */
uint64_t pravisondo_check(const uint8_t *grammar, size_t grammar_length,
                          const uint8_t *tokens, size_t tokens_length,
                          const uint8_t *tree, size_t tree_length,
                          uint32_t *sets, size_t sets_length,
                          uint32_t *indentations, size_t indentations_length);

/* Whether the nodes of the tree image are a right tree over the tokens, whatever their columns: the check without its
 * relations, for a caller who wants the derivation alone. It needs no lists. Number 0, 1 to 3 or 5 to 11; writes
 * nothing. A refusal is the one, with its place, that pravisondo_check gives for the same images if both its lists have
 * room; on 0 that call gives 0 or 12. */
uint64_t pravisondo_derive(const uint8_t *grammar, size_t grammar_length,
                           const uint8_t *tokens, size_t tokens_length,
                           const uint8_t *tree, size_t tree_length);

/* Whether the grammar image is well formed. Number 0 or 1; writes nothing. */
uint64_t pravisondo_check_grammar(const uint8_t *image, size_t length);

/* Whether the token image is well formed for a grammar of so many terminals: the 16 bits at byte 0 of a well-formed
 * grammar image, grammar[0] + 256 * grammar[1]. Number 0 or 2; writes nothing. */
uint64_t pravisondo_check_tokens(const uint8_t *image, size_t length, uint16_t terminals);

/* Whether the tree image is well formed for a grammar of so many productions: the 16 bits at byte 6 of a well-formed
 * grammar image, grammar[6] + 256 * grammar[7]. Number 0 or 3; writes nothing. */
uint64_t pravisondo_check_tree(const uint8_t *image, size_t length, uint16_t productions);

/* Packs the production numbers of a tree's nodes, in preorder, as a tree image: 6 + 2 * count bytes at the start of
 * the output, which has room for `room` bytes. Number 0, 13 or 4, tested as 13, then 4. On 0 the length is the image's
 * and later bytes are not written; on a refusal nothing is. Production numbers are not judged. */
uint64_t pravisondo_pack_tree(const uint16_t *productions, size_t count, uint8_t *output, size_t room);

/* Packs the tokens of a sheet, terminals[k] at columns[k], as a token image: 6 + 4 * count bytes at the start of the
 * output, which has room for `room` bytes. A column is 0 to 4,095, or PRAVISONDO_NO_COLUMN. Number 0, 13, 14 or 4,
 * tested as 13, then 14, then 4. On 0 the length is the image's and later bytes are not written; on a refusal nothing
 * is. Terminal numbers are not judged. */
uint64_t pravisondo_pack_tokens(const uint16_t *terminals, size_t terminals_count,
                                const uint16_t *columns, size_t columns_count,
                                uint8_t *output, size_t room);

#ifdef __cplusplus
}
#endif

#endif
