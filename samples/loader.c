/* The least loader: reads a grammar, a token and a tree image, has the tree checked, and says the answer in a sentence.
 *     loader GRAMMAR TOKENS TREE
 * Status: 0 accepted, 1 refused, 2 cannot read. */
#include <errno.h>
#include <stdio.h>
#include <stdlib.h>
#include <string.h>
#include "pravisondo.h"

/* A byte more than the largest image has: of a longer file so much is read, and the check refuses it as too long. */
static uint8_t grammar[PRAVISONDO_MOST_GRAMMAR_BYTES + 1];
static uint8_t tokens[PRAVISONDO_MOST_TOKEN_BYTES + 1];
static uint8_t tree[PRAVISONDO_MOST_TREE_BYTES + 1];
static uint32_t sets[PRAVISONDO_MOST_SETS];
static uint32_t indentations[PRAVISONDO_MOST_NODES];

/* What the operator reads for each refusal, before its place. */
static const char *const sentence[] = {
    [PRAVISONDO_GRAMMAR_IMAGE] = "the grammar image has a fault at byte",
    [PRAVISONDO_TOKEN_IMAGE] = "the token image has a fault at byte",
    [PRAVISONDO_TREE_IMAGE] = "the tree image has a fault at byte",
    [PRAVISONDO_NO_ROOM] = "the loader lent a list that is too short, entries needed:",
    [PRAVISONDO_WRONG_NODE] = "the tree has a node that does not belong there, node",
    [PRAVISONDO_NODES_END] = "the tree breaks off where it needs node",
    [PRAVISONDO_WRONG_TOKEN] = "the tree does not fit the sheet at token",
    [PRAVISONDO_TOKENS_END] = "the sheet breaks off where the tree needs token",
    [PRAVISONDO_TOO_DEEP] = "the tree is too deep at node",
    [PRAVISONDO_NODES_REMAIN] = "the tree is complete and has a further node, node",
    [PRAVISONDO_TOKENS_REMAIN] = "the tree is complete and the sheet goes on with token",
    [PRAVISONDO_EMPTY_SET] = "the columns do not fit the tree, they leave no indentation for node",
};

/* Reads a file from its start until it ends or `room` bytes are there, and gives their number. */
static size_t read_image(const char *name, uint8_t *image, size_t room)
{
    FILE *file = fopen(name, "rb");
    size_t length = file ? fread(image, 1, room, file) : 0;
    if (!file || ferror(file)) {
        fprintf(stderr, "cannot read %s: %s\n", name, strerror(errno));
        exit(2);
    }
    fclose(file);
    return length;
}

int main(int count, char **words)
{
    if (count != 4) {
        fputs("usage: loader GRAMMAR TOKENS TREE\n", stderr);
        return 2;
    }
    size_t grammar_length = read_image(words[1], grammar, sizeof grammar);
    size_t tokens_length = read_image(words[2], tokens, sizeof tokens);
    size_t tree_length = read_image(words[3], tree, sizeof tree);
    uint64_t answer = pravisondo_check(grammar, grammar_length, tokens, tokens_length, tree, tree_length,
                                       sets, PRAVISONDO_MOST_SETS, indentations, PRAVISONDO_MOST_NODES);
    unsigned number = pravisondo_number(answer), place = pravisondo_place(answer);
    if (number != PRAVISONDO_ACCEPTED) {
        printf("refused (%u): %s %u\n", number, sentence[number], place);
        return 1;
    }
    /* Node 0 is the root. Where its row has day=, its indentation is the day's column. */
    printf("accepted: %u nodes, the root's indentation is %u\n", tree[0] + 256u * tree[1], (unsigned)indentations[0]);
    return 0;
}
