/*
 * Zaldrume: LaTeX trees to Typst, block by block, changes of an open document, and a writer of tree
 * files. The functions of the static library libzaldrume.a (x86-64 Linux, the C calling convention).
 *
 * How things pass
 *   A slice is two arguments: the address of its first byte or number, which is not null even where
 *   the slice is empty, and how many it has. rules, tree and blocks are only read. text and ledger are
 *   read and written within their lengths, and so are a writer's state and buffer; a token's text is
 *   only read. place, growth and count are addresses of one number each, written by every call. What
 *   is written (text, ledger, state, buffer, place, growth, count) overlaps with nothing else that is
 *   passed. Nothing more is asked: any bytes, lengths and numbers get an answer.
 *
 * What a call answers
 *   The result is 0, or the number of a refusal, from 1 to 16. After a refusal *place is the row of
 *   the tree file that it names (0 where it names none), *growth and *count are 0, and every byte of
 *   text and ledger, every byte of a writer's buffer and every number of its state is as it was.
 *
 *    1 the mode is neither 0 (text) nor 1 (math)     9 a command is not in the rules
 *    2 the rule file breaks its layout              10 an environment is not in the rules
 *    3 the tree file breaks its layout              11 \item stands outside of a list
 *    4 a row lies deeper than 64                    12 an argument is missing
 *    5 a row breaks a rule on the tree's shape      13 a column letter is not l, c, r or |
 *    6 (changes) no such place, or no fit           14 a label to be held is over 120 bytes
 *    7 an element that cannot be converted          15 text, ledger or buffer is too short
 *    8 a formula's ends do not match                16 (writer) a step out of place
 *
 *   A ledger has 128 bytes for each block; there are at most 512.
 *
 *   The changes are edit, insert, remove and replace_all. Each is refused with 6 where there is no such
 *   block or position, where kept is more than text_size, or where the ledger does not fit: it has a
 *   row for each block of the document before the change, and the last row's length is kept, which is
 *   0 where there are no rows. That document has as many blocks as tree for an edit and a replace_all,
 *   one less for an insertion, one more for a removal.
 */
#ifndef ZALDRUME_H
#define ZALDRUME_H

#include <stddef.h>
#include <stdint.h>

#ifdef __cplusplus
extern "C" {
#endif

/*
 * Converts a tree file from its start. Accepted: *place is the text's length, *count the count of
 * blocks, *growth 0; bytes after the text and after the last row are as they were.
 */
uint8_t zaldrume_convert(uint8_t mode,
                         const uint8_t *rules, size_t rules_size,
                         const uint8_t *tree, size_t tree_size,
                         uint8_t *text, size_t text_size,
                         uint8_t *ledger, size_t ledger_size,
                         size_t *place, int64_t *growth, size_t *count);

/*
 * Converts one block again, and those after it until the carry is the kept one. tree is the new
 * document, block is counted from 0, kept is the text's length before; text and ledger are those that
 * were kept. Accepted: *place is the new length, *growth the new length less the old, *count how many
 * blocks were converted again; where the text shrank, its old bytes after the new length are 0.
 */
uint8_t zaldrume_edit(uint8_t mode,
                      const uint8_t *rules, size_t rules_size,
                      const uint8_t *tree, size_t tree_size,
                      size_t block, size_t kept,
                      uint8_t *text, size_t text_size,
                      uint8_t *ledger, size_t ledger_size,
                      size_t *place, int64_t *growth, size_t *count);

/*
 * Puts one block in. tree is the new document, position the new block's number in it: the blocks from
 * there on come after it, and the count of blocks before the call puts it at the end. The new block is
 * converted, and those after it until the carry is the one that stood there. ledger needs a row for
 * each block of tree: without a place for the row put in it is too short (15). 6 is also a tree
 * without blocks. All else is as in zaldrume_edit; *count is at least 1.
 */
uint8_t zaldrume_insert(uint8_t mode,
                        const uint8_t *rules, size_t rules_size,
                        const uint8_t *tree, size_t tree_size,
                        size_t position, size_t kept,
                        uint8_t *text, size_t text_size,
                        uint8_t *ledger, size_t ledger_size,
                        size_t *place, int64_t *growth, size_t *count);

/*
 * Takes one block out. tree is the new document, block the number that the block had before. Blocks
 * after it are converted until the carry is the kept one, so *count may be 0, and a label that lands
 * elsewhere may make the text longer. The row left over after the last one is 0. All else is as in
 * zaldrume_edit.
 */
uint8_t zaldrume_remove(uint8_t mode,
                        const uint8_t *rules, size_t rules_size,
                        const uint8_t *tree, size_t tree_size,
                        size_t block, size_t kept,
                        uint8_t *text, size_t text_size,
                        uint8_t *ledger, size_t ledger_size,
                        size_t *place, int64_t *growth, size_t *count);

/*
 * Replaces several blocks together. tree is the new document, blocks their numbers, counted from 0.
 * From each of them on blocks are converted until the carry is the kept one; a block that was reached
 * from an earlier one is not converted twice, and *count is how many were converted in all. text needs
 * room for the text before and for the text after, not for what single edits would come to on the
 * way. 6 is also an empty list, and numbers that do not rise: each is greater than the one before. All
 * else is as in zaldrume_edit.
 */
uint8_t zaldrume_replace_all(uint8_t mode,
                             const uint8_t *rules, size_t rules_size,
                             const uint8_t *tree, size_t tree_size,
                             const size_t *blocks, size_t blocks_count,
                             size_t kept,
                             uint8_t *text, size_t text_size,
                             uint8_t *ledger, size_t ledger_size,
                             size_t *place, int64_t *growth, size_t *count);

/* The kinds of a tree's elements, and what may be of each: a node, a token, or either. */
enum zaldrume_kind {
    ZALDRUME_KIND_TokenError = 1,            /* either */
    ZALDRUME_KIND_ItemLR = 2,                /* node */
    ZALDRUME_KIND_ClauseArgument = 3,        /* node */
    ZALDRUME_KIND_ScopeRoot = 4,             /* node */
    ZALDRUME_KIND_ItemText = 5,              /* node */
    ZALDRUME_KIND_ItemBracket = 6,           /* node */
    ZALDRUME_KIND_ItemParen = 7,             /* node */
    ZALDRUME_KIND_ItemFormula = 8,           /* node */
    ZALDRUME_KIND_ItemCurly = 9,             /* node */
    ZALDRUME_KIND_ClauseLR = 10,             /* node */
    ZALDRUME_KIND_ItemAttachComponent = 11,  /* node */
    ZALDRUME_KIND_ClauseCommandName = 12,    /* token */
    ZALDRUME_KIND_ItemBegin = 13,            /* node */
    ZALDRUME_KIND_ItemEnd = 14,              /* node */
    ZALDRUME_KIND_TokenWord = 15,            /* token */
    ZALDRUME_KIND_TokenLBrace = 16,          /* token */
    ZALDRUME_KIND_TokenRBrace = 17,          /* token */
    ZALDRUME_KIND_TokenDollar = 18,          /* token */
    ZALDRUME_KIND_TokenBeginMath = 19,       /* token */
    ZALDRUME_KIND_TokenEndMath = 20,         /* token */
    ZALDRUME_KIND_TokenComment = 21,         /* token */
    ZALDRUME_KIND_ItemBlockComment = 22,     /* node */
    ZALDRUME_KIND_TokenWhiteSpace = 23,      /* token */
    ZALDRUME_KIND_TokenLineBreak = 24,       /* token */
    ZALDRUME_KIND_TokenApostrophe = 25,      /* token */
    ZALDRUME_KIND_TokenComma = 26,           /* token */
    ZALDRUME_KIND_TokenSlash = 27,           /* token */
    ZALDRUME_KIND_TokenCaret = 28,           /* token */
    ZALDRUME_KIND_TokenUnderscore = 29,      /* token */
    ZALDRUME_KIND_TokenHash = 30,            /* token */
    ZALDRUME_KIND_TokenAsterisk = 31,        /* token */
    ZALDRUME_KIND_TokenAtSign = 32,          /* token */
    ZALDRUME_KIND_TokenDitto = 33,           /* token */
    ZALDRUME_KIND_TokenSemicolon = 34,       /* token */
    ZALDRUME_KIND_TokenLParen = 35,          /* token */
    ZALDRUME_KIND_TokenRParen = 36,          /* token */
    ZALDRUME_KIND_TokenLBracket = 37,        /* token */
    ZALDRUME_KIND_TokenRBracket = 38,        /* token */
    ZALDRUME_KIND_TokenTilde = 39,           /* token */
    ZALDRUME_KIND_TokenAmpersand = 40,       /* token */
    ZALDRUME_KIND_ItemNewLine = 41,          /* token */
    ZALDRUME_KIND_TokenCommandSym = 42,      /* token */
    ZALDRUME_KIND_ItemCmd = 43,              /* node */
    ZALDRUME_KIND_ItemEnv = 44,              /* node */
    ZALDRUME_KIND_ItemTypstCode = 45         /* node */
};

/*
 * The writer of tree files. A file is written by steps: open a node, add a token with its text, close
 * the innermost open node, finish. The writer sets the sizes and the trailer.
 *
 *   uint64_t state[ZALDRUME_WRITER_STATE] = {0};
 *   static uint8_t buffer[65536];
 *   size_t place;
 *   if (zaldrume_writer_open(state, ZALDRUME_WRITER_STATE, buffer, sizeof buffer,
 *                            ZALDRUME_KIND_ScopeRoot) != 0
 *       || zaldrume_writer_token(state, ZALDRUME_WRITER_STATE, buffer, sizeof buffer,
 *                                ZALDRUME_KIND_TokenWord, (const uint8_t *)"ab", 2) != 0
 *       || zaldrume_writer_close(state, ZALDRUME_WRITER_STATE, buffer, sizeof buffer) != 0
 *       || zaldrume_writer_finish(state, ZALDRUME_WRITER_STATE, buffer, sizeof buffer, &place) != 0)
 *       return 1;
 *
 * leaves a tree file of 26 bytes: a ScopeRoot with the TokenWord "ab".
 *
 * state   its numbers are 0 before the first step, and the writer's own from then on. Numbers after
 *         the first ZALDRUME_WRITER_STATE stay as they are.
 * buffer  of the same length, and written by nobody else, from the first accepted step to the finish.
 *         65,536 bytes suffice for every file. Before the finish its bytes are the writer's own.
 * kind    one of enum zaldrume_kind. The first node is a ScopeRoot, and all others lie under it.
 * text    not empty, and UTF-8.
 *
 * The answer is 0 or the first of these that holds, and then the step has changed nothing; another may
 * follow.
 *
 *   16  the step is out of place: a close with nothing open, a token or a second node outside of the
 *       root, a root that is no ScopeRoot, a text that is empty or no UTF-8, a kind that is unfit for
 *       the step, a finish with a node open or without a root, any step after the finish; also a state
 *       that is too short or that no steps can have left, and a buffer of another length than before
 *    3  with this step the file so far, its trailer counted, has over 65,536 bytes, or the root over
 *       512 children
 *    4  the row of this step would lie deeper than 64, with the root as 1
 *   15  buffer is shorter than the file so far, its trailer counted: 8 bytes, 8 for each node and
 *       token, and the texts. To write the file after a 15, begin again with zeros in the state and
 *       a longer buffer: a longer buffer in mid-writing is 16. 65,536 bytes always suffice
 *
 * A close and a finish are 0 or 16.
 */
#define ZALDRUME_WRITER_STATE 7

uint8_t zaldrume_writer_open(uint64_t *state, size_t state_count,
                             uint8_t *buffer, size_t buffer_size,
                             uint8_t kind);

uint8_t zaldrume_writer_token(uint64_t *state, size_t state_count,
                              uint8_t *buffer, size_t buffer_size,
                              uint8_t kind,
                              const uint8_t *text, size_t text_size);

uint8_t zaldrume_writer_close(uint64_t *state, size_t state_count,
                              uint8_t *buffer, size_t buffer_size);

/* Accepted: the file is the first *place bytes of buffer. Refused: *place is 0. */
uint8_t zaldrume_writer_finish(uint64_t *state, size_t state_count,
                               uint8_t *buffer, size_t buffer_size,
                               size_t *place);

#ifdef __cplusplus
}
#endif

#endif
