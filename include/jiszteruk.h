/* Jiszteruk: labelled bench records and the twigs asked of them. The C interface of libhost.a.
 *
 * Answers. Every call answers 0 where it is taken, else the number of its refusal. A refusal is given on its
 * stated fact and on no other, and the comment of a call lists its checks in their order: the first that fails
 * settles the number. Every call but jiszteruk_bench_table writes two words to `answer`: the place and the
 * call's value. The place is the pair (2, 3), node (5 to 8), record (19, 23 to 25) or label (20) counted from 0,
 * or the component counted from 1 (16); in every other refusal, and where the call is taken, it is 0. The value is
 * 0 where the comment names none, and in a refusal unless the comment says otherwise.
 *
 * Slices. A slice is a pointer and its length in elements. Whatever stands in the slices is answered; no call
 * asks anything of what they hold. But the pointers are the caller's care:
 *   - a pointer is valid for its length, aligned, and not null, even where the length is 0;
 *   - a slice that a call writes (those without const) overlaps no other slice of the call;
 *   - no other thread writes a slice while a call runs, or reads one that the call writes.
 * A call keeps no pointer, asks for no memory and has no state of its own. It needs 512 KB of stack.
 *
 * What is written. The small answers `answer`, `label` and `names` are written from their start as far as there
 * is room and untouched past that: an `answer` of length 0 gets nothing, a longer one than 2 keeps its rest. The
 * `table` of jiszteruk_read_names is an answer too: a refused child-name file gives a table of empty clues. The
 * lent buffers `store` and `out` are left as they were by every refusal. An output is untouched past its result.
 *
 * A name is a number 0 to 63. A table is 4,096 bytes: sixty-four rows of sixty-four name numbers, row after row,
 * each filled up with 255; row p has the clue of name p, the names of its children in order. A table of another
 * length is refused 22 at 0, before anything else is looked at.
 *
 * A label is 16 words: the depth, then fifteen components, the unused ones 0. The root's label is sixteen zeros.
 *
 * A store is a slice of 16-bit words, 20 to a record, with a count of records in use: the label's 16 words, the
 * name, the next number f, and two payload words that nothing here reads. Words past the records in use are
 * never read. Words are the machine's own; a file of records has them little-endian.
 *
 * A twig is 1 to 8 nodes of 4 bytes: the number of the parent (255 for node 0), the edge, the name (255 for any
 * name), a zero. Leaves are the nodes that are nobody's parent. */
#ifndef JISZTERUK_H
#define JISZTERUK_H

#include <stddef.h>
#include <stdint.h>

#ifdef __cplusplus
extern "C" {
#endif

/* Sizes and limits. */
#define JISZTERUK_NAMES 64            /* names, and so the rows of a table and the places of a row */
#define JISZTERUK_TABLE_BYTES 4096    /* the bytes of a table */
#define JISZTERUK_MAX_FILE_BYTES 8192 /* the most bytes of a child-name file */
#define JISZTERUK_LABEL_WORDS 16      /* the words of a label */
#define JISZTERUK_MAX_DEPTH 15        /* the deepest level */
#define JISZTERUK_MAX_COMPONENT 65534 /* the largest component */
#define JISZTERUK_PATH_NAMES 16       /* the names that decoding gives, from the root to the deepest level */
#define JISZTERUK_RECORD_WORDS 20     /* the words of a record of a store; its label stands first */
#define JISZTERUK_RECORD_NAME 16      /* the place of a record's name among its words */
#define JISZTERUK_RECORD_NEXT 17      /* the place of a record's next number */
#define JISZTERUK_RECORD_PAYLOAD 18   /* the place of the first of a record's two payload words */
#define JISZTERUK_MAX_RECORDS 4096    /* the most records in use, and the most labels of a stream */
#define JISZTERUK_NODE_BYTES 4        /* the bytes of a node of a twig */
#define JISZTERUK_MAX_NODES 8         /* the most nodes of a twig */
#define JISZTERUK_ANSWER_WORDS 2      /* the words of an answer: a place and a value */
#define JISZTERUK_ANSWER_PLACE 0      /* where the refusal's place stands in an answer */
#define JISZTERUK_ANSWER_VALUE 1      /* where the call's value stands in an answer */

/* Bytes with a meaning of their own. */
#define JISZTERUK_FILLER 255        /* fills up the rows of a table; no name */
#define JISZTERUK_ANY_NAME 255      /* asks for any name, in a twig and in cutting */
#define JISZTERUK_NO_PARENT 255     /* the parent of a twig's node 0 */
#define JISZTERUK_EDGE_CHILD 0      /* exactly one level; on node 0: the root element */
#define JISZTERUK_EDGE_DESCENDANT 1 /* one level or more; on node 0: any element */

/* A call that is taken. */
#define JISZTERUK_TAKEN 0

/* The refusals. The author of the name table: */
#define JISZTERUK_FILE_LENGTH 1   /* odd length or over 8,192 bytes */
#define JISZTERUK_NAME_TOO_HIGH 2 /* a name above 63 */
#define JISZTERUK_PAIR_AGAIN 3    /* a pair that stood before */
/* The author of a twig: */
#define JISZTERUK_TWIG_LENGTH 4 /* length 0, over 32 or not a multiple of 4 */
#define JISZTERUK_TWIG_PARENT 5 /* node 0's parent not 255, another's not below its own number */
#define JISZTERUK_TWIG_EDGE 6   /* an edge neither child nor descendant */
#define JISZTERUK_NAME_ASKED 7  /* a name neither 0 to 63 nor 255, also for cutting (at 0) */
#define JISZTERUK_TWIG_END 8    /* a fourth byte not 0 */
/* The tester: */
#define JISZTERUK_NO_RECORD 9    /* no record in use has this label */
#define JISZTERUK_NOT_IN_CLUE 10 /* the name isn't in the parent's clue */
#define JISZTERUK_TOO_DEEP 11    /* the parent is at depth 15 */
#define JISZTERUK_NO_NUMBER 12   /* no number up to 65,534 is left */
#define JISZTERUK_NO_SPACE 13    /* no free record in the slice, or 4,096 in use */
#define JISZTERUK_ROOT_STAYS 14  /* the root can't be deleted */
/* Whoever passes a label: */
#define JISZTERUK_NOT_LABEL 15  /* not 16 words, depth over 15, a used component 65,535, an unused one not 0 */
#define JISZTERUK_EMPTY_CLUE 16 /* a component below a name with an empty clue */
/* The host program: */
#define JISZTERUK_SHORT_OUTPUT 17 /* output shorter than the whole result */
#define JISZTERUK_STORE_SIZE 18   /* store length not a multiple of 20, or 0, or (but for a new store) a count of 0,
                                     over the slice or over 4,096 */
#define JISZTERUK_BAD_LAYOUT 19   /* a record not laid out as one.
                                     On the phone: a torn file, take the copy before */
#define JISZTERUK_BAD_STREAM 20   /* streams: counts, the buffer's length, or a label that 15, 16, name or order
                                     rules out */
#define JISZTERUK_BAD_ROOT 21     /* root name above 63 */
#define JISZTERUK_BAD_TABLE 22    /* not 4,096 bytes, an entry 64 to 254, a number after a 255, or a name that
                                     stands twice in one row */
#define JISZTERUK_BAD_ORDER 23    /* a record out of label order, or without its parent before it.
                                     On the phone: a torn file, take the copy before */
#define JISZTERUK_BAD_NAME 24     /* a record's name not the decoded one, or record 0's above 63.
                                     On the phone: a wrong name table, look for the other names.tab; at record 0 a
                                     torn file, take the copy before */
#define JISZTERUK_BAD_NEXT 25     /* a record's last component not below its parent's next number, or its own next
                                     number not 0 where nothing may stand below it.
                                     On the phone: a short name table or a torn file, look for the other names.tab,
                                     then take the copy before */

/* Kinship: what the first label is to the second. */
#define JISZTERUK_KIN_SAME 0
#define JISZTERUK_KIN_PARENT 1
#define JISZTERUK_KIN_HIGHER_ANCESTOR 2
#define JISZTERUK_KIN_CHILD 3
#define JISZTERUK_KIN_DEEPER_DESCENDANT 4
#define JISZTERUK_KIN_UNRELATED 5

/* ---- Names and what may stand below them */

/* Reads a child-name file, pairs of bytes, parent then child: `table`, an output, gets its table. The children of
 * a name, in file order, are its clue. An empty file is good: every clue is empty. A file refused by 1 to 3 gives
 * a table of empty clues, sixty-four rows of 255.
 * Refusals: 22 where `table` is not 4,096 bytes, and then it is untouched; 1; then pair by pair 2, 3. */
uint8_t jiszteruk_read_names(const uint8_t *file, size_t file_len,
                             uint8_t *table, size_t table_len,
                             size_t *answer, size_t answer_len);

/* Writes the bench's own table: 0 garage, 1 vehicle, 2 test, 3 axle, 4 curve, 5 note, with the pairs
 * 0 1, 1 2, 1 5, 2 5, 2 3, 2 4, 3 4.
 * Refusals: 22 where `table` is not 4,096 bytes, and then it is untouched. */
uint8_t jiszteruk_bench_table(uint8_t *table, size_t table_len);

/* Checks a table.
 * Refusals: 22. */
uint8_t jiszteruk_check_table(const uint8_t *table, size_t table_len,
                              size_t *answer, size_t answer_len);

/* ---- Labels alone */

/* Decodes a label: `names` gets the depth + 1 names from the root, the rest of sixteen places 0. Each component
 * mod the clue's length picks from the clue of the name reached.
 * Refusals: 22, 21, 15, 16. A refusal gives no names: sixteen zeros. */
uint8_t jiszteruk_decode(const uint8_t *table, size_t table_len, uint8_t root,
                         const uint16_t *label, size_t label_len,
                         uint8_t *names, size_t names_len,
                         size_t *answer, size_t answer_len);

/* Kinship of a first label to a second: the value is one of the numbers JISZTERUK_KIN_... Prefixes decide it.
 * Refusals: 15, first label, then second. */
uint8_t jiszteruk_kinship(const uint16_t *first, size_t first_len,
                          const uint16_t *second, size_t second_len,
                          size_t *answer, size_t answer_len);

/* Whether the first label follows the second: the value is 1 when it is greater in label order (components
 * compared in turn, a prefix first), else 0.
 * Refusals: 15, first label, then second. */
uint8_t jiszteruk_follows(const uint16_t *first, size_t first_len,
                          const uint16_t *second, size_t second_len,
                          size_t *answer, size_t answer_len);

/* ---- The store */

/* A new store: writes record 0 from a name and two payload words, with the next number 0. The rest of the slice
 * is untouched. The value is the count 1, in a refusal 0.
 * Refusals: 18 (the length alone), 21. */
uint8_t jiszteruk_new_store(uint16_t *store, size_t store_len, uint8_t root,
                            uint16_t payload0, uint16_t payload1,
                            size_t *answer, size_t answer_len);

/* Checks a store: the first record that breaks a rule, read from the front, is refused by the first rule that it
 * breaks. The rules, in this order:
 *   19  depth is at most 15, 0 for record 0 only, used components at most 65,534, unused ones 0;
 *   23  its label is after the previous record's; its parent stands earlier;
 *   24  its name is the decoded one (record 0: any of 0 to 63);
 *   25  its last component is below its parent's next number; its own next number is 0 if its clue is empty or its
 *       depth is 15.
 * A store refused 19 or 23, or 24 at record 0, is refused under every name table: its file is torn. One that is whole
 * under some table is refused under another by 24 or 25 alone.
 * Refusals: 22; 18; then record by record 19, 23, 24, 25. */
uint8_t jiszteruk_check_store(const uint8_t *table, size_t table_len,
                              const uint16_t *store, size_t store_len, size_t count,
                              size_t *answer, size_t answer_len);

/* Enters an element of a name below the parent with a label. The child of place k in a clue of n names gets the
 * least number that is at least the parent's next number and leaves k when divided by n; the parent's next
 * number becomes that number plus 1. The new record, with the next number 0 and the payload, stands after its
 * parent's whole subtree; later ones move up. Words past the last record are untouched.
 * `label` gets the new label; the value is the new count. A refusal gives sixteen zeros, and its value is the
 * count as given.
 * Refusals: 22; 18; record by record 19, 23, 24, 25; 15, 9, 10, 11, 12, 13. */
uint8_t jiszteruk_enter(const uint8_t *table, size_t table_len,
                        uint16_t *store, size_t store_len, size_t count,
                        const uint16_t *parent, size_t parent_len, uint8_t name,
                        uint16_t payload0, uint16_t payload1,
                        uint16_t *label, size_t label_len,
                        size_t *answer, size_t answer_len);

/* Deletes the element with a label and all below it: closes the gap and fills the freed records with zeros;
 * words past these are untouched. Freed room is used again, freed numbers are not. The value is the new count,
 * in a refusal the count as given.
 * Refusals: 22; 18; record by record 19, 23, 24, 25; 15, 14, 9. */
uint8_t jiszteruk_delete(const uint8_t *table, size_t table_len,
                         uint16_t *store, size_t store_len, size_t count,
                         const uint16_t *label, size_t label_len,
                         size_t *answer, size_t answer_len);

/* ---- Twigs and matches */

/* Cuts the stream of a name, or of all names for 255: its labels in label order, 16 words each, written to `out`
 * from its start. The value is how many labels the stream has.
 * Refusals: 22; 18; record by record 19, 23, 24, 25; 7, 17. */
uint8_t jiszteruk_cut(const uint8_t *table, size_t table_len,
                      const uint16_t *store, size_t store_len, size_t count, uint8_t name,
                      uint16_t *out, size_t out_len,
                      size_t *answer, size_t answer_len);

/* Checks a twig.
 * Refusals: 4, then node by node 5, 6, 7, 8. */
uint8_t jiszteruk_check_twig(const uint8_t *twig, size_t twig_len,
                             size_t *answer, size_t answer_len);

/* Matches a twig with one stream for each leaf. `counts` has the labels of each leaf's stream, leaves in node
 * order; in `buffer` each stream begins where the one before ended. A stream's labels are strictly ascending and
 * all decode to the leaf's name (any, for 255).
 * A match gives each node of the twig a label: a leaf one of its stream, an inner node any label whose decoded name
 * fits, so that every edge holds. Two nodes may share an element. For streams cut from a store these are the
 * embeddings into its tree. `out` gets the matches, one label of 16 words for each node, ordered by node 0's label,
 * then node 1's, and so on. The value is the number of matches.
 * Refusals: 22; 21; 4, then node by node 5 to 8; 20, at place 0 for counts not one per leaf, one over 4,096, or a
 * buffer not 16 times their sum long, and only then at the first label, counted over the whole buffer, that 15, 16,
 * name or order rules out; 17. */
uint8_t jiszteruk_match_twig(const uint8_t *table, size_t table_len, uint8_t root,
                             const uint8_t *twig, size_t twig_len,
                             const size_t *counts, size_t counts_len,
                             const uint16_t *buffer, size_t buffer_len,
                             uint16_t *out, size_t out_len,
                             size_t *answer, size_t answer_len);

#ifdef __cplusplus
}
#endif

#endif
