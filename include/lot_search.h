/* Ranked lot search: the proved entries Search, Page and Pick, and the writer of an index made from tokens.
 *
 * Link crates/lot_search/out/liblot_search.a (rt lib, in crates/lot_search), for x86-64 Linux. Nothing is kept between
 * calls and no memory is allocated: calls that share no slice that is written may run at the same time.
 * examples/buyers_order.c is a whole order, from the words of the lots to the sheet.
 *
 * Every slice is a pointer and a number of elements. What is proved is proved of calls that keep to this:
 * - The pointer is aligned for its elements, and all of them have been written before, work and output buffers too, with
 *   whatever values. Where the number is 0 nothing is read or written through the pointer, and it may be null.
 * - A slice that is written (those without const) overlaps no other slice. Those that are only read may overlap.
 * - Nothing else reads what is written, or changes what is lent, while the call runs.
 *
 * Each entry returns 0, or the lowest number of docs/REFUSALS.md whose condition holds for what is lent
 * (lot_refusal_text says it in words); a slice `answer` that is too short is a buffer too short, 12, or an output too short,
 * 16. A refused call leaves every buffer as it was, `answer` too. */
#ifndef LOT_SEARCH_H
#define LOT_SEARCH_H

#include <stddef.h>
#include <stdint.h>

#ifdef __cplusplus
extern "C" {
#endif

/* ---- Limits; averages, idf and boosts are lent as f32 bits with a clear sign bit ---- */

#define LOT_MAX_DOCUMENTS 1048576    /* max_doc is 0 to this */
#define LOT_MAX_FIELDS 16
#define LOT_MAX_LEAVES 512           /* in one call: an index may have more words, an order is lent those that it names */
#define LOT_MAX_COLUMNS 8
#define LOT_MAX_FREQUENCY 16777216   /* a frequency is 1 to this */
#define LOT_MAX_POSITION 2147483647  /* of a position, and of an offset in a phrase */
#define LOT_MIN_AVERAGE 1
#define LOT_MAX_AVERAGE 16777216
#define LOT_MAX_IDF 64               /* idf is 0 to this */
#define LOT_MAX_BOOST 65536          /* a boost is 0 to this, and so is the product of those on a path from the root */
#define LOT_MAX_RECORDS 256          /* a query has 1 to this many records */
#define LOT_MAX_DEPTH 16             /* the root's is 1 */
#define LOT_MAX_PHRASE_TERMS 32      /* a phrase has 1 to this many terms */
#define LOT_MAX_CLAUSES 64           /* a Boolean has 0 to this many clauses */
#define LOT_MAX_HITS 1024            /* k is 1 to this */
#define LOT_MAX_TOKENS 16777216      /* an index is made from 0 to this many tokens */

/* Above every document: Page's `next` where no live match is left. */
#define LOT_NO_MORE_DOCS 2147483647u
/* A threshold t that is never passed: the count is never marked. */
#define LOT_NO_MARK 4294967295u

/* ---- Records: words of 32 bits, no header; fields, leaves, postings and columns are numbered from 0 as they are lent ----
 *
 * field    average length as f32 bits; norms 0 or 1; positions 0 or 1
 * leaf     (a word of a field) its field; its first posting; how many postings; idf as f32 bits
 * posting  document; frequency; index of its first position, 0 in a field without positions. In a leaf's run the documents
 *          rise. A posting's positions are the next `frequency` position words, and do not fall.
 * token    (a word of a field at one place of a document) leaf; document; position. lot_write_index takes them
 * column   LOT_I64 or LOT_F64
 * value    1 where the document has one, else 0; low half; high half. max_doc values for each column, in document order
 * query    kind; occurrence; number of direct children; six values, unused ones 0. The root comes first, and after each
 *          record the whole trees of its children, in turn */
#define LOT_FIELD_WORDS 3
#define LOT_LEAF_WORDS 4
#define LOT_POSTING_WORDS 3
#define LOT_TOKEN_WORDS 3
#define LOT_COLUMN_WORDS 1
#define LOT_VALUE_WORDS 3
#define LOT_QUERY_WORDS 9

/* what a column holds */
#define LOT_I64 0u /* compared as numbers */
#define LOT_F64 1u /* compared in IEEE 754's totalOrder; a value that is NaN is in no range */

/* kind: its values, and its children */
#define LOT_TERM 1u           /* leaf; no children */
#define LOT_PHRASE 2u         /* field; 1 to 32 PhraseTerms with leaves of that field, which has positions */
#define LOT_BOOLEAN 3u        /* how many Should clauses must match, mostly 0; 0 to 64 clauses */
#define LOT_RANGE 4u          /* column, LOT_RANGE_KINDS, lower end's low and high half, upper end's; no children */
#define LOT_MATCH_ALL 5u      /* no values, no children */
#define LOT_CONSTANT_SCORE 6u /* no values; one child, whose documents all score the boost */
#define LOT_BOOST 7u          /* f32 bits; one child */
#define LOT_MATCH_NONE 8u     /* no values, no children */
#define LOT_PHRASE_TERM 9u    /* leaf, offset (0, 1, 2 .. for words one after the other); no children; only below a Phrase */

/* occurrence of a Boolean's clause */
#define LOT_MUST 1u     /* required, and scores */
#define LOT_SHOULD 2u   /* optional, and scores; without Must and Filter at least one is required */
#define LOT_MUST_NOT 3u /* prohibited */
#define LOT_FILTER 4u   /* required, and scores nothing */
/* and of every other record: the root, a Phrase's terms, the child of a ConstantScore or Boost */
#define LOT_NO_OCCURRENCE 0u

/* the ends of a range: each is one of three, and a Range's second value is the lower's + 3 * the upper's. The halves of an
 * unbounded end are 0. An end that is NaN lists no document. */
#define LOT_UNBOUNDED 0u
#define LOT_INCLUDED 1u
#define LOT_EXCLUDED 2u
#define LOT_RANGE_KINDS(lower, upper) ((lower) + 3u * (upper))

/* ---- What a caller who builds the index works out ----
 *
 * lot_write_index works out norm bytes, postings and positions from a list of tokens. What is left to the caller is the idf of
 * each leaf and the average length of each field.
 * Norm byte of a document in a field: SmallFloat's intToByte4 of n, the field's tokens in that document.
 *   n below 24:   n
 *   m = n - 24 below 8:   24 + m
 *   else, with s = (binary digits of m) - 4:   24 + 8 * (s + 1) + (m >> s) % 8
 *   So 40 gives 40, 41 gives 40, 42 gives 41 and 100 gives 57.
 * idf of a word: ln(1 + (count - df + 0.5) / (df + 0.5)) in double, narrowed to float.
 *   count: documents that have the field, with one token or more. df: those of them that hold the word.
 * Average length of a field: its tokens in all documents / count, in double, narrowed to float.
 *   Count only documents that have the field: an average below 1 is refused 2. Lend 1 where no document has it.
 * Documents that are no longer live are counted too, as in Lucene, until the index is built anew. */

/* ---- What to lend ----
 *
 * Each call checks all that it is lent, so lend the fields, columns and leaf records that the order names, and no others.
 * Postings and positions can be lent whole: only the runs of lent leaves are read, so nothing is copied or numbered anew but
 * leaf records of four words. Lay the positions of a word's postings one after the other: they are then checked in one pass.
 * Measured for a buyer's order on 9,000 lots (docs/BENCHMARK.md), with the same answers:
 *   all 512 leaf records lent        900,657 words   267 us
 *   its own leaf records alone       898,628 words    74 us
 *   their runs copied as well         92,528 words    79 us, and 81 us for the copies
 *
 * Traps:
 * - A Range (or MatchAll) scores the boost that reaches it, 1 without a Boost: as Must it adds that to every score, as
 *   Filter it adds nothing.
 * - The count is exact, marked or not. It is marked "at least" where it is above t and at least k: never with t LOT_NO_MARK.
 * - The phrase buffers may be of any upper bound of the frequency, such as the tokens of the longest text: no postings need
 *   to be looked through for it.
 * - The program `hits` is for small cases: it reads files of 64 KiB at most and is no program for a whole sale. */

/* ---- Sizes of buffers, in elements ---- */

#define LOT_QUERY_RECORDS(query_words) ((size_t)(query_words) / LOT_QUERY_WORDS)
/* node states: for each query record */
#define LOT_STATE_WORDS 32
#define LOT_STATES(query_words) (LOT_STATE_WORDS * LOT_QUERY_RECORDS(query_words))
/* each of the two phrase buffers: the largest frequency in the run of a leaf that a PhraseTerm of the query names, or more */
#define LOT_STARTS(largest_phrase_frequency) ((size_t)(largest_phrase_frequency))
/* range buffer: 0 without Range records, else max_doc for each of them and max_doc more */
#define LOT_RANGES(max_doc, range_records) ((range_records) == 0 ? (size_t)0 : (size_t)(max_doc) * ((size_t)(range_records) + 1))
/* hits: k places, however few match */
#define LOT_HITS(k) ((size_t)(k))
/* live words: none (all are live), or these. To withdraw a lot between two calls clear its bit, after writing these words with
 * every bit set where none were lent: the lot goes, the next one comes up, and no other document or score changes */
#define LOT_LIVE_WORDS(max_doc) (((size_t)(max_doc) + 63) / 64)
/* numbers that an entry writes to `answer` */
#define LOT_SEARCH_ANSWER 3
#define LOT_PAGE_ANSWER 2
#define LOT_PICK_ANSWER 3
#define LOT_WRITE_ANSWER 2
/* outputs of lot_write_index that are always long enough: a posting and a position for each token */
#define LOT_WRITE_POSTINGS(tokens_words) ((size_t)(tokens_words) / LOT_TOKEN_WORDS * LOT_POSTING_WORDS)
#define LOT_WRITE_POSITIONS(tokens_words) ((size_t)(tokens_words) / LOT_TOKEN_WORDS)
#define LOT_WRITE_NORMS(max_doc, fields_with_norms) ((size_t)(max_doc) * (size_t)(fields_with_norms))
/* words written for each leaf: first posting, number of postings */
#define LOT_RUN_WORDS 2
#define LOT_WRITE_RUNS(leaves) ((size_t)(leaves) * LOT_RUN_WORDS)

/* ---- Refusals, in the words of docs/REFUSALS.md: whose fault it is, and what to do ---- */

static inline const char *lot_refusal_text(uint32_t number) {
    switch (number) {
    case 1: return "The loader lent more than 1,048,576 documents: split the index.";
    case 2: return "The loader lent a wrong field: check their number, the average (1 to 16,777,216) and the flags (0 or 1).";
    case 3: return "The loader lent norms or live words of a wrong length: check both against max_doc.";
    case 4: return "The loader lent a wrong leaf: check their number, its field, its run of postings and its idf (0 to 64).";
    case 5: return "The loader lent a wrong posting: check documents, frequencies and positions in the run of each leaf.";
    case 6: return "The loader lent a wrong column: check their number, the number of values and the flags (0 or 1).";
    case 7: return "The author of the query wrote records that are no tree: check kinds, occurrences, numbers of children and limits.";
    case 8: return "The author of the query wrote a wrong value: check what each record names, and that unused values are 0.";
    case 9: return "The author of the query wrote boosts whose product on a path is above 65,536: lower them.";
    case 10: return "The author of the query asked for a phrase in a field without positions: ask in another, or index its positions.";
    case 11: return "The caller asked for k hits outside 1 to 1,024: choose another k.";
    case 12: return "The caller lent a buffer too short, or page outputs of unequal length: size them by the macros of lot_search.h.";
    case 13: return "The caller gave a target above max_doc (Place: no such document or phrase): paging ends at LOT_NO_MORE_DOCS.";
    case 14: return "The caller lent wrong lists to Pick: check their lengths, that documents rise, and that scores are not negative.";
    case 15: return "The loader lent wrong tokens: check their number, their order, what each names, and the field of each leaf.";
    case 16: return "The loader lent an output too short for the index: size them by the macros of lot_search.h.";
    default: return number == 0 ? "Not refused." : "Not a number of this library.";
    }
}

/* ---- A hit is one signed 64-bit code: the larger code ranks first ---- */

static inline uint32_t lot_hit_document(int64_t hit) { return LOT_NO_MORE_DOCS - (uint32_t)((uint64_t)hit & 0xffffffffu); }
/* the score's bits as an IEEE 754 binary32 with a clear sign; finite, but for a plus infinity that was lent to Pick */
static inline uint32_t lot_hit_score_bits(int64_t hit) { return (uint32_t)((uint64_t)hit >> 32); }

/* Search: the best k of the live documents that the query takes, larger score first, lower document first among equals.
 * max_doc         the number of documents
 * fields, leaves, postings, columns, values, query   records, see above
 * positions       position words
 * norms           max_doc bytes for each field with norms, in field order
 * live            no words (all are live), or LOT_LIVE_WORDS: document d is bit d % 64 of word d / 64, 1 where it is live
 * k, t            how many hits; the threshold above which the count is marked
 * states, starts, other_starts, ranges   work buffers, see the sizes above; they may hold anything, before and after
 * hits            at least k places: the hits, best first; the places behind them stay as they were
 * answer          hits held, count, and 1 where the count is marked "at least", else 0
 * Refuses 1 to 12. */
uint32_t lot_search(
    uint32_t max_doc,
    const uint32_t *fields, size_t fields_words,
    const uint32_t *leaves, size_t leaves_words,
    const uint32_t *postings, size_t postings_words,
    const uint32_t *positions, size_t positions_words,
    const uint8_t *norms, size_t norms_bytes,
    const uint64_t *live, size_t live_words,
    const uint32_t *columns, size_t columns_words,
    const uint32_t *values, size_t values_words,
    const uint32_t *query, size_t query_words,
    uint32_t k, uint32_t t,
    uint32_t *states, size_t states_words,
    int32_t *starts, size_t starts_places,
    int32_t *other_starts, size_t other_starts_places,
    uint32_t *ranges, size_t ranges_words,
    int64_t *hits, size_t hits_places,
    uint64_t *answer, size_t answer_places);

/* Page: the first m live documents at or after `target` that the query takes, ascending, with their scores.
 * target              0 to max_doc: 0 for the first page, then the `next` of the page before
 * documents, scores   two outputs of equal length m: the documents, and their scores as f32 bits
 * answer              how many are given, and the next live match, or LOT_NO_MORE_DOCS, which is no target
 * The others as for Search. Refuses 1 to 10, 12 and 13. */
uint32_t lot_page(
    uint32_t max_doc,
    const uint32_t *fields, size_t fields_words,
    const uint32_t *leaves, size_t leaves_words,
    const uint32_t *postings, size_t postings_words,
    const uint32_t *positions, size_t positions_words,
    const uint8_t *norms, size_t norms_bytes,
    const uint64_t *live, size_t live_words,
    const uint32_t *columns, size_t columns_words,
    const uint32_t *values, size_t values_words,
    const uint32_t *query, size_t query_words,
    uint32_t target,
    uint32_t *states, size_t states_words,
    int32_t *starts, size_t starts_places,
    int32_t *other_starts, size_t other_starts_places,
    uint32_t *ranges, size_t ranges_words,
    uint32_t *documents, size_t documents_places,
    uint32_t *scores, size_t scores_places,
    uint64_t *answer, size_t answer_places);

/* Pick: the best k of lent documents and scores.
 * documents   each above the one before, at most 2147483646
 * scores      f32 bits, as many: no NaN, not negative, not minus zero
 * The others as for Search. Refuses 11, 12 and 14. */
uint32_t lot_pick(
    const uint32_t *documents, size_t documents_places,
    const uint32_t *scores, size_t scores_places,
    uint32_t k, uint32_t t,
    int64_t *hits, size_t hits_places,
    uint64_t *answer, size_t answer_places);

/* Makes an index from tokens: writes norm bytes, postings, positions and runs. Reading them back gives the tokens.
 * max_doc              the number of documents
 * fields               as for Search. The averages are checked, not used: lend 1 (0x3f800000) where they are not known yet
 * tokens               of LOT_TOKEN_WORDS, ascending by leaf, then document, then position; repeats are allowed, and count.
 *                      In a field without positions a position is checked and then dropped: lend 0
 * leaf_fields          the field of each leaf, one word each; a leaf without tokens gets an empty run
 * norms                max_doc bytes for each field with norms, in field order
 * postings, positions  as Search takes them, in the tokens' order
 * runs                 LOT_RUN_WORDS for each leaf: the second and third word of its leaf record
 * answer               how many postings, and how many position words, were written
 * What lies beyond the written part of an output stays as it was: lend Search LOT_POSTING_WORDS * answer[0] words of
 * postings, answer[1] of positions, and the norms cut to LOT_WRITE_NORMS.
 * A norm counts the tokens that are given. So give every token of a field: those of words that get no leaf of their own go to
 * one leaf more, which no order names.
 * Refuses 1, 2, 15 and 16. */
uint32_t lot_write_index(
    uint32_t max_doc,
    const uint32_t *fields, size_t fields_words,
    const uint32_t *tokens, size_t tokens_words,
    const uint32_t *leaf_fields, size_t leaf_fields_words,
    uint8_t *norms, size_t norms_bytes,
    uint32_t *postings, size_t postings_words,
    uint32_t *positions, size_t positions_words,
    uint32_t *runs, size_t runs_words,
    uint64_t *answer, size_t answer_places);

#ifdef __cplusplus
}
#endif

#endif
