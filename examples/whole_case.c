/* Document 01's whole case through the C border: Must ConstantScore(leaf 0), Should Boost 2 of ConstantScore(leaf 1). */
#include "lot_search.h"
#include <stdio.h>

static const uint32_t ONE = 0x3f800000u, TWO = 0x40000000u; /* 1 and 2 as f32 bits */

enum { FIELDS = 1, LEAVES = 2, POSTINGS = 4, RECORDS = 6, K = 2, QUERY_WORDS = LOT_QUERY_WORDS * RECORDS };

int main(void) {
    const uint32_t fields[LOT_FIELD_WORDS * FIELDS] = {ONE, 0, 0};
    const uint32_t leaves[LOT_LEAF_WORDS * LEAVES] = {0, 0, 3, ONE, 0, 3, 1, ONE};
    const uint32_t postings[LOT_POSTING_WORDS * POSTINGS] = {0, 1, 0, 2, 1, 0, 3, 1, 0, 2, 1, 0};
    const uint32_t query[QUERY_WORDS] = {
        LOT_BOOLEAN, LOT_NO_OCCURRENCE, 2, 0, 0, 0, 0, 0, 0,
        LOT_CONSTANT_SCORE, LOT_MUST, 1, 0, 0, 0, 0, 0, 0,
        LOT_TERM, LOT_NO_OCCURRENCE, 0, 0, 0, 0, 0, 0, 0, /* leaf 0 */
        LOT_BOOST, LOT_SHOULD, 1, TWO, 0, 0, 0, 0, 0,
        LOT_CONSTANT_SCORE, LOT_NO_OCCURRENCE, 1, 0, 0, 0, 0, 0, 0,
        LOT_TERM, LOT_NO_OCCURRENCE, 0, 1, 0, 0, 0, 0, 0}; /* leaf 1 */
    uint32_t states[LOT_STATES(QUERY_WORDS)] = {0};
    int64_t hits[LOT_HITS(K)] = {0};
    uint64_t answer[LOT_SEARCH_ANSWER] = {0};
    /* no positions, norms, live words, columns or values, and so no phrase or range buffers */
    uint32_t refusal = lot_search(4, fields, LOT_FIELD_WORDS * FIELDS, leaves, LOT_LEAF_WORDS * LEAVES, postings,
        LOT_POSTING_WORDS * POSTINGS, NULL, 0, NULL, 0, NULL, 0, NULL, 0, NULL, 0, query, QUERY_WORDS, K, 10, states,
        LOT_STATES(QUERY_WORDS), NULL, 0, NULL, 0, NULL, 0, hits, LOT_HITS(K), answer, LOT_SEARCH_ANSWER);
    if (refusal != 0) return printf("refused %u: %s\n", (unsigned)refusal, lot_refusal_text(refusal)), 1;
    printf("count %llu%s\n", (unsigned long long)answer[1], answer[2] ? "+" : "");
    for (uint64_t i = 0; i < answer[0]; i++)
        printf("%u %08x\n", (unsigned)lot_hit_document(hits[i]), (unsigned)lot_hit_score_bits(hits[i]));
    return 0;
}
