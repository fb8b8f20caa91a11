/* A buyer's order, from the words of the lots to his sheet:
 *     merino AND "free of stain" AND 17 to 18.5 micron AND NOT "dark fibre"
 * Then the same list page by page, and the best lots of two orders together.
 *
 * cc -std=c11 -Iinclude examples/buyers_order.c crates/lot_search/out/liblot_search.a -lm -o buyers_order && ./buyers_order */
#include "lot_search.h"
#include <math.h>
#include <stdio.h>
#include <string.h>

/* ---- The catalogue: a lot's text, its micron (0 where it was not measured), and whether it is still for sale ---- */

struct lot {
    const char *text;
    double micron;
    int for_sale;
};

static const struct lot LOTS[] = {
    {"merino fleece good length free of stain", 17.4, 1},         /* 0: taken */
    {"merino pieces some stain", 17.9, 1},                        /* 1: no "free of stain" */
    {"merino fleece free of stain belly free of stain", 18.0, 1}, /* 2: taken, has the phrase twice */
    {"merino fleece free of stain some dark fibre", 17.6, 1},     /* 3: has "dark fibre" */
    {"crossbred fleece free of stain", 18.2, 1},                  /* 4: no "merino" */
    {"merino lambs free of stain", 18.5, 1},                      /* 5: taken, at the upper end */
    {"merino fleece free of stain", 18.6, 1},                     /* 6: too coarse */
    {"merino fleece free of stain", 17.2, 0},                     /* 7: sold */
    {"merino pieces free of stain dark soft fibre", 17.0, 1},     /* 8: taken, at the lower end; "dark fibre" not together */
    {"merino fleece free of burr some stain", 17.5, 1},           /* 9: "free of stain" not together */
    {"merino fleece free of stain", 0, 1},                        /* 10: not measured */
    {"merino fleece good length free of stain", 17.4, 1},         /* 11: taken, behind lot 0 with the same score */
};

enum { MAX_DOC = sizeof LOTS / sizeof LOTS[0], LONGEST_TEXT = 16, BEST = 3, PAGE = 2 };
enum { MAX_TOKEN_WORDS = LOT_TOKEN_WORDS * LONGEST_TEXT * MAX_DOC };

/* The words that the orders name: each is a leaf. All other words go to one leaf more, so that the norms count them. */
enum { MERINO, FREE, OF, STAIN, DARK, FIBRE, LAMBS, PIECES, OTHERS, LEAVES };
static const char *const WORDS[OTHERS] = {"merino", "free", "of", "stain", "dark", "fibre", "lambs", "pieces"};

/* One field, the text, and one column, the micron. */
enum { TEXT = 0, MICRON = 0 };

/* ---- The index ---- */

static struct {
    uint32_t field[LOT_FIELD_WORDS];
    uint32_t leaves[LOT_LEAF_WORDS * LEAVES];
    uint32_t postings[LOT_WRITE_POSTINGS(MAX_TOKEN_WORDS)];
    uint32_t positions[LOT_WRITE_POSITIONS(MAX_TOKEN_WORDS)];
    uint64_t held[LOT_WRITE_ANSWER]; /* postings, positions */
    uint8_t norms[LOT_WRITE_NORMS(MAX_DOC, 1)];
    uint64_t live[LOT_LIVE_WORDS(MAX_DOC)];
    uint32_t columns[1];
    uint32_t values[LOT_VALUE_WORDS * MAX_DOC];
} ix;

static uint32_t f32_bits(float x) {
    uint32_t bits;
    memcpy(&bits, &x, sizeof bits);
    return bits;
}

static float f32_of(uint32_t bits) {
    float x;
    memcpy(&x, &bits, sizeof x);
    return x;
}

/* an f64's low and high half, as values and range ends have them */
static void put_f64(uint32_t *halves, double x) {
    uint64_t bits;
    memcpy(&bits, &x, sizeof bits);
    halves[0] = (uint32_t)bits;
    halves[1] = (uint32_t)(bits >> 32);
}

static float idf(uint32_t df, uint32_t count) { return (float)log(1 + (count - df + 0.5) / (df + 0.5)); }

/* The leaf of a word of a text: the word ends at a space or with the text. */
static uint32_t leaf_of(const char *word, size_t length) {
    uint32_t leaf = 0;
    while (leaf < OTHERS && !(strlen(WORDS[leaf]) == length && memcmp(WORDS[leaf], word, length) == 0)) leaf++;
    return leaf;
}

/* The tokens of a leaf, lots ascending, positions ascending in each; gives the number of their words. */
static size_t put_tokens(uint32_t leaf, uint32_t *tokens) {
    size_t held = 0;
    for (uint32_t lot = 0; lot < MAX_DOC; lot++) {
        const char *text = LOTS[lot].text;
        for (uint32_t position = 0; *text; position++) {
            size_t length = strcspn(text, " ");
            if (leaf_of(text, length) == leaf) {
                tokens[held++] = leaf;
                tokens[held++] = lot;
                tokens[held++] = position;
            }
            text += length + (text[length] == ' ');
        }
    }
    return held;
}

/* Norms, postings, positions and leaf records from the texts of the lots; gives the refusal's number. */
static uint32_t write_texts(void) {
    static const uint32_t leaf_fields[LEAVES] = {TEXT}; /* and so are the others: TEXT is 0 */
    static uint32_t tokens[MAX_TOKEN_WORDS], runs[LOT_WRITE_RUNS(LEAVES)];
    size_t held = 0;
    for (uint32_t leaf = 0; leaf < LEAVES; leaf++) held += put_tokens(leaf, tokens + held);
    ix.field[0] = f32_bits((float)((double)(held / LOT_TOKEN_WORDS) / MAX_DOC)); /* every lot has a text */
    ix.field[1] = 1; /* norms */
    ix.field[2] = 1; /* positions */
    uint32_t refusal = lot_write_index(MAX_DOC, ix.field, LOT_FIELD_WORDS, tokens, held, leaf_fields, LEAVES, ix.norms,
        sizeof ix.norms, ix.postings, LOT_WRITE_POSTINGS(held), ix.positions, LOT_WRITE_POSITIONS(held), runs,
        LOT_WRITE_RUNS(LEAVES), ix.held, LOT_WRITE_ANSWER);
    for (uint32_t leaf = 0; leaf < LEAVES; leaf++) {
        uint32_t *record = ix.leaves + LOT_LEAF_WORDS * leaf;
        record[0] = TEXT;
        record[1] = runs[LOT_RUN_WORDS * leaf];
        record[2] = runs[LOT_RUN_WORDS * leaf + 1];
        record[3] = f32_bits(idf(record[2], MAX_DOC));
    }
    return refusal;
}

/* A lot's live bit and micron. */
static void add_lot(uint32_t lot) {
    uint32_t *value = ix.values + LOT_VALUE_WORDS * lot;
    if (LOTS[lot].for_sale) ix.live[lot / 64] |= (uint64_t)1 << lot % 64;
    value[0] = LOTS[lot].micron > 0;
    put_f64(value + 1, LOTS[lot].micron);
}

static uint32_t build_index(void) {
    ix.columns[MICRON] = LOT_F64;
    for (uint32_t lot = 0; lot < MAX_DOC; lot++) add_lot(lot);
    return write_texts();
}

/* ---- The orders ---- */

static uint32_t order[] = {
    LOT_BOOLEAN, LOT_NO_OCCURRENCE, 4, 0, 0, 0, 0, 0, 0,
    LOT_TERM, LOT_MUST, 0, MERINO, 0, 0, 0, 0, 0,
    LOT_PHRASE, LOT_MUST, 3, TEXT, 0, 0, 0, 0, 0,
    LOT_PHRASE_TERM, LOT_NO_OCCURRENCE, 0, FREE, 0, 0, 0, 0, 0,
    LOT_PHRASE_TERM, LOT_NO_OCCURRENCE, 0, OF, 1, 0, 0, 0, 0,
    LOT_PHRASE_TERM, LOT_NO_OCCURRENCE, 0, STAIN, 2, 0, 0, 0, 0,
    /* as Filter: as Must it would add 1 to every score; its ends are put in below */
    LOT_RANGE, LOT_FILTER, 0, MICRON, LOT_RANGE_KINDS(LOT_INCLUDED, LOT_INCLUDED), 0, 0, 0, 0,
    LOT_PHRASE, LOT_MUST_NOT, 2, TEXT, 0, 0, 0, 0, 0,
    LOT_PHRASE_TERM, LOT_NO_OCCURRENCE, 0, DARK, 0, 0, 0, 0, 0,
    LOT_PHRASE_TERM, LOT_NO_OCCURRENCE, 0, FIBRE, 1, 0, 0, 0, 0,
};
enum { RANGE_RECORD = 6, ORDER_WORDS = sizeof order / sizeof order[0] };

static const uint32_t other_order[] = {
    LOT_BOOLEAN, LOT_NO_OCCURRENCE, 2, 0, 0, 0, 0, 0, 0,
    LOT_TERM, LOT_SHOULD, 0, LAMBS, 0, 0, 0, 0, 0,
    LOT_TERM, LOT_SHOULD, 0, PIECES, 0, 0, 0, 0, 0,
};
enum { OTHER_ORDER_WORDS = sizeof other_order / sizeof other_order[0] };

/* ---- The calls; the work buffers are large enough for both orders ---- */

static uint32_t states[LOT_STATES(ORDER_WORDS)], ranges[LOT_RANGES(MAX_DOC, 1)];
static int32_t starts[LOT_STARTS(LONGEST_TEXT)], other_starts[LOT_STARTS(LONGEST_TEXT)];
static int64_t hits[LOT_HITS(BEST)];

/* the index and the work buffers as the prototypes of Search and Page have them */
#define INDEX \
    MAX_DOC, ix.field, LOT_FIELD_WORDS, ix.leaves, LOT_LEAF_WORDS * LEAVES, ix.postings, \
    LOT_POSTING_WORDS * (size_t)ix.held[0], ix.positions, (size_t)ix.held[1], ix.norms, sizeof ix.norms, ix.live, \
    LOT_LIVE_WORDS(MAX_DOC), ix.columns, 1, ix.values, LOT_VALUE_WORDS * MAX_DOC
#define WORK \
    states, LOT_STATES(ORDER_WORDS), starts, LOT_STARTS(LONGEST_TEXT), other_starts, LOT_STARTS(LONGEST_TEXT), ranges, \
    LOT_RANGES(MAX_DOC, 1)

static int refused(uint32_t number) {
    if (number != 0) printf("refused %u: %s\n", (unsigned)number, lot_refusal_text(number));
    return number != 0;
}

static void print_lot(uint32_t lot, uint32_t score) {
    printf("  lot %2u  score %.4f (%08x)  %s\n", (unsigned)lot, f32_of(score), (unsigned)score, LOTS[lot].text);
}

static void print_hits(const uint64_t *answer) {
    printf("%u lots%s, the best %u:\n", (unsigned)answer[1], answer[2] ? " or more" : "", (unsigned)answer[0]);
    for (uint64_t i = 0; i < answer[0]; i++) print_lot(lot_hit_document(hits[i]), lot_hit_score_bits(hits[i]));
}

static int print_best(uint32_t k) {
    uint64_t answer[LOT_SEARCH_ANSWER] = {0};
    if (refused(lot_search(INDEX, order, ORDER_WORDS, k, LOT_NO_MARK, WORK, hits, LOT_HITS(BEST), answer, LOT_SEARCH_ANSWER)))
        return 0;
    print_hits(answer);
    return 1;
}

/* lots ascending with their scores */
struct list {
    uint32_t held, lots[MAX_DOC + PAGE], scores[MAX_DOC + PAGE];
};

static void print_page(const struct list *list, uint32_t given, uint32_t next) {
    for (uint32_t i = list->held; i < list->held + given; i++) print_lot(list->lots[i], list->scores[i]);
    if (next == LOT_NO_MORE_DOCS) printf("  no more\n");
    else printf("  next page from lot %u\n", (unsigned)next);
}

/* All lots of an order, page by page: each page begins where the one before says. */
static int list_pages(const uint32_t *query, size_t query_words, struct list *list) {
    uint32_t target = 0;
    while (target != LOT_NO_MORE_DOCS) {
        uint64_t answer[LOT_PAGE_ANSWER] = {0};
        if (refused(lot_page(INDEX, query, query_words, target, WORK, list->lots + list->held, PAGE,
                list->scores + list->held, PAGE, answer, LOT_PAGE_ANSWER)))
            return 0;
        target = (uint32_t)answer[1];
        print_page(list, (uint32_t)answer[0], target);
        list->held += (uint32_t)answer[0];
    }
    return 1;
}

/* Two lists as one, ascending; a lot of both keeps its larger score (scores are not negative, so their bits rank alike). */
static void merge(const struct list *a, const struct list *b, struct list *both) {
    for (uint32_t i = 0, j = 0; i < a->held || j < b->held; both->held++) {
        uint32_t lot_a = i < a->held ? a->lots[i] : LOT_NO_MORE_DOCS, lot_b = j < b->held ? b->lots[j] : LOT_NO_MORE_DOCS;
        uint32_t score_a = lot_a <= lot_b ? a->scores[i++] : 0, score_b = lot_b <= lot_a ? b->scores[j++] : 0;
        both->lots[both->held] = lot_a < lot_b ? lot_a : lot_b;
        both->scores[both->held] = score_a > score_b ? score_a : score_b;
    }
}

static int print_best_of(const struct list *list) {
    uint64_t answer[LOT_PICK_ANSWER] = {0};
    if (refused(lot_pick(list->lots, list->held, list->scores, list->held, BEST, LOT_NO_MARK, hits, LOT_HITS(BEST), answer,
            LOT_PICK_ANSWER)))
        return 0;
    print_hits(answer);
    return 1;
}

int main(void) {
    static struct list lots, other_lots, both;
    uint32_t *range = order + LOT_QUERY_WORDS * RANGE_RECORD;
    if (refused(build_index())) return 1;
    put_f64(range + 5, 17.0);
    put_f64(range + 7, 18.5);
    printf("merino AND \"free of stain\" AND 17 to 18.5 micron AND NOT \"dark fibre\": ");
    if (!print_best(BEST)) return 1;
    printf("The same by lot, two a page:\n");
    if (!list_pages(order, ORDER_WORDS, &lots)) return 1;
    printf("lambs OR pieces, two a page:\n");
    if (!list_pages(other_order, OTHER_ORDER_WORDS, &other_lots)) return 1;
    merge(&lots, &other_lots, &both);
    printf("Both orders together, each lot with its better score: ");
    if (!print_best_of(&both)) return 1;
    printf("No hits asked for: ");
    return print_best(0); /* refused 11 */
}
