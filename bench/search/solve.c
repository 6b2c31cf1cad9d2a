// The elimination method in C: rows as bit sets in eight words, the number of active columns of each row kept up to date,
// and the unused rows with just one of them in a bit set. It is the method of the library, with the same working memory,
// the same order of use, and the policy that names the lowest active column.
//
// A row that is added while columns are active holds just one of them, so that the rows which hold an active column never
// change. Plain, this looks for them in the rows; with KEEP_HOLDERS it keeps them for each column from loading on.
#include "system.h"
#include <string.h>

enum { WORDS = COLUMNS / 64, SETS = ROWS / 64 };

typedef struct {
    uint64_t (*words)[WORDS];
    Cell *sides;
    uint64_t active[WORDS], unused[SETS], ready[SETS];
    uint16_t counts[ROWS], columns[ROWS], pivots[COLUMNS];
    Told told;
#ifdef KEEP_HOLDERS
    uint64_t held[COLUMNS][SETS];
#endif
} Work;

static void add_words(uint64_t *to, const uint64_t *from) {
    for (int i = 0; i < WORDS; i++) to[i] ^= from[i];
}

static int has(const uint64_t *set, unsigned c) { return set[c / 64] >> (c % 64) & 1; }
static void put(uint64_t *set, unsigned c) { set[c / 64] |= (uint64_t)1 << (c % 64); }
static void leave(uint64_t *set, unsigned c) { set[c / 64] &= ~((uint64_t)1 << (c % 64)); }

// The lowest number in a set, or -1.
static int least(const uint64_t *set, int words) {
    for (int i = 0; i < words; i++)
        if (set[i]) return 64 * i + __builtin_ctzll(set[i]);
    return -1;
}

// Reads each row's missing columns and the sum of its received cells, in one walk along the records.
static void load(Work *w, const Record *records, size_t count, const uint8_t *received, const Cell *table) {
    const Record *k = records, *end = records + count;
    memset(w->ready, 0, sizeof w->ready);
#ifdef KEEP_HOLDERS
    memset(w->held, 0, sizeof w->held);
#endif
    for (unsigned r = 0; r < ROWS; r++) {
        uint64_t line[WORDS] = {0}, side[8] = {0};
        unsigned lost = 0;
        for (; k < end && k->row == r; k++) {
            if (received[k->column]) {
                add_words(side, table[k->column].words);
            } else {
                put(line, k->column);
#ifdef KEEP_HOLDERS
                put(w->held[k->column], r);
#endif
                lost++;
            }
        }
        memcpy(w->words[r], line, sizeof line);
        memcpy(w->sides[r].words, side, sizeof side);
        w->counts[r] = (uint16_t)lost;
        if (lost == 1) put(w->ready, r);
    }
    memset(w->unused, 255, sizeof w->unused);
    for (int i = 0; i < WORDS; i++) {
        uint64_t word = 0;
        for (int j = 0; j < 64; j++) word |= (uint64_t)!received[64 * i + j] << j;
        w->active[i] = word;
    }
    memset(&w->told, 0, sizeof w->told);
}

// The rows that hold column c.
static void holders(const Work *w, unsigned c, uint64_t *held) {
    for (int i = 0; i < SETS; i++) {
        uint64_t word = 0;
        for (int j = 0; j < 64; j++) word |= (w->words[64 * i + j][c / 64] >> (c % 64) & 1) << j;
        held[i] = word;
    }
}

// The same of an active column.
static void active_holders(const Work *w, unsigned c, uint64_t *held) {
#ifdef KEEP_HOLDERS
    memcpy(held, w->held[c], sizeof w->held[c]);
#else
    holders(w, c, held);
#endif
}

// Row r, used for column c, is added to every other row that holds it.
static void use(Work *w, const uint64_t *held, unsigned r, unsigned c) {
    uint64_t line[WORDS], side[8];
    memcpy(line, w->words[r], sizeof line);
    memcpy(side, w->sides[r].words, sizeof side);
    leave(w->unused, r);
    w->columns[r] = (uint16_t)c;
    for (int i = 0; i < SETS; i++)
        for (uint64_t left = held[i]; left; left &= left - 1) {
            unsigned q = 64 * i + __builtin_ctzll(left);
            if (q == r) continue;
            add_words(w->words[q], line);
            add_words(w->sides[q].words, side);
            w->told.additions++;
        }
}

// Column c is no longer active: each row that holds it has one active column fewer.
static void lower(Work *w, const uint64_t *held, unsigned c) {
    leave(w->active, c);
    for (int i = 0; i < SETS; i++)
        for (uint64_t left = held[i]; left; left &= left - 1) {
            unsigned q = 64 * i + __builtin_ctzll(left);
            if (--w->counts[q] == 1 && has(w->unused, q)) put(w->ready, q);
            else leave(w->ready, q);
        }
}

static void peel(Work *w) {
    for (;;) {
        uint64_t held[SETS];
        int c, r = least(w->ready, SETS);
        if (r >= 0) {
            uint64_t line[WORDS];
            for (int i = 0; i < WORDS; i++) line[i] = w->words[r][i] & w->active[i];
            c = least(line, WORDS);
            active_holders(w, c, held);
            use(w, held, r, c);
        } else {
            c = least(w->active, WORDS);
            if (c < 0) return;
            active_holders(w, c, held);
            w->pivots[w->told.pivots++] = (uint16_t)c;
        }
        lower(w, held, c);
    }
}

static void settle(Work *w) {
    for (unsigned i = 0; i < w->told.pivots; i++) {
        uint64_t held[SETS], open[SETS];
        holders(w, w->pivots[i], held);
        for (int j = 0; j < SETS; j++) open[j] = held[j] & w->unused[j];
        int r = least(open, SETS);
        if (r >= 0) use(w, held, r, w->pivots[i]);
        else w->told.shortfall++;
    }
}

static uint32_t answer(const Work *w) {
    for (int i = 0; i < SETS; i++)
        for (uint64_t left = w->unused[i]; left; left &= left - 1) {
            const uint64_t *side = w->sides[64 * i + __builtin_ctzll(left)].words;
            uint64_t any = 0;
            for (int j = 0; j < 8; j++) any |= side[j];
            if (any) return NONE;
        }
    return w->told.shortfall ? SEVERAL : ONE;
}

Told SOLVE(const Record *records, size_t count, const uint8_t *received, Cell *table, uint64_t (*words)[8], Cell *sides) {
    Work w;
    w.words = words;
    w.sides = sides;
    load(&w, records, count, received, table);
    peel(&w);
    settle(&w);
    w.told.kind = answer(&w);
    if (w.told.kind == NONE) w.told.shortfall = 0;
    if (w.told.kind == ONE)
        for (unsigned r = 0; r < ROWS; r++)
            if (!has(w.unused, r)) table[w.columns[r]] = sides[r];
    memset(words, 0, ROWS * sizeof *words);
    memset(sides, 0, ROWS * sizeof *sides);
    return w.told;
}
