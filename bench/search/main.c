// Times the search of the library beside the same method in C, and M4RI where it is installed, on the same systems in one
// run. Every answer is held to the others: a difference ends the run. PLAIN and KEPT name the solvers in C, one for each
// compiler; what is printed is the faster.
#include "system.h"
#include <stdio.h>
#include <stdlib.h>
#include <string.h>
#include <time.h>

enum { SYSTEMS = 200, RUNS = 7, SOURCES = COLUMNS - ROWS };

Solver PLAIN, KEPT;
static Solver *const plain[] = {PLAIN}, *const kept[] = {KEPT};
enum { COMPILERS = sizeof plain / sizeof *plain };

// Copies a system in, searches it `rounds` times and copies the table out; 0 if it was refused.
uint32_t rattle_solve(const uint16_t *ones, size_t ones_len, size_t rows, uint8_t *table, size_t table_len, const uint8_t *marks, size_t marks_len, size_t rounds, uint32_t *told, size_t told_len);

static uint64_t state = 88172645463325252u;

static uint32_t below(uint32_t n) {
    state ^= state << 13;
    state ^= state >> 7;
    state ^= state << 17;
    return (uint32_t)((state >> 32) * n >> 32);
}

// Source columns with `ones` ones each in rows chosen at random, and the staircase of repair columns.
static void make_code(System *s, int ones) {
    static uint8_t holds[ROWS][COLUMNS];
    memset(holds, 0, sizeof holds);
    for (int c = 0; c < SOURCES; c++)
        for (int i = 0; i < ones;) {
            uint32_t r = below(ROWS);
            if (holds[r][c]) continue;
            holds[r][c] = 1;
            i++;
        }
    for (int r = 0; r < ROWS; r++) {
        holds[r][SOURCES + r] = 1;
        if (r) holds[r][SOURCES + r - 1] = 1;
    }
    s->count = 0;
    for (int r = 0; r < ROWS; r++)
        for (int c = 0; c < COLUMNS; c++)
            if (holds[r][c]) s->records[s->count++] = (Record){(uint16_t)r, (uint16_t)c};
}

// A codeword: random source cells, and each repair cell the sum of the others of its row.
static void make_codeword(System *s) {
    memset(s->table, 0, sizeof s->table);
    for (int c = 0; c < SOURCES; c++)
        for (int i = 0; i < 8; i++) s->table[c].words[i] = (uint64_t)below(UINT32_MAX) << 32 | below(UINT32_MAX);
    for (size_t k = 0; k < s->count; k++) {
        unsigned r = s->records[k].row, c = s->records[k].column;
        if (c == SOURCES + r) continue;
        for (int i = 0; i < 8; i++) s->table[SOURCES + r].words[i] ^= s->table[c].words[i];
    }
}

// Loses so many percent of the places, chosen at random; they then hold noise.
static void lose(System *s, int percent) {
    uint16_t order[COLUMNS];
    for (int c = 0; c < COLUMNS; c++) order[c] = (uint16_t)c;
    memset(s->received, 1, sizeof s->received);
    for (int i = 0; i < COLUMNS * percent / 100; i++) {
        int j = i + (int)below((uint32_t)(COLUMNS - i));
        uint16_t c = order[j];
        order[j] = order[i];
        order[i] = c;
        s->received[c] = 0;
        memset(&s->table[c], 0x5a, sizeof s->table[c]);
    }
}

// One system in twenty has a received cell altered, so that mostly no codeword agrees.
static int altered(int i) { return i % 20 == 19; }

static void alter(System *s) {
    uint32_t c = below(COLUMNS);
    while (!s->received[c]) c = below(COLUMNS);
    s->table[c].words[0] ^= 1;
}

static double now(void) {
    struct timespec t;
    clock_gettime(CLOCK_MONOTONIC, &t);
    return t.tv_sec * 1e6 + t.tv_nsec / 1e3;
}

// The least time of each system in one kind of solving.
typedef struct { double of[SYSTEMS]; } Times;

static void forget(Times *t) {
    for (int i = 0; i < SYSTEMS; i++) t->of[i] = 1e9;
}

static void keep_least(Times *t, int i, double time) {
    if (time < t->of[i]) t->of[i] = time;
}

static double mean(const Times *t) {
    double all = 0;
    for (int i = 0; i < SYSTEMS; i++) all += t->of[i];
    return all / SYSTEMS;
}

static double faster(const Times *t) {
    double best = mean(&t[0]);
    for (int k = 1; k < COMPILERS; k++)
        if (mean(&t[k]) < best) best = mean(&t[k]);
    return best;
}

static void differ(const char *what, Told a, Told b) {
    fprintf(stderr, "%s differ: answer %u, pivots %u, additions %u, shortfall %u, and answer %u, pivots %u, additions %u, shortfall %u\n", what, a.kind, a.pivots, a.additions, a.shortfall, b.kind, b.pivots, b.additions, b.shortfall);
    exit(1);
}

static Told by_rattle(const System *s, Cell *table, size_t rounds, Times *times, int i) {
    Told told = {9, 0, 0, 0};
    memcpy(table, s->table, sizeof s->table);
    double t = now();
    uint32_t taken = rattle_solve(&s->records[0].row, 2 * s->count, ROWS, (uint8_t *)table, sizeof s->table, s->received, COLUMNS, rounds, &told.kind, 4);
    keep_least(times, i, now() - t);
    if (!taken) differ("a system was refused, so the answers", told, told);
    return told;
}

// Solves in C, and holds answer and table to what they should be.
static void by_c(Solver *solve, const System *s, Told told, const Cell *table, Times *times, int i) {
    static Cell mine[COLUMNS], sides[ROWS];
    static uint64_t words[ROWS][8];
    memcpy(mine, s->table, sizeof mine);
    double t = now();
    Told in_c = solve(s->records, s->count, s->received, mine, words, sides);
    keep_least(times, i, now() - t);
    if (memcmp(&told, &in_c, sizeof told)) differ("the answers of the library and of C", told, in_c);
    if (memcmp(mine, table, sizeof mine)) differ("the tables of the library and of C", told, in_c);
}

#ifdef WITH_M4RI
static void by_m4ri(const System *s, Told told, const Cell *table, Times *times, int i) {
    static Cell mine[COLUMNS];
    memcpy(mine, s->table, sizeof mine);
    double t = now();
    Told by = {m4ri_solve(s->records, s->count, s->received, mine), 0, 0, 0};
    keep_least(times, i, now() - t);
    if (told.kind != by.kind || memcmp(mine, table, sizeof mine)) differ("the answers of the library and of M4RI", told, by);
}
#endif

static void time_case(int ones, int percent) {
    static System systems[SYSTEMS];
    static Cell sent[SYSTEMS][COLUMNS], table[COLUMNS];
    static Times copies, rattle, c[COMPILERS], c_kept[COMPILERS], m4ri;
    int kinds[3] = {0};
    double pivots = 0, additions = 0;
    forget(&copies), forget(&rattle), forget(&m4ri);
    for (int k = 0; k < COMPILERS; k++) forget(&c[k]), forget(&c_kept[k]);
    for (int i = 0; i < SYSTEMS; i++) {
        make_code(&systems[i], ones);
        make_codeword(&systems[i]);
        memcpy(sent[i], systems[i].table, sizeof sent[i]);
        lose(&systems[i], percent);
        if (altered(i)) alter(&systems[i]);
    }
    for (int run = 0; run < RUNS; run++)
        for (int i = 0; i < SYSTEMS; i++) {
            const System *s = &systems[i];
            by_rattle(s, table, 0, &copies, i);
            Told told = by_rattle(s, table, 1, &rattle, i);
            if (!altered(i) && (told.kind == NONE || (told.kind == ONE && memcmp(table, sent[i], sizeof table)))) differ("what was sent and what was found", told, told);
            for (int k = 0; k < COMPILERS; k++) {
                by_c(plain[k], s, told, table, &c[k], i);
                by_c(kept[k], s, told, table, &c_kept[k], i);
            }
#ifdef WITH_M4RI
            by_m4ri(s, told, table, &m4ri, i);
#endif
            if (run == 0) {
                kinds[told.kind]++;
                pivots += told.pivots;
                additions += told.additions;
            }
        }
    double search = mean(&rattle) - mean(&copies);
    printf("ones %d loss %d: rattle %.1f us, c %.1f us, ", ones, percent, search, faster(c));
#ifdef WITH_M4RI
    printf("m4ri %.1f us, ", mean(&m4ri));
#endif
    printf("ratio %.2f\n", search / faster(c));
    fflush(stdout);
    fprintf(stderr, "    of %d: one %d, several %d, none %d; pivots %.1f, additions %.1f; c with holders kept %.1f us, ratio %.2f\n", SYSTEMS, kinds[ONE], kinds[SEVERAL], kinds[NONE], pivots / SYSTEMS, additions / SYSTEMS, faster(c_kept), search / faster(c_kept));
}

int main(void) {
    static const int ones[] = {3, 5}, losses[] = {10, 30, 40, 45, 48};
    for (int i = 0; i < 2; i++)
        for (int j = 0; j < 5; j++) time_case(ones[i], losses[j]);
    return 0;
}
