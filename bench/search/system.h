// One system to solve, and what a solver tells of it.
#include <stddef.h>
#include <stdint.h>

enum { COLUMNS = 512, ROWS = 256, MAX_ONES = 4096 };
enum { NONE, ONE, SEVERAL };

typedef struct { uint64_t words[8]; } Cell;

// A one of the code; they rise by row and then by column.
typedef struct { uint16_t row, column; } Record;

typedef struct {
    size_t count;
    Record records[MAX_ONES];
    uint8_t received[COLUMNS];
    Cell table[COLUMNS];
} System;

typedef struct { uint32_t kind, pivots, additions, shortfall; } Told;

// A solver in C: with the answer one it fills the missing places of the table.
typedef Told Solver(const Record *records, size_t count, const uint8_t *received, Cell *table, uint64_t (*words)[8], Cell *sides);

// The same by the library M4RI, which tells the kind alone.
uint32_t m4ri_solve(const Record *records, size_t count, const uint8_t *received, Cell *table);
