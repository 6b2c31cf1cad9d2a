// The same systems by the library M4RI: the missing columns and the right sides as one matrix, brought to reduced echelon form.
#include "system.h"
#include <m4ri/m4ri.h>
#include <string.h>

static int missing_columns(const uint8_t *received, int *at) {
    int missing = 0;
    for (int c = 0; c < COLUMNS; c++) at[c] = received[c] ? -1 : missing++;
    return missing;
}

// A row for each row of the code: its missing columns, and from column `from` on the sum of its received cells.
static mzd_t *load(const Record *records, size_t count, const int *at, const Cell *table, int from) {
    mzd_t *rows = mzd_init(ROWS, from + 512);
    const Record *k = records, *end = records + count;
    for (int r = 0; r < ROWS; r++) {
        uint64_t side[8] = {0};
        for (; k < end && k->row == r; k++) {
            if (at[k->column] < 0) {
                for (int i = 0; i < 8; i++) side[i] ^= table[k->column].words[i];
            } else {
                mzd_write_bit(rows, r, at[k->column], 1);
            }
        }
        for (int i = 0; i < 8; i++) mzd_xor_bits(rows, r, from + 64 * i, 64, side[i]);
    }
    return rows;
}

// Whether row r has one of the columns below `width`, which is a multiple of 64.
static int has_columns(const mzd_t *rows, int r, int width) {
    for (int c = 0; c < width; c += 64)
        if (mzd_read_bits(rows, r, c, 64)) return 1;
    return 0;
}

uint32_t m4ri_solve(const Record *records, size_t count, const uint8_t *received, Cell *table) {
    int at[COLUMNS];
    int missing = missing_columns(received, at), from = (missing + 63) / 64 * 64;
    mzd_t *rows = load(records, count, at, table, from);
    int rank = (int)mzd_echelonize(rows, 1);
    uint32_t kind = ONE;
    if (rank > 0 && !has_columns(rows, rank - 1, from)) kind = NONE;
    else if (rank < missing) kind = SEVERAL;
    else
        for (int c = 0; c < COLUMNS; c++)
            if (at[c] >= 0)
                for (int i = 0; i < 8; i++) table[c].words[i] = mzd_read_bits(rows, at[c], from + 64 * i, 64);
    mzd_free(rows);
    return kind;
}
