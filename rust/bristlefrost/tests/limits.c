/* The header's limits, each met and passed by one, and lists of length 0. Status 0 where every answer is right. */

#include <bristlefrost.h>

#include <string.h>

/* A sheet of side 1 with this cost behind a note of this length; in edition 2 with a number of bars. */
static size_t one(uint8_t *sheet, size_t note, int32_t cost, int edition) {
    memset(sheet, ' ', note);
    uint8_t *end = sheet + note;
    for (int k = 0; k < 4; k++) *end++ = (uint8_t)((uint32_t)cost >> (8 * k));
    if (edition == 2) memset(end, 0, 8), end += 8;
    const uint8_t distance = edition == 2 ? 12 : 4;
    const uint8_t trailer[12] = {distance, 0, 0, 0, 1, 0, (uint8_t)edition, 0, 0x4D, 0x54, 0x43, 0x48};
    memcpy(end, trailer, 12);
    return (size_t)(end + 12 - sheet);
}

static uint8_t sheet[BRISTLEFROST_LONGEST_SHEET + 1], slip[BRISTLEFROST_LONGEST_SLIP];

/* What the sheet of side 1 gives. */
static uint64_t paired(size_t note, int32_t cost, int edition) {
    return bristlefrost_sheet(sheet, one(sheet, note, cost, edition), slip, sizeof slip);
}

/* A sheet of edition 3 with as many rows as columns, all costs 0. */
static uint64_t largest(size_t side, size_t room) {
    memset(sheet, 0, sizeof sheet);
    const size_t costs = 4 * side * side;
    const uint8_t n = (uint8_t)side, low = (uint8_t)(costs + 2), high = (uint8_t)((costs + 2) >> 8);
    const uint8_t end[14] = {n, 0, low, high, 0, 0, n, 0, 3, 0, 0x4D, 0x54, 0x43, 0x48};
    memcpy(sheet + costs, end, 14);
    return bristlefrost_sheet(sheet, costs + 14, slip, room);
}

static const int32_t cost[1] = {0};
static uint32_t cols[1], rows[1], indices[4];
static int64_t row[1], column[1], numbers[1];

static uint64_t checked(int64_t price) {
    row[0] = -price, column[0] = price;
    return bristlefrost_check(1, cost, 1, cols, 1, rows, 1, row, 1, column, 1).refusal;
}

static uint64_t repaired(int64_t price) {
    row[0] = -price, column[0] = price;
    return bristlefrost_repair(1, cost, 1, 0, cols, 1, rows, 1, row, 1, column, 1, indices, 4, numbers, 1).refusal;
}

/* A side with lists of length 0, by any pointers. */
static uint64_t solved(size_t n) {
    return bristlefrost_solve(n, cost, 0, cols, 0, rows, 0, row, 0, column, 0, indices, 0, numbers, 0).refusal;
}

int main(void) {
    const int32_t most = BRISTLEFROST_LARGEST_COST, barred = BRISTLEFROST_LARGEST_BARRED_COST;
    if (paired(0, most, 1) != 0 || paired(0, -most, 1) != 0) return 1;
    if (paired(0, most + 1, 1) != BRISTLEFROST_COST_OUTSIDE) return 2;
    if (paired(0, barred, 2) != 0 || paired(0, barred + 1, 2) != BRISTLEFROST_COST_OUTSIDE) return 3;
    if (paired(BRISTLEFROST_LONGEST_NOTE, 7, 1) != 0) return 4;
    if (paired(BRISTLEFROST_LONGEST_NOTE + 1, 7, 1) != BRISTLEFROST_NOTE_UNFIT + 256 * BRISTLEFROST_LONGEST_NOTE) return 5;
    if (paired(BRISTLEFROST_LONGEST_SHEET - 16, 7, 1) % 256 != BRISTLEFROST_NOTE_UNFIT) return 6;
    if (paired(BRISTLEFROST_LONGEST_SHEET - 15, 7, 1) != BRISTLEFROST_SHEET_OVER) return 7;
    const size_t side = BRISTLEFROST_LARGEST_SHEET_SIDE, room = BRISTLEFROST_LONGEST_SLIP;
    if (largest(side, room) != 0) return 8;
    if (largest(side, room - 1) != BRISTLEFROST_SLIP_ROOM_SHORT) return 9;
    if (largest(side + 1, room) != BRISTLEFROST_SHEET_SIDE_OVER) return 10;

    /* One pair of cost 0, whose column has this price. */
    if (checked(BRISTLEFROST_LARGEST_PRICE) != 0) return 11;
    if (checked(BRISTLEFROST_LARGEST_PRICE + 1) != BRISTLEFROST_PRICE_OUTSIDE) return 12;
    if (repaired(BRISTLEFROST_LARGEST_REPAIRED_PRICE) != 0) return 13;
    if (repaired(BRISTLEFROST_LARGEST_REPAIRED_PRICE + 1) != BRISTLEFROST_PRICE_FAR) return 14;

    const uint8_t reference[BRISTLEFROST_REFERENCE + 1] = "0123456789ABC";
    if (bristlefrost_score(reference, BRISTLEFROST_REFERENCE, reference, BRISTLEFROST_REFERENCE).refusal != 0) return 15;
    if (bristlefrost_score(reference, 13, reference, 13).refusal != BRISTLEFROST_REFERENCE_LENGTH + 256) return 16;

    if (solved(0) != 0) return 17;
    if (solved(BRISTLEFROST_LARGEST_SIDE) != BRISTLEFROST_COSTS_LENGTH) return 18;
    if (solved(BRISTLEFROST_LARGEST_SIDE + 1) != BRISTLEFROST_SIDE_OVER) return 19;
    if (bristlefrost_check(0, cost, 0, cols, 0, rows, 0, row, 0, column, 0).refusal != 0) return 20;
    if (bristlefrost_cost(0, cost, 0, cols, 0).refusal != 0) return 21;
    if (bristlefrost_sheet(sheet, 0, slip, 0) != BRISTLEFROST_NO_MARK) return 22;
    if (bristlefrost_score_sheet(reference, 0, reference, 0, sheet, 12) != 0) return 23;
    uint64_t state[2] = {0};
    if (bristlefrost_piece(sheet, state, reference, 0) != 0) return 24;
    if (bristlefrost_end(sheet, state, slip, 0) != BRISTLEFROST_NO_MARK) return 25;
    return 0;
}
