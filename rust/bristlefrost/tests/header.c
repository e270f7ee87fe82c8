/* Document 01's night N8 and its second pairing, by the plain engine too, the sheet of side 1, whole and in pieces, its
 * slip held against it, a barred sheet, and a score, through the header. Status 0 where every answer is right. */

#include <bristlefrost.h>

int main(void) {
    const int32_t costs[9] = {3, 1, 0, 0, 0, 2, 4, 1, 0};
    uint32_t cols[3], rows[3], indices[12];
    int64_t row_prices[3], col_prices[3], numbers[3];
    bristlefrost_solved night = bristlefrost_solve(
        3, costs, 9, cols, 3, rows, 3, row_prices, 3, col_prices, 3, indices, 12, numbers, 3);
    if (night.refusal != 0 || night.total != 1) return 1;
    if (cols[0] != 2 || cols[1] != 0 || cols[2] != 1) return 2;
    if (rows[0] != 1 || rows[1] != 2 || rows[2] != 0) return 3;
    if (row_prices[0] != 1 || row_prices[1] != 0 || row_prices[2] != 1) return 4;
    if (col_prices[0] != 0 || col_prices[1] != 0 || col_prices[2] != -1) return 5;
    if (night.free_rows != 1 || night.looks_one != 1 || night.left_one != 1) return 6;
    if (night.looks_two != 1 || night.rows_left != 1 || night.columns_scanned != 1) return 7;

    bristlefrost_checked checked =
        bristlefrost_check(3, costs, 9, cols, 3, rows, 3, row_prices, 3, col_prices, 3);
    if (checked.refusal != 0 || checked.total != 1 || checked.slack != 0) return 8;
    const uint32_t other[3] = {0, 1, 2};
    checked = bristlefrost_check(3, costs, 9, other, 3, other, 3, row_prices, 3, col_prices, 3);
    if (checked.refusal != BRISTLEFROST_PRICES_NOT_COST || checked.total != 0 || checked.slack != 2) return 9;

    /* Columns 1 0 2 have the same total. [1 5 / 6 2] has only one pairing of its total. */
    uint32_t second[4] = {9, 9, 9, 9};
    bristlefrost_seconded seconded = bristlefrost_second(
        3, costs, 9, cols, 3, rows, 3, row_prices, 3, col_prices, 3, second, 4, indices, 12, numbers, 3);
    if (seconded.refusal != 0 || seconded.total != 1 || seconded.slack != 0 || seconded.also != 1) return 43;
    if (second[0] != 1 || second[1] != 0 || second[2] != 2 || second[3] != 9) return 44;
    seconded = bristlefrost_second(
        3, costs, 9, other, 3, other, 3, row_prices, 3, col_prices, 3, second, 4, indices, 12, numbers, 3);
    if (seconded.refusal != BRISTLEFROST_PRICES_NOT_COST || seconded.slack != 2 || seconded.also != 0) return 45;
    seconded = bristlefrost_second(
        3, costs, 9, cols, 3, rows, 3, row_prices, 3, col_prices, 3, second, 2, indices, 12, numbers, 3);
    if (seconded.refusal != BRISTLEFROST_LIST_LENGTH + 256 * 6) return 46;
    const int32_t square[4] = {1, 5, 6, 2};
    const int64_t one_two[2] = {1, 2}, none[2] = {0, 0};
    seconded = bristlefrost_second(
        2, square, 4, other, 2, other, 2, one_two, 2, none, 2, second, 4, indices, 12, numbers, 3);
    if (seconded.refusal != 0 || seconded.total != 3 || seconded.also != 0 || second[0] != 1) return 47;

    /* Row 1 becomes 9 9 9. A row that is not below the side comes first, and changes nothing. */
    const int32_t changed[9] = {3, 1, 0, 9, 9, 9, 4, 1, 0};
    bristlefrost_checked repaired = bristlefrost_repair(
        3, changed, 9, 3, cols, 3, rows, 3, row_prices, 3, col_prices, 3, indices, 12, numbers, 3);
    if (repaired.refusal != BRISTLEFROST_COLUMN_OUTSIDE + 256 * 3 || repaired.total != 0) return 15;
    repaired = bristlefrost_repair(
        3, changed, 9, 1, cols, 3, rows, 3, row_prices, 3, col_prices, 3, indices, 12, numbers, 3);
    if (repaired.refusal != 0 || repaired.total != 10 || repaired.slack != 0) return 16;
    checked = bristlefrost_check(3, changed, 9, cols, 3, rows, 3, row_prices, 3, col_prices, 3);
    if (checked.refusal != 0 || checked.total != 10) return 17;
    row_prices[2] = 7000000001;
    repaired = bristlefrost_repair(
        3, changed, 9, 1, cols, 3, rows, 3, row_prices, 3, col_prices, 3, indices, 12, numbers, 3);
    if (repaired.refusal != BRISTLEFROST_PRICE_FAR + 256 * 2) return 18;

    bristlefrost_total tried = bristlefrost_plain(3, costs, 9, second, 4);
    if (tried.refusal != 0 || tried.total != 1) return 56;
    if (second[0] != 1 || second[1] != 0 || second[2] != 2 || second[3] != 9) return 57;
    if (bristlefrost_plain(3, costs, 9, second, 2).refusal != BRISTLEFROST_LIST_LENGTH + 256) return 58;
    if (bristlefrost_plain(9, costs, 9, second, 4).refusal != BRISTLEFROST_SIDE_OVER) return 59;

    bristlefrost_total summed = bristlefrost_cost(3, costs, 9, other, 2);
    if (summed.refusal != 0 || summed.total != 3) return 10;
    summed = bristlefrost_cost(2, costs, 4, other, 3);
    if (summed.refusal != BRISTLEFROST_LIST_LENGTH + 256 * 1) return 11;

    const uint8_t sheet[16] = {7, 0, 0, 0, 4, 0, 0, 0, 1, 0, 1, 0, 0x4D, 0x54, 0x43, 0x48};
    uint8_t slip[38];
    if (bristlefrost_sheet(sheet, 16, slip, 38) != 0) return 12;
    if (slip[10] != 7 || slip[18] != 7 || slip[26] != 0x1A || slip[37] != 0x50) return 13;
    if (bristlefrost_sheet(sheet, 16, slip, 37) != BRISTLEFROST_SLIP_ROOM_SHORT) return 14;

    bristlefrost_audited audited = bristlefrost_audit(sheet, 16, slip, 38);
    if (audited.refusal != 0 || audited.side != 1 || audited.total != 7) return 52;
    slip[18] = 8;
    audited = bristlefrost_audit(sheet, 16, slip, 38);
    if (audited.refusal != BRISTLEFROST_SLIP_WRONG || audited.side != 0 || audited.total != 0) return 53;
    slip[18] = 7;
    if (bristlefrost_audit(sheet, 16, slip, 37).refusal != BRISTLEFROST_SLIP_WRONG) return 54;
    if (bristlefrost_audit(sheet + 1, 15, slip, 37).refusal != BRISTLEFROST_DISTANCE_PAST_BYTES) return 55;

    const uint8_t plain[12] = "0123456789AB", alike[12] = "OIZ34S67B9AB", lower[12] = "0123456789ab";
    bristlefrost_total score = bristlefrost_score(plain, 12, alike, 12);
    if (score.refusal != 0 || score.total != 10) return 15;
    score = bristlefrost_score(plain, 12, lower, 12);
    if (score.refusal != BRISTLEFROST_CHARACTER_UNKNOWN + 256 * 22 || score.total != 0) return 16;
    if (bristlefrost_score(plain, 12, alike, 11).refusal != BRISTLEFROST_REFERENCE_LENGTH + 256 * 2) return 17;
    uint8_t scores[17] = {0};
    scores[16] = 9;
    if (bristlefrost_score_sheet(plain, 12, alike, 12, scores, 17) != 0) return 18;
    if (scores[0] != 10 || scores[8] != 1 || scores[15] != 0x48 || scores[16] != 9) return 19;
    if (bristlefrost_score_sheet(plain, 12, alike, 12, scores, 15) != BRISTLEFROST_SLIP_ROOM_SHORT) return 20;

    static uint8_t bytes[65536];
    uint64_t state[2] = {9, 9};
    if (bristlefrost_piece(bytes, state, sheet, 16) != BRISTLEFROST_SHEET_OVER) return 21;
    if (bristlefrost_reset(bytes, state) != 0 || state[0] != 0 || state[1] != 0) return 22;
    if (bristlefrost_piece(bytes, state, sheet, 3) != 0 || bristlefrost_piece(bytes, state, sheet, 0) != 0) return 23;
    if (bristlefrost_piece(bytes, state, sheet + 3, 13) != 0 || state[0] != 16) return 24;
    uint8_t other_slip[38] = {0};
    if (bristlefrost_end(bytes, state, other_slip, 38) != 0) return 25;
    for (int k = 0; k < 38; k++)
        if (other_slip[k] != slip[k]) return 26;
    if (bristlefrost_piece(bytes, state, sheet, 0) != BRISTLEFROST_SHEET_ENDED) return 27;
    if (bristlefrost_end(bytes, state, slip, 38) != BRISTLEFROST_SHEET_ENDED) return 28;

    /* [barred 5 / 6 2]: the pair that costs least is not made. With column 1 barred to both rows there is no pairing. */
    uint8_t barred[44] = {1, 0, 0, 0, 5, 0, 0, 0, 6, 0, 0, 0, 2};
    barred[16] = 1, barred[32] = 32, barred[36] = 2, barred[38] = 2;
    for (int k = 0; k < 4; k++) barred[40 + k] = sheet[12 + k];
    uint8_t room[57];
    for (int k = 0; k < 57; k++) room[k] = 9;
    if (bristlefrost_sheet(barred, 44, room, 57) != 0) return 29;
    if (room[0] != 1 || room[2] != 0 || room[36] != 11 || room[50] != 2 || room[56] != 9) return 30;
    const int32_t four[4] = {1, 5, 6, 2};
    const uint32_t crossed[2] = {1, 0};
    const int64_t us[2] = {5, 6}, vs[2] = {0, 0};
    uint64_t bars[2] = {1, 2};
    checked = bristlefrost_check_barred(2, four, 4, crossed, 2, crossed, 2, us, 2, vs, 2, bars, 2);
    if (checked.refusal != 0 || checked.total != 11) return 34;
    bars[1] = 1;
    checked = bristlefrost_check_barred(2, four, 4, crossed, 2, crossed, 2, us, 2, vs, 2, bars, 2);
    if (checked.refusal != BRISTLEFROST_BARRED_PAIR + 256 || checked.total != 0) return 35;
    checked = bristlefrost_check_barred(2, four, 4, crossed, 2, crossed, 2, us, 2, vs, 2, bars, 1);
    if (checked.refusal != BRISTLEFROST_LIST_LENGTH + 256 * 5) return 36;
    const int32_t tied[4] = {5, 5, 6, 6};
    const uint64_t open[2] = {0, 0}, shut[2] = {0, 2};
    seconded = bristlefrost_second_barred(
        2, tied, 4, crossed, 2, crossed, 2, us, 2, vs, 2, open, 2, second, 4, indices, 12, numbers, 3);
    if (seconded.refusal != 0 || seconded.total != 11 || seconded.also != 1 || second[0] != 0 || second[1] != 1) return 48;
    seconded = bristlefrost_second_barred(
        2, tied, 4, crossed, 2, crossed, 2, us, 2, vs, 2, shut, 2, second, 4, indices, 12, numbers, 3);
    if (seconded.refusal != 0 || seconded.total != 11 || seconded.also != 0) return 49;
    barred[24] = 4;
    if (bristlefrost_sheet(barred, 44, room, 57) != BRISTLEFROST_BARS_PAST_SIDE + 256) return 31;
    barred[16] = 2, barred[24] = 2;
    if (bristlefrost_sheet(barred, 44, room, 57) != BRISTLEFROST_NO_PAIRING) return 32;
    if (room[0] != 3 || room[1] != 0 || room[7] != 0 || room[36] != 11 || room[56] != 9) return 33;

    /* Two rows of three columns: [5 3 4 / 6 7 1]. */
    const int32_t six[6] = {5, 3, 4, 6, 7, 1};
    const uint32_t chosen[2] = {1, 2};
    const int64_t two[2] = {3, 1}, three[3] = {0, 0, 0}, below[3] = {-1, 0, 0};
    checked = bristlefrost_check_oblong(2, 3, six, 6, chosen, 2, two, 2, three, 3);
    if (checked.refusal != 0 || checked.total != 4) return 37;
    checked = bristlefrost_check_oblong(2, 3, six, 6, chosen, 2, two, 2, below, 3);
    if (checked.refusal != BRISTLEFROST_SPARE_BELOW || checked.total != 0) return 38;
    checked = bristlefrost_check_oblong(SIZE_MAX, 3, six, 6, chosen, 2, two, 2, three, 3);
    if (checked.refusal != BRISTLEFROST_ROWS_OVER + 256 * ((UINT64_C(1) << 56) - 1)) return 39;
    const int32_t alike_too[6] = {3, 3, 4, 6, 7, 1};
    seconded = bristlefrost_second_oblong(
        2, 3, alike_too, 6, chosen, 2, two, 2, three, 3, second, 2, indices, 12, numbers, 3);
    if (seconded.refusal != 0 || seconded.total != 4 || seconded.also != 1 || second[0] != 0 || second[1] != 2) return 50;
    seconded = bristlefrost_second_oblong(2, 3, six, 6, chosen, 2, two, 2, three, 3, second, 2, indices, 12, numbers, 3);
    if (seconded.refusal != 0 || seconded.total != 4 || seconded.also != 0) return 51;
    const uint8_t oblong[22] = {7, 0, 0, 0, 6, 0, 0, 0, 1, 0, 10, 0, 0, 0, 2, 0, 3, 0, 0x4D, 0x54, 0x43, 0x48};
    if (bristlefrost_sheet(oblong, 22, room, 47) != BRISTLEFROST_SLIP_ROOM_SHORT) return 40;
    if (bristlefrost_sheet(oblong, 22, room, 48) != 0) return 41;
    if (room[0] != 1 || room[26] != 6 || room[34] != 1 || room[36] != 36 || room[40] != 2 || room[42] != 3) return 42;
    return 0;
}
