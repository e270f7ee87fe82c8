/* A night from costs to an audited slip, in C: writes a sheet's bytes, pairs them, audits the slip, reads it and holds it
 * against the costs with the checker, which does not run the solver. From the repository, with the archive built:
 *
 *     cc -I rust/bristlefrost/include rust/bristlefrost/examples/pair.c target/staticlib/libface.a -o pair && ./pair
 */

#include <bristlefrost.h>

#include <inttypes.h>
#include <stdio.h>
#include <string.h>

enum { SIDE = 3 };

/* Numbers on sheets and slips are little-endian, whatever the machine. */
static uint8_t *put(uint8_t *to, uint64_t number, int bytes) {
    for (int k = 0; k < bytes; k++) *to++ = (uint8_t)(number >> (8 * k));
    return to;
}

static uint64_t get(const uint8_t **from, int bytes) {
    uint64_t number = 0;
    for (int k = 0; k < bytes; k++) number |= (uint64_t) * (*from)++ << (8 * k);
    return number;
}

/* A note, the costs in row order, and the trailer: distance, side, edition and mark. */
static size_t write_sheet(uint8_t *sheet, const char *note, const int32_t *costs) {
    uint8_t *end = sheet + strlen(note);
    memcpy(sheet, note, strlen(note));
    for (int k = 0; k < SIDE * SIDE; k++) end = put(end, (uint32_t)costs[k], 4);
    end = put(end, 4 * SIDE * SIDE, 4);
    end = put(end, SIDE, 2);
    end = put(end, 1, 2);
    memcpy(end, "MTCH", 4);
    return (size_t)(end + 4 - sheet);
}

static int refused(uint64_t refusal) {
    printf("refused %" PRIu64 " place %" PRIu64 "\n", refusal % 256, refusal / 256);
    if (refusal % 256 == BRISTLEFROST_NO_PAIRING) printf("the first 8 bytes of the slip's room say why\n");
    return 1;
}

int main(void) {
    const int32_t costs[SIDE * SIDE] = {3, 1, 0, 0, 0, 2, 4, 1, 0};
    uint8_t sheet[256], slip[BRISTLEFROST_LONGEST_SLIP];
    const size_t length = write_sheet(sheet, "three guests", costs);

    uint64_t refusal = bristlefrost_sheet(sheet, length, slip, sizeof slip);
    if (refusal != 0) return refused(refusal);

    /* The slip's own length, not that of its room. */
    refusal = bristlefrost_audit(sheet, length, slip, BRISTLEFROST_SLIP(SIDE)).refusal;
    if (refusal != 0) return refused(refusal);

    /* The columns by row, row prices, column prices and the total. A column that is not there is refused with 6, and one
     * that two rows have with 7. */
    const uint8_t *from = slip;
    uint32_t columns[SIDE], rows[SIDE] = {0};
    int64_t row_prices[SIDE], column_prices[SIDE];
    for (int i = 0; i < SIDE; i++) columns[i] = (uint32_t)get(&from, 2);
    for (int i = 0; i < SIDE; i++) row_prices[i] = (int64_t)get(&from, 8);
    for (int j = 0; j < SIDE; j++) column_prices[j] = (int64_t)get(&from, 8);
    const int64_t total = (int64_t)get(&from, 8);
    for (uint32_t i = 0; i < SIDE; i++)
        if (columns[i] < SIDE) rows[columns[i]] = i;

    bristlefrost_checked checked = bristlefrost_check(
        SIDE, costs, SIDE * SIDE, columns, SIDE, rows, SIDE, row_prices, SIDE, column_prices, SIDE);
    if (checked.refusal != 0) return refused(checked.refusal);
    if (checked.total != total) {
        printf("the pairing's total is %" PRId64 ", not the slip's\n", checked.total);
        return 1;
    }
    printf("accepted %d total %" PRId64 "\n", SIDE, total);
    for (uint32_t i = 0; i < SIDE; i++)
        printf("%" PRIu32 " %" PRIu32 " %" PRId32 "\n", i, columns[i], costs[i * SIDE + columns[i]]);
    return 0;
}
