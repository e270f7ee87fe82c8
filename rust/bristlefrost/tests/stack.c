/* The stack that the functions take, measured on a stack filled with one byte. Status 0 where it is as the header says. */

#define _XOPEN_SOURCE 700

#include <bristlefrost.h>

#include <string.h>
#include <ucontext.h>

enum { STACK = 1 << 20, SIDE = 64, COSTS = SIDE * SIDE };

static uint8_t stack[STACK], sheet[BRISTLEFROST_LONGEST_SHEET], kept[BRISTLEFROST_LONGEST_SHEET];
static uint8_t slip[BRISTLEFROST_LONGEST_SLIP], scores[4 * COSTS + 12], references[SIDE * BRISTLEFROST_REFERENCE];
static int32_t costs[COSTS];
static uint32_t cols[SIDE], rows[SIDE], also[SIDE], indices[4 * SIDE];
static int64_t us[SIDE], vs[SIDE], numbers[SIDE];
static uint64_t state[2], bars[SIDE], refusal;
static size_t length, written;

static void on_sheet(void) { refusal = bristlefrost_sheet(sheet, length, slip, sizeof slip); }
static void on_end(void) { refusal = bristlefrost_end(kept, state, slip, sizeof slip); }
static void on_piece(void) { refusal = bristlefrost_piece(kept, state, sheet, length); }
static void on_score(void) {
    const size_t list = sizeof references;
    refusal = bristlefrost_score_sheet(references, list, references, list, scores, sizeof scores);
}
static void on_solve(void) {
    bristlefrost_solved night = bristlefrost_solve(
        SIDE, costs, COSTS, cols, SIDE, rows, SIDE, us, SIDE, vs, SIDE, indices, 4 * SIDE, numbers, SIDE);
    refusal = night.refusal;
}
static void on_repair(void) {
    bristlefrost_checked night = bristlefrost_repair(
        SIDE, costs, COSTS, 5, cols, SIDE, rows, SIDE, us, SIDE, vs, SIDE, indices, 4 * SIDE, numbers, SIDE);
    refusal = night.refusal;
}
static void on_check(void) {
    refusal = bristlefrost_check(SIDE, costs, COSTS, cols, SIDE, rows, SIDE, us, SIDE, vs, SIDE).refusal;
}
static void on_barred(void) {
    bristlefrost_checked night = bristlefrost_check_barred(
        SIDE, costs, COSTS, cols, SIDE, rows, SIDE, us, SIDE, vs, SIDE, bars, SIDE);
    refusal = night.refusal;
}
static void on_oblong(void) {
    refusal = bristlefrost_check_oblong(SIDE, SIDE, costs, COSTS, cols, SIDE, us, SIDE, vs, SIDE).refusal;
}
static void on_second(void) {
    bristlefrost_seconded night = bristlefrost_second(
        SIDE, costs, COSTS, cols, SIDE, rows, SIDE, us, SIDE, vs, SIDE, also, SIDE, indices, 4 * SIDE, numbers, SIDE);
    refusal = night.refusal;
}
static void on_second_barred(void) {
    bristlefrost_seconded night = bristlefrost_second_barred(
        SIDE, costs, COSTS, cols, SIDE, rows, SIDE, us, SIDE, vs, SIDE, bars, SIDE, also, SIDE, indices, 4 * SIDE, numbers,
        SIDE);
    refusal = night.refusal;
}
static void on_second_oblong(void) {
    bristlefrost_seconded night = bristlefrost_second_oblong(
        SIDE, SIDE, costs, COSTS, cols, SIDE, us, SIDE, vs, SIDE, also, SIDE, indices, 4 * SIDE, numbers, SIDE);
    refusal = night.refusal;
}
static void on_plain(void) { refusal = bristlefrost_plain(8, costs, 64, also, SIDE).refusal; }
static void on_audit(void) { refusal = bristlefrost_audit(sheet, length, slip, written).refusal; }
static void on_cost(void) { refusal = bristlefrost_cost(SIDE, costs, COSTS, cols, SIDE).refusal; }

/* The bytes of stack that a call takes, or all of them where it is refused. */
static size_t taken(void (*call)(void)) {
    static ucontext_t here, there;
    memset(stack, 0xA5, STACK);
    if (getcontext(&there) != 0) return STACK;
    there.uc_stack.ss_sp = stack, there.uc_stack.ss_size = STACK, there.uc_link = &here;
    makecontext(&there, call, 0);
    if (swapcontext(&here, &there) != 0 || refusal != 0) return STACK;
    size_t untouched = 0;
    while (untouched < STACK && stack[untouched] == 0xA5) untouched++;
    return STACK - untouched;
}

/* A sheet of 64 columns; row i and column j cost i*j modulo 97. Edition 3 has half as many rows, in edition 2 the pairs on
 * one side of the diagonal are barred. */
static void make(int edition) {
    const int m = edition == 3 ? SIDE / 2 : SIDE;
    const int distance = 4 * m * SIDE + (edition == 2 ? 8 * SIDE : edition == 3 ? 2 : 0);
    uint8_t *end = sheet;
    memset(sheet, 0, sizeof sheet);
    for (int k = 0; k < m * SIDE; k++, end += 4) *end = (uint8_t)(k / SIDE * (k % SIDE) % 97);
    for (int i = 0; edition == 2 && i < SIDE; i++, end += 8)
        for (int j = 0; j < i; j++) end[j / 8] |= (uint8_t)(1 << j % 8);
    if (edition == 3) *end = (uint8_t)m, end += 2;
    const uint8_t trailer[12] = {
        (uint8_t)distance, (uint8_t)(distance >> 8), 0, 0, SIDE, 0, (uint8_t)edition, 0, 0x4D, 0x54, 0x43, 0x48};
    memcpy(end, trailer, 12);
    length = (size_t)(end + 12 - sheet);
    written = (size_t)(10 * m + 8 * SIDE + 20 + (edition == 3 ? 2 : 0));
    state[0] = state[1] = 0;
}

int main(void) {
    for (int k = 0; k < COSTS; k++) costs[k] = k / SIDE * (k % SIDE) % 97;
    memset(references, '0', sizeof references);
    for (int edition = 1; edition <= 3; edition++) {
        make(edition);
        if (taken(on_sheet) > BRISTLEFROST_SHEET_STACK) return edition;
        if (taken(on_piece) > BRISTLEFROST_STACK) return 10 + edition;
        if (taken(on_end) > BRISTLEFROST_SHEET_STACK) return 20 + edition;
        if (taken(on_audit) > BRISTLEFROST_AUDIT_STACK) return 50 + edition;
    }
    void (*const calls[])(void) = {on_solve, on_check, on_barred, on_oblong, on_cost, on_repair, on_check, on_score,
        on_second, on_second_barred, on_second_oblong, on_plain};
    for (int k = 0; k < 12; k++)
        if (taken(calls[k]) > BRISTLEFROST_STACK) return 30 + k;
    return 0;
}
