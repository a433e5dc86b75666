// The peer in C: the shape of the library's run, with unchecked reads.
//
// Once a run, the numbers of the INPUTs, the REGs and the OUTs are listed in one
// array, the constants are set and the lowest gate is found. In a cycle the
// row's and the state's bytes are put at their nets, the gates are settled in net
// order, four nets to a turn, and the verdict, the outputs and the clock go
// through the lists. The inverse of each net stands in the same array, as far behind
// it as the top bit of a pin says, so that a pin is the place of what it reads. It
// includes nothing, so that a clang without headers, such as the one that compiles
// the library, takes it too.

typedef __SIZE_TYPE__ size_t;
typedef __UINT8_TYPE__ uint8_t;
typedef __UINT16_TYPE__ uint16_t;
typedef __UINT64_TYPE__ uint64_t;

enum { HEAD = 8, MOST_NETS = 8192, INVERTED = 32768 };
enum { CONST = 0, INPUT = 1, REG = 2, NOT = 3, OUT = 8 };

// The number of a clear verdict.
enum { CLEAR = 65535 };

// The u16 at a place. The machine has the low byte first, as the image has.
static inline size_t u16_at(const uint8_t *place) {
    uint16_t number;
    __builtin_memcpy(&number, place, 2);
    return number;
}

// Operand k of net i, from the place of net 0's operands.
static inline size_t operand(const uint8_t *operands, size_t i, size_t k) { return u16_at(operands + 6 * i + 2 * k); }

// The numbers of all nets of a kind, in net order.
static void list_nets(const uint8_t *kinds, uint8_t kind, uint16_t *list, size_t count) {
    size_t found = 0;
    for (size_t i = 0; found < count; i++) {
        list[found] = (uint16_t)i;
        found += kinds[i] == kind;
    }
}

// Net i takes a byte, and its inverse the other one.
static inline void put(uint8_t *restrict nets, size_t i, uint8_t byte) {
    nets[i] = byte;
    nets[INVERTED + i] = byte ^ 1;
}

// The bytes before the first cycle: a CONST's own, and 0 elsewhere.
static void set_constants(const uint8_t *kinds, const uint8_t *operands, size_t n, uint8_t *restrict nets) {
    for (size_t i = 0; i < n; i++) put(nets, i, (kinds[i] == CONST) * (uint8_t)operand(operands, i, 0));
}

// The lowest gate or OUT, or n where there is none.
static size_t lowest_gate(const uint8_t *kinds, size_t n) {
    size_t i = 0;
    while (i < n && kinds[i] < NOT) i++;
    return i;
}

// Each listed net takes a byte, in order.
static inline void put_bytes(const uint16_t *list, size_t count, const uint8_t *restrict bytes, uint8_t *restrict nets) {
    for (size_t j = 0; j < count; j++) put(nets, list[j], bytes[j]);
}

// Net i takes its byte where it is a gate or OUT.
static inline void settle(const uint8_t *restrict kinds, const uint8_t *restrict operands, const uint8_t *restrict table,
                          size_t i, uint8_t *restrict nets) {
    size_t kind = kinds[i];
    if (kind < NOT) return;
    size_t a = nets[operand(operands, i, 0)], b = nets[operand(operands, i, 1)], c = nets[operand(operands, i, 2)];
    put(nets, i, table[((kind * 4 + a) * 4 + b) * 4 + c]);
}

// All nets from `from` on.
static inline void settle_nets(const uint8_t *restrict kinds, const uint8_t *restrict operands,
                               const uint8_t *restrict table, size_t from, size_t n, uint8_t *restrict nets) {
    size_t i = from;
    for (; i + 3 < n; i += 4)
        for (size_t j = 0; j < 4; j++) settle(kinds, operands, table, i + j, nets);
    for (; i < n; i++) settle(kinds, operands, table, i, nets);
}

// The first of the listed OUTs that is protected and marked, or CLEAR.
static inline size_t verdict(const uint8_t *operands, const uint16_t *list, size_t count, const uint8_t *nets) {
    for (size_t j = 0; j < count; j++)
        if (operand(operands, list[j], 1) == 1 && (nets[list[j]] & 2)) return list[j];
    return CLEAR;
}

// The k cycles of an accepted run: cycle * 65,536 + the net of the first flow, or
// k * 65,536 + CLEAR. The table has a code for each kind and each byte of its pins.
uint64_t lists_cycles(const uint8_t *restrict image, const uint8_t *restrict table, size_t k, uint8_t *restrict state,
                      const uint8_t *restrict rows, uint8_t *restrict outputs) {
    size_t n = u16_at(image), inputs = u16_at(image + 2), registers = u16_at(image + 4), outs = u16_at(image + 6);
    const uint8_t *kinds = image + HEAD, *operands = kinds + n;
    uint8_t nets[INVERTED + MOST_NETS];
    uint16_t list[MOST_NETS], *regs = list + inputs, *out = regs + registers;
    uint64_t first = ((uint64_t)k << 16) + CLEAR;
    list_nets(kinds, INPUT, list, inputs);
    list_nets(kinds, REG, regs, registers);
    list_nets(kinds, OUT, out, outs);
    set_constants(kinds, operands, n, nets);
    size_t from = lowest_gate(kinds, n), net = CLEAR;
    for (size_t cycle = 0; cycle < k; cycle++, rows += inputs, outputs += outs) {
        put_bytes(list, inputs, rows, nets);
        put_bytes(regs, registers, state, nets);
        settle_nets(kinds, operands, table, from, n, nets);
        if (net == CLEAR && (net = verdict(operands, out, outs, nets)) != CLEAR) first = (cycle << 16) + net;
        for (size_t j = 0; j < outs; j++) outputs[j] = nets[out[j]];
        for (size_t j = 0; j < registers; j++) state[j] = nets[operand(operands, regs[j], 0)];
    }
    return first;
}
