// Lists a netlist as the listing program does, with verilator's model: it reads
// net.bin, takes a row of I bytes a cycle from standard input, and prints a line
// for each cycle, with the cycle, the byte of each output and the verdict.
//
// Rows are turned into the words of the model's ports, and the words of its
// outputs into digits, eight at a time, and lines are gathered in a buffer.

#include <charconv>
#include <cstdio>
#include <cstdlib>

#include "Vtop.h"
#include "ports.h"
#include "verilated.h"

using Bytes = std::vector<uint8_t>;

enum : uint8_t { REG = 2, OUT = 8 };

static const size_t BUFFER = 65536;

// What is read from net.bin: sizes, the registers' values and marks at power-up, the
// net of each OUT, and a bit for each OUT that is protected.
struct Netlist {
    size_t inputs, registers = 0, outputs = 0;
    Words start, start_marks, policies;
    std::vector<size_t> nets;
};

static size_t u16_at(const Bytes &image, size_t place) { return image[place] + 256 * image[place + 1]; }

static Bytes read_image() {
    Bytes image(65536);
    FILE *file = fopen("net.bin", "rb");
    if (!file) abort();
    image.resize(fread(image.data(), 1, image.size(), file));
    fclose(file);
    return image;
}

// Sets a bit of some words where it is true. All bits are 0 before.
static void put_bit(Words &words, size_t place, bool bit) { words[place / 32] |= uint32_t(bit) << place % 32; }

// A register without a start, whose operand b is 2, powers up with value 0 and mark 1.
static Netlist read_netlist() {
    Bytes image = read_image();
    size_t nets = u16_at(image, 0);
    Netlist n;
    n.inputs = u16_at(image, 2);
    n.start.resize(words_of(u16_at(image, 4)));
    n.start_marks.resize(n.start.size());
    n.policies.resize(words_of(u16_at(image, 6)));
    for (size_t i = 0; i < nets; i++) {
        size_t b = u16_at(image, 8 + nets + 6 * i + 2);
        if (image[8 + i] == REG) {
            put_bit(n.start, n.registers, b == 1);
            put_bit(n.start_marks, n.registers, b == 2);
            n.registers++;
        }
        if (image[8 + i] == OUT) {
            put_bit(n.policies, n.outputs, b == 1);
            n.outputs++;
            n.nets.push_back(i);
        }
    }
    return n;
}

// One bit of each of eight bytes, the first byte's lowest.
static uint8_t gathered(uint64_t bytes, int bit) {
    return (bytes >> bit & 0x0101010101010101) * 0x0102040810204080 >> 56;
}

// One bit of each byte of a row, as the words of a port.
static void pack(const uint8_t *row, size_t count, int bit, Words &words) {
    uint8_t *bits = reinterpret_cast<uint8_t *>(words.data());
    uint64_t eight = 0;
    size_t i = 0;
    for (; i + 8 <= count; i += 8) {
        memcpy(&eight, row + i, 8);
        bits[i / 8] = gathered(eight, bit);
    }
    if (i == count) return;
    eight = 0;
    memcpy(&eight, row + i, count - i);
    bits[i / 8] = gathered(eight, bit);
}

// Eight bytes for each eight bits, a byte a bit.
struct Spread {
    uint64_t bytes[256] = {};
    Spread() {
        for (size_t bits = 0; bits < 256; bits++)
            for (int i = 0; i < 8; i++) bytes[bits] |= uint64_t(bits >> i & 1) << 8 * i;
    }
};
static const Spread spread;

// A digit for each output, value + 2 * mark. Up to seven characters behind them are
// written too.
static char *put_digits(char *text, const Words &values, const Words &marks, size_t count) {
    const uint8_t *value = reinterpret_cast<const uint8_t *>(values.data());
    const uint8_t *mark = reinterpret_cast<const uint8_t *>(marks.data());
    for (size_t i = 0; i < count; i += 8) {
        uint64_t eight = 0x3030303030303030 + spread.bytes[value[i / 8]] + 2 * spread.bytes[mark[i / 8]];
        memcpy(text + i, &eight, 8);
    }
    return text + count;
}

static char *put_number(char *text, size_t number) { return std::to_chars(text, text + 20, number).ptr; }

static char *put_word(char *text, const char *word) {
    size_t length = strlen(word);
    memcpy(text, word, length);
    return text + length;
}

// The lowest protected OUT that is marked, or clear.
static char *put_verdict(char *text, const Netlist &n, const Words &marks) {
    for (size_t w = 0; w < marks.size(); w++) {
        uint32_t flows = marks[w] & n.policies[w];
        if (flows) return put_number(put_word(text, " flow "), n.nets[32 * w + __builtin_ctz(flows)]);
    }
    return put_word(text, " clear");
}

// One cycle of the model: a row in, and the outputs' values and marks out.
static void take_row(const Netlist &n, Vtop &top, const uint8_t *row, Words &bits, Words &values, Words &marks) {
    pack(row, n.inputs, 0, bits);
    set(top.in, bits.data(), bits.size());
    pack(row, n.inputs, 1, bits);
    set(top.in_t, bits.data(), bits.size());
    top.eval();
    get(top.out, values.data(), values.size());
    get(top.out_t, marks.data(), marks.size());
    clock_registers(top);
}

static void write_out(const std::vector<char> &text, const char *end) { fwrite(text.data(), 1, end - text.data(), stdout); }

int main() {
    Netlist n = read_netlist();
    VerilatedContext context;
    Vtop top(&context);
    Words bits(words_of(n.inputs)), values(words_of(n.outputs)), marks(words_of(n.outputs));
    set(top.q, n.start.data(), n.start.size());
    set(top.q_t, n.start_marks.data(), n.start_marks.size());
    Bytes rows(BUFFER / n.inputs * n.inputs);
    std::vector<char> text(BUFFER + n.outputs + 64);
    char *end = text.data();
    size_t cycle = 0;
    while (size_t read = fread(rows.data(), n.inputs, rows.size() / n.inputs, stdin))
        for (size_t r = 0; r < read; r++) {
            take_row(n, top, rows.data() + r * n.inputs, bits, values, marks);
            end = put_word(put_number(end, cycle++), " ");
            end = put_digits(end, values, marks, n.outputs);
            end = put_word(put_verdict(end, n, marks), "\n");
            if (size_t(end - text.data()) < BUFFER) continue;
            write_out(text, end);
            end = text.data();
        }
    end = put_word(put_number(put_word(end, "end "), cycle), "\n");
    write_out(text, end);
    return 0;
}
