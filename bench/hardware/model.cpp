// Runs a netlist with verilator's model and with the tracker's library in turn,
// in one process, and compares all outputs.
//
// The rows are packed into the words of the model's ports before the clock
// starts, and its outputs are stored as words and unpacked after it stops, so
// that the model is given nothing but its own work. Arguments: the folder with
// image.bin and rows.bin, the number of cycles and the number of rounds. It prints
// seconds, the library's median and lowest and the model's, and the median of the
// rounds' ratios model / library.

#include <algorithm>
#include <chrono>
#include <cstdio>
#include <cstdlib>
#include <fstream>
#include <iterator>
#include <string>
#include <vector>

#include "Vtop.h"
#include "ports.h"
#include "tracker.h"
#include "verilated.h"

using Bytes = std::vector<uint8_t>;
using Clock = std::chrono::steady_clock;

static Bytes read_file(const std::string &name) {
    std::ifstream file(name, std::ios::binary);
    if (!file) {
        fprintf(stderr, "cannot read %s\n", name.c_str());
        exit(1);
    }
    return Bytes(std::istreambuf_iterator<char>(file), {});
}

static size_t size_at(const Bytes &image, size_t place) { return image[place] + 256 * image[place + 1]; }

// One bit of each of a cycle's bytes.
static Words packed(const uint8_t *bytes, size_t count, int bit) {
    Words words(words_of(count));
    for (size_t i = 0; i < count; i++) words[i / 32] |= uint32_t(bytes[i] >> bit & 1) << i % 32;
    return words;
}

struct Netlist {
    Bytes image, rows, start;
    size_t inputs, registers, outputs, cycles;
    // All rows in turn: the words of the values, and then those of the marks.
    Words packed_rows;
    size_t row_words, register_words, output_words;
};

static Netlist read_netlist(const std::string &folder, size_t cycles) {
    Netlist n;
    n.image = read_file(folder + "/image.bin");
    n.rows = read_file(folder + "/rows.bin");
    n.cycles = cycles;
    n.inputs = size_at(n.image, 2);
    n.registers = size_at(n.image, 4);
    n.outputs = size_at(n.image, 6);
    n.rows.resize(cycles * n.inputs);
    n.start.resize(tracker_state_length(n.registers));
    if (tracker_power_up(n.image.data(), n.image.size(), n.start.data(), n.start.size()) != 0) abort();
    for (size_t c = 0; c < cycles; c++)
        for (int bit = 0; bit < 2; bit++) {
            Words words = packed(n.rows.data() + c * n.inputs, n.inputs, bit);
            n.packed_rows.insert(n.packed_rows.end(), words.begin(), words.end());
        }
    n.row_words = words_of(n.inputs);
    n.register_words = words_of(n.registers);
    n.output_words = words_of(n.outputs);
    return n;
}

// All cycles with verilator's model: the seconds. The outputs' words are filled.
static double run_model(const Netlist &n, Vtop &top, Words &outputs) {
    Words values = packed(n.start.data(), n.registers, 0), marks = packed(n.start.data(), n.registers, 1);
    const uint32_t *row = n.packed_rows.data();
    uint32_t *out = outputs.data();
    auto begin = Clock::now();
    set(top.q, values.data(), n.register_words);
    set(top.q_t, marks.data(), n.register_words);
    for (size_t c = 0; c < n.cycles; c++) {
        set(top.in, row, n.row_words);
        set(top.in_t, row + n.row_words, n.row_words);
        top.eval();
        get(top.out, out, n.output_words);
        get(top.out_t, out + n.output_words, n.output_words);
        clock_registers(top);
        row += 2 * n.row_words;
        out += 2 * n.output_words;
    }
    return std::chrono::duration<double>(Clock::now() - begin).count();
}

// All cycles with the library: the seconds. The outputs' bytes are filled.
static double run_library(const Netlist &n, Bytes &outputs) {
    Bytes state = n.start;
    auto begin = Clock::now();
    uint64_t answer = tracker_run(n.image.data(), n.image.size(), n.cycles, state.data(), state.size(), n.rows.data(),
                                  n.rows.size(), outputs.data(), n.cycles * n.outputs);
    double seconds = std::chrono::duration<double>(Clock::now() - begin).count();
    if (tracker_refusal(answer) != 0) abort();
    return seconds;
}

// How many output bytes differ in value or mark.
static size_t differences(const Netlist &n, const Bytes &outputs, const Words &words) {
    size_t count = 0;
    for (size_t c = 0; c < n.cycles; c++) {
        const uint32_t *values = words.data() + c * 2 * n.output_words;
        const uint32_t *marks = values + n.output_words;
        for (size_t i = 0; i < n.outputs; i++) {
            uint32_t value = values[i / 32] >> i % 32 & 1, mark = marks[i / 32] >> i % 32 & 1;
            count += outputs[c * n.outputs + i] != value + 2 * mark;
        }
    }
    return count;
}

static double median(std::vector<double> list) {
    std::sort(list.begin(), list.end());
    return list[list.size() / 2];
}

static double lowest(const std::vector<double> &list) { return *std::min_element(list.begin(), list.end()); }

int main(int count, char **arguments) {
    if (count != 4) return 2;
    Netlist n = read_netlist(arguments[1], std::stoul(arguments[2]));
    VerilatedContext context;
    Vtop top(&context);
    Bytes outputs(n.cycles * n.outputs + 1);
    Words words(n.cycles * 2 * n.output_words);
    std::vector<double> library, model, ratios;
    for (int round = 0; round < std::stoi(arguments[3]); round++) {
        library.push_back(run_library(n, outputs));
        model.push_back(run_model(n, top, words));
        ratios.push_back(model.back() / library.back());
        size_t wrong = differences(n, outputs, words);
        if (wrong != 0) {
            fprintf(stderr, "%zu output bytes differ\n", wrong);
            return 1;
        }
    }
    printf("%.9f %.9f %.9f %.9f %.6f\n", median(library), lowest(library), median(model), lowest(model), median(ratios));
    return 0;
}
