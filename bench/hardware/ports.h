// The ports of verilator's model of `top`, as words.
//
// A port is an integer, or a list of words above 64 bits. Both are words in memory.

#ifndef PORTS_H
#define PORTS_H

#include <algorithm>
#include <cstdint>
#include <cstring>
#include <vector>

using Words = std::vector<uint32_t>;

// The words of a port. It has one bit at least.
static inline size_t words_of(size_t bits) { return (std::max<size_t>(bits, 1) + 31) / 32; }

template <class Port> static void set(Port &port, const uint32_t *words, size_t count) {
    memcpy(static_cast<void *>(&port), words, std::min(sizeof(port), 4 * count));
}

template <class Port> static void get(const Port &port, uint32_t *words, size_t count) {
    memcpy(words, static_cast<const void *>(&port), std::min(sizeof(port), 4 * count));
}

// The clock: the registers take what their pins show.
template <class Model> static void clock_registers(Model &top) {
    memcpy(static_cast<void *>(&top.q), static_cast<void *>(&top.d), sizeof(top.q));
    memcpy(static_cast<void *>(&top.q_t), static_cast<void *>(&top.d_t), sizeof(top.q_t));
}

#endif
