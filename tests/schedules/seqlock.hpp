// A seqlock: one writer at a time, and readers that look at its sequence again after they have read. Keys below 64.
// Wrong 1: they do not look again, and only compare the two halves of a value.
#ifndef SEQLOCK_HPP
#define SEQLOCK_HPP

#include "potzendai_test.hpp"
#include <atomic>
#include <mutex>

namespace seqlock {

template <int wrong> class Map {
    typedef std::atomic<uint64_t> Word;
    struct Cell { Word is_there{0}, low{0}, high{0}; };
    Word sequence{0};
    std::mutex lock;
    Cell cells[64];

    void set(Cell &cell, uint64_t is_there, uint64_t value)
    {
        sequence.store(sequence.load() + 1);
        cell.is_there.store(is_there);
        cell.low.store(value);
        cell.high.store(value);
        sequence.store(sequence.load() + 1);
    }

    map_said change(uint64_t key, uint64_t is_there, uint64_t value, uint64_t &found)
    {
        std::lock_guard<std::mutex> guard(lock);
        Cell &cell = cells[key];
        bool was_there = cell.is_there.load() != 0;
        found = cell.low.load();
        set(cell, is_there, value);
        return was_there ? MAP_TOLD : MAP_NONE;
    }

public:
    map_said get(uint64_t key, uint64_t &found)
    {
        for (;;) {
            uint64_t seen = sequence.load();
            if (seen & 1)
                continue;
            uint64_t is_there = cells[key].is_there.load(), low = cells[key].low.load(), high = cells[key].high.load();
            if (wrong == 1 ? low != high : sequence.load() != seen)
                continue;
            found = low;
            return is_there ? MAP_TOLD : MAP_NONE;
        }
    }

    map_said put(uint64_t key, uint64_t value, uint64_t &found) { return change(key, 1, value, found); }
    map_said del(uint64_t key, uint64_t &found) { return change(key, 0, 0, found); }
};

}

#endif
