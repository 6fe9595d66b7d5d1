// Maps whose rounds do not end well. Keys below 64. Wrong 1: a put takes the locks of two keys downwards, and a scan takes them upwards: a deadlock.
// Wrong 2: a put removes a value before it stores a new one, and a get reads in between: a crash. Wrong 3: a put does not release its lock, and
// others spin: endless. Wrong 4: a get ends the process. Wrong 5: a put starts a thread.
#ifndef ENDINGS_HPP
#define ENDINGS_HPP

#include "potzendai_test.hpp"
#include <atomic>
#include <cstdlib>
#include <mutex>
#include <thread>

namespace endings {

template <int wrong> struct Map {
    std::mutex locks[64];
    std::atomic_flag spin = ATOMIC_FLAG_INIT;
    std::atomic<std::atomic<uint64_t> *> values[64] = {};

    map_said get(uint64_t key, uint64_t &found)
    {
        if (!values[key].load())
            return MAP_NONE;
        if (wrong == 4)
            exit(7);
        found = values[key].load()->load();
        return MAP_TOLD;
    }

    map_said exchange(uint64_t key, uint64_t value, uint64_t &found)
    {
        std::atomic<uint64_t> *made = new std::atomic<uint64_t>(value);
        std::atomic<uint64_t> *old = values[key].exchange(wrong == 2 ? nullptr : made);
        if (wrong == 2)
            values[key].store(made);
        if (old)
            found = old->load();
        return old ? MAP_TOLD : MAP_NONE;
    }

    map_said put(uint64_t key, uint64_t value, uint64_t &found)
    {
        std::lock_guard<std::mutex> guard(locks[key]);
        if (wrong == 1 && key > 0)
            std::lock_guard<std::mutex> second(locks[key - 1]);
        if (wrong == 5)
            std::thread([] {}).join();
        while (wrong == 3 && spin.test_and_set()) {
        }
        map_said said = exchange(key, value, found);
        if (said == MAP_NONE)
            spin.clear();
        return said;
    }

    map_said scan(uint64_t low, uint64_t high, std::vector<recording_pair> &all)
    {
        for (uint64_t key = low; key <= high; key++) {
            locks[key].lock();
            uint64_t value = 0;
            if (get(key, value) == MAP_TOLD)
                all.push_back({key, value});
        }
        for (uint64_t key = low; key <= high; key++)
            locks[key].unlock();
        return MAP_TOLD;
    }
};

}

#endif
