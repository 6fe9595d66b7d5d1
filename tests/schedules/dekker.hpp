// A lock for two threads by two flags and a turn (Peterson 1981). Wrong 1: the flags are stored by release and read by acquire. That is right only
// under sequential consistency: on x86 a store may reach the other thread after the load that follows it. Keys below 64.
#ifndef DEKKER_HPP
#define DEKKER_HPP

#include "potzendai_test.hpp"
#include <atomic>
#include <sched.h>

namespace dekker {

template <int wrong> struct Map {
    static const std::memory_order stored = wrong == 1 ? std::memory_order_release : std::memory_order_seq_cst;
    std::atomic<int> wants[2] = {{0}, {0}}, turn{0};
    uint64_t values[64] = {};

    map_said get(uint64_t key, uint64_t &found)
    {
        found = values[key];
        return found ? MAP_TOLD : MAP_NONE;
    }

    class connection {
        Map &map;
        unsigned me;

        void lock()
        {
            map.wants[me].store(1, stored);
            map.turn.store(int(!me), stored);
            while (map.wants[!me].load(std::memory_order_acquire) && map.turn.load(std::memory_order_acquire) == int(!me))
                sched_yield();
        }

        void unlock() { map.wants[me].store(0, std::memory_order_release); }

        map_said change(uint64_t key, bool is_write, uint64_t value, uint64_t &found)
        {
            lock();
            found = map.values[key];
            if (is_write)
                map.values[key] = value;
            unlock();
            return found ? MAP_TOLD : MAP_NONE;
        }

    public:
        connection(Map &of, unsigned thread) : map(of), me(thread & 1) {}
        map_said get(uint64_t key, uint64_t &found) { return change(key, false, 0, found); }
        map_said put(uint64_t key, uint64_t value, uint64_t &found) { return change(key, true, value, found); }
        map_said del(uint64_t key, uint64_t &found) { return change(key, true, 0, found); }
    };
};

}

#endif
