// A value for each key behind a pointer. A removed value is freed once all threads have left the epoch in which it was removed (Fraser 2004).
// Wrong 1: a reader takes the pointer before it says in which epoch it is.
#ifndef EPOCHS_HPP
#define EPOCHS_HPP

#include "slots.hpp"
#include <utility>
#include <vector>

namespace epochs {

template <int wrong> struct Map {
    Slot slots[KEYS] = {};
    std::atomic<uint64_t> epoch{1};
    std::atomic<uint64_t> entered[THREADS] = {}; // 0: the thread reads nothing

    class connection : public Writes<connection> {
        friend class Writes<connection>;
        Map &map;
        std::atomic<uint64_t> &mine;
        std::vector<std::pair<uint64_t, Value *>> retired;

        void enter() { mine.store(map.epoch.load()); }
        void leave() { mine.store(0); }

        // The oldest epoch in which a thread reads, or the present one.
        uint64_t oldest() const
        {
            uint64_t least = map.epoch.load();
            for (const auto &other : map.entered) {
                uint64_t its = other.load();
                least = its && its < least ? its : least;
            }
            return least;
        }

        void retire(Value *value)
        {
            retired.emplace_back(map.epoch.fetch_add(1), value);
            uint64_t before = oldest();
            for (size_t i = retired.size(); i-- > 0;)
                if (retired[i].first < before) {
                    delete retired[i].second;
                    retired.erase(retired.begin() + long(i));
                }
        }

    public:
        connection(Map &of, unsigned thread) : Writes<connection>(of.slots), map(of), mine(of.entered[thread % THREADS]) {}

        map_said get(uint64_t key, uint64_t &found)
        {
            Value *value = map.slots[key].load();
            enter();
            if (wrong == 0)
                value = map.slots[key].load();
            if (value)
                found = value->value.load();
            leave();
            return value ? MAP_TOLD : MAP_NONE;
        }
    };
};

}

#endif
