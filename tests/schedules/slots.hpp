// A value for each key behind a pointer, which a write exchanges for another one. Keys below 64.
#ifndef SLOTS_HPP
#define SLOTS_HPP

#include "potzendai_test.hpp"
#include <atomic>

enum { THREADS = 64, KEYS = 64 };

struct Value { std::atomic<uint64_t> value; };
typedef std::atomic<Value *> Slot;

// The writes of a Connection. Its retire(Value *) takes each value that was removed, and frees it once no thread reads it.
template <class Connection> class Writes {
    Slot *slots;

    map_said exchange(uint64_t key, Value *value, uint64_t &found)
    {
        Value *old = slots[key].exchange(value);
        if (!old)
            return MAP_NONE;
        found = old->value.load();
        static_cast<Connection *>(this)->retire(old);
        return MAP_TOLD;
    }

public:
    explicit Writes(Slot *of) : slots(of) {}

    map_said put(uint64_t key, uint64_t value, uint64_t &found) { return exchange(key, new Value{{value}}, found); }
    map_said del(uint64_t key, uint64_t &found) { return exchange(key, nullptr, found); }
};

#endif
