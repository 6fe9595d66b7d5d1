// A B+-tree under optimistic lock coupling (Leis, Scheibner, Kemper and Neumann, 2016). Readers take no lock: after a read they look at the versions
// of the nodes again. There are two levels. The root has room for all leaves of up to 64 keys. A leaf is split by its third key.
// Wrong 1: the descent does not look at the root's version again once it has the leaf's, so the leaf may have been split in between.
// Wrong 2: a get does not look at the leaf's version again.
#ifndef TREE_HPP
#define TREE_HPP

#include "potzendai_test.hpp"
#include <atomic>

namespace tree {

enum { PAIRS = 2, LEAVES = 64 };
typedef std::atomic<uint64_t> Word;

// A locked node has an odd version.
struct Node {
    Word version{0}, count{0};

    uint64_t read() const
    {
        uint64_t seen;
        while ((seen = version.load()) & 1) {
        }
        return seen;
    }
    bool is_still(uint64_t seen) const { return version.load() == seen; }
    bool lock(uint64_t seen) { return version.compare_exchange_strong(seen, seen + 1); }
    void unlock() { version.fetch_add(1); }
};

struct Leaf : Node {
    Word keys[PAIRS], values[PAIRS];

    // The place of a key, or of the first greater one.
    uint64_t find(uint64_t key) const
    {
        uint64_t at = 0, held = count.load();
        while (at < held && at < PAIRS && keys[at].load() < key)
            at++;
        return at;
    }
    bool has(uint64_t at, uint64_t key) const { return at < count.load() && at < PAIRS && keys[at].load() == key; }
};

// Leaf i has the keys from first[i] up to the next leaf's.
struct Root : Node {
    Word first[LEAVES];
    std::atomic<Leaf *> leaves[LEAVES];

    uint64_t find(uint64_t key) const
    {
        uint64_t at = 0, held = count.load();
        while (at + 1 < held && at + 1 < LEAVES && first[at + 1].load() <= key)
            at++;
        return at;
    }
};

template <int wrong> class Map {
    Root root;

    struct Place { Leaf *leaf; uint64_t root_version, version; };

    Place descend(uint64_t key) const
    {
        for (;;) {
            Place place;
            place.root_version = root.read();
            place.leaf = root.leaves[root.find(key)].load();
            if (!root.is_still(place.root_version))
                continue;
            place.version = place.leaf->read();
            if (wrong == 1 || root.is_still(place.root_version))
                return place;
        }
    }

    // Moves the upper half of a leaf to a new one. Both nodes are locked.
    void split(Leaf *leaf)
    {
        Leaf *right = new Leaf;
        uint64_t at = root.find(leaf->keys[0].load());
        for (uint64_t i = PAIRS / 2; i < PAIRS; i++) {
            right->keys[i - PAIRS / 2].store(leaf->keys[i].load());
            right->values[i - PAIRS / 2].store(leaf->values[i].load());
        }
        right->count.store(PAIRS - PAIRS / 2);
        leaf->count.store(PAIRS / 2);
        for (uint64_t i = root.count.load(); i > at + 1; i--) {
            root.first[i].store(root.first[i - 1].load());
            root.leaves[i].store(root.leaves[i - 1].load());
        }
        root.first[at + 1].store(right->keys[0].load());
        root.leaves[at + 1].store(right);
        root.count.fetch_add(1);
    }

    // Splits a leaf: false if a version has changed.
    bool split_at(const Place &place)
    {
        if (!root.lock(place.root_version))
            return false;
        bool is_locked = place.leaf->lock(place.version);
        if (is_locked) {
            split(place.leaf);
            place.leaf->unlock();
        }
        root.unlock();
        return is_locked;
    }

    // Makes room for a pair at a place of a leaf that is locked and not full.
    static void insert(Leaf *leaf, uint64_t at, uint64_t key, uint64_t value)
    {
        for (uint64_t i = leaf->count.load(); i > at; i--) {
            leaf->keys[i].store(leaf->keys[i - 1].load());
            leaf->values[i].store(leaf->values[i - 1].load());
        }
        leaf->keys[at].store(key);
        leaf->values[at].store(value);
        leaf->count.fetch_add(1);
    }

    static void remove(Leaf *leaf, uint64_t at)
    {
        uint64_t last = leaf->count.load() - 1;
        for (uint64_t i = at; i < last; i++) {
            leaf->keys[i].store(leaf->keys[i + 1].load());
            leaf->values[i].store(leaf->values[i + 1].load());
        }
        leaf->count.store(last);
    }

public:
    Map()
    {
        root.leaves[0].store(new Leaf);
        root.count.store(1);
    }

    map_said get(uint64_t key, uint64_t &found)
    {
        for (;;) {
            Place place = descend(key);
            uint64_t at = place.leaf->find(key);
            bool is_there = place.leaf->has(at, key);
            found = is_there ? place.leaf->values[at].load() : 0;
            if (wrong == 2 || place.leaf->is_still(place.version))
                return is_there ? MAP_TOLD : MAP_NONE;
        }
    }

    map_said put(uint64_t key, uint64_t value, uint64_t &found)
    {
        for (;;) {
            Place place = descend(key);
            uint64_t at = place.leaf->find(key);
            bool is_there = place.leaf->has(at, key);
            if (!is_there && place.leaf->count.load() == PAIRS)
                split_at(place);
            else if (place.leaf->lock(place.version)) {
                found = is_there ? place.leaf->values[at].exchange(value) : 0;
                if (!is_there)
                    insert(place.leaf, at, key, value);
                place.leaf->unlock();
                return is_there ? MAP_TOLD : MAP_NONE;
            }
        }
    }

    map_said del(uint64_t key, uint64_t &found)
    {
        for (;;) {
            Place place = descend(key);
            uint64_t at = place.leaf->find(key);
            bool is_there = place.leaf->has(at, key);
            if (!place.leaf->lock(place.version))
                continue;
            found = is_there ? place.leaf->values[at].load() : 0;
            if (is_there)
                remove(place.leaf, at);
            place.leaf->unlock();
            return is_there ? MAP_TOLD : MAP_NONE;
        }
    }
};

}

#endif
