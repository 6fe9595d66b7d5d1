// A sorted list without locks (Harris 2001, Michael 2002). The lowest bit of a node's link says that the node is removed. Before that, its value is
// set to 0, which is the moment of the removal. Nodes are not freed.
// Wrong 1: a put into a removed node answers as if it were there.
// Wrong 2: a removed node is used again at once, so a link may be set that leads elsewhere by then (ABA).
// Wrong 3: the mark is a word of its own, so a link can be set in a node that is removed.
#ifndef LIST_HPP
#define LIST_HPP

#include "potzendai_test.hpp"
#include <atomic>

namespace list {

struct Node {
    uint64_t key;
    std::atomic<uint64_t> value;
    std::atomic<uintptr_t> next;
    std::atomic<bool> is_removed{false};
};

typedef std::atomic<uintptr_t> Link;

template <int wrong> class Map {
    Link head{0};
    std::atomic<Node *> spare{nullptr};

    static Node *node(uintptr_t link) { return reinterpret_cast<Node *>(link & ~uintptr_t(1)); }
    static uintptr_t unmarked(uintptr_t link) { return link & ~uintptr_t(1); }

    static bool is_removed(Node *n, uintptr_t next)
    {
        return wrong == 3 ? n->is_removed.load() : (next & 1) != 0;
    }

    Node *make(uint64_t key, uint64_t value)
    {
        Node *n = wrong == 2 ? spare.exchange(nullptr) : nullptr;
        if (!n)
            n = new Node;
        n->key = key;
        n->value.store(value, std::memory_order_relaxed);
        return n;
    }

    // Unlinks a removed node: false if the link leads elsewhere by now.
    bool unlink(Link &link, Node *n, uintptr_t next)
    {
        uintptr_t expected = reinterpret_cast<uintptr_t>(n);
        if (!link.compare_exchange_strong(expected, unmarked(next)))
            return false;
        if (wrong == 2)
            spare.store(n);
        return true;
    }

    // Finds the first node of at least this key, and the link that leads to it. Unlinks removed nodes on the way. If the link is null, try again.
    Node *seek_once(uint64_t key, Link *&link)
    {
        link = &head;
        uintptr_t at = link->load();
        while (Node *n = node(at)) {
            uintptr_t next = n->next.load();
            if (is_removed(n, next)) {
                if (!unlink(*link, n, next)) {
                    link = nullptr;
                    return nullptr;
                }
            } else if (n->key >= key)
                return n;
            else
                link = &n->next;
            at = unmarked(next);
        }
        return nullptr;
    }

    Node *seek(uint64_t key, Link *&link)
    {
        Node *n;
        do
            n = seek_once(key, link);
        while (!link);
        return n;
    }

    static void mark(Node *n)
    {
        uintptr_t next = n->next.load();
        if (wrong == 3)
            n->is_removed.store(true);
        else
            while (!(next & 1) && !n->next.compare_exchange_strong(next, next | 1)) {
            }
    }

    // Puts into a node: false if the node is removed meanwhile.
    static bool overwrite(Node *n, uint64_t value, uint64_t &found)
    {
        found = n->value.load();
        while (found && !n->value.compare_exchange_strong(found, value)) {
        }
        if (wrong == 1 && !found)
            n->value.store(value);
        return found != 0 || wrong == 1;
    }

public:
    map_said get(uint64_t key, uint64_t &found)
    {
        Link *link;
        Node *n = seek(key, link);
        if (!n || n->key != key)
            return MAP_NONE;
        found = n->value.load();
        return found ? MAP_TOLD : MAP_NONE;
    }

    map_said put(uint64_t key, uint64_t value, uint64_t &found)
    {
        for (;;) {
            Link *link;
            Node *n = seek(key, link);
            if (n && n->key == key) {
                if (overwrite(n, value, found))
                    return found ? MAP_TOLD : MAP_NONE;
                continue;
            }
            Node *made = make(key, value);
            uintptr_t expected = reinterpret_cast<uintptr_t>(n);
            made->next.store(expected);
            if (link->compare_exchange_strong(expected, reinterpret_cast<uintptr_t>(made)))
                return MAP_NONE;
        }
    }

    map_said del(uint64_t key, uint64_t &found)
    {
        Link *link;
        Node *n = seek(key, link);
        if (!n || n->key != key)
            return MAP_NONE;
        found = n->value.exchange(0);
        mark(n);
        if (!found)
            return MAP_NONE;
        seek(key + 1, link);
        return MAP_TOLD;
    }
};

}

#endif
