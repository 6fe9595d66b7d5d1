/* Streams what threads do at maps of oneTBB (Debian's libtbb-dev). From the top of the repository:
 *
 *     c++ -std=c++17 -O2 -pthread -o tbb_maps examples/recording/tbb_maps.cpp -ltbb
 *     ./tbb_maps hash 250000 | ./bench follow
 *     ./tbb_maps ordered 250000 | ./bench follow
 *     ./tbb_maps ranges 0 | ./bench follow
 *
 * `hash` is concurrent_hash_map. An accessor locks one element, so a call under it says what it found.
 *
 * `ordered` is concurrent_map, a skip list to which threads only add. An insert leaves a present key as it is. lower_bound returns the least key
 * from one on, and a step of an iterator the next key. Each of these is one call.
 *
 * `ranges` records several steps as one scan, which they are not. While they go on, a key is added that they have passed, and then one that they
 * have not reached. With 0 calls it goes on until the follower says no.
 */
#include "streamed_run.h"
#include <atomic>
#include <cstring>
#include <tbb/concurrent_hash_map.h>
#include <tbb/concurrent_map.h>

enum { THREADS = 4, KEYS = 1000, VALUES = 100, RANGE = 8, WINDOW = 64 };

using Hash = tbb::concurrent_hash_map<uint64_t, uint64_t>;
using Ordered = tbb::concurrent_map<uint64_t, uint64_t>;
static Hash hash;
static Ordered ordered;

static bool answered(unsigned p, bool found, uint64_t value) { return !streaming_answer(&stream, p, found, value); }

static bool hash_get(unsigned p, uint64_t key)
{
    if (streaming_invoke_get(&stream, p, key))
        return false;
    Hash::const_accessor element;
    bool found = hash.find(element, key);
    uint64_t value = found ? element->second : 0;
    element.release();
    return answered(p, found, value);
}

static bool hash_insert(unsigned p, uint64_t key, uint64_t value)
{
    if (streaming_invoke_insert(&stream, p, key, value))
        return false;
    Hash::accessor element;
    bool found = !hash.insert(element, key);
    uint64_t old = element->second;
    element->second = value;
    element.release();
    return answered(p, found, old);
}

static bool hash_remove(unsigned p, uint64_t key)
{
    if (streaming_invoke_remove(&stream, p, key))
        return false;
    Hash::accessor element;
    bool found = hash.find(element, key);
    uint64_t old = found ? element->second : 0;
    if (found)
        hash.erase(element);
    return answered(p, found, old);
}

static bool hash_replace(unsigned p, uint64_t key, uint64_t expected, uint64_t value)
{
    if (streaming_invoke_replace(&stream, p, key, expected, value))
        return false;
    Hash::accessor element;
    bool found = hash.find(element, key);
    uint64_t old = found ? element->second : 0;
    if (found && old == expected)
        element->second = value;
    element.release();
    return answered(p, found, old);
}

/* An insert without an accessor returns only whether the key was new. If it was not, the call has changed nothing, and is left out. */
static bool hash_insert_new(unsigned p, uint64_t key, uint64_t value)
{
    if (streaming_hold(&stream, p))
        return false;
    if (!hash.insert({key, value}))
        return !streaming_drop(&stream, p);
    return !streaming_invoke_insert(&stream, p, key, value) && answered(p, false, 0);
}

static bool ordered_get(unsigned p, uint64_t key)
{
    if (streaming_invoke_get(&stream, p, key))
        return false;
    auto place = ordered.find(key);
    bool found = place != ordered.end();
    return answered(p, found, found ? place->second : 0);
}

/* An insert that found its key there has left it as it was: it is a get. */
static bool ordered_insert(unsigned p, uint64_t key, uint64_t value)
{
    if (streaming_hold(&stream, p))
        return false;
    auto [place, is_new] = ordered.insert({key, value});
    if (is_new)
        return !streaming_invoke_insert(&stream, p, key, value) && answered(p, false, 0);
    return !streaming_invoke_get(&stream, p, key) && answered(p, true, place->second);
}

/* What was the least key from one on is a scan up to it, with its pair alone; or up to the last key, without any. */
static bool told_ceiling(unsigned p, uint64_t key, Ordered::iterator place)
{
    if (place == ordered.end())
        return !streaming_invoke_scan(&stream, p, key, UINT64_MAX) && !streaming_answer_pairs(&stream, p, nullptr, 0);
    recording_pair pair = {place->first, place->second};
    return !streaming_invoke_scan(&stream, p, key, pair.key) && !streaming_answer_pairs(&stream, p, &pair, 1);
}

/* Some steps from a key on, each a call. */
static bool ordered_steps(unsigned p, uint64_t key, uint64_t steps)
{
    if (streaming_hold(&stream, p))
        return false;
    auto place = ordered.lower_bound(key);
    while (told_ceiling(p, key, place)) {
        if (place == ordered.end() || steps-- == 0)
            return true;
        key = place->first + 1;
        if (streaming_hold(&stream, p))
            return false;
        ++place;
    }
    return false;
}

/* The same steps as one scan, which promises more than they do. */
static bool ordered_range(unsigned p, uint64_t low, uint64_t high)
{
    if (streaming_invoke_scan(&stream, p, low, high))
        return false;
    recording_pair pairs[RANGE];
    size_t count = 0;
    for (auto place = ordered.lower_bound(low); place != ordered.end() && place->first <= high; ++place) {
        pairs[count++] = {place->first, place->second};
        std::this_thread::yield();
    }
    return !streaming_answer_pairs(&stream, p, pairs, count);
}

static bool call_hash(unsigned p, Dice &dice)
{
    uint64_t share = dice.below(100), key = dice.below(KEYS), value = dice.below(VALUES), expected = dice.below(VALUES);
    return share < 40 ? hash_get(p, key)
        : share < 60 ? hash_insert(p, key, value)
        : share < 80 ? hash_remove(p, key)
        : share < 90 ? hash_replace(p, key, expected, value)
        : hash_insert_new(p, key, value);
}

/* Keys only come, so the threads go on to ever higher ones, all at the same. */
static bool call_ordered(unsigned p, Dice &dice, bool has_ranges)
{
    static std::atomic<uint64_t> calls;
    uint64_t share = dice.below(200), key = calls++ / 8 + dice.below(WINDOW), value = dice.below(VALUES);
    return share < 120 ? ordered_insert(p, key, value)
        : share < 199 ? ordered_get(p, key)
        : has_ranges ? ordered_range(p, key, key + RANGE - 1)
        : ordered_steps(p, key, value % RANGE);
}

int main(int count, char **words)
{
    bool is_hash = count == 3 && std::strcmp(words[1], "hash") == 0, is_ranges = count == 3 && std::strcmp(words[1], "ranges") == 0;
    if (!is_hash && !is_ranges && !(count == 3 && std::strcmp(words[1], "ordered") == 0)) {
        std::fputs("usage: tbb_maps hash|ordered|ranges CALLS\n", stderr);
        return 2;
    }
    if (streaming_open(&stream, THREADS, 65536, RANGE, 1))
        return 1;
    return run_streamed(THREADS, std::strtoull(words[2], nullptr, 10), [=](unsigned p, Dice &dice) {
        return is_hash ? call_hash(p, dice) : call_ordered(p, dice, is_ranges);
    });
}
