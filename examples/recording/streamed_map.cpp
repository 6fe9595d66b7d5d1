/* Streams what threads do at a std::map whose keys are texts. From the top of the repository:
 *
 *     c++ -std=c++17 -O2 -pthread -o streamed_map examples/recording/streamed_map.cpp
 *     ./streamed_map locked 250000 | ./bench follow
 *     ./streamed_map unlocked 0 | ./bench follow
 *
 * `locked` holds the map's lock over each call: however many calls each of the four threads makes, they have an order. In `unlocked`
 * an insert looks for its key, lets the lock go, and takes it again to write; with 0 calls it goes on until the follower says no.
 */
#include "streamed_run.h"
#include <algorithm>
#include <cstring>
#include <map>
#include <mutex>
#include <optional>
#include <shared_mutex>
#include <string>

enum { THREADS = 4, KEYS = 1000, VALUES = 100, RANGE = 4 };

/* The key of number n is the n-th text of this list. It is sorted, so that a range of texts is a range of numbers. */
static std::vector<std::string> names;

static std::map<std::string, uint64_t> map;
static std::shared_mutex map_lock;
using Shared = std::shared_lock<std::shared_mutex>;
using Sole = std::unique_lock<std::shared_mutex>;

static uint64_t number_of(const std::string &name)
{
    return std::lower_bound(names.begin(), names.end(), name) - names.begin();
}

static recording_pair numbered(const std::pair<const std::string, uint64_t> &pair) { return {number_of(pair.first), pair.second}; }

/* Under the lock: the value at a key, where there is one. */
static std::optional<uint64_t> value_at(const std::string &name)
{
    auto place = map.find(name);
    return place == map.end() ? std::nullopt : std::optional(place->second);
}

static bool answered(unsigned p, std::optional<uint64_t> value)
{
    return !streaming_answer(&stream, p, value.has_value(), value.value_or(0));
}

static std::optional<uint64_t> insert(const std::string &name, uint64_t value, bool keeps_lock)
{
    Sole held(map_lock);
    auto old = value_at(name);
    if (!keeps_lock) {
        held.unlock();
        std::this_thread::yield();
        held.lock();
    }
    map[name] = value;
    return old;
}

static std::optional<uint64_t> remove(const std::string &name)
{
    Sole held(map_lock);
    auto old = value_at(name);
    map.erase(name);
    return old;
}

static std::optional<uint64_t> replace(const std::string &name, uint64_t old_value, uint64_t value)
{
    Sole held(map_lock);
    auto old = value_at(name);
    if (old == old_value)
        map[name] = value;
    return old;
}

static std::optional<uint64_t> get(const std::string &name)
{
    Shared held(map_lock);
    return value_at(name);
}

/* The pairs from one key to another. */
static std::vector<recording_pair> scan(const std::string &low, const std::string &high)
{
    std::vector<recording_pair> pairs;
    Shared held(map_lock);
    for (auto place = map.lower_bound(low); place != map.end() && place->first <= high; ++place)
        pairs.push_back(numbered(*place));
    return pairs;
}

/* The least pair from a key on, where there is one. */
static std::vector<recording_pair> ceiling(const std::string &name)
{
    Shared held(map_lock);
    auto place = map.lower_bound(name);
    return place == map.end() ? std::vector<recording_pair>() : std::vector{numbered(*place)};
}

/* An insert that leaves a present key as it is. */
static std::optional<uint64_t> insert_if_absent(const std::string &name, uint64_t value)
{
    Sole held(map_lock);
    auto old = value_at(name);
    map.insert({name, value});
    return old;
}

/* Invoke, call, answer. Each of these returns whether it was recorded. */
static bool call_get(unsigned p, uint64_t key)
{
    return !streaming_invoke_get(&stream, p, key) && answered(p, get(names[key]));
}

static bool call_insert(unsigned p, uint64_t key, uint64_t value, bool keeps_lock)
{
    return !streaming_invoke_insert(&stream, p, key, value) && answered(p, insert(names[key], value, keeps_lock));
}

static bool call_remove(unsigned p, uint64_t key)
{
    return !streaming_invoke_remove(&stream, p, key) && answered(p, remove(names[key]));
}

static bool call_replace(unsigned p, uint64_t key, uint64_t old, uint64_t value)
{
    return !streaming_invoke_replace(&stream, p, key, old, value) && answered(p, replace(names[key], old, value));
}

static bool call_scan(unsigned p, uint64_t low, uint64_t high)
{
    if (streaming_invoke_scan(&stream, p, low, high))
        return false;
    auto pairs = scan(names[low], names[high]);
    return !streaming_answer_pairs(&stream, p, pairs.data(), pairs.size());
}

/* An insert that found its key there is a get. */
static bool call_insert_if_absent(unsigned p, uint64_t key, uint64_t value)
{
    if (streaming_hold(&stream, p))
        return false;
    auto old = insert_if_absent(names[key], value);
    int refused = old ? streaming_invoke_get(&stream, p, key) : streaming_invoke_insert(&stream, p, key, value);
    return !refused && answered(p, old);
}

/* The least key from one on is a scan up to the key that was found, with its pair alone; or to the last key, without any. */
static bool call_ceiling(unsigned p, uint64_t key)
{
    if (streaming_hold(&stream, p))
        return false;
    auto found = ceiling(names[key]);
    return !streaming_invoke_scan(&stream, p, key, found.empty() ? UINT64_MAX : found[0].key)
        && !streaming_answer_pairs(&stream, p, found.data(), found.size());
}

int main(int count, char **words)
{
    bool keeps_lock = count == 3 && std::strcmp(words[1], "locked") == 0;
    if (!keeps_lock && !(count == 3 && std::strcmp(words[1], "unlocked") == 0)) {
        std::fputs("usage: streamed_map locked|unlocked CALLS\n", stderr);
        return 2;
    }
    for (unsigned number = 0; number < KEYS; number++)
        names.push_back("key " + std::to_string(number));
    std::sort(names.begin(), names.end());
    map["key 5"] = 5;
    static const recording_pair start[] = {numbered(*map.begin())};
    if (streaming_open(&stream, THREADS, 65536, RANGE, 1) || streaming_start(&stream, start, 1))
        return 1;
    return run_streamed(THREADS, std::strtoull(words[2], nullptr, 10), [=](unsigned p, Dice &dice) {
        uint64_t share = dice.below(100), key = dice.below(KEYS), value = dice.below(VALUES), old = dice.below(VALUES);
        return share < 40 ? call_get(p, key)
            : share < 65 ? call_insert(p, key, value, keeps_lock)
            : share < 80 ? call_remove(p, key)
            : share < 88 ? call_replace(p, key, old, value)
            : share < 96 ? call_insert_if_absent(p, key, value)
            : share < 99 ? call_ceiling(p, key)
            : call_scan(p, key, std::min<uint64_t>(key + old % RANGE, KEYS - 1));
    });
}
