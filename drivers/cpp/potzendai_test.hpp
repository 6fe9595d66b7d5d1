/* Tests your ordered map in C++: threads call its methods, their calls are recorded, and each recording is judged.
 *
 * It is C++11 and uses the headers in the folder `c`: copy both folders. Include this first in the source that has `main`:
 *
 *     struct Mine {
 *         map_said get(uint64_t key, uint64_t &found);                   // MAP_TOLD and the value, or MAP_NONE
 *         map_said put(uint64_t key, uint64_t value, uint64_t &found);   // MAP_TOLD and the value before, MAP_NONE, or MAP_DONE
 *     };
 *     int main(int argc, char **argv)
 *     {
 *         Mine mine;
 *         return potzendai::test_main(argc, argv, mine, "mine");
 *     }
 *
 * The object may also have these methods. A member of such a name with another type is an error:
 *
 *     map_said del(uint64_t key, uint64_t &found);
 *     map_said scan(uint64_t low, uint64_t high, std::vector<recording_pair> &pairs);
 *     map_said replace(uint64_t key, uint64_t old, uint64_t value, uint64_t &found);
 *     map_said put_if_absent(uint64_t key, uint64_t value, uint64_t &found);
 *     map_said floor(uint64_t key, recording_pair &pair);
 *     map_said ceiling(uint64_t key, recording_pair &pair);
 *     map_said pop_first(recording_pair &pair);
 *
 *     void reopen();                                                     // for --reopen: closes it at rest, and opens it with its pairs
 *
 * Instead of the object you may give what makes new ones, as --fresh needs: [] { return std::unique_ptr<Mine>(new Mine); }.
 *
 * If the object has a nested type `connection`, made from the object and the number of a thread, each thread makes one and calls its methods.
 *
 * A method that throws has answered MAP_UNKNOWN: nobody knows whether it was done. README.md describes the words and the statuses. */
#ifndef POTZENDAI_TEST_HPP
#define POTZENDAI_TEST_HPP

#include "../c/potzendai_test.h"
#include <memory>
#include <new>
#include <type_traits>
#include <utility>
#include <vector>

namespace potzendai {

/* Finds members of any type by their names: a name that a class and this one both have is ambiguous in a class that derives from both. In a final
 * class none is found. */
struct member_names { int get, put, del, scan, replace, put_if_absent, floor, ceiling, pop_first; };
struct no_class {};
template <class S> struct with_names : std::conditional<__is_final(S), no_class, S>::type, member_names {};

/* Whether S has a method that fits: it is called with these arguments, and sets what it found by a reference. A member of that name that does not
 * fit is an error. */
#define POTZENDAI_FITS(name, asked, told, type) \
    template <class S, class Told> auto name##_takes(int) -> std::is_convertible<decltype(std::declval<S &>().name asked), map_said>; \
    template <class S, class Told> auto name##_takes(long) -> std::false_type; \
    template <class S> auto name##_is_no_name(int) -> decltype((void)&with_names<S>::name, std::true_type()); \
    template <class S> auto name##_is_no_name(long) -> std::false_type; \
    template <class S> struct name##_fits \
        : std::integral_constant<bool, decltype(name##_takes<S, told &>(0))::value && !decltype(name##_takes<S, told>(0))::value> { \
        static_assert(name##_fits::value || decltype(name##_is_no_name<S>(0))::value, "the map's " #name " has to be public, and: " type); \
    };

/* Defines the function of a method over a connection of type S, or null if S has no such method. The macro takes the parameters of the function, the
 * arguments and the result by which a method fits, the arguments of the call, and the type that an error shows. */
#define POTZENDAI_METHOD(name, parameters, asked, told, called, type) \
    POTZENDAI_FITS(name, asked, told, type) \
    template <class S> auto name##_of(std::true_type) -> map_said (*) parameters \
    { \
        return [] parameters -> map_said { \
            try { \
                return static_cast<S *>(connection)->name called; \
            } catch (...) { \
                return MAP_UNKNOWN; \
            } \
        }; \
    } \
    template <class S> auto name##_of(std::false_type) -> map_said (*) parameters { return nullptr; }

#define POTZENDAI_NUMBER std::declval<uint64_t>()
#define POTZENDAI_TOLD std::declval<Told>()

POTZENDAI_METHOD(get, (void *connection, uint64_t key, uint64_t *found), (POTZENDAI_NUMBER, POTZENDAI_TOLD), uint64_t, (key, *found),
                 "map_said get(uint64_t key, uint64_t &found)")
POTZENDAI_METHOD(put, (void *connection, uint64_t key, uint64_t value, uint64_t *found),
                 (POTZENDAI_NUMBER, POTZENDAI_NUMBER, POTZENDAI_TOLD), uint64_t, (key, value, *found),
                 "map_said put(uint64_t key, uint64_t value, uint64_t &found)")
POTZENDAI_METHOD(del, (void *connection, uint64_t key, uint64_t *found), (POTZENDAI_NUMBER, POTZENDAI_TOLD), uint64_t, (key, *found),
                 "map_said del(uint64_t key, uint64_t &found)")
POTZENDAI_METHOD(replace, (void *connection, uint64_t key, uint64_t old, uint64_t value, uint64_t *found),
                 (POTZENDAI_NUMBER, POTZENDAI_NUMBER, POTZENDAI_NUMBER, POTZENDAI_TOLD), uint64_t, (key, old, value, *found),
                 "map_said replace(uint64_t key, uint64_t old, uint64_t value, uint64_t &found)")
POTZENDAI_METHOD(put_if_absent, (void *connection, uint64_t key, uint64_t value, uint64_t *found),
                 (POTZENDAI_NUMBER, POTZENDAI_NUMBER, POTZENDAI_TOLD), uint64_t, (key, value, *found),
                 "map_said put_if_absent(uint64_t key, uint64_t value, uint64_t &found)")
POTZENDAI_METHOD(floor, (void *connection, uint64_t key, recording_pair *pair), (POTZENDAI_NUMBER, POTZENDAI_TOLD), recording_pair,
                 (key, *pair), "map_said floor(uint64_t key, recording_pair &pair)")
POTZENDAI_METHOD(ceiling, (void *connection, uint64_t key, recording_pair *pair), (POTZENDAI_NUMBER, POTZENDAI_TOLD), recording_pair,
                 (key, *pair), "map_said ceiling(uint64_t key, recording_pair &pair)")
POTZENDAI_METHOD(pop_first, (void *connection, recording_pair *pair), (POTZENDAI_TOLD), recording_pair, (*pair),
                 "map_said pop_first(recording_pair &pair)")
POTZENDAI_FITS(scan, (POTZENDAI_NUMBER, POTZENDAI_NUMBER, POTZENDAI_TOLD), std::vector<recording_pair>,
               "map_said scan(uint64_t low, uint64_t high, std::vector<recording_pair> &pairs)")

#undef POTZENDAI_FITS
#undef POTZENDAI_METHOD
#undef POTZENDAI_NUMBER
#undef POTZENDAI_TOLD

typedef map_said (*scan_function)(void *connection, uint64_t low, uint64_t high, recording_pair *pairs, size_t room, size_t *count);

/* Scans into a vector, copies as many pairs as have room, and counts all. */
template <class S> map_said scan_pairs(void *connection, uint64_t low, uint64_t high, recording_pair *pairs, size_t room, size_t *count)
{
    try {
        std::vector<recording_pair> all;
        map_said said = static_cast<S *>(connection)->scan(low, high, all);
        *count = all.size();
        for (size_t i = 0; i < all.size() && i < room; i++)
            pairs[i] = all[i];
        return said;
    } catch (...) {
        return MAP_UNKNOWN;
    }
}

template <class S> scan_function scan_of(std::true_type)
{
    return scan_pairs<S>;
}

template <class S> scan_function scan_of(std::false_type)
{
    return nullptr;
}

/* Returns what `make` returns, or null if it throws: with errno ENOMEM if memory was refused. */
template <class Make> void *made_or_null(Make make)
{
    try {
        return make();
    } catch (const std::bad_alloc &) {
        errno = ENOMEM;
        return nullptr;
    } catch (...) {
        return nullptr;
    }
}

template <class Map> void *open_connection(void *map, unsigned thread)
{
    return made_or_null([=] { return new typename Map::connection(*static_cast<Map *>(map), thread); });
}

template <class Map> void close_connection(void *connection)
{
    delete static_cast<typename Map::connection *>(connection);
}

/* Takes the functions of a type S: of a connection, or of the map itself. */
template <class S> void take_methods(potzendai_map &functions)
{
    functions.get = get_of<S>(std::integral_constant<bool, get_fits<S>::value>());
    functions.put = put_of<S>(std::integral_constant<bool, put_fits<S>::value>());
    functions.del = del_of<S>(std::integral_constant<bool, del_fits<S>::value>());
    functions.scan = scan_of<S>(std::integral_constant<bool, scan_fits<S>::value>());
    functions.replace = replace_of<S>(std::integral_constant<bool, replace_fits<S>::value>());
    functions.put_if_absent = put_if_absent_of<S>(std::integral_constant<bool, put_if_absent_fits<S>::value>());
    functions.floor = floor_of<S>(std::integral_constant<bool, floor_fits<S>::value>());
    functions.ceiling = ceiling_of<S>(std::integral_constant<bool, ceiling_fits<S>::value>());
    functions.pop_first = pop_first_of<S>(std::integral_constant<bool, pop_first_fits<S>::value>());
}

template <class Map> void take_map(potzendai_map &functions, typename Map::connection *)
{
    functions.open = open_connection<Map>;
    functions.close = close_connection<Map>;
    take_methods<typename Map::connection>(functions);
}

template <class Map> void take_map(potzendai_map &functions, ...)
{
    take_methods<Map>(functions);
}

/* Takes the function that closes a map at rest and opens it again, if the map has it. */
template <class Map> auto take_reopen(potzendai_map &functions, int) -> decltype(std::declval<Map &>().reopen(), void())
{
    functions.reopen = [](void *opened) {
        return made_or_null([=] {
            static_cast<Map *>(opened)->reopen();
            return opened;
        });
    };
}

template <class Map> void take_reopen(potzendai_map &, long) {}

/* A pointer to the map that a factory has made. The run owns it. */
template <class Map> Map *owned(Map *made) { return made; }
template <class Map> Map *owned(std::unique_ptr<Map> &&made) { return made.release(); }

/* Tests the maps that a copy of a factory makes. */
template <class Factory>
auto test_map(int argc, char **argv, Factory &factory, potzendai_map &functions, int) -> decltype(owned(factory()), int())
{
    typedef typename std::decay<Factory>::type Kept;
    typedef typename std::remove_pointer<decltype(owned(factory()))>::type Map;
    Kept kept(factory);
    functions.map = &kept;
    functions.begin = [](void *kept_factory) {
        return made_or_null([=] { return owned((*static_cast<Kept *>(kept_factory))()); });
    };
    functions.end = [](void *opened) { delete static_cast<Map *>(opened); };
    take_map<Map>(functions, nullptr);
    take_reopen<Map>(functions, 0);
    return potzendai_test_main(argc, argv, &functions);
}

/* Tests the one map that is given. */
template <class Map> int test_map(int argc, char **argv, Map &map, potzendai_map &functions, long)
{
    functions.map = &map;
    take_map<Map>(functions, nullptr);
    take_reopen<Map>(functions, 0);
    return potzendai_test_main(argc, argv, &functions);
}

/* The whole program: reads the words, tests the map or the maps that a factory makes, prints the verdict, and returns the status. A factory is
 * called without arguments, and returns a new map as a std::unique_ptr, or as a pointer that the run deletes. */
template <class Map> int test_main(int argc, char **argv, Map &&map, const char *name, unsigned value_bits = 0)
{
    potzendai_map functions = potzendai_map();
    functions.name = name;
    functions.value_bits = value_bits;
    return test_map(argc, argv, map, functions, 0);
}

}

#endif
