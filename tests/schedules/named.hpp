// A program with several maps, of which its name says one.
#ifndef NAMED_HPP
#define NAMED_HPP

#include "potzendai_test.hpp"
#include <cstdio>
#include <string>

typedef int (*Test)(int argc, char **argv, const char *name);
struct Named { const char *name; Test test; };

template <class Map> int test(int argc, char **argv, const char *name)
{
    Map map;
    return potzendai::test_main(argc, argv, map, name);
}

// The same, of maps that a factory makes.
template <class Map> int test_new(int argc, char **argv, const char *name)
{
    return potzendai::test_main(argc, argv, [] { return std::unique_ptr<Map>(new Map); }, name);
}

inline int test_named(int argc, char **argv, const std::vector<Named> &all)
{
    std::string path = argv[0], name = path.substr(path.rfind('/') + 1);
    for (const Named &one : all)
        if (one.name == name)
            return one.test(argc, argv, one.name);
    std::fprintf(stderr, "%s: no such map\n", name.c_str());
    return POTZENDAI_BAD_WORDS;
}

#endif
