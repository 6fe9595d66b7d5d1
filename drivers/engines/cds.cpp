// A test of the SkipListMap of libcds under hazard pointers. With the first word `plain`, a put is insert(key, value), which makes an item and then
// sets its value. Without it, a put is emplace(key, value), which makes both at once. README.md says how it is built.
#include "../cpp/potzendai_test.hpp"
#include <cds/container/skip_list_map_hp.h>
#include <cds/gc/hp.h>
#include <cds/init.h>
#include <cstring>

typedef cds::container::SkipListMap<cds::gc::HP, uint64_t, uint64_t> list_type;

static bool is_plain;

struct List {
    list_type pairs;

    // Makes a thread one of the library as long as it makes calls.
    class connection {
        list_type &pairs;

    public:
        connection(List &list, unsigned) : pairs(list.pairs) { cds::threading::Manager::attachThread(); }
        ~connection() { cds::threading::Manager::detachThread(); }

        map_said get(uint64_t key, uint64_t &found)
        {
            bool is_there = pairs.find(key, [&found](list_type::value_type &item) { found = item.second; });
            return is_there ? MAP_TOLD : MAP_NONE;
        }

        // The value that was there is not given: another thread may erase it in between.
        map_said put_if_absent(uint64_t key, uint64_t value, uint64_t &)
        {
            bool is_new = is_plain ? pairs.insert(key, value) : pairs.emplace(key, value);
            return is_new ? MAP_NONE : MAP_FOUND;
        }

        map_said del(uint64_t key, uint64_t &found)
        {
            bool is_there = pairs.erase(key, [&found](list_type::value_type &item) { found = item.second; });
            return is_there ? MAP_TOLD : MAP_NONE;
        }
    };
};

int main(int argc, char **argv)
{
    char again[] = "cds plain";
    is_plain = argc > 1 && strcmp(argv[1], "plain") == 0;
    if (is_plain)
        argv[1] = again;
    int status;
    cds::Initialize();
    {
        cds::gc::HP hazards(list_type::c_nHazardPtrCount);
        cds::threading::Manager::attachThread();
        List list;
        status = potzendai::test_main(argc - is_plain, argv + is_plain, list, "cds");
        cds::threading::Manager::detachThread();
    }
    cds::Terminate();
    return status;
}
