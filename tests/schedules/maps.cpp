// All maps of this folder in one program, since most of what is compiled is the driver. The program's name says which map it tests, and with which
// bug: list2 is the list with its bug 2, and list0 the one without.
#include "copies.hpp"
#include "dekker.hpp"
#include "endings.hpp"
#include "epochs.hpp"
#include "hash.hpp"
#include "hazard.hpp"
#include "list.hpp"
#include "locks.hpp"
#include "named.hpp"
#include "scan.hpp"
#include "seqlock.hpp"
#include "skip_list.hpp"
#include "stripes.hpp"
#include "tree.hpp"

int main(int argc, char **argv)
{
    return test_named(argc, argv, {
        {"copies0", test<copies::Map<0>>}, {"copies1", test<copies::Map<1>>},
        {"dekker0", test<dekker::Map<0>>}, {"dekker1", test<dekker::Map<1>>},
        {"ending1", test<endings::Map<1>>}, {"ending2", test<endings::Map<2>>}, {"ending3", test<endings::Map<3>>},
        {"ending4", test<endings::Map<4>>}, {"ending5", test<endings::Map<5>>},
        {"epochs0", test<epochs::Map<0>>}, {"epochs1", test<epochs::Map<1>>},
        {"hash0", test<hash::Map<0>>}, {"hash1", test<hash::Map<1>>},
        {"hazard0", test<hazard::Map<0>>}, {"hazard1", test<hazard::Map<1>>},
        {"list0", test<list::Map<0>>}, {"list1", test<list::Map<1>>}, {"list2", test<list::Map<2>>}, {"list3", test<list::Map<3>>},
        {"locks1", test<locks::Map<1>>},
        {"new_locks1", test_new<locks::Map<1>>},
        {"scan1", test<scan::Map<1>>},
        {"seqlock0", test<seqlock::Map<0>>}, {"seqlock1", test<seqlock::Map<1>>},
        {"skip_list0", test<skip_list::Map<0>>}, {"skip_list1", test<skip_list::Map<1>>},
        {"stripes0", test<stripes::Map<0>>}, {"stripes1", test<stripes::Map<1>>},
        {"tree0", test<tree::Map<0>>}, {"tree1", test<tree::Map<1>>}, {"tree2", test<tree::Map<2>>},
    });
}
