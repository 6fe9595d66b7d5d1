/* A map under a lock, tested: README.md says how it is built and run. */
#include "potzendai_test.h"

static uint64_t values[16384]; /* by key; 0 if there is none */
static pthread_mutex_t lock = PTHREAD_MUTEX_INITIALIZER;

/* Finds the value of a key. A put then stores one, if the key has the value `old`, or without `old` in any case. */
static enum map_said change(uint64_t key, bool is_put, const uint64_t *old, uint64_t value, uint64_t *found)
{
    pthread_mutex_lock(&lock);
    *found = values[key];
    if (is_put && (!old || (*found && *found == *old)))
        values[key] = value;
    pthread_mutex_unlock(&lock);
    return *found ? MAP_TOLD : MAP_NONE;
}

static enum map_said get(void *map, uint64_t key, uint64_t *found) { return (void)map, change(key, false, NULL, 0, found); }
static enum map_said del(void *map, uint64_t key, uint64_t *found) { return (void)map, change(key, true, NULL, 0, found); }

static enum map_said put(void *map, uint64_t key, uint64_t value, uint64_t *found)
{
    return (void)map, change(key, true, NULL, value, found);
}

static enum map_said replace(void *map, uint64_t key, uint64_t old, uint64_t value, uint64_t *found)
{
    return (void)map, change(key, true, &old, value, found);
}

static enum map_said scan(void *map, uint64_t low, uint64_t high, struct recording_pair *pairs, size_t room, size_t *count)
{
    (void)map;
    pthread_mutex_lock(&lock);
    for (uint64_t key = low; key <= high && *count < room; key++)
        if (values[key])
            pairs[(*count)++] = (struct recording_pair){key, values[key]};
    pthread_mutex_unlock(&lock);
    return MAP_TOLD;
}

int main(int argc, char **argv)
{
    struct potzendai_map map = {.name = "example", .get = get, .put = put, .del = del, .scan = scan, .replace = replace};
    return potzendai_test_main(argc, argv, &map);
}
