/* Values of four words that a put copies as a whole, each of a size that the compiler does not know. The program's name says how: copied_by_memcpy,
 * copied_by_memmove or copied_by_memset. A get reads them without the lock, in a function that the compiler does not instrument, so in one piece: it is
 * torn only if another thread runs within the copying. Keys below 64. */
#include "potzendai_test.h"

enum { KEYS = 64, WORDS = 4 };

struct value { uint64_t words[WORDS]; };
static struct value values[KEYS];
static pthread_mutex_t lock = PTHREAD_MUTEX_INITIALIZER;
static volatile size_t size = sizeof(struct value);

static void by_memcpy(struct value *to, const struct value *from)
{
    memcpy(to, from, size);
}

static void by_memmove(struct value *to, const struct value *from)
{
    memmove(to, from, size);
}

/* For values of one byte. */
static void by_memset(struct value *to, const struct value *from)
{
    memset(to, (int)(from->words[0] & 255), size);
}

struct way { const char *name; void (*copy)(struct value *to, const struct value *from); unsigned value_bits; uint64_t mask; };
static const struct way ways[] = {
    {"copied_by_memcpy", by_memcpy, 0, UINT64_MAX}, {"copied_by_memmove", by_memmove, 0, UINT64_MAX}, {"copied_by_memset", by_memset, 8, 255}
};
static struct way way;

/* Answers a value. One whose words differ was never put: the answer is a value that nobody puts. */
static enum map_said tell(const struct value *value, uint64_t *found)
{
    for (int i = 1; i < WORDS; i++)
        if (value->words[i] != value->words[0]) {
            *found = UINT64_MAX;
            return MAP_TOLD;
        }
    *found = value->words[0] & way.mask;
    return value->words[0] ? MAP_TOLD : MAP_NONE;
}

__attribute__((no_sanitize("thread"), noinline)) static void read_at_once(struct value *to, const struct value *from)
{
    for (int i = 0; i < WORDS; i++)
        to->words[i] = ((const volatile struct value *)from)->words[i];
}

static enum map_said get(void *map, uint64_t key, uint64_t *found)
{
    struct value value;
    (void)map;
    read_at_once(&value, &values[key]);
    return tell(&value, found);
}

static enum map_said put(void *map, uint64_t key, uint64_t value, uint64_t *found)
{
    struct value made = {{value, value, value, value}};
    (void)map;
    pthread_mutex_lock(&lock);
    enum map_said said = tell(&values[key], found);
    way.copy(&values[key], &made);
    pthread_mutex_unlock(&lock);
    return said;
}

int main(int argc, char **argv)
{
    const char *slash = strrchr(argv[0], '/'), *name = slash ? slash + 1 : argv[0];
    for (size_t i = 0; i < sizeof ways / sizeof *ways; i++)
        way = strcmp(ways[i].name, name) == 0 ? ways[i] : way;
    if (!way.name)
        return fprintf(stderr, "%s: no such map\n", name), POTZENDAI_BAD_WORDS;
    struct potzendai_map map = {.name = way.name, .value_bits = way.value_bits, .get = get, .put = put};
    return potzendai_test_main(argc, argv, &map);
}
