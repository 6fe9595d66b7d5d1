/* LMDB, tested: each call is one transaction. With the word `plain` before the options, puts and deletes are only mdb_put and mdb_del, which do
 * not say what value was there. README.md says how it is built, and what the other words set. */
#include "../c/potzendai_test.h"
#include "settings.h"
#include <lmdb.h>

static MDB_env *env;
static MDB_dbi pairs;
static char folder[POTZENDAI_PATH];
static bool is_plain;
static unsigned flags = MDB_NOSYNC;

static MDB_val bytes_of(uint64_t *number) { return (MDB_val){sizeof *number, number}; }
static uint64_t number_in(MDB_val value) { uint64_t number; memcpy(&number, value.mv_data, sizeof number); return number; }

/* Ends a transaction. Its answer holds if it is committed. If a commit fails, the manual does not say that nothing has changed. */
static enum map_said end(MDB_txn *txn, int status, enum map_said said)
{
    if (status == 0 && said != MAP_REFUSED)
        return mdb_txn_commit(txn) ? MAP_UNKNOWN : said;
    mdb_txn_abort(txn);
    return MAP_REFUSED;
}

/* What is at a key: the status is that of a failure. */
static int look(MDB_txn *txn, uint64_t key, uint64_t *found, enum map_said *said)
{
    MDB_val at = bytes_of(&key), value;
    int status = mdb_get(txn, pairs, &at, &value);
    *said = status ? MAP_NONE : MAP_TOLD;
    *found = status ? 0 : number_in(value);
    return status == MDB_NOTFOUND ? 0 : status;
}

static enum map_said get(void *map, uint64_t key, uint64_t *found)
{
    MDB_txn *txn;
    enum map_said said;
    (void)map;
    if (mdb_txn_begin(env, NULL, MDB_RDONLY, &txn))
        return MAP_REFUSED;
    potzendai_taken();
    int status = look(txn, key, found, &said);
    return end(txn, status, said);
}

/* Looks what is there, unless it is plain, and then puts or deletes. A replace does so only if the old value is there. */
static enum map_said change(uint64_t key, uint64_t *value, const uint64_t *old, uint64_t *found)
{
    MDB_txn *txn;
    MDB_val at = bytes_of(&key), put = value ? bytes_of(value) : at;
    enum map_said said = MAP_DONE;
    if (mdb_txn_begin(env, NULL, 0, &txn))
        return MAP_REFUSED;
    int status = is_plain && !old ? 0 : look(txn, key, found, &said);
    if (status == 0 && (!old || (said == MAP_TOLD && *found == *old)))
        status = value ? mdb_put(txn, pairs, &at, &put, 0) : mdb_del(txn, pairs, &at, NULL);
    if (!value && status == MDB_NOTFOUND)
        return end(txn, 0, MAP_NONE);
    return end(txn, status, !value && is_plain ? MAP_FOUND : said);
}

static enum map_said put(void *map, uint64_t key, uint64_t value, uint64_t *found)
{
    return (void)map, change(key, &value, NULL, found);
}

static enum map_said del(void *map, uint64_t key, uint64_t *found)
{
    return (void)map, change(key, NULL, NULL, found);
}

static enum map_said replace(void *map, uint64_t key, uint64_t old, uint64_t value, uint64_t *found)
{
    return (void)map, change(key, &value, &old, found);
}

static enum map_said put_if_absent(void *map, uint64_t key, uint64_t value, uint64_t *found)
{
    MDB_txn *txn;
    MDB_val at = bytes_of(&key), put = bytes_of(&value);
    (void)map;
    if (mdb_txn_begin(env, NULL, 0, &txn))
        return MAP_REFUSED;
    int status = mdb_put(txn, pairs, &at, &put, MDB_NOOVERWRITE);
    if (status == MDB_KEYEXIST)
        *found = number_in(put);
    return end(txn, status == MDB_KEYEXIST ? 0 : status, status ? MAP_TOLD : MAP_NONE);
}

/* The pairs that a cursor meets in one read transaction, which sees what was there as it began. */
static enum map_said scan(void *map, uint64_t low, uint64_t high, struct recording_pair *all, size_t room, size_t *count)
{
    MDB_txn *txn;
    MDB_cursor *cursor;
    MDB_val at = bytes_of(&low), value;
    (void)map;
    if (mdb_txn_begin(env, NULL, MDB_RDONLY, &txn))
        return MAP_REFUSED;
    potzendai_taken();
    int status = mdb_cursor_open(txn, pairs, &cursor);
    if (status)
        return end(txn, status, MAP_REFUSED);
    status = mdb_cursor_get(cursor, &at, &value, MDB_SET_RANGE);
    for (; status == 0 && number_in(at) <= high && *count < room; status = mdb_cursor_get(cursor, &at, &value, MDB_NEXT))
        all[(*count)++] = (struct recording_pair){number_in(at), number_in(value)};
    mdb_cursor_close(cursor);
    return end(txn, status == MDB_NOTFOUND ? 0 : status, MAP_TOLD);
}

static enum map_said ceiling_of(void *map, uint64_t key, struct recording_pair *pair)
{
    size_t count = 0;
    enum map_said said = scan(map, key, UINT64_MAX, pair, 1, &count);
    return said == MAP_TOLD && count == 0 ? MAP_NONE : said;
}

/* Opens what is in the folder, or begins there. */
static int open_folder(void)
{
    MDB_txn *txn;
    size_t most = flags & MDB_WRITEMAP ? 1u << 24 : 1u << 28; /* the file has it all under MDB_WRITEMAP */
    return mdb_env_create(&env) || mdb_env_set_mapsize(env, most) || mdb_env_open(env, folder, flags, 0600)
        || mdb_txn_begin(env, NULL, 0, &txn) || mdb_dbi_open(txn, NULL, MDB_INTEGERKEY, &pairs) || mdb_txn_commit(txn);
}

static void remove_folder(void)
{
    char file[POTZENDAI_PATH + 16];
    for (int i = 0; i < 2; i++)
        if (snprintf(file, sizeof file, "%s/%s", folder, i ? "lock.mdb" : "data.mdb") > 0)
            unlink(file);
    rmdir(folder);
}

/* A new map, in a folder of its own; or the store that is killed. */
static void *begin(void *map)
{
    (void)map;
    if (potzendai_store()) {
        snprintf(folder, sizeof folder, "%s", potzendai_store());
        return open_folder() ? NULL : folder;
    }
    strcpy(folder, "/tmp/potzendai-lmdb-XXXXXX");
    if (!mkdtemp(folder))
        return NULL;
    if (open_folder() == 0)
        return folder;
    remove_folder();
    return NULL;
}

static void end_map(void *opened)
{
    (void)opened;
    mdb_env_close(env);
    remove_folder();
}

static void *reopen(void *opened)
{
    mdb_env_close(env);
    return open_folder() ? NULL : opened;
}

int main(int argc, char **argv)
{
    struct potzendai_map map = {.name = "lmdb", .get = get, .put = put, .del = del, .scan = scan, .replace = replace,
                                .put_if_absent = put_if_absent, .ceiling = ceiling_of, .begin = begin, .end = end_map, .reopen = reopen};
    static const char *const names[] = {"plain", "sync", "nometasync", "mapasync", NULL};
    bool is_set[4] = {false};
    int count = take_settings(argc, argv, names, is_set);
    is_plain = is_set[0];
    flags = is_set[1] ? 0 : is_set[2] ? MDB_NOMETASYNC : is_set[3] ? MDB_WRITEMAP | MDB_MAPASYNC : flags;
    return potzendai_test_main(argc - count, argv + count, &map);
}
