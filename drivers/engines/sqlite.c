/* A test of SQLite: each thread has a connection to one file. With the word `plain`, each call is one statement, and says as much as that does.
 * Without it, writes read first, in one transaction. With `pairs`, each of these writes two tables, and a key of which these differ has a value that
 * nobody wrote. Other words set the journal and when it is synced. README.md says how it is built. */
#include "../c/potzendai_test.h"
#include "settings.h"
#include <sqlite3.h>

enum { GET, PUT, DEL, REPLACE, ABSENT, RANGE, CEILING, FLOOR, POP, BEGIN, COMMIT, ROLLBACK, STATEMENTS };

static const char *texts[STATEMENTS] = {
    "SELECT k, v FROM m WHERE k = ?1", "INSERT OR REPLACE INTO m VALUES (?1, ?2)", "DELETE FROM m WHERE k = ?1",
    "UPDATE m SET v = ?2 WHERE k = ?1 AND v = ?3", "INSERT OR IGNORE INTO m VALUES (?1, ?2)",
    "SELECT k, v FROM m WHERE k BETWEEN ?1 AND ?2 ORDER BY k", "SELECT k, v FROM m WHERE k >= ?1 ORDER BY k LIMIT 1",
    "SELECT k, v FROM m WHERE k <= ?1 ORDER BY k DESC LIMIT 1", "DELETE FROM m WHERE k = (SELECT min(k) FROM m) RETURNING k, v",
    "BEGIN IMMEDIATE", "COMMIT", "ROLLBACK"
};

/* Two tables: each write of the first is done in the second, and a get compares them. */
static const char second[] =
    "; CREATE TABLE IF NOT EXISTS n (k INTEGER PRIMARY KEY, v INTEGER)"
    "; CREATE TRIGGER IF NOT EXISTS puts AFTER INSERT ON m BEGIN INSERT OR REPLACE INTO n VALUES (new.k, new.v); END"
    "; CREATE TRIGGER IF NOT EXISTS dels AFTER DELETE ON m BEGIN DELETE FROM n WHERE k = old.k; END";
static const char get_of_both[] =
    "SELECT k, CASE count(*) * (min(v) = max(v)) WHEN 2 THEN v ELSE 1 << 62 END FROM (SELECT * FROM m UNION ALL SELECT * FROM n)"
    " WHERE k = ?1 GROUP BY k";

struct connection { sqlite3 *base; sqlite3_stmt *all[STATEMENTS]; };

static char file[POTZENDAI_PATH], first[1024];
static bool is_plain;

/* Runs a statement to its end, which commits it if no transaction is open, and reads its pairs. Returns MAP_REFUSED if it is busy: then nothing has
 * changed. Returns MAP_UNKNOWN if it fails otherwise, since the manual does not say that nothing has changed then. */
static enum map_said ask(struct connection *s, int which, const uint64_t words[3], struct recording_pair *pairs, size_t room, size_t *count)
{
    sqlite3_stmt *statement = s->all[which];
    int status;
    for (int i = 0; i < sqlite3_bind_parameter_count(statement); i++)
        sqlite3_bind_int64(statement, i + 1, (sqlite3_int64)words[i]);
    for (*count = 0; (status = sqlite3_step(statement)) == SQLITE_ROW; ++*count)
        if (*count < room)
            pairs[*count] = (struct recording_pair){(uint64_t)sqlite3_column_int64(statement, 0),
                                                    (uint64_t)sqlite3_column_int64(statement, 1)};
    sqlite3_reset(statement);
    if (status != SQLITE_DONE)
        return status == SQLITE_BUSY || status == SQLITE_LOCKED ? MAP_REFUSED : MAP_UNKNOWN;
    return *count ? MAP_TOLD : MAP_NONE;
}

static enum map_said ask_one(void *connection, int which, uint64_t key, struct recording_pair *pair)
{
    const uint64_t words[3] = {key, 0, 0};
    size_t count;
    return ask((struct connection *)connection, which, words, pair, 1, &count);
}

/* Whether a statement was done. */
static bool is_done(enum map_said said)
{
    return said != MAP_REFUSED && said != MAP_UNKNOWN;
}

/* Runs one statement. The answer depends on whether it has changed anything. */
static enum map_said change(struct connection *s, int which, const uint64_t words[3], enum map_said changed, enum map_said not_changed)
{
    size_t count;
    enum map_said said = ask(s, which, words, NULL, 0, &count);
    if (!is_done(said))
        return said;
    return sqlite3_changes(s->base) ? changed : not_changed;
}

/* Finds the value of a key and then runs the statement, in one transaction. If no commit was tried, or it was busy, a rollback ends that. */
static enum map_said look_and_change(struct connection *s, int which, const uint64_t words[3], uint64_t *found)
{
    struct recording_pair pair = {0, 0};
    size_t count;
    if (!is_done(ask(s, BEGIN, words, NULL, 0, &count)))
        return MAP_REFUSED;
    enum map_said said = ask(s, GET, words, &pair, 1, &count);
    *found = pair.value;
    enum map_said end = MAP_REFUSED;
    if (is_done(said) && is_done(ask(s, which, words, NULL, 0, &count)))
        end = ask(s, COMMIT, words, NULL, 0, &count);
    if (is_done(end))
        return said;
    ask(s, ROLLBACK, words, NULL, 0, &count);
    return end;
}

static enum map_said get(void *connection, uint64_t key, uint64_t *found)
{
    struct recording_pair pair = {0, 0};
    enum map_said said = ask_one(connection, GET, key, &pair);
    *found = pair.value;
    return said;
}

static enum map_said put(void *connection, uint64_t key, uint64_t value, uint64_t *found)
{
    const uint64_t words[3] = {key, value, 0};
    return is_plain ? change((struct connection *)connection, PUT, words, MAP_DONE, MAP_DONE)
                    : look_and_change((struct connection *)connection, PUT, words, found);
}

static enum map_said del(void *connection, uint64_t key, uint64_t *found)
{
    const uint64_t words[3] = {key, 0, 0};
    return is_plain ? change((struct connection *)connection, DEL, words, MAP_FOUND, MAP_NONE)
                    : look_and_change((struct connection *)connection, DEL, words, found);
}

static enum map_said replace(void *connection, uint64_t key, uint64_t old, uint64_t value, uint64_t *found)
{
    const uint64_t words[3] = {key, value, old};
    return is_plain ? change((struct connection *)connection, REPLACE, words, MAP_DONE, MAP_OTHER)
                    : look_and_change((struct connection *)connection, REPLACE, words, found);
}

static enum map_said put_if_absent(void *connection, uint64_t key, uint64_t value, uint64_t *found)
{
    const uint64_t words[3] = {key, value, 0};
    return is_plain ? change((struct connection *)connection, ABSENT, words, MAP_NONE, MAP_FOUND)
                    : look_and_change((struct connection *)connection, ABSENT, words, found);
}

static enum map_said scan(void *connection, uint64_t low, uint64_t high, struct recording_pair *pairs, size_t room, size_t *count)
{
    const uint64_t words[3] = {low, high, 0};
    return ask((struct connection *)connection, RANGE, words, pairs, room, count);
}

static enum map_said ceiling_of(void *connection, uint64_t key, struct recording_pair *pair) { return ask_one(connection, CEILING, key, pair); }
static enum map_said floor_of(void *connection, uint64_t key, struct recording_pair *pair) { return ask_one(connection, FLOOR, key, pair); }
static enum map_said pop_first(void *connection, struct recording_pair *pair) { return ask_one(connection, POP, 0, pair); }

static void close_connection(void *connection)
{
    struct connection *s = (struct connection *)connection;
    for (int i = 0; i < STATEMENTS; i++)
        sqlite3_finalize(s->all[i]);
    sqlite3_close(s->base);
    free(s);
}

static void *open_connection(void *map, unsigned thread)
{
    struct connection *s = (struct connection *)calloc(1, sizeof *s);
    (void)map, (void)thread;
    bool is_open = s && sqlite3_open(file, &s->base) == SQLITE_OK && sqlite3_busy_timeout(s->base, 5000) == SQLITE_OK
        && sqlite3_exec(s->base, first, NULL, NULL, NULL) == SQLITE_OK;
    for (int i = 0; i < STATEMENTS && is_open; i++)
        is_open = sqlite3_prepare_v2(s->base, texts[i], -1, &s->all[i], NULL) == SQLITE_OK;
    if (!is_open && s)
        close_connection(s);
    return is_open ? s : NULL;
}

/* A new map, in a file of its own, which each connection opens; or the store that is killed. */
static void *begin(void *map)
{
    (void)map;
    if (potzendai_store()) {
        snprintf(file, sizeof file, "%s/base", potzendai_store());
        return file;
    }
    strcpy(file, "/tmp/potzendai-sqlite-XXXXXX");
    int made = mkstemp(file);
    return made >= 0 && close(made) == 0 ? file : NULL;
}

static void end_map(void *opened)
{
    unlink((const char *)opened);
}

/* The file was closed with its last connection, so the next one opens it again. */
static void *reopen(void *opened)
{
    return opened;
}

int main(int argc, char **argv)
{
    struct potzendai_map map = {.name = "sqlite", .value_bits = 62, .open = open_connection, .close = close_connection, .get = get, .put = put,
                                .del = del, .scan = scan, .replace = replace, .put_if_absent = put_if_absent, .floor = floor_of,
                                .ceiling = ceiling_of, .pop_first = pop_first, .begin = begin, .end = end_map, .reopen = reopen};
    static const char *const names[] = {"plain", "pairs", "normal", "full", "delete", "truncate", "persist", "memory", "none", NULL};
    bool is_set[9] = {false};
    int count = take_settings(argc, argv, names, is_set), journal = 4;
    while (journal < 8 && !is_set[journal])
        journal++;
    bool is_log = !is_set[journal], is_pairs = is_set[1];
    is_plain = is_set[0];
    snprintf(first, sizeof first,
             "PRAGMA journal_mode = %s; PRAGMA synchronous = %s; CREATE TABLE IF NOT EXISTS m (k INTEGER PRIMARY KEY, v INTEGER)%s",
             is_log ? "WAL" : journal == 8 ? "OFF" : names[journal], is_set[3] ? "FULL" : is_set[2] ? "NORMAL" : "OFF", is_pairs ? second : "");
    if (is_pairs) {
        texts[GET] = get_of_both;
        map = (struct potzendai_map){.name = "sqlite", .value_bits = 62, .open = open_connection, .close = close_connection, .get = get, .put = put,
                                     .del = del, .begin = begin, .end = end_map, .reopen = reopen};
    }
    return potzendai_test_main(argc - count, argv + count, &map);
}
