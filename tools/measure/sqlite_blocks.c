/* Keeps the rows of a block file in SQLite: the versions by key and block, what each was derived from,
 * and an index by that. One transaction a block, in WAL mode. Nothing is hashed. For tools/measure/measure-log
 * and tools/measure/measure-roots.
 *
 *     sqlite_blocks full|off DATABASE < BLOCKS       prints how many rows it wrote
 *
 * `full` and `off` are what the pragma `synchronous` is set to. The blocks are those of `gen`, or of
 * Sets of ints: a Set is taken as the formats say, a Call is one of the generated contract `mix`. */
#include <sqlite3.h>
#include <stdint.h>
#include <stdio.h>
#include <stdlib.h>
#include <string.h>

enum { LENGTH_BYTES = 4, MAX_BLOCK_BYTES = 1048576, INT_BYTES = 8, BUDGET_BYTES = 4, MAX_DEPS = 64 };

/* Offsets in a block, and the kinds of transactions. */
enum { NUMBER_AT = 1, COUNT_AT = 37, TXS_AT = 39 };
enum { SET = 1, DEPLOY = 2, CALL = 3 };

enum { NONE = -1 };

static sqlite3 *database;
static sqlite3_stmt *find_key, *add_key, *find_newest, *add_version, *add_dep;
static long rows;

/* A string of a block. */
struct string {
    const char *bytes;
    int length;
};

/* What a version was derived from. */
struct deps {
    int count;
    sqlite3_int64 key[MAX_DEPS];
    int block[MAX_DEPS];
};

static void check(int is_good, const char *what)
{
    if (!is_good) {
        fprintf(stderr, "sqlite_blocks: %s: %s\n", what, sqlite3_errmsg(database));
        exit(1);
    }
}

static void run(const char *text)
{
    check(sqlite3_exec(database, text, NULL, NULL, NULL) == SQLITE_OK, text);
}

static sqlite3_stmt *prepare(const char *text)
{
    sqlite3_stmt *statement;
    check(sqlite3_prepare_v2(database, text, -1, &statement, NULL) == SQLITE_OK, text);
    return statement;
}

/* The number in the first column of the one row there may be; NONE where there is none. */
static sqlite3_int64 found(sqlite3_stmt *statement)
{
    int code = sqlite3_step(statement);
    check(code == SQLITE_ROW || code == SQLITE_DONE, "select");
    sqlite3_int64 number = code == SQLITE_ROW ? sqlite3_column_int64(statement, 0) : NONE;
    sqlite3_reset(statement);
    return number;
}

static void insert(sqlite3_stmt *statement)
{
    check(sqlite3_step(statement) == SQLITE_DONE, "insert");
    sqlite3_reset(statement);
}

static uint64_t take_number(const uint8_t **at, int count)
{
    uint64_t number = 0;
    for (int i = 0; i < count; i++)
        number = number << 8 | *(*at)++;
    return number;
}

static struct string take_string(const uint8_t **at)
{
    int length = (int)take_number(at, 2);
    struct string string = {(const char *)*at, length};
    *at += length;
    return string;
}

/* The number of a key; NONE where it is in no row. */
static sqlite3_int64 key_of(struct string key)
{
    sqlite3_bind_text(find_key, 1, key.bytes, key.length, SQLITE_STATIC);
    return found(find_key);
}

static sqlite3_int64 key_or_new(struct string key)
{
    sqlite3_int64 number = key_of(key);
    if (number != NONE)
        return number;
    sqlite3_bind_text(add_key, 1, key.bytes, key.length, SQLITE_STATIC);
    insert(add_key);
    return sqlite3_last_insert_rowid(database);
}

/* The block of the newest version of a key. */
static int newest(sqlite3_int64 key)
{
    sqlite3_bind_int64(find_newest, 1, key);
    return (int)found(find_newest);
}

static int is_among(const struct deps *deps, sqlite3_int64 key)
{
    for (int i = 0; i < deps->count; i++)
        if (deps->key[i] == key)
            return 1;
    return 0;
}

/* Adds a dependency. Whether it is on a version of this block, which no row may depend on. */
static int add_to(struct deps *deps, struct string of, int block)
{
    sqlite3_int64 key = key_of(of);
    if (key == NONE || is_among(deps, key))
        return 0;
    int version = newest(key);
    deps->key[deps->count] = key;
    deps->block[deps->count++] = version;
    return version == block;
}

static void write_row(struct string key, int block, int tx, int64_t value, const struct deps *deps)
{
    sqlite3_int64 number = key_or_new(key);
    sqlite3_bind_int64(add_version, 1, number);
    sqlite3_bind_int(add_version, 2, block);
    sqlite3_bind_int(add_version, 3, tx);
    sqlite3_bind_int64(add_version, 4, value);
    insert(add_version);
    for (int i = 0; i < deps->count; i++) {
        sqlite3_bind_int64(add_dep, 1, number);
        sqlite3_bind_int(add_dep, 2, block);
        sqlite3_bind_int(add_dep, 3, i);
        sqlite3_bind_int64(add_dep, 4, deps->key[i]);
        sqlite3_bind_int(add_dep, 5, deps->block[i]);
        insert(add_dep);
    }
    rows++;
}

static void set(const uint8_t **at, int block, int tx)
{
    struct deps deps = {0};
    struct string key = take_string(at);
    check(*(*at)++ == 0, "a value that is no int");
    int64_t value = (int64_t)take_number(at, INT_BYTES);
    sqlite3_int64 number = key_of(key);
    int is_refused = number != NONE && newest(number) == block;
    for (int count = *(*at)++; count > 0; count--)
        is_refused |= add_to(&deps, take_string(at), block);
    if (!is_refused)
        write_row(key, block, tx, value, &deps);
}

/* A call of `step` of the contract `mix`: mix/A becomes the block of the newest version of raw/A. */
static void call(const uint8_t **at, int block, int tx)
{
    char from[32], to[32];
    struct deps deps = {0};
    take_string(at);
    take_string(at);
    check(*(*at)++ == 1 && *(*at)++ == 0, "a call of another contract");
    long argument = (long)take_number(at, INT_BYTES);
    *at += BUDGET_BYTES;
    struct string key = {from, sprintf(from, "raw/%ld", argument)};
    struct string written = {to, sprintf(to, "mix/%ld", argument)};
    add_to(&deps, key, block);
    if (deps.count > 0)
        write_row(written, block, tx, deps.block[0], &deps);
}

static void take_block(const uint8_t *block)
{
    const uint8_t *at = block + NUMBER_AT;
    int number = (int)take_number(&at, 4);
    at = block + COUNT_AT;
    int txs = (int)take_number(&at, 2);
    for (int tx = 0; tx < txs; tx++) {
        int kind = *at++;
        take_string(&at);
        if (kind == SET)
            set(&at, number, tx);
        else if (kind == CALL)
            call(&at, number, tx);
        else if (kind == DEPLOY)
            take_string(&at);
    }
}

static void open_database(const char *synchronous, const char *path)
{
    check(sqlite3_open(path, &database) == SQLITE_OK, "open");
    run("PRAGMA journal_mode=WAL");
    run(strcmp(synchronous, "full") ? "PRAGMA synchronous=OFF" : "PRAGMA synchronous=FULL");
    run("PRAGMA cache_size=-200000");
    run("CREATE TABLE keys(number INTEGER PRIMARY KEY, key TEXT UNIQUE)");
    run("CREATE TABLE versions(key INT, block INT, tx INT, value INT,"
        " PRIMARY KEY(key, block)) WITHOUT ROWID");
    run("CREATE TABLE deps(key INT, block INT, place INT, of INT, of_block INT,"
        " PRIMARY KEY(key, block, place)) WITHOUT ROWID");
    run("CREATE INDEX uses ON deps(of, of_block, block, key)");
    find_key = prepare("SELECT number FROM keys WHERE key = ?");
    add_key = prepare("INSERT INTO keys(key) VALUES(?)");
    find_newest = prepare("SELECT block FROM versions WHERE key = ? ORDER BY block DESC LIMIT 1");
    add_version = prepare("INSERT INTO versions VALUES(?, ?, ?, ?)");
    add_dep = prepare("INSERT INTO deps VALUES(?, ?, ?, ?, ?)");
}

int main(int count, char **words)
{
    static uint8_t block[MAX_BLOCK_BYTES];
    uint8_t length_field[LENGTH_BYTES];
    if (count != 3)
        return 1;
    open_database(words[1], words[2]);
    while (fread(length_field, 1, LENGTH_BYTES, stdin) == LENGTH_BYTES) {
        const uint8_t *at = length_field;
        size_t length = take_number(&at, LENGTH_BYTES);
        check(length <= MAX_BLOCK_BYTES, "a block that is too long");
        check(fread(block, 1, length, stdin) == length, "a short block");
        run("BEGIN");
        take_block(block);
        run("COMMIT");
    }
    printf("%ld\n", rows);
    return 0;
}
