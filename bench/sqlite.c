/* Rows in SQLite: a yardstick of `bench/rows`. It reads the lines that `bench_rows` reads, makes the same rows, and
   writes the same answers. The journal is a write-ahead log; what is not said here is as SQLite has it. */
#include <sqlite3.h>
#include <stdint.h>
#include <stdio.h>
#include <stdlib.h>
#include <string.h>

static int append(unsigned char *out, int at, uint64_t number, int bytes) {
    for (int shift = 8 * (bytes - 1); shift >= 0; shift -= 8) {
        out[at++] = (unsigned char)(number >> shift);
    }
    return at;
}

/* Directory 1, partition 0, reversed hash and name. */
static int key_of(unsigned char *key, uint64_t number) {
    int at = append(key, 0, 1, 8);
    at = append(key, at, 0, 4);
    at = append(key, at, 0x9E3779B97F4A7C15 * number, 8);
    return at + sprintf((char *)key + at, "f%llu", (unsigned long long)number);
}

/* A file: no directory, mode and size. */
static int row_of(unsigned char *row, uint64_t number) {
    int at = append(row, 0, 0, 8);
    at = append(row, at, 420, 2);
    return append(row, at, number, 8);
}

static void must(int got, int want, sqlite3 *db) {
    if (got != want) {
        fprintf(stderr, "sqlite: %s\n", sqlite3_errmsg(db));
        exit(1);
    }
}

static sqlite3_stmt *prepared(sqlite3 *db, const char *text) {
    sqlite3_stmt *statement;
    must(sqlite3_prepare_v2(db, text, -1, &statement, NULL), SQLITE_OK, db);
    return statement;
}

static void run(sqlite3 *db, sqlite3_stmt *statement) {
    must(sqlite3_step(statement), SQLITE_DONE, db);
    sqlite3_reset(statement);
}

static void fill(sqlite3 *db, uint64_t commits, uint64_t changes) {
    sqlite3_stmt *begin = prepared(db, "BEGIN"), *end = prepared(db, "COMMIT");
    sqlite3_stmt *put = prepared(db, "REPLACE INTO rows VALUES (?, ?)");
    unsigned char key[64], row[64];
    for (uint64_t commit = 0; commit < commits; commit++) {
        run(db, begin);
        for (uint64_t change = 0; change < changes; change++) {
            uint64_t number = commit * changes + change;
            sqlite3_bind_blob(put, 1, key, key_of(key, number), SQLITE_STATIC);
            sqlite3_bind_blob(put, 2, row, row_of(row, number), SQLITE_STATIC);
            run(db, put);
        }
        run(db, end);
    }
    sqlite3_finalize(begin), sqlite3_finalize(end), sqlite3_finalize(put);
}

static uint64_t find(sqlite3 *db, uint64_t rows, uint64_t rounds) {
    sqlite3_stmt *get = prepared(db, "SELECT value FROM rows WHERE key = ?");
    unsigned char key[64], row[64];
    uint64_t found = 0;
    for (uint64_t round = 0; round < rounds; round++) {
        uint64_t number = rows == 0 ? 0 : 2654435761 * (round + 1) % rows;
        int bytes = row_of(row, number);
        sqlite3_bind_blob(get, 1, key, key_of(key, number), SQLITE_STATIC);
        found += sqlite3_step(get) == SQLITE_ROW && sqlite3_column_bytes(get, 0) == bytes
            && memcmp(sqlite3_column_blob(get, 0), row, bytes) == 0;
        sqlite3_reset(get);
    }
    sqlite3_finalize(get);
    return found;
}

static sqlite3 *opened(const char *folder, int synced, int anew) {
    char path[4096];
    static const char *const ends[] = {"rows.db-wal", "rows.db-shm", "rows.db"};
    for (int which = 0; which < 3; which++) {
        snprintf(path, sizeof path, "%s/%s", folder, ends[which]);
        if (anew) {
            remove(path);
        }
    }
    sqlite3 *db;
    must(sqlite3_open(path, &db), SQLITE_OK, db);
    must(sqlite3_exec(db, "PRAGMA journal_mode = WAL", NULL, NULL, NULL), SQLITE_OK, db);
    const char *syncing = synced ? "PRAGMA synchronous = FULL" : "PRAGMA synchronous = OFF";
    must(sqlite3_exec(db, syncing, NULL, NULL, NULL), SQLITE_OK, db);
    const char *table = "CREATE TABLE IF NOT EXISTS rows (key BLOB PRIMARY KEY, value BLOB) WITHOUT ROWID";
    must(sqlite3_exec(db, table, NULL, NULL, NULL), SQLITE_OK, db);
    return db;
}

int main(void) {
    char line[4096], disk[16], folder[2048];
    while (fgets(line, sizeof line, stdin)) {
        unsigned long long commits = 0, changes = 0, every = 0, rows = 0, rounds = 0;
        line[strcspn(line, "\n")] = 0;
        const char *filling = "%15s %2047s fill %llu %llu %llu %llu";
        int fills = sscanf(line, filling, disk, folder, &commits, &changes, &every, &rounds) == 6;
        if (!fills && sscanf(line, "%15s %2047s find %llu %llu", disk, folder, &rows, &rounds) != 4) {
            printf("%s = not a row\n", line);
            continue;
        }
        sqlite3 *db = opened(folder, strcmp(disk, "synced") == 0, fills);
        if (fills) {
            fill(db, commits, changes);
            rows = commits * changes;
        }
        printf("%s = %llu\n", line, (unsigned long long)find(db, rows, rounds));
        sqlite3_close(db);
    }
    return 0;
}
