/* The peer of bench/queries: prepares each line of the standard input, which it first takes into memory, by SQLite's
   sqlite3_prepare_v2 against the tables that the lines name. It prints what crates/bench_queries prints with `timed`. */
#include <sqlite3.h>
#include <stdio.h>
#include <stdlib.h>
#include <string.h>
#include <time.h>

static const char tables[] =
    "CREATE TABLE twins(id TEXT PRIMARY KEY, model TEXT, temperature REAL, humidity REAL, name TEXT);"
    "CREATE TABLE relationships(source TEXT, id TEXT, name TEXT, target TEXT, PRIMARY KEY(source, id));";

int main(void) {
    size_t size = 0, room = 1 << 20, got, queries = 0, refused = 0;
    char *bytes = malloc(room);
    while (bytes != NULL && (got = fread(bytes + size, 1, room - size, stdin)) > 0) {
        size += got;
        if (size == room) bytes = realloc(bytes, room *= 2);
    }
    sqlite3 *db;
    if (bytes == NULL || sqlite3_open(":memory:", &db) != SQLITE_OK) return 1;
    if (sqlite3_exec(db, tables, NULL, NULL, NULL) != SQLITE_OK) return 1;
    struct timespec start, end;
    clock_gettime(CLOCK_MONOTONIC, &start);
    for (char *at = bytes, *stop = bytes + size; at < stop;) {
        char *line_end = memchr(at, '\n', (size_t)(stop - at));
        if (line_end == NULL) line_end = stop;
        sqlite3_stmt *statement = NULL;
        if (sqlite3_prepare_v2(db, at, (int)(line_end - at), &statement, NULL) == SQLITE_OK) queries++;
        else refused++;
        sqlite3_finalize(statement);
        at = line_end + 1;
    }
    clock_gettime(CLOCK_MONOTONIC, &end);
    printf("queries %zu refused %zu\n", queries, refused);
    printf("nanoseconds %lld\n", (long long)(end.tv_sec - start.tv_sec) * 1000000000 + (end.tv_nsec - start.tv_nsec));
    return sqlite3_close(db) != SQLITE_OK;
}
