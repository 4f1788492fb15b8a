#include "leb128.hpp"
#include <cstdlib>
#include <sqlite3.h>

namespace peers {

class Sqlite : public Store {
    sqlite3 *db = nullptr;
    sqlite3_stmt *putting = nullptr, *getting = nullptr;
    Bytes blob;

    const char *name() const override { return "SQLite"; }
    const char *about() const override { return "LEB128 gaps as blobs of a table (id INTEGER PRIMARY KEY, ids BLOB), prepared statements; synchronous = OFF, journal_mode = MEMORY"; }
    void must(int code) {
        if (code != SQLITE_OK && code != SQLITE_DONE) std::abort();
    }
    void run(const char *sql) { must(sqlite3_exec(db, sql, nullptr, nullptr, nullptr)); }
    bool open(const std::string &path, bool writes) override {
        int flags = writes ? SQLITE_OPEN_READWRITE | SQLITE_OPEN_CREATE : SQLITE_OPEN_READONLY;
        if (sqlite3_open_v2(path.c_str(), &db, flags, nullptr) != SQLITE_OK) return close(), false;
        if (writes) {
            run("PRAGMA synchronous = OFF; PRAGMA journal_mode = MEMORY; CREATE TABLE sets (id INTEGER PRIMARY KEY, ids BLOB)");
            must(sqlite3_prepare_v2(db, "INSERT INTO sets (ids) VALUES (?)", -1, &putting, nullptr));
        }
        if (sqlite3_prepare_v2(db, "SELECT ids FROM sets WHERE id = ?", -1, &getting, nullptr) != SQLITE_OK) return close(), false;
        return true;
    }
    void close() override {
        sqlite3_finalize(putting);
        sqlite3_finalize(getting);
        sqlite3_close(db);
        db = nullptr;
        putting = getting = nullptr;
    }
    void put(const std::vector<const Set *> &sets) override {
        run("BEGIN");
        for (const Set *set : sets) {
            size_t len = set->ids.size();
            if (blob.size() < leb128::most(len)) blob.resize(leb128::most(len));
            size_t size = leb128::write(set->ids.data(), len, blob.data());
            must(sqlite3_bind_blob64(putting, 1, blob.data(), size, SQLITE_STATIC));
            must(sqlite3_step(putting));
            must(sqlite3_reset(putting));
        }
        run("COMMIT");
    }
    bool get(size_t count, uint32_t n, uint32_t *ids, size_t &given) override {
        if (sqlite3_exec(db, "BEGIN", nullptr, nullptr, nullptr) != SQLITE_OK) return false;
        bool all = true;
        for (size_t at = 0; all && at < count; at++) {
            sqlite3_bind_int64(getting, 1, sqlite3_int64(at + 1)); // the table's own keys begin at 1
            all = sqlite3_step(getting) == SQLITE_ROW;
            if (all) {
                const void *value = sqlite3_column_blob(getting, 0);
                size_t size = size_t(sqlite3_column_bytes(getting, 0));
                all = leb128::read(n, static_cast<const uint8_t *>(value), size, ids, given);
            }
            sqlite3_reset(getting);
        }
        sqlite3_exec(db, "COMMIT", nullptr, nullptr, nullptr);
        return all;
    }
};

static Brings brings(6, new Sqlite);

} // namespace peers
