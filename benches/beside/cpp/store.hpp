// Rooms that are kept in a file, by SQLite: each edit is a row, and all that were done since the
// last commit are one transaction. Without a file nothing is kept.
#pragma once

#include <cstdint>
#include <cstdlib>
#include <iostream>
#include <string>

#include <sqlite3.h>

class Store {
public:
    Store() = default;
    Store(const Store &) = delete;
    Store &operator=(const Store &) = delete;
    ~Store() {
        sqlite3_finalize(insert_);
        sqlite3_close(base_);
    }

    // As `relay serve --store` keeps a file: for this process alone, and synced at each commit.
    void open(const std::string &file) {
        demand(sqlite3_open(file.c_str(), &base_));
        run("PRAGMA locking_mode = EXCLUSIVE");
        run("PRAGMA journal_mode = WAL");
        run("PRAGMA synchronous = FULL");
        run("CREATE TABLE IF NOT EXISTS change (id INTEGER PRIMARY KEY, room TEXT, rev INTEGER, "
            "patch TEXT) STRICT");
        const auto *text = "INSERT INTO change (room, rev, patch) VALUES (?, ?, ?)";
        demand(sqlite3_prepare_v2(base_, text, -1, &insert_, nullptr));
    }

    bool is_open() const { return base_ != nullptr; }

    void note(const std::string &room, std::uint64_t rev, const std::string &patch) {
        if (!has_begun_) run("BEGIN");
        has_begun_ = true;
        bind(1, room);
        demand(sqlite3_bind_int64(insert_, 2, static_cast<sqlite3_int64>(rev)));
        bind(3, patch);
        if (sqlite3_step(insert_) != SQLITE_DONE) fail();
        demand(sqlite3_reset(insert_));
    }

    void commit() {
        if (has_begun_) run("COMMIT");
        has_begun_ = false;
    }

private:
    void bind(int place, const std::string &text) {
        const auto size = static_cast<int>(text.size());
        demand(sqlite3_bind_text(insert_, place, text.data(), size, SQLITE_STATIC));
    }

    void run(const char *text) { demand(sqlite3_exec(base_, text, nullptr, nullptr, nullptr)); }

    void demand(int status) {
        if (status != SQLITE_OK) fail();
    }

    [[noreturn]] void fail() {
        std::cerr << "store: " << sqlite3_errmsg(base_) << std::endl;
        std::exit(1);
    }

    sqlite3 *base_ = nullptr;
    sqlite3_stmt *insert_ = nullptr;
    bool has_begun_ = false;
};
