// Rows in LevelDB: a yardstick of `bench/rows`. It reads the lines that `bench_rows` reads, makes the same rows, and
// writes the same answers. It flushes and merges when LevelDB does; what is not said here is as LevelDB has it.
#include <leveldb/db.h>
#include <leveldb/write_batch.h>

#include <cstdint>
#include <cstdio>
#include <iostream>
#include <memory>
#include <sstream>
#include <string>

namespace {

void append(std::string& out, uint64_t number, int bytes) {
    for (int shift = 8 * (bytes - 1); shift >= 0; shift -= 8) {
        out.push_back(static_cast<char>(number >> shift));
    }
}

// Directory 1, partition 0, reversed hash and name.
std::string key_of(uint64_t number) {
    std::string key;
    append(key, 1, 8);
    append(key, 0, 4);
    append(key, 0x9E3779B97F4A7C15 * number, 8);
    return key + "f" + std::to_string(number);
}

// A file: no directory, mode and size.
std::string row_of(uint64_t number) {
    std::string row;
    append(row, 0, 8);
    append(row, 420, 2);
    append(row, number, 8);
    return row;
}

bool fill(leveldb::DB& db, bool synced, uint64_t commits, uint64_t changes) {
    leveldb::WriteOptions options;
    options.sync = synced;
    for (uint64_t commit = 0; commit < commits; commit++) {
        leveldb::WriteBatch batch;
        for (uint64_t change = 0; change < changes; change++) {
            uint64_t number = commit * changes + change;
            batch.Put(key_of(number), row_of(number));
        }
        if (!db.Write(options, &batch).ok()) {
            return false;
        }
    }
    return true;
}

uint64_t find(leveldb::DB& db, uint64_t rows, uint64_t rounds) {
    uint64_t found = 0;
    std::string row;
    for (uint64_t round = 0; round < rounds; round++) {
        uint64_t number = rows == 0 ? 0 : 2654435761 * (round + 1) % rows;
        found += db.Get(leveldb::ReadOptions(), key_of(number), &row).ok() && row == row_of(number);
    }
    return found;
}

}  // namespace

int main() {
    std::string line;
    while (std::getline(std::cin, line)) {
        std::istringstream words(line);
        std::string disk, folder, work;
        uint64_t commits = 0, changes = 0, every = 0, rows = 0, rounds = 0;
        words >> disk >> folder >> work;
        if (work == "fill") {
            words >> commits >> changes >> every >> rounds;
            rows = commits * changes;
            leveldb::DestroyDB(folder, leveldb::Options());
        } else {
            words >> rows >> rounds;
        }
        leveldb::Options options;
        options.create_if_missing = true;
        leveldb::DB* opened = nullptr;
        if (!leveldb::DB::Open(options, folder, &opened).ok()) {
            std::cout << line << " = device\n";
            continue;
        }
        std::unique_ptr<leveldb::DB> db(opened);
        if (!fill(*db, disk == "synced", commits, changes)) {
            std::cout << line << " = device\n";
            continue;
        }
        std::cout << line << " = " << find(*db, rows, rounds) << "\n";
    }
}
