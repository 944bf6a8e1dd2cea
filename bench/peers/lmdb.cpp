// The same events in LMDB: each payload under its number, and an entry for each value of a definition in a second table,
// whose duplicates are numbers in order. A transaction takes 10,000 records, and nothing is synced.
//
// usage: lmdb FILE [ROUNDS [FOLDER]]        (/dev/shm where no folder is given)
#include <cstring>
#include <string>

#include <lmdb.h>
#include <unistd.h>

#include "events.hpp"

namespace {
constexpr uint32_t batch = 10000;

void check(int error) {
    if (!error) return;
    fprintf(stderr, "lmdb: %s\n", mdb_strerror(error));
    exit(1);
}

// an index key: the definition's id in two bytes, the value's kind and its bytes
size_t write_key(const Value &value, char *key) {
    key[0] = value.id & 0xff;
    key[1] = value.id >> 8;
    key[2] = value.kind;
    memcpy(key + 3, value.kind == text ? value.bytes.data() : (const char *)&value.number, value.length());
    return 3 + value.length();
}

// a fresh database, which goes away with its file
class Database {
    const std::string name;
    MDB_env *env = nullptr;
    MDB_txn *txn = nullptr;
    MDB_dbi records, index;
    uint32_t number = 0;

public:
    explicit Database(const std::string &folder) : name(folder + "/peer-" + std::to_string(getpid()) + ".mdb") {
        check(mdb_env_create(&env));
        check(mdb_env_set_maxdbs(env, 2));
        check(mdb_env_set_mapsize(env, size_t(2) << 30));
        check(mdb_env_open(env, name.c_str(), MDB_NOSUBDIR | MDB_NOSYNC | MDB_NOLOCK, 0600));
        check(mdb_txn_begin(env, nullptr, 0, &txn));
        check(mdb_dbi_open(txn, "records", MDB_CREATE | MDB_INTEGERKEY, &records));
        check(mdb_dbi_open(txn, "index", MDB_CREATE | MDB_DUPSORT | MDB_DUPFIXED | MDB_INTEGERDUP, &index));
    }
    Database(const Database &) = delete;
    ~Database() {
        if (txn) mdb_txn_abort(txn);
        mdb_env_close(env);
        unlink(name.c_str());
    }

    void put(std::string_view payload, const Reader &reader) {
        MDB_val under{sizeof number, &number}, what{payload.size(), (void *)payload.data()};
        check(mdb_put(txn, records, &under, &what, MDB_APPEND));
        for (unsigned i = 0; i < reader.count; i++) {
            char key[3 + max_text];
            MDB_val value{write_key(reader.values[i], key), key}, record{sizeof number, &number};
            check(mdb_put(txn, index, &value, &record, 0));
        }
        if (++number % batch == 0) {
            check(mdb_txn_commit(txn));
            check(mdb_txn_begin(env, nullptr, 0, &txn));
        }
    }
    void commit() {
        check(mdb_txn_commit(txn));
        txn = nullptr;
    }
};
} // namespace

int main(int words, char **word) {
    if (words < 2) {
        fprintf(stderr, "usage: lmdb FILE [ROUNDS [FOLDER]]\n");
        return 1;
    }
    const Events events(word[1]);
    const int rounds = words > 2 ? atoi(word[2]) : 5;
    const std::string folder = words > 3 ? word[3] : "/dev/shm";
    uint64_t best = UINT64_MAX;
    for (int round = 0; round < rounds; round++) {
        Database database(folder);
        Reader reader;
        uint64_t stored = 0;
        const uint64_t took = time_of([&] {
            for (std::string_view payload : events.payloads) {
                if (!reader.read(payload)) continue;
                reader.evaluate();
                database.put(payload, reader);
                stored += payload.size();
            }
            database.commit();
        });
        report("lmdb", 1, took, stored);
        if (stored != events.size) {
            fprintf(stderr, "lmdb: some payloads were refused\n");
            return 1;
        }
        best = std::min(best, took);
    }
    print_best("lmdb, read by simdjson and put", 1, best, events.size);
}
