// What one lock request costs here and in two lock managers that people use: the lock desk through the library, Berkeley DB's lock subsystem by
// itself, and RocksDB's pessimistic transactions. One thread, a transaction at a time: begin, six locks on drawn cells of 64 (four shared, two
// exclusive), commit; nobody else is in the way. Each prints nanoseconds for one of the eight requests, the best of so many rounds.
#include "tuyenlomac.h"
#include <chrono>
#include <cstdio>
#include <cstdlib>
#include <cstring>
#include <string>
#ifdef BERKELEY
#include <db.h>
#endif
#ifdef ROCKS
#include <rocksdb/utilities/transaction.h>
#include <rocksdb/utilities/transaction_db.h>
#endif

enum { LOCKS = 6, SHARED = 4, REQUESTS = LOCKS + 2 };
static uint32_t drawn = 1;
static unsigned draw() { drawn = drawn * 1664525u + 1013904223u; return drawn >> 26; } // a cell, 0 to 63

static void must(bool went, const char *what) {
    if (!went) { fprintf(stderr, "peers: %s failed\n", what); exit(1); }
}

// nanoseconds for a request: the best of the rounds of so many transactions
template <class Transaction> static double best(int rounds, int count, Transaction one) {
    double least = 1e18;
    for (int r = 0; r < rounds; r++) {
        auto from = std::chrono::steady_clock::now();
        for (int i = 0; i < count; i++) one();
        std::chrono::duration<double, std::nano> took = std::chrono::steady_clock::now() - from;
        if (took.count() / count / REQUESTS < least) least = took.count() / count / REQUESTS;
    }
    return least;
}

static double ours(int rounds, int count) {
    static struct tuyenlomac_locks desk;
    static struct tuyenlomac_wakes wakes;
    must(tuyenlomac_locks_start(&desk, 1) == 0, "start");
    return best(rounds, count, [] {
        uint32_t job = tuyenlomac_locks_step(&desk, TUYENLOMAC_BEGIN, 0, 0, &wakes).number;
        for (int i = 0; i < LOCKS; i++)
            must(tuyenlomac_locks_step(&desk, i < SHARED ? TUYENLOMAC_READ : TUYENLOMAC_WRITE, job, draw(), &wakes).word == TUYENLOMAC_GO, "lock");
        must(tuyenlomac_locks_step(&desk, TUYENLOMAC_COMMIT, job, 0, &wakes).word == TUYENLOMAC_GO, "commit");
    });
}

#ifdef BERKELEY
static double berkeley(int rounds, int count) {
    static DB_ENV *env;
    must(db_env_create(&env, 0) == 0, "db_env_create");
    must(env->open(env, nullptr, DB_CREATE | DB_INIT_LOCK | DB_PRIVATE, 0) == 0, "open");
    return best(rounds, count, [] {
        u_int32_t locker;
        must(env->lock_id(env, &locker) == 0, "lock_id");
        for (int i = 0; i < LOCKS; i++) {
            unsigned cell = draw();
            DBT object;
            memset(&object, 0, sizeof object);
            object.data = &cell;
            object.size = sizeof cell;
            DB_LOCK lock;
            must(env->lock_get(env, locker, DB_LOCK_NOWAIT, &object, i < SHARED ? DB_LOCK_READ : DB_LOCK_WRITE, &lock) == 0, "lock_get");
        }
        DB_LOCKREQ all;
        memset(&all, 0, sizeof all);
        all.op = DB_LOCK_PUT_ALL;
        must(env->lock_vec(env, locker, 0, &all, 1, nullptr) == 0, "lock_vec");
        must(env->lock_id_free(env, locker) == 0, "lock_id_free");
    });
}
#endif

#ifdef ROCKS
static double rocks(int rounds, int count, const char *folder) {
    static rocksdb::TransactionDB *db;
    rocksdb::Options options;
    options.create_if_missing = true;
    must(rocksdb::TransactionDB::Open(options, rocksdb::TransactionDBOptions(), folder, &db).ok(), "open");
    return best(rounds, count, [] {
        rocksdb::Transaction *t = db->BeginTransaction(rocksdb::WriteOptions());
        for (int i = 0; i < LOCKS; i++) {
            std::string key = std::to_string(draw());
            must(t->GetForUpdate(rocksdb::ReadOptions(), key, (std::string *)nullptr, i >= SHARED).ok(), "GetForUpdate");
        }
        must(t->Commit().ok(), "commit");
        delete t;
    });
}
#endif

int main(int argc, char **argv) {
    int rounds = argc > 1 ? atoi(argv[1]) : 15, count = argc > 2 ? atoi(argv[2]) : 50000;
    printf("the lock desk, through the library: %.0f ns a request\n", ours(rounds, count));
#ifdef BERKELEY
    printf("Berkeley DB %d.%d, its lock subsystem: %.0f ns a request\n", DB_VERSION_MAJOR, DB_VERSION_MINOR, berkeley(rounds, count));
#endif
#ifdef ROCKS
    if (argc > 3) printf("RocksDB %d.%d, pessimistic transactions that only lock: %.0f ns a request\n", ROCKSDB_MAJOR, ROCKSDB_MINOR, rocks(rounds, count, argv[3]));
#endif
}
