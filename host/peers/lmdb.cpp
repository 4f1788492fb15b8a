#include "leb128.hpp"
#include <cstdlib>
#include <lmdb.h>

namespace peers {

class Lmdb : public Store {
    MDB_env *env = nullptr;
    MDB_dbi dbi = 0;
    uint32_t next = 0;
    Bytes blob;

    static void must(int code) {
        if (code != 0) std::abort();
    }

    const char *name() const override { return "LMDB"; }
    const char *about() const override { return "LEB128 gaps as blobs; keys are numbers (MDB_INTEGERKEY, MDB_APPEND); MDB_NOSYNC, MDB_NOLOCK"; }
    bool open(const std::string &path, bool writes) override {
        next = 0;
        unsigned flags = MDB_NOSUBDIR | MDB_NOLOCK | MDB_NOSYNC | (writes ? 0 : MDB_RDONLY);
        must(mdb_env_create(&env));
        must(mdb_env_set_mapsize(env, size_t(1) << 30));
        MDB_txn *txn;
        if (mdb_env_open(env, path.c_str(), flags, 0644) != 0) return close(), false;
        if (mdb_txn_begin(env, nullptr, writes ? 0 : MDB_RDONLY, &txn) != 0) return close(), false;
        if (mdb_dbi_open(txn, nullptr, writes ? MDB_INTEGERKEY | MDB_CREATE : MDB_INTEGERKEY, &dbi) != 0) {
            mdb_txn_abort(txn);
            return close(), false;
        }
        must(mdb_txn_commit(txn));
        return true;
    }
    void close() override {
        mdb_env_close(env);
        env = nullptr;
    }
    void put(const std::vector<const Set *> &sets) override {
        MDB_txn *txn;
        must(mdb_txn_begin(env, nullptr, 0, &txn));
        for (const Set *set : sets) {
            size_t len = set->ids.size();
            if (blob.size() < leb128::most(len)) blob.resize(leb128::most(len));
            MDB_val key{sizeof next, &next};
            MDB_val value{leb128::write(set->ids.data(), len, blob.data()), blob.data()};
            must(mdb_put(txn, dbi, &key, &value, MDB_APPEND));
            next++;
        }
        must(mdb_txn_commit(txn));
    }
    bool get(size_t count, uint32_t n, uint32_t *ids, size_t &given) override {
        MDB_txn *txn;
        if (mdb_txn_begin(env, nullptr, MDB_RDONLY, &txn) != 0) return false;
        bool all = true;
        for (uint32_t at = 0; all && at < count; at++) {
            MDB_val key{sizeof at, &at}, value;
            all = mdb_get(txn, dbi, &key, &value) == 0 &&
                  leb128::read(n, static_cast<uint8_t *>(value.mv_data), value.mv_size, ids, given);
        }
        mdb_txn_abort(txn);
        return all;
    }
};

static Brings brings(5, new Lmdb);

} // namespace peers
