// The table of peer.hpp in LMDB: rows by their keys, and two databases from a number and from a text to keys. Each change is a transaction,
// which nothing writes to the disk, and the file lies in memory where the system has /dev/shm. It is there where LMDB is installed.
#ifndef MAPPED_HPP
#define MAPPED_HPP

#if !defined(WITHOUT_LMDB) && __has_include(<lmdb.h>)
#define HAS_LMDB 1

#include "peer.hpp"

#include <cstdlib>
#include <cstring>
#include <filesystem>
#include <lmdb.h>
#include <stdexcept>
#include <string>

namespace mapped {

inline void done(int status)
{
    if (status != MDB_SUCCESS)
        throw std::runtime_error(mdb_strerror(status));
}

inline MDB_val value_of(const std::int64_t &number)
{
    return { sizeof number, const_cast<std::int64_t *>(&number) };
}

inline MDB_val value_of(const std::string &text)
{
    return { text.size(), const_cast<char *>(text.data()) };
}

inline std::int64_t number_of(const MDB_val &value)
{
    std::int64_t number;
    std::memcpy(&number, value.mv_data, sizeof number);
    return number;
}

class table {
    static constexpr std::size_t ROOM = std::size_t{ 8 } << 30;
    std::filesystem::path folder;
    MDB_env *env = nullptr;
    MDB_txn *reading = nullptr;
    MDB_dbi rows = 0, by_n = 0, by_s = 0;

    static std::filesystem::path new_folder()
    {
        std::string name = std::filesystem::exists("/dev/shm") ? "/dev/shm/mmdb-bench-XXXXXX" : "/tmp/mmdb-bench-XXXXXX";
        if (mkdtemp(name.data()) == nullptr)
            throw std::runtime_error("no folder for LMDB");
        return name;
    }

    // A row as it is kept: its number, and its text behind it.
    static std::string packed(std::int64_t n, const std::string &s)
    {
        return std::string(reinterpret_cast<const char *>(&n), sizeof n) + s;
    }

    static peer::row row_of(std::int64_t id, const MDB_val &kept)
    {
        const char *const at = static_cast<const char *>(kept.mv_data);
        return { id, number_of(kept), std::string(at + sizeof(std::int64_t), kept.mv_size - sizeof(std::int64_t)) };
    }

    static bool find(MDB_txn *in, MDB_dbi dbi, std::int64_t id, MDB_val &to)
    {
        MDB_val key = value_of(id);
        const int status = mdb_get(in, dbi, &key, &to);
        if (status != MDB_NOTFOUND)
            done(status);
        return status == MDB_SUCCESS;
    }

    template <typename Key> static void enter(MDB_txn *in, MDB_dbi dbi, const Key &of, std::int64_t id)
    {
        MDB_val key = value_of(of), value = value_of(id);
        done(mdb_put(in, dbi, &key, &value, 0));
    }

    template <typename Key> static void leave(MDB_txn *in, MDB_dbi dbi, const Key &of, std::int64_t id)
    {
        MDB_val key = value_of(of), value = value_of(id);
        done(mdb_del(in, dbi, &key, &value));
    }

    void put(MDB_txn *in, std::int64_t id, std::int64_t n, const std::string &s)
    {
        const std::string kept = packed(n, s);
        MDB_val key = value_of(id), value = value_of(kept);
        done(mdb_put(in, rows, &key, &value, 0));
        enter(in, by_n, n, id);
        enter(in, by_s, s, id);
    }

    // What takes a row out of both indexes. Gives whether there is one.
    bool unlink(MDB_txn *in, std::int64_t id)
    {
        MDB_val kept;
        if (!find(in, rows, id, kept))
            return false;
        const peer::row before = row_of(id, kept);
        leave(in, by_n, before.n, id);
        leave(in, by_s, before.s, id);
        return true;
    }

    template <typename Change> bool change(Change by)
    {
        MDB_txn *in;
        done(mdb_txn_begin(env, nullptr, 0, &in));
        const bool is_done = by(in);
        done(mdb_txn_commit(in));
        return is_done;
    }

    template <typename Key, typename Read> void with(MDB_dbi dbi, const Key &of, Read read)
    {
        MDB_cursor *at;
        MDB_val key = value_of(of), id, kept;
        done(mdb_txn_renew(reading));
        done(mdb_cursor_open(reading, dbi, &at));
        for (int status = mdb_cursor_get(at, &key, &id, MDB_SET); status == MDB_SUCCESS;
             status = mdb_cursor_get(at, &key, &id, MDB_NEXT_DUP)) {
            if (find(reading, rows, number_of(id), kept))
                read(row_of(number_of(id), kept));
        }
        mdb_cursor_close(at);
        mdb_txn_reset(reading);
    }

public:
    table() : folder(new_folder())
    {
        done(mdb_env_create(&env));
        done(mdb_env_set_mapsize(env, ROOM));
        done(mdb_env_set_maxdbs(env, 3));
        done(mdb_env_open(env, folder.c_str(), MDB_NOSYNC | MDB_WRITEMAP | MDB_NOMETASYNC, 0600));
        change([this](MDB_txn *in) {
            done(mdb_dbi_open(in, "rows", MDB_CREATE | MDB_INTEGERKEY, &rows));
            done(mdb_dbi_open(in, "by_n", MDB_CREATE | MDB_INTEGERKEY | MDB_DUPSORT | MDB_DUPFIXED, &by_n));
            done(mdb_dbi_open(in, "by_s", MDB_CREATE | MDB_DUPSORT | MDB_DUPFIXED, &by_s));
            return true;
        });
        done(mdb_txn_begin(env, nullptr, MDB_RDONLY, &reading));
        mdb_txn_reset(reading);
    }

    table(const table &) = delete;
    table &operator=(const table &) = delete;

    ~table()
    {
        mdb_txn_abort(reading);
        mdb_env_close(env);
        std::error_code ignored;
        std::filesystem::remove_all(folder, ignored);
    }

    bool insert(std::int64_t id, std::int64_t n, const std::string &s)
    {
        return change([&](MDB_txn *in) {
            MDB_val kept;
            const bool is_new = !find(in, rows, id, kept);
            if (is_new)
                put(in, id, n, s);
            return is_new;
        });
    }

    bool update(std::int64_t id, std::int64_t n, const std::string &s)
    {
        return change([&](MDB_txn *in) {
            const bool is_there = unlink(in, id);
            if (is_there)
                put(in, id, n, s);
            return is_there;
        });
    }

    bool remove(std::int64_t id)
    {
        return change([&](MDB_txn *in) {
            MDB_val key = value_of(id);
            const bool is_there = unlink(in, id);
            if (is_there)
                done(mdb_del(in, rows, &key, nullptr));
            return is_there;
        });
    }

    template <typename Read> void with_id(std::int64_t id, Read read)
    {
        MDB_val kept;
        done(mdb_txn_renew(reading));
        if (find(reading, rows, id, kept))
            read(row_of(id, kept));
        mdb_txn_reset(reading);
    }

    template <typename Read> void with_n(std::int64_t n, Read read) { with(by_n, n, read); }

    template <typename Read> void with_s(const std::string &s, Read read) { with(by_s, s, read); }
};

} // namespace mapped

#else
#define HAS_LMDB 0
#endif

#endif
