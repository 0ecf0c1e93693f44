// A table in plain C++ with three indexes: the key in order, and two hashes, of the number and of the text. It is no database: it has no
// statements, no types beside these, and no second table. It is a multi_index of Boost where that is installed, and otherwise, or with
// -DWITHOUT_BOOST, a std::map with two std::unordered_multimap, which hold pointers to its rows.
#ifndef PEER_HPP
#define PEER_HPP

#include <cstdint>
#include <string>
#include <utility>

#if !defined(WITHOUT_BOOST) && __has_include(<boost/multi_index_container.hpp>)
#define HAS_MULTI_INDEX 1
#include <boost/multi_index/hashed_index.hpp>
#include <boost/multi_index/member.hpp>
#include <boost/multi_index/ordered_index.hpp>
#include <boost/multi_index_container.hpp>
#else
#define HAS_MULTI_INDEX 0
#include <map>
#include <string_view>
#include <unordered_map>
#endif

namespace peer {

struct row {
    std::int64_t id;
    std::int64_t n;
    std::string s;
};

#if HAS_MULTI_INDEX

namespace index = boost::multi_index;

inline const char *const NAME = "boost::multi_index";

class table {
    using by_id = index::ordered_unique<index::member<row, std::int64_t, &row::id>>;
    using by_n = index::hashed_non_unique<index::member<row, std::int64_t, &row::n>>;
    using by_s = index::hashed_non_unique<index::member<row, std::string, &row::s>>;
    index::multi_index_container<row, index::indexed_by<by_id, by_n, by_s>> rows;

public:
    bool insert(std::int64_t id, std::int64_t n, std::string s) { return rows.insert({ id, n, std::move(s) }).second; }

    // Sets the number and the text of the row with this key.
    bool update(std::int64_t id, std::int64_t n, std::string s)
    {
        auto found = rows.find(id);
        return found != rows.end() && rows.replace(found, { id, n, std::move(s) });
    }

    bool remove(std::int64_t id) { return rows.erase(id) == 1; }

    template <typename Read> void with_id(std::int64_t id, Read read) const
    {
        auto found = rows.find(id);
        if (found != rows.end())
            read(*found);
    }

    template <typename Read> void with_n(std::int64_t n, Read read) const
    {
        auto [from, to] = rows.template get<1>().equal_range(n);
        for (; from != to; ++from)
            read(*from);
    }

    template <typename Read> void with_s(const std::string &s, Read read) const
    {
        auto [from, to] = rows.template get<2>().equal_range(s);
        for (; from != to; ++from)
            read(*from);
    }
};

#else

inline const char *const NAME = "std::map and two std::unordered_multimap";

class table {
    std::map<std::int64_t, row> rows;
    std::unordered_multimap<std::int64_t, const row *> by_n;
    // The texts are those of the rows.
    std::unordered_multimap<std::string_view, const row *> by_s;

    template <typename Index, typename Key> static void take_out(Index &index, const Key &key, const row *of)
    {
        auto [from, to] = index.equal_range(key);
        while (from != to && from->second != of)
            ++from;
        index.erase(from);
    }

    void enter(const row &of)
    {
        by_n.emplace(of.n, &of);
        by_s.emplace(of.s, &of);
    }

    void leave(const row &of)
    {
        take_out(by_n, of.n, &of);
        take_out(by_s, std::string_view(of.s), &of);
    }

public:
    bool insert(std::int64_t id, std::int64_t n, std::string s)
    {
        auto [put, is_new] = rows.try_emplace(id, row{ id, n, std::move(s) });
        if (is_new)
            enter(put->second);
        return is_new;
    }

    // Sets the number and the text of the row with this key.
    bool update(std::int64_t id, std::int64_t n, std::string s)
    {
        auto found = rows.find(id);
        if (found == rows.end())
            return false;
        leave(found->second);
        found->second.n = n;
        found->second.s = std::move(s);
        enter(found->second);
        return true;
    }

    bool remove(std::int64_t id)
    {
        auto found = rows.find(id);
        if (found == rows.end())
            return false;
        leave(found->second);
        rows.erase(found);
        return true;
    }

    template <typename Read> void with_id(std::int64_t id, Read read) const
    {
        auto found = rows.find(id);
        if (found != rows.end())
            read(found->second);
    }

    template <typename Read> void with_n(std::int64_t n, Read read) const
    {
        auto [from, to] = by_n.equal_range(n);
        for (; from != to; ++from)
            read(*from->second);
    }

    template <typename Read> void with_s(const std::string &s, Read read) const
    {
        auto [from, to] = by_s.equal_range(s);
        for (; from != to; ++from)
            read(*from->second);
    }
};

#endif

} // namespace peer

#endif
