// Times a table with three indexes, its key and two declared hashes: in mmdb, in SQLite over `:memory:` with an index of either column, and
// in plain C++ (peer.hpp), and where it is installed in LMDB (mapped.hpp), all in this process, by `indexes ROWS [ROUNDS]`. mmdb and SQLite
// have prepared statements. Each figure is a line: what was done, and the microseconds of each. The last line is the sum of what each read.
// `indexes --version` says which these are. H2Side.java does the same in H2.
//
// Its status is 1 if one of them reads other rows than the others do.
#define PROGRAM "indexes"
#include "mapped.hpp"
#include "mmdb.h"
#include "peer.hpp"
#include "timing.h"

#include <algorithm>
#include <array>
#include <cstring>
#include <memory>
#include <sqlite3.h>
#include <string>
#include <vector>

namespace {

constexpr std::int64_t ROUNDS = 7, STATEMENTS = 10000, MOST_NEW = 2000;

enum kind { BY_KEY, BY_NUMBER, BY_TEXT, INSERT, UPDATE, REMOVE, KINDS };
constexpr std::array<const char *, KINDS> NAMES = { "select by key", "select by hash of a number", "select by hash of a text",
                                                    "insert", "update of both", "delete" };
constexpr std::array<const char *, KINDS> OURS = { "select * from t where id = ?",
                                                   "select * from t where n = ?",
                                                   "select * from t where s = ?",
                                                   "insert t (?, ?, ?)",
                                                   "update t set n = ?, s = ? where id = ?",
                                                   "delete t where id = ?" };
constexpr std::array<const char *, KINDS> THEIRS = { "select * from t where id = ?",
                                                     "select * from t where n = ?",
                                                     "select * from t where s = ?",
                                                     "insert into t values (?, ?, ?)",
                                                     "update t set n = ?, s = ? where id = ?",
                                                     "delete from t where id = ?" };

// A row by its key, with its first values or with others.
peer::row row_of(std::int64_t key, bool is_first)
{
    char text[9];
    letters(text, is_first ? key : ~key);
    return { key, is_first ? key / 2 : -1 - key / 2, text };
}

// One of the three, and what was read of its rows.
class engine {
public:
    std::uint64_t sum = 0;

    virtual ~engine() = default;
    virtual void work(kind of, const peer::row &with) = 0;

protected:
    void read(std::int64_t id, std::int64_t n, char first)
    {
        sum += static_cast<std::uint64_t>(id) * 31 + static_cast<std::uint64_t>(n) * 7 + static_cast<unsigned char>(first);
    }
};

class ours : public engine {
    mmdb db = MMDB_CLOSED;
    std::array<std::uint32_t, KINDS> statements{};

    void command(const char *line)
    {
        insist(mmdb_command(&db, line, std::strlen(line), nullptr) == MMDB_DONE && mmdb_refusal(&db) == 0, line);
    }

    void bind(std::uint32_t to, kind of, const peer::row &with)
    {
        const std::uint32_t number = of == INSERT ? 1 : 0, key = of == UPDATE ? 2 : 0;
        if (of != BY_NUMBER && of != BY_TEXT)
            mmdb_bind_integer(&db, to, key, with.id);
        if (of == BY_NUMBER || of == INSERT || of == UPDATE)
            mmdb_bind_integer(&db, to, number, with.n);
        if (of == BY_TEXT || of == INSERT || of == UPDATE)
            mmdb_bind_text(&db, to, of == BY_TEXT ? 0 : number + 1, with.s.data(), with.s.size());
    }

public:
    ours()
    {
        insist(mmdb_open(&db, MMDB_AUTO, MMDB_MOST, MMDB_MOST) == MMDB_DONE, "mmdb_open");
        for (const char *line : { "table t (id int, n int, s text)", "index t n hash", "index t s hash" })
            command(line);
        for (int of = 0; of < KINDS; of++) {
            mmdb_statement made;
            insist(mmdb_prepare(&db, OURS[of], std::strlen(OURS[of]), &made) == MMDB_DONE, OURS[of]);
            statements[of] = made.number;
        }
    }

    ~ours() override { mmdb_close(&db); }

    void work(kind of, const peer::row &with) override
    {
        mmdb_rows rows;
        bind(statements[of], of, with);
        insist(mmdb_execute(&db, statements[of], &rows) == MMDB_DONE, OURS[of]);
        for (std::size_t row = 0; row < rows.rows; row++) {
            const mmdb_cell *cells = mmdb_cell_at(&rows, row, 0);
            read(cells[0].integer, cells[1].integer, static_cast<char>(mmdb_text(&rows, &cells[2]).at[0]));
        }
    }
};

class theirs : public engine {
    sqlite3 *db = nullptr;
    std::array<sqlite3_stmt *, KINDS> statements{};

    void bind(sqlite3_stmt *to, kind of, const peer::row &with)
    {
        const int number = of == INSERT ? 2 : 1, key = of == UPDATE ? 3 : 1;
        if (of != BY_NUMBER && of != BY_TEXT)
            sqlite3_bind_int64(to, key, with.id);
        if (of == BY_NUMBER || of == INSERT || of == UPDATE)
            sqlite3_bind_int64(to, number, with.n);
        if (of == BY_TEXT || of == INSERT || of == UPDATE)
            sqlite3_bind_text(to, of == BY_TEXT ? 1 : number + 1, with.s.data(), static_cast<int>(with.s.size()), SQLITE_STATIC);
    }

public:
    theirs()
    {
        insist(sqlite3_open(":memory:", &db) == SQLITE_OK, "sqlite3_open");
        for (const char *line : { "create table t (id integer primary key, n integer, s text)", "create index by_n on t (n)",
                                  "create index by_s on t (s)" })
            insist(sqlite3_exec(db, line, nullptr, nullptr, nullptr) == SQLITE_OK, line);
        for (int of = 0; of < KINDS; of++)
            insist(sqlite3_prepare_v2(db, THEIRS[of], -1, &statements[of], nullptr) == SQLITE_OK, THEIRS[of]);
    }

    ~theirs() override
    {
        for (sqlite3_stmt *each : statements)
            sqlite3_finalize(each);
        sqlite3_close(db);
    }

    void work(kind of, const peer::row &with) override
    {
        sqlite3_stmt *const statement = statements[of];
        bind(statement, of, with);
        int status = sqlite3_step(statement);
        for (; status == SQLITE_ROW; status = sqlite3_step(statement))
            read(sqlite3_column_int64(statement, 0), sqlite3_column_int64(statement, 1),
                 static_cast<char>(sqlite3_column_text(statement, 2)[0]));
        insist(status == SQLITE_DONE, THEIRS[of]);
        sqlite3_reset(statement);
    }
};

// A table whose calls are those of peer.hpp.
template <typename Table> class called : public engine {
    Table rows;

    bool change(kind of, const peer::row &with)
    {
        if (of == INSERT)
            return rows.insert(with.id, with.n, with.s);
        return of == UPDATE ? rows.update(with.id, with.n, with.s) : rows.remove(with.id);
    }

public:
    void work(kind of, const peer::row &with) override
    {
        const auto reads = [this](const peer::row &row) { read(row.id, row.n, row.s[0]); };
        if (of == BY_KEY)
            rows.with_id(with.id, reads);
        else if (of == BY_NUMBER)
            rows.with_n(with.n, reads);
        else if (of == BY_TEXT)
            rows.with_s(with.s, reads);
        else
            insist(change(of, with), NAMES[of]);
    }
};

double batch(engine &on, kind of, const std::vector<peer::row> &rows)
{
    const double before = seconds();
    for (const peer::row &row : rows)
        on.work(of, row);
    return seconds() - before;
}

// The rows of some statements. The keys in the table are even, and new ones are odd.
std::vector<peer::row> drawn(kind of, std::int64_t rows)
{
    const std::int64_t most = std::min(rows, MOST_NEW);
    std::vector<std::int64_t> keys(static_cast<std::size_t>(of >= INSERT ? most : STATEMENTS));
    if (of == INSERT || of == REMOVE)
        shuffle(keys.data(), most, rows / most * 2, 1);
    else if (of == UPDATE)
        shuffle(keys.data(), most, rows / most * 2, 0);
    else
        std::generate(keys.begin(), keys.end(), [rows] { return 2 * static_cast<std::int64_t>(draw(static_cast<std::uint64_t>(rows))); });
    std::vector<peer::row> made;
    for (const std::int64_t key : keys)
        made.push_back(row_of(key, of != UPDATE));
    return made;
}

std::vector<peer::row> as_first(const std::vector<peer::row> &rows)
{
    std::vector<peer::row> made;
    for (const peer::row &row : rows)
        made.push_back(row_of(row.id, true));
    return made;
}

// The seconds of a statement. What is changed is changed back, in batches that make the table at most twice as large.
double statement(engine &on, kind of, const std::vector<peer::row> &rows)
{
    double took = 0;
    std::int64_t done = 0;
    for (; done < STATEMENTS; done += static_cast<std::int64_t>(rows.size())) {
        if (of == REMOVE)
            batch(on, INSERT, rows);
        took += batch(on, of, rows);
        if (of == INSERT)
            batch(on, REMOVE, rows);
        if (of == UPDATE)
            batch(on, UPDATE, as_first(rows));
    }
    return took / static_cast<double>(done);
}

using engines = std::vector<std::unique_ptr<engine>>;

engines all_engines()
{
    engines all;
    all.push_back(std::make_unique<ours>());
    all.push_back(std::make_unique<theirs>());
    all.push_back(std::make_unique<called<peer::table>>());
#if HAS_LMDB
    all.push_back(std::make_unique<called<mapped::table>>());
#endif
    return all;
}

// The names of those beside mmdb and SQLite, each in a line.
int tell_names()
{
    std::puts(peer::NAME);
#if HAS_LMDB
    std::printf("LMDB %d.%d.%d\n", MDB_VERSION_MAJOR, MDB_VERSION_MINOR, MDB_VERSION_PATCH);
#endif
    return 0;
}

void compare(const engines &all, kind of, std::int64_t rows, std::int64_t rounds)
{
    std::vector<double> best(all.size(), 1e9);
    for (std::int64_t round = 0; round < rounds; round++) {
        const std::vector<peer::row> with = drawn(of, rows);
        for (std::size_t each = 0; each < all.size(); each++)
            best[each] = std::min(best[each], statement(*all[each], of, with));
    }
    std::printf("%s", NAMES[of]);
    for (const double took : best)
        std::printf("\t%f", took * 1e6);
    std::puts("");
    std::fflush(stdout);
}

void fill(const engines &all, std::int64_t rows)
{
    std::vector<std::int64_t> keys(static_cast<std::size_t>(rows));
    shuffle(keys.data(), rows, 2, 0);
    for (const auto &each : all)
        for (const std::int64_t key : keys)
            each->work(INSERT, row_of(key, true));
}

} // namespace

int main(int count, char **words)
{
    if (count == 2 && std::strcmp(words[1], "--version") == 0)
        return tell_names();
    const std::int64_t rows = count > 1 ? std::strtoll(words[1], nullptr, 10) : 0;
    const std::int64_t rounds = count > 2 ? std::strtoll(words[2], nullptr, 10) : ROUNDS;
    insist(rows > 0 && rounds > 0, "indexes ROWS [ROUNDS]");
    const engines all = all_engines();
    fill(all, rows);
    for (int of = 0; of < KINDS; of++)
        compare(all, static_cast<kind>(of), rows, rounds);
    for (const auto &each : all)
        insist(each->sum == all[0]->sum && each->sum != 0, "a select, whose rows are others, or none,");
    std::printf("sum\t%" PRIu64 "\n", all[0]->sum);
    return 0;
}
