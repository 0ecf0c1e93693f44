/* A routing table: prefixes of addresses, and the next hops that they lead to. mmdb finds the prefixes that hold an
   address, and the longest of them is its route. */
#include "mmdb.h"

#include <inttypes.h>
#include <stdio.h>
#include <stdlib.h>
#include <string.h>

enum { BLOCK = 4096, LINE = 64, ROW_IS_REFERENCED = 44 };

/* What the rows of a load are made of. Addresses are numbers, so that ranges of them can be asked for. */
static const struct {
    const char *prefix;
    uint32_t first;
    int bits;
    const char *hop;
} ROUTES[] = {
    { "0.0.0.0/0", UINT32_C(0x00000000), 0, "provider" },
    { "10.0.0.0/8", UINT32_C(0x0a000000), 8, "O'Hare" },
    { "10.1.0.0/16", UINT32_C(0x0a010000), 16, "annex" },
    { "10.1.2.0/24", UINT32_C(0x0a010200), 24, "annex" },
    { "192.0.2.0/24", UINT32_C(0xc0000200), 24, "O'Hare" },
};

/* A router has its tables in a database, and the statements that ask and change them, which are prepared once. */
typedef struct router {
    mmdb db;
    mmdb_statement add_hop;
    mmdb_statement find;
    mmdb_statement lead_elsewhere;
    mmdb_statement remove_hop;
} router;

static uint32_t last_address(uint32_t first, int bits)
{
    return bits == 0 ? UINT32_MAX : first | (UINT32_MAX >> bits);
}

/* Whether a call was done. Tells why it wasn't: by the answer where it was refused. */
static int is_done(mmdb *db, const char *what, mmdb_status status)
{
    mmdb_bytes answer;
    if (status == MMDB_DONE)
        return 1;
    if (status == MMDB_REFUSED && mmdb_answer(db, &answer) == MMDB_DONE)
        fprintf(stderr, "routes: %s: %.*s", what, (int)answer.length, (const char *)answer.at);
    else
        fprintf(stderr, "routes: %s: %s\n", what, mmdb_status_text(status));
    return 0;
}

/* Does a line that declares something, with the block that it asks for. Its refusal is an answer, too. */
static int does(mmdb *db, const char *line, const char *block, size_t length)
{
    mmdb_bytes answer;
    if (!is_done(db, line, mmdb_load(db, line, strlen(line), block, length, &answer)))
        return 0;
    if (mmdb_refusal(db) != 0)
        return is_done(db, line, MMDB_REFUSED);
    printf("%s: %.*s", line, (int)answer.length, (const char *)answer.at);
    return 1;
}

static int declares(mmdb *db)
{
    return does(db, "table hop (name text, address text)", NULL, 0) &&
           does(db, "table route (prefix text, first int, last int, bits int, hop ref hop)", NULL, 0) &&
           does(db, "index route first tree", NULL, 0) &&
           does(db, "index route hop hash", NULL, 0);
}

static int prepares(mmdb *db, const char *line, mmdb_statement *statement)
{
    return is_done(db, line, mmdb_prepare(db, line, strlen(line), statement));
}

static int prepares_all(router *of)
{
    return prepares(&of->db, "insert hop (?, ?)", &of->add_hop) &&
           prepares(&of->db, "select bits, prefix, address from route join hop on route.hop = hop.name"
                             " where first <= ? and last >= ?", &of->find) &&
           prepares(&of->db, "update route set hop = ? where hop = ?", &of->lead_elsewhere) &&
           prepares(&of->db, "delete hop where name = ?", &of->remove_hop);
}

/* A text is one value, whatever it holds: no quote marks are put around it. */
static int binds_text(mmdb *db, mmdb_statement to, uint32_t place, const char *text)
{
    return is_done(db, text, mmdb_bind_text(db, to.number, place, text, strlen(text)));
}

static int adds_hop(router *of, const char *name, const char *address)
{
    return binds_text(&of->db, of->add_hop, 0, name) &&
           binds_text(&of->db, of->add_hop, 1, address) &&
           is_done(&of->db, name, mmdb_execute(&of->db, of->add_hop.number, NULL));
}

/* Loads all routes at once: as CSV, whose first record is the names of the columns. All come in, or none. */
static int loads_routes(mmdb *db)
{
    char line[LINE], block[BLOCK];
    size_t length = (size_t)snprintf(block, sizeof block, "prefix,first,last,bits,hop\n");
    for (size_t i = 0; i < sizeof ROUTES / sizeof ROUTES[0]; i++) {
        uint32_t last = last_address(ROUTES[i].first, ROUTES[i].bits);
        length += (size_t)snprintf(block + length, sizeof block - length, "%s,%" PRIu32 ",%" PRIu32 ",%d,%s\n",
                                   ROUTES[i].prefix, ROUTES[i].first, last, ROUTES[i].bits, ROUTES[i].hop);
    }
    snprintf(line, sizeof line, "load route %zu", length);
    return does(db, line, block, length);
}

/* Finds the route of an address: the longest of the prefixes that hold it, each of which is a row of `bits, prefix,
   address`. The rows are good until the statement is executed again. */
static int finds(router *of, const char *name, uint32_t address)
{
    const uint32_t find = of->find.number;
    mmdb_rows rows;
    size_t best = 0;
    if (!is_done(&of->db, name, mmdb_bind_integer(&of->db, find, 0, address)) ||
        !is_done(&of->db, name, mmdb_bind_integer(&of->db, find, 1, address)) ||
        !is_done(&of->db, name, mmdb_execute(&of->db, find, &rows)))
        return 0;
    for (size_t row = 0; row < rows.rows; row++)
        if (mmdb_cell_at(&rows, row, 0)->integer > mmdb_cell_at(&rows, best, 0)->integer)
            best = row;
    if (rows.rows == 0) {
        printf("%s has no route\n", name);
    } else {
        mmdb_bytes prefix = mmdb_text(&rows, mmdb_cell_at(&rows, best, 1));
        mmdb_bytes hop = mmdb_text(&rows, mmdb_cell_at(&rows, best, 2));
        printf("%s goes to %.*s by %.*s, the longest of %d\n", name, (int)hop.length, (const char *)hop.at,
               (int)prefix.length, (const char *)prefix.at, (int)rows.rows);
    }
    return 1;
}

/* Takes out a hop. While routes lead to it that is refused, and then they are led elsewhere first. */
static int removes_hop(router *of, const char *name, const char *other)
{
    mmdb *db = &of->db;
    mmdb_rows rows;
    mmdb_status status;
    if (!binds_text(db, of->remove_hop, 0, name))
        return 0;
    status = mmdb_execute(db, of->remove_hop.number, NULL);
    if (status == MMDB_REFUSED && mmdb_refusal(db) == ROW_IS_REFERENCED) {
        if (!binds_text(db, of->lead_elsewhere, 0, other) ||
            !binds_text(db, of->lead_elsewhere, 1, name) ||
            !is_done(db, other, mmdb_execute(db, of->lead_elsewhere.number, &rows)))
            return 0;
        printf("%d routes to %s lead to %s now\n", (int)rows.changed, name, other);
        status = mmdb_execute(db, of->remove_hop.number, NULL);
    }
    if (!is_done(db, name, status))
        return 0;
    printf("%s is gone\n", name);
    return 1;
}

static int runs(router *of)
{
    return declares(&of->db) &&
           prepares_all(of) &&
           adds_hop(of, "provider", "198.51.100.1") &&
           adds_hop(of, "O'Hare", "203.0.113.7") &&
           adds_hop(of, "annex", "203.0.113.9") &&
           loads_routes(&of->db) &&
           finds(of, "10.1.2.3", UINT32_C(0x0a010203)) &&
           finds(of, "8.8.8.8", UINT32_C(0x08080808)) &&
           removes_hop(of, "annex", "O'Hare") &&
           finds(of, "10.1.2.3", UINT32_C(0x0a010203));
}

int main(void)
{
    router of = { MMDB_CLOSED, { 0, 0 }, { 0, 0 }, { 0, 0 }, { 0, 0 } };
    int done = is_done(&of.db, "open", mmdb_open(&of.db, MMDB_AUTO, MMDB_MOST, MMDB_MOST)) && runs(&of);
    mmdb_close(&of.db);
    return done ? EXIT_SUCCESS : EXIT_FAILURE;
}
