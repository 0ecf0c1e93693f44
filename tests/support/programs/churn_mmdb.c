/* The table of sessions in mmdb. */
#include "churn.h"
#include "mmdb.h"

#include <stdlib.h>
#include <string.h>

enum { VIEWS = 9 };

/* A handle, and its statements for look-ups. Those of different threads lie a line of the cache apart. */
typedef struct view {
    mmdb db;
    uint32_t by_token, by_number, count;
    char apart[64];
} view;

static view views[VIEWS];
static mmdb *const db = &views[0].db;
static uint32_t insert, touch_by_token, touch_by_number, expire;

static void declared(const char *line)
{
    mmdb_bytes answer;
    if (mmdb_command(db, line, strlen(line), &answer) != MMDB_DONE || mmdb_refusal(db) != 0)
        exit(4);
}

static uint32_t prepared(mmdb *on, const char *line)
{
    mmdb_statement statement;
    if (mmdb_prepare(on, line, strlen(line), &statement) != MMDB_DONE)
        exit(4);
    return statement.number;
}

static void done(mmdb_status status)
{
    if (status != MMDB_DONE)
        exit(4);
}

static void prepare_look_ups(view *of)
{
    of->by_token = prepared(&of->db, "select id, until from session where token = ?");
    of->by_number = prepared(&of->db, "select id, until from session where id = ?");
    of->count = prepared(&of->db, "select id from session where token = ?");
}

const char *engine_open(void)
{
    done(mmdb_open(db, MMDB_AUTO, MMDB_MOST, MMDB_MOST));
    declared("table session (id int, token text, visits int, until int)");
    declared("index session until tree");
    declared("index session token hash");
    insert = prepared(db, "insert session (?, ?, 0, ?)");
    touch_by_token = prepared(db, "update session set visits = ?, until = ? where token = ?");
    touch_by_number = prepared(db, "update session set visits = ?, until = ? where id = ?");
    expire = prepared(db, "delete session where until < ?");
    prepare_look_ups(&views[0]);
    return "mmdb";
}

static int64_t changed(uint32_t statement)
{
    mmdb_rows rows;
    return mmdb_execute(db, statement, &rows) == MMDB_DONE ? (int64_t)rows.changed : -1;
}

/* Binds what names a session to a place of one of two statements, and gives that. */
static uint32_t bound(mmdb *on, uint32_t by_number, uint32_t by_token, uint32_t place, int64_t number, const char *token)
{
    if (*token == '\0')
        done(mmdb_bind_integer(on, by_number, place, number));
    else
        done(mmdb_bind_text(on, by_token, place, token, strlen(token)));
    return *token == '\0' ? by_number : by_token;
}

int64_t engine_insert(int64_t number, const char *token, int64_t until)
{
    done(mmdb_bind_integer(db, insert, 0, number));
    done(mmdb_bind_text(db, insert, 1, token, strlen(token)));
    done(mmdb_bind_integer(db, insert, 2, until));
    return changed(insert);
}

int64_t engine_touch(int64_t number, const char *token, int64_t visits, int64_t until)
{
    const uint32_t touch = bound(db, touch_by_number, touch_by_token, 2, number, token);
    done(mmdb_bind_integer(db, touch, 0, visits));
    done(mmdb_bind_integer(db, touch, 1, until));
    return changed(touch);
}

int64_t engine_look_up(int from, int64_t number, const char *token, session *found)
{
    view *const of = &views[from];
    const uint32_t look_up = bound(&of->db, of->by_number, of->by_token, 0, number, token);
    mmdb_rows rows;
    if (mmdb_execute(&of->db, look_up, &rows) != MMDB_DONE)
        return -1;
    if (rows.rows > 0) {
        found->number = mmdb_cell_at(&rows, 0, 0)->integer;
        found->until = mmdb_cell_at(&rows, 0, 1)->integer;
    }
    return (int64_t)rows.rows;
}

int64_t engine_count(int from, const char *token)
{
    view *const of = &views[from];
    mmdb_rows rows;
    done(mmdb_bind_text(&of->db, of->count, 0, token, strlen(token)));
    return mmdb_execute(&of->db, of->count, &rows) == MMDB_DONE ? (int64_t)rows.rows : -1;
}

int64_t engine_expire(int64_t before)
{
    done(mmdb_bind_integer(db, expire, 0, before));
    return changed(expire);
}

int engine_share(int readers)
{
    if (readers >= VIEWS)
        exit(4);
    for (int i = 1; i <= readers; i++) {
        const int is_new = views[i].db.inside == NULL;
        done(mmdb_share(db, &views[i].db));
        if (is_new)
            prepare_look_ups(&views[i]);
    }
    return 1;
}

void engine_leave(int readers)
{
    for (int i = 1; i <= readers; i++)
        done(mmdb_leave(&views[i].db));
}

void engine_close(void)
{
    for (int i = 0; i < VIEWS; i++)
        mmdb_close(&views[i].db);
}
