/* The table of sessions in SQLite, in memory. */
#include "churn.h"

#include <sqlite3.h>
#include <stdlib.h>

static sqlite3 *db;
static sqlite3_stmt *insert, *touch_by_token, *touch_by_number, *by_token, *by_number, *count, *expire;

static void done(int status)
{
    if (status != SQLITE_OK)
        exit(4);
}

static sqlite3_stmt *prepared(const char *line)
{
    sqlite3_stmt *statement;
    done(sqlite3_prepare_v3(db, line, -1, SQLITE_PREPARE_PERSISTENT, &statement, NULL));
    return statement;
}

const char *engine_open(void)
{
    done(sqlite3_open(":memory:", &db));
    done(sqlite3_exec(db, "create table session (id integer primary key, token text, visits int, until int)", NULL, NULL, NULL));
    done(sqlite3_exec(db, "create index until on session (until)", NULL, NULL, NULL));
    done(sqlite3_exec(db, "create index token on session (token)", NULL, NULL, NULL));
    insert = prepared("insert into session values (?, ?, 0, ?)");
    touch_by_token = prepared("update session set visits = ?, until = ? where token = ?");
    touch_by_number = prepared("update session set visits = ?, until = ? where id = ?");
    by_token = prepared("select id, until from session where token = ?");
    by_number = prepared("select id, until from session where id = ?");
    count = prepared("select count(*) from session where token = ?");
    expire = prepared("delete from session where until < ?");
    return "SQLite " SQLITE_VERSION;
}

static int64_t changed(sqlite3_stmt *statement)
{
    const int status = sqlite3_step(statement);
    done(sqlite3_reset(statement));
    return status == SQLITE_DONE ? sqlite3_changes(db) : -1;
}

int64_t engine_insert(int64_t number, const char *token, int64_t until)
{
    done(sqlite3_bind_int64(insert, 1, number));
    done(sqlite3_bind_text(insert, 2, token, -1, SQLITE_STATIC));
    done(sqlite3_bind_int64(insert, 3, until));
    return changed(insert);
}

/* Binds what names a session to a place of one of two statements, and gives that. */
static sqlite3_stmt *bound(sqlite3_stmt *number_in, sqlite3_stmt *token_in, int place, int64_t number, const char *token)
{
    if (*token == '\0')
        done(sqlite3_bind_int64(number_in, place, number));
    else
        done(sqlite3_bind_text(token_in, place, token, -1, SQLITE_STATIC));
    return *token == '\0' ? number_in : token_in;
}

int64_t engine_touch(int64_t number, const char *token, int64_t visits, int64_t until)
{
    sqlite3_stmt *const touch = bound(touch_by_number, touch_by_token, 3, number, token);
    done(sqlite3_bind_int64(touch, 1, visits));
    done(sqlite3_bind_int64(touch, 2, until));
    return changed(touch);
}

int64_t engine_look_up(int view, int64_t number, const char *token, session *found)
{
    sqlite3_stmt *const look_up = bound(by_number, by_token, 1, number, token);
    int64_t rows = 0;
    if (view != 0)
        return -1;
    while (sqlite3_step(look_up) == SQLITE_ROW) {
        found->number = sqlite3_column_int64(look_up, 0);
        found->until = sqlite3_column_int64(look_up, 1);
        rows++;
    }
    done(sqlite3_reset(look_up));
    return rows;
}

int64_t engine_count(int view, const char *token)
{
    int64_t rows;
    done(sqlite3_bind_text(count, 1, token, -1, SQLITE_STATIC));
    rows = view == 0 && sqlite3_step(count) == SQLITE_ROW ? sqlite3_column_int64(count, 0) : -1;
    done(sqlite3_reset(count));
    return rows;
}

int64_t engine_expire(int64_t before)
{
    done(sqlite3_bind_int64(expire, 1, before));
    return changed(expire);
}

int engine_share(int readers)
{
    return readers == 0;
}

void engine_leave(int readers)
{
    (void)readers;
}

void engine_close(void)
{
    sqlite3_stmt *const all[] = { insert, touch_by_token, touch_by_number, by_token, by_number, count, expire };
    for (size_t i = 0; i < sizeof all / sizeof *all; i++)
        sqlite3_finalize(all[i]);
    done(sqlite3_close(db));
}
