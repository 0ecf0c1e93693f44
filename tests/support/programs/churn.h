/* A table of sessions, as an engine keeps it: what the churn asks of it by statements that were prepared once. Each call
   gives how many rows it was about, or -1 where the engine refuses. A session whose token is empty is found by its number.
   The look-ups name a view: 0 is the table itself, and those from 1 on are readers of it, each for a thread of its own. */
#ifndef CHURN_H
#define CHURN_H

#include <stdint.h>

typedef struct session {
    int64_t number;
    int64_t until;
} session;

/* Opens an empty table, with a tree of `until` and a hash of `token`, or what the engine has instead. Gives its name. */
const char *engine_open(void);
int64_t engine_insert(int64_t number, const char *token, int64_t until);
int64_t engine_touch(int64_t number, const char *token, int64_t visits, int64_t until);
int64_t engine_look_up(int view, int64_t number, const char *token, session *found);
int64_t engine_count(int view, const char *token);
int64_t engine_expire(int64_t before);

/* So many readers share the table, and nothing is changed until they leave it. Gives 0 where the engine has none. */
int engine_share(int readers);
void engine_leave(int readers);
void engine_close(void);

#endif
