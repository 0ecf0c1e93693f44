/* Sessions that come, are touched, looked up and expire, second by second, at full speed: 200 commands a second, each by a
   statement. The words are SEED, the number of ROUNDS, the SECONDS of each, the longest LIFE of a session in seconds, TOKENS and
   READERS. TOKENS is `differing`; or `half`, where every second session has the empty token and is found by its number; or `chosen`,
   where the hashes of tokens are equal in their 12 lowest bits, numbers fall and ends rise. So many threads look sessions up, all at
   the same time, each by a reader of its own that leaves the table before it is changed; or the first thread does, where there are 0.

   After each round it prints the bytes that the engine holds, and after either half of them how long each kind of command took. Its
   status is 1 if an answer is not that of a list of the sessions. Callgrind can count what the functions `changes` and `looks_up`
   do, and dump it after each `ends_round`: with -DIN_TURN the first thread does what the others do, by the same readers. */
#define _POSIX_C_SOURCE 200112L
#include "churn.h"

#include <inttypes.h>
#include <malloc.h>
#include <pthread.h>
#include <stdio.h>
#include <stdlib.h>
#include <string.h>
#include <time.h>

enum { COME = 19, TOUCHED = 60, LOOKED_UP = 120, STEPS_A_MICROSECOND = 100, MOST_MICROSECONDS = 20000 };
enum { MOST_READERS = 8, LENGTH_OF_TOKEN = 80 };

/* The kinds of commands, and how often each took how many steps of ten nanoseconds. The last counts all that took longer. */
typedef enum kind { INSERT, TOUCH, LOOK_UP, EXPIRE, KINDS } kind;
static const char *const NAMES[KINDS] = { "insert", "touch", "look up", "expire" };
static uint32_t took[KINDS][MOST_MICROSECONDS * STEPS_A_MICROSECOND + 1];
static uint64_t made[KINDS], longest[KINDS];

typedef enum tokens { DIFFERING, HALF, CHOSEN } tokens;

static struct {
    uint64_t draw;
    int64_t life;
    tokens tokens;
    int64_t clock;
    int64_t come;
    /* Those that are there, in no order, and how many. Some have expired. */
    session *there;
    size_t count;
    /* How many end at each second, from which some may be moved to another; and how many of these have the empty token. */
    int32_t *ends, *anonymous_ends;
    int64_t anonymous;
} all;

static int wrong = 0;
static pthread_mutex_t telling = PTHREAD_MUTEX_INITIALIZER;

static void expects(int64_t given, int64_t expected, kind of)
{
    if (given == expected)
        return;
    pthread_mutex_lock(&telling);
    if (wrong++ < 5)
        fprintf(stderr, "second %" PRId64 ", %s: %" PRId64 " and not %" PRId64 "\n", all.clock, NAMES[of], given, expected);
    pthread_mutex_unlock(&telling);
}

/* A number that is drawn: splitmix64. */
static uint64_t mixed(uint64_t number)
{
    number += UINT64_C(0x9E3779B97F4A7C15);
    number = (number ^ (number >> 30)) * UINT64_C(0xBF58476D1CE4E5B9);
    number = (number ^ (number >> 27)) * UINT64_C(0x94D049BB133111EB);
    return number ^ (number >> 31);
}

static uint64_t drawn_by(uint64_t *draw, uint64_t below)
{
    *draw += UINT64_C(0x9E3779B97F4A7C15);
    return mixed(*draw) % below;
}

static uint64_t drawn(uint64_t below)
{
    return drawn_by(&all.draw, below);
}

static int64_t nanoseconds(void)
{
    struct timespec now;
    clock_gettime(CLOCK_THREAD_CPUTIME_ID, &now);
    return (int64_t)now.tv_sec * 1000000000 + now.tv_nsec;
}

static void told(kind of, int64_t began)
{
    const uint64_t time = (uint64_t)(nanoseconds() - began), step = time * STEPS_A_MICROSECOND / 1000;
    const uint64_t last = MOST_MICROSECONDS * STEPS_A_MICROSECOND;
    pthread_mutex_lock(&telling);
    took[of][step < last ? step : last]++;
    made[of]++;
    if (longest[of] < time)
        longest[of] = time;
    pthread_mutex_unlock(&telling);
}

/* The hash by which mmdb finds a text, as docs/lin_hash.md tells it. */
static uint64_t hash_of(const char *text)
{
    uint64_t hash = (UINT64_C(14695981039346656037) ^ 1) * UINT64_C(1099511628211);
    for (; *text != '\0'; text++)
        hash = (hash ^ (unsigned char)*text) * UINT64_C(1099511628211);
    return hash;
}

static int is_anonymous(int64_t number)
{
    return all.tokens == HALF && number % 2 == 0;
}

/* The token of a session: none, or of 20 to 40 bytes, or one whose hash ends in twelve zeros. Its last byte makes eight of these. */
static void token_of(int64_t number, char *token)
{
    const uint64_t of = mixed((uint64_t)number);
    const int padding = (int)(of % 17);
    uint64_t last;
    if (is_anonymous(number)) {
        *token = '\0';
        return;
    }
    if (all.tokens != CHOSEN) {
        sprintf(token, "%016" PRIx64 "%.*s-%" PRId64, of, padding, "0123456789abcdef", number);
        return;
    }
    for (int attempt = 0;; attempt++) {
        sprintf(token, "%" PRId64 ".%x", number, (unsigned)attempt);
        last = hash_of(token) % 4096;
        if (last > 0 && last < 128)
            break;
    }
    token[strlen(token) + 1] = '\0';
    token[strlen(token)] = (char)last;
}

static int64_t end_drawn(void)
{
    return all.clock + (all.tokens == CHOSEN ? all.life : 1 + (int64_t)drawn((uint64_t)all.life));
}

/* One more or fewer ends then. */
static void ends_at(int64_t number, int64_t until, int more)
{
    all.ends[until] += more;
    if (is_anonymous(number)) {
        all.anonymous_ends[until] += more;
        all.anonymous += more;
    }
}

static void comes(void)
{
    char token[LENGTH_OF_TOKEN];
    session new;
    int64_t began, given;
    new.number = all.tokens == CHOSEN ? -all.come : all.come;
    new.until = end_drawn();
    all.come++;
    token_of(new.number, token);
    began = nanoseconds();
    given = engine_insert(new.number, token, new.until);
    told(INSERT, began);
    expects(given, 1, INSERT);
    ends_at(new.number, new.until, 1);
    all.there[all.count++] = new;
}

/* One that is there and hasn't expired, or none. Those that have are left out from now on. */
static session *any(void)
{
    while (all.count > 0) {
        session *const found = &all.there[drawn(all.count)];
        if (found->until >= all.clock)
            return found;
        *found = all.there[--all.count];
    }
    return NULL;
}

static void is_touched(session *of)
{
    char token[LENGTH_OF_TOKEN];
    const int64_t until = end_drawn();
    int64_t began, given;
    token_of(of->number, token);
    began = nanoseconds();
    given = engine_touch(of->number, token, all.clock, until);
    told(TOUCH, began);
    expects(given, 1, TOUCH);
    ends_at(of->number, of->until, -1);
    ends_at(of->number, until, 1);
    of->until = until;
}

static void is_looked_up(int view, const session *of)
{
    char token[LENGTH_OF_TOKEN];
    session found = { 0, 0 };
    int64_t began, given;
    token_of(of->number, token);
    began = nanoseconds();
    given = engine_look_up(view, of->number, token, &found);
    told(LOOK_UP, began);
    expects(given, 1, LOOK_UP);
    expects(found.number, of->number, LOOK_UP);
    expects(found.until, of->until, LOOK_UP);
}

static void expire(void)
{
    const int64_t began = nanoseconds(), given = engine_expire(all.clock);
    told(EXPIRE, began);
    expects(given, all.ends[all.clock - 1], EXPIRE);
}

__attribute__((noinline)) void changes(void);
__attribute__((noinline)) void looks_up(int view, uint64_t *draw, int count);
__attribute__((noinline)) void ends_round(void);

/* The changes of a second. */
void changes(void)
{
    all.clock++;
    for (int i = 0; i < COME; i++)
        comes();
    for (int i = 0; i < TOUCHED; i++)
        is_touched(any());
    expire();
    all.anonymous -= all.anonymous_ends[all.clock - 1];
}

/* Looks so many sessions up that have not expired. Nothing is changed meanwhile. */
void looks_up(int view, uint64_t *draw, int count)
{
    while (count > 0) {
        const session *const found = &all.there[drawn_by(draw, all.count)];
        if (found->until < all.clock)
            continue;
        is_looked_up(view, found);
        count--;
    }
}

/* Prints what is held. */
void ends_round(void)
{
    static size_t without;
    const struct mallinfo2 told = mallinfo2();
    const size_t held = told.uordblks + told.hblkhd;
    if (without == 0)
        without = held;
    else
        printf("held %zu\n", held - without);
}

/* A thread that looks up, its view, and the rounds and their seconds. */
typedef struct reader {
    pthread_t thread;
    int view;
    uint64_t draw;
    int64_t rounds, seconds;
} reader;

static reader readers[MOST_READERS];
static int reading;
/* Each round ends with a count of those with the empty token. */
static void count_anonymous(int view)
{
    if (all.tokens == HALF)
        expects(engine_count(view, ""), all.anonymous, LOOK_UP);
}

#ifdef IN_TURN
static void begin_readers(void)
{
}

static void end_readers(void)
{
}

static void read_second(int is_last)
{
    for (int i = 0; i < reading; i++) {
        looks_up(readers[i].view, &readers[i].draw, LOOKED_UP / reading);
        if (is_last)
            count_anonymous(readers[i].view);
    }
}
#else
/* Where readers wait until nothing is changed, and where the first thread waits for them. */
static pthread_barrier_t begun, ended;

static void *reads(void *given)
{
    reader *const of = (reader *)given;
    for (int64_t second = 1; second <= of->rounds * of->seconds; second++) {
        pthread_barrier_wait(&begun);
        looks_up(of->view, &of->draw, LOOKED_UP / reading);
        if (second % of->seconds == 0)
            count_anonymous(of->view);
        pthread_barrier_wait(&ended);
    }
    return NULL;
}

static void begin_readers(void)
{
    const unsigned waiting = (unsigned)reading + 1;
    if (pthread_barrier_init(&begun, NULL, waiting) || pthread_barrier_init(&ended, NULL, waiting))
        exit(5);
    for (int i = 0; i < reading; i++) {
        if (pthread_create(&readers[i].thread, NULL, reads, &readers[i]))
            exit(5);
    }
}

static void end_readers(void)
{
    for (int i = 0; i < reading; i++)
        pthread_join(readers[i].thread, NULL);
}

static void read_second(int is_last)
{
    (void)is_last;
    pthread_barrier_wait(&begun);
    pthread_barrier_wait(&ended);
}
#endif

static void second(int is_last)
{
    changes();
    if (reading > 0) {
        engine_share(reading);
        read_second(is_last);
        engine_leave(reading);
        return;
    }
    looks_up(0, &all.draw, LOOKED_UP);
    if (is_last)
        count_anonymous(0);
}

/* The time below which a share of the commands of a kind stay, in microseconds. */
static double below(kind of, double share)
{
    const uint64_t wanted = (uint64_t)((double)made[of] * share);
    uint64_t counted = 0;
    size_t step = 0;
    while (counted + took[of][step] <= wanted && step < MOST_MICROSECONDS * STEPS_A_MICROSECOND)
        counted += took[of][step++];
    return (double)step / STEPS_A_MICROSECOND;
}

/* How long each kind took since the last time. */
static void tell(const char *name, const char *when)
{
    for (kind of = INSERT; of < KINDS; of++) {
        printf("%s, %s, %s, %" PRIu64 " times: p50 %.2f us, p99 %.2f us, most %.2f us\n", name, when, NAMES[of], made[of],
               below(of, 0.5), below(of, 0.99), (double)longest[of] / 1000);
        made[of] = longest[of] = 0;
    }
    memset(took, 0, sizeof took);
}

static tokens tokens_of(const char *word)
{
    if (strcmp(word, "half") == 0)
        return HALF;
    return strcmp(word, "chosen") == 0 ? CHOSEN : DIFFERING;
}

static void make_room(int64_t seconds)
{
    const size_t ends = (size_t)(seconds + all.life + 2);
    all.there = (session *)calloc((size_t)(COME * seconds), sizeof(session));
    all.ends = (int32_t *)calloc(ends, sizeof(int32_t));
    all.anonymous_ends = (int32_t *)calloc(ends, sizeof(int32_t));
    if (all.there == NULL || all.ends == NULL || all.anonymous_ends == NULL)
        exit(5);
}

static void run(int64_t rounds, int64_t seconds)
{
    const char *const name = engine_open();
    for (int i = 0; i < reading; i++) {
        const reader new = { 0, i + 1, all.draw + (uint64_t)i + 1, rounds, seconds };
        readers[i] = new;
    }
    begin_readers();
    for (int64_t round = 1; round <= rounds; round++) {
        for (int64_t i = 1; i <= seconds; i++)
            second(i == seconds);
        ends_round();
        if (round == rounds / 2)
            tell(name, "first half");
    }
    end_readers();
    tell(name, "second half");
    engine_close();
}

int main(int count, char **words)
{
    const int64_t rounds = count == 7 ? atoll(words[2]) : 0, seconds = count == 7 ? atoll(words[3]) : 0;
    if (rounds * seconds == 0)
        return 2;
    /* (all threads take from what mallinfo2 counts) */
    mallopt(M_ARENA_MAX, 1);
    all.draw = (uint64_t)atoll(words[1]);
    all.life = atoll(words[4]);
    all.tokens = tokens_of(words[5]);
    reading = atoi(words[6]);
    if (reading < 0 || reading > MOST_READERS)
        return 2;
    make_room(rounds * seconds);
    ends_round();
    run(rounds, seconds);
    free(all.there);
    free(all.ends);
    free(all.anonymous_ends);
    return wrong != 0;
}
