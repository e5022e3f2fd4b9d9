/* A plain office in C over libsqlite3, without proof. bench/round.sh, store.sh and calls.sh measure
   sunreg beside it:

       office DB EVERY ROUNDS DEVICE=PORT..

   Each round polls the whole list of each device at 127.0.0.1, all devices at once. It begins EVERY
   seconds after the round before (0: at once). The office writes into the tables of docs/SCHEMA.md
   as sunreg does, with a write-ahead log and synchronous FULL. It writes a poll before it is sent,
   and its outcome and its readings in one transaction before the next poll starts. One round of one
   device prints the lines of `sunreg round`; else each round of a device prints one line.

   The office reads what it needs of the tables once, at the opening, and does not check the file.
   It handles counters of a fixed scale, and lists of counters that are too far apart for one read of
   two. It ends if a device times out or disconnects. */
#include <arpa/inet.h>
#include <netinet/in.h>
#include <netinet/tcp.h>
#include <poll.h>
#include <sqlite3.h>
#include <stdarg.h>
#include <stdbool.h>
#include <stdint.h>
#include <stdio.h>
#include <stdlib.h>
#include <string.h>
#include <sys/socket.h>
#include <time.h>
#include <unistd.h>

enum { MOST_DEVICES = 64, MOST_WINDOW = 16, NAME = 17, QUARTER = 900, MOST_QUARTERS = 3000, ROOM = 4096 };
static const int64_t MOST_TOTAL = 4000000000000000000;
/* milliwatt-hours of a count at a scale factor of -3 to 3 */
static const int64_t UNITS[] = {1, 10, 100, 1000, 10000, 100000, 1000000};

/* A counter and its open meter. */
struct counter {
    int function, address, sf;
    char meter[NAME];
    int64_t place, ceiling, range, last_at, last_raw, last_sf, total, entries;
    struct counter *next; /* at the same read */
};

struct read {
    int function, address;
    struct counter *counters;
};

struct waiting {
    bool is_pending;
    int tid;
    int64_t poll;
    struct read *read;
};

struct device {
    char name[NAME];
    int port, unit, timeout, window, reads, socket, next, pending, answered;
    struct read *list;
    struct waiting waiting[MOST_WINDOW];
    uint8_t in[ROOM];
    size_t held;
};

static struct device devices[MOST_DEVICES];
static int count_of_devices;
static bool is_alone;
static int64_t next_poll, next_hold;
static sqlite3 *db;
static sqlite3_stmt *begin, *commit, *add_poll, *add_outcome, *add_hold, *add_entry, *add_interval, *set_last;

static void fail(const char *what) {
    fprintf(stderr, "office: %s: %s\n", what, db ? sqlite3_errmsg(db) : "");
    exit(1);
}

/* ---- The database ---- */

/* Returns a statement with its values bound. Of the kinds, `i` is an int64_t and `s` a text. */
static sqlite3_stmt *with(sqlite3_stmt *it, const char *kinds, ...) {
    va_list values;
    va_start(values, kinds);
    for (int at = 0; kinds[at]; at++)
        if (kinds[at] == 'i')
            sqlite3_bind_int64(it, at + 1, va_arg(values, int64_t));
        else
            sqlite3_bind_text(it, at + 1, va_arg(values, const char *), -1, SQLITE_STATIC);
    va_end(values);
    return it;
}

static void carry_out(sqlite3_stmt *it) {
    if (sqlite3_step(it) != SQLITE_DONE || sqlite3_reset(it) != SQLITE_OK)
        fail(sqlite3_sql(it));
}

static sqlite3_stmt *prepared(const char *text) {
    sqlite3_stmt *made;
    if (sqlite3_prepare_v3(db, text, -1, SQLITE_PREPARE_PERSISTENT, &made, NULL) != SQLITE_OK)
        fail(text);
    return made;
}

/* Returns whether a query has a next row; after the last row it finalizes the query. */
static bool has_row(sqlite3_stmt *query) {
    int got = sqlite3_step(query);
    if (got == SQLITE_ROW)
        return true;
    if (got != SQLITE_DONE)
        fail(sqlite3_sql(query));
    sqlite3_finalize(query);
    return false;
}

static int64_t number(sqlite3_stmt *query, int column) { return sqlite3_column_int64(query, column); }

static void text(char *to, sqlite3_stmt *query, int column) {
    snprintf(to, NAME, "%s", (const char *)sqlite3_column_text(query, column));
}

static int64_t one(const char *question) {
    sqlite3_stmt *query = prepared(question);
    int64_t found = 0;
    while (has_row(query))
        found = number(query, 0);
    return found;
}

/* ---- The opening ---- */

static void load_list(struct device *device) {
    sqlite3_stmt *query = with(prepared("SELECT unit, timeout, \"window\" FROM devices WHERE name = ?"), "s", device->name);
    while (has_row(query)) {
        device->unit = number(query, 0);
        device->timeout = number(query, 1);
        device->window = number(query, 2);
    }
    query = with(prepared("SELECT function, address, count(*) OVER () FROM points WHERE device = ? ORDER BY function, area, address"), "s", device->name);
    while (has_row(query)) {
        if (!device->list && !(device->list = calloc(number(query, 2), sizeof *device->list)))
            fail("memory");
        device->list[device->reads++] = (struct read){number(query, 0), number(query, 1), NULL};
    }
    if (!device->reads || device->window < 1 || device->window > MOST_WINDOW) {
        fprintf(stderr, "office: %s is not known, or has no list\n", device->name);
        exit(1);
    }
}

/* Adds a counter after the others of its read. */
static void add_counter(struct device *device, const struct counter *counter) {
    for (struct read *read = device->list; read < device->list + device->reads; read++)
        if (read->function == counter->function && read->address == counter->address) {
            struct counter **at = &read->counters;
            while (*at)
                at = &(*at)->next;
            if (!(*at = malloc(sizeof **at)))
                fail("memory");
            **at = *counter;
        }
}

static void load_counters(void) {
    sqlite3_stmt *query = prepared(
        "SELECT device, function, address, scale, installations.place, installations.meter, ceiling, \"range\", last_moment, last_raw, last_sf, total,"
        " (SELECT max(entries.place) FROM entries WHERE entries.meter = installations.meter) FROM registers"
        " JOIN installations ON register = name JOIN ranges ON ranges.meter = installations.meter"
        " WHERE scale_kind = 0 AND ended = 0 ORDER BY registers.place");
    while (has_row(query)) {
        struct counter it = {number(query, 1), number(query, 2), number(query, 3), "", number(query, 4), number(query, 6),
            number(query, 7), number(query, 8), number(query, 9), number(query, 10), number(query, 11), number(query, 12), NULL};
        text(it.meter, query, 5);
        for (int at = 0; at < count_of_devices; at++)
            if (!strcmp(devices[at].name, (const char *)sqlite3_column_text(query, 0)))
                add_counter(&devices[at], &it);
    }
}

static void open_file(const char *path) {
    if (sqlite3_open_v2(path, &db, SQLITE_OPEN_READWRITE, NULL) != SQLITE_OK)
        fail(path);
    if (sqlite3_exec(db, "PRAGMA journal_mode = WAL; PRAGMA synchronous = FULL; PRAGMA foreign_keys = ON", NULL, NULL, NULL) != SQLITE_OK)
        fail("PRAGMA");
    begin = prepared("BEGIN IMMEDIATE");
    commit = prepared("COMMIT");
    add_poll = prepared("INSERT INTO polls VALUES (?, ?, ?, ?, ?, ?, ?, 2)");
    add_outcome = prepared("INSERT INTO outcomes VALUES (?, ?, ?, ?)");
    add_hold = prepared("INSERT INTO holds VALUES (?, ?, ?, ?, ?, ?, ?)");
    add_entry = prepared("INSERT INTO entries VALUES (?, ?, 2, ?, ?, ?, 0, ?)");
    add_interval = prepared("INSERT INTO intervals VALUES (?, ?, ?) ON CONFLICT DO UPDATE SET mwh = mwh + excluded.mwh");
    set_last = prepared("UPDATE installations SET last_moment = ?, last_raw = ?, total = ? WHERE place = ?");
    for (int at = 0; at < count_of_devices; at++)
        load_list(&devices[at]);
    load_counters();
    next_poll = one("SELECT coalesce(max(poll), 0) + 1 FROM polls");
    next_hold = one("SELECT coalesce(max(place), 0) + 1 FROM holds");
    /* polls that an earlier run left unsettled are lost */
    if (one("SELECT (SELECT count(*) FROM polls) > (SELECT count(*) FROM outcomes)")) {
        sqlite3_stmt *lost = prepared("INSERT INTO outcomes SELECT poll, ?, 5, 4 FROM polls WHERE poll NOT IN (SELECT poll FROM outcomes)");
        carry_out(with(lost, "i", (int64_t)time(NULL)));
        sqlite3_finalize(lost);
    }
}

/* ---- Recording ---- */

/* Returns the cause for which a reading is rejected, or 0. */
static int cause_of(const struct counter *it, int64_t now, int64_t raw) {
    int64_t unit = UNITS[it->last_sf + 3], gone = (raw - it->last_raw + it->range) % it->range;
    __int128 could = (__int128)it->ceiling * (now - it->last_at) * 5;
    if (raw == 0)
        return 1;
    if (it->sf != it->last_sf)
        return 2;
    if (raw >= it->range)
        return 8;
    if (now <= it->last_at)
        return 3;
    if ((now - 1) / QUARTER - it->last_at / QUARTER + 1 > MOST_QUARTERS)
        return 4;
    if ((__int128)(it->range - 1) * unit * 18 <= could)
        return 5;
    if (gone > 0 && (__int128)(gone - 1) * unit * 18 > could)
        return 6;
    return (__int128)it->total + (__int128)gone * unit > MOST_TOTAL ? 7 : 0;
}

/* Adds a step's energy to its quarter hours. */
static void spread(const struct counter *it, int64_t till, int64_t energy) {
    int64_t told = 0;
    for (int64_t at = it->last_at / QUARTER * QUARTER; at < till; at += QUARTER) {
        int64_t end = at + QUARTER < till ? at + QUARTER : till;
        int64_t upto = (__int128)energy * (end - it->last_at) / (till - it->last_at);
        carry_out(with(add_interval, "sii", it->meter, at, upto - told));
        told = upto;
    }
}

static void book(struct counter *it, int64_t poll, int64_t now, int64_t raw) {
    int cause = cause_of(it, now, raw);
    if (cause) {
        carry_out(with(add_hold, "isiiiii", next_hold++, it->meter, poll, now, raw, (int64_t)it->sf, (int64_t)cause));
        if (is_alone)
            printf("held %s %lld cause %d\n", it->meter, (long long)raw, cause);
        return;
    }
    int64_t rolls = raw < it->last_raw, step = (raw - it->last_raw + it->range) % it->range * UNITS[it->sf + 3];
    carry_out(with(add_entry, "siiiii", it->meter, ++it->entries, now, raw, rolls, (int64_t)it->sf));
    spread(it, now, step);
    it->last_at = now;
    it->last_raw = raw;
    it->total += step;
    carry_out(with(set_last, "iiii", now, raw, it->total, it->place));
    if (is_alone)
        printf("reading %s %lld rolls %lld step %lld\n", it->meter, (long long)raw, (long long)rolls, (long long)step);
}

/* Records how a poll ended, by a frame from its unit identifier on. */
static void settle(struct device *device, struct waiting *waiting, const uint8_t *frame, size_t length) {
    static const char *const words[] = {"", "answered", "exception", "silent", "malformed", "lost"};
    int64_t now = time(NULL), outcome = 1, code = 0;
    if (frame[0] != device->unit)
        outcome = 4, code = 5;
    else if (length == 3 && frame[1] == (waiting->read->function | 0x80))
        outcome = 2, code = frame[2];
    else if (length != 7 || frame[1] != waiting->read->function || frame[2] != 4)
        outcome = 4, code = 2;
    carry_out(with(add_outcome, "iiii", waiting->poll, now, outcome, code));
    if (is_alone && code)
        printf("poll %lld %s %d\n", (long long)waiting->poll, words[outcome], (int)code);
    else if (is_alone)
        printf("poll %lld %s\n", (long long)waiting->poll, words[outcome]);
    waiting->is_pending = false;
    device->pending--;
    if (outcome != 1)
        return;
    device->answered++;
    int64_t raw = (int64_t)frame[3] << 24 | frame[4] << 16 | frame[5] << 8 | frame[6];
    for (struct counter *it = waiting->read->counters; it; it = it->next)
        book(it, waiting->poll, now, raw);
}

/* ---- Polling ---- */

static uint8_t *put16(uint8_t *to, int number) {
    *to++ = number >> 8;
    *to++ = number;
    return to;
}

/* Starts as many polls as may wait, in one transaction, and sends their frames. */
static void start(struct device *device) {
    uint8_t frames[12 * MOST_WINDOW], *end = frames;
    int64_t now = time(NULL), first = next_poll;
    if (device->next == device->reads || device->pending == device->window)
        return;
    carry_out(begin);
    while (device->next < device->reads && device->pending < device->window) {
        struct read *read = &device->list[device->next];
        struct waiting *free = device->waiting;
        while (free->is_pending)
            free++;
        *free = (struct waiting){true, device->next++ % 65536, next_poll++, read};
        device->pending++;
        carry_out(with(add_poll, "isiiiii", free->poll, device->name, (int64_t)device->unit, now, (int64_t)free->tid,
            (int64_t)read->function, (int64_t)read->address));
        end = put16(put16(put16(end, free->tid), 0), 6);
        *end++ = device->unit;
        *end++ = read->function;
        end = put16(put16(end, read->address), 2);
    }
    carry_out(commit);
    if (is_alone) {
        printf("started %lld %lld %d ", (long long)first, (long long)(next_poll - first), device->reads);
        for (uint8_t *at = frames; at < end; at++)
            printf("%02x", *at);
        printf("\n");
        fflush(stdout);
    }
    if (send(device->socket, frames, end - frames, MSG_NOSIGNAL) != end - frames)
        fail("send");
}

/* Records the outcomes of the complete frames, in one transaction, and starts more polls. */
static void take(struct device *device) {
    ssize_t got = recv(device->socket, device->in + device->held, ROOM - device->held, 0);
    size_t at = 0;
    if (got <= 0)
        fail("the device has gone");
    device->held += got;
    carry_out(begin);
    while (device->held - at >= 6) {
        const uint8_t *frame = device->in + at;
        size_t length = frame[4] << 8 | frame[5];
        if (length < 3 || length > 254)
            fail("the device's bytes are no frames");
        if (device->held - at < 6 + length)
            break;
        for (struct waiting *it = device->waiting; it < device->waiting + device->window; it++)
            if (it->is_pending && it->tid == (frame[0] << 8 | frame[1])) {
                settle(device, it, frame + 6, length);
                break;
            }
        at += 6 + length;
    }
    carry_out(commit);
    memmove(device->in, device->in + at, device->held - at);
    device->held -= at;
    if (is_alone) {
        printf("ok\n");
        fflush(stdout);
    }
    start(device);
}

static void join(struct device *device) {
    struct sockaddr_in at = {.sin_family = AF_INET, .sin_port = htons(device->port), .sin_addr.s_addr = htonl(INADDR_LOOPBACK)};
    int on = 1;
    device->socket = socket(AF_INET, SOCK_STREAM, 0);
    if (device->socket < 0 || connect(device->socket, (struct sockaddr *)&at, sizeof at))
        fail("the device can't be reached");
    setsockopt(device->socket, IPPROTO_TCP, TCP_NODELAY, &on, sizeof on);
    device->next = device->pending = device->answered = 0;
    device->held = 0;
    if (is_alone) {
        printf("ok\n");
        fflush(stdout);
    }
    start(device);
}

static void leave(struct device *device) {
    close(device->socket);
    device->socket = -1;
    if (is_alone)
        printf("ok\n");
    else
        printf("%lld %s %d of %d answered\n", (long long)time(NULL), device->name, device->answered, device->reads);
    fflush(stdout);
}

/* Polls all devices once. */
static void run_round(void) {
    struct pollfd sockets[MOST_DEVICES];
    int left = count_of_devices;
    for (int at = 0; at < count_of_devices; at++) {
        join(&devices[at]);
        sockets[at] = (struct pollfd){devices[at].socket, POLLIN, 0};
    }
    while (left) {
        if (poll(sockets, count_of_devices, 1000 * devices[0].timeout) <= 0)
            fail("the devices are silent");
        for (int at = 0; at < count_of_devices; at++)
            if (sockets[at].revents) {
                take(&devices[at]);
                if (!devices[at].pending) {
                    leave(&devices[at]);
                    sockets[at].fd = -1;
                    left--;
                }
            }
    }
}

int main(int count, char **words) {
    if (count < 5 || count - 4 > MOST_DEVICES) {
        fprintf(stderr, "usage: office DB EVERY ROUNDS DEVICE=PORT..\n");
        return 2;
    }
    int every = atoi(words[2]), rounds = atoi(words[3]);
    for (int at = 4; at < count; at++)
        if (sscanf(words[at], "%16[^=]=%d", devices[at - 4].name, &devices[at - 4].port) != 2)
            fail(words[at]);
    count_of_devices = count - 4;
    is_alone = count_of_devices == 1 && rounds == 1;
    open_file(words[1]);
    struct timespec next;
    clock_gettime(CLOCK_REALTIME, &next);
    for (int round = 0; round < rounds; round++) {
        if (every) {
            next.tv_sec += every;
            next.tv_nsec = 0;
            clock_nanosleep(CLOCK_REALTIME, TIMER_ABSTIME, &next, NULL);
        }
        run_round();
    }
    for (sqlite3_stmt *it; (it = sqlite3_next_stmt(db, NULL));)
        sqlite3_finalize(it);
    return sqlite3_close(db) == SQLITE_OK ? 0 : 1;
}
