/* Counts the statements that a program executes from its first connect() on. It is loaded before
   libsqlite3 (LD_PRELOAD). At the program's end it writes a line to the file that COUNTS names: how
   many statements only read, and how many write. BEGIN and COMMIT are neither. */
#define _GNU_SOURCE
#include <dlfcn.h>
#include <sqlite3.h>
#include <stdio.h>
#include <stdlib.h>
#include <strings.h>
#include <sys/socket.h>

static int is_connected, reads, writes;

int connect(int socket, const struct sockaddr *to, socklen_t length) {
    static int (*real)(int, const struct sockaddr *, socklen_t);
    if (!real)
        real = dlsym(RTLD_NEXT, "connect");
    is_connected |= to->sa_family == AF_INET;
    return real(socket, to, length);
}

int sqlite3_step(sqlite3_stmt *it) {
    static int (*real)(sqlite3_stmt *);
    if (!real)
        real = dlsym(RTLD_NEXT, "sqlite3_step");
    const char *text = sqlite3_sql(it);
    /* (a statement that has begun steps on) */
    if (is_connected && !sqlite3_stmt_busy(it) && strncasecmp(text, "BEGIN", 5) && strncasecmp(text, "COMMIT", 6))
        ++*(sqlite3_stmt_readonly(it) ? &reads : &writes);
    return real(it);
}

__attribute__((destructor)) static void tell(void) {
    FILE *out = getenv("COUNTS") ? fopen(getenv("COUNTS"), "w") : NULL;
    if (out) {
        fprintf(out, "%d %d\n", reads, writes);
        fclose(out);
    }
}
