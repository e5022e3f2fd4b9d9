/* reads PORT READS WORDS: reads registers again and again as one client, for the benchmarks. It
   prints how many reads a second were answered. Compiled with -DLIBMODBUS it uses libmodbus, else
   plain sockets. */
#include <stdint.h>
#include <stdio.h>
#include <stdlib.h>
#include <time.h>

#ifdef LIBMODBUS
#include <modbus.h>

static modbus_t *link_;

static int connect_to(int port) {
    link_ = modbus_new_tcp("127.0.0.1", port);
    return link_ && !modbus_set_response_timeout(link_, 30, 0) && !modbus_connect(link_);
}

static int read_once(int words) {
    uint16_t got[125];
    return modbus_read_registers(link_, 0, words, got) == words;
}

static void leave(void) {
    modbus_close(link_);
    modbus_free(link_);
}
#else
#include <arpa/inet.h>
#include <netinet/in.h>
#include <netinet/tcp.h>
#include <sys/socket.h>
#include <unistd.h>

static int link_;

static int connect_to(int port) {
    struct sockaddr_in at = {.sin_family = AF_INET, .sin_port = htons(port), .sin_addr.s_addr = htonl(INADDR_LOOPBACK)};
    int on = 1;
    link_ = socket(AF_INET, SOCK_STREAM, 0);
    setsockopt(link_, IPPROTO_TCP, TCP_NODELAY, &on, sizeof on);
    return !connect(link_, (struct sockaddr *)&at, sizeof at);
}

static int read_once(int words) {
    static uint16_t tid;
    uint8_t asked[12] = {++tid >> 8, tid, 0, 0, 0, 6, 1, 3, 0, 0, 0, words}, got[260];
    ssize_t wanted = 9 + 2 * words, held = 0, more;
    if (write(link_, asked, sizeof asked) != sizeof asked)
        return 0;
    while (held < wanted && (more = read(link_, got + held, wanted - held)) > 0)
        held += more;
    return held == wanted && got[0] == asked[0] && got[1] == asked[1] && got[7] == 3;
}

static void leave(void) {
    close(link_);
}
#endif

int main(int count, char **words) {
    struct timespec start, end;
    if (count != 4 || !connect_to(atoi(words[1])))
        return 2;
    int reads = atoi(words[2]);
    clock_gettime(CLOCK_MONOTONIC, &start);
    for (int at = 0; at < reads; at++)
        if (!read_once(atoi(words[3])))
            return 1;
    clock_gettime(CLOCK_MONOTONIC, &end);
    leave();
    printf("%.0f\n", reads / (end.tv_sec - start.tv_sec + 1e-9 * (end.tv_nsec - start.tv_nsec)));
    return 0;
}
