/* plain_server PORT [TIMES]: a plain Modbus TCP server, for the benchmarks.
   It answers function 3 on one connection after the other. Each pair of registers, the first at an
   even address, is a counter of two registers that shows 1000 and 10 for each connection. Other
   functions are answered with exception 1. The file TIMES gets a line for each connection: the
   seconds from its start to its end. */
#include <arpa/inet.h>
#include <netinet/in.h>
#include <netinet/tcp.h>
#include <stdint.h>
#include <stdio.h>
#include <stdlib.h>
#include <string.h>
#include <sys/socket.h>
#include <time.h>
#include <unistd.h>

enum { ROOM = 8192, MOST = 125 };

/* Writes the response to a frame with this head and PDU, and returns its length. */
static size_t answer(const uint8_t *frame, uint8_t *out, uint32_t counter) {
    unsigned address = frame[8] << 8 | frame[9], count = frame[10] << 8 | frame[11];
    size_t pdu = 2;
    memcpy(out, frame, 8);
    if (frame[7] != 3) {
        out[7] |= 0x80;
        out[8] = 1;
    } else if (count < 1 || count > MOST || address + count > 65536) {
        out[7] |= 0x80;
        out[8] = count < 1 || count > MOST ? 3 : 2;
    } else {
        out[8] = 2 * count;
        for (unsigned at = 0; at < count; at++) {
            unsigned word = (address + at) % 2 ? counter & 0xFFFF : counter >> 16;
            out[9 + 2 * at] = word >> 8;
            out[10 + 2 * at] = word;
        }
        pdu += 2 * count;
    }
    out[4] = (pdu + 1) >> 8;
    out[5] = pdu + 1;
    return 7 + pdu;
}

static void attend(int stream, uint32_t counter) {
    static uint8_t in[ROOM], out[ROOM * 25];
    size_t held = 0;
    ssize_t got;
    while ((got = read(stream, in + held, sizeof in - held)) > 0) {
        size_t at = 0, told = 0;
        held += got;
        while (held - at >= 6 && held - at >= 6u + (in[at + 4] << 8 | in[at + 5])) {
            size_t length = 6 + (in[at + 4] << 8 | in[at + 5]);
            if (length != 12)
                return;
            told += answer(in + at, out + told, counter);
            at += length;
        }
        memmove(in, in + at, held - at);
        held -= at;
        if (told && write(stream, out, told) != (ssize_t)told)
            return;
    }
}

static double now(void) {
    struct timespec at;
    clock_gettime(CLOCK_MONOTONIC, &at);
    return at.tv_sec + 1e-9 * at.tv_nsec;
}

int main(int count, char **words) {
    int listener = socket(AF_INET, SOCK_STREAM, 0), on = 1;
    struct sockaddr_in at = {.sin_family = AF_INET, .sin_addr.s_addr = htonl(INADDR_LOOPBACK)};
    if (count != 2 && count != 3)
        return 2;
    FILE *times = count == 3 ? fopen(words[2], "w") : NULL;
    at.sin_port = htons(atoi(words[1]));
    setsockopt(listener, SOL_SOCKET, SO_REUSEADDR, &on, sizeof on);
    if (bind(listener, (struct sockaddr *)&at, sizeof at) || listen(listener, 5)) {
        perror("plain_server");
        return 1;
    }
    for (uint32_t counter = 1000;; counter += 10) {
        int stream = accept(listener, NULL, NULL);
        if (stream < 0)
            return 1;
        setsockopt(stream, IPPROTO_TCP, TCP_NODELAY, &on, sizeof on);
        double begin = now();
        attend(stream, counter);
        close(stream);
        if (times) {
            fprintf(times, "%.6f\n", now() - begin);
            fflush(times);
        }
    }
}
