/* libmodbus_client PORT UNIT: sends the requests on standard input with libmodbus, and prints a
   response for each. */
#include <errno.h>
#include <modbus.h>
#include <stdint.h>
#include <stdio.h>
#include <stdlib.h>
#include <string.h>

enum { MOST = 2000 };

static int values[MOST + 2];

/* Parses the numbers after the first word of a line, and returns how many. */
static int numbers(char *rest) {
    int count = 0;
    for (char *it = strtok(rest, " \n"); it && count < MOST + 2; it = strtok(NULL, " \n"))
        values[count++] = atoi(it);
    return count;
}

static void print_failure(void) {
    int code = errno - EMBXILFUN + 1;
    if (code >= 1 && code <= 11)
        printf("exception %d\n", code);
    else
        printf("failed: %s\n", modbus_strerror(errno));
}

static void print_written(int done) {
    if (done < 0)
        print_failure();
    else
        puts("ok");
}

static void print_bits(int done, const uint8_t *bits) {
    if (done < 0)
        print_failure();
    for (int at = 0; at < done; at++)
        printf("%s%d%s", at ? " " : "", bits[at], at + 1 == done ? "\n" : "");
}

static void print_words(int done, const uint16_t *words) {
    if (done < 0)
        print_failure();
    for (int at = 0; at < done; at++)
        printf("%s%d%s", at ? " " : "", words[at], at + 1 == done ? "\n" : "");
}

static void carry_out(modbus_t *link, const char *kind, int count) {
    uint8_t bits[MOST] = {0};
    uint16_t words[MOST] = {0};
    int address = values[0];
    for (int at = 1; at < count && at <= MOST; at++) {
        bits[at - 1] = values[at] != 0;
        words[at - 1] = (uint16_t)values[at];
    }
    if (!strcmp(kind, "read-coils"))
        print_bits(modbus_read_bits(link, address, values[1], bits), bits);
    else if (!strcmp(kind, "read-discrete"))
        print_bits(modbus_read_input_bits(link, address, values[1], bits), bits);
    else if (!strcmp(kind, "read-holding"))
        print_words(modbus_read_registers(link, address, values[1], words), words);
    else if (!strcmp(kind, "read-input"))
        print_words(modbus_read_input_registers(link, address, values[1], words), words);
    else if (!strcmp(kind, "write-coil"))
        print_written(modbus_write_bit(link, address, values[1]));
    else if (!strcmp(kind, "write-register"))
        print_written(modbus_write_register(link, address, words[0]));
    else if (!strcmp(kind, "write-coils"))
        print_written(modbus_write_bits(link, address, count - 1, bits));
    else if (!strcmp(kind, "write-registers"))
        print_written(modbus_write_registers(link, address, count - 1, words));
    else if (!strcmp(kind, "mask"))
        print_written(modbus_mask_write_register(link, address, words[0], words[1]));
    else
        puts("no such request");
}

int main(int count, char **words) {
    if (count != 3)
        return 2;
    modbus_t *link = modbus_new_tcp("127.0.0.1", atoi(words[1]));
    if (!link)
        return 2;
    modbus_set_slave(link, atoi(words[2]));
    modbus_set_response_timeout(link, 30, 0);
    if (modbus_connect(link) < 0) {
        printf("no connection: %s\n", modbus_strerror(errno));
        return 1;
    }
    char line[16384];
    while (fgets(line, sizeof line, stdin)) {
        char kind[32] = "";
        int behind = 0;
        if (sscanf(line, "%31s%n", kind, &behind) == 1)
            carry_out(link, kind, numbers(line + behind));
        fflush(stdout);
    }
    modbus_close(link);
    modbus_free(link);
    return 0;
}
