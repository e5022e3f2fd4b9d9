/* libmodbus_server PORT BANK: serves the registers of a file with libmodbus, one connection after
   the other. A line of BANK is `holding ADDRESS VALUE..` or `input ADDRESS VALUE..`; all registers
   from 0 to 65535 exist. After `without holding` their function is answered as unknown. */
#include <errno.h>
#include <modbus.h>
#include <stdint.h>
#include <stdio.h>
#include <stdlib.h>
#include <string.h>

enum { ALL = 65536, READ_HOLDING = 3 };

static int lacks_holding;

static int load(const char *path, modbus_mapping_t *bank) {
    char line[16384];
    FILE *file = fopen(path, "r");
    if (!file)
        return 0;
    while (fgets(line, sizeof line, file)) {
        char *area = strtok(line, " \n");
        char *word = strtok(NULL, " \n");
        if (!area || !word)
            continue;
        if (!strcmp(area, "without")) {
            lacks_holding = 1;
            continue;
        }
        uint16_t *table = strcmp(area, "input") ? bank->tab_registers : bank->tab_input_registers;
        for (int at = atoi(word); at < ALL && (word = strtok(NULL, " \n")); at++)
            table[at] = (uint16_t)atoi(word);
    }
    fclose(file);
    return 1;
}

int main(int count, char **words) {
    if (count != 3)
        return 2;
    modbus_t *link = modbus_new_tcp("127.0.0.1", atoi(words[1]));
    modbus_mapping_t *bank = modbus_mapping_new_start_address(0, 0, 0, 0, 0, ALL, 0, ALL);
    if (!link || !bank || !load(words[2], bank))
        return 2;
    int listener = modbus_tcp_listen(link, 1);
    if (listener < 0) {
        fprintf(stderr, "libmodbus_server: %s\n", modbus_strerror(errno));
        return 1;
    }
    while (modbus_tcp_accept(link, &listener) >= 0) {
        uint8_t query[MODBUS_TCP_MAX_ADU_LENGTH];
        int length;
        while ((length = modbus_receive(link, query)) >= 0)
            if (length > 0 && lacks_holding && query[modbus_get_header_length(link)] == READ_HOLDING)
                modbus_reply_exception(link, query, MODBUS_EXCEPTION_ILLEGAL_FUNCTION);
            else if (length > 0)
                modbus_reply(link, query, length, bank);
        modbus_close(link);
    }
    return 1;
}
