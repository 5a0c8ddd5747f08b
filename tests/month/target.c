/* The fuzz target of the month sheet: a log of any bytes, by the proved code and by the second program. */
#include <stdint.h>
#include <stdio.h>
#include <stdlib.h>
#include <string.h>

enum { ROOM = 13086, BEHIND = 16 };

size_t month_of_log(const uint8_t *log, size_t log_bytes, uint8_t *sheet, size_t sheet_bytes);
size_t second_month_of_log(const uint8_t *log, size_t log_bytes, uint8_t *sheet, size_t sheet_bytes);

static void fault(const char *what) {
    fprintf(stderr, "fault: %s\n", what);
    abort();
}

int LLVMFuzzerTestOneInput(const uint8_t *log, size_t bytes) {
    static uint8_t sheet[ROOM + BEHIND], expected[ROOM];
    memset(sheet, 0xa5, sizeof sheet);
    size_t length = month_of_log(log, bytes, sheet, sizeof sheet);
    size_t wanted = second_month_of_log(log, bytes, expected, sizeof expected);
    if (length != wanted || memcmp(sheet, expected, wanted) != 0) fault("month sheet and second program differ");
    for (size_t i = length; i < sizeof sheet; i++)
        if (sheet[i] != 0xa5) fault("a byte behind the sheet is written");
    return 0;
}
