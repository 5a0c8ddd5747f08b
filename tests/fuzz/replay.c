/* Makes the calls of inputs and prints each with its answer. Usage: replay FILE .. */

#include <stdio.h>

#include "check.h"
#include "decode.h"
#include "report.h"

enum { MOST_INPUT = 1 << 16 };

static void replay(const char *name, const uint8_t *bytes, size_t size)
{
    static struct call call;
    static struct table table;
    struct source source = {bytes, size, NULL};
    const struct outcome *outcome;

    decode_table(&source, &table);
    while (decode_call(&source, &table, &call)) {
        outcome = check_call(&call, &table);
        printf("%s: %s answers %u\n", name, kind_names[call.kind], said(&call, outcome));
    }
}

int main(int count_of_words, char **words)
{
    static uint8_t bytes[MOST_INPUT];

    report_at_death();
    for (int i = 1; i < count_of_words; i++) {
        FILE *file = fopen(words[i], "rb");

        if (file == NULL) {
            fprintf(stderr, "replay: %s can't be read\n", words[i]);
            return 1;
        }
        report_place(words[i], 0);
        replay(words[i], bytes, fread(bytes, 1, sizeof bytes, file));
        fclose(file);
    }
    return 0;
}
