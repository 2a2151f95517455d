/* check LOG: prints the overlapping pairs of a draw log. Ends with status 0 if there is none, 1 if there are
   some, 2 if the log is refused or cannot be read. */
#include <stdio.h>
#include "nahuitepol.h"

enum { DRAWS = 32, PROBE = 8 * DRAWS, RESULT = 4 * 64 * 63, LONGEST = 65536 };

int main(int argc, char **argv) {
    static uint8_t log[LONGEST + 1];
    static uint16_t tables[2 * PROBE];
    static uint32_t memory[PROBE], result[RESULT];
    FILE *file = argc == 2 ? fopen(argv[1], "rb") : NULL;
    if (file == NULL) return 2;
    size_t length = fread(log, 1, sizeof log, file);

    nahui_checked found = nahui_check(log, length, DRAWS, tables, 2 * PROBE, memory, PROBE, result, RESULT);
    if (found.refusal != 0) {
        printf("refused: number %u, entry %u\n", found.refusal, found.entry);
        return 2;
    }
    for (const uint32_t *pair = result; pair < result + 4 * found.pairs; pair += 4)
        printf("%u begins with draws that %u has from byte %u on\n", pair[0], pair[1], pair[2]);
    return found.pairs > 0;
}
