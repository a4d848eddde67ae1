/* pairs: checks a CERTIS input file and prints its first faults.
 *
 *   gcc pairs.c $(pkg-config --cflags --libs certis) -o pairs
 *   ./pairs 300 20240304 <FILE
 */

#include <certis.h>
#include <stdio.h>
#include <stdlib.h>

enum { ROOM = 100 };

/* One byte more than is checked, so that a longer file is refused and not cut. */
static uint8_t file[CERTIS_FILE_MOST + 1];

int main(int argc, char **argv)
{
    uint32_t lines[ROOM], rules[ROOM], offsets[ROOM];
    uint64_t total;
    if (argc != 3) {
        return 2;
    }
    size_t length = fread(file, 1, sizeof file, stdin);
    uint32_t code = (uint32_t)atoi(argv[1]), day = (uint32_t)atoi(argv[2]);
    uint32_t refusal = certis_check(file, length, code, day, lines, ROOM, rules, ROOM, offsets, ROOM, &total);
    if (refusal != CERTIS_DONE) {
        printf("refused %u\n", (unsigned)refusal);
        return 2;
    }
    for (size_t i = 0; i < total && i < ROOM; i++) {
        printf("line %u rule %u offset %u\n", (unsigned)lines[i], (unsigned)rules[i], (unsigned)offsets[i]);
    }
    printf("faults %llu\n", (unsigned long long)total);
    return total == 0 ? 0 : 1;
}
