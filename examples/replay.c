/* Replays the journal in the file named by the one argument and prints its transcript, as the program `replay` does. In the
 * root of the repository:
 *
 *     (cd crates/pailorchard && rt lib)
 *     mkdir -p target
 *     cc -std=c11 -Wall -Ibindings examples/replay.c crates/pailorchard/out/libpailorchard.a -o target/replay_c
 *     target/replay_c examples/day.journal
 */
#include <stdio.h>
#include <stdlib.h>

#include "pailorchard.h"

/* The longest journal is 65,536 bytes. One byte more is read of a longer file, and its transcript says "stop 0 24". */
enum { LONGEST = 65536 };

static uint8_t journal[LONGEST + 1];

int main(int argc, char **argv)
{
    if (argc != 2) {
        fprintf(stderr, "replay_c FILE\n");
        return 2;
    }
    FILE *file = fopen(argv[1], "rb");
    if (file == NULL) {
        perror(argv[1]);
        return 1;
    }
    size_t journal_len = fread(journal, 1, sizeof journal, file);
    if (ferror(file)) {
        perror(argv[1]);
        return 1;
    }
    fclose(file);

    size_t out_len = pailorchard_replay_room(journal_len);
    uint8_t *out = malloc(out_len);
    if (out == NULL) {
        fprintf(stderr, "no memory for the transcript\n");
        return 1;
    }
    size_t written = 0;
    uint32_t number = pailorchard_replay(journal, journal_len, out, out_len, &written);
    if (number != 0) {
        fprintf(stderr, "refused: %u\n", (unsigned)number);
        return 1;
    }
    size_t printed = fwrite(out, 1, written, stdout);
    free(out);
    return printed == written && fflush(stdout) == 0 ? 0 : 1;
}
