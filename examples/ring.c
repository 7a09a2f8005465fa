/* Lists a ringing tone, inserts an instruction, and lists it again.
 *
 *   link/install /usr/local
 *   cc -O2 examples/ring.c $(pkg-config --cflags --libs ohakelm) -o target/ring
 */
#include <stdio.h>

#include "ohakelm.h"

#define ROOM 16 /* octets of the buffer, and entries of the list */
#define CELLS (OHAKELM_ENTRY_CELLS * ROOM)

static void print_message(const uint8_t *msg, size_t octets)
{
    for (size_t i = 0; i < octets; i++)
        printf(i == 0 ? "%02X" : " %02X", msg[i]);
    printf("\n");
}

static void print_list(const uint32_t *list, size_t entries, uint32_t mark)
{
    printf("entries %zu return ", entries);
    if (mark == OHAKELM_NO_MARK)
        printf("none\n");
    else
        printf("%u\n", mark);
    for (size_t i = 0; i < entries; i++) {
        const uint32_t *entry = list + OHAKELM_ENTRY_CELLS * i;
        uint32_t first = entry[0], microseconds = entry[1], origin = entry[2];
        printf("%u %u %u %u %u %u %u\n", OHAKELM_LISTED_NOTE(first),
               OHAKELM_LISTED_SCALE(first), OHAKELM_LISTED_STYLE(first),
               OHAKELM_LISTED_VOLUME(first), microseconds,
               OHAKELM_LISTED_HEADER(origin), OHAKELM_LISTED_POSITION(origin));
    }
}

static int refused(uint32_t number, size_t place)
{
    printf("refused %u at %zu: %s\n", number, place, ohakelm_words(number));
    return 1;
}

int main(void)
{
    /* A temporary song with one part: tempo 125, then A, a quarter. */
    uint8_t buf[ROOM] = {0x02, 0x4A, 0x3A, 0x80, 0x40, 0x00, 0x51, 0xC6, 0x90, 0x00};
    size_t used = 10;
    uint32_t list[CELLS];

    /* A header goes with an archive of the same first two numbers. */
    if (ohakelm_version() / 100 != OHAKELM_VERSION / 100) {
        printf("the archive has version %u\n", ohakelm_version());
        return 1;
    }

    struct ohakelm_listed made = ohakelm_list(buf, used, list, CELLS);
    if (made.refusal != OHAKELM_ACCEPTED)
        return refused(made.refusal, made.place);
    print_message(buf, used);
    print_list(list, made.entries, made.mark);

    /* The note's origin says where to insert: pattern 0 is the part, and its
     * instruction 1 is the note. */
    uint32_t pattern = OHAKELM_LISTED_HEADER(list[2]);
    uint32_t instruction = OHAKELM_LISTED_POSITION(list[2]);
    struct ohakelm_edited done = ohakelm_insert(
        buf, ROOM, used, pattern, instruction, OHAKELM_SCALE(0), list, CELLS);
    if (done.refusal != OHAKELM_ACCEPTED)
        return refused(done.refusal, done.place);
    print_message(buf, done.length);
    print_list(list, done.entries, done.mark);
    return 0;
}
