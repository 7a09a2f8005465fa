/* What is constant, where C asks for a constant. */
#include "check.h"

/* Each is of size 1 if the numbers are the same, and does not compile else. */
#define SAME(name, one, two) typedef char name[(one) == (two) ? 1 : -1]

SAME(part_of_two, OHAKELM_HEADER(0, 0, 2), 2);
SAME(last_header, OHAKELM_HEADER(3, 15, 255), 16383);
SAME(a_quarter, OHAKELM_NOTE(10, 2, 0), 65864);
SAME(last_note, OHAKELM_NOTE(12, 5, 3), 65943);
SAME(scale_0, OHAKELM_SCALE(0), 131072);
SAME(staccato, OHAKELM_STYLE(2), 196610);
SAME(tempo_14, OHAKELM_TEMPO(14), 262158);
SAME(volume_7, OHAKELM_VOLUME(7), 327687);
SAME(kind_of_tempo, OHAKELM_KIND(262158), OHAKELM_KIND_TEMPO);
SAME(payload_of_tempo, OHAKELM_PAYLOAD(262158), 14);
SAME(header_id, OHAKELM_HEADER_ID(16383), 3);
SAME(header_loop, OHAKELM_HEADER_LOOP(16383), 15);
SAME(header_specifier, OHAKELM_HEADER_SPECIFIER(16383), 255);
SAME(note_value, OHAKELM_NOTE_VALUE(65864), 10);
SAME(note_duration, OHAKELM_NOTE_DURATION(65864), 2);
SAME(note_specifier, OHAKELM_NOTE_SPECIFIER(65943), 3);
SAME(listed_note, OHAKELM_LISTED_NOTE(10503), 10);
SAME(listed_scale, OHAKELM_LISTED_SCALE(10503), 1);
SAME(listed_style, OHAKELM_LISTED_STYLE(10503), 0);
SAME(listed_volume, OHAKELM_LISTED_VOLUME(10503), 7);
SAME(listed_header, OHAKELM_LISTED_HEADER(65277), 254);
SAME(listed_position, OHAKELM_LISTED_POSITION(65277), 253);
SAME(entry_cells, OHAKELM_ENTRY_CELLS, 3);
SAME(no_mark, OHAKELM_NO_MARK, 4294967295u);

SAME(basic, OHAKELM_BASIC, 1);
SAME(temporary, OHAKELM_TEMPORARY, 2);
SAME(kind_header, OHAKELM_KIND_HEADER, 0);
SAME(kind_note, OHAKELM_KIND_NOTE, 1);
SAME(kind_scale, OHAKELM_KIND_SCALE, 2);
SAME(kind_style, OHAKELM_KIND_STYLE, 3);
SAME(kind_tempo, OHAKELM_KIND_TEMPO, 4);
SAME(kind_volume, OHAKELM_KIND_VOLUME, 5);

/* 15 characters of two octets. */
SAME(largest_title, OHAKELM_LARGEST_TITLE, 15 * 2);
SAME(largest_tone, OHAKELM_LARGEST_TONE, 4096);
/* The smallest instruction takes 5 bits and a header 17. Of a tone's bits 34 are
 * ahead of the patterns and 8 behind them. 26 parts have the most entries. */
SAME(largest_table, OHAKELM_LARGEST_TABLE, 26 + (4096 * 8 - 34 - 8 - 26 * 17) / 5);
/* 255 patterns sound 15 times, with 255 notes each. */
SAME(largest_rows, OHAKELM_LARGEST_ROWS, 255 * 15 * 255);
SAME(largest_list, OHAKELM_LARGEST_LIST, OHAKELM_ENTRY_CELLS * 255 * 15 * 255);
/* Four octets of header, and 255 rows of 248 pixels. */
SAME(largest_bitmap, OHAKELM_LARGEST_BITMAP, 4 + 248 / 8 * 255);
SAME(largest_icon, OHAKELM_LARGEST_ICON, 1 + 4 + 248 / 8 * 255);
/* Version, codes, the longest date and the line feed are ahead of a logo. */
SAME(largest_logo, OHAKELM_LARGEST_LOGO, 1 + 3 + 2 + 16 + 1 + 4 + 248 / 8 * 255);

/* 15 messages of 4,096 octets and one of 4,027, with 16 rows and four octets. */
SAME(largest_pack, OHAKELM_LARGEST_PACK, 15 * 4096 + 4027 + 16 * 4 + 4);
/* A message has eight octets at least, and a row four. */
SAME(largest_report, OHAKELM_LARGEST_REPORT, 3 * ((OHAKELM_LARGEST_PACK - 4) / (8 + 4)) + 1);

/* An edit does what listing a tone does and more, and a bitmap has no list. */
SAME(stack_of_edits, OHAKELM_STACK_EDITS > OHAKELM_STACK_TONES, true);
SAME(stack_of_others, OHAKELM_STACK_TONES > OHAKELM_STACK_OTHERS, true);
/* To get messages out of a broken pack takes a row for each that may be kept. */
SAME(stack_of_salvage, OHAKELM_STACK_SALVAGE > OHAKELM_STACK_PACKS, true);

/* In an enum, in a static's first value, in a table and as an array's size. */
enum part { PART_A = OHAKELM_HEADER(0, 0, 2), PART_B = OHAKELM_HEADER(1, 0, 2) };
static uint32_t scale = OHAKELM_SCALE(0);
static const uint32_t table[] = {OHAKELM_HEADER(0, 0, 2), OHAKELM_TEMPO(14),
                                 OHAKELM_NOTE(10, 2, 0)};
static uint8_t room_of_tone[OHAKELM_LARGEST_TONE];

static const char *name_of(uint32_t entry)
{
    switch (entry) {
    case OHAKELM_NOTE(10, 2, 0):
        return "A, a quarter";
    case OHAKELM_TEMPO(14):
        return "125 beats";
    default:
        return "another";
    }
}

/* The version's words and its number are the same, and the archive's too. */
static void check_version(void)
{
    char words[32];
    uint32_t version = OHAKELM_VERSION;
    snprintf(words, sizeof words, "%u.%u.%u", version / 10000, version / 100 % 100,
             version % 100);
    CHECK(strcmp(words, OHAKELM_VERSION_STRING) == 0);
    CHECK(ohakelm_version() == version);
}

int main(void)
{
    static const uint8_t sample[] = {0x02, 0x4A, 0x3A, 0x80, 0x40, 0x00, 0x51, 0xC6, 0x90, 0x00};
    struct ohakelm_written done =
        ohakelm_write(OHAKELM_TEMPORARY, false, NULL, 0, table, 3, room_of_tone, sizeof room_of_tone);
    CHECK(done.refusal == OHAKELM_ACCEPTED && done.octets == sizeof sample);
    CHECK(memcmp(room_of_tone, sample, sizeof sample) == 0);
    CHECK(scale == 131072 && PART_A == 2 && PART_B == 4098);
    CHECK(strcmp(name_of(table[2]), "A, a quarter") == 0);
    CHECK(strcmp(name_of(table[1]), "125 beats") == 0);
    check_version();
    return failed;
}
