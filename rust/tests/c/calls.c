/* Every call from C, on samples of the rules. */
#include "check.h"

/* A temporary song with one part: tempo code 14, then A, a quarter. */
static const uint8_t sample[10] = {0x02, 0x4A, 0x3A, 0x80, 0x40, 0x00, 0x51, 0xC6, 0x90, 0x00};

static void check_tones(void)
{
    uint32_t table[3] = {0}, list[OHAKELM_ENTRY_CELLS] = {0};
    uint8_t out[10] = {0};
    struct ohakelm_tone tone = ohakelm_read(sample, 10, table, 3, NULL, 0);
    CHECK(tone.refusal == OHAKELM_ACCEPTED && tone.place == 0 && tone.song == OHAKELM_TEMPORARY);
    CHECK(!tone.unicode && tone.characters == 0 && tone.patterns == 1 && tone.entries == 3);
    CHECK(table[0] == 2 && table[1] == 262158 && table[2] == 65864);
    tone = ohakelm_read(sample, 9, table, 3, NULL, 0);
    CHECK(tone.refusal == OHAKELM_CUT_SHORT && tone.place == 72 && tone.entries == 0);
    struct ohakelm_written done = ohakelm_write(2, false, NULL, 0, table, 3, out, 10);
    CHECK(done.refusal == OHAKELM_ACCEPTED && done.octets == 10 && memcmp(out, sample, 10) == 0);
    struct ohakelm_listed made = ohakelm_list(sample, 10, list, OHAKELM_ENTRY_CELLS);
    CHECK(made.refusal == OHAKELM_ACCEPTED && made.entries == 1 && made.mark == OHAKELM_NO_MARK);
    CHECK(list[0] == 10503 && list[1] == 480000 && list[2] == 1);
}

/* A basic song with one part of a quarter note. Its title is a tab, a space if
 * the octet is changed. */
static void check_titles(void)
{
    static const uint8_t tab[1] = {'\t'}, note[2] = {'N', 'o'};
    static const uint32_t table[2] = {OHAKELM_HEADER(0, 0, 1), OHAKELM_NOTE(1, 2, 0)};
    uint8_t msg[11] = {0x02, 0x4A, 0x3A, 0x44, 0x24, 0x04, 0x00, 0x02, 0x45, 0x00, 0x00};
    uint32_t cells[2] = {0}, list[3] = {0};
    uint8_t title[1] = {0}, out[11] = {0};
    struct ohakelm_tone tone = ohakelm_read(msg, 11, cells, 2, title, 1);
    CHECK(tone.refusal == OHAKELM_CHARACTER && tone.place == 30 && tone.characters == 0);
    struct ohakelm_listed made = ohakelm_list(msg, 11, list, 3);
    CHECK(made.refusal == OHAKELM_CHARACTER && made.place == 30 && made.entries == 0);
    struct ohakelm_edited edited = ohakelm_delete(msg, 11, 11, 9, 9, list, 3);
    CHECK(edited.refusal == OHAKELM_CHARACTER && edited.place == 30 && edited.length == 0);
    struct ohakelm_written done = ohakelm_write(1, false, tab, 1, table, 2, out, 11);
    CHECK(done.refusal == OHAKELM_CHARACTER && done.place == 0 && done.octets == 0);
    struct ohakelm_label_stretch label = ohakelm_label(tab, 1, false, note, 2);
    CHECK(!label.stand_in && label.start == 0 && label.length == 1);
    msg[4] = 0x80;
    tone = ohakelm_read(msg, 11, cells, 2, title, 1);
    CHECK(tone.refusal == OHAKELM_ACCEPTED && tone.characters == 1 && title[0] == ' ');
}

static void check_rows(void)
{
    uint32_t list[3] = {0};
    struct ohakelm_entry row = {9, 9, 9, 9, 9, 9, 9};
    struct ohakelm_listed made = ohakelm_rows(sample, 10, list, 3, &row, 1);
    CHECK(made.refusal == OHAKELM_ACCEPTED && made.entries == 1 && made.mark == OHAKELM_NO_MARK);
    CHECK(list[0] == 10503 && list[1] == 480000 && list[2] == 1);
    CHECK(row.note == 10 && row.scale == 1 && row.style == 0 && row.volume == 7);
    CHECK(row.microseconds == 480000 && row.header == 0 && row.position == 1);
}

/* The note C behind volume 2, and a recall of it. Its entries lead to the note. An
 * edit at the first makes D of both, and one at the recall is refused. */
static void check_origins(void)
{
    static const uint32_t table[4] = {OHAKELM_HEADER(0, 0, 2), OHAKELM_VOLUME(2),
                                      OHAKELM_NOTE(1, 2, 0), OHAKELM_HEADER(0, 0, 0)};
    uint8_t buf[20] = {0};
    uint32_t list[8] = {9, 9, 9, 9, 9, 9, 9, 9};
    struct ohakelm_entry rows[2];
    size_t used = ohakelm_write(2, false, NULL, 0, table, 4, buf, 20).octets;
    CHECK(ohakelm_list(buf, used, list, 5).refusal == OHAKELM_NO_ROOM && list[0] == 9);
    struct ohakelm_listed made = ohakelm_rows(buf, used, list, 8, rows, 2);
    CHECK(made.refusal == OHAKELM_ACCEPTED && made.entries == 2 && list[6] == 9 && list[7] == 9);
    CHECK(list[2] == 1 && rows[0].header == 0 && rows[0].position == 1);
    CHECK(list[5] == 257 && rows[1].header == 1 && rows[1].position == 1);
    CHECK(OHAKELM_LISTED_HEADER(list[5]) == 1 && OHAKELM_LISTED_POSITION(list[5]) == 1);
    CHECK(OHAKELM_NOTE_VALUE(table[1 + rows[0].position]) == OHAKELM_LISTED_NOTE(list[0]));
    struct ohakelm_edited done = ohakelm_replace(buf, 20, used, rows[0].header, rows[0].position,
                                                 OHAKELM_NOTE(3, 2, 0), list, 6);
    CHECK(done.refusal == OHAKELM_ACCEPTED && done.entries == 2);
    CHECK(OHAKELM_LISTED_NOTE(list[0]) == 3 && OHAKELM_LISTED_NOTE(list[3]) == 3);
    CHECK(list[2] == 1 && list[5] == 257);
    done = ohakelm_delete(buf, 20, used, rows[1].header, rows[1].position, list, 6);
    CHECK(done.refusal == OHAKELM_NOT_THERE && done.place == 0);
}

/* A part for ever: the note C, a quarter, and then volume 2. Its first round has
 * volume 7. A full note takes the volume's place: with the quarter ahead of it, it
 * ends 480 units or 4,761,904 16/21 microseconds behind the start of its round. */
static void check_endless(void)
{
    uint8_t buf[11] = {0x02, 0x4A, 0x3A, 0x80, 0x41, 0xE0, 0x44, 0x51, 0x48, 0x00, 0x00};
    uint32_t list[12] = {0};
    struct ohakelm_entry rows[2];
    struct ohakelm_listed made = ohakelm_list(buf, 10, list, 5);
    CHECK(made.refusal == OHAKELM_NO_ROOM && made.entries == 0 && made.mark == 0);
    made = ohakelm_list(buf, 10, list, 6);
    CHECK(made.refusal == OHAKELM_ACCEPTED && made.entries == 2 && made.mark == 1);
    CHECK(OHAKELM_LISTED_VOLUME(list[0]) == 7 && list[1] == 952380 && list[2] == 0);
    CHECK(OHAKELM_LISTED_VOLUME(list[3]) == 2 && list[4] == 952380 && list[5] == 0);
    made = ohakelm_rows(buf, 10, list, 6, rows, 2);
    CHECK(made.refusal == OHAKELM_ACCEPTED && made.entries == 2 && made.mark == 1);
    CHECK(rows[0].volume == 7 && rows[1].volume == 2 && rows[1].note == 1);
    struct ohakelm_edited done =
        ohakelm_replace(buf, 11, 10, 0, 1, OHAKELM_NOTE(3, 0, 0), list, 12);
    CHECK(done.refusal == OHAKELM_ACCEPTED && done.entries == 4 && done.mark == 2);
    CHECK(OHAKELM_LISTED_NOTE(list[9]) == 3 && list[7] + list[10] == 4761904);
    CHECK(list[1] == 952380 && list[4] == 3809524 && list[7] == 952380);
    CHECK(list[2] == 0 && list[5] == 1 && list[8] == 0 && list[11] == 1);
}

static void check_label(void)
{
    static const uint8_t title[3] = {'A', ' ', ' '}, stand_in[2] = {'B', 'C'};
    struct ohakelm_label_stretch label = ohakelm_label(title, 3, false, stand_in, 2);
    CHECK(!label.stand_in && label.start == 0 && label.length == 1);
    label = ohakelm_label(title, 3, true, stand_in, 2);
    CHECK(label.stand_in && label.start == 0 && label.length == 2);
}

/* Scale 0 is inserted, scale 1 takes its place, and both it and the tempo go. */
static void check_edits(void)
{
    static const uint8_t inserted[5] = {0x71, 0xC8, 0x34, 0x80, 0x00};
    static const uint8_t shortened[3] = {0x26, 0x90, 0x00};
    uint8_t buf[11];
    uint32_t list[3] = {0};
    memcpy(buf, sample, 10);
    struct ohakelm_edited done =
        ohakelm_insert(buf, 11, 10, 0, 1, OHAKELM_SCALE(0), list, 3);
    CHECK(done.refusal == OHAKELM_ACCEPTED && done.length == 11 && done.change == 1);
    CHECK(memcmp(buf + 6, inserted, 5) == 0 && list[0] == 10247 && list[1] == 480000);
    CHECK(list[2] == 2);
    done = ohakelm_replace(buf, 11, 11, 0, 1, OHAKELM_SCALE(1), list, 3);
    CHECK(done.refusal == OHAKELM_ACCEPTED && done.length == 11 && done.change == 0);
    CHECK(done.entries == 1 && done.mark == OHAKELM_NO_MARK && list[0] == 10503);
    done = ohakelm_delete(buf, 11, 11, 0, 1, list, 3);
    CHECK(done.refusal == OHAKELM_ACCEPTED && done.length == 10 && done.change == -1);
    CHECK(memcmp(buf, sample, 10) == 0 && buf[10] == 0 && list[2] == 1);
    done = ohakelm_delete(buf, 11, 10, 0, 0, list, 3);
    CHECK(done.refusal == OHAKELM_ACCEPTED && done.length == 9 && done.change == -1);
    CHECK(memcmp(buf + 6, shortened, 3) == 0 && list[1] == 952380 && list[2] == 0);
    done = ohakelm_delete(buf, 11, 9, 0, 0, list, 3);
    CHECK(done.refusal == OHAKELM_ONLY_ONE && done.place == 0 && done.length == 0);
}

/* The sample and the same without its tempo, and the pack of nothing. */
static void check_packs(void)
{
    static const uint8_t pack[31] = {0x02, 0x4A, 0x3A, 0x80, 0x40, 0x00, 0x51, 0xC6,
                                     0x90, 0x00, 0x02, 0x4A, 0x3A, 0x80, 0x40, 0x00,
                                     0x26, 0x90, 0x00, 0,    0,    0,    10,   0,
                                     10,   0,    9,    0,    2,    0,    19};
    static const uint32_t lengths[2] = {10, 9};
    uint8_t out[31] = {0};
    struct ohakelm_pack read = ohakelm_pack_read(pack, 31);
    CHECK(read.refusal == OHAKELM_ACCEPTED && read.place == 0 && read.messages == 2);
    struct ohakelm_stretch message = ohakelm_pack_message(pack, 31, 1);
    CHECK(message.refusal == OHAKELM_ACCEPTED && message.place == 0);
    CHECK(message.start == 10 && message.length == 9);
    message = ohakelm_pack_message(pack, 31, 4294967295u);
    CHECK(message.refusal == OHAKELM_NOT_THERE && message.place == 0);
    CHECK(message.start == 0 && message.length == 0);
    struct ohakelm_written done = ohakelm_pack_write(pack, 19, lengths, 2, out, 31);
    CHECK(done.refusal == OHAKELM_ACCEPTED && done.octets == 31 && memcmp(out, pack, 31) == 0);
    done = ohakelm_pack_write(NULL, 0, NULL, 0, out, 31);
    CHECK(done.refusal == OHAKELM_ACCEPTED && done.octets == 4 && out[0] == 0 && out[4] == 0x40);
    CHECK(ohakelm_pack_read(out, 4).refusal == OHAKELM_ACCEPTED);
}

/* Each refusal that packs alone have, and those of a message at its place. */
static void check_wrong_packs(void)
{
    static const uint8_t without_rows[5] = {0xFF, 0, 0, 0, 1};
    static const uint32_t lengths[2] = {10, 4294967295u};
    uint8_t msgs[20], out[32] = {0};
    struct ohakelm_pack read = ohakelm_pack_read(without_rows, 5);
    CHECK(read.refusal == OHAKELM_PACK_ROWS && read.place == 0 && read.messages == 0);
    CHECK(ohakelm_pack_read(without_rows, 4).refusal == OHAKELM_PACK_SIZE);
    CHECK(ohakelm_pack_read(without_rows, 3).refusal == OHAKELM_CUT_SHORT);
    CHECK(ohakelm_pack_message(without_rows, 5, 0).refusal == OHAKELM_PACK_ROWS);
    memcpy(msgs, sample, 10);
    memcpy(msgs + 10, sample, 10);
    struct ohakelm_written done = ohakelm_pack_write(msgs, 20, lengths, 2, out, 32);
    CHECK(done.refusal == OHAKELM_PACK_ROWS && done.place == 0 && done.octets == 0);
    const uint32_t twice[2] = {10, 10};
    CHECK(ohakelm_pack_write(msgs, 20, twice, 2, out, 31).refusal == OHAKELM_NO_ROOM);
    msgs[19] = 1;
    done = ohakelm_pack_write(msgs, 20, twice, 2, out, 32);
    CHECK(done.refusal == OHAKELM_END_OCTET && done.place == 152 && out[0] == 0);
}

/* The sample, spoilt in its last octet, and behind it the same without its tempo. */
static void check_salvage(void)
{
    static const uint8_t broken[24] = {0x02, 0x4A, 0x3A, 0x80, 0x40, 0x00, 0x51, 0xC6,
                                       0x90, 0x01, 0x02, 0x4A, 0x3A, 0x80, 0x40, 0x00,
                                       0x26, 0x90, 0x00, 0,    0,    0,    10,   0};
    static const uint8_t row[8] = {0, 0, 0, 9, 0, 1, 0, 9};
    uint8_t out[18] = {0};
    uint32_t report[5] = {0};
    struct ohakelm_salvage done = ohakelm_pack_salvage(broken, 24, out, 16, report, 4);
    CHECK(done.refusal == OHAKELM_NO_ROOM && done.place == 0 && done.messages == 0);
    CHECK(done.octets == 0 && done.skipped == 0 && out[0] == 0 && report[0] == 0);
    CHECK(ohakelm_pack_salvage(broken, 24, out, 17, report, 3).refusal == OHAKELM_NO_ROOM);
    done = ohakelm_pack_salvage(broken, 24, out, 18, report, 5);
    CHECK(done.refusal == OHAKELM_ACCEPTED && done.place == 0 && done.messages == 1);
    CHECK(done.octets == 17 && done.skipped == 15);
    CHECK(memcmp(out, broken + 10, 9) == 0 && memcmp(out + 9, row, 8) == 0 && out[17] == 0);
    CHECK(report[0] == 10 && report[1] == 0 && report[2] == 9 && report[3] == 15);
    CHECK(report[4] == 0);
    done = ohakelm_pack_salvage(NULL, 0, out, 18, report, 5);
    CHECK(done.refusal == OHAKELM_ACCEPTED && done.octets == 4 && out[0] == 0 && report[0] == 0);
}

static void check_bitmaps(void)
{
    static const uint8_t icon[7] = {'0', 0x00, 0x08, 0x02, 0x01, 0xFF, 0x01};
    uint8_t out[7] = {0};
    struct ohakelm_bitmap bitmap = ohakelm_bitmap_read(icon + 1, 6);
    CHECK(bitmap.refusal == OHAKELM_ACCEPTED && bitmap.width == 8 && bitmap.height == 2);
    CHECK(bitmap.black == 9 && bitmap.start == 4 && bitmap.length == 2);
    CHECK(ohakelm_bitmap_read(icon + 1, 5).refusal == OHAKELM_IMAGE_LENGTH);
    struct ohakelm_written done = ohakelm_bitmap_write(8, 2, icon + 5, 2, out, 7);
    CHECK(done.refusal == OHAKELM_ACCEPTED && done.octets == 6 && memcmp(out, icon + 1, 6) == 0);
    bitmap = ohakelm_icon_read(icon, 7);
    CHECK(bitmap.refusal == OHAKELM_ACCEPTED && bitmap.width == 8 && bitmap.height == 2);
    CHECK(bitmap.black == 9 && bitmap.start == 5 && bitmap.length == 2);
    done = ohakelm_icon_write(8, 2, icon + 5, 2, out, 7);
    CHECK(done.refusal == OHAKELM_ACCEPTED && done.octets == 7 && memcmp(out, icon, 7) == 0);
}

static void check_logos(void)
{
    static const uint8_t message[21] = {0x30, 0x32, 0x34, 0x34, 0x30, 0x35, 0x31,
                                        0x39, 0x39, 0x39, 0x31, 0x32, 0x33, 0x31,
                                        0x0A, 0x00, 0x08, 0x02, 0x01, 0xFF, 0x01};
    uint8_t out[21] = {0};
    struct ohakelm_logo logo = ohakelm_logo_read(message, 21);
    CHECK(logo.refusal == OHAKELM_ACCEPTED && logo.width == 8 && logo.height == 2);
    CHECK(logo.black == 9 && logo.start == 19 && logo.length == 2);
    CHECK(logo.mcc_start == 1 && logo.mcc_length == 3 && logo.mnc_start == 4);
    CHECK(logo.mnc_length == 2 && logo.date_start == 6 && logo.date_length == 8);
    struct ohakelm_written done = ohakelm_logo_write(message + 1, 3, message + 4, 2, message + 6, 8,
                                                     8, 2, message + 19, 2, out, 21);
    CHECK(done.refusal == OHAKELM_ACCEPTED && done.octets == 21);
    CHECK(memcmp(out, message, 21) == 0);
    done = ohakelm_logo_write(message + 1, 3, message + 4, 3, message + 6, 8, 8, 2, message + 19,
                              2, out, 21);
    CHECK(done.refusal == OHAKELM_AHEAD && done.place == 0 && done.octets == 0);
}

int main(void)
{
    check_tones();
    check_titles();
    check_rows();
    check_origins();
    check_endless();
    check_label();
    check_edits();
    check_packs();
    check_wrong_packs();
    check_salvage();
    check_bitmaps();
    check_logos();
    CHECK(ohakelm_version() == OHAKELM_VERSION);
    return failed;
}
