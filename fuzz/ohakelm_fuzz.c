/* A fuzz target over every export of the library that is lent anything, for
 * libFuzzer.
 *
 * docs/FUZZING.md says how to build and run it.
 *
 * Coverage. The archive that Rattle writes has no coverage counters, and
 * libFuzzer cannot add them. So each call is put to a second, plain
 * implementation too (fuzz/guide), which is built with counters. The two
 * follow the same rules, so what leads the fuzzer into a new branch of the one
 * also leads the other to a rule that it had not met.
 *
 * Checks. Both must answer alike and leave the same octets. A refusal must
 * leave all as it was. What was read must write again, what an edit lists must
 * be the list of its octets, and a deletion must undo an insertion. The origin of
 * an entry must lead through the table to the note listed. An endless part that
 * sounds once and is then recalled for ever must go on as it did before.
 * A title that was read or written must have no refused character. An icon and a
 * logo that were written must read again. A pack must be refused just where one of
 * its messages is, at that message's place, or where its rows are not those of
 * messages back to back; what was read must write again, and each message must be
 * the one that its row names. What is gotten out of a broken pack must be what the
 * rule gives, octet by octet, and the new pack must read. Buffers end at a page that
 * cannot be touched, and guard cells stand ahead of them, so a read or a write past
 * the end ends the run.
 *
 * Input. One octet names the call and whether a buffer of nothing is passed as
 * null to the library, some more are the call's numbers, and the rest is the
 * message, title or image. */
#define _DEFAULT_SOURCE
#include <stdio.h>
#include <stdlib.h>
#include <string.h>
#include <sys/mman.h>
#include <unistd.h>

#include "ohakelm.h"

struct ohakelm_tone guide_read(const uint8_t *, size_t, uint32_t *, size_t, uint8_t *, size_t);
struct ohakelm_written guide_write(uint32_t, bool, const uint8_t *, size_t, const uint32_t *,
                                   size_t, uint8_t *, size_t);
struct ohakelm_label_stretch guide_label(const uint8_t *, size_t, bool, const uint8_t *, size_t);
struct ohakelm_listed guide_list(const uint8_t *, size_t, uint32_t *, size_t);
struct ohakelm_listed guide_rows(const uint8_t *, size_t, uint32_t *, size_t,
                                 struct ohakelm_entry *, size_t);
struct ohakelm_edited guide_replace(uint8_t *, size_t, size_t, size_t, size_t, uint32_t,
                                    uint32_t *, size_t);
struct ohakelm_edited guide_insert(uint8_t *, size_t, size_t, size_t, size_t, uint32_t,
                                   uint32_t *, size_t);
struct ohakelm_edited guide_delete(uint8_t *, size_t, size_t, size_t, size_t, uint32_t *, size_t);
struct ohakelm_pack guide_pack_read(const uint8_t *, size_t);
struct ohakelm_stretch guide_pack_message(const uint8_t *, size_t, uint32_t);
struct ohakelm_written guide_pack_write(const uint8_t *, size_t, const uint32_t *, size_t,
                                        uint8_t *, size_t);
struct ohakelm_salvage guide_pack_salvage(const uint8_t *, size_t, uint8_t *, size_t, uint32_t *,
                                          size_t);
struct ohakelm_bitmap guide_bitmap_read(const uint8_t *, size_t);
struct ohakelm_written guide_bitmap_write(uint32_t, uint32_t, const uint8_t *, size_t, uint8_t *,
                                          size_t);
struct ohakelm_bitmap guide_icon_read(const uint8_t *, size_t);
struct ohakelm_written guide_icon_write(uint32_t, uint32_t, const uint8_t *, size_t, uint8_t *,
                                        size_t);
struct ohakelm_logo guide_logo_read(const uint8_t *, size_t);
struct ohakelm_written guide_logo_write(const uint8_t *, size_t, const uint8_t *, size_t,
                                        const uint8_t *, size_t, uint32_t, uint32_t,
                                        const uint8_t *, size_t, uint8_t *, size_t);

#define GUARD 32       /* octets ahead of a buffer */
#define LARGEST 131072 /* octets of a buffer, at most */
#define OLD 0xA5       /* what lent buffers are filled with */

/* ---- Reports */

static void check(bool held, const char *rule)
{
    if (held)
        return;
    fprintf(stderr, "does not hold: %s\n", rule);
    abort();
}

/* Answers have padding, so they are compared field by field. */
static bool same_tone(struct ohakelm_tone a, struct ohakelm_tone b)
{
    return a.refusal == b.refusal && a.place == b.place && a.song == b.song &&
           a.unicode == b.unicode && a.characters == b.characters && a.patterns == b.patterns &&
           a.entries == b.entries;
}

static bool same_written(struct ohakelm_written a, struct ohakelm_written b)
{
    return a.refusal == b.refusal && a.place == b.place && a.octets == b.octets;
}

static bool same_label(struct ohakelm_label_stretch a, struct ohakelm_label_stretch b)
{
    return a.stand_in == b.stand_in && a.start == b.start && a.length == b.length;
}

static bool same_listed(struct ohakelm_listed a, struct ohakelm_listed b)
{
    return a.refusal == b.refusal && a.place == b.place && a.entries == b.entries &&
           a.mark == b.mark;
}

static bool same_edited(struct ohakelm_edited a, struct ohakelm_edited b)
{
    return a.refusal == b.refusal && a.place == b.place && a.length == b.length &&
           a.entries == b.entries && a.mark == b.mark && a.change == b.change;
}

static bool same_pack(struct ohakelm_pack a, struct ohakelm_pack b)
{
    return a.refusal == b.refusal && a.place == b.place && a.messages == b.messages;
}

static bool same_message(struct ohakelm_stretch a, struct ohakelm_stretch b)
{
    return a.refusal == b.refusal && a.place == b.place && a.start == b.start &&
           a.length == b.length;
}

static bool same_salvage(struct ohakelm_salvage a, struct ohakelm_salvage b)
{
    return a.refusal == b.refusal && a.place == b.place && a.messages == b.messages &&
           a.octets == b.octets && a.skipped == b.skipped;
}

static bool same_bitmap(struct ohakelm_bitmap a, struct ohakelm_bitmap b)
{
    return a.refusal == b.refusal && a.place == b.place && a.width == b.width &&
           a.height == b.height && a.black == b.black && a.start == b.start &&
           a.length == b.length;
}

static bool same_logo(struct ohakelm_logo a, struct ohakelm_logo b)
{
    return a.refusal == b.refusal && a.place == b.place && a.width == b.width &&
           a.height == b.height && a.black == b.black && a.start == b.start &&
           a.length == b.length && a.mcc_start == b.mcc_start && a.mcc_length == b.mcc_length &&
           a.mnc_start == b.mnc_start && a.mnc_length == b.mnc_length &&
           a.date_start == b.date_start && a.date_length == b.date_length;
}

/* ---- Buffers */

/* A buffer for the library, one of the same octets for the guide, and what
 * both held at first. The library's ends at a page that cannot be touched. */
struct lent {
    uint8_t *end;
    uint8_t *ours;
    uint8_t theirs[LARGEST];
    uint8_t before[LARGEST];
    size_t octets;
};

static struct lent first, second, third, fourth, fifth;

/* Whether the library gets null for a buffer of nothing. The guide never does:
 * Rust has no null slice. */
static bool null_for_nothing;

/* What the library is given. */
static uint8_t *given(const struct lent *lent)
{
    return null_for_nothing && lent->octets == 0 ? NULL : lent->ours;
}

static void map(struct lent *lent)
{
    size_t page = (size_t)sysconf(_SC_PAGESIZE);
    size_t whole = (LARGEST + GUARD + page - 1) / page * page;
    uint8_t *start = mmap(NULL, whole + page, PROT_READ | PROT_WRITE,
                          MAP_PRIVATE | MAP_ANONYMOUS, -1, 0);
    check(start != MAP_FAILED, "there is memory");
    check(mprotect(start + whole, page, PROT_NONE) == 0, "a page can be closed");
    lent->end = start + whole;
}

/* Lends so many octets, the front of them from a source. */
static void lend(struct lent *lent, size_t octets, const uint8_t *from, size_t count)
{
    check(octets <= LARGEST, "a buffer is large enough");
    if (lent->end == NULL)
        map(lent);
    lent->octets = octets;
    lent->ours = lent->end - octets;
    memset(lent->before, OLD, octets);
    if (count > 0)
        memcpy(lent->before, from, count < octets ? count : octets);
    memcpy(lent->ours, lent->before, octets);
    memcpy(lent->theirs, lent->before, octets);
    memset(lent->ours - GUARD, OLD, GUARD);
}

/* The guards are whole, and both sides have the same octets. */
static void check_lent(const struct lent *lent)
{
    for (size_t i = 1; i <= GUARD; i++)
        check(lent->ours[-(ptrdiff_t)i] == OLD, "the cells ahead of a buffer are unchanged");
    check(memcmp(lent->ours, lent->theirs, lent->octets) == 0, "both leave the same octets");
}

static void check_untouched(const struct lent *lent)
{
    check(memcmp(lent->ours, lent->before, lent->octets) == 0, "a refusal changes nothing");
}

static uint32_t *words(uint8_t *octets)
{
    return (uint32_t *)(void *)octets;
}

/* ---- Input */

struct input {
    const uint8_t *at;
    size_t left;
};

static uint32_t take(struct input *in, size_t octets)
{
    uint32_t number = 0;
    for (size_t i = 0; i < octets; i++) {
        number = number << 8;
        if (in->left > 0) {
            number |= *in->at++;
            in->left--;
        }
    }
    return number;
}

/* A room of up to 15 elements, or one that is ample. */
static size_t take_room(struct input *in, size_t ample)
{
    uint32_t number = take(in, 1);
    return number < 16 ? number : ample;
}

/* A room that may be too small for a logo by one, or one that is ample. */
static size_t take_logo_room(struct input *in)
{
    uint32_t number = take(in, 1);
    return number < 64 ? number : 8192;
}

/* So many octets of the input, or what is left of them. */
static size_t take_octets(struct input *in, struct lent *lent, size_t octets)
{
    size_t count = octets < in->left ? octets : in->left;
    lend(lent, count, in->at, count);
    in->at += count;
    in->left -= count;
    return count;
}

/* The rest of the input, at the end of the first buffer. */
static size_t take_rest(struct input *in)
{
    size_t count = in->left < 8192 ? in->left : 8192;
    lend(&first, count, in->at, count);
    return count;
}

/* ---- Calls */

#define AMPLE_TABLE 7000  /* more than the entries of 4,096 octets */
#define AMPLE_ROWS 4096
#define AMPLE_LIST (OHAKELM_ENTRY_CELLS * AMPLE_ROWS) /* cells */

/* No character is 0 to 31 or 127 to 159. One of two octets is one number. */
static void check_title(const uint8_t *title, size_t octets, bool unicode)
{
    size_t each = unicode ? 2 : 1;
    for (size_t i = 0; i < octets; i += each) {
        uint32_t character = unicode ? title[i] * 256u + title[i + 1] : title[i];
        check(character > 31 && (character < 127 || character > 159),
              "a title has no refused character");
    }
}

/* What was read is written again to the same octets. */
static void check_written_again(struct ohakelm_tone tone, const uint32_t *table,
                                const uint8_t *title)
{
    static uint8_t out[OHAKELM_LARGEST_TONE];
    size_t octets = tone.characters * (tone.unicode ? 2 : 1);
    check_title(title, octets, tone.unicode);
    struct ohakelm_written done =
        ohakelm_write(tone.song, tone.unicode, title, octets, table, tone.entries, out,
                      sizeof out);
    check(done.refusal == 0 && done.octets == first.octets, "a tone that was read is written");
    check(memcmp(out, first.ours, done.octets) == 0, "it is written to the same octets");
}

static void fuzz_read(struct input *in)
{
    size_t table_room = take_room(in, AMPLE_TABLE);
    size_t title_room = take_room(in, 30);
    size_t count = take_rest(in);
    lend(&second, 4 * table_room, NULL, 0);
    lend(&third, title_room, NULL, 0);
    struct ohakelm_tone tone = ohakelm_read(given(&first), count, words(given(&second)),
                                            table_room, given(&third), title_room);
    struct ohakelm_tone other = guide_read(first.theirs, count, words(second.theirs), table_room,
                                           third.theirs, title_room);
    check(same_tone(tone, other), "both read alike");
    check_lent(&first);
    check_lent(&second);
    check_lent(&third);
    if (tone.refusal != 0) {
        check_untouched(&second);
        check_untouched(&third);
        return;
    }
    check_written_again(tone, words(second.ours), third.ours);
}

/* What was written is read again to the same table. */
static void check_read_again(struct ohakelm_written done, const uint32_t *table, size_t entries)
{
    static uint32_t again[AMPLE_TABLE];
    static uint8_t title[30];
    struct ohakelm_tone tone =
        ohakelm_read(third.ours, done.octets, again, AMPLE_TABLE, title, sizeof title);
    check(tone.refusal == 0 && tone.entries == entries, "a tone that was written is read");
    check(memcmp(again, table, 4 * entries) == 0, "its table is the same");
}

/* The table comes from the input, two or four octets an entry. */
static void fuzz_write(struct input *in)
{
    static uint32_t table[AMPLE_TABLE];
    uint32_t song = take(in, 1);
    uint32_t flags = take(in, 1);
    bool unicode = flags & 1;
    size_t room = take_room(in, OHAKELM_LARGEST_TONE);
    uint8_t title[64];
    size_t title_len = take(in, 1) % sizeof title;
    for (size_t i = 0; i < title_len; i++)
        title[i] = (uint8_t)take(in, 1);
    size_t entries = 0;
    while (in->left > 0 && entries < AMPLE_TABLE) {
        /* A short entry has its kind in the upper octet's upper half. */
        uint32_t number = flags & 2 ? take(in, 4) : take(in, 2);
        if (!(flags & 2) && number >= 0x4000)
            number = (number / 4096 - 3) * 65536 + number % 4096;
        table[entries++] = number;
    }
    lend(&first, title_len, title, title_len);
    lend(&second, 4 * entries, (const uint8_t *)table, 4 * entries);
    lend(&third, room, NULL, 0);
    struct ohakelm_written done =
        ohakelm_write(song, unicode, given(&first), title_len, words(given(&second)), entries,
                      given(&third), room);
    struct ohakelm_written other = guide_write(song, unicode, first.theirs, title_len,
                                               words(second.theirs), entries, third.theirs, room);
    check(same_written(done, other), "both write alike");
    check_lent(&first);
    check_lent(&second);
    check_lent(&third);
    if (done.refusal != 0) {
        check_untouched(&third);
        return;
    }
    check_title(title, title_len, unicode);
    check_read_again(done, table, entries);
}

static void fuzz_label(struct input *in)
{
    bool unicode = take(in, 1) & 1;
    size_t title = take(in, 1);
    size_t count = in->left;
    title = title < count ? title : count;
    lend(&first, title, in->at, title);
    lend(&second, count - title, in->at + title, count - title);
    struct ohakelm_label_stretch label =
        ohakelm_label(given(&first), title, unicode, given(&second), count - title);
    struct ohakelm_label_stretch other =
        guide_label(first.theirs, title, unicode, second.theirs, count - title);
    check(same_label(label, other), "both label alike");
    check_lent(&first);
    check_lent(&second);
}

/* An entry of a list, by its position. */
static const uint32_t *entry_of(const uint32_t *list, size_t position)
{
    return list + OHAKELM_ENTRY_CELLS * position;
}

static bool same_entries(const uint32_t *one, const uint32_t *two, size_t entries)
{
    return memcmp(one, two, sizeof(uint32_t) * OHAKELM_ENTRY_CELLS * entries) == 0;
}

/* Finds for each header of a table the place of the one whose body it plays.
 * Answers how many there are. */
static size_t find_definitions(const uint32_t *table, size_t entries, size_t *definitions)
{
    size_t headers = 0, nearest[4] = {0};
    for (size_t at = 0; at < entries; at += 1 + OHAKELM_HEADER_SPECIFIER(table[at])) {
        size_t *known = &nearest[OHAKELM_HEADER_ID(table[at])];
        if (OHAKELM_HEADER_SPECIFIER(table[at]) > 0)
            *known = at;
        definitions[headers++] = *known;
    }
    return headers;
}

/* Each origin leads through the table to the note listed. */
static void check_origins(struct ohakelm_tone tone, const uint32_t *table, const uint32_t *list,
                          size_t entries)
{
    size_t definitions[255];
    size_t headers = find_definitions(table, tone.entries, definitions);
    for (size_t i = 0; i < entries; i++) {
        const uint32_t *entry = entry_of(list, i);
        uint32_t header = OHAKELM_LISTED_HEADER(entry[2]);
        uint32_t position = OHAKELM_LISTED_POSITION(entry[2]);
        check(header < headers, "an origin names a header");
        const uint32_t *played = table + definitions[header];
        check(position < OHAKELM_HEADER_SPECIFIER(*played), "an origin names an instruction");
        uint32_t instruction = played[1 + position];
        check(OHAKELM_KIND(instruction) == OHAKELM_KIND_NOTE &&
                  OHAKELM_NOTE_VALUE(instruction) == OHAKELM_LISTED_NOTE(entry[0]),
              "an origin leads to the note listed");
    }
}

/* The position of the first endless header in a table, or the table's end. */
static size_t endless_header(const uint32_t *table, size_t entries)
{
    size_t at = 0;
    while (at < entries && OHAKELM_HEADER_LOOP(table[at]) != 15)
        at += 1 + OHAKELM_HEADER_SPECIFIER(table[at]);
    return at;
}

/* Writes a table up to its endless pattern, which sounds once instead and is then
 * recalled for ever. Answers 0 where a message does not hold the recall too. */
static size_t write_recalled(struct ohakelm_tone tone, const uint8_t *title, uint32_t *table,
                             size_t at, uint8_t *out)
{
    size_t octets = tone.characters * (tone.unicode ? 2 : 1);
    size_t end = at + 1 + OHAKELM_HEADER_SPECIFIER(table[at]);
    table[end] = OHAKELM_HEADER(OHAKELM_HEADER_ID(table[at]), 15, 0);
    table[at] -= 15 * 256;
    return ohakelm_write(tone.song, tone.unicode, title, octets, table, end + 1, out,
                         OHAKELM_LARGEST_TONE)
        .octets;
}

/* Whether two passes are alike but for a fraction that one of them begins with. It
 * can move each boundary by one microsecond. */
static bool nearly_alike(const uint32_t *one, const uint32_t *two, size_t entries)
{
    for (size_t i = 0; i < entries; i++) {
        const uint32_t *a = entry_of(one, i), *b = entry_of(two, i);
        bool near = a[1] <= b[1] + 1 && b[1] <= a[1] + 1;
        if (a[0] != b[0] || !near || a[2] != b[2])
            return false;
    }
    return true;
}

/* Whether a pass is like another one, but for being sounded by the next header. */
static bool sounded_by_next(const uint32_t *one, const uint32_t *two, size_t entries)
{
    for (size_t i = 0; i < entries; i++) {
        const uint32_t *a = entry_of(one, i), *b = entry_of(two, i);
        if (a[0] != b[0] || a[1] != b[1] || a[2] != b[2] + 256)
            return false;
    }
    return true;
}

/* An endless part that sounds once and is then recalled for ever makes one pass
 * more. Its first pass may begin with a fraction, and both of the recall's are what
 * is behind the mark: a third pass is like the second. */
static void check_third_pass(struct ohakelm_tone tone, const uint8_t *title, uint32_t *table,
                             struct ohakelm_listed made, const uint32_t *list)
{
    static uint32_t again[AMPLE_LIST + OHAKELM_ENTRY_CELLS * 255];
    static uint8_t out[OHAKELM_LARGEST_TONE];
    size_t at = endless_header(table, tone.entries);
    bool returns = made.mark != OHAKELM_NO_MARK;
    if (at == tone.entries) {
        check(!returns, "a list without an endless part has no mark");
        return;
    }
    size_t octets = write_recalled(tone, title, table, at, out);
    if (octets == 0)
        return;
    struct ohakelm_listed more = ohakelm_list(out, octets, again, sizeof again / 4);
    size_t pass = returns ? made.entries - made.mark : 0;
    size_t ahead = made.entries - 2 * pass;
    const uint32_t *once = entry_of(again, ahead), *recalled = entry_of(again, ahead + pass);
    const uint32_t *second = entry_of(list, ahead + pass);
    check(more.refusal == 0 && more.entries == made.entries + pass,
          "an endless part has two passes");
    check(!returns || more.mark == made.entries, "the mark is on the second of them");
    check(same_entries(again, list, ahead), "what is ahead of them is the same");
    check(nearly_alike(once, entry_of(list, ahead), pass), "the first is heard first");
    check(sounded_by_next(recalled, second, pass), "each pass for ever restarts");
    check(sounded_by_next(entry_of(recalled, pass), second, pass),
          "a third pass is like the second");
}

/* What holds of a list that was made, held against the table of its message. */
static void check_list(const uint8_t *msg, size_t count, struct ohakelm_listed made,
                       const uint32_t *list)
{
    static uint32_t table[AMPLE_TABLE];
    static uint8_t title[OHAKELM_LARGEST_TITLE];
    struct ohakelm_tone tone = ohakelm_read(msg, count, table, AMPLE_TABLE, title, sizeof title);
    check(tone.refusal == 0, "what is listed is read");
    check_origins(tone, table, list, made.entries);
    check_third_pass(tone, title, table, made, list);
}

static void fuzz_list(struct input *in)
{
    size_t room = take_room(in, AMPLE_LIST);
    size_t count = take_rest(in);
    lend(&second, 4 * room, NULL, 0);
    struct ohakelm_listed made = ohakelm_list(given(&first), count, words(given(&second)), room);
    struct ohakelm_listed other = guide_list(first.theirs, count, words(second.theirs), room);
    check(same_listed(made, other), "both list alike");
    check_lent(&first);
    check_lent(&second);
    if (made.refusal != 0)
        check_untouched(&second);
    else
        check_list(first.ours, count, made, words(second.ours));
}

/* The two forms of a list agree. */
static void check_forms(const struct ohakelm_entry *rows, const uint32_t *list, size_t entries)
{
    for (size_t i = 0; i < entries; i++) {
        struct ohakelm_entry row = rows[i];
        const uint32_t *entry = entry_of(list, i);
        check(row.note * 1024 + row.scale * 256 + row.style * 16 + row.volume == entry[0] &&
                  row.microseconds == entry[1],
              "the two forms agree");
        check(row.header * 256 + row.position == entry[2] && row.position < 256,
              "their origins agree");
    }
}

static void fuzz_rows(struct input *in)
{
    size_t list_room = take_room(in, AMPLE_LIST);
    size_t rows_room = take_room(in, AMPLE_ROWS);
    size_t count = take_rest(in);
    lend(&second, 4 * list_room, NULL, 0);
    lend(&third, sizeof(struct ohakelm_entry) * rows_room, NULL, 0);
    struct ohakelm_entry *rows = (struct ohakelm_entry *)(void *)given(&third);
    struct ohakelm_listed made =
        ohakelm_rows(given(&first), count, words(given(&second)), list_room, rows, rows_room);
    struct ohakelm_listed other =
        guide_rows(first.theirs, count, words(second.theirs), list_room,
                   (struct ohakelm_entry *)(void *)third.theirs, rows_room);
    check(same_listed(made, other), "both make rows alike");
    check_lent(&first);
    check_lent(&second);
    check_lent(&third);
    if (made.refusal != 0) {
        check_untouched(&second);
        check_untouched(&third);
    }
    check_forms(rows, words(second.ours), made.entries);
}

/* The list that an edit gave is the list of the octets that it left. */
static void check_list_of(struct ohakelm_edited done)
{
    static uint32_t list[AMPLE_LIST];
    struct ohakelm_listed made = ohakelm_list(first.ours, done.length, list, AMPLE_LIST);
    check(made.refusal == 0 && made.entries == done.entries && made.mark == done.mark,
          "an edit's answer is that of its octets");
    check(same_entries(list, words(second.ours), done.entries),
          "an edit's list is that of its octets");
    check_list(first.ours, done.length, made, list);
}

/* Deleting what was inserted brings the octets back. */
static void check_undone(struct ohakelm_edited done, size_t used, size_t pattern,
                         size_t instruction)
{
    static uint32_t list[OHAKELM_LARGEST_LIST];
    struct ohakelm_edited back = ohakelm_delete(first.ours, first.octets, done.length, pattern,
                                                instruction, list, sizeof list / 4);
    check(back.refusal == 0 && back.length == used, "a deletion undoes an insertion");
    check(memcmp(first.ours, first.before, used) == 0, "it brings the octets back");
}

static void fuzz_edit(struct input *in, unsigned kind)
{
    size_t pattern = take(in, 1);
    size_t instruction = take(in, 1);
    uint32_t kind_of_entry = take(in, 1);
    uint32_t entry = kind_of_entry * 65536 + take(in, 2);
    size_t more = take(in, 1) % 8;
    size_t list_room = take_room(in, AMPLE_LIST);
    size_t used = in->left < 8192 ? in->left : 8192;
    /* Now and then the buffer ends ahead of the used length. */
    size_t room = more == 7 ? used / 2 : used + more;
    lend(&first, room, in->at, used);
    lend(&second, 4 * list_room, NULL, 0);
    uint8_t *buf = given(&first);
    uint32_t *list = words(given(&second)), *their_list = words(second.theirs);
    struct ohakelm_edited done, other;
    if (kind == 0) {
        done = ohakelm_replace(buf, room, used, pattern, instruction, entry, list, list_room);
        other = guide_replace(first.theirs, room, used, pattern, instruction, entry, their_list,
                              list_room);
    } else if (kind == 1) {
        done = ohakelm_insert(buf, room, used, pattern, instruction, entry, list, list_room);
        other = guide_insert(first.theirs, room, used, pattern, instruction, entry, their_list,
                             list_room);
    } else {
        done = ohakelm_delete(buf, room, used, pattern, instruction, list, list_room);
        other =
            guide_delete(first.theirs, room, used, pattern, instruction, their_list, list_room);
    }
    check(same_edited(done, other), "both edit alike");
    check_lent(&first);
    check_lent(&second);
    if (done.refusal != 0) {
        check_untouched(&first);
        check_untouched(&second);
        return;
    }
    check_list_of(done);
    if (kind == 1)
        check_undone(done, used, pattern, instruction);
}

#define AMPLE_LENGTHS 2048

/* The number that two octets of the first buffer are, the high one first. */
static size_t number_at(size_t octet)
{
    return first.ours[octet] * 256u + first.ours[octet + 1];
}

/* Puts a number behind some octets, the high octet first. */
static void put_number(uint8_t *octets, size_t *count, size_t number)
{
    octets[(*count)++] = (uint8_t)(number / 256);
    octets[(*count)++] = (uint8_t)number;
}

/* The rest of the input as a pack: as it is, or as messages of so many octets each
 * with what a pack has behind them. The rows of the latter are right. */
static size_t take_pack(struct input *in)
{
    static uint8_t pack[16384];
    size_t messages = take(in, 1) % 32;
    if (messages == 0)
        return take_rest(in);
    size_t lengths[32], count = 0, start = 0;
    for (size_t i = 0; i < messages; i++)
        lengths[i] = take(in, 1);
    for (size_t i = 0; i < messages; i++) {
        lengths[i] = lengths[i] < in->left ? lengths[i] : in->left;
        memcpy(pack + count, in->at, lengths[i]);
        count += lengths[i];
        in->at += lengths[i];
        in->left -= lengths[i];
    }
    size_t first_row = count;
    for (size_t i = 0; i < messages; i++) {
        put_number(pack, &count, start);
        put_number(pack, &count, lengths[i]);
        start += lengths[i];
    }
    put_number(pack, &count, messages);
    put_number(pack, &count, first_row);
    lend(&first, count, pack, count);
    return count;
}

/* The refusal of a message that stands by itself, and its place. */
static struct ohakelm_tone judged(const uint8_t *msg, size_t count)
{
    static uint32_t table[AMPLE_TABLE];
    static uint8_t title[OHAKELM_LARGEST_TITLE];
    return ohakelm_read(msg, count, table, AMPLE_TABLE, title, sizeof title);
}

/* What a pack whose rows add up is refused for is what its first message at fault
 * is refused for by itself, at the place in the pack. */
static void check_messages(size_t count, struct ohakelm_pack pack)
{
    size_t messages = number_at(count - 4), first_row = number_at(count - 2);
    for (size_t n = 0; n < messages; n++) {
        size_t start = number_at(first_row + 4 * n), length = number_at(first_row + 4 * n + 2);
        struct ohakelm_tone tone = judged(first.ours + start, length);
        if (tone.refusal == 0)
            continue;
        check(pack.refusal == tone.refusal, "a pack is refused as its first message at fault");
        check(pack.place == tone.place + 8 * start, "its place is counted in the pack");
        return;
    }
    check(pack.refusal == 0 && pack.messages == messages, "a pack of sound messages is read");
}

/* A pack that was read is written again, and each row is a message. */
static void check_pack_again(size_t count, struct ohakelm_pack pack)
{
    static uint32_t lengths[AMPLE_LENGTHS];
    static uint8_t out[16384];
    size_t first_row = number_at(count - 2);
    check(pack.messages <= AMPLE_LENGTHS, "there is room for the lengths");
    for (size_t n = 0; n < pack.messages; n++) {
        struct ohakelm_stretch message =
            ohakelm_pack_message(first.ours, count, (uint32_t)n);
        check(message.refusal == 0 && message.start == number_at(first_row + 4 * n) &&
                  message.length == number_at(first_row + 4 * n + 2),
              "a message is where its row says");
        lengths[n] = (uint32_t)message.length;
    }
    check(ohakelm_pack_message(first.ours, count, (uint32_t)pack.messages).refusal ==
              OHAKELM_NOT_THERE,
          "there are no more messages");
    struct ohakelm_written done =
        ohakelm_pack_write(first.ours, first_row, lengths, pack.messages, out, sizeof out);
    check(done.refusal == 0 && done.octets == count, "a pack that was read is written");
    check(memcmp(out, first.ours, count) == 0, "it is written to the same octets");
}

static void fuzz_pack_read(struct input *in)
{
    size_t count = take_pack(in);
    struct ohakelm_pack pack = ohakelm_pack_read(given(&first), count);
    struct ohakelm_pack other = guide_pack_read(first.theirs, count);
    check(same_pack(pack, other), "both read packs alike");
    check_lent(&first);
    bool size_or_rows = count < 4 || count > OHAKELM_LARGEST_PACK ||
                        pack.refusal == OHAKELM_PACK_SIZE || pack.refusal == OHAKELM_PACK_ROWS;
    if (!size_or_rows)
        check_messages(count, pack);
    if (pack.refusal == 0)
        check_pack_again(count, pack);
}

/* The message asked for is mostly there. */
static void fuzz_pack_message(struct input *in)
{
    uint32_t n = take(in, 1);
    if (n >= 128)
        n = take(in, 4);
    size_t count = take_pack(in);
    struct ohakelm_stretch message = ohakelm_pack_message(given(&first), count, n);
    struct ohakelm_stretch other = guide_pack_message(first.theirs, count, n);
    check(same_message(message, other), "both find messages alike");
    check_lent(&first);
    if (message.refusal == 0) {
        check(message.start + message.length <= count, "a message lies within its pack");
        check(judged(first.ours + message.start, message.length).refusal == 0,
              "a message of a pack is sound");
    } else if (message.refusal != OHAKELM_NOT_THERE) {
        struct ohakelm_pack pack = ohakelm_pack_read(given(&first), count);
        check(pack.refusal == message.refusal && pack.place == message.place,
              "it refuses what reading does");
    } else {
        check(n >= ohakelm_pack_read(first.ours, count).messages, "it is not there");
    }
}

/* The lengths come from the input, one or four octets each. */
static void fuzz_pack_write(struct input *in)
{
    static uint32_t lengths[AMPLE_LENGTHS];
    uint32_t flags = take(in, 1);
    size_t messages = flags / 2 % 64;
    size_t room = take(in, 1);
    room = room < 64 ? room : 65536;
    for (size_t n = 0; n < messages; n++)
        lengths[n] = take(in, flags & 1 ? 4 : 1);
    size_t count = take_rest(in);
    lend(&second, 4 * messages, (const uint8_t *)lengths, 4 * messages);
    lend(&third, room, NULL, 0);
    struct ohakelm_written done = ohakelm_pack_write(
        given(&first), count, words(given(&second)), messages, given(&third), room);
    struct ohakelm_written other = guide_pack_write(
        first.theirs, count, words(second.theirs), messages, third.theirs, room);
    check(same_written(done, other), "both write packs alike");
    check_lent(&first);
    check_lent(&second);
    check_lent(&third);
    if (done.refusal != 0) {
        check_untouched(&third);
        return;
    }
    struct ohakelm_pack pack = ohakelm_pack_read(third.ours, done.octets);
    check(pack.refusal == 0 && pack.messages == messages, "a pack that was written is read");
    check(done.octets == count + 4 * messages + 4 && memcmp(third.ours, first.ours, count) == 0,
          "its messages are the same");
}

/* Room for a report on 8,192 octets: a message has eight at least. */
#define AMPLE_REPORT (3 * 1024 + 1)

/* Puts zeros ahead of the first buffer, so that it ends with this octet. */
static size_t put_late(size_t count, size_t end)
{
    static uint8_t late[LARGEST];
    memset(late, 0, end - count);
    memcpy(late + end - count, first.before, count);
    lend(&first, end, late, end);
    return end;
}

/* How many octets the message has that starts with these. 0 where none does. */
static size_t message_at(const uint8_t *octets, size_t count)
{
    size_t most = count < OHAKELM_LARGEST_TONE ? count : OHAKELM_LARGEST_TONE;
    /* None starts with 0, and many zeros may be put ahead. */
    if (octets[0] == 0)
        return 0;
    struct ohakelm_tone tone = judged(octets, most);
    if (tone.refusal == OHAKELM_ACCEPTED)
        return most;
    return tone.refusal == OHAKELM_AFTER_END ? tone.place / 8 : 0;
}

/* What was gotten out of the first buffer is what the rule gives, octet by octet. */
static void check_salvage(size_t count, struct ohakelm_salvage done)
{
    const uint32_t *row = words(third.ours);
    size_t counted = count < OHAKELM_LARGEST_PACK ? count : OHAKELM_LARGEST_PACK;
    size_t at = 0, start = 0, messages = 0, skipped = 0;
    while (at < counted) {
        size_t length = message_at(first.ours + at, counted - at);
        if (length == 0) {
            at++;
            skipped++;
            continue;
        }
        check(messages++ < done.messages, "each whole message is kept");
        check(row[0] == at && row[1] == start && row[2] == length,
              "the report says where a message was and is");
        check(memcmp(second.ours + start, first.ours + at, length) == 0, "a message is the same");
        row += 3;
        at += length;
        start += length;
    }
    check(messages == done.messages, "nothing else is kept");
    check(skipped == done.skipped && *row == skipped, "each octet skipped is counted once");
    struct ohakelm_pack pack = ohakelm_pack_read(second.ours, done.octets);
    check(pack.refusal == 0 && pack.messages == messages, "the new pack is read");
}

static void fuzz_pack_salvage(struct input *in)
{
    size_t room = take(in, 1);
    room = room < 64 ? room : OHAKELM_LARGEST_PACK;
    size_t numbers = take_room(in, AMPLE_REPORT);
    /* Now and then it ends about where no octet counts any more. */
    size_t end = take(in, 1);
    size_t count = take_pack(in);
    if (end >= 240)
        count = put_late(count, OHAKELM_LARGEST_PACK + end - 248);
    lend(&second, room, NULL, 0);
    lend(&third, 4 * numbers, NULL, 0);
    struct ohakelm_salvage done = ohakelm_pack_salvage(given(&first), count, given(&second), room,
                                                       words(given(&third)), numbers);
    struct ohakelm_salvage other = guide_pack_salvage(first.theirs, count, second.theirs, room,
                                                      words(third.theirs), numbers);
    check(same_salvage(done, other), "both salvage alike");
    check_lent(&first);
    check_lent(&second);
    check_lent(&third);
    if (done.refusal == 0) {
        check_salvage(count, done);
        return;
    }
    check_untouched(&second);
    check_untouched(&third);
}

static void fuzz_bitmap_read(struct input *in)
{
    static uint8_t out[8192];
    size_t count = take_rest(in);
    struct ohakelm_bitmap bitmap = ohakelm_bitmap_read(given(&first), count);
    struct ohakelm_bitmap other = guide_bitmap_read(first.theirs, count);
    check(same_bitmap(bitmap, other), "both read bitmaps alike");
    check_lent(&first);
    if (bitmap.refusal != 0)
        return;
    struct ohakelm_written done =
        ohakelm_bitmap_write(bitmap.width, bitmap.height, first.ours + bitmap.start,
                             bitmap.length, out, sizeof out);
    check(done.refusal == 0 && done.octets == count, "a bitmap that was read is written");
    check(memcmp(out, first.ours, count) == 0, "it is written to the same octets");
}

static void fuzz_bitmap_write(struct input *in)
{
    uint32_t width = take(in, 2);
    uint32_t height = take(in, 2);
    size_t room = take_room(in, 8192);
    size_t count = take_rest(in);
    lend(&second, room, NULL, 0);
    struct ohakelm_written done =
        ohakelm_bitmap_write(width, height, given(&first), count, given(&second), room);
    struct ohakelm_written other =
        guide_bitmap_write(width, height, first.theirs, count, second.theirs, room);
    check(same_written(done, other), "both write bitmaps alike");
    check_lent(&first);
    check_lent(&second);
    if (done.refusal != 0)
        check_untouched(&second);
}

static void fuzz_icon_read(struct input *in)
{
    static uint8_t out[8192];
    size_t count = take_rest(in);
    struct ohakelm_bitmap icon = ohakelm_icon_read(given(&first), count);
    struct ohakelm_bitmap other = guide_icon_read(first.theirs, count);
    check(same_bitmap(icon, other), "both read icons alike");
    check_lent(&first);
    if (icon.refusal != 0)
        return;
    struct ohakelm_bitmap plain = ohakelm_bitmap_read(first.ours + 1, count - 1);
    plain.start++;
    check(same_bitmap(icon, plain), "a bitmap is behind the version");
    struct ohakelm_written done = ohakelm_icon_write(
        icon.width, icon.height, first.ours + icon.start, icon.length, out, sizeof out);
    check(done.refusal == 0 && done.octets == count, "an icon that was read is written");
    check(memcmp(out, first.ours, count) == 0, "it is written to the same octets");
}

static void fuzz_icon_write(struct input *in)
{
    uint32_t width = take(in, 2);
    uint32_t height = take(in, 2);
    size_t room = take_room(in, 8192);
    size_t count = take_rest(in);
    lend(&second, room, NULL, 0);
    struct ohakelm_written done =
        ohakelm_icon_write(width, height, given(&first), count, given(&second), room);
    struct ohakelm_written other =
        guide_icon_write(width, height, first.theirs, count, second.theirs, room);
    check(same_written(done, other), "both write icons alike");
    check_lent(&first);
    check_lent(&second);
    if (done.refusal != 0) {
        check_untouched(&second);
        return;
    }
    struct ohakelm_bitmap icon = ohakelm_icon_read(second.ours, done.octets);
    check(icon.refusal == 0 && icon.width == width && icon.height == height,
          "an icon that was written is read");
    check(icon.length == count && memcmp(second.ours + icon.start, first.ours, count) == 0,
          "its image is the same");
}

static void fuzz_logo_read(struct input *in)
{
    static uint8_t out[8192];
    size_t count = take_rest(in);
    const uint8_t *msg = first.ours;
    struct ohakelm_logo logo = ohakelm_logo_read(given(&first), count);
    struct ohakelm_logo other = guide_logo_read(first.theirs, count);
    check(same_logo(logo, other), "both read logos alike");
    check_lent(&first);
    if (logo.refusal != 0)
        return;
    struct ohakelm_written done = ohakelm_logo_write(
        msg + logo.mcc_start, logo.mcc_length, msg + logo.mnc_start, logo.mnc_length,
        msg + logo.date_start, logo.date_length, logo.width, logo.height, msg + logo.start,
        logo.length, out, sizeof out);
    check(done.refusal == 0 && done.octets == count, "a logo that was read is written");
    check(memcmp(out, msg, count) == 0, "it is written to the same octets");
}

/* Whether a stretch of the second buffer has a buffer's octets. */
static bool same_stretch(size_t start, size_t length, const struct lent *lent)
{
    return length == lent->octets && memcmp(second.ours + start, lent->ours, length) == 0;
}

/* What was written is read again to the same parts. */
static void check_logo_again(struct ohakelm_written done, uint32_t width, uint32_t height)
{
    struct ohakelm_logo logo = ohakelm_logo_read(second.ours, done.octets);
    check(logo.refusal == 0 && logo.width == width && logo.height == height,
          "a logo that was written is read");
    check(same_stretch(logo.start, logo.length, &first), "its image is the same");
    check(same_stretch(logo.mcc_start, logo.mcc_length, &third), "its MCC is the same");
    check(same_stretch(logo.mnc_start, logo.mnc_length, &fourth), "its MNC is the same");
    check(same_stretch(logo.date_start, logo.date_length, &fifth), "its date is the same");
}

static void fuzz_logo_write(struct input *in)
{
    uint32_t width = take(in, 2);
    uint32_t height = take(in, 2);
    size_t room = take_logo_room(in);
    size_t mcc = take(in, 1) % 8;
    size_t mnc = take(in, 1) % 8;
    size_t date = take(in, 1) % 32;
    mcc = take_octets(in, &third, mcc);
    mnc = take_octets(in, &fourth, mnc);
    date = take_octets(in, &fifth, date);
    size_t count = take_rest(in);
    lend(&second, room, NULL, 0);
    struct ohakelm_written done =
        ohakelm_logo_write(given(&third), mcc, given(&fourth), mnc, given(&fifth), date, width,
                           height, given(&first), count, given(&second), room);
    struct ohakelm_written other =
        guide_logo_write(third.theirs, mcc, fourth.theirs, mnc, fifth.theirs, date, width, height,
                         first.theirs, count, second.theirs, room);
    check(same_written(done, other), "both write logos alike");
    check_lent(&first);
    check_lent(&second);
    check_lent(&third);
    check_lent(&fourth);
    check_lent(&fifth);
    if (done.refusal != 0)
        check_untouched(&second);
    else
        check_logo_again(done, width, height);
}

int LLVMFuzzerTestOneInput(const uint8_t *data, size_t size);

int LLVMFuzzerTestOneInput(const uint8_t *data, size_t size)
{
    struct input in = {data, size};
    uint32_t number = take(&in, 1);
    null_for_nothing = number / 18 % 2 == 1;
    switch (number % 18) {
    case 0: fuzz_read(&in); break;
    case 1: fuzz_write(&in); break;
    case 2: fuzz_label(&in); break;
    case 3: fuzz_list(&in); break;
    case 4: fuzz_rows(&in); break;
    case 5: fuzz_edit(&in, 0); break;
    case 6: fuzz_edit(&in, 1); break;
    case 7: fuzz_edit(&in, 2); break;
    case 8: fuzz_bitmap_read(&in); break;
    case 9: fuzz_bitmap_write(&in); break;
    case 10: fuzz_icon_read(&in); break;
    case 11: fuzz_icon_write(&in); break;
    case 12: fuzz_logo_read(&in); break;
    case 13: fuzz_logo_write(&in); break;
    case 14: fuzz_pack_read(&in); break;
    case 15: fuzz_pack_message(&in); break;
    case 16: fuzz_pack_write(&in); break;
    default: fuzz_pack_salvage(&in); break;
    }
    return 0;
}
