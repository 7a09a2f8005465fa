/* Ringing tones and packs of them, OTA bitmaps, CLI icons and operator logos of
 * Nokia Smart Messaging 1.0.0. The library is written and proved in Rattle.
 *
 * WHAT TO LINK. There are three archives, each named libohakelm.a: for x86-64
 * with Linux or Android, for 64-bit Arm with Linux, and for 64-bit Arm with
 * Android. An archive needs memmove and memset of the C library and nothing
 * else. It may be linked into a program or a shared library.
 *
 * THREADS. Calls share nothing. They keep nothing, use no heap and no lock, and
 * have no variables of their own, so they may run in as many threads as there
 * are, and in a signal handler, as long as each has what it lends to itself.
 *
 * STACK. The constants OHAKELM_STACK_.. say how much a call needs.
 *
 * ANSWERS. Each call but ohakelm_version answers a struct by value. `refusal`
 * is 0 where the call accepted. On a refusal it is one of the numbers below,
 * every number but `refusal` and `place` is 0, and nothing lent has changed.
 * `place` is the bit of the tone message where the faulty element begins,
 * counted from 0, for the refusals 2 to 10 and 21 met in a tone message. In a
 * pack it is counted from the pack's first bit, and 1 for a message in a pack
 * has the bit where the message starts. It is 0 for all others. Where a call
 * accepts, what lies beyond the part that it fills is unchanged.
 *
 * Compare answers and rows field by field and not octet by octet: the octets
 * between their fields mean nothing.
 *
 * POINTERS. A pointer is followed by the number of elements behind it, which
 * are octets only where the type says so. The memory is the caller's, is
 * aligned for its type, and is written by nobody else until the call returns. A
 * pointer to const is only read. What is behind any other pointer is lent: it
 * must overlap nothing else that is passed. Two inputs may overlap each other.
 *
 * With the number 0 nothing is read or written through the pointer, and it may
 * be null.
 *
 * A bool is 0 or 1, and C makes no other. Where another language hands over
 * another octet, its lowest bit decides.
 *
 * Nothing checks any of this at the border: the proofs begin behind it.
 *
 * A TABLE ENTRY is kind * 65536 + payload. A header has kind 0 and the payload
 * id * 4096 + loop * 256 + specifier. Instructions have the kinds 1 note, 2
 * scale, 3 style, 4 tempo and 5 volume, and their bits after the id as payload.
 * Macros put an entry together and take it apart.
 *
 * A TITLE has up to 15 characters, each an octet of ISO-8859-1 or, under
 * UNICODE, 16 bits with the high octet first. The characters 0 to 31 and 127 to
 * 159 are refused. Under UNICODE the 16 bits are judged as one number: 0009 is
 * refused, and 0900 is not.
 *
 * A LIST has three numbers an entry: note * 1024 + scale * 256 + style * 16 +
 * volume, the duration in microseconds, and the origin. To play it, go through
 * the whole list, and then for ever from the entry that `mark` names to the
 * end. Where `mark` is OHAKELM_NO_MARK, the tone ends with the list.
 *
 * AN ORIGIN says which instruction sounds: header * 256 + position. The header
 * is the position in the message of the pattern that sounds. The position is
 * the instruction's in the body played. Both are counted from 0; settings count
 * like notes, and each pass begins at 0 again. Macros take an origin apart. The
 * edits take both numbers as they are, as `pattern` and `instruction`, where
 * the pattern has a body of its own. A recall plays the body of the nearest
 * earlier pattern of its id that has one. Its entries have the recall's header,
 * and an edit there is refused 12.
 *
 * DURATIONS do not drift. A quarter is a beat, 60,000,000 / beats microseconds,
 * which may be no whole number. Counted from the last restart, the boundaries
 * of entries are the exact sums rounded down, and a duration is the difference
 * of two. So notes that are alike may differ by one microsecond. The sums
 * restart at the start of the tone, at each tempo instruction, also at one that
 * sets the tempo in force, and at the start of each pass of an endless part.
 * Nothing else restarts them. Pauses count like notes.
 *
 * AN ENDLESS PART is one with loop 15, or recalled with it. Two passes of it
 * are listed and nothing behind them, and `mark` names the first entry of the
 * second. Settings carry on from the first pass into the second. So a part that
 * ends with a volume may be loud in the first pass and soft in the second. Each
 * later pass is like the second, its durations too. Where a pass has no note
 * and no pause, there is no entry to return to, and no mark.
 *
 * A PACK has tone messages back to back from octet 0. Behind them is a row for
 * each message, in the same order: two octets of start and two of length. Then
 * two octets say how many messages there are, and the last two where the first
 * row starts. All numbers have the high octet first. A pack has at most 65,535
 * octets. The one without a message is four octets of 0.
 *
 * A BITMAP is the info octet 00, the width, the height, the depth 01 and the
 * image. An ICON is the version, which is the character 0, and a bitmap. A LOGO
 * is that version, three digits of mobile country code (MCC), two digits of
 * mobile network code (MNC), the date until which it is valid, a line feed and
 * a bitmap. The date is eight digits; or these, T and six digits; or all that
 * and Z. Any digits will do: there is no calendar. Characters are ASCII.
 * What some later tools send is none of these and is refused: a logo with an
 * MNC of three digits, or with codes in half octets and no date. An icon
 * without its version is a bitmap.
 */
#ifndef OHAKELM_H
#define OHAKELM_H

#if !defined(__linux__) || !defined(__LP64__) ||                               \
    !(defined(__x86_64__) || defined(__AARCH64EL__))
#error "libohakelm.a is for Linux and Android on x86-64 and on 64-bit Arm"
#endif

#include <stdbool.h>
#include <stddef.h>
#include <stdint.h>

#ifdef __cplusplus
extern "C" {
#endif

/* ---- The version */

/* While the first number is 0, the second is raised where a call, a struct, a
 * refusal or a rule is new or another; CHANGELOG.md says what a caller must
 * change then. The third is raised where none is. A header goes with an archive
 * of the same first two numbers. */
#define OHAKELM_VERSION_STRING "0.10.0"
#define OHAKELM_VERSION 1000 /* first * 10000 + second * 100 + third */

/* Answers the OHAKELM_VERSION of the archive that is linked. */
uint32_t ohakelm_version(void);

/* ---- Refusals */

/* Each refusal: its number, its name and its words. */
#define OHAKELM_REFUSALS(ITEM)                                                 \
    ITEM(1, OHAKELM_TOO_LONG,                                                  \
         "an edit's used length beyond its lent buffer, a tone above 4,096 "   \
         "octets, or a pack above 65,535 octets")                              \
    ITEM(2, OHAKELM_CUT_SHORT,                                                 \
         "the input stops inside or before a due element")                     \
    ITEM(3, OHAKELM_COMMAND, "command length not 2 or 3, or not the part due") \
    ITEM(4, OHAKELM_SONG_TYPE, "another song type")                            \
    ITEM(5, OHAKELM_NO_PATTERN, "pattern count zero")                          \
    ITEM(6, OHAKELM_CODE,                                                      \
         "an id not due, or a code not in the instruction table")              \
    ITEM(7, OHAKELM_NO_RECALL, "a recall with nothing earlier of that id")     \
    ITEM(8, OHAKELM_FILLER, "a filler bit is 1")                               \
    ITEM(9, OHAKELM_END_OCTET, "end octet not 00")                             \
    ITEM(10, OHAKELM_AFTER_END, "octets after the end")                        \
    ITEM(11, OHAKELM_NO_ROOM, "a lent output is too small")                    \
    ITEM(12, OHAKELM_NOT_THERE,                                                \
         "no such pattern, instruction or message, or a recall")               \
    ITEM(13, OHAKELM_ONLY_ONE, "deleting a part's only instruction")           \
    ITEM(14, OHAKELM_FULL_PART, "inserting into a part of 255")                \
    ITEM(15, OHAKELM_BITMAP_HEADER, "bitmap header outside the rules")         \
    ITEM(16, OHAKELM_IMAGE_LENGTH, "bitmap image of another length")           \
    ITEM(17, OHAKELM_TITLE,                                                    \
         "written title above 15 characters, odd octets under UNICODE, or "    \
         "not empty in a temporary song")                                      \
    ITEM(18, OHAKELM_TABLE_SHAPE,                                              \
         "table shape: a header where an instruction is due or the "           \
         "reverse, a body cut short, more than 255 patterns")                  \
    ITEM(20, OHAKELM_AHEAD,                                                    \
         "an octet ahead of a bitmap that its kind does not have there: "      \
         "version, network code digit, date, line feed")                       \
    ITEM(21, OHAKELM_CHARACTER, "a title character 0 to 31 or 127 to 159")     \
    ITEM(26, OHAKELM_PACK_SIZE,                                                \
         "first row start, rows and four octets do not add up to the pack")    \
    ITEM(27, OHAKELM_PACK_ROWS,                                                \
         "a row that does not continue the one before, or lengths that do "    \
         "not add up")

/* OHAKELM_TOO_LONG is 1, and so on. 19 is no longer given, and no other refusal
 * takes it: it stood for a duration above 32 bits, and it is proved that no
 * duration exceeds 16,800,000 microseconds. 22 to 25 are not given yet. */
enum ohakelm_refusal {
#define OHAKELM_ITEM(number, name, words) name = number,
    OHAKELM_REFUSALS(OHAKELM_ITEM)
#undef OHAKELM_ITEM
    OHAKELM_ACCEPTED = 0
};

/* What is wrong, in words. They are for a log: match on the number. */
static inline const char *ohakelm_words(uint32_t refusal)
{
    switch (refusal) {
    case OHAKELM_ACCEPTED:
        return "accepted";
#define OHAKELM_ITEM(number, name, words)                                      \
    case number:                                                               \
        return words;
        OHAKELM_REFUSALS(OHAKELM_ITEM)
#undef OHAKELM_ITEM
    default:
        return "no refusal of this version";
    }
}

/* ---- What to lend at most */

/* With so much lent no call refuses OHAKELM_NO_ROOM. That is proved, in
 * crates/ohakelm/proofs/Room.antt. */
#define OHAKELM_LARGEST_TITLE 30     /* octets: 15 characters of two */
#define OHAKELM_LARGEST_TABLE 6482   /* table entries */
#define OHAKELM_LARGEST_TONE 4096    /* octets of a tone message */
#define OHAKELM_LARGEST_ROWS 975375  /* entries of a list, as records */
#define OHAKELM_LARGEST_LIST 2926125 /* numbers of a list, three an entry */
#define OHAKELM_LARGEST_BITMAP 7909  /* octets */
#define OHAKELM_LARGEST_ICON 7910
#define OHAKELM_LARGEST_LOGO 7932
#define OHAKELM_LARGEST_PACK 65535
#define OHAKELM_LARGEST_REPORT 16381 /* numbers: 5,460 messages, and one */

/* The largest list is that of a part of 255 notes with 254 recalls, all with
 * loop 14, and takes 11.7 million octets; an endless part adds two passes only.
 * Where that is too much to lend, lend what a tone is to have: OHAKELM_NO_ROOM
 * then says that one has more. */

/* How many octets of stack a call needs at most, those of memmove and memset not
 * counted: getting messages out of a broken pack; the edits; the other calls of
 * packs; reading, writing and listing a tone; all others. */
#define OHAKELM_STACK_SALVAGE 24576
#define OHAKELM_STACK_EDITS 6144
#define OHAKELM_STACK_PACKS 2048
#define OHAKELM_STACK_TONES 1024
#define OHAKELM_STACK_OTHERS 512

/* ---- Table entries and list entries */

enum ohakelm_song { OHAKELM_BASIC = 1, OHAKELM_TEMPORARY = 2 };

enum ohakelm_kind {
    OHAKELM_KIND_HEADER = 0,
    OHAKELM_KIND_NOTE = 1,
    OHAKELM_KIND_SCALE = 2,
    OHAKELM_KIND_STYLE = 3,
    OHAKELM_KIND_TEMPO = 4,
    OHAKELM_KIND_VOLUME = 5
};

/* An entry put together, of codes that are not negative. An id is 0 for A to 3
 * for D, a specifier the number of instructions that follow or 0 for a recall.
 * These are constant where the codes are. */
#define OHAKELM_HEADER(id, loop, specifier)                                    \
    ((id) * 4096u + (loop) * 256u + (specifier))
#define OHAKELM_NOTE(note, duration, specifier)                                \
    (1u * 65536u + (note) * 32u + (duration) * 4u + (specifier))
#define OHAKELM_SCALE(code) (2u * 65536u + (code))
#define OHAKELM_STYLE(code) (3u * 65536u + (code))
#define OHAKELM_TEMPO(code) (4u * 65536u + (code))
#define OHAKELM_VOLUME(code) (5u * 65536u + (code))

/* An entry taken apart. The payload of a scale, a style, a tempo or a volume is
 * its code. */
#define OHAKELM_KIND(entry) ((entry) / 65536u)
#define OHAKELM_PAYLOAD(entry) ((entry) % 65536u)
#define OHAKELM_HEADER_ID(header) ((header) / 4096u % 4u)
#define OHAKELM_HEADER_LOOP(header) ((header) / 256u % 16u)
#define OHAKELM_HEADER_SPECIFIER(header) ((header) % 256u)
#define OHAKELM_NOTE_VALUE(note) ((note) / 32u % 16u)
#define OHAKELM_NOTE_DURATION(note) ((note) / 4u % 8u)
#define OHAKELM_NOTE_SPECIFIER(note) ((note) % 4u)

/* How many numbers of a list an entry takes. */
#define OHAKELM_ENTRY_CELLS 3

/* The first number of a list's entry taken apart. */
#define OHAKELM_LISTED_NOTE(first) ((first) / 1024u)
#define OHAKELM_LISTED_SCALE(first) ((first) / 256u % 4u)
#define OHAKELM_LISTED_STYLE(first) ((first) / 16u % 16u)
#define OHAKELM_LISTED_VOLUME(first) ((first) % 16u)

/* The third one, the origin, taken apart. */
#define OHAKELM_LISTED_HEADER(origin) ((origin) / 256u)
#define OHAKELM_LISTED_POSITION(origin) ((origin) % 256u)

/* A list that returns nowhere has this mark. Any other is the position of an
 * entry, counted from 0, which begins at list[OHAKELM_ENTRY_CELLS * mark]. */
#define OHAKELM_NO_MARK 4294967295u

/* ---- Answers */

struct ohakelm_tone {
    uint32_t refusal;
    size_t place;
    uint32_t song;     /* 1 basic, 2 temporary */
    bool unicode;      /* whether a title character has two octets */
    size_t characters; /* of the title */
    size_t patterns;
    size_t entries; /* table cells filled */
};

struct ohakelm_written {
    uint32_t refusal;
    size_t place;
    size_t octets; /* octets written */
};

/* It never refuses, so it has no number for that. */
struct ohakelm_label_stretch {
    bool stand_in; /* whether the stand-in name supplies the label */
    size_t start;  /* the label's first octet in that buffer */
    size_t length; /* the label's octets */
};

struct ohakelm_listed {
    uint32_t refusal;
    size_t place;
    size_t entries; /* entries made */
    uint32_t mark;  /* the entry to return to, or OHAKELM_NO_MARK */
};

struct ohakelm_edited {
    uint32_t refusal;
    size_t place;
    size_t length;  /* the new message's octets */
    size_t entries; /* entries of the new list */
    uint32_t mark;  /* the entry to return to, or OHAKELM_NO_MARK */
    int32_t change; /* the new length minus the old one */
};

struct ohakelm_pack {
    uint32_t refusal;
    size_t place;
    size_t messages; /* how many there are */
};

struct ohakelm_stretch {
    uint32_t refusal;
    size_t place;
    size_t start;  /* the message's first octet in the pack */
    size_t length; /* the message's octets */
};

struct ohakelm_salvage {
    uint32_t refusal;
    size_t place;
    size_t messages; /* how many were kept */
    size_t octets;   /* the new pack's octets */
    size_t skipped;  /* octets in no message kept */
};

struct ohakelm_bitmap {
    uint32_t refusal;
    size_t place;
    uint32_t width;
    uint32_t height;
    uint32_t black; /* black pixels */
    size_t start;   /* the image's first octet in the message */
    size_t length;  /* the image's octets */
};

struct ohakelm_logo {
    uint32_t refusal;
    size_t place;
    uint32_t width;
    uint32_t height;
    uint32_t black;     /* black pixels */
    size_t start;       /* the image's first octet in the message */
    size_t length;      /* the image's octets */
    size_t mcc_start;   /* the country code's first octet in the message */
    size_t mcc_length;  /* 3 */
    size_t mnc_start;   /* the network code's first octet in the message */
    size_t mnc_length;  /* 2 */
    size_t date_start;  /* the date's first octet in the message */
    size_t date_length; /* 8, 15 or 16 */
};

/* One entry of a list, as a record. */
struct ohakelm_entry {
    uint32_t note; /* 0 a pause, 1 C to 12 H */
    uint32_t scale;
    uint32_t style;
    uint32_t volume;
    uint32_t microseconds;
    uint32_t header;   /* the position of the header that sounds */
    uint32_t position; /* the instruction's in the body played */
};

/* ---- Tones */

/* Reads a tone message. Fills the front of `table` with its entries and the
 * front of `title` with its title's octets. Answers the song type, whether
 * UNICODE is set, and how many title characters, patterns and table entries
 * there are. Refuses 1 to 11 and 21. */
struct ohakelm_tone ohakelm_read(const uint8_t *msg, size_t msg_len,
                                 uint32_t *table, size_t table_len,
                                 uint8_t *title, size_t title_len);

/* Writes a tone message from a song type, a title and a table. Fills the front
 * of `out` with it. Answers the octets written. Refuses 4, 17, 21, 6, 18, 7, 5,
 * 1 and 11, all at place 0. */
struct ohakelm_written ohakelm_write(uint32_t song, bool unicode,
                                     const uint8_t *title, size_t title_len,
                                     const uint32_t *table, size_t table_len,
                                     uint8_t *out, size_t out_len);

/* Finds the label for the screen: the title without its trailing spaces, or
 * the stand-in name where nothing is left or the octets are odd under UNICODE.
 * It takes any octets, also characters that the title of a tone may not have.
 * Changes nothing. Answers which buffer supplies it and which stretch of it. */
struct ohakelm_label_stretch ohakelm_label(const uint8_t *title,
                                           size_t title_len, bool unicode,
                                           const uint8_t *stand_in,
                                           size_t stand_in_len);

/* Makes the playing list of a tone message. Fills the front of `list`, three
 * numbers an entry. `list_len` counts numbers and not entries: twelve, and also
 * fourteen, have room for four entries. An endless part needs room for both
 * passes. Answers how many entries there are and to which of them the list
 * returns. Refuses 1 to 11 and 21. */
struct ohakelm_listed ohakelm_list(const uint8_t *msg, size_t msg_len,
                                   uint32_t *list, size_t list_len);

/* The same list in both forms. Fills the front of `list` and the front of
 * `rows`, one record an entry. `list_len` counts numbers, `rows_len` records.
 * Refuses as ohakelm_list does, and 11 if either is too small. */
struct ohakelm_listed ohakelm_rows(const uint8_t *msg, size_t msg_len,
                                   uint32_t *list, size_t list_len,
                                   struct ohakelm_entry *rows,
                                   size_t rows_len);

/* ---- Edits */

/* Puts another instruction in an instruction's place. `buf` holds a message in
 * its first `used` octets. `pattern` and `instruction` are positions from 0,
 * and `entry` is the new instruction as a table entry. Changes the message in
 * `buf`, clears octets from the new length up to the old one, and fills the
 * front of `list` with the new list. `buf_len` is the whole buffer's, so that
 * the message can grow; `list_len` counts numbers and not entries. Answers the
 * new length, the list's entries and mark, and the change in octets. Refuses 1
 * to 12 and 21. */
struct ohakelm_edited ohakelm_replace(uint8_t *buf, size_t buf_len, size_t used,
                                      size_t pattern, size_t instruction,
                                      uint32_t entry, uint32_t *list,
                                      size_t list_len);

/* Inserts an instruction before the one named, or behind the last one where
 * `instruction` is their count. All else is as in ohakelm_replace. Refuses 14
 * too. */
struct ohakelm_edited ohakelm_insert(uint8_t *buf, size_t buf_len, size_t used,
                                     size_t pattern, size_t instruction,
                                     uint32_t entry, uint32_t *list,
                                     size_t list_len);

/* Deletes an instruction. All else is as in ohakelm_replace. Refuses 13 too. */
struct ohakelm_edited ohakelm_delete(uint8_t *buf, size_t buf_len, size_t used,
                                     size_t pattern, size_t instruction,
                                     uint32_t *list, size_t list_len);

/* ---- Packs */

/* Reads a pack, its messages too. Changes nothing. Answers how many messages
 * there are. Refuses 1, 2, 26 and 27, in this order, and then what ohakelm_read
 * refuses in the first message at fault, but for 11. It is 1 where the pack has
 * more than 65,535 octets, 2 where it has fewer than four, and 26 where the
 * first row's start, four octets a row and the last four octets do not add up
 * to its length. It is 27 where the first row does not start at 0, a row not
 * where the one before ends, or the last does not end where the rows begin;
 * without rows, where the first row's start is not 0. A row of length 0
 * continues, and its message is refused 2. */
struct ohakelm_pack ohakelm_pack_read(const uint8_t *pack, size_t pack_len);

/* Finds the message `n` of a pack, counted from 0. Changes nothing. Answers the
 * stretch of the pack that it is. Refuses as ohakelm_pack_read does, and then
 * 12 where there is no such message.
 * Each call judges the whole pack. To go through all messages, read the pack
 * once and go along its rows: it is proved that in a pack that was accepted the
 * row `n`, which is four octets at the first row's start + 4 * n, has the start
 * and the length of the stretch that this call answers. */
struct ohakelm_stretch ohakelm_pack_message(const uint8_t *pack,
                                            size_t pack_len, uint32_t n);

/* Writes a pack from its messages, back to back, and a row of their lengths in
 * octets. Fills the front of `out` with it. Answers the octets written. Refuses
 * 1 where the octets, four for each length and four more are above 65,535; 27
 * where the lengths do not add up to the octets; then what ohakelm_read refuses
 * in the first message at fault, but for 11, at the place that it would have in
 * the pack; and 11. `lengths_len` counts lengths and not octets. */
struct ohakelm_written ohakelm_pack_write(const uint8_t *msgs, size_t msgs_len,
                                          const uint32_t *lengths,
                                          size_t lengths_len, uint8_t *out,
                                          size_t out_len);

/* Gets the messages out of a broken pack. From octet 0: where a whole message
 * starts, with its end octet, and is well formed, it is kept, and it goes on
 * behind it; else one octet is skipped. Only the first 65,535 octets count, and
 * a message that runs past them is not whole. Fills the front of `out` with a
 * new pack of the messages kept, and the front of `report` with three numbers
 * for each of them: its start in `pack`, its start in the new pack, and its
 * length. The number behind these is the octets skipped. Answers how many
 * messages were kept, the new pack's octets and the octets skipped. Refuses 1
 * where the new pack has more than 65,535 octets, and then 11 if `out` or
 * `report` is too small, both at place 0. `report_len` counts numbers and not
 * messages.
 * Nothing but the messages is looked at, so any octets will do. Those of a
 * pack's own rows count as skipped, but for some that happen to be a message.
 * It is proved that the messages of a sound pack, if it is not refused, are the
 * first ones kept. */
struct ohakelm_salvage ohakelm_pack_salvage(const uint8_t *pack,
                                            size_t pack_len, uint8_t *out,
                                            size_t out_len, uint32_t *report,
                                            size_t report_len);

/* ---- Bitmaps, icons and logos */

/* Reads a bitmap. Changes nothing. Answers its sizes, its black pixels and the
 * stretch of the message that is the image. Refuses 2, 15 and 16, all at place
 * 0. */
struct ohakelm_bitmap ohakelm_bitmap_read(const uint8_t *msg, size_t msg_len);

/* Writes a bitmap from its sizes and its image. Fills the front of `out` with
 * it. Answers the octets written. Refuses 15, 16 and 11, all at place 0. */
struct ohakelm_written ohakelm_bitmap_write(uint32_t width, uint32_t height,
                                            const uint8_t *image,
                                            size_t image_len, uint8_t *out,
                                            size_t out_len);

/* Reads an icon. Changes nothing. Answers its sizes, its black pixels and the
 * stretch of the message that is the image. Refuses 2, 20, 15 and 16, in this
 * order and all at place 0. It is 2 where the version and the bitmap's four
 * octets of header are not all there. */
struct ohakelm_bitmap ohakelm_icon_read(const uint8_t *msg, size_t msg_len);

/* Writes an icon from its sizes and its image. Fills the front of `out` with
 * it. Answers the octets written. Refuses 15, 16 and 11, in this order and all
 * at place 0. */
struct ohakelm_written ohakelm_icon_write(uint32_t width, uint32_t height,
                                          const uint8_t *image,
                                          size_t image_len, uint8_t *out,
                                          size_t out_len);

/* Reads a logo. Changes nothing. Answers its sizes, its black pixels and the
 * stretches of the message that are the image, the two codes and the date.
 * Octet 14, counted from 0, tells whether the date has a time: it is T then.
 * Octet 21 tells whether that time has a Z. Refuses 2, 20, 15 and 16, in this
 * order and all at place 0. It is 2 where the part ahead, as long as these two
 * octets make it, and the bitmap's four octets of header are not all there. */
struct ohakelm_logo ohakelm_logo_read(const uint8_t *msg, size_t msg_len);

/* Writes a logo from its codes, its date, its sizes and its image. Fills the
 * front of `out` with it. Answers the octets written. Refuses 20, 15, 16 and
 * 11, in this order and all at place 0. It is 20 where `mcc` is not three
 * digits, `mnc` not two, or `date` none of the three forms. */
struct ohakelm_written ohakelm_logo_write(const uint8_t *mcc, size_t mcc_len,
                                          const uint8_t *mnc, size_t mnc_len,
                                          const uint8_t *date, size_t date_len,
                                          uint32_t width, uint32_t height,
                                          const uint8_t *image,
                                          size_t image_len, uint8_t *out,
                                          size_t out_len);

#ifdef __cplusplus
}
#endif

#endif
