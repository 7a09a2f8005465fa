/* The refusals: their numbers, their names, and the words of the rules' table. */
#include "check.h"

struct refusal {
    uint32_t number;
    uint32_t name;
    const char *words;
};

/* As the rules have them. 19 is no longer given, and 22 to 25 are not given yet. */
static const struct refusal expected[] = {
    {1, OHAKELM_TOO_LONG,
     "an edit's used length beyond its lent buffer, a tone above 4,096 octets, or a pack above "
     "65,535 octets"},
    {2, OHAKELM_CUT_SHORT, "the input stops inside or before a due element"},
    {3, OHAKELM_COMMAND, "command length not 2 or 3, or not the part due"},
    {4, OHAKELM_SONG_TYPE, "another song type"},
    {5, OHAKELM_NO_PATTERN, "pattern count zero"},
    {6, OHAKELM_CODE, "an id not due, or a code not in the instruction table"},
    {7, OHAKELM_NO_RECALL, "a recall with nothing earlier of that id"},
    {8, OHAKELM_FILLER, "a filler bit is 1"},
    {9, OHAKELM_END_OCTET, "end octet not 00"},
    {10, OHAKELM_AFTER_END, "octets after the end"},
    {11, OHAKELM_NO_ROOM, "a lent output is too small"},
    {12, OHAKELM_NOT_THERE, "no such pattern, instruction or message, or a recall"},
    {13, OHAKELM_ONLY_ONE, "deleting a part's only instruction"},
    {14, OHAKELM_FULL_PART, "inserting into a part of 255"},
    {15, OHAKELM_BITMAP_HEADER, "bitmap header outside the rules"},
    {16, OHAKELM_IMAGE_LENGTH, "bitmap image of another length"},
    {17, OHAKELM_TITLE,
     "written title above 15 characters, odd octets under UNICODE, or not empty in a "
     "temporary song"},
    {18, OHAKELM_TABLE_SHAPE,
     "table shape: a header where an instruction is due or the reverse, a body cut short, "
     "more than 255 patterns"},
    {20, OHAKELM_AHEAD,
     "an octet ahead of a bitmap that its kind does not have there: version, network code "
     "digit, date, line feed"},
    {21, OHAKELM_CHARACTER, "a title character 0 to 31 or 127 to 159"},
    {26, OHAKELM_PACK_SIZE, "first row start, rows and four octets do not add up to the pack"},
    {27, OHAKELM_PACK_ROWS,
     "a row that does not continue the one before, or lengths that do not add up"},
};

/* As the header's list has them. */
#define ROW(number, name, words) {number, name, words},
static const struct refusal listed[] = {OHAKELM_REFUSALS(ROW)};
#undef ROW

static bool same(const char *one, const char *two)
{
    return strcmp(one, two) == 0;
}

int main(void)
{
    CHECK(sizeof expected / sizeof expected[0] == 22);
    CHECK(sizeof listed == sizeof expected);
    for (uint32_t i = 0; i < 22; i++) {
        uint32_t number = expected[i].number;
        CHECK(expected[i].name == number);
        CHECK(listed[i].number == number && listed[i].name == number);
        CHECK(same(listed[i].words, expected[i].words));
        CHECK(same(ohakelm_words(number), expected[i].words));
    }
    enum ohakelm_refusal accepted = OHAKELM_ACCEPTED;
    CHECK(accepted == 0 && same(ohakelm_words(0), "accepted"));
    CHECK(same(ohakelm_words(19), "no refusal of this version"));
    CHECK(same(ohakelm_words(22), "no refusal of this version"));
    CHECK(same(ohakelm_words(25), "no refusal of this version"));
    CHECK(same(ohakelm_words(28), "no refusal of this version"));
    CHECK(same(ohakelm_words(4294967295u), "no refusal of this version"));
    return failed;
}
