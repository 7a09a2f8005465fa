// What is constant, where C++ asks for a constant.
#include <array>
#include <type_traits>

#include "check.h"

static_assert(OHAKELM_HEADER(0, 0, 2) == 2, "a part of two");
static_assert(OHAKELM_HEADER(3, 15, 255) == 16383, "the last header");
static_assert(OHAKELM_NOTE(10, 2, 0) == 65864, "A, a quarter");
static_assert(OHAKELM_SCALE(0) == 131072, "scale 0");
static_assert(OHAKELM_STYLE(2) == 196610, "staccato");
static_assert(OHAKELM_TEMPO(14) == 262158, "125 beats");
static_assert(OHAKELM_VOLUME(7) == 327687, "volume 7");
static_assert(OHAKELM_KIND(262158) == OHAKELM_KIND_TEMPO, "its kind");
static_assert(OHAKELM_PAYLOAD(262158) == 14, "its code");
static_assert(OHAKELM_HEADER_ID(16383) == 3, "the part D");
static_assert(OHAKELM_HEADER_LOOP(16383) == 15, "for ever");
static_assert(OHAKELM_HEADER_SPECIFIER(16383) == 255, "a full part");
static_assert(OHAKELM_NOTE_VALUE(65864) == 10, "A");
static_assert(OHAKELM_NOTE_DURATION(65864) == 2, "a quarter");
static_assert(OHAKELM_NOTE_SPECIFIER(65943) == 3, "two thirds");
static_assert(OHAKELM_LISTED_NOTE(10503) == 10, "A");
static_assert(OHAKELM_LISTED_SCALE(10503) == 1, "scale 1");
static_assert(OHAKELM_LISTED_STYLE(10503) == 0, "natural");
static_assert(OHAKELM_LISTED_VOLUME(10503) == 7, "volume 7");
static_assert(OHAKELM_LISTED_HEADER(65277) == 254, "the last header");
static_assert(OHAKELM_LISTED_POSITION(65277) == 253, "the last position but one");
static_assert(OHAKELM_ENTRY_CELLS == 3, "three numbers an entry");
static_assert(OHAKELM_NO_MARK == 4294967295, "no mark");
static_assert(OHAKELM_BASIC == 1 && OHAKELM_TEMPORARY == 2, "songs");
static_assert(OHAKELM_KIND_HEADER == 0 && OHAKELM_KIND_NOTE == 1, "kinds");
static_assert(OHAKELM_KIND_SCALE == 2 && OHAKELM_KIND_STYLE == 3, "kinds");
static_assert(OHAKELM_KIND_TEMPO == 4 && OHAKELM_KIND_VOLUME == 5, "kinds");
static_assert(OHAKELM_LARGEST_ROWS * OHAKELM_ENTRY_CELLS == OHAKELM_LARGEST_LIST, "a list");
static_assert(OHAKELM_LARGEST_PACK == 65535, "as large as two octets can say");
static_assert(OHAKELM_STACK_OTHERS < OHAKELM_STACK_TONES, "the stack of bitmaps");
static_assert(OHAKELM_STACK_TONES < OHAKELM_STACK_EDITS, "the stack of tones");

// An entry goes into a table as it is, without a cast.
static_assert(std::is_same<decltype(OHAKELM_HEADER(0, 0, 2)), uint32_t>::value, "a header");
static_assert(std::is_same<decltype(OHAKELM_NOTE(10, 2, 0)), uint32_t>::value, "a note");
static_assert(std::is_same<decltype(OHAKELM_SCALE(0)), uint32_t>::value, "a scale");
static_assert(std::is_same<decltype(OHAKELM_KIND(0)), uint32_t>::value, "a kind");
static_assert(std::is_same<decltype(OHAKELM_LISTED_HEADER(0)), uint32_t>::value, "an origin");

constexpr std::array<uint32_t, 3> table{OHAKELM_HEADER(0, 0, 2), OHAKELM_TEMPO(14),
                                        OHAKELM_NOTE(10, 2, 0)};

int main()
{
    std::array<uint32_t, OHAKELM_LARGEST_TABLE> read{};
    std::array<uint8_t, OHAKELM_LARGEST_TITLE> title{};
    std::array<uint8_t, OHAKELM_LARGEST_TONE> tone{};
    CHECK(ohakelm_version() == OHAKELM_VERSION);
    auto done = ohakelm_write(OHAKELM_TEMPORARY, false, nullptr, 0, table.data(), table.size(),
                              tone.data(), tone.size());
    CHECK(done.refusal == OHAKELM_ACCEPTED && done.octets == 10);
    CHECK(tone[6] == 0x51 && tone[7] == 0xC6 && tone[8] == 0x90 && tone[9] == 0);
    auto again = ohakelm_read(tone.data(), done.octets, read.data(), read.size(), title.data(),
                              title.size());
    CHECK(again.refusal == OHAKELM_ACCEPTED && again.entries == table.size());
    CHECK(memcmp(read.data(), table.data(), sizeof table) == 0);
    return failed;
}
