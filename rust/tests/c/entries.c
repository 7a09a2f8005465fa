/* The macros that put entries together and take them apart, over all codes.
 *
 * The expected numbers are counted and not multiplied. A header is id * 4096 +
 * loop * 256 + specifier, a loop is below 16 and a specifier below 256. So all
 * headers, the specifier running fastest, are the numbers from 0 in turn. The
 * notes are so from 65536 on, and the list's first and third numbers from 0 on. */
#include "check.h"

/* Counts a code on. Whether it begins anew, and the next one is to count. */
static bool turns(uint32_t *code, uint32_t count)
{
    *code = *code + 1 == count ? 0 : *code + 1;
    return *code == 0;
}

static void check_headers(void)
{
    uint32_t id = 0, loop = 0, specifier = 0;
    for (uint32_t number = 0; number < 16384; number++) {
        CHECK(OHAKELM_HEADER(id, loop, specifier) == number);
        CHECK(OHAKELM_KIND(number) == 0);
        CHECK(OHAKELM_PAYLOAD(number) == number);
        CHECK(OHAKELM_HEADER_ID(number) == id);
        CHECK(OHAKELM_HEADER_LOOP(number) == loop);
        CHECK(OHAKELM_HEADER_SPECIFIER(number) == specifier);
        if (turns(&specifier, 256) && turns(&loop, 16))
            turns(&id, 4);
    }
    CHECK(id == 0 && loop == 0 && specifier == 0);
}

static void check_notes(void)
{
    uint32_t note = 0, duration = 0, specifier = 0;
    for (uint32_t payload = 0; payload < 512; payload++) {
        uint32_t number = 65536 + payload;
        CHECK(OHAKELM_NOTE(note, duration, specifier) == number);
        CHECK(OHAKELM_KIND(number) == 1);
        CHECK(OHAKELM_PAYLOAD(number) == payload);
        CHECK(OHAKELM_NOTE_VALUE(number) == note);
        CHECK(OHAKELM_NOTE_DURATION(number) == duration);
        CHECK(OHAKELM_NOTE_SPECIFIER(number) == specifier);
        if (turns(&specifier, 4) && turns(&duration, 8))
            turns(&note, 16);
    }
    CHECK(note == 0 && duration == 0 && specifier == 0);
}

/* An instruction of one code: its kind begins at a number. */
static void check_setting(uint32_t number, uint32_t begin, uint32_t code, uint32_t kind)
{
    CHECK(number == begin + code);
    CHECK(OHAKELM_KIND(number) == kind);
    CHECK(OHAKELM_PAYLOAD(number) == code);
}

static void check_settings(void)
{
    for (uint32_t code = 0; code < 32; code++) {
        check_setting(OHAKELM_SCALE(code), 131072, code, OHAKELM_KIND_SCALE);
        check_setting(OHAKELM_STYLE(code), 196608, code, OHAKELM_KIND_STYLE);
        check_setting(OHAKELM_TEMPO(code), 262144, code, OHAKELM_KIND_TEMPO);
        check_setting(OHAKELM_VOLUME(code), 327680, code, OHAKELM_KIND_VOLUME);
    }
}

static void check_listed(void)
{
    uint32_t note = 0, scale = 0, style = 0, volume = 0;
    for (uint32_t first = 0; first < 16384; first++) {
        CHECK(OHAKELM_LISTED_NOTE(first) == note);
        CHECK(OHAKELM_LISTED_SCALE(first) == scale);
        CHECK(OHAKELM_LISTED_STYLE(first) == style);
        CHECK(OHAKELM_LISTED_VOLUME(first) == volume);
        if (turns(&volume, 16) && turns(&style, 16) && turns(&scale, 4))
            turns(&note, 16);
    }
    CHECK(note == 0 && scale == 0 && style == 0 && volume == 0);
}

static void check_origins(void)
{
    uint32_t header = 0, position = 0;
    for (uint32_t origin = 0; origin < 65536; origin++) {
        CHECK(OHAKELM_LISTED_HEADER(origin) == header);
        CHECK(OHAKELM_LISTED_POSITION(origin) == position);
        if (turns(&position, 256))
            turns(&header, 256);
    }
    CHECK(header == 0 && position == 0);
}

/* Sums as codes, and entries in sums: the macros keep them together. */
static void check_within_sums(void)
{
    uint32_t one = 1, ten = 10;
    CHECK(OHAKELM_NOTE(one + 9, one + 1, one - 1) == 65864);
    CHECK(OHAKELM_HEADER(one + 1, one + 2, one + 4) == 8965);
    CHECK(OHAKELM_TEMPO(ten + 4) * 2 == 524316);
    CHECK(OHAKELM_SCALE(one + 1) * 2 == 262148);
    CHECK(OHAKELM_STYLE(one + 1) * 2 == 393220);
    CHECK(OHAKELM_VOLUME(one + 6) * 2 == 655374);
    CHECK(OHAKELM_NOTE(ten, 2, 0) * 2 == 131728);
    CHECK(OHAKELM_HEADER(0, 0, one + 1) * 2 == 4);
    CHECK(100 / OHAKELM_KIND(one + 262157) == 25);
    CHECK(100 / OHAKELM_PAYLOAD(one + 262157) == 7);
    CHECK(100 / OHAKELM_HEADER_ID(one + 8964) == 50);
    CHECK(100 / OHAKELM_HEADER_LOOP(one + 8964) == 33);
    CHECK(100 / OHAKELM_HEADER_SPECIFIER(one + 8964) == 20);
    CHECK(100 / OHAKELM_NOTE_VALUE(one + 65863) == 10);
    CHECK(100 / OHAKELM_NOTE_DURATION(one + 65863) == 50);
    CHECK(100 / OHAKELM_NOTE_SPECIFIER(one + 65538) == 33);
    CHECK(100 / OHAKELM_LISTED_NOTE(one + 10502) == 10);
    CHECK(100 / OHAKELM_LISTED_SCALE(one + 10502) == 100);
    CHECK(100 / OHAKELM_LISTED_STYLE(one + 10534) == 50);
    CHECK(100 / OHAKELM_LISTED_VOLUME(one + 10502) == 14);
    CHECK(100 / OHAKELM_LISTED_HEADER(ten + 502) == 50);
    CHECK(100 / OHAKELM_LISTED_POSITION(ten + 250) == 25);
}

int main(void)
{
    check_headers();
    check_notes();
    check_settings();
    check_listed();
    check_origins();
    check_within_sums();
    return failed;
}
