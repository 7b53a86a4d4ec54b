/* Compares the calls of icu_normalizer.h with worked cases: cases DIRECTORY FILE. A line of FILE has the number of bits
   of a unit, 8 or 16, and an input and its NFD, NFC, NFKD and NFKC, each a `.` and its units in hexadecimal. Each case
   is compared twice: each array that is passed ends right before memory that can't be accessed, then begins right after
   such memory, so that what goes past its end or before its beginning stops the program. Buffers have room for each
   number of units from none to one more than is needed. */
#define _DEFAULT_SOURCE
#include "icu_normalizer.h"

#include <stdio.h>
#include <stdlib.h>
#include <string.h>
#include <sys/mman.h>

#define EXPECT(holds) ((holds) ? (void)0 : failed(#holds, __LINE__))

static size_t line_number = 0, rooms = 0;

static void failed(const char *what, int line) {
    fprintf(stderr, "cases.c:%d: not so: %s, of line %zu\n", line, what, line_number);
    exit(1);
}

enum { ROOM = 1 << 21, UNWRITTEN = 0xA5 };

/* Memory between memory that can't be accessed. */
static uint8_t *fenced(void) {
    uint8_t *made = mmap(NULL, 3 * ROOM, PROT_NONE, MAP_PRIVATE | MAP_ANONYMOUS, -1, 0);
    EXPECT(made != MAP_FAILED && mprotect(made + ROOM, ROOM, PROT_READ | PROT_WRITE) == 0);
    return made + ROOM;
}

enum side { LAST, FIRST };

/* So many bytes at one side of such memory. Of none the pointer is null. */
static void *at(enum side side, uint8_t *memory, size_t size) {
    EXPECT(size <= ROOM);
    return !size ? NULL : side == FIRST ? memory : memory + ROOM - size;
}

static uint8_t *inputs, *outputs, *characters;

static void *block(size_t size) {
    void *made = malloc(size);
    EXPECT(made || !size);
    return made;
}

static uint8_t *file(const char *directory, const char *name, size_t *length) {
    char path[4096];
    snprintf(path, sizeof path, "%s/%s", directory, name);
    FILE *stream = fopen(path, "rb");
    EXPECT(stream);
    fseek(stream, 0, SEEK_END);
    *length = (size_t)ftell(stream);
    rewind(stream);
    uint8_t *bytes = block(*length);
    EXPECT(fread(bytes, 1, *length, stream) == *length);
    fclose(stream);
    return bytes;
}

static unsigned digit(char c) {
    return (unsigned)(c <= '9' ? c - '0' : c - 'A' + 10);
}

/* The units of a word, and how many there are. */
static void *units_of(const char *word, size_t bits, size_t *count) {
    size_t digits = bits / 4;
    *count = (strlen(word) - 1) / digits;
    uint8_t *bytes = bits == 8 && *count ? block(*count) : NULL;
    uint16_t *units = bits == 16 && *count ? block(2 * *count) : NULL;
    for (size_t place = 0; place < *count; place++) {
        unsigned unit = 0;
        for (size_t k = 0; k < digits; k++) unit = 16 * unit + digit(word[1 + digits * place + k]);
        if (bits == 8) bytes[place] = (uint8_t)unit;
        else units[place] = (uint16_t)unit;
    }
    return bits == 8 ? (void *)bytes : (void *)units;
}

static icu_normalizer_status normalize(icu_normalizer *normalizer, icu_normalizer_form form, size_t bits,
    const void *input, size_t length, void *output, size_t room, size_t *needed) {
    switch (bits) {
        case 8: return icu_normalizer_normalize_utf8(normalizer, form, input, length, output, room, needed);
        case 16: return icu_normalizer_normalize_utf16(normalizer, form, input, length, output, room, needed);
        default: return icu_normalizer_normalize_utf32(normalizer, form, input, length, output, room, needed);
    }
}

/* Buffers of all sizes: what is needed is written as far as there is room for it, and nothing else. */
static void compare_rooms(icu_normalizer *normalizer, icu_normalizer_form form, size_t bits, enum side side,
    const void *input, size_t length, const void *wanted, size_t wanted_length) {
    size_t width = bits / 8;
    for (size_t room = 0; room <= wanted_length + 1; room++) {
        uint8_t *output = at(side, outputs, room * width);
        size_t needed = 0, written = (room < wanted_length ? room : wanted_length) * width;
        if (room) memset(output, UNWRITTEN, room * width);
        icu_normalizer_status status = normalize(normalizer, form, bits, input, length, output, room, &needed);
        EXPECT(status == (room < wanted_length ? ICU_NORMALIZER_BUFFER_TOO_SMALL : ICU_NORMALIZER_OK));
        EXPECT(needed == wanted_length);
        EXPECT(!written || memcmp(output, wanted, written) == 0);
        for (size_t place = written; place < room * width; place++) EXPECT(output[place] == UNWRITTEN);
        rooms++;
    }
}

static void compare(icu_normalizer *normalizer, icu_normalizer_form form, size_t bits, const void *input, size_t length,
    const void *wanted, size_t wanted_length) {
    size_t cut = 0;
    bool is = false, is_same = length == wanted_length && (!length || memcmp(input, wanted, length * bits / 8) == 0);
    icu_normalizer_mismatch mismatch;
    icu_normalizer_status status;
    status = bits == 8 ? icu_normalizer_is_normalized_utf8(normalizer, form, input, length, &is)
                       : icu_normalizer_is_normalized_utf16(normalizer, form, input, length, &is);
    EXPECT(status == ICU_NORMALIZER_OK && is == is_same);
    status = bits == 8 ? icu_normalizer_split_utf8(normalizer, form, input, length, &cut)
                       : icu_normalizer_split_utf16(normalizer, form, input, length, &cut);
    EXPECT(status == ICU_NORMALIZER_OK && (cut == length) == is_same);
    EXPECT(cut <= wanted_length && (!cut || memcmp(input, wanted, cut * bits / 8) == 0));
    status = bits == 8 ? icu_normalizer_first_mismatch_utf8(normalizer, form, input, length, &mismatch)
                       : icu_normalizer_first_mismatch_utf16(normalizer, form, input, length, &mismatch);
    EXPECT(status == ICU_NORMALIZER_OK && mismatch.exists == !is_same);
    EXPECT(mismatch.offset == (is_same ? 0 : cut));
}

/* Whether a pair of surrogates is at the place. */
static bool is_pair(const uint16_t *units, size_t length, size_t place) {
    return place + 1 < length && units[place] >> 10 == 0x36 && units[place + 1] >> 10 == 0x37;
}

/* How many units the same text has in UTF-32, in which unpaired surrogates stay as they are. */
static size_t count_utf32(const uint16_t *units, size_t length) {
    size_t count = length;
    for (size_t place = 0; place < length; place++) count -= is_pair(units, length, place);
    return count;
}

static void put_utf32(const uint16_t *units, size_t length, uint32_t *to) {
    for (size_t place = 0; place < length; place++)
        if (is_pair(units, length, place)) {
            *to++ = 0x10000 + ((units[place] & 0x3FFu) << 10) + (units[place + 1] & 0x3FFu);
            place++;
        } else {
            *to++ = units[place];
        }
}

/* The same text in UTF-32, and its form: what is written is that of UTF-16, and so is the result of the check. */
static void compare_utf32(icu_normalizer *normalizer, icu_normalizer_form form, enum side side, const uint16_t *units,
    size_t length, const uint16_t *wanted, size_t wanted_length) {
    size_t count = count_utf32(units, length), wanted_count = count_utf32(wanted, wanted_length);
    uint32_t *input = at(side, characters, 4 * count), *expected = block(4 * (wanted_count + 1));
    put_utf32(units, length, input);
    put_utf32(wanted, wanted_length, expected);
    compare_rooms(normalizer, form, 32, side, input, count, expected, wanted_count);
    free(expected);
    bool is = false, is_utf16 = false;
    EXPECT(icu_normalizer_is_normalized_utf16(normalizer, form, units, length, &is_utf16) == ICU_NORMALIZER_OK);
    EXPECT(icu_normalizer_is_normalized_utf32(normalizer, form, input, count, &is) == ICU_NORMALIZER_OK);
    EXPECT(is == is_utf16);
}

/* The units of a line, at each side. */
static void compare_line(icu_normalizer *normalizer, char *line) {
    size_t bits = strcmp(strtok(line, " "), "8") == 0 ? 8 : 16, length;
    void *units = units_of(strtok(NULL, " "), bits, &length);
    for (icu_normalizer_form form = 0; form < 4; form++) {
        size_t wanted_length;
        void *wanted = units_of(strtok(NULL, " "), bits, &wanted_length);
        for (enum side side = LAST; side <= FIRST; side++) {
            void *input = at(side, inputs, length * bits / 8);
            if (length) memcpy(input, units, length * bits / 8);
            compare(normalizer, form, bits, input, length, wanted, wanted_length);
            compare_rooms(normalizer, form, bits, side, input, length, wanted, wanted_length);
            if (bits == 16) compare_utf32(normalizer, form, side, units, length, wanted, wanted_length);
        }
        free(wanted);
    }
    free(units);
}

/* The bytes of a file, at a side of memory between memory that can't be accessed. */
static uint8_t *placed(enum side side, uint8_t *memory, const uint8_t *bytes, size_t length) {
    uint8_t *found = at(side, memory, length);
    if (length) memcpy(found, bytes, length);
    return found;
}

/* Opens by arrays at each side. */
static void open_files(icu_normalizer *normalizer, const char *directory) {
    size_t data_length, exclusions_length;
    uint8_t *data = file(directory, "UnicodeData.txt", &data_length);
    uint8_t *exclusions = file(directory, "CompositionExclusions.txt", &exclusions_length);
    uint8_t *first = fenced(), *second = fenced(), *third = fenced();
    const uint8_t table[] =
        "0000..00AC ; valid\n00AD ; ignored\n00AE..0377 ; valid\n0378..0379 ; disallowed\n"
        "037A..24B5 ; valid\n24B6 ; mapped ; 0061\n24B7..10FFFF ; valid\n";
    icu_normalizer_defect defect = {7, 7, 7, 7, 7};
    for (enum side side = LAST; side <= FIRST; side++) {
        EXPECT(icu_normalizer_open_files(normalizer, placed(side, first, data, data_length), data_length,
            placed(side, second, exclusions, exclusions_length), exclusions_length,
            placed(side, third, table, sizeof table - 1), sizeof table - 1, 2, &defect) == ICU_NORMALIZER_OK);
        EXPECT(icu_normalizer_open_unicode_data(normalizer, placed(side, first, data, data_length), data_length,
            placed(side, second, exclusions, exclusions_length), exclusions_length) == ICU_NORMALIZER_OK);
    }
    free(exclusions);
    free(data);
}

/* Each call at arrays of none, all of them null. */
static void compare_empty(void) {
    icu_normalizer normalizer = ICU_NORMALIZER_CLOSED;
    icu_normalizer_defect defect = {7, 7, 7, 7, 7};
    const uint8_t end[] = "# EOF\n", table[] = "0000..00AC ; valid\n00AD ; ignored\n00AE..10FFFF ; valid\n";
    EXPECT(icu_normalizer_open_unicode_data(&normalizer, NULL, 0, NULL, 0) == ICU_NORMALIZER_WRONG_LINE);
    EXPECT(icu_normalizer_open_files(&normalizer, NULL, 0, NULL, 0, NULL, 0, 0, &defect) == ICU_NORMALIZER_WRONG_LINE);
    EXPECT(icu_normalizer_open_files(&normalizer, end, sizeof end - 1, end, sizeof end - 1,
        table, sizeof table - 1, 0, &defect) == ICU_NORMALIZER_OK);
    for (icu_normalizer_form form = 0; form < 4; form++)
        for (size_t bits = 8; bits <= 16; bits += 8) {
            compare(&normalizer, form, bits, NULL, 0, NULL, 0);
            compare_rooms(&normalizer, form, bits, LAST, NULL, 0, NULL, 0);
            compare_utf32(&normalizer, form, LAST, NULL, 0, NULL, 0);
        }
    size_t needed = 7;
    EXPECT(icu_normalizer_map_utf8(&normalizer, NULL, 0, NULL, 0, &needed) == ICU_NORMALIZER_OK && needed == 0);
    needed = 7;
    EXPECT(icu_normalizer_map_utf16(&normalizer, NULL, 0, NULL, 0, &needed) == ICU_NORMALIZER_OK && needed == 0);
    needed = 7;
    EXPECT(icu_normalizer_validate_utf8(&normalizer, NULL, 0, NULL, 0, &needed) == ICU_NORMALIZER_OK && needed == 0);
    needed = 7;
    EXPECT(icu_normalizer_validate_utf16(&normalizer, NULL, 0, NULL, 0, &needed) == ICU_NORMALIZER_OK && needed == 0);
    icu_normalizer_close(&normalizer);
}

/* Mapping with arrays at each side, into buffers of all sizes: U+24B6 U+00AD U+0308 U+0378 to U+00E4 U+FFFD. */
static void compare_mapped(void) {
    static const char table[] =
        "0000..00AC ; valid\n00AD ; ignored\n00AE..0377 ; valid\n0378..0379 ; disallowed\n"
        "037A..24B5 ; valid\n24B6 ; mapped ; 0061\n24B7..10FFFF ; valid\n";
    static const char data[] = "00E4;;;0;;0061 0308;;;;;;;;;\n0308;;;230;;;;;;;;;;;\n# EOF\n", exclusions[] = "# EOF\n";
    static const uint8_t text[] = "\xE2\x92\xB6\xC2\xAD\xCC\x88\xCD\xB8", mapped[] = "\xC3\xA4\xEF\xBF\xBD";
    static const uint16_t units[] = {0x24B6, 0xAD, 0x308, 0x378}, wide[] = {0xE4, 0xFFFD};
    icu_normalizer normalizer = ICU_NORMALIZER_CLOSED;
    icu_normalizer_defect defect = {7, 7, 7, 7, 7};
    EXPECT(icu_normalizer_open_files(&normalizer, (const uint8_t *)data, sizeof data - 1,
        (const uint8_t *)exclusions, sizeof exclusions - 1, (const uint8_t *)table, sizeof table - 1, 2, &defect)
        == ICU_NORMALIZER_OK);
    for (enum side side = LAST; side <= FIRST; side++)
        for (size_t room = 0; room <= 6; room++) {
            size_t needed = 0;
            uint8_t *output = at(side, outputs, room);
            if (room) memset(output, UNWRITTEN, room);
            EXPECT(icu_normalizer_map_utf8(&normalizer, placed(side, inputs, text, sizeof text - 1), sizeof text - 1,
                output, room, &needed) == (room < 5 ? ICU_NORMALIZER_BUFFER_TOO_SMALL : ICU_NORMALIZER_OK));
            EXPECT(needed == 5 && (room < 5 || memcmp(output, mapped, 5) == 0));
            for (size_t place = room < 5 ? 0 : 5; place < room; place++) EXPECT(output[place] == UNWRITTEN);
            if (room > 3) continue;
            uint16_t *wide_output = at(side, outputs, 2 * room);
            if (room) memset(wide_output, UNWRITTEN, 2 * room);
            EXPECT(icu_normalizer_map_utf16(&normalizer,
                (const void *)placed(side, inputs, (const uint8_t *)units, sizeof units), 4, wide_output, room, &needed)
                == (room < 2 ? ICU_NORMALIZER_BUFFER_TOO_SMALL : ICU_NORMALIZER_OK));
            EXPECT(needed == 2 && (room < 2 || memcmp(wide_output, wide, 4) == 0));
            for (size_t place = room < 2 ? 0 : 2; place < room; place++) EXPECT(wide_output[place] == 0xA5A5);
        }
    icu_normalizer_close(&normalizer);
}

int main(int count, char **words) {
    EXPECT(count == 3);
    inputs = fenced();
    outputs = fenced();
    characters = fenced();
    compare_empty();
    compare_mapped();
    icu_normalizer normalizer = ICU_NORMALIZER_CLOSED;
    open_files(&normalizer, words[1]);
    FILE *cases = fopen(words[2], "r");
    EXPECT(cases);
    static char line[65536];
    while (fgets(line, sizeof line, cases)) {
        line_number++;
        line[strcspn(line, "\n")] = 0;
        compare_line(&normalizer, line);
    }
    fclose(cases);
    icu_normalizer_close(&normalizer);
    printf("%zu %zu\n", line_number, rooms);
    return 0;
}
