/* Makes each call of icu_normalizer.h, and compares what it does: calls DIRECTORY TESTS. The status is 0; 3 if a call
   returned that memory was refused, or the data couldn't be read; 1 if a comparison failed, which is then named. */
#include "icu_normalizer.h"

#include <stdio.h>
#include <stdlib.h>
#include <string.h>

#define EXPECT(holds) ((holds) ? (void)0 : failed(#holds, __LINE__))

static void failed(const char *what, int line) {
    fprintf(stderr, "calls.c:%d: not so: %s\n", line, what);
    exit(1);
}

static void out_of_memory(void) {
    exit(3);
}

static uint8_t *file(const char *directory, const char *name, size_t *length) {
    char path[4096];
    snprintf(path, sizeof path, "%s/%s", directory, name);
    FILE *stream = fopen(path, "rb");
    if (!stream) out_of_memory();
    fseek(stream, 0, SEEK_END);
    *length = (size_t)ftell(stream);
    rewind(stream);
    uint8_t *bytes = malloc(*length + 1);
    if (!bytes) out_of_memory();
    EXPECT(fread(bytes, 1, *length, stream) == *length);
    fclose(stream);
    return bytes;
}

static const uint8_t *bytes_of(const char *text) {
    return (const uint8_t *)text;
}

/* Before anything is opened, and after it was closed. */
static void closed(icu_normalizer *normalizer) {
    uint8_t output[4] = {1, 2, 3, 4};
    size_t number = 7;
    bool is = true;
    EXPECT(icu_normalizer_normalize_utf8(normalizer, ICU_NORMALIZER_NFC, bytes_of("a"), 1, output, 4, &number)
        == ICU_NORMALIZER_NOT_OPEN);
    EXPECT(icu_normalizer_is_normalized_utf8(normalizer, 9, bytes_of("a"), 1, &is) == ICU_NORMALIZER_NOT_OPEN);
    EXPECT(icu_normalizer_normalize_utf32(normalizer, ICU_NORMALIZER_NFC, NULL, 0, NULL, 0, &number)
        == ICU_NORMALIZER_NOT_OPEN);
    EXPECT(icu_normalizer_is_normalized_utf32(normalizer, ICU_NORMALIZER_NFC, NULL, 0, &is) == ICU_NORMALIZER_NOT_OPEN);
    EXPECT(icu_normalizer_split_utf8(normalizer, ICU_NORMALIZER_NFC, bytes_of("a"), 1, &number)
        == ICU_NORMALIZER_NOT_OPEN);
    icu_normalizer_mismatch mismatch = {9, 9, 9, true};
    EXPECT(icu_normalizer_first_mismatch_utf16(normalizer, ICU_NORMALIZER_NFC, NULL, 0, &mismatch)
        == ICU_NORMALIZER_NOT_OPEN);
    EXPECT(output[0] == 1 && number == 7 && is && mismatch.exists && mismatch.offset == 9);
    EXPECT(icu_normalizer_map_utf8(normalizer, NULL, 0, output, 4, &number) == ICU_NORMALIZER_NOT_OPEN && number == 7);
    uint32_t first = 7, second = 8;
    EXPECT(icu_normalizer_combining_class(normalizer, 0x308, output) == ICU_NORMALIZER_NOT_OPEN && output[0] == 1);
    EXPECT(icu_normalizer_compose(normalizer, 0x61, 0x308, &first) == ICU_NORMALIZER_NOT_OPEN);
    EXPECT(icu_normalizer_decompose(normalizer, 0xE4, &first, &second) == ICU_NORMALIZER_NOT_OPEN);
    EXPECT(icu_normalizer_unicode_version(normalizer, &first) == ICU_NORMALIZER_NOT_OPEN && first == 7 && second == 8);
    EXPECT(icu_normalizer_has_boundary_before(normalizer, 9, 0x308, &is) == ICU_NORMALIZER_NOT_OPEN && is);
    icu_normalizer_close(normalizer);
}

static icu_normalizer_status unless_refused(icu_normalizer_status status) {
    if (status == ICU_NORMALIZER_OUT_OF_MEMORY) out_of_memory();
    return status;
}

static void utf8(icu_normalizer *normalizer) {
    const char *text = "e\xCC\x81 \xEF\xAC\x81";
    size_t length = strlen(text), number = 0;
    uint8_t output[8];
    memset(output, 0xAA, sizeof output);
    EXPECT(unless_refused(icu_normalizer_normalize_utf8(
        normalizer, ICU_NORMALIZER_NFC, bytes_of(text), length, output, 5, &number))
        == ICU_NORMALIZER_BUFFER_TOO_SMALL);
    EXPECT(number == 6 && memcmp(output, "\xC3\xA9 \xEF\xAC", 5) == 0 && output[5] == 0xAA);
    EXPECT(unless_refused(icu_normalizer_normalize_utf8(
        normalizer, ICU_NORMALIZER_NFC, bytes_of(text), length, output, 6, &number)) == ICU_NORMALIZER_OK);
    EXPECT(number == 6 && memcmp(output, "\xC3\xA9 \xEF\xAC\x81", 6) == 0 && output[6] == 0xAA);
    EXPECT(unless_refused(icu_normalizer_normalize_utf8(
        normalizer, ICU_NORMALIZER_NFKC, bytes_of(text), length, output, 8, &number)) == ICU_NORMALIZER_OK);
    EXPECT(number == 5 && memcmp(output, "\xC3\xA9 fi", 5) == 0);
    EXPECT(icu_normalizer_normalize_utf8(normalizer, 4, bytes_of(text), length, output, 8, &number)
        == ICU_NORMALIZER_UNKNOWN_FORM);
    EXPECT(number == 5);
    EXPECT(unless_refused(icu_normalizer_normalize_utf8(
        normalizer, ICU_NORMALIZER_NFD, NULL, 0, NULL, 0, &number)) == ICU_NORMALIZER_OK);
    EXPECT(number == 0);
    EXPECT(unless_refused(icu_normalizer_normalize_utf8(
        normalizer, ICU_NORMALIZER_NFD, bytes_of("\xE2\x98z"), 3, output, 4, &number)) == ICU_NORMALIZER_OK);
    EXPECT(number == 4 && memcmp(output, "\xEF\xBF\xBDz", 4) == 0);

    bool is = true;
    EXPECT(unless_refused(icu_normalizer_is_normalized_utf8(
        normalizer, ICU_NORMALIZER_NFC, bytes_of(text), length, &is)) == ICU_NORMALIZER_OK && !is);
    EXPECT(unless_refused(icu_normalizer_is_normalized_utf8(
        normalizer, ICU_NORMALIZER_NFD, bytes_of(text), length, &is)) == ICU_NORMALIZER_OK && is);
    EXPECT(unless_refused(icu_normalizer_split_utf8(
        normalizer, ICU_NORMALIZER_NFKD, bytes_of(text), length, &number)) == ICU_NORMALIZER_OK && number == 4);

    icu_normalizer_mismatch mismatch = {9, 9, 9, true};
    EXPECT(icu_normalizer_first_mismatch_utf8(normalizer, 4, bytes_of(text), length, &mismatch)
        == ICU_NORMALIZER_UNKNOWN_FORM);
    EXPECT(mismatch.offset == 9 && mismatch.found == 9 && mismatch.expected == 9 && mismatch.exists);
    EXPECT(unless_refused(icu_normalizer_first_mismatch_utf8(
        normalizer, ICU_NORMALIZER_NFC, bytes_of(text), length, &mismatch)) == ICU_NORMALIZER_OK);
    EXPECT(mismatch.exists && mismatch.offset == 0 && mismatch.found == 0x65 && mismatch.expected == 0xE9);
    EXPECT(unless_refused(icu_normalizer_first_mismatch_utf8(
        normalizer, ICU_NORMALIZER_NFD, bytes_of(text), length, &mismatch)) == ICU_NORMALIZER_OK);
    EXPECT(!mismatch.exists && mismatch.offset == 0 && mismatch.found == 0 && mismatch.expected == 0);
    EXPECT(unless_refused(icu_normalizer_first_mismatch_utf8(
        normalizer, ICU_NORMALIZER_NFC, bytes_of("a\xEF\xBF\xBD\xFF" "b"), 6, &mismatch)) == ICU_NORMALIZER_OK);
    EXPECT(mismatch.exists && mismatch.offset == 4 && mismatch.found == 0xFFFD && mismatch.expected == 0xFFFD);
    EXPECT(unless_refused(icu_normalizer_first_mismatch_utf8(
        normalizer, ICU_NORMALIZER_NFC, NULL, 0, &mismatch)) == ICU_NORMALIZER_OK && !mismatch.exists);
}

static void utf16(icu_normalizer *normalizer) {
    const uint16_t text[] = {0x61, 0x308, 0xD800, 0x20};
    uint16_t output[4];
    size_t number = 0;
    bool is = true;
    EXPECT(unless_refused(icu_normalizer_normalize_utf16(
        normalizer, ICU_NORMALIZER_NFC, text, 4, output, 4, &number)) == ICU_NORMALIZER_OK);
    EXPECT(number == 3 && output[0] == 0xE4 && output[1] == 0xFFFD && output[2] == 0x20);
    EXPECT(unless_refused(icu_normalizer_is_normalized_utf16(
        normalizer, ICU_NORMALIZER_NFD, text, 4, &is)) == ICU_NORMALIZER_OK && !is);
    EXPECT(unless_refused(icu_normalizer_is_normalized_utf16(
        normalizer, ICU_NORMALIZER_NFD, text, 2, &is)) == ICU_NORMALIZER_OK && is);
    EXPECT(unless_refused(icu_normalizer_split_utf16(
        normalizer, ICU_NORMALIZER_NFD, text, 4, &number)) == ICU_NORMALIZER_OK && number == 2);
    icu_normalizer_mismatch mismatch;
    EXPECT(unless_refused(icu_normalizer_first_mismatch_utf16(
        normalizer, ICU_NORMALIZER_NFD, text, 4, &mismatch)) == ICU_NORMALIZER_OK);
    EXPECT(mismatch.exists && mismatch.offset == 2 && mismatch.found == 0xFFFD && mismatch.expected == 0xFFFD);
}

/* Texts of up to three characters, and their forms: NFD, NFC, NFKD and NFKC. */
static void utf32(icu_normalizer *normalizer) {
    enum { NONE, D = 1 << ICU_NORMALIZER_NFD, C = 1 << ICU_NORMALIZER_NFC, KD = 1 << ICU_NORMALIZER_NFKD,
        KC = 1 << ICU_NORMALIZER_NFKC, ALL = D | C | KD | KC };
    static const struct {
        size_t length;
        uint32_t text[3];
        unsigned forms;
    } texts[] = {
        {1, {0x61}, ALL}, {2, {0x61, 0x308}, D | KD}, {1, {0xE4}, C | KC}, {2, {0xE4, 0x323}, NONE},
        /* U+0301 composes with some characters, not with U+0062. */
        {2, {0x62, 0x301}, ALL}, {3, {0x62, 0x323, 0x301}, D | KD}, {3, {0x62, 0x301, 0x323}, NONE},
        {2, {0x1E05, 0x301}, C | KC}, {2, {0x301, 0x301}, ALL}, {1, {0xFB01}, D | C}, {2, {0xAC00, 0x11A8}, NONE},
        {3, {0x1100, 0x1161, 0x11A8}, D | KD}, {1, {0xAC01}, C | KC}, {3, {0x1F600, 0x20, 0x10FFFF}, ALL},
        {2, {0x11099, 0x110BA}, D | KD}, {1, {0x1109A}, C | KC}, {1, {0x1D15E}, NONE}, {1, {0x1D400}, D | C},
        {3, {0xD7FF, 0xE000, 0xFFFD}, ALL}, {1, {0xD800}, NONE}, {2, {0x61, 0xDFFF}, NONE},
        {2, {0xD834, 0xDD1E}, NONE}, {3, {0x61, 0x301, 0xD800}, NONE}, {1, {0x110000}, NONE},
        {3, {0x1F600, 0x1F600, 0x110000}, NONE}, {2, {0xFFFFFFFF, 0x61}, NONE},
    };
    bool is = false;
    uint32_t output[41];
    size_t number = 7;
    for (icu_normalizer_form form = 0; form < 4; form++) {
        for (size_t place = 0; place < sizeof texts / sizeof texts[0]; place++) {
            const uint32_t *text = texts[place].text;
            size_t length = texts[place].length;
            EXPECT(unless_refused(icu_normalizer_is_normalized_utf32(normalizer, form, text, length, &is))
                == ICU_NORMALIZER_OK);
            EXPECT(is == (texts[place].forms >> form & 1));
            EXPECT(unless_refused(icu_normalizer_normalize_utf32(normalizer, form, text, length, output, 41, &number))
                == ICU_NORMALIZER_OK);
            EXPECT((number == length && memcmp(output, text, 4 * number) == 0) == is);
        }
        is = false;
        EXPECT(icu_normalizer_is_normalized_utf32(normalizer, form, NULL, 0, &is) == ICU_NORMALIZER_OK && is);
        EXPECT(icu_normalizer_normalize_utf32(normalizer, form, NULL, 0, NULL, 0, &number) == ICU_NORMALIZER_OK);
        EXPECT(number == 0);
        /* More marks than are kept without an allocation. */
        uint32_t long_text[41] = {0x62};
        for (size_t place = 1; place < 41; place++) long_text[place] = 0x301;
        EXPECT(unless_refused(icu_normalizer_is_normalized_utf32(normalizer, form, long_text, 41, &is))
            == ICU_NORMALIZER_OK && is);
        long_text[40] = 0x323;
        EXPECT(unless_refused(icu_normalizer_is_normalized_utf32(normalizer, form, long_text, 41, &is))
            == ICU_NORMALIZER_OK && !is);
        EXPECT(unless_refused(icu_normalizer_normalize_utf32(normalizer, form, long_text, 41, output, 40, &number))
            == (form == ICU_NORMALIZER_NFC || form == ICU_NORMALIZER_NFKC ? ICU_NORMALIZER_OK
                                                                          : ICU_NORMALIZER_BUFFER_TOO_SMALL));
        EXPECT(number == (form == ICU_NORMALIZER_NFC || form == ICU_NORMALIZER_NFKC ? 40 : 41));
        EXPECT(output[0] == (number == 40 ? 0x1E05 : 0x62) && output[39] == 0x301);
    }
    /* A diaeresis composes with the letter before it, not with U+FFFD. */
    static const uint32_t ill_formed[] = {0xD800, 0x308, 0x110000, 0x61, 0x308, 0xFFFFFFFF};
    EXPECT(unless_refused(icu_normalizer_normalize_utf32(
        normalizer, ICU_NORMALIZER_NFC, ill_formed, 6, output, 41, &number)) == ICU_NORMALIZER_OK);
    EXPECT(number == 5 && output[0] == 0xFFFD && output[1] == 0x308 && output[2] == 0xFFFD && output[3] == 0xE4);
    EXPECT(output[4] == 0xFFFD);
    number = 7;
    EXPECT(icu_normalizer_normalize_utf32(normalizer, 4, NULL, 0, NULL, 0, &number) == ICU_NORMALIZER_UNKNOWN_FORM);
    EXPECT(number == 7);
    EXPECT(icu_normalizer_is_normalized_utf32(normalizer, 4, NULL, 0, &is) == ICU_NORMALIZER_UNKNOWN_FORM && !is);
}

static void decomposed(icu_normalizer *normalizer, uint32_t character, uint32_t first, uint32_t second) {
    uint32_t found[] = {7, 7};
    EXPECT(icu_normalizer_decompose(normalizer, character, &found[0], &found[1]) == ICU_NORMALIZER_OK);
    EXPECT(found[0] == first && found[1] == second);
}

static void composed(icu_normalizer *normalizer, uint32_t first, uint32_t second, uint32_t composite) {
    uint32_t found = 7;
    EXPECT(icu_normalizer_compose(normalizer, first, second, &found) == ICU_NORMALIZER_OK && found == composite);
}

static void classed(icu_normalizer *normalizer, uint32_t character, uint8_t combining_class) {
    uint8_t found = 7;
    EXPECT(icu_normalizer_combining_class(normalizer, character, &found) == ICU_NORMALIZER_OK);
    EXPECT(found == combining_class);
}

/* Sets `*length`, that of a piece, to how much of it may be normalized now. The rest is put before the next piece. */
static icu_normalizer_status cut(icu_normalizer *nfc, const uint32_t *piece, size_t *length) {
    icu_normalizer_status status = ICU_NORMALIZER_OK;
    bool is_boundary = false;
    while (status == ICU_NORMALIZER_OK && *length && !is_boundary)
        status = icu_normalizer_has_boundary_before(nfc, ICU_NORMALIZER_NFC, piece[--*length], &is_boundary);
    return status;
}

/* Characters by Unicode's own data. No memory is needed. */
static void characters(icu_normalizer *normalizer) {
    const uint32_t none = ICU_NORMALIZER_NO_CHARACTER, no_scalars[] = {0xD800, 0xDFFF, 0x110000, 0xFFFFFFFF, 0xFFFD};
    bool has = false;
    classed(normalizer, 0x61, 0);
    classed(normalizer, 0x308, 230);
    classed(normalizer, 0x345, 240);
    classed(normalizer, 0x10A0F, 230);
    composed(normalizer, 0x61, 0x308, 0xE4);
    composed(normalizer, 0x308, 0x61, none);
    composed(normalizer, 0x1100, 0x1161, 0xAC00);
    composed(normalizer, 0xAC00, 0x11A8, 0xAC01);
    composed(normalizer, 0x11099, 0x110BA, 0x1109A);
    /* U+0958 is excluded from composition, and U+FB01 has a compatibility mapping. */
    composed(normalizer, 0x915, 0x93C, none);
    decomposed(normalizer, 0x958, 0x915, 0x93C);
    decomposed(normalizer, 0xFB01, none, none);
    decomposed(normalizer, 0x61, none, none);
    decomposed(normalizer, 0x212B, 0xC5, none);
    decomposed(normalizer, 0x1D6, 0xFC, 0x304);
    decomposed(normalizer, 0xAC00, 0x1100, 0x1161);
    decomposed(normalizer, 0xAC01, 0xAC00, 0x11A8);
    decomposed(normalizer, 0x1109A, 0x11099, 0x110BA);
    for (icu_normalizer_form form = 0; form < 4; form++) {
        bool composes = form == ICU_NORMALIZER_NFC || form == ICU_NORMALIZER_NFKC;
        EXPECT(!icu_normalizer_has_boundary_before(normalizer, form, 0x61, &has) && has);
        EXPECT(!icu_normalizer_has_boundary_before(normalizer, form, 0x308, &has) && !has);
        EXPECT(!icu_normalizer_has_boundary_before(normalizer, form, 0x1161, &has) && has == !composes);
        for (size_t place = 0; place < 5; place++)
            EXPECT(!icu_normalizer_has_boundary_before(normalizer, form, no_scalars[place], &has) && has);
    }
    EXPECT(icu_normalizer_has_boundary_before(normalizer, 4, 0x308, &has) == ICU_NORMALIZER_UNKNOWN_FORM && has);
    size_t length = 3;
    EXPECT(cut(normalizer, (const uint32_t[]){0x61, 0x62, 0x308}, &length) == ICU_NORMALIZER_OK && length == 1);
    for (size_t place = 0; place < 5; place++) {
        classed(normalizer, no_scalars[place], 0);
        composed(normalizer, no_scalars[place], 0x308, none);
        composed(normalizer, 0x61, no_scalars[place], none);
        decomposed(normalizer, no_scalars[place], none, none);
    }
}

/* A table of IDNA: U+24B6 maps to U+0061, U+00AD is ignored, U+0378 and U+0379 are disallowed, all others are valid. */
static const char table[] =
    "0000..00AC ; valid\n00AD ; ignored\n00AE..0377 ; valid\n0378..0379 ; disallowed # NA\n"
    "037A..24B5 ; valid\n24B6 ; mapped ; 0061\n24B7..10FFFF ; valid\n";

static void mapping(icu_normalizer *normalizer) {
    const char *text = "\xE2\x92\xB6\xC2\xAD\xCC\x88\xCD\xB8";
    size_t length = strlen(text), number = 7;
    uint8_t output[16] = {0xAA};
    EXPECT(unless_refused(icu_normalizer_map_utf8(normalizer, bytes_of(text), length, output, 4, &number))
        == ICU_NORMALIZER_BUFFER_TOO_SMALL);
    EXPECT(number == 5 && output[0] == 0xAA);
    EXPECT(unless_refused(icu_normalizer_map_utf8(normalizer, bytes_of(text), length, output, 5, &number))
        == ICU_NORMALIZER_OK);
    EXPECT(number == 5 && memcmp(output, "\xC3\xA4\xEF\xBF\xBD", 5) == 0 && output[5] == 0);
    EXPECT(unless_refused(icu_normalizer_validate_utf8(normalizer, bytes_of(text), length, output, 16, &number))
        == ICU_NORMALIZER_OK);
    EXPECT(number == 9 && memcmp(output, "a\xEF\xBF\xBD\xCC\x88\xEF\xBF\xBD", 9) == 0);
    EXPECT(unless_refused(icu_normalizer_map_utf8(normalizer, NULL, 0, NULL, 0, &number)) == ICU_NORMALIZER_OK);
    EXPECT(number == 0);
    const uint16_t units[] = {0x24B6, 0xAD, 0x308, 0xD834, 0xDD1E, 0xDC00};
    uint16_t wide[6] = {0};
    EXPECT(unless_refused(icu_normalizer_map_utf16(normalizer, units, 6, wide, 6, &number)) == ICU_NORMALIZER_OK);
    EXPECT(number == 4 && wide[0] == 0xE4 && wide[1] == 0xD834 && wide[2] == 0xDD1E && wide[3] == 0xFFFD && !wide[4]);
    EXPECT(unless_refused(icu_normalizer_validate_utf16(normalizer, units, 3, wide, 6, &number)) == ICU_NORMALIZER_OK);
    EXPECT(number == 3 && wide[0] == 0x61 && wide[1] == 0xFFFD && wide[2] == 0x308);
}

static bool is_defect(const icu_normalizer_defect *defect, size_t place, uint32_t source, uint32_t reason,
    uint32_t character, uint32_t condition) {
    return defect->place == place && defect->source == source && defect->reason == reason
        && defect->character == character && defect->condition == condition;
}

/* A file with no lines but its end mark. */
static const char end[] = "# EOF\n";

/* Why files are refused, and where. */
static void files(icu_normalizer *normalizer) {
    icu_normalizer_defect defect = {7, 7, 7, 7, 7};
    const char *data = "0041;;;0;;;;;;;;;;;\n\n0040;;;0;;;;;;;;;;;\n# EOF\n", *exclusions = "0958\nX\n# EOF\n";
    const char *lines = "0000..0041 ; never\n";
    EXPECT(unless_refused(icu_normalizer_open_files(normalizer, bytes_of(data), strlen(data),
        bytes_of(end), strlen(end), NULL, 0, 0, &defect)) == ICU_NORMALIZER_WRONG_LINE);
    EXPECT(defect.place == 3 && defect.source == ICU_NORMALIZER_UNICODE_DATA && defect.reason == 6);
    EXPECT(unless_refused(icu_normalizer_open_files(normalizer, bytes_of(data), strlen(data), bytes_of(exclusions),
        strlen(exclusions), NULL, 0, 0, &defect)) == ICU_NORMALIZER_WRONG_LINE);
    EXPECT(defect.place == 2 && defect.source == ICU_NORMALIZER_COMPOSITION_EXCLUSIONS && defect.reason == 2);
    EXPECT(unless_refused(icu_normalizer_open_files(normalizer, bytes_of(end), strlen(end),
        bytes_of(end), strlen(end), bytes_of(lines), strlen(lines), 0, &defect)) == ICU_NORMALIZER_WRONG_LINE);
    EXPECT(defect.place == 1 && defect.source == ICU_NORMALIZER_IDNA_MAPPING_TABLE && defect.reason == 5);
}

static void wrong_line(icu_normalizer *normalizer, const char *data, const char *exclusions, const char *lines,
    size_t place, uint32_t source, uint32_t reason) {
    icu_normalizer_defect defect = {7, 7, 7, 7, 7};
    EXPECT(unless_refused(icu_normalizer_open_files(normalizer, bytes_of(data), strlen(data), bytes_of(exclusions),
        strlen(exclusions), bytes_of(lines), strlen(lines), 0, &defect)) == ICU_NORMALIZER_WRONG_LINE);
    EXPECT(defect.place == place && defect.source == source && defect.reason == reason);
}

/* Files that are cut off, and files of different versions. */
static void parts_of_files(icu_normalizer *normalizer) {
    wrong_line(normalizer, "", "0958", "", 1, ICU_NORMALIZER_COMPOSITION_EXCLUSIONS, 19);
    wrong_line(normalizer, end, "0958\n# EOF\n", "", 1, ICU_NORMALIZER_COMPOSITION_EXCLUSIONS, 20);
    wrong_line(normalizer, end, "#\n0958\n\n", "", 2, ICU_NORMALIZER_COMPOSITION_EXCLUSIONS, 21);
    wrong_line(normalizer, "", end, "", 1, ICU_NORMALIZER_UNICODE_DATA, 21);
    wrong_line(normalizer, end, end, "0000..0040 ; valid\n0042..10FFFF ; valid\n", 2,
        ICU_NORMALIZER_IDNA_MAPPING_TABLE, 22);
    wrong_line(normalizer, end, end, "\n", 1, ICU_NORMALIZER_IDNA_MAPPING_TABLE, 23);
    wrong_line(normalizer, end, end, "0000..10FFFE ; valid\n", 1, ICU_NORMALIZER_IDNA_MAPPING_TABLE, 23);
    wrong_line(normalizer, "# 17.0.0\n# EOF\n", "# 18.0.0\n# EOF\n", "", 1, ICU_NORMALIZER_UNICODE_DATA, 24);
    wrong_line(normalizer, "# 18.0.0\n# EOF\n", "# 18.0.0\n# EOF\n", "#\n# 17.0.0\n0000..10FFFF ; valid\n", 2,
        ICU_NORMALIZER_IDNA_MAPPING_TABLE, 24);
}

/* Handles over the same data, each opened and closed by itself. */
static void sharing(icu_normalizer *normalizer) {
    icu_normalizer other = ICU_NORMALIZER_CLOSED, third = ICU_NORMALIZER_CLOSED;
    EXPECT(icu_normalizer_share(&other, &third) == ICU_NORMALIZER_NOT_OPEN);
    EXPECT(icu_normalizer_share(&other, &other) == ICU_NORMALIZER_NOT_OPEN);
    EXPECT(icu_normalizer_share(normalizer, normalizer) == ICU_NORMALIZER_OK);
    unless_refused(icu_normalizer_share(normalizer, &other));
    unless_refused(icu_normalizer_share(&other, &third));
    utf8(&other);
    icu_normalizer_close(&other);
    utf8(&third);
    utf8(normalizer);
    unless_refused(icu_normalizer_share(&third, normalizer));
    EXPECT(icu_normalizer_share(&other, &third) == ICU_NORMALIZER_NOT_OPEN);
    utf8(&third);
    icu_normalizer_close(&third);
    utf8(normalizer);
    /* As if another call had the handle: nothing changes. */
    size_t number = 7;
    other.is_in_use = 1;
    EXPECT(icu_normalizer_split_utf8(&other, ICU_NORMALIZER_NFC, NULL, 0, &number) == ICU_NORMALIZER_IN_USE);
    EXPECT(icu_normalizer_open_unicode_data(&other, NULL, 0, NULL, 0) == ICU_NORMALIZER_IN_USE);
    EXPECT(icu_normalizer_share(normalizer, &other) == ICU_NORMALIZER_IN_USE);
    EXPECT(icu_normalizer_share(&other, normalizer) == ICU_NORMALIZER_IN_USE);
    EXPECT(icu_normalizer_share(&other, &other) == ICU_NORMALIZER_IN_USE);
    icu_normalizer_close(&other);
    EXPECT(other.is_in_use == 1 && number == 7 && !normalizer->is_in_use);
    utf8(normalizer);
    icu_normalizer_close(NULL);
}

static void stated(icu_normalizer *normalizer, const char *exclusions, uint32_t version) {
    uint32_t found = 7;
    unless_refused(icu_normalizer_open_unicode_data(
        normalizer, bytes_of(end), strlen(end), bytes_of(exclusions), strlen(exclusions)));
    EXPECT(icu_normalizer_unicode_version(normalizer, &found) == ICU_NORMALIZER_OK && found == version);
}

static void versions(icu_normalizer *normalizer) {
    EXPECT(icu_normalizer_version() == ICU_NORMALIZER_VERSION);
    stated(normalizer, "# CompositionExclusions-15.1.0.txt\n# EOF\n", 0x0F0100);
    stated(normalizer, "# CompositionExclusions\n# of 255.0.255\n# EOF\n", 0xFF00FF);
    stated(normalizer, "# 15.256.0\n# EOF\n", 0);
    stated(normalizer, end, 0);
}

/* A file of prepared data, and why others are refused, and where. */
static void prepared(icu_normalizer *normalizer, const char *directory) {
    const char *text = "A\xCC\x88\xC2\xAD\xCC\xA3", *mapped = "\xE1\xBA\xA1\xCC\x88";
    size_t length, number = 7;
    uint8_t *bytes = file(directory, "small.prepared", &length), output[16];
    icu_normalizer_defect defect = {7, 7, 7, 7, 7};
    EXPECT(unless_refused(icu_normalizer_open_prepared(normalizer, bytes, length, &defect)) == ICU_NORMALIZER_OK);
    EXPECT(is_defect(&defect, 7, 7, 7, 7, 7));
    EXPECT(unless_refused(icu_normalizer_map_utf8(normalizer, bytes_of(text), strlen(text), output, 16, &number))
        == ICU_NORMALIZER_OK);
    EXPECT(number == strlen(mapped) && memcmp(output, mapped, number) == 0);
    EXPECT(unless_refused(icu_normalizer_open_prepared(normalizer, bytes, length - 1, &defect))
        == ICU_NORMALIZER_WRONG_PREPARED);
    EXPECT(is_defect(&defect, 8, ICU_NORMALIZER_PREPARED, 27, ICU_NORMALIZER_NO_CHARACTER, 0));
    EXPECT(unless_refused(icu_normalizer_open_prepared(normalizer, NULL, 0, &defect)) == ICU_NORMALIZER_WRONG_PREPARED);
    EXPECT(is_defect(&defect, 0, ICU_NORMALIZER_PREPARED, 29, ICU_NORMALIZER_NO_CHARACTER, 0));
    for (size_t place = 0; place < length; place++) {
        const size_t offsets[] = {0, 4, 8, 12, 16, 12};
        const uint32_t reasons[] = {25, 26, 27, 28, 28, 28};
        size_t field = place < 20 ? place / 4 : 5;
        bytes[place] ^= 64;
        EXPECT(unless_refused(icu_normalizer_open_prepared(normalizer, bytes, length, &defect))
            == ICU_NORMALIZER_WRONG_PREPARED);
        EXPECT(is_defect(&defect, offsets[field], ICU_NORMALIZER_PREPARED, reasons[field],
            ICU_NORMALIZER_NO_CHARACTER, 0));
        bytes[place] ^= 64;
    }
    EXPECT(unless_refused(icu_normalizer_map_utf8(normalizer, bytes_of(text), strlen(text), output, 16, &number))
        == ICU_NORMALIZER_OK && number == strlen(mapped));
    free(bytes);
}

/* Without a table there is no mapper. */
static void no_table(icu_normalizer *normalizer) {
    icu_normalizer_defect defect = {7, 7, 7, 7, 7};
    size_t number = 7;
    EXPECT(unless_refused(icu_normalizer_open_files(normalizer, bytes_of(end), strlen(end), bytes_of(end), strlen(end),
        NULL, 0, 0, &defect)) == ICU_NORMALIZER_OK);
    EXPECT(icu_normalizer_map_utf8(normalizer, NULL, 0, NULL, 0, &number) == ICU_NORMALIZER_NO_MAPPER && number == 7);
}

int main(int count, char **words) {
    if (count != 3) failed("calls DIRECTORY TESTS", __LINE__);
    icu_normalizer normalizer = ICU_NORMALIZER_CLOSED;
    closed(&normalizer);
    EXPECT(icu_normalizer_open_unicode_data(&normalizer, bytes_of("00E4;\n"), 6, NULL, 0) != ICU_NORMALIZER_OK);
    closed(&normalizer);

    size_t data_length, exclusions_length;
    uint8_t *data = file(words[1], "UnicodeData.txt", &data_length);
    uint8_t *exclusions = file(words[1], "CompositionExclusions.txt", &exclusions_length);
    icu_normalizer_status status =
        icu_normalizer_open_unicode_data(&normalizer, data, data_length, exclusions, exclusions_length);
    if (status == ICU_NORMALIZER_OUT_OF_MEMORY) {
        closed(&normalizer);
        out_of_memory();
    }
    EXPECT(status == ICU_NORMALIZER_OK);
    utf8(&normalizer);
    utf16(&normalizer);
    utf32(&normalizer);
    characters(&normalizer);
    sharing(&normalizer);
    /* What is open stays open if the next data are wrong. */
    EXPECT(icu_normalizer_open_unicode_data(&normalizer, bytes_of("00E4;\n"), 6, NULL, 0) != ICU_NORMALIZER_OK);
    utf8(&normalizer);
    /* What is open is closed if others are opened, and stays open if memory is refused for them. */
    status = icu_normalizer_open_unicode_data(&normalizer, data, data_length, exclusions, exclusions_length);
    EXPECT(status == ICU_NORMALIZER_OK || status == ICU_NORMALIZER_OUT_OF_MEMORY);
    utf8(&normalizer);
    size_t number = 7;
    EXPECT(icu_normalizer_map_utf8(&normalizer, NULL, 0, NULL, 0, &number) == ICU_NORMALIZER_NO_MAPPER && number == 7);
    /* With a mapper. */
    icu_normalizer_defect defect = {7, 7, 7, 7, 7};
    status = icu_normalizer_open_files(&normalizer, data, data_length, exclusions, exclusions_length,
        (const uint8_t *)table, sizeof table - 1, 2, &defect);
    EXPECT(status == ICU_NORMALIZER_OK || status == ICU_NORMALIZER_OUT_OF_MEMORY);
    EXPECT(is_defect(&defect, 7, 7, 7, 7, 7));
    utf8(&normalizer);
    if (status == ICU_NORMALIZER_OK) mapping(&normalizer);
    /* U+0041 mapped alone: the list of U+00C0 has it. */
    static const char mapped_alone[] = "0000..0040 ; valid\n0041 ; mapped ; 0061\n0042..10FFFF ; valid\n";
    if (status == ICU_NORMALIZER_OK) {
        status = icu_normalizer_open_files(&normalizer, data, data_length, exclusions, exclusions_length,
            (const uint8_t *)mapped_alone, sizeof mapped_alone - 1, 0, &defect);
        EXPECT(status == ICU_NORMALIZER_WRONG_RECORDS || status == ICU_NORMALIZER_OUT_OF_MEMORY);
        if (status == ICU_NORMALIZER_WRONG_RECORDS)
            EXPECT(is_defect(&defect, 3, ICU_NORMALIZER_IDNA_MAPPING_TABLE, 17, 0xC0, 8));
        mapping(&normalizer);
    }
    icu_normalizer other = ICU_NORMALIZER_CLOSED;
    files(&other);
    parts_of_files(&other);
    closed(&other);
    no_table(&other);
    versions(&other);
    prepared(&other, words[2]);
    icu_normalizer_close(&other);
    icu_normalizer_close(&normalizer);
    closed(&normalizer);
    free(exclusions);
    free(data);
    return 0;
}
