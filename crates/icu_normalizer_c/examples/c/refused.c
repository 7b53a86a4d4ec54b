/* Makes calls of icu_normalizer.h with each allocation refused in turn. Each call ends well or with OUT_OF_MEMORY, and
   after the handle is closed nothing stays allocated. It is linked with malloc, realloc and free wrapped. */
#include "icu_normalizer.h"

#include <stdio.h>
#include <stdlib.h>
#include <string.h>

#define EXPECT(holds) ((holds) ? (void)0 : failed(#holds, __LINE__))

void *__real_malloc(size_t size);
void *__real_realloc(void *block, size_t size);
void __real_free(void *block);

static size_t asked, refused_at, live;

void *__wrap_malloc(size_t size) {
    void *made = ++asked == refused_at ? NULL : __real_malloc(size);
    live += made != NULL;
    return made;
}

void *__wrap_realloc(void *block, size_t size) {
    void *made = ++asked == refused_at ? NULL : __real_realloc(block, size);
    live += made != NULL && !block;
    return made;
}

void __wrap_free(void *block) {
    live -= block != NULL;
    __real_free(block);
}

static void failed(const char *what, int line) {
    fprintf(stderr, "refused.c:%d: not so: %s, with allocation %zu refused\n", line, what, refused_at);
    exit(1);
}

static size_t out_of_memory;

static bool is_done(icu_normalizer_status status) {
    EXPECT(status == ICU_NORMALIZER_OK || status == ICU_NORMALIZER_OUT_OF_MEMORY);
    out_of_memory += status == ICU_NORMALIZER_OUT_OF_MEMORY;
    return status == ICU_NORMALIZER_OK;
}

static const char data[] = "00E4;;;0;;0061 0308;;;;;;;;;\n0308;;;230;;;;;;;;;;;\n0323;;;220;;;;;;;;;;;\n"
                           "FB01;;;0;;<compat> 0066 0069;;;;;;;;;\n# EOF\n";
static const char exclusions[] = "# EOF\n";
static const char table[] = "0000..0040 ; valid\n0041 ; mapped ; 0061\n0042..00AC ; valid\n00AD ; ignored\n"
    "00AE..10FFFF ; valid\n";

/* A text of 1 + 2 * 40 characters: more marks than are kept without an allocation. */
static void calls(icu_normalizer *normalizer) {
    uint8_t text[161] = {'a'}, output[400];
    uint16_t units[81] = {'a'}, wide[400];
    uint32_t characters[81] = {'a'}, long_wide[400];
    for (size_t place = 0; place < 40; place++) {
        memcpy(text + 1 + 4 * place, "\xCC\x88\xCC\xA3", 4);
        characters[1 + 2 * place] = units[1 + 2 * place] = 0x308;
        characters[2 + 2 * place] = units[2 + 2 * place] = 0x323;
    }
    size_t number;
    bool is = true;
    icu_normalizer_mismatch mismatch;
    for (icu_normalizer_form form = 0; form < 4; form++) {
        bool composes = form == ICU_NORMALIZER_NFC || form == ICU_NORMALIZER_NFKC;
        memset(output, 0xAA, sizeof output);
        if (is_done(icu_normalizer_normalize_utf8(normalizer, form, text, 161, output, 400, &number)))
            EXPECT(number == (composes ? 160 : 161));
        else
            EXPECT((output[0] == 0xAA || output[0] == 'a') && output[1] == 0xAA && output[399] == 0xAA);
        if (is_done(icu_normalizer_normalize_utf16(normalizer, form, units, 81, wide, 400, &number)))
            EXPECT(number == (composes ? 80 : 81));
        if (is_done(icu_normalizer_normalize_utf32(normalizer, form, characters, 81, long_wide, 400, &number)))
            EXPECT(number == (composes ? 80 : 81));
        if (is_done(icu_normalizer_is_normalized_utf8(normalizer, form, text, 161, &is))) EXPECT(!is);
        if (is_done(icu_normalizer_is_normalized_utf16(normalizer, form, units, 81, &is))) EXPECT(!is);
        if (is_done(icu_normalizer_is_normalized_utf32(normalizer, form, characters, 81, &is))) EXPECT(!is);
        if (is_done(icu_normalizer_split_utf8(normalizer, form, text, 161, &number)))
            EXPECT(number == (composes ? 0 : 1));
        if (is_done(icu_normalizer_split_utf16(normalizer, form, units, 81, &number)))
            EXPECT(number == (composes ? 0 : 1));
        if (is_done(icu_normalizer_first_mismatch_utf8(normalizer, form, text, 161, &mismatch)))
            EXPECT(mismatch.exists && mismatch.expected == (composes ? 0xE4 : 0x323));
        if (is_done(icu_normalizer_first_mismatch_utf16(normalizer, form, units, 81, &mismatch)))
            EXPECT(mismatch.exists && mismatch.expected == (composes ? 0xE4 : 0x323));
    }
    uint8_t combining_class;
    uint32_t first, second, version;
    EXPECT(!icu_normalizer_combining_class(normalizer, 0x308, &combining_class) && combining_class == 230);
    EXPECT(!icu_normalizer_compose(normalizer, 0x61, 0x308, &first) && first == 0xE4);
    EXPECT(!icu_normalizer_decompose(normalizer, 0xE4, &first, &second) && first == 0x61 && second == 0x308);
    EXPECT(!icu_normalizer_has_boundary_before(normalizer, ICU_NORMALIZER_NFC, 0x308, &is) && !is);
    EXPECT(!icu_normalizer_unicode_version(normalizer, &version) && !version);
    if (is_done(icu_normalizer_map_utf8(normalizer, text, 161, output, 400, &number))) EXPECT(number == 160);
    if (is_done(icu_normalizer_map_utf16(normalizer, units, 81, wide, 400, &number))) EXPECT(number == 80);
    if (is_done(icu_normalizer_validate_utf8(normalizer, text, 161, output, 400, &number))) EXPECT(number == 160);
    if (is_done(icu_normalizer_validate_utf16(normalizer, units, 81, wide, 400, &number))) EXPECT(number == 80);
}

static void run(void) {
    icu_normalizer normalizer = ICU_NORMALIZER_CLOSED;
    icu_normalizer_defect defect = {7, 7, 7, 7, 7};
    bool is_open = is_done(icu_normalizer_open_files(&normalizer, (const uint8_t *)data, sizeof data - 1,
        (const uint8_t *)exclusions, sizeof exclusions - 1, (const uint8_t *)table, sizeof table - 1, 0, &defect));
    if (is_open) calls(&normalizer);
    icu_normalizer other = ICU_NORMALIZER_CLOSED;
    is_done(icu_normalizer_open_unicode_data(&other, (const uint8_t *)data, sizeof data - 1,
        (const uint8_t *)exclusions, sizeof exclusions - 1));
    icu_normalizer third = ICU_NORMALIZER_CLOSED;
    if (is_open && is_done(icu_normalizer_share(&normalizer, &other)) && is_done(icu_normalizer_share(&other, &third)))
        calls(&third);
    EXPECT(defect.place == 7 && defect.source == 7 && defect.reason == 7);
    icu_normalizer_close(&normalizer);
    icu_normalizer_close(&other);
    icu_normalizer_close(&third);
}

int main(void) {
    size_t told = 0;
    for (refused_at = 1;; refused_at++) {
        size_t before = live;
        asked = out_of_memory = 0;
        run();
        EXPECT(live == before && out_of_memory <= 1);
        told += out_of_memory;
        if (asked < refused_at) break;
    }
    printf("%zu %zu\n", refused_at - 1, told);
    return 0;
}
