/* Writes the NFC of a word: first FILE WORD. The file has prepared data. */
#include <icu_normalizer.h>
#include <stdio.h>
#include <string.h>

static uint8_t data[1 << 20], form[1000];

int main(int count, char **words) {
    FILE *file = count == 3 ? fopen(words[1], "rb") : NULL;
    if (!file) return 2;
    size_t length = fread(data, 1, sizeof data, file), needed = 0;
    fclose(file);
    const uint8_t *word = (const uint8_t *)words[2];

    icu_normalizer nfc = ICU_NORMALIZER_CLOSED;
    icu_normalizer_defect defect;
    icu_normalizer_status status = icu_normalizer_open_prepared(&nfc, data, length, &defect);
    if (status == ICU_NORMALIZER_OK)
        status = icu_normalizer_normalize_utf8(
            &nfc, ICU_NORMALIZER_NFC, word, strlen(words[2]), form, sizeof form, &needed);
    icu_normalizer_close(&nfc);
    if (status != ICU_NORMALIZER_OK) {
        fprintf(stderr, "first: %s\n", icu_normalizer_status_text(status));
        return 2;
    }
    printf("%.*s\n", (int)needed, (char *)form);
    return 0;
}
