/* Sixteen threads, each with a handle of its own over the same data: threads DIRECTORY [ROUNDS [own]]. Each shares its
   handle again, opens one of the copies again, and closes all, while the others do. Without the word `own`, all also
   use, share, close and open one handle, which at most one of them has at a time. */
#include "icu_normalizer.h"

#include <pthread.h>
#include <stdio.h>
#include <stdlib.h>
#include <string.h>

#define THREADS 16
#define EXPECT(holds) ((holds) ? (void)0 : failed(#holds, __LINE__))

static void failed(const char *what, int line) {
    fprintf(stderr, "threads.c:%d: not so: %s\n", line, what);
    exit(1);
}

static const char data[] = "00E4;;;0;;0061 0308;;;;;;;;;\n0308;;;230;;;;;;;;;;;\n# EOF\n", end[] = "# EOF\n";
static unsigned long rounds = 2000;
static bool has_common = true;
static icu_normalizer common = ICU_NORMALIZER_CLOSED;

static void normalizes(icu_normalizer *normalizer) {
    uint8_t output[16];
    size_t needed;
    EXPECT(!icu_normalizer_normalize_utf8(
        normalizer, ICU_NORMALIZER_NFC, (const uint8_t *)"a\xCC\x88", 3, output, sizeof output, &needed));
    EXPECT(needed == 2 && !memcmp(output, "\xC3\xA4", 2));
}

static bool is_done(icu_normalizer_status status) {
    EXPECT(!status || status == ICU_NORMALIZER_IN_USE || status == ICU_NORMALIZER_NOT_OPEN);
    return !status;
}

/* Uses the handle that all threads have, and now and then closes it and opens it again by this one. */
static void use_common(icu_normalizer *own, bool is_opened) {
    uint8_t output[16], combining_class;
    size_t needed;
    icu_normalizer other = ICU_NORMALIZER_CLOSED;
    if (is_done(icu_normalizer_normalize_utf8(&common, ICU_NORMALIZER_NFC, (const uint8_t *)"a\xCC\x88", 3, output,
        sizeof output, &needed)))
        EXPECT(needed == 2 && !memcmp(output, "\xC3\xA4", 2));
    if (is_done(icu_normalizer_combining_class(&common, 0x308, &combining_class))) EXPECT(combining_class == 230);
    if (is_done(icu_normalizer_share(&common, &other))) normalizes(&other);
    if (is_opened) {
        icu_normalizer_close(&common);
        is_done(icu_normalizer_share(own, &common));
    }
    icu_normalizer_close(&other);
}

static void *run(void *passed) {
    icu_normalizer *own = passed;
    for (unsigned long round = 0; round < rounds; round++) {
        icu_normalizer other = ICU_NORMALIZER_CLOSED;
        icu_normalizer_defect defect;
        normalizes(own);
        EXPECT(!icu_normalizer_share(own, &other));
        normalizes(&other);
        if (round % 100 == 0) {
            EXPECT(!icu_normalizer_open_files(&other, (const uint8_t *)data, sizeof data - 1, (const uint8_t *)end,
                sizeof end - 1, NULL, 0, 0, &defect));
            normalizes(&other);
            EXPECT(!icu_normalizer_share(&other, own));
        }
        icu_normalizer_close(&other);
        if (has_common) use_common(own, round % 16 == 0);
    }
    icu_normalizer_close(own);
    return NULL;
}

static char *read_file(const char *directory, const char *name, size_t *length) {
    char path[4096];
    snprintf(path, sizeof path, "%s/%s", directory, name);
    FILE *stream = fopen(path, "rb");
    EXPECT(stream && !fseek(stream, 0, SEEK_END));
    *length = (size_t)ftell(stream);
    rewind(stream);
    char *made = malloc(*length + 1);
    EXPECT(made && fread(made, 1, *length, stream) == *length);
    fclose(stream);
    return made;
}

int main(int count, char **words) {
    EXPECT(count >= 2);
    if (count > 2) rounds = strtoul(words[2], NULL, 10);
    has_common = count < 4;
    size_t unicode_data_length, exclusions_length;
    char *unicode_data = read_file(words[1], "UnicodeData.txt", &unicode_data_length);
    char *exclusions = read_file(words[1], "CompositionExclusions.txt", &exclusions_length);
    icu_normalizer first = ICU_NORMALIZER_CLOSED, handles[THREADS] = {ICU_NORMALIZER_CLOSED};
    pthread_t threads[THREADS];
    EXPECT(icu_normalizer_share(&first, &handles[0]) == ICU_NORMALIZER_NOT_OPEN);
    EXPECT(!icu_normalizer_open_unicode_data(&first, (const uint8_t *)unicode_data, unicode_data_length,
        (const uint8_t *)exclusions, exclusions_length));
    for (size_t place = 0; place < THREADS; place++) EXPECT(!icu_normalizer_share(&first, &handles[place]));
    for (size_t place = 0; place < THREADS; place++)
        EXPECT(!pthread_create(&threads[place], NULL, run, &handles[place]));
    icu_normalizer_close(&first);
    for (size_t place = 0; place < THREADS; place++) EXPECT(!pthread_join(threads[place], NULL));
    icu_normalizer_close(&common);
    EXPECT(!common.is_open && !common.is_in_use);
    icu_normalizer_close(NULL);
    free(unicode_data);
    free(exclusions);
    return 0;
}
