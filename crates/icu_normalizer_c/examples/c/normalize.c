/* Writes the form of standard input to standard output: normalize FILE FORM. The file has prepared data, and the form is
   nfd, nfc, nfkd or nfkc. After a third word, `check`, it writes the first mismatch instead: the offset in bytes, the
   character found, and the one expected; or `normalized`. */
#include "icu_normalizer.h"

#include <inttypes.h>
#include <stdio.h>
#include <stdlib.h>
#include <string.h>

struct bytes {
    uint8_t *at;
    size_t length;
};

static void stop(const char *what, const char *why) {
    fprintf(stderr, "normalize: %s: %s\n", what, why);
    exit(2);
}

/* Reads the bytes of a file. Their address isn't null, even if there are none. */
static struct bytes read_all(FILE *file, const char *name) {
    struct bytes read = {NULL, 0};
    size_t room = 0;
    for (;;) {
        if (read.length == room) {
            room = room ? 2 * room : 4096;
            uint8_t *grown = realloc(read.at, room);
            if (!grown) stop(name, "out of memory");
            read.at = grown;
        }
        size_t count = fread(read.at + read.length, 1, room - read.length, file);
        read.length += count;
        if (count == 0) break;
    }
    if (ferror(file)) stop(name, "it can't be read");
    return read;
}

static struct bytes read_file(const char *name) {
    FILE *file = fopen(name, "rb");
    if (!file) stop(name, "it can't be opened");
    struct bytes read = read_all(file, name);
    fclose(file);
    return read;
}

static icu_normalizer_form form_of(const char *word) {
    static const char *const words[] = {"nfd", "nfc", "nfkd", "nfkc"};
    for (icu_normalizer_form form = 0; form < 4; form++)
        if (strcmp(word, words[form]) == 0) return form;
    stop(word, "it is no form");
    return 0;
}

static void check(icu_normalizer *normalizer, icu_normalizer_form form, struct bytes input) {
    icu_normalizer_mismatch mismatch;
    icu_normalizer_status status =
        icu_normalizer_first_mismatch_utf8(normalizer, form, input.at, input.length, &mismatch);
    if (status != ICU_NORMALIZER_OK) stop("standard input", icu_normalizer_status_text(status));
    if (mismatch.exists)
        printf("%zu %04" PRIX32 " %04" PRIX32 "\n", mismatch.offset, mismatch.found, mismatch.expected);
    else
        puts("normalized");
}

static void normalize(icu_normalizer *normalizer, icu_normalizer_form form, struct bytes input) {
    struct bytes output = {NULL, 0};
    size_t needed = input.length + 1;
    icu_normalizer_status status;
    do {
        uint8_t *grown = realloc(output.at, needed);
        if (!grown) stop("standard input", "out of memory");
        output = (struct bytes){grown, needed};
        status = icu_normalizer_normalize_utf8(
            normalizer, form, input.at, input.length, output.at, output.length, &needed);
    } while (status == ICU_NORMALIZER_BUFFER_TOO_SMALL);
    if (status != ICU_NORMALIZER_OK) stop("standard input", icu_normalizer_status_text(status));
    if (fwrite(output.at, 1, needed, stdout) != needed) stop("standard output", "it can't be written");
    free(output.at);
}

int main(int count, char **words) {
    bool checks = count == 4 && strcmp(words[3], "check") == 0;
    if (count != 3 && !checks) stop("usage", "normalize FILE FORM [check]");
    icu_normalizer_form form = form_of(words[2]);
    struct bytes data = read_file(words[1]);
    icu_normalizer normalizer = ICU_NORMALIZER_CLOSED;
    icu_normalizer_defect defect = {0};
    icu_normalizer_status status = icu_normalizer_open_prepared(&normalizer, data.at, data.length, &defect);
    free(data.at);
    if (status == ICU_NORMALIZER_WRONG_PREPARED) stop(words[1], icu_normalizer_reason_text(defect.reason));
    if (status != ICU_NORMALIZER_OK) stop(words[1], icu_normalizer_status_text(status));

    struct bytes input = read_all(stdin, "standard input");
    if (checks)
        check(&normalizer, form, input);
    else
        normalize(&normalizer, form, input);
    icu_normalizer_close(&normalizer);
    free(input.at);
    if (fflush(stdout)) stop("standard output", "it can't be written");
    return 0;
}
