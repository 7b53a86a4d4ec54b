/* The functions of icu_normalizer.h, each by a function of the library, which takes no null pointer and has the handle
   to itself. What it is passed in place of null is never read nor written. */
#include "icu_normalizer.h"

icu_normalizer_status icu_normalizer_open_files_nonnull(icu_normalizer *normalizer,
    const uint8_t *unicode_data, size_t unicode_data_length, const uint8_t *exclusions, size_t exclusions_length,
    const uint8_t *idna_table, size_t idna_table_length, uint32_t disallowed_limit, icu_normalizer_defect *defect);
icu_normalizer_status icu_normalizer_open_prepared_nonnull(icu_normalizer *normalizer,
    const uint8_t *prepared, size_t prepared_length, icu_normalizer_defect *defect);
icu_normalizer_status icu_normalizer_normalize_utf8_nonnull(icu_normalizer *normalizer, icu_normalizer_form form,
    const uint8_t *input, size_t input_length, uint8_t *output, size_t output_length, size_t *needed);
icu_normalizer_status icu_normalizer_normalize_utf16_nonnull(icu_normalizer *normalizer, icu_normalizer_form form,
    const uint16_t *input, size_t input_length, uint16_t *output, size_t output_length, size_t *needed);
icu_normalizer_status icu_normalizer_normalize_utf32_nonnull(icu_normalizer *normalizer, icu_normalizer_form form,
    const uint32_t *input, size_t input_length, uint32_t *output, size_t output_length, size_t *needed);
icu_normalizer_status icu_normalizer_is_normalized_utf8_nonnull(icu_normalizer *normalizer, icu_normalizer_form form,
    const uint8_t *input, size_t input_length, bool *is_normalized);
icu_normalizer_status icu_normalizer_is_normalized_utf16_nonnull(icu_normalizer *normalizer, icu_normalizer_form form,
    const uint16_t *input, size_t input_length, bool *is_normalized);
icu_normalizer_status icu_normalizer_is_normalized_utf32_nonnull(icu_normalizer *normalizer, icu_normalizer_form form,
    const uint32_t *input, size_t input_length, bool *is_normalized);
icu_normalizer_status icu_normalizer_split_utf8_nonnull(icu_normalizer *normalizer, icu_normalizer_form form,
    const uint8_t *input, size_t input_length, size_t *cut);
icu_normalizer_status icu_normalizer_split_utf16_nonnull(icu_normalizer *normalizer, icu_normalizer_form form,
    const uint16_t *input, size_t input_length, size_t *cut);
icu_normalizer_status icu_normalizer_first_mismatch_utf8_nonnull(icu_normalizer *normalizer, icu_normalizer_form form,
    const uint8_t *input, size_t input_length, icu_normalizer_mismatch *mismatch);
icu_normalizer_status icu_normalizer_first_mismatch_utf16_nonnull(icu_normalizer *normalizer, icu_normalizer_form form,
    const uint16_t *input, size_t input_length, icu_normalizer_mismatch *mismatch);
icu_normalizer_status icu_normalizer_map_utf8_nonnull(icu_normalizer *normalizer, bool are_replaced,
    const uint8_t *input, size_t input_length, uint8_t *output, size_t output_length, size_t *needed);
icu_normalizer_status icu_normalizer_map_utf16_nonnull(icu_normalizer *normalizer, bool are_replaced,
    const uint16_t *input, size_t input_length, uint16_t *output, size_t output_length, size_t *needed);
icu_normalizer_status icu_normalizer_combining_class_nonnull(icu_normalizer *normalizer, uint32_t character,
    uint8_t *combining_class);
icu_normalizer_status icu_normalizer_compose_nonnull(icu_normalizer *normalizer, uint32_t first, uint32_t second,
    uint32_t *composite);
icu_normalizer_status icu_normalizer_decompose_nonnull(icu_normalizer *normalizer, uint32_t character,
    uint32_t *first, uint32_t *second);
icu_normalizer_status icu_normalizer_has_boundary_before_nonnull(icu_normalizer *normalizer, icu_normalizer_form form,
    uint32_t character, bool *has_boundary);
icu_normalizer_status icu_normalizer_unicode_version_nonnull(icu_normalizer *normalizer, uint32_t *version);
icu_normalizer_status icu_normalizer_share_nonnull(icu_normalizer *from, icu_normalizer *to);
void icu_normalizer_close_nonnull(icu_normalizer *normalizer);

static uint64_t nothing;

/* The array, which is null only if it has no elements, or a pointer that isn't null. */
#define SOME(array, length) ((length) ? (array) : (void *)&nothing)

/* Takes a handle for a call, as a lock is taken, unless another call has it. */
static bool takes(icu_normalizer *normalizer) {
    return !__atomic_exchange_n(&normalizer->is_in_use, 1, __ATOMIC_ACQUIRE);
}

static icu_normalizer_status given_back(icu_normalizer *normalizer, icu_normalizer_status status) {
    __atomic_store_n(&normalizer->is_in_use, 0, __ATOMIC_RELEASE);
    return status;
}

/* What a call returns that has the handle to itself. */
#define ALONE(normalizer, call) (takes(normalizer) ? given_back(normalizer, call) : ICU_NORMALIZER_IN_USE)

icu_normalizer_status icu_normalizer_share(icu_normalizer *from, icu_normalizer *to) {
    if (!takes(from)) return ICU_NORMALIZER_IN_USE;
    if (from == to) return given_back(from, from->is_open ? ICU_NORMALIZER_OK : ICU_NORMALIZER_NOT_OPEN);
    return given_back(from, ALONE(to, icu_normalizer_share_nonnull(from, to)));
}

void icu_normalizer_close(icu_normalizer *normalizer) {
    if (!normalizer || !takes(normalizer)) return;
    icu_normalizer_close_nonnull(normalizer);
    given_back(normalizer, ICU_NORMALIZER_OK);
}

icu_normalizer_status icu_normalizer_open_unicode_data(icu_normalizer *normalizer,
    const uint8_t *unicode_data, size_t unicode_data_length,
    const uint8_t *exclusions, size_t exclusions_length) {
    icu_normalizer_defect defect;
    return icu_normalizer_open_files(normalizer, unicode_data, unicode_data_length, exclusions, exclusions_length,
        NULL, 0, 0, &defect);
}

icu_normalizer_status icu_normalizer_open_files(icu_normalizer *normalizer,
    const uint8_t *unicode_data, size_t unicode_data_length, const uint8_t *exclusions, size_t exclusions_length,
    const uint8_t *idna_table, size_t idna_table_length, uint32_t disallowed_limit, icu_normalizer_defect *defect) {
    return ALONE(normalizer, icu_normalizer_open_files_nonnull(normalizer, SOME(unicode_data, unicode_data_length),
        unicode_data_length, SOME(exclusions, exclusions_length), exclusions_length, SOME(idna_table,
        idna_table_length), idna_table_length, disallowed_limit, defect));
}

icu_normalizer_status icu_normalizer_open_prepared(icu_normalizer *normalizer,
    const uint8_t *prepared, size_t prepared_length, icu_normalizer_defect *defect) {
    return ALONE(normalizer, icu_normalizer_open_prepared_nonnull(normalizer, SOME(prepared, prepared_length),
        prepared_length, defect));
}

icu_normalizer_status icu_normalizer_normalize_utf8(icu_normalizer *normalizer, icu_normalizer_form form,
    const uint8_t *input, size_t input_length, uint8_t *output, size_t output_length, size_t *needed) {
    return ALONE(normalizer, icu_normalizer_normalize_utf8_nonnull(normalizer, form, SOME(input, input_length),
        input_length, SOME(output, output_length), output_length, needed));
}

icu_normalizer_status icu_normalizer_normalize_utf16(icu_normalizer *normalizer, icu_normalizer_form form,
    const uint16_t *input, size_t input_length, uint16_t *output, size_t output_length, size_t *needed) {
    return ALONE(normalizer, icu_normalizer_normalize_utf16_nonnull(normalizer, form, SOME(input, input_length),
        input_length, SOME(output, output_length), output_length, needed));
}

icu_normalizer_status icu_normalizer_normalize_utf32(icu_normalizer *normalizer, icu_normalizer_form form,
    const uint32_t *input, size_t input_length, uint32_t *output, size_t output_length, size_t *needed) {
    return ALONE(normalizer, icu_normalizer_normalize_utf32_nonnull(normalizer, form, SOME(input, input_length),
        input_length, SOME(output, output_length), output_length, needed));
}

icu_normalizer_status icu_normalizer_is_normalized_utf8(icu_normalizer *normalizer,
    icu_normalizer_form form, const uint8_t *input, size_t input_length, bool *is_normalized) {
    return ALONE(normalizer, icu_normalizer_is_normalized_utf8_nonnull(normalizer, form, SOME(input, input_length),
        input_length, is_normalized));
}

icu_normalizer_status icu_normalizer_is_normalized_utf16(icu_normalizer *normalizer,
    icu_normalizer_form form, const uint16_t *input, size_t input_length, bool *is_normalized) {
    return ALONE(normalizer, icu_normalizer_is_normalized_utf16_nonnull(normalizer, form, SOME(input, input_length),
        input_length, is_normalized));
}

icu_normalizer_status icu_normalizer_is_normalized_utf32(icu_normalizer *normalizer,
    icu_normalizer_form form, const uint32_t *input, size_t input_length, bool *is_normalized) {
    return ALONE(normalizer, icu_normalizer_is_normalized_utf32_nonnull(normalizer, form, SOME(input, input_length),
        input_length, is_normalized));
}

icu_normalizer_status icu_normalizer_split_utf8(icu_normalizer *normalizer, icu_normalizer_form form,
    const uint8_t *input, size_t input_length, size_t *cut) {
    return ALONE(normalizer, icu_normalizer_split_utf8_nonnull(normalizer, form, SOME(input, input_length),
        input_length, cut));
}

icu_normalizer_status icu_normalizer_split_utf16(icu_normalizer *normalizer, icu_normalizer_form form,
    const uint16_t *input, size_t input_length, size_t *cut) {
    return ALONE(normalizer, icu_normalizer_split_utf16_nonnull(normalizer, form, SOME(input, input_length),
        input_length, cut));
}

icu_normalizer_status icu_normalizer_first_mismatch_utf8(icu_normalizer *normalizer,
    icu_normalizer_form form, const uint8_t *input, size_t input_length, icu_normalizer_mismatch *mismatch) {
    return ALONE(normalizer, icu_normalizer_first_mismatch_utf8_nonnull(normalizer, form, SOME(input, input_length),
        input_length, mismatch));
}

icu_normalizer_status icu_normalizer_first_mismatch_utf16(icu_normalizer *normalizer,
    icu_normalizer_form form, const uint16_t *input, size_t input_length, icu_normalizer_mismatch *mismatch) {
    return ALONE(normalizer, icu_normalizer_first_mismatch_utf16_nonnull(normalizer, form, SOME(input, input_length),
        input_length, mismatch));
}

icu_normalizer_status icu_normalizer_map_utf8(icu_normalizer *normalizer,
    const uint8_t *input, size_t input_length, uint8_t *output, size_t output_length, size_t *needed) {
    return ALONE(normalizer, icu_normalizer_map_utf8_nonnull(normalizer, false, SOME(input, input_length), input_length,
        SOME(output, output_length), output_length, needed));
}

icu_normalizer_status icu_normalizer_validate_utf8(icu_normalizer *normalizer,
    const uint8_t *input, size_t input_length, uint8_t *output, size_t output_length, size_t *needed) {
    return ALONE(normalizer, icu_normalizer_map_utf8_nonnull(normalizer, true, SOME(input, input_length), input_length,
        SOME(output, output_length), output_length, needed));
}

icu_normalizer_status icu_normalizer_map_utf16(icu_normalizer *normalizer,
    const uint16_t *input, size_t input_length, uint16_t *output, size_t output_length, size_t *needed) {
    return ALONE(normalizer, icu_normalizer_map_utf16_nonnull(normalizer, false, SOME(input, input_length),
        input_length, SOME(output, output_length), output_length, needed));
}

icu_normalizer_status icu_normalizer_validate_utf16(icu_normalizer *normalizer,
    const uint16_t *input, size_t input_length, uint16_t *output, size_t output_length, size_t *needed) {
    return ALONE(normalizer, icu_normalizer_map_utf16_nonnull(normalizer, true, SOME(input, input_length), input_length,
        SOME(output, output_length), output_length, needed));
}

icu_normalizer_status icu_normalizer_combining_class(icu_normalizer *normalizer, uint32_t character,
    uint8_t *combining_class) {
    return ALONE(normalizer, icu_normalizer_combining_class_nonnull(normalizer, character, combining_class));
}

icu_normalizer_status icu_normalizer_compose(icu_normalizer *normalizer, uint32_t first, uint32_t second,
    uint32_t *composite) {
    return ALONE(normalizer, icu_normalizer_compose_nonnull(normalizer, first, second, composite));
}

icu_normalizer_status icu_normalizer_decompose(icu_normalizer *normalizer, uint32_t character,
    uint32_t *first, uint32_t *second) {
    return ALONE(normalizer, icu_normalizer_decompose_nonnull(normalizer, character, first, second));
}

icu_normalizer_status icu_normalizer_has_boundary_before(icu_normalizer *normalizer, icu_normalizer_form form,
    uint32_t character, bool *has_boundary) {
    return ALONE(normalizer, icu_normalizer_has_boundary_before_nonnull(normalizer, form, character, has_boundary));
}

icu_normalizer_status icu_normalizer_unicode_version(icu_normalizer *normalizer, uint32_t *version) {
    return ALONE(normalizer, icu_normalizer_unicode_version_nonnull(normalizer, version));
}
