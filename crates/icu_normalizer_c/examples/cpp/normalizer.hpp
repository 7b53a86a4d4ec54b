// Normalizers over std::string, std::u16string and std::u32string, by the calls of icu_normalizer.h.
#ifndef NORMALIZER_HPP
#define NORMALIZER_HPP

#include "icu_normalizer.h"

#include <new>
#include <optional>
#include <stdexcept>
#include <string>
#include <string_view>

enum class NormalForm : icu_normalizer_form { Nfd, Nfc, Nfkd, Nfkc };

// Normalizers to the four forms, by the bytes of Unicode's files. A moved-from one is closed.
class Normalizer {
public:
    Normalizer(std::string_view unicode_data, std::string_view exclusions) {
        check(icu_normalizer_open_unicode_data(
            &handle, units<uint8_t>(unicode_data), unicode_data.size(), units<uint8_t>(exclusions), exclusions.size()));
    }

    // With a mapper by the bytes of IdnaMappingTable.txt, without its disallowed ranges of more code points than that.
    Normalizer(std::string_view unicode_data, std::string_view exclusions, std::string_view idna_table,
        uint32_t disallowed_limit = 0x110000) {
        icu_normalizer_defect defect = {};
        auto status = icu_normalizer_open_files(&handle, units<uint8_t>(unicode_data), unicode_data.size(),
            units<uint8_t>(exclusions), exclusions.size(), units<uint8_t>(idna_table), idna_table.size(),
            disallowed_limit, &defect);
        check(status, defect);
    }

    // By the bytes of a file of prepared data.
    static Normalizer prepared(std::string_view content) {
        Normalizer made;
        icu_normalizer_defect defect = {};
        check(icu_normalizer_open_prepared(&made.handle, units<uint8_t>(content), content.size(), &defect), defect);
        return made;
    }

    Normalizer(Normalizer &&other) noexcept : handle(other.handle) {
        other.handle = icu_normalizer ICU_NORMALIZER_CLOSED;
    }
    // Another normalizer over the same data, for another thread.
    Normalizer share() {
        Normalizer other;
        check(icu_normalizer_share(&handle, &other.handle));
        return other;
    }

    Normalizer(const Normalizer &) = delete;
    Normalizer &operator=(const Normalizer &) = delete;
    Normalizer &operator=(Normalizer &&) = delete;
    ~Normalizer() { icu_normalizer_close(&handle); }

    std::string normalize(NormalForm form, std::string_view input) {
        return written<std::string, uint8_t>(icu_normalizer_normalize_utf8, input, number(form));
    }

    std::u16string normalize(NormalForm form, std::u16string_view input) {
        return written<std::u16string, uint16_t>(icu_normalizer_normalize_utf16, input, number(form));
    }

    std::u32string normalize(NormalForm form, std::u32string_view input) {
        return written<std::u32string, uint32_t>(icu_normalizer_normalize_utf32, input, number(form));
    }

    // The input mapped by Unicode Technical Standard #46, in NFC.
    std::string map(std::string_view input) {
        return written<std::string, uint8_t>(icu_normalizer_map_utf8, input);
    }

    std::u16string map(std::u16string_view input) {
        return written<std::u16string, uint16_t>(icu_normalizer_map_utf16, input);
    }

    // The same, with U+FFFD for ignored characters. Mapped text is valid only if this leaves it unchanged.
    std::string validate(std::string_view input) {
        return written<std::string, uint8_t>(icu_normalizer_validate_utf8, input);
    }

    std::u16string validate(std::u16string_view input) {
        return written<std::u16string, uint16_t>(icu_normalizer_validate_utf16, input);
    }

    bool is_normalized(NormalForm form, std::string_view input) {
        bool is = false;
        check(icu_normalizer_is_normalized_utf8(&handle, number(form), units<uint8_t>(input), input.size(), &is));
        return is;
    }

    bool is_normalized(NormalForm form, std::u16string_view input) {
        bool is = false;
        check(icu_normalizer_is_normalized_utf16(&handle, number(form), units<uint16_t>(input), input.size(), &is));
        return is;
    }

    bool is_normalized(NormalForm form, std::u32string_view input) {
        bool is = false;
        check(icu_normalizer_is_normalized_utf32(&handle, number(form), units<uint32_t>(input), input.size(), &is));
        return is;
    }

    // The length of the beginning of the input that stays as it is.
    size_t split(NormalForm form, std::string_view input) {
        size_t cut = 0;
        check(icu_normalizer_split_utf8(&handle, number(form), units<uint8_t>(input), input.size(), &cut));
        return cut;
    }

    size_t split(NormalForm form, std::u16string_view input) {
        size_t cut = 0;
        check(icu_normalizer_split_utf16(&handle, number(form), units<uint16_t>(input), input.size(), &cut));
        return cut;
    }

    // The first place where the input is ill-formed or differs from its form, if there is one.
    std::optional<icu_normalizer_mismatch> first_mismatch(NormalForm form, std::string_view input) {
        return mismatch<uint8_t>(icu_normalizer_first_mismatch_utf8, form, input);
    }

    std::optional<icu_normalizer_mismatch> first_mismatch(NormalForm form, std::u16string_view input) {
        return mismatch<uint16_t>(icu_normalizer_first_mismatch_utf16, form, input);
    }

private:
    icu_normalizer handle = ICU_NORMALIZER_CLOSED;

    Normalizer() = default;

    static icu_normalizer_form number(NormalForm form) { return static_cast<icu_normalizer_form>(form); }

    static void check(icu_normalizer_status status) {
        if (status == ICU_NORMALIZER_OUT_OF_MEMORY) throw std::bad_alloc();
        if (status != ICU_NORMALIZER_OK) throw std::runtime_error(icu_normalizer_status_text(status));
    }

    static void check(icu_normalizer_status status, const icu_normalizer_defect &defect) {
        if (status == ICU_NORMALIZER_WRONG_LINE || status == ICU_NORMALIZER_WRONG_RECORDS
            || status == ICU_NORMALIZER_WRONG_PREPARED)
            throw std::runtime_error(std::to_string(defect.place) + ": " + icu_normalizer_reason_text(defect.reason));
        check(status);
    }

    template <class Unit, class Text> static const Unit *units(Text text) {
        return reinterpret_cast<const Unit *>(text.data());
    }

    template <class Unit, class Call, class Text>
    std::optional<icu_normalizer_mismatch> mismatch(Call call, NormalForm form, Text input) {
        icu_normalizer_mismatch found = {};
        check(call(&handle, number(form), units<Unit>(input), input.size(), &found));
        return found.exists ? std::optional(found) : std::nullopt;
    }

    template <class Owned, class Unit, class Call, class Text, class... Words>
    Owned written(Call call, Text input, Words... words) {
        Owned output(input.size() + 1, 0);
        for (;;) {
            size_t needed = 0;
            auto status = call(&handle, words..., units<Unit>(input), input.size(),
                reinterpret_cast<Unit *>(output.data()), output.size(), &needed);
            if (status != ICU_NORMALIZER_BUFFER_TOO_SMALL) check(status);
            output.resize(needed);
            if (status == ICU_NORMALIZER_OK) return output;
        }
    }
};

#endif
