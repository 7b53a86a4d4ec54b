// Times the calls of the library for C beside those of other libraries, by google-benchmark: speed DATA TEXT
//
// DATA is the folder of Unicode's files and of the data prepared of them, TEXT a file in UTF-8. What the libraries
// write is compared before anything is timed. A row is TEXT/FORM/CALL/LIBRARY; checks are timed on the form of the text,
// and `bytes` is the size of what is read, in UTF-8. Libraries whose time grows by the square of a run skip `marks-..`.
#include "icu_normalizer.h"
#include <benchmark/benchmark.h>
#include <fstream>
#include <iostream>
#include <malloc.h>
#include <unicode/bytestream.h>
#include <unicode/normalizer2.h>
#include <unicode/unistr.h>
#include <unicode/unorm2.h>
#include <utf8proc.h>
using std::string;

// A call of a library: it writes units, sets `*made` to where, and returns how many; a check returns 1 or 0.
using Run = size_t(unsigned form, const void *text, size_t length, const void **made);
extern "C" Run icu4x_utf8, icu4x_utf16, icu4x_utf32, icu4x_is_utf8, icu4x_is_utf16, iterated_utf8, iterated_is_utf8;

[[noreturn]] static void stop(const string &why) { std::cerr << "speed: " << why << '\n', std::exit(2); }

constexpr size_t ROOM = 32 << 20;
alignas(64) static char room[ROOM];
static icu_normalizer normalizer = ICU_NORMALIZER_CLOSED, mapper = ICU_NORMALIZER_CLOSED;

template <class Unit, auto call> size_t own(unsigned form, const void *text, size_t length, const void **made) {
    auto *from = static_cast<const Unit *>(text);
    auto *to = reinterpret_cast<Unit *>(room);
    size_t result = 0, units = ROOM / sizeof(Unit);
    bool is_normalized = false;
    icu_normalizer_status status;
    if constexpr (std::is_invocable_v<decltype(call), icu_normalizer *, unsigned, const Unit *, size_t, bool *>)
        status = call(&normalizer, form, from, length, &is_normalized);
    else if constexpr (std::is_invocable_v<decltype(call), icu_normalizer *, const Unit *, size_t, Unit *, size_t, size_t *>)
        status = call(&mapper, from, length, to, units, &result);
    else
        status = call(&normalizer, form, from, length, to, units, &result);
    if (status) stop(icu_normalizer_status_text(status));
    *made = room;
    return result | is_normalized;
}

// To the four forms, and by UTS #46.
enum { MAPPING = 4, FORMS };
static const char *const FORM_NAMES[FORMS] = {"NFD", "NFC", "NFKD", "NFKC", "UTS46"};
static const icu::Normalizer2 *icu4c[FORMS];

template <bool is_check> size_t icu4c_utf8(unsigned form, const void *text, size_t length, const void **made) {
    UErrorCode error = U_ZERO_ERROR;
    icu::StringPiece from(static_cast<const char *>(text), static_cast<int32_t>(length));
    if (is_check) return icu4c[form]->isNormalizedUTF8(from, error);
    icu::CheckedArrayByteSink sink(room, ROOM);
    icu4c[form]->normalizeUTF8(0, from, sink, nullptr, error);
    if (U_FAILURE(error)) stop(u_errorName(error));
    *made = room;
    return sink.NumberOfBytesWritten();
}

template <bool is_check> size_t icu4c_utf16(unsigned form, const void *text, size_t length, const void **made) {
    UErrorCode error = U_ZERO_ERROR;
    auto *by = reinterpret_cast<const UNormalizer2 *>(icu4c[form]);
    auto *from = static_cast<const char16_t *>(text);
    if (is_check) return unorm2_isNormalized(by, from, length, &error);
    size_t result = unorm2_normalize(by, from, length, reinterpret_cast<char16_t *>(room), ROOM / 2, &error);
    if (U_FAILURE(error)) stop(u_errorName(error));
    *made = room;
    return result;
}

static size_t utf8proc(unsigned form, const void *text, size_t length, const void **made) {
    static uint8_t *written = nullptr;
    std::free(written);
    int options = (form & 1 ? UTF8PROC_COMPOSE : UTF8PROC_DECOMPOSE) | (form & 2 ? UTF8PROC_COMPAT : 0) | UTF8PROC_STABLE;
    auto *from = static_cast<const uint8_t *>(text);
    auto result = utf8proc_map(from, length, &written, static_cast<utf8proc_option_t>(options));
    if (result < 0) stop("utf8proc");
    *made = written;
    return result;
}

// The calls, by their names without `icu_normalizer_`; how many bytes a unit has, and the libraries that have such a call.
static const struct Call {
    string name;
    size_t width;
    std::vector<std::pair<string, Run *>> ways;
    bool is_check() const { return name[0] == 'i'; }
    bool has(unsigned form) const { return (name[0] == 'm') == (form == MAPPING); }
} CALLS[] = {
    {"normalize_utf8", 1, {{"this library", own<uint8_t, icu_normalizer_normalize_utf8>}, {"ICU4C", icu4c_utf8<false>},
        {"icu_normalizer", icu4x_utf8}, {"unicode-normalization", iterated_utf8}, {"utf8proc", utf8proc}}},
    {"normalize_utf16", 2, {{"this library", own<uint16_t, icu_normalizer_normalize_utf16>},
        {"ICU4C", icu4c_utf16<false>}, {"icu_normalizer", icu4x_utf16}}},
    {"normalize_utf32", 4, {{"this library", own<uint32_t, icu_normalizer_normalize_utf32>}, {"icu_normalizer", icu4x_utf32}}},
    {"is_normalized_utf8", 1, {{"this library", own<uint8_t, icu_normalizer_is_normalized_utf8>}, {"ICU4C", icu4c_utf8<true>},
        {"icu_normalizer", icu4x_is_utf8}, {"unicode-normalization", iterated_is_utf8}}},
    {"is_normalized_utf16", 2, {{"this library", own<uint16_t, icu_normalizer_is_normalized_utf16>},
        {"ICU4C", icu4c_utf16<true>}, {"icu_normalizer", icu4x_is_utf16}}},
    {"is_normalized_utf32", 4, {{"this library", own<uint32_t, icu_normalizer_is_normalized_utf32>}}},
    {"map_utf8", 1, {{"this library", own<uint8_t, icu_normalizer_map_utf8>}, {"ICU4C", icu4c_utf8<false>}}},
    {"map_utf16", 2, {{"this library", own<uint16_t, icu_normalizer_map_utf16>}, {"ICU4C", icu4c_utf16<false>}}},
};

// The units of a text in UTF-8, as bytes.
static string encoded(const string &text, size_t width) {
    auto units = icu::UnicodeString::fromUTF8(text);
    auto *at = reinterpret_cast<const char *>(units.getBuffer());
    if (width < 4) return width == 1 ? text : string(at, 2 * units.length());
    string wide(4 * units.length(), '\0');
    UErrorCode error = U_ZERO_ERROR;
    wide.resize(4 * units.toUTF32(reinterpret_cast<UChar32 *>(&wide[0]), units.length(), error));
    return wide;
}

// What a call writes or finds.
static string result(const Call &call, Run *run, unsigned form, const string &units) {
    const void *made = nullptr;
    size_t length = run(form, units.data(), units.size() / call.width, &made);
    return call.is_check() ? std::to_string(length) : string(static_cast<const char *>(made), length * call.width);
}

static void add(const string &name, const string &text, unsigned form, const Call &call) {
    string read = call.is_check() ? result(CALLS[0], CALLS[0].ways[0].second, form, text) : text;
    string units = encoded(read, call.width), given = encoded(text, call.width);
    for (auto &[library, run] : call.ways) {
        if (!name.compare(0, 6, "marks-") && (library == "ICU4C" || library == "utf8proc")) continue;
        string row = name + '/' + FORM_NAMES[form] + '/' + call.name + '/' + library;
        if (call.is_check() && result(call, run, form, units) != "1") stop(row + " isn't in its form");
        if (result(call, run, form, given) != result(call, call.ways[0].second, form, given)) stop(row + " differs");
        benchmark::RegisterBenchmark(row.c_str(), [=, run = run](benchmark::State &state) {
            const void *made = nullptr;
            size_t length = units.size() / call.width;
            for (auto _ : state) benchmark::DoNotOptimize(run(form, units.data(), length, &made));
            state.counters["bytes"] = static_cast<double>(read.size());
        });
    }
}

static string content(const string &path) {
    std::ifstream file(path, std::ios::binary);
    if (!file) stop(path + " can't be read");
    return {std::istreambuf_iterator<char>(file), {}};
}

// Reads the files of a folder, or the one of prepared data, and opens a handle.
static void open(icu_normalizer *to, const string &folder, bool is_prepared, const string &table = "") {
    static icu_normalizer_defect defect;
    auto at = [](const string &file) { return reinterpret_cast<const uint8_t *>(file.data()); };
    string data = content(folder + (is_prepared ? "/prepared" : "/UnicodeData.txt"));
    string exclusions = content(folder + "/CompositionExclusions.txt");
    auto status = is_prepared ? icu_normalizer_open_prepared(to, at(data), data.size(), &defect)
        : icu_normalizer_open_files(to, at(data), data.size(), at(exclusions), exclusions.size(), at(table), table.size(),
                                    ICU_NORMALIZER_NO_CHARACTER, &defect);
    if (status) stop(folder + ": " + icu_normalizer_status_text(status));
}

int main(int count, char **arguments) {
    // What is freed stays in the process, so that no call pays for getting it anew.
    mallopt(M_MMAP_THRESHOLD, 32 << 20);
    mallopt(M_TRIM_THRESHOLD, 1 << 30);
    benchmark::Initialize(&count, arguments);
    string folder = arguments[1], debian = "/usr/share/unicode";
    for (string data : {"prepared", "UnicodeData.txt"})
        benchmark::RegisterBenchmark(("start/-/" + data + "/this library").c_str(), [=](benchmark::State &state) {
            for (auto _ : state) {
                icu_normalizer opened = ICU_NORMALIZER_CLOSED;
                size_t before = mallinfo2().uordblks;
                open(&opened, folder, data == "prepared");
                state.counters["bytes"] = static_cast<double>(mallinfo2().uordblks - before);
                icu_normalizer_close(&opened);
            }
        });
    open(&normalizer, folder, true);
    // ICU4C's mapping is of the version of Debian's files.
    open(&mapper, debian, false, content(debian + "/idna/IdnaMappingTable.txt"));
    UErrorCode error = U_ZERO_ERROR;
    for (unsigned form = 0; form < FORMS; form++)
        icu4c[form] = icu::Normalizer2::getInstance(nullptr, form == MAPPING ? "uts46" : form & 2 ? "nfkc" : "nfc",
                                                    form % 2 || form == MAPPING ? UNORM2_COMPOSE : UNORM2_DECOMPOSE, error);
    if (U_FAILURE(error)) stop(u_errorName(error));
    string path = arguments[2], text = content(path);
    for (const Call &call : CALLS)
        for (unsigned form = 0; form < FORMS; form++)
            if (call.has(form)) add(path.substr(path.rfind('/') + 1), text, form, call);
    benchmark::RunSpecifiedBenchmarks();
}
