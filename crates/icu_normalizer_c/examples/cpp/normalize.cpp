// Writes the form of standard input to standard output: normalize FILE FORM. The file has prepared data, and the form is
// nfd, nfc, nfkd or nfkc. After a third word, `check`, it writes the first mismatch instead: the offset in bytes, the
// character found, and the one expected; or `normalized`.
#include "normalizer.hpp"

#include <array>
#include <fstream>
#include <iomanip>
#include <iostream>
#include <iterator>

static std::string all_of(std::istream &stream, const std::string &name) {
    if (!stream) throw std::runtime_error(name + ": it can't be read");
    return {std::istreambuf_iterator<char>(stream), std::istreambuf_iterator<char>()};
}

static std::string file(const std::string &path) {
    std::ifstream stream(path, std::ios::binary);
    return all_of(stream, path);
}

static NormalForm form_of(const std::string &word) {
    static const std::array<std::string, 4> words = {"nfd", "nfc", "nfkd", "nfkc"};
    for (size_t form = 0; form < words.size(); form++)
        if (word == words[form]) return static_cast<NormalForm>(form);
    throw std::runtime_error(word + ": it is no form");
}

static void write(const std::optional<icu_normalizer_mismatch> &mismatch) {
    if (!mismatch) {
        std::cout << "normalized\n";
        return;
    }
    std::cout << mismatch->offset << std::hex << std::uppercase << std::setfill('0');
    std::cout << ' ' << std::setw(4) << mismatch->found << ' ' << std::setw(4) << mismatch->expected << '\n';
}

int main(int count, char **words) try {
    bool checks = count == 4 && words[3] == std::string("check");
    if (count != 3 && !checks) throw std::runtime_error("usage: normalize FILE FORM [check]");
    Normalizer normalizer = Normalizer::prepared(file(words[1]));
    NormalForm form = form_of(words[2]);
    std::string input = all_of(std::cin, "standard input");
    if (checks)
        write(normalizer.first_mismatch(form, input));
    else
        std::cout << normalizer.normalize(form, input);
    if (!(std::cout << std::flush)) throw std::runtime_error("standard output: it can't be written");
} catch (const std::exception &error) {
    std::cerr << "normalize: " << error.what() << '\n';
    return 2;
}
