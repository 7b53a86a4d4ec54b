"""Times `normalize` beside that of `unicodedata`, on strings of 10 and of 10^6 characters: a ratio for each text and
form."""
import statistics
import time
import timeit
import unicodedata

import icu_normalizer

FORMS = ("NFC", "NFD", "NFKC", "NFKD")
TEXTS = {
    "ASCII": "identifier",
    "Latin": "caf\xE9 na\xEFve",
    "Latin, decomposed": "cafe\u0301 \xE0 la",
    "Vietnamese": "Ti\u1EBFng Vi\u1EC7t",
    "Vietnamese, decomposed": "Tie\u0302\u0301ng Vi",
    "Greek": "\u03BA\u03B1\u03BB\u03B7\u03BC\u03AD\u03C1\u03B1 \u03C3",
    "Cyrillic": "\u043F\u0440\u0438\u0432\u0435\u0442 \u043C\u0438\u0440",
    "Hebrew": "\u05E9\u05DC\u05D5\u05DD \u05E2\u05D5\u05DC\u05DD!",
    "Hebrew, pointed": "\u05E9\u05B8\u05DC\u05D5\u05B9\u05DD \u05E8\u05B7\u05D1",
    "Hebrew, presentation": "\u05E9\u05C1\u05E9\u05C2\u05D0\u05B7\u05D1\u05BC\u05D2\u05BC",
    "Arabic": "\u0645\u0631\u062D\u0628\u0627 \u0628\u0643\u0645\u061F",
    "Arabic, one mark": "\u0645\u0631\u062D\u0628\u064B\u0627 \u0628\u0643\u0645",
    "Arabic, vocalized": "\u0645\u064E\u0631\u0652\u062D\u064E\u0628\u064B\u0627\u0628",
    "Bengali": "\u09AC\u09BE\u0982\u09B2\u09BE \u09AD\u09BE\u09B7\u09BE",
    "Devanagari": "\u0928\u092E\u0938\u094D\u0924\u0947 \u0926\u0941\u0928",
    "Thai": "\u0E2A\u0E27\u0E31\u0E2A\u0E14\u0E35\u0E04\u0E23\u0E31\u0E1A",
    "Korean": "\uC548\uB155\uD558\uC138\uC694 \uC138\uACC4\uC5EC\uB7EC",
    "Korean, decomposed": "\u110B\u1161\u11AB\u1102\u1167\u11BC\u1112\u1161\u1109\u1166",
    "Chinese": "\u4F60\u597D\u4E16\u754C\u6B22\u8FCE\u6765\u5230\u8FD9\u91CC",
    "Japanese": "\u30AB\u3099\u30AE\u306F\u30D1\u30F3\u3067\u3059\u3088\u306D",
    "full-width": "\uFF21\uFF22\uFF23\uFF11\uFF12\uFF13\uFF0C\uFF21\uFF22\uFF23",
    "half-width": "\uFF76\uFF9E\uFF77\uFF78\uFF79\uFF9E\uFF7A\uFF7B\uFF7C\uFF7D",
    "half-width, voiced": "\uFF76\uFF9E\uFF77\uFF9E\uFF78\uFF9E\uFF79\uFF9E\uFF7A\uFF9E",
    "Gothic": "".join(map(chr, range(0x10330, 0x1033A))),
    "words and emoji": "\U0001F600\U0001F44D ok \U0001F680\U0001F44D!!",
    "emoji": "".join(map(chr, range(0x1F600, 0x1F60A))),
    "emoji, joined and varied": "\U0001F468\u200D\U0001F469\u200D\U0001F467 \u2764\uFE0F\U0001F44D\U0001F3FD",
    "marks out of order": "a\u0301\u0323b\u0302\u0323c\u0304\u0323d",
    "ligatures": 2 * "".join(map(chr, range(0xFB00, 0xFB05))),
    "circled": "".join(map(chr, range(0x2460, 0x246A))),
    "circled Hangul": "".join(map(chr, range(0x326E, 0x3278))),
    "mathematical": "".join(map(chr, range(0x1D400, 0x1D40A))),
    "musical": 2 * "".join(map(chr, range(0x1D15E, 0x1D163))),
    "CJK, compatibility": "".join(map(chr, range(0x2F972, 0x2F97C))),
    "Kaithi letters": "".join(map(chr, range(0x11096, 0x110A0))),
    "U+FFFD": "caf\uFFFD na\uFFFDve",
    "Chakma": "\U00011103\U0001110B\U00011134\U0001111F\U00011133\U00011126 \U0001110C\U0001110B\U00011134",
    "Hanifi Rohingya": "".join(map(chr, (0x10D0C, 0x10D17, 0x10D25, 0x10D1D, 0x10D19, 0x10D1A, 0x10D12))) + " 12",
    "Kaithi": "\U00011096\U00011097\U000110B0\U00011099\U000110B9 \U00011096\U00011097\U000110B0\U00011099",
    "marks": "".join(map(chr, range(0x2DE2, 0x2DEC))),
    "marks, Glagolitic": "".join(map(chr, range(0x1E00B, 0x1E015))),
    "U+FFFD alone": 10 * "\uFFFD",
    "Hangul in parentheses": "".join(map(chr, range(0x320E, 0x3218))),
    "musical marks": "".join(map(chr, range(0x1D165, 0x1D16F))),
    "Sogdian": "".join(map(chr, range(0x10F44, 0x10F4E))),
    "Tirhuta": "".join(map(chr, range(0x114BC, 0x114C6))),
    "mathematical digits": "".join(map(chr, range(0x1D7D2, 0x1D7DC))),
    "numbers in parentheses": "".join(map(chr, range(0x2478, 0x2482))),
    "words in a circle": 10 * "\u327D",
    "two marks": 10 * "\u0344",
    "two vowels": 10 * "\u0F75",
    "modifier letters": 10 * "\U000107BA",
    "modifier letters, IPA": 10 * "\U0001079C",
    "Hebrew points": 10 * "\u05BA",
    "Vedic tones": 10 * "\u1CD7",
    "CJK, one ideograph": 10 * "\U0002F943",
    "CJK, to beyond U+FFFF": 10 * "\uFAD1",
    "letters in parentheses": "".join(map(chr, range(0x1F119, 0x1F123))),
    "ideographs in brackets": "".join(map(chr, (0x1F23A, 0x1F23B, *range(0x1F240, 0x1F248)))),
}


# Those that are repeated up to 10^6 characters.
LONG = (
    "ASCII",
    "Latin",
    "Latin, decomposed",
    "Vietnamese",
    "Greek",
    "Cyrillic",
    "Arabic",
    "Arabic, vocalized",
    "Devanagari",
    "Korean",
    "Korean, decomposed",
    "Chinese",
    "Japanese",
    "words and emoji",
    "emoji",
    "emoji, joined and varied",
    "mathematical",
)


def ratio(form, text, samples=51, number=5000):
    """The processor time of a call beside that of `unicodedata`: the median of samples that are taken in pairs."""
    own, other = (
        timeit.Timer("call(form, text)", timer=time.process_time, globals={"call": call, "form": form, "text": text})
        for call in (icu_normalizer.normalize, unicodedata.normalize)
    )
    return statistics.median(own.timeit(number) / other.timeit(number) for _ in range(samples))


def row(name, ratios):
    print(f"{name:25}" + "".join(f"{it:7.2f}" for it in ratios), flush=True)


def main():
    print(f"{'10 characters':25}" + "".join(f"{form:>7}" for form in FORMS))
    for name, text in TEXTS.items():
        row(name, [ratio(form, text) for form in FORMS])
    print(f"{'10^6 characters':25}" + "".join(f"{form:>7}" for form in FORMS))
    for name in LONG:
        row(name, [ratio(form, 10**5 * TEXTS[name], samples=5, number=1) for form in FORMS])


if __name__ == "__main__":
    main()
