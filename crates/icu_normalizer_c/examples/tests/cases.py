"""The cases of examples/c/cases.c: inputs and their four forms, a line each."""
import bz2
import pathlib
import random
import unicodedata

FORMS = ("nfd", "nfc", "nfkd", "nfkc")
ENCODINGS = ((8, "utf-8"), (16, "utf-16-be"))
TEST_FILE = pathlib.Path("/usr/share/unicode/NormalizationTest.txt.bz2")
PIECES = [it.encode() for it in ("a", "e\u0301", "\u0308", "\u0323", "\u1112", "\u1161", "\uAC00", "\uFB01")]
BROKEN = [b"\x80", b"\xC2", b"\xC0\x80", b"\xE2\x98", b"\xED\xA0\x80", b"\xF0\x90\x80", b"\xF4\x90\x80\x80", b"\xFF"]
UNITS = [0x61, 0x308, 0x323, 0xAC00, 0x11A8, 0x1EC7, 0xD834, 0xDD5E, 0xD800, 0xDBFF, 0xDC00, 0xDFFF]


def line_of(bits, units, forms):
    """The units of an input, and those of its four forms."""
    encoding = dict(ENCODINGS)[bits]
    words = [units, *(text.encode(encoding) for text in forms)]
    return " ".join([str(bits), *("." + word.hex().upper() for word in words)])


def forms_of(text):
    return [unicodedata.normalize(form.upper(), text) for form in FORMS]


def rows_of_test():
    """Each of the five texts of a line, with its forms (NormalizationTest.txt says which columns they are)."""
    for line in bz2.decompress(TEST_FILE.read_bytes()).decode().splitlines():
        if line and line[0] not in "#@":
            c1, c2, c3, c4, c5 = ("".join(chr(int(code, 16)) for code in it.split()) for it in line.split(";")[:5])
            yield from ((it, [c3, c2, c5, c4]) for it in (c1, c2, c3))
            yield from ((it, [c5, c4, c5, c4]) for it in (c4, c5))


def conformance_cases(count):
    """The lines of Unicode's own test, from Debian's package unicode-data, or else each character of Python's data. A
    count other than 0 takes so many."""
    if TEST_FILE.exists():
        source, rows = TEST_FILE.name.removesuffix(".bz2"), list(rows_of_test())
    else:
        texts = [chr(code) for code in range(0x110000) if unicodedata.category(chr(code)) not in ("Cn", "Cs", "Co")]
        source, rows = "Python's unicodedata", [(text, forms_of(text)) for text in texts]
    lines = [line_of(bits, text.encode(encoding), forms) for text, forms in rows for bits, encoding in ENCODINGS]
    return source, lines[:: max(1, len(lines) // count)] if count else lines


def ill_formed_cases(count):
    """Inputs with ill-formed parts, and the forms of what Python decodes them to, of characters of its version."""
    chance = random.Random(46)
    while count:
        bits, units, text, is_ill = bytes_by(chance) if chance.random() < 0.5 else wide_units_by(chance)
        if is_ill and all(it == "\uFFFD" or unicodedata.category(it) != "Cn" for it in text):
            count -= 1
            yield line_of(bits, units, forms_of(text))


def bytes_by(chance):
    pieces = chance.choices(PIECES, k=chance.randrange(6)) + chance.choices(BROKEN, k=chance.randrange(1, 4))
    chance.shuffle(pieces)
    units = b"".join(pieces) + chance.randbytes(chance.randrange(3))
    return 8, units, units.decode(errors="replace"), not is_utf8(units)


def wide_units_by(chance):
    units = b"".join(it.to_bytes(2, "big") for it in chance.choices(UNITS, k=chance.randrange(1, 9)))
    decoded = units.decode("utf-16-be", "surrogatepass")
    text = "".join("\uFFFD" if "\uD800" <= it <= "\uDFFF" else it for it in decoded)
    return 16, units, text, text != decoded


def is_utf8(units):
    try:
        units.decode()
    except UnicodeDecodeError:
        return False
    return True
