"""The mapper over Unicode's IdnaMappingTable.txt, compared with Python's package idna, which has the table of another
version. Only code points of which both tables say the same are compared, and of these only those whose characters
Python's `unicodedata`, which idna normalizes by, knows."""
import bisect
import importlib
import pathlib
import random
import sys
import unicodedata

FOLDER = pathlib.Path("/usr/share/unicode")
FILES = [FOLDER / "UnicodeData.txt", FOLDER / "CompositionExclusions.txt", FOLDER / "idna/IdnaMappingTable.txt"]
ALL, TEXTS = 0x110000, 100_000
# What the library, like idna without STD3 rules and transitional processing, reads a status as.
STATUSES = {
    "valid": "V",
    "deviation": "V",
    "disallowed_STD3_valid": "V",
    "mapped": "M",
    "disallowed_STD3_mapped": "M",
    "ignored": "I",
    "disallowed": "X",
}


def missing():
    """What isn't installed that is needed, or nothing."""
    if not all(file.exists() for file in FILES):
        return "Debian's package unicode-data"
    try:
        importlib.import_module("idna.uts46data")
    except ImportError:
        return "Python's package idna"
    return None


def rows_of_file():
    """The status of each code point and what it is mapped to, by the file."""
    for line in FILES[2].read_text(encoding="utf-8").splitlines():
        fields = [it.strip() for it in line.partition("#")[0].split(";")]
        if len(fields) > 1:
            first, _, last = fields[0].partition("..")
            status = STATUSES[fields[1]]
            mapping = "".join(chr(int(it, 16)) for it in fields[2].split()) if status == "M" else ""
            yield from ((code, (status, mapping)) for code in range(int(first, 16), int(last or first, 16) + 1))


def row_of_idna(table, code):
    """The same by idna: it has a row for each code point below 256, else for the first of several."""
    row = table[code if code < 256 else bisect.bisect_left(table, (code, "Z")) - 1]
    mapping = row[2] if len(row) == 3 else ""
    if row[1] == "3":
        return ("M", mapping) if len(row) == 3 else ("V", "")
    return ("M", mapping) if row[1] == "M" else (row[1].replace("D", "V"), "")


def is_known(text):
    return all(it == "\uFFFD" or unicodedata.category(it) != "Cn" for it in text)


def is_allowed(idna, character):
    try:
        idna.uts46_remap(character, std3_rules=False)
    except idna.InvalidCodepoint:
        return False
    return True


def remapped(idna, text):
    """A text by idna, with U+FFFD for each disallowed character, which idna refuses. Nothing composes with U+FFFD."""
    pieces = "".join(it if is_allowed(idna, it) else "\uFFFD" for it in text).split("\uFFFD")
    return "\uFFFD".join(idna.uts46_remap(piece, std3_rules=False) for piece in pieces)


def compare(library, python):
    """Whether both agree, and lines that say over what."""
    sys.path.insert(0, str(python))
    from normalizer import Normalizer

    idna, table = importlib.import_module("idna"), importlib.import_module("idna.uts46data").uts46data
    rows = dict(rows_of_file())
    scalars = [code for code in range(ALL) if not 0xD800 <= code <= 0xDFFF]
    alike = [code for code in scalars if rows[code] == row_of_idna(table, code)]
    known = [code for code in alike if is_known(rows[code][1] or chr(code)) or rows[code][0] == "X"]
    lines = [
        f"IdnaMappingTable.txt: of {len(scalars)} characters, {len(alike)} have the same row in idna"
        f" {idna.__version__}, and {len(known)} of these are compared"
    ]
    with Normalizer(library, *(file.read_bytes() for file in FILES)) as mapper:
        for code in known:
            if mapper.map(chr(code)) != remapped(idna, chr(code)):
                return False, [*lines, f"U+{code:04X} is mapped differently"]
        chance = random.Random(46)
        told = [code for code in known if rows[code][0] != "X" and rows[code] != ("V", "") or 0x300 <= code < 0x370]
        for _ in range(TEXTS):
            text = "".join(map(chr, chance.choices(told, k=3) + chance.choices(known, k=2) + chance.choices(told, k=2)))
            if mapper.map(text) != remapped(idna, text):
                return False, [*lines, f"{text!r} is mapped differently"]
    return True, [*lines, f"each of these characters is mapped as by idna, and {TEXTS} texts of them"]
