"""Tests the package: each result beside that of `unicodedata`, or known from outside."""
import ast
import doctest
import inspect
import os
import pathlib
import random
import re
import sys
import tempfile
import threading
import unicodedata

import icu_normalizer

FORMS = ("NFC", "NFD", "NFKC", "NFKD")
ROOT = pathlib.Path(__file__).parents[2]
SMALL = ROOT / "crates/uninorm/data"
PREPARED = ROOT / "crates/icu_normalizer_c/examples/tests/small.prepared"
TEXTS = [
    "",
    "a",
    "a\u0308",
    "e\u0301\u0323 \uFB01 \u1EC7\u212B \uAC01 \u1112\u1161\u11AB",
    "\xE4\xBD",
    "\u2460\u2461",
    "\u212B",
    "\U0001D15E",
    "x\U0001D15E\U0001D160\xE4\u4E00\U0002F800",
    "\U0001D400\U0001F600b\U0001D15Ey",
    "\U0001F600\U0001F44D ok",
    "\U00011099\U000110BA",
    "\U0001109A",
    "b\u0301\U0001F600",
    "b\u0301\u0323\U0001F600",
    64 * "\U0001F600" + "\u212B",
    128 * "\U0001F600",
    129 * "\U0001F600" + "a\u0308",
    9000 * "\U0001F600 ",
    40 * "a\u0308",
    300 * "\xE4\xBD",
    9000 * "\U0001D15E\xE4",
    30000 * "\u0390x ",
]
LONG = "a" + 40 * "\u0308" + "\u0323"


def refused(error, wanted, call, /, *words, **named):
    """The exception of a call, which has the wanted words."""
    try:
        call(*words, **named)
    except error as it:
        assert wanted in str(it), f"{it}: no {wanted}"
        return it
    sys.exit(f"{call} {words} {named}: no {error}")


def is_right(form, text):
    """Whether each call returns what follows from the form: the text stays up to where the two begin to differ."""
    wanted = unicodedata.normalize(form, text)
    place = len(text) if text == wanted else len(os.path.commonprefix([text, wanted]))
    mismatch = None if text == wanted else (place, text[place], wanted[place])
    found = (
        icu_normalizer.normalize(form, text),
        icu_normalizer.is_normalized(form, text),
        icu_normalizer.split(form, text),
        icu_normalizer.first_mismatch(form, text),
    )
    return found == (wanted, text == wanted, (text[:place], text[place:]), mismatch)


def forms():
    for form in FORMS:
        for text in [*TEXTS, LONG]:
            wanted = unicodedata.normalize(form, text)
            assert is_right(form, text), (form, text[:40])
            assert icu_normalizer.normalize(form, text.encode()) == wanted.encode()
            assert wanted != text or icu_normalizer.normalize(form, text) is text
    assert icu_normalizer.first_mismatch("NFC", "\u00E4\u00E4a\u0308") == (2, "a", "\u00E4")
    assert icu_normalizer.first_mismatch("NFC", "\u00E4a\u0308".encode()).offset == 2
    assert icu_normalizer.first_mismatch("NFC", "\U0001F600xa\u0308") == (2, "a", "\u00E4")
    assert icu_normalizer.split("NFC", "\U0001F600xa\u0308") == ("\U0001F600x", "a\u0308")
    for form in ("NFC", "".join(["NF", "C"])):  # the second is another object
        for text in ["a\u0308", "\xE4", "\xE4", "a\u0308", "a\u0308", "\U0001F600", "\U0001F600\u0308a"]:
            assert icu_normalizer.normalize(form, text) == unicodedata.normalize("NFC", text), text


def rows():
    """All characters that `unicodedata` knows: ten in a row, and a row that is longer than what is called short."""
    known = [it for it in map(chr, range(0x110000)) if unicodedata.category(it) not in ("Cn", "Cs", "Co")]
    for place in range(0, len(known), 10):
        row = "".join(known[place : place + 10])
        for form in FORMS:
            for text in (row, row[::-1], 14 * row):
                wanted = unicodedata.normalize(form, text)
                assert icu_normalizer.normalize(form, text) == wanted, (form, row)
                assert icu_normalizer.is_normalized(form, text) == (wanted == text), (form, row)


def surrogates():
    """Each stays, as with `unicodedata`: alone, in two that are one character in UTF-16, and in random texts."""
    alone = ["\uD800", "a\uDC00", "\U0001F600\uD800", "\uDC00\U0001F600a\u0308", 129 * "\U0001F600" + "\uDFFF"]
    pairs = ["\uD835\uDD58", "\U0001F600\uD83D\uDE00", "\uD834\uDD5Ea\u0308", 200 * "\uD834\uDD5E" + "a\u0308"]
    chance = random.Random(1)
    units = "\uD800\uDCE9\uDC00\uD834\uDD5E\uFFFDax\u0308\u0323\xE4\u212B\uAC00\u11A8\uFB01\U0001F600\U0001D15E"
    mixed = ["".join(chance.choices(units, k=chance.choice((3, 8, 20, 300)))) for _ in range(3000)]
    for text in [*alone, *pairs, *mixed, 40000 * "\uDCE9a\u0308"]:
        for form in FORMS:
            for before in ("\U0001F600", "\U0001D15E"):  # a text that stays, and one that changes
                icu_normalizer.normalize(form, before)
                assert icu_normalizer.normalize(form, text) == unicodedata.normalize(form, text), (form, text[:40])
            assert icu_normalizer.is_normalized(form, text) == unicodedata.is_normalized(form, text)
            assert len(text) > 300 or is_right(form, text), (form, text)
    name = b"caf\xE9 e\xCC\x81".decode(errors="surrogateescape")
    assert icu_normalizer.normalize("NFC", name).encode(errors="surrogateescape") == b"caf\xE9 \xC3\xA9"


def ill_formed():
    """Bytes that aren't UTF-8."""
    for text in [b"a\xFFb", b"\xFF" + 300 * b"a\xCC\x88", b"e\xCC\x81\xE2\x98z", b"\xED\xA0\x80", b"\xF0\x9F\x98"]:
        replaced = text.decode(errors="replace")
        for form in FORMS:
            wanted = unicodedata.normalize(form, replaced).encode()
            assert icu_normalizer.normalize(form, text, errors="replace") == wanted
            refused(UnicodeDecodeError, "'utf-8' codec can't decode", icu_normalizer.normalize, form, text)
            refused(UnicodeDecodeError, "utf-8", icu_normalizer.normalize, form, text, errors="strict")
            assert not icu_normalizer.is_normalized(form, text)
    assert refused(UnicodeDecodeError, "position 1", icu_normalizer.normalize, "NFC", b"a\xFFb").start == 1
    assert icu_normalizer.first_mismatch("NFC", b"a\xFFb") == (1, "\uFFFD", "\uFFFD")
    assert icu_normalizer.split("NFC", b"ab\xFF") == (b"ab", b"\xFF")
    for errors in ("strict", "replace"):
        for text in ("a\u0308\uFFFD", b"a\xCC\x88\xEF\xBF\xBD"):
            assert icu_normalizer.normalize("NFC", text, errors=errors) == icu_normalizer.normalize("NFC", text)


def wrong_arguments():
    """Each wrong argument is an exception in words, as those of `unicodedata` are."""
    for form in ["", "N", "NF", "NFX", "NFK", "NFKX", "NFXC", "NXKC", "nfc", "NFCC", "NFC\0", "NF\xC7", "\uD800"]:
        wanted = f"normalize() argument 1 must be one of 'NFC', 'NFD', 'NFKC', 'NFKD', not {form!r}"
        refused(ValueError, wanted, icu_normalizer.normalize, form, "a")
    for name in ("normalize", "is_normalized", "first_mismatch", "split"):
        for call in (getattr(icu_normalizer, name), getattr(icu_normalizer.Normalizer(SMALL), name)):
            for form, kind in ((b"NFC", "bytes"), (1, "int"), (None, "None"), (["NFC"], "list")):
                refused(TypeError, f"{name}() argument 1 must be str, not {kind}", call, form, "a")
            for text, kind in ((None, "None"), (1, "int"), (bytearray(), "bytearray"), (memoryview(b""), "memoryview")):
                refused(TypeError, f"{name}() argument 2 must be str or bytes, not {kind}", call, "NFC", text)
            refused(ValueError, f"{name}() argument 1", call, "nfc", "a")
            refused(TypeError, f"{name}() takes exactly 2 positional arguments (1 given)", call, "NFC")
            refused(TypeError, f"{name}() takes exactly 2 positional arguments (3 given)", call, "NFC", "a", "b")
            refused(TypeError, f"{name}() got an unexpected keyword argument 'error'", call, "NFC", "a", error="strict")
    for name in ("is_normalized", "first_mismatch", "split"):
        wanted = f"{name}() got an unexpected keyword argument 'errors'"
        refused(TypeError, wanted, getattr(icu_normalizer, name), "NFC", "a", errors="strict")
    for name, words in (("normalize", ["NFC"]), ("map", []), ("validate", [])):
        call = getattr(icu_normalizer.Normalizer(SMALL), name)
        for text in ("a", b"a", "\uD800"):
            wanted = f"{name}() argument 'errors' must be one of 'strict', 'replace', not 'ignore'"
            refused(ValueError, wanted, call, *words, text, errors="ignore")
            refused(TypeError, f"{name}() argument 'errors' must be str, not None", call, *words, text, errors=None)
    for name in ("map", "validate"):
        call = getattr(icu_normalizer.Normalizer(SMALL), name)
        refused(TypeError, f"{name}() argument 1 must be str or bytes, not int", call, 1)
        refused(TypeError, f"{name}() takes exactly 1 positional argument (2 given)", call, "NFC", "a")
        refused(TypeError, f"{name}() got an unexpected keyword argument 'error'", call, "a", error="strict")


def wrong_data():
    """What is wrong with a folder or a file of data is an exception of the constructor, which names it."""
    create = icu_normalizer.Normalizer
    for limit in (-1, 2**32, 2**64):
        refused(ValueError, str(limit), create, SMALL, limit)
    refused(TypeError, "'str' object cannot be interpreted as an integer", create, SMALL, "1")
    refused(TypeError, "a directory or prepared data, not both", create, SMALL, prepared=PREPARED)
    refused(TypeError, "expected str, bytes or os.PathLike object, not int", create, 1)
    refused(TypeError, "expected str, bytes or os.PathLike object, not int", create, prepared=1)
    refused(FileNotFoundError, "/nowhere/UnicodeData.txt", create, "/nowhere")
    refused(FileNotFoundError, "/nowhere/prepared", create, prepared="/nowhere/prepared")
    refused(IsADirectoryError, str(SMALL), create, prepared=SMALL)
    with tempfile.TemporaryDirectory() as folder:
        exclusions, prepared = f"{folder}/CompositionExclusions.txt", f"{folder}/prepared"
        pathlib.Path(folder, "UnicodeData.txt").write_text("0041;A\n# EOF\n")
        refused(FileNotFoundError, exclusions, create, folder)
        pathlib.Path(exclusions).write_text("# EOF\n")
        refused(ValueError, f"{folder}: UnicodeData.txt:1: the line has too few fields", create, folder)
        pathlib.Path(prepared).write_bytes(PREPARED.read_bytes()[:-1])
        refused(ValueError, f"{prepared}: the file has another length at byte 8", create, prepared=prepared)
        pathlib.Path(prepared).write_bytes(b"")
        refused(ValueError, f"{prepared}: ", create, prepared=prepared)


def subclasses():
    """A text of a subclass is returned itself too, as by `unicodedata`."""

    class Text(str):
        def isascii(self):
            return True

    class Bytes(bytes):
        pass

    for text in ("", "a", "\xE4", "\u4E00", "a\U0001F600", 129 * "\U0001F600", 2000 * "a", 2000 * "\u4E00"):
        for it in (Text(text), Bytes(text.encode())):
            assert icu_normalizer.normalize("NFC", it) is it
    assert type(icu_normalizer.normalize("NFC", Text("a\u0308"))) is str
    assert icu_normalizer.split("NFC", Text(2000 * "\xE4" + "a\u0308")) == (2000 * "\xE4", "a\u0308")


def versions():
    stated = re.search(r"-([\d.]+)\.txt", (ROOT / "data/unicode/CompositionExclusions.txt").read_text())[1]
    assert icu_normalizer.unidata_version == stated
    for place in (ROOT / "data/unicode", os.fsencode(ROOT / "data/unicode")):
        assert icu_normalizer.Normalizer(place).unidata_version == stated
    assert icu_normalizer.Normalizer(SMALL).unidata_version == stated
    assert icu_normalizer.Normalizer(prepared=PREPARED).unidata_version is None
    project = (ROOT / "python/pyproject.toml").read_text()
    assert f'version = "{icu_normalizer.__version__}"' in project


def characters():
    """Each character, with a mark and a Hangul syllable among them, and what isn't one."""
    syllables = range(0xAC00, 0xD7A4)
    for code in range(0x110000):
        it = chr(code)
        if unicodedata.category(it) == "Cn":
            continue  # Unicode may have assigned it since
        assert icu_normalizer.combining(it) == unicodedata.combining(it), hex(code)
        mapping = unicodedata.decomposition(it)
        if code in syllables:
            trailing = (code - 0xAC00) % 28
            pair = (code - trailing, 0x11A7 + trailing) if trailing else map(ord, unicodedata.normalize("NFD", it))
            mapping = " ".join(f"{part:04X}" for part in pair)
        assert icu_normalizer.decomposition(it) == ("" if mapping[:1] == "<" else mapping), hex(code)
    assert icu_normalizer.combining("\uD800") == 0 and icu_normalizer.decomposition("\uDFFF") == ""
    for call in (icu_normalizer.combining, icu_normalizer.decomposition):
        refused(TypeError, "a character, not a str of length 2", call, "ab")
        refused(TypeError, "a character, not a str of length 0", call, "")
        refused(TypeError, "a character, not int", call, 0x308)


def stubs():
    """Each public name has a stub, and what is called has the arguments that the stub states."""
    stub = ast.parse(pathlib.Path(icu_normalizer.__file__).with_suffix(".pyi").read_text())
    stated = {it.name: it for it in stub.body if isinstance(it, (ast.ClassDef, ast.FunctionDef))}
    values = {it.target.id for it in stub.body if isinstance(it, ast.AnnAssign)}
    public = {it for it in vars(icu_normalizer) if it[0] != "_"} - {"namedtuple", "operator", "os"} | {"__version__"}
    assert {it for it in {*stated, *values} if it[0] != "_" or it == "__version__"} == public
    assert {*icu_normalizer.__all__} == public - {"__version__"}
    methods = {f"Normalizer.{it.name}": it for it in stated["Normalizer"].body if isinstance(it, ast.FunctionDef)}
    functions = {name: it for name, it in stated.items() if isinstance(it, ast.FunctionDef)}
    for name, it in {**methods, **functions}.items():
        call = icu_normalizer
        for part in name.split("."):
            call = getattr(call, part)
        own = inspect.signature(call).parameters.values()
        names = [[it.arg for it in part] for part in (it.args.posonlyargs, it.args.args, it.args.kwonlyargs)]
        # 0, 1 and 3: passed by place alone, by both, by name alone
        assert [[it.name for it in own if it.kind == kind] for kind in (0, 1, 3)] == names, name
        defaults = [ast.literal_eval(it) for it in [*it.args.defaults, *it.args.kw_defaults] if it]
        assert [it.default for it in own if it.default is not it.empty] == defaults, name


def other_data():
    """Data in which an ASCII character has another form."""
    contents = {"UnicodeData.txt": "0041;;;0;;0042;;;;;;;;;\n# EOF\n", "CompositionExclusions.txt": "# EOF\n"}
    with tempfile.TemporaryDirectory() as folder:
        for name, content in contents.items():
            with open(f"{folder}/{name}", "w") as file:
                file.write(content)
        small = icu_normalizer.Normalizer(pathlib.Path(folder))
        for call in (small.map, small.validate):
            refused(LookupError, "the data have no mapper", call, "a")
        for form in FORMS:
            assert small.normalize(form, "xA") == "xB" and small.normalize(form, 70000 * "A") == 70000 * "B"
            assert not small.is_normalized(form, "A") and icu_normalizer.normalize(form, "xA") == "xA"


def mapping():
    for small in (icu_normalizer.Normalizer(SMALL), icu_normalizer.Normalizer(prepared=PREPARED)):
        assert small.map("A\u0308\u00AD\u0323") == "\u1EA1\u0308"
        assert small.map("A\u0308\u00AD\u0323".encode()) == "\u1EA1\u0308".encode()
        assert small.validate("\u1EA1") == "\u1EA1" and small.validate("\u00AD") == "\uFFFD"
        assert small.map(300 * "A\u0308") == 300 * "\xE4" and small.map(70000 * "a\U0001F600") == 70000 * "a\U0001F600"
        for call in (small.map, small.validate):
            for text in ("a", "A\u0308", 9000 * "A\u0308"):
                assert call(text + "\uD83D\uDE00") == call(text) + "\uFFFD\uFFFD"
            assert call(b"A\xFF", errors="replace") == call("A\uFFFD").encode()
            refused(UnicodeDecodeError, "position 1", call, b"A\xFF")
    assert icu_normalizer.map("Fa\xDF.DE\u3002") == "fa\xDF.de." == icu_normalizer.validate("fa\xDF.de.")
    assert icu_normalizer.map("\uE000") == "\uFFFD" != icu_normalizer.map("\xAD") == ""
    for limit, form in ((0, "\x80"), (1, "\uFFFD"), (2**32 - 1, "\uFFFD")):
        assert icu_normalizer.Normalizer(SMALL, limit).map("\x80") == form


def threads():
    """Long texts, during which other threads run, by one normalizer."""
    text, wanted = 60000 * "a\u0308", 60000 * "\u00E4"
    wrong = []

    def run():
        for _ in range(10):
            if icu_normalizer.normalize("NFC", text) != wanted or icu_normalizer.normalize("NFC", "a\u0308") != "\xE4":
                wrong.append(text)

    every = [threading.Thread(target=run) for _ in range(16)]
    for thread in every:
        thread.start()
    for thread in every:
        thread.join()
    assert not wrong


for test in (
    forms,
    rows,
    surrogates,
    ill_formed,
    wrong_arguments,
    wrong_data,
    subclasses,
    versions,
    characters,
    stubs,
    other_data,
    mapping,
    threads,
):
    test()
failures, tried = doctest.testmod(icu_normalizer)
sys.exit(bool(failures or not tried))
