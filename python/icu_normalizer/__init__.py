"""Unicode normal forms (Unicode Standard Annex #15) by a proved library.

>>> import icu_normalizer
>>> icu_normalizer.normalize("NFC", "a\\u0308")
'ä'
>>> icu_normalizer.is_normalized("NFC", "a\\u0308")
False
>>> icu_normalizer.first_mismatch("NFC", "xa\\u0308")
Mismatch(offset=1, found='a', expected='ä')
>>> icu_normalizer.split("NFC", "xya\\u0308")
('xy', 'a\\u0308')

A text is a `str`, or bytes in UTF-8. Offsets are in characters of a `str`, or in bytes. A text that is already in the
form is returned itself. `split` returns the longest beginning with which the form begins, followed by the form of the
rest, and the rest.

Surrogates of a `str` stay, as with `unicodedata`, and so do names of files. What lies between them is normalized by
itself; they are in each form, no mismatch, and no place to split at. `map` and `validate` write U+FFFD for each.

>>> icu_normalizer.normalize("NFC", "a\\u0308\\udce9")
'ä\\udce9'

Ill-formed bytes are in no form, a mismatch, where U+FFFD is found, and a place to split at. `normalize`, `map` and
`validate` raise a `UnicodeDecodeError`, or with `errors="replace"` write U+FFFD for each maximal ill-formed subpart.

>>> icu_normalizer.normalize("NFC", b"a\\xff", errors="replace").decode()
'a\ufffd'

`map` maps by Unicode Technical Standard #46 and normalizes to NFC: ignored characters are dropped, disallowed ones
become U+FFFD. Mapped text is valid only if `validate` leaves it unchanged. A `LookupError` says that the data have no
mapper, as a `Normalizer` of files without IdnaMappingTable.txt.

>>> icu_normalizer.map("B\u00fccher.DE")
'bücher.de'

`combining` returns the canonical combining class of a character, and `decomposition` its canonical mapping as
`unicodedata` writes it, also of Hangul syllables, of which that writes none. Compatibility mappings are left out.

>>> icu_normalizer.combining("\\u0308"), icu_normalizer.decomposition("\xe4")
(230, '0061 0308')

The functions use the data of the package, of the version of Unicode `unidata_version`. `Normalizer` uses those of other
files. Each may be called in any thread, but not in a forked child of a process with threads. While a text of 65536
units or more is normalized, other threads run.
"""
import operator
import os
from collections import namedtuple

from . import _native

__all__ = [
    "Mismatch",
    "Normalizer",
    "combining",
    "decomposition",
    "first_mismatch",
    "is_normalized",
    "map",
    "normalize",
    "split",
    "unidata_version",
    "validate",
]
_PREPARED = os.path.join(os.path.dirname(__file__), "data", "prepared")
_FILES = ("UnicodeData.txt", "CompositionExclusions.txt", "IdnaMappingTable.txt")
_ARGUMENTS = {
    "form": ((str,), ("NFC", "NFD", "NFKC", "NFKD")),
    "text": ((str, bytes), ()),
    "errors": ((str,), ("strict", "replace")),
}

Mismatch = namedtuple("Mismatch", ["offset", "found", "expected"])
Mismatch.__doc__ = """The first place where a text differs from its form.

At an ill-formed sequence of bytes, U+FFFD is found.
"""


def _read(*place):
    with open(os.path.join(*place), "rb") as file:
        return file.read()


def _dotted(version):
    """A version that is stated by a byte for each of its numbers."""
    return ".".join(str(version >> bits & 255) for bits in (16, 8, 0))


def _check(call, **passed):
    """Raises the exception of an argument that is wrong."""
    for place, (name, it) in enumerate(passed.items(), 1):
        kinds, values = _ARGUMENTS[name]
        argument = f"{call}() argument {repr(name) if name == 'errors' else place} must be"
        if not isinstance(it, kinds):
            kind = "None" if it is None else type(it).__name__
            raise TypeError(f"{argument} {' or '.join(it.__name__ for it in kinds)}, not {kind}")
        if values and it not in values:
            raise ValueError(f"{argument} one of {', '.join(repr(it) for it in values)}, not {it!r}")


def _code(call, character):
    """The number of a character."""
    if not isinstance(character, str) or len(character) != 1:
        kind = type(character).__name__ if not isinstance(character, str) else f"a str of length {len(character)}"
        raise TypeError(f"{call}() argument must be a character, not {kind}")
    return ord(character)


def _parts(text):
    """What lies between the surrogates of a str."""
    import re

    return re.finditer("[^\ud800-\udfff]+", text)


def _scalars(text, errors):
    """A text in which U+FFFD stands for surrogates, and for ill-formed bytes if these aren't an error."""
    if isinstance(text, bytes):
        return text.decode("utf-8", errors).encode()
    return "".join("\ufffd" if "\ud800" <= it <= "\udfff" else it for it in text)


class Normalizer(_native.Normalizer):
    """Normalizers to the four forms by the files UnicodeData.txt and CompositionExclusions.txt of a directory, and a
    mapper (Unicode Technical Standard #46) by its IdnaMappingTable.txt, if it has that file.

    Disallowed ranges of more than `disallowed_limit` code points are left out, and a mapper leaves their characters as
    they are. The limit is from 0 to 2**32 - 1, or a `ValueError` is raised. With `prepared`, a file that `uninorm
    prepare` made is in place of the directory: it is opened in less time. With neither, the data are the package's.
    An `OSError` says which file can't be read, a `ValueError` what is wrong with one.

    `unidata_version` is the version of Unicode that the data state, or None.
    """

    __slots__ = ("unidata_version",)
    _mismatch = Mismatch

    def __new__(cls, directory=None, disallowed_limit=0x110000, *, prepared=None):
        if not 0 <= operator.index(disallowed_limit) < 2**32:
            raise ValueError(f"disallowed_limit is {disallowed_limit}, not from 0 to 2**32 - 1")
        if directory is not None and prepared is not None:
            raise TypeError("Normalizer() takes a directory or prepared data, not both")
        if directory is None:
            place = os.fsdecode(_PREPARED if prepared is None else prepared)
            data = (_read(place),)
        else:
            place = os.fsdecode(directory)
            has_table = os.path.exists(os.path.join(place, _FILES[2]))
            table = _read(place, _FILES[2]) if has_table else b""
            data = _read(place, _FILES[0]), _read(place, _FILES[1]), table, disallowed_limit
        self = super().__new__(cls, *data)
        if isinstance(self, tuple):
            source, at, condition, reason = self
            before = f"{_FILES[source]}:{at}: " if source < 3 else ""
            after = f": condition {condition}" if condition else f" at byte {at}" if source == 6 else ""
            raise ValueError(f"{place}: {before}{reason}{after}")
        version = self._look_up(0)[3]
        self.unidata_version = _dotted(version) if version else None
        return self

    def combining(self, character, /):
        """Returns the canonical combining class of a character."""
        return self._look_up(_code("combining", character))[0]

    def decomposition(self, character, /):
        """Returns the canonical mapping of a character, by the numbers of one or two characters, or an empty text."""
        _, *mapping, _ = self._look_up(_code("decomposition", character))
        return " ".join(f"{it:04X}" for it in mapping if it <= 0x10FFFF)

    # The calls in C end with these where a `str` has surrogates, or arguments are others than a form and a text.

    def _called(self, method, passed, names):
        count = len(passed) - len(names or ())
        return getattr(self, method)(*passed[:count], **dict(zip(names or (), passed[count:])))

    def _normalize(self, form, text, /, *, errors="strict"):
        _check("normalize", form=form, text=text, errors=errors)
        if isinstance(text, bytes):
            return self.normalize(form, _scalars(text, errors))
        parts, place = [], 0
        for part in _parts(text):
            parts += text[place : part.start()], self.normalize(form, part[0])
            place = part.end()
        return "".join([*parts, text[place:]])

    def _is_normalized(self, form, text, /):
        _check("is_normalized", form=form, text=text)
        return all(self.is_normalized(form, part[0]) for part in _parts(text))

    def _first_mismatch(self, form, text, /):
        _check("first_mismatch", form=form, text=text)
        found = ((part.start(), self.first_mismatch(form, part[0])) for part in _parts(text))
        return next((it._replace(offset=it.offset + start) for start, it in found if it), None)

    def _split(self, form, text, /):
        _check("split", form=form, text=text)
        rests = ((part.end(), self.split(form, part[0])[1]) for part in _parts(text))
        cut = next((end - len(rest) for end, rest in rests if rest), len(text))
        return text[:cut], text[cut:]

    def _map(self, text, /, *, errors="strict"):
        _check("map", text=text, errors=errors)
        return self.map(_scalars(text, errors))

    def _validate(self, text, /, *, errors="strict"):
        _check("validate", text=text, errors=errors)
        return self.validate(_scalars(text, errors))


for _call in ("normalize", "is_normalized", "first_mismatch", "split", "map", "validate"):
    getattr(Normalizer, f"_{_call}").__qualname__ = _call  # which Python's own exceptions say

__version__ = _dotted(_native.version)
_default = Normalizer()
normalize = _default.normalize
is_normalized = _default.is_normalized
first_mismatch = _default.first_mismatch
split = _default.split
map = _default.map
validate = _default.validate
combining = _default.combining
decomposition = _default.decomposition
unidata_version = _default.unidata_version
