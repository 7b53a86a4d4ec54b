"""Unicode normalization by the calls of icu_normalizer.h, from a shared library that is made of the static one."""
import ctypes
from enum import IntEnum

OK, BUFFER_TOO_SMALL, OUT_OF_MEMORY, UNKNOWN_FORM, NOT_OPEN, WRONG_LINE, WRONG_RECORDS, NO_MAPPER = range(8)
IN_USE, WRONG_PREPARED = 9, 10
TEXTS = {
    UNKNOWN_FORM: "no form has this number",
    NOT_OPEN: "the normalizer isn't open",
    WRONG_LINE: "a line of a data file is wrong",
    WRONG_RECORDS: "the records can't be built into tables",
    NO_MAPPER: "the normalizer has no mapper",
    IN_USE: "another call uses the normalizer",
    WRONG_PREPARED: "the file of prepared data is wrong",
}


class Form(IntEnum):
    NFD = 0
    NFC = 1
    NFKD = 2
    NFKC = 3


class _Handle(ctypes.Structure):
    _fields_ = [("normalizers", ctypes.c_void_p), ("is_open", ctypes.c_bool), ("is_in_use", ctypes.c_size_t)]


class Mismatch(ctypes.Structure):
    """The first mismatch of a text: how many bytes come before it, the character found, and the one expected."""

    _fields_ = [
        ("offset", ctypes.c_size_t),
        ("found", ctypes.c_uint32),
        ("expected", ctypes.c_uint32),
        ("exists", ctypes.c_bool),
    ]


class _Defect(ctypes.Structure):
    _fields_ = [
        ("place", ctypes.c_size_t),
        ("source", ctypes.c_uint32),
        ("reason", ctypes.c_uint32),
        ("character", ctypes.c_uint32),
        ("condition", ctypes.c_uint32),
    ]


FILES = ("UnicodeData.txt", "CompositionExclusions.txt", "IdnaMappingTable.txt")


def _check(status, defect=None):
    if status == OUT_OF_MEMORY:
        raise MemoryError
    if status == WRONG_LINE and defect:
        raise ValueError(f"{FILES[defect.source]}:{defect.place}: {TEXTS[status]}")
    if status == WRONG_RECORDS and defect:
        raise ValueError(f"{TEXTS[status]}: U+{defect.character:04X}, reason {defect.reason}")
    if status == WRONG_PREPARED and defect:
        raise ValueError(f"{TEXTS[status]} at byte {defect.place}: reason {defect.reason}")
    if status != OK:
        raise ValueError(TEXTS[status])


class Normalizer:
    """Normalizers to the four forms, by the bytes of UnicodeData.txt and CompositionExclusions.txt, and a mapper by
    those of IdnaMappingTable.txt, without its disallowed ranges of more than `disallowed_limit` code points.

    Input is a `str`, or bytes of UTF-8, whose ill-formed parts read as U+FFFD.
    """

    def __init__(self, library, unicode_data, exclusions, idna_table=None, disallowed_limit=0x110000):
        self._calls = ctypes.CDLL(library)
        self._handle, defect = _Handle(), _Defect()
        files = *_array(unicode_data), *_array(exclusions)
        if idna_table is None:
            _check(self._calls.icu_normalizer_open_unicode_data(ctypes.byref(self._handle), *files))
            return
        files += _array(idna_table)
        opened = self._calls.icu_normalizer_open_files(
            ctypes.byref(self._handle), *files, ctypes.c_uint32(disallowed_limit), ctypes.byref(defect)
        )
        _check(opened, defect)

    @classmethod
    def prepared(cls, library, content):
        """Normalizers by the bytes of a file of prepared data."""
        it, defect = cls.__new__(cls), _Defect()
        it._calls, it._handle = ctypes.CDLL(library), _Handle()
        opened = it._calls.icu_normalizer_open_prepared(
            ctypes.byref(it._handle), *_array(content), ctypes.byref(defect)
        )
        _check(opened, defect)
        return it

    def close(self):
        self._calls.icu_normalizer_close(ctypes.byref(self._handle))

    def __enter__(self):
        return self

    def __exit__(self, *_):
        self.close()

    def normalize(self, form, text):
        """The form of a `str` as a `str`, or of bytes as bytes."""
        return self._written("normalize", text, ctypes.c_uint32(form))

    def map(self, text):
        """A text mapped by Unicode Technical Standard #46, in NFC."""
        return self._written("map", text)

    def validate(self, text):
        """The same, with U+FFFD for ignored characters. Mapped text is valid only if this leaves it unchanged."""
        return self._written("validate", text)

    def _written(self, name, text, *words):
        if isinstance(text, str):
            return self._written(name, _encoded(text), *words).decode()
        room, needed = len(text) + 1, ctypes.c_size_t()
        while True:
            output = ctypes.create_string_buffer(room)
            others = output, ctypes.c_size_t(room), ctypes.byref(needed)
            status = self._call(name, *words, *_array(text), *others)
            if status != BUFFER_TOO_SMALL:
                _check(status)
                return output.raw[: needed.value]
            room = needed.value

    def is_normalized(self, form, text):
        """Whether a text is normalized, or bytes are well-formed and normalized."""
        told = ctypes.c_bool()
        _check(self._told("is_normalized", form, _encoded(text), told))
        return told.value

    def split(self, form, text):
        """The beginning that stays as it is, and the rest."""
        encoded, cut = _encoded(text), ctypes.c_size_t()
        _check(self._told("split", form, encoded, cut))
        parts = encoded[: cut.value], encoded[cut.value :]
        return tuple(part.decode() for part in parts) if isinstance(text, str) else parts

    def first_mismatch(self, form, text):
        """The first place where a text is ill-formed or differs from its form, or None."""
        told = Mismatch()
        _check(self._told("first_mismatch", form, _encoded(text), told))
        return told if told.exists else None

    def _told(self, name, form, text, told):
        return self._call(name, ctypes.c_uint32(form), *_array(text), ctypes.byref(told))

    def _call(self, name, *words):
        return getattr(self._calls, f"icu_normalizer_{name}_utf8")(ctypes.byref(self._handle), *words)


def _encoded(text):
    return text.encode() if isinstance(text, str) else text


def _array(units):
    return ctypes.c_char_p(units), ctypes.c_size_t(len(units))
