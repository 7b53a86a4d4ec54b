"""Writes the form of standard input to standard output: normalize.py LIBRARY FILE FORM. The file has prepared data, and
the form is nfd, nfc, nfkd or nfkc. After a fourth word, `check`, it writes the first mismatch instead: the offset in
bytes, the character found, and the one expected; or `normalized`."""
import pathlib
import sys

from normalizer import Form, Normalizer


def main(library, file, form, checks=None):
    with Normalizer.prepared(library, pathlib.Path(file).read_bytes()) as normalizer:
        call = normalizer.normalize if checks is None else normalizer.first_mismatch
        done = call(Form[form.upper()], sys.stdin.buffer.read())
        sys.stdout.buffer.write(done if checks is None else line_of(done).encode())


def line_of(mismatch):
    if mismatch is None:
        return "normalized\n"
    return f"{mismatch.offset} {mismatch.found:04X} {mismatch.expected:04X}\n"


if __name__ == "__main__":
    if len(sys.argv) != 4 and sys.argv[4:] != ["check"]:
        sys.exit("usage: normalize.py LIBRARY FILE FORM [check]")
    main(*sys.argv[1:])
