"""Builds the wheel of icu_normalizer: `pip install --no-build-isolation ./python`. It needs only a C compiler.

The library is taken from an installed one, whose prefix is ICU_NORMALIZER_PREFIX, or from what `tools/install` installs
of the crate that `rt lib --cpu x86-64` built, or of a release."""
import ast
import base64
import hashlib
import os
import pathlib
import shlex
import subprocess
import sys
import sysconfig
import tempfile
import zipfile

HERE = pathlib.Path(__file__).resolve().parent
NAME = "icu_normalizer"
VERSION = "1.0.0"
PYTHON = f"cp{sys.version_info.major}{sys.version_info.minor}"
PLATFORM = sysconfig.get_platform().replace("-", "_").replace(".", "_")
INFO = f"{NAME}-{VERSION}.dist-info"
METADATA = f"""Metadata-Version: 2.1
Name: {NAME}
Version: {VERSION}
Summary: Unicode normal forms by a proved library
License: MIT
Classifier: License :: OSI Approved :: MIT License
Classifier: Operating System :: POSIX :: Linux
Classifier: Programming Language :: Python :: 3
Classifier: Programming Language :: Python :: Implementation :: CPython
Classifier: Topic :: Text Processing
Requires-Python: >=3.10
Description-Content-Type: text/plain

"""
WHEEL = f"Wheel-Version: 1.0\nGenerator: {NAME}\nRoot-Is-Purelib: false\nTag: "
SOURCES = ("__init__.py", "__init__.pyi", "py.typed")
DATA = ("prepared", "LICENSE-UNICODE")


def get_requires_for_build_wheel(config_settings=None):
    return []


def prefix_of_library(room):
    if prefix := os.environ.get("ICU_NORMALIZER_PREFIX"):
        return pathlib.Path(prefix)
    environment = {**os.environ, "DESTDIR": f"{room}/installed"}
    ran = subprocess.run([HERE.parent / "tools/install", "/usr"], env=environment)
    if ran.returncode:
        sys.exit("icu_normalizer: set ICU_NORMALIZER_PREFIX, or run `rt lib --cpu x86-64` in crates/icu_normalizer_c")
    return pathlib.Path(room) / "installed/usr"


def compiled(prefix, room, name, macros):
    module = f"{room}/{name}"
    compiler = shlex.split(os.environ.get("CC") or "cc")
    headers = [f"-I{prefix}/include", f"-I{sysconfig.get_paths()['include']}"]
    library = next(iter(prefix.glob("lib*/**/libicu_normalizer.a")))
    # The names of the library stay in the module, so that its calls of them are direct. Intel's processors of 2015 to
    # 2019 are slow where a jump crosses 32 bytes; not each compiler takes the word that keeps jumps apart.
    words = ["-O3", "-DNDEBUG", "-shared", "-fPIC", "-fvisibility=hidden", "-Wl,--exclude-libs,ALL", "-Wall", "-Wextra"]
    words = [*compiler, *words, *macros, *headers, "-o", module, HERE / NAME / "_native.c", library]
    if subprocess.run([*words, "-Wa,-mbranches-within-32B-boundaries"], capture_output=True).returncode:
        subprocess.run(words, check=True)
    return module


def digest_of(data):
    return base64.urlsafe_b64encode(hashlib.sha256(data).digest()).rstrip(b"=").decode()


def entry(place):
    """An entry of the wheel, whose bytes don't depend on when it is made."""
    made = zipfile.ZipInfo(place)
    made.external_attr = 0o644 << 16
    return made


def build_wheel(wheel_directory, config_settings=None, metadata_directory=None):
    """Builds the wheel for this machine and Python, or with the setting `platform` for that one and Python 3.10 and
    later, which takes more time with a `str`."""
    platform = (config_settings or {}).get("platform")
    tag, module, macros = f"{PYTHON}-{PYTHON}-{PLATFORM}", f"_native{sysconfig.get_config_var('EXT_SUFFIX')}", []
    if platform:
        tag, module, macros = f"cp310-abi3-{platform}", "_native.abi3.so", ["-DPy_LIMITED_API=0x030A0000"]
    with tempfile.TemporaryDirectory() as room:
        prefix = prefix_of_library(room)
        content = {f"{NAME}/{it}": (HERE / NAME / it).read_bytes() for it in SOURCES}
        content |= {f"{NAME}/data/{it}": (prefix / "share/uninorm" / it).read_bytes() for it in DATA}
        content[f"{NAME}/{module}"] = pathlib.Path(compiled(prefix, room, module, macros)).read_bytes()
        content |= {f"{INFO}/{it.name}": it.read_bytes() for it in sorted(prefix.glob(f"share/doc/{NAME}/*"))}
    described = METADATA + ast.get_docstring(ast.parse(content[f"{NAME}/__init__.py"])) + "\n"
    content |= {f"{INFO}/METADATA": described.encode(), f"{INFO}/WHEEL": f"{WHEEL}{tag}\n".encode()}
    name = f"{NAME}-{VERSION}-{tag}.whl"
    with zipfile.ZipFile(f"{wheel_directory}/{name}", "w", zipfile.ZIP_DEFLATED) as file:
        for place, data in content.items():
            file.writestr(entry(place), data, zipfile.ZIP_DEFLATED)
        lines = [f"{place},sha256={digest_of(data)},{len(data)}" for place, data in content.items()]
        file.writestr(entry(f"{INFO}/RECORD"), "\n".join([*lines, f"{INFO}/RECORD,,", ""]))
    return name


def build_sdist(sdist_directory, config_settings=None):
    sys.exit("icu_normalizer: there are wheels only")
