"""What pip calls (PEP 517 and 660): packs the files of src/ as they are, since nothing is compiled. The same files give
the same bytes.

With `--config-settings library=FILE` the wheel has that libnrbpf.so.2 too. Then it is for Linux on x86-64 alone, and
nothing else has to be installed. `local=WORD` adds a word to its version, as in 2.5.0+unproved, and `built=TEXT` and
`changes=TEXT` files BUILT and CHANGELOG.md to what is said of the wheel."""

from __future__ import annotations

import base64
import gzip
import hashlib
import io
import re
import tarfile
import zipfile
from collections.abc import Mapping
from pathlib import Path

TOP = Path(__file__).resolve().parent.parent
SOURCES = ("src/nrbpf/*.py", "src/nrbpf/py.typed")
PACKED = ("pyproject.toml", "README.md", "backend/packing.py", "examples/*.py", "tests/*.py", *SOURCES)
PLAIN = "py3-none-any"
NOTHING: Mapping[str, str] = {}
# The tag of a wheel with the library says the glibc that the library needs: the newest version that it names. If that is
# older than 2.17, the tag says 2.17, which is manylinux2014.
OLDEST, NEEDED = (2, 17), re.compile(rb"\0GLIBC_(\d+)\.(\d+)(?=[.\d]*\0)")
# How a shared library for Linux on x86-64 begins: ELF, 64 bits, low byte first; then its kind (3) and its machine (62).
SHARED, AT = (b"\x7fELF\x02\x01", b"\x03\x00\x3e\x00"), 16


def _said(key: str) -> str:
    """What pyproject.toml says of the project."""
    found = re.search(rf'^{key} = "(.*)"$', (TOP / "pyproject.toml").read_text("utf-8"), re.MULTILINE)
    if not found:
        raise ValueError(f"pyproject.toml has no {key}")
    return found[1]


def _listed(key: str) -> list[str]:
    """The texts of a list of pyproject.toml."""
    found = re.search(rf"^{key} = \[([^]]*)\]$", (TOP / "pyproject.toml").read_text("utf-8"), re.MULTILINE)
    return re.findall('"([^"]*)"', found[1]) if found else []


def _named(local: str = "") -> str:
    return f"{_said('name')}-{_version(local)}"


def _version(local: str) -> str:
    return _said("version") + (f"+{local}" if local else "")


def _metadata(local: str = "") -> str:
    lines = [
        "Metadata-Version: 2.1",
        f"Name: {_said('name')}",
        f"Version: {_version(local)}",
        f"Summary: {_said('description')}",
        f"Requires-Python: {_said('requires-python')}",
        *(f"Classifier: {it}" for it in _listed("classifiers")),
        "Description-Content-Type: text/markdown",
    ]
    return "\n".join(lines) + "\n\n" + (TOP / "README.md").read_text("utf-8")


def _packed(patterns: tuple[str, ...]) -> list[Path]:
    return sorted(path for pattern in patterns for path in TOP.glob(pattern))


def _library(file: str) -> bytes:
    """The bytes of a shared library, if it is one for Linux on x86-64."""
    data = Path(file).read_bytes()
    if not data.startswith(SHARED[0]) or data[AT : AT + 4] != SHARED[1]:
        raise ValueError(f"{file} is no shared library for Linux on x86-64: a wheel with a library is for that alone")
    return data


def _tag(library: bytes) -> str:
    """The tag of a wheel that has this library."""
    needed = max([OLDEST, *((int(major), int(minor)) for major, minor in NEEDED.findall(library))])
    return f"py3-none-manylinux_{needed[0]}_{needed[1]}_x86_64"


def _about(tag: str) -> str:
    is_pure = "true" if tag == PLAIN else "false"
    return f"Wheel-Version: 1.0\nGenerator: nrbpf\nRoot-Is-Purelib: {is_pure}\nTag: {tag}\n"


def _wheel(
    folder: str, files: dict[str, bytes], tag: str = PLAIN, local: str = "", said: Mapping[str, str] = NOTHING
) -> str:
    """Writes a wheel of these files, and of these texts that are said of it, and answers its name."""
    about = f"{_named(local)}.dist-info"
    files = {
        **files,
        **{f"{about}/{name}": text.encode() for name, text in said.items() if text},
        f"{about}/METADATA": _metadata(local).encode(),
        f"{about}/WHEEL": _about(tag).encode(),
    }
    record = []
    name = f"{_named(local)}-{tag}.whl"
    with zipfile.ZipFile(Path(folder, name), "w") as wheel:
        for path, data in files.items():
            digest = base64.urlsafe_b64encode(hashlib.sha256(data).digest()).rstrip(b"=").decode()
            record.append(f"{path},sha256={digest},{len(data)}\n")
        files = {**files, f"{about}/RECORD": ("".join(record) + f"{about}/RECORD,,\n").encode()}
        for path, data in files.items():
            entry = zipfile.ZipInfo(path)  # its time is always the same, in 1980
            entry.external_attr, entry.compress_type = 0o100644 << 16, zipfile.ZIP_DEFLATED
            wheel.writestr(entry, data)
    return name


def build_wheel(wheel_directory: str, config_settings: object = None, metadata_directory: object = None) -> str:
    source = TOP / "src"
    files = {path.relative_to(source).as_posix(): path.read_bytes() for path in _packed(SOURCES)}
    settings = config_settings if isinstance(config_settings, dict) else {}
    local = settings.get("local", "")
    said = {"BUILT": settings.get("built", ""), "CHANGELOG.md": settings.get("changes", "")}
    if not settings.get("library"):
        return _wheel(wheel_directory, files, PLAIN, local, said)
    library = _library(settings["library"])
    return _wheel(wheel_directory, {**files, "nrbpf/libnrbpf.so.2": library}, _tag(library), local, said)


def build_editable(wheel_directory: str, config_settings: object = None, metadata_directory: object = None) -> str:
    return _wheel(wheel_directory, {"nrbpf.pth": f"{TOP / 'src'}\n".encode()})


def build_sdist(sdist_directory: str, config_settings: object = None) -> str:
    name = f"{_named()}.tar.gz"
    files = {path.relative_to(TOP).as_posix(): path.read_bytes() for path in _packed(PACKED)}
    whole = io.BytesIO()
    with tarfile.open(fileobj=whole, mode="w", format=tarfile.PAX_FORMAT) as packed:
        for path, data in {**files, "PKG-INFO": _metadata().encode()}.items():
            entry = tarfile.TarInfo(f"{_named()}/{path}")
            entry.size = len(data)
            packed.addfile(entry, io.BytesIO(data))
    Path(sdist_directory, name).write_bytes(gzip.compress(whole.getvalue(), mtime=0))
    return name
