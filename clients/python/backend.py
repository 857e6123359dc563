"""Builds the package for pip, with the standard library alone. The ready program goes into it, where it stands in the repository."""

import base64
import hashlib
import io
import os
import tarfile
import zipfile

HERE = os.path.dirname(os.path.abspath(__file__))
READY = "orpheus-x86_64-linux"
# A built program stands beside the package in the repository; in an archive of the sources it is in the package already.
PROGRAMS = [f"{HERE}/../../bin/orpheus", f"{HERE}/../../dist/{READY}", f"{HERE}/orpheus/{READY}"]


def version():
    """Gives the version that the repository has in one place, and an archive of the sources in its copy."""
    path = next(it for it in (f"{HERE}/../../VERSION", f"{HERE}/orpheus/VERSION") if os.path.isfile(it))
    with open(path, encoding="ascii") as file:
        return file.read().strip()


def program():
    return next((it for it in PROGRAMS if os.path.isfile(it)), None)


def modules():
    return sorted(it for it in os.listdir(f"{HERE}/orpheus") if it.endswith(".py"))


def metadata():
    return f"Metadata-Version: 2.1\nName: orpheus\nVersion: {version()}\nSummary: Stores of versioned tables, by the program orpheus\nRequires-Python: >=3.8\nProvides-Extra: pandas\nRequires-Dist: pandas; extra == 'pandas'\nProvides-Extra: parquet\nRequires-Dist: pyarrow; extra == 'parquet'\n"


def read(path):
    with open(path, "rb") as file:
        return file.read()


def wheel_files(editable=False):
    """Gives what the wheel has: names, bytes, and whether they may be run."""
    if editable:
        yield "orpheus.pth", f"{HERE}\n".encode(), False
    else:
        for name in modules():
            yield f"orpheus/{name}", read(f"{HERE}/orpheus/{name}"), False
        yield "orpheus/VERSION", f"{version()}\n".encode(), False
        if program():
            yield f"orpheus/{READY}", read(program()), True
    info = f"orpheus-{version()}.dist-info"
    yield f"{info}/METADATA", metadata().encode(), False
    yield f"{info}/WHEEL", b"Wheel-Version: 1.0\nGenerator: orpheus\nRoot-Is-Purelib: true\nTag: py3-none-any\n", False
    yield f"{info}/entry_points.txt", b"[console_scripts]\norpheus-shell = orpheus.shell:main\n", False


def made(folder, editable=False):
    name = f"orpheus-{version()}-py3-none-any.whl"
    recorded = []
    with zipfile.ZipFile(os.path.join(folder, name), "w", zipfile.ZIP_DEFLATED) as out:
        for path, found, runs in wheel_files(editable):
            entry = zipfile.ZipInfo(path)
            entry.external_attr = (0o100755 if runs else 0o100644) << 16
            entry.compress_type = zipfile.ZIP_DEFLATED
            out.writestr(entry, found)
            sum_ = base64.urlsafe_b64encode(hashlib.sha256(found).digest()).rstrip(b"=").decode()
            recorded.append(f"{path},sha256={sum_},{len(found)}\n")
        record = f"orpheus-{version()}.dist-info/RECORD"
        out.writestr(record, "".join(recorded) + f"{record},,\n")
    return name


def build_wheel(wheel_directory, config_settings=None, metadata_directory=None):
    return made(wheel_directory)


def build_editable(wheel_directory, config_settings=None, metadata_directory=None):
    return made(wheel_directory, editable=True)


def build_sdist(sdist_directory, config_settings=None):
    top = f"orpheus-{version()}"
    names = ["pyproject.toml", "backend.py", "README.md", *(f"orpheus/{it}" for it in modules())]
    files = [(name, f"{HERE}/{name}") for name in names] + ([(f"orpheus/{READY}", program())] if program() else [])
    with tarfile.open(os.path.join(sdist_directory, f"{top}.tar.gz"), "w:gz") as out:
        for name, path in files:
            out.add(path, f"{top}/{name}")
        for name, found in [("PKG-INFO", metadata().encode()), ("orpheus/VERSION", f"{version()}\n".encode())]:
            head = tarfile.TarInfo(f"{top}/{name}")
            head.size = len(found)
            out.addfile(head, io.BytesIO(found))
    return f"{top}.tar.gz"


def get_requires_for_build_wheel(config_settings=None):
    return []


get_requires_for_build_sdist = get_requires_for_build_editable = get_requires_for_build_wheel
