"""Makes a wheel of the package with the library in it, by Python alone: from one library they are the same bytes each time.

    backend.py FOLDER LIBRARY [FILE ..]     writes the wheel into the folder; the files stand beside its metadata

pip calls `build_wheel`, which takes the library that ZAR_LIBRARY names, or that of the repository's build.
"""
import base64
import hashlib
import os
import pathlib
import platform
import re
import sys
import time
import tomllib
import zipfile

HERE = pathlib.Path(__file__).resolve().parent
BUILT = HERE.parent / "out" / "library" / "libzar.so.1"
LICENSES = ("LICENSE-APACHE", "LICENSE-MIT")
CHANGES = "CHANGELOG.md"


def project():
    return tomllib.loads((HERE / "pyproject.toml").read_text(encoding="utf-8"))["project"]


def tag(library):
    """The tag of the systems that the library runs on: the machine, and the version of the C library that it needs."""
    minor = max(int(it) for it in re.findall(rb"GLIBC_2\.(\d+)", library))
    return f"py3-none-manylinux_2_{minor}_{platform.machine()}"


def metadata(told):
    fields = [
        ("Metadata-Version", "2.1"),
        ("Name", told["name"]),
        ("Version", told["version"]),
        ("Summary", told["description"]),
        ("Keywords", ",".join(told["keywords"])),
        ("Author", ", ".join(it["name"] for it in told["authors"])),
        ("License", told["license"]),
        *(("License-File", it) for it in LICENSES),
        *(("Classifier", it) for it in told["classifiers"]),
        ("Requires-Python", told["requires-python"]),
        ("Description-Content-Type", "text/markdown"),
    ]
    head = "".join(f"{name}: {it}\n" for name, it in fields)
    return head + "\n" + (HERE / told["readme"]).read_text(encoding="utf-8")


def contents(library, beside):
    """The files of the wheel, by their names, without the record of them; and the name of the wheel."""
    told, its_tag = project(), tag(library)
    name = f"{told['name']}-{told['version']}"
    info = f"{name}.dist-info"
    modules = [it for it in sorted((HERE / "zar").iterdir()) if it.suffix in (".py", ".typed")]
    files = {f"zar/{it.name}": it.read_bytes() for it in modules}
    files["zar/libzar.so.1"] = library
    files[f"{info}/METADATA"] = metadata(told).encode()
    files[f"{info}/WHEEL"] = f"Wheel-Version: 1.0\nGenerator: zar\nRoot-Is-Purelib: false\nTag: {its_tag}\n".encode()
    for path in [*(HERE.parent / it for it in (*LICENSES, CHANGES)), *map(pathlib.Path, beside)]:
        files[f"{info}/{path.name}"] = path.read_bytes()
    return files, f"{name}-{its_tag}.whl", f"{info}/RECORD"


def record(files, name):
    sums = {it: base64.urlsafe_b64encode(hashlib.sha256(data).digest()).rstrip(b"=").decode() for it, data in files.items()}
    return "".join(f"{it},sha256={sums[it]},{len(data)}\n" for it, data in files.items()) + f"{name},,\n"


def wheel(folder, library, beside=()):
    """Writes the wheel, with the time of SOURCE_DATE_EPOCH, or that with which zip files begin: its name."""
    files, name, its_record = contents(pathlib.Path(library).read_bytes(), beside)
    files[its_record] = record(files, its_record).encode()
    when = time.gmtime(int(os.environ.get("SOURCE_DATE_EPOCH", "315532800")))[:6]
    with zipfile.ZipFile(pathlib.Path(folder, name), "w") as archive:
        for path, data in files.items():
            entry = zipfile.ZipInfo(path, when)
            entry.external_attr, entry.compress_type = 0o100644 << 16, zipfile.ZIP_DEFLATED
            archive.writestr(entry, data)
    return name


def build_wheel(wheel_directory, config_settings=None, metadata_directory=None):
    library = pathlib.Path(os.environ.get("ZAR_LIBRARY") or BUILT)
    if not library.is_file():
        sys.exit(f"there is no library {library}: make it by tools/library, or name one by ZAR_LIBRARY")
    return wheel(wheel_directory, library)


if __name__ == "__main__":
    print(wheel(sys.argv[1], sys.argv[2], sys.argv[3:]))
