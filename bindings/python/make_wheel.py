"""Makes the wheel by the standard library alone, as a build backend that pip calls.

The wheel has the package, the licences, libmst_store.so from the folder MST_STORE_DIR or from
../out, and the module mst_verifier, by which a program without a store checks its proofs. The
Python code is of no version of Python, and the library of one platform, so the tag is
py3-none-PLATFORM, where the platform says which glibc the library needs (PEP 600).
"""
import base64
import hashlib
import os
import platform
import re
import sys
import zipfile

HERE = os.path.dirname(os.path.abspath(__file__))
LICENCES = ["LICENSE-APACHE", "LICENSE-MIT", "THIRD_PARTY.md"]
PACKAGE = "mst_store"


def _read(path):
    with open(path, "rb") as file:
        return file.read()


def _project():
    return _read(os.path.join(HERE, "pyproject.toml")).decode()


def _field(name):
    return re.search(rf'^{name} = "(.*)"$', _project(), re.MULTILINE).group(1)


def _addresses():
    """The table of addresses, which is there once the repository's address is known."""
    table = _project().partition("\n[project.urls]\n")[2]
    return re.findall(r'^(\w+) = "(.*)"$', table, re.MULTILINE)


def _version():
    """The version as wheels spell it: of one between two releases 0.4.0.dev0 (PEP 440)."""
    return re.sub("-dev$", ".dev0", _field("version"))


def _list(name):
    listed = re.search(rf"^{name} = \[(.*?)\]", _project(), re.MULTILINE | re.DOTALL).group(1)
    return re.findall(r'"(.*?)"', listed)


def _files():
    """The files of the package, with the mark for tools that read its type hints."""
    everything = sorted(os.listdir(os.path.join(HERE, PACKAGE)))
    return [file for file in everything if file.endswith(".py") or file == "py.typed"]


def _platform(library):
    """The tag for the oldest glibc that has each symbol that the library asks for."""
    needed = [int(it) for it in re.findall(rb"\0GLIBC_2\.(\d+)(?=[.\0])", library)]
    return f"manylinux_2_{max([5, *needed])}_{platform.machine()}"


def _record(contents, name):
    lines = []
    for path, data in contents.items():
        digest = base64.urlsafe_b64encode(hashlib.sha256(data).digest()).rstrip(b"=").decode()
        lines.append(f"{path},sha256={digest},{len(data)}\n")
    return "".join(lines + [f"{name},,\n"]).encode()


def build_wheel(wheel_directory, config_settings=None, metadata_directory=None):
    """The hook of PEP 517: writes the wheel into the folder, and returns its name."""
    name, version = _field("name"), _version()
    folder = os.environ.get("MST_STORE_DIR") or os.path.join(HERE, "..", "out")
    library = _read(os.path.join(folder, "libmst_store.so"))
    tag = "py3-none-" + _platform(library)
    info = f"{name}-{version}.dist-info"
    metadata = (f"Metadata-Version: 2.4\nName: {name}\nVersion: {version}\n"
                f"Summary: {_field('description')}\nRequires-Python: {_field('requires-python')}\n"
                f"License-Expression: {_field('license')}\n"
                f"Keywords: {','.join(_list('keywords'))}\n"
                + "".join(f"Project-URL: {label}, {at}\n" for label, at in _addresses())
                + "".join(f"Classifier: {it}\n" for it in _list("classifiers"))
                + "Description-Content-Type: text/markdown\n"
                + "".join(f"License-File: {licence}\n" for licence in LICENCES)
                + "\n" + _read(os.path.join(HERE, "README.md")).decode())
    about = f"Wheel-Version: 1.0\nGenerator: make_wheel\nRoot-Is-Purelib: false\nTag: {tag}\n"
    contents = {f"{PACKAGE}/{file}": _read(os.path.join(HERE, PACKAGE, file)) for file in _files()}
    verifier = os.path.join(HERE, "..", "..", "verifiers", "python", "mst_verifier.py")
    contents["mst_verifier.py"] = _read(verifier)
    contents[f"{PACKAGE}/libmst_store.so"] = library
    contents[f"{info}/METADATA"] = metadata.encode()
    contents[f"{info}/WHEEL"] = about.encode()
    for licence in LICENCES:
        contents[f"{info}/licenses/{licence}"] = _read(os.path.join(HERE, "..", "..", licence))
    contents[f"{info}/RECORD"] = _record(contents, f"{info}/RECORD")
    wheel = f"{name}-{version}-{tag}.whl"
    with zipfile.ZipFile(os.path.join(wheel_directory, wheel), "w", zipfile.ZIP_DEFLATED) as out:
        for path, data in contents.items():
            # A fixed time, so that equal files make equal wheels.
            entry = zipfile.ZipInfo(path, (1980, 1, 1, 0, 0, 0))
            entry.external_attr = (0o755 if path.endswith(".so") else 0o644) << 16
            out.writestr(entry, data, zipfile.ZIP_DEFLATED)
    return wheel


def build_sdist(sdist_directory, config_settings=None):
    """The other hook of PEP 517: the library is built by the kit, so there is no source alone."""
    raise NotImplementedError("the library is built by `make -C bindings`: make a wheel")


if __name__ == "__main__":
    os.makedirs(sys.argv[1], exist_ok=True)
    print(os.path.join(sys.argv[1], build_wheel(sys.argv[1])))
