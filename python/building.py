"""Builds the package for pip, with the standard library alone: no setuptools, no wheel, and no network.

pip calls the functions of this file as pyproject.toml says (the hooks of PEP 517 and PEP 660). tools/release.py calls `write_wheel`,
for a wheel with the program inside. The same files give the same bytes.
"""
import ast
import base64
import hashlib
import io
import os
import tarfile
import zipfile

HERE = os.path.dirname(os.path.realpath(__file__))
PACKAGE = "kulzobad"
# What is no part of the package, and may lie in its folder.
LEFT_OUT = ("__pycache__", "compiled")
EPOCH = (1980, 1, 1, 0, 0, 0)


def project():
    """The tables of pyproject.toml whose values are texts and lists of texts, by their names."""
    tables, lines = {}, iter(text_of("pyproject.toml").splitlines())
    for line in lines:
        if line.startswith("["):
            inner = tables.setdefault(line.strip("[]"), {})
        elif "=" in line:
            name, _, value = line.partition("=")
            while value.count("[") > value.count("]"):
                value += next(lines)
            inner[name.strip()] = ast.literal_eval(value.strip())
    return tables


def text_of(name):
    """The text of a file beside this one, or, as the licence in a clone, above it."""
    file = os.path.join(HERE, name)
    with open(file if os.path.exists(file) else os.path.join(HERE, "..", name), encoding="utf-8") as text:
        return text.read()


def metadata():
    """The text of METADATA."""
    told = project()["project"]
    lines = ["Metadata-Version: 2.1", f"Name: {told['name']}", f"Version: {told['version']}", f"Summary: {told['description']}"]
    lines += [f"License: {told['license']}", f"Keywords: {','.join(told['keywords'])}"]
    lines += [f"Classifier: {it}" for it in told["classifiers"]]
    lines += [f"Requires-Python: {told['requires-python']}", "Description-Content-Type: text/markdown", "", text_of("README.md")]
    return "\n".join(lines)


def base_name():
    """The beginning of the names of all that is built."""
    told = project()["project"]
    return f"{told['name']}-{told['version']}"


def files_of_package():
    """The files of the package: for each its name in a wheel and its bytes."""
    for folder, inside, names in os.walk(os.path.join(HERE, PACKAGE)):
        inside[:] = sorted(it for it in inside if it not in LEFT_OUT)
        for name in sorted(names):
            if not name.endswith((".pyc", "~")):
                file = os.path.join(folder, name)
                with open(file, "rb") as data:
                    yield os.path.relpath(file, HERE).replace(os.sep, "/"), data.read()


def information(tag):
    """The files that tell of the package: for each its name in a wheel and its bytes."""
    folder, told = f"{base_name()}.dist-info", project()
    scripts = "".join(f"{name} = {what}\n" for name, what in told["project.scripts"].items())
    yield f"{folder}/METADATA", metadata().encode()
    is_pure = str(tag.endswith("any")).lower()
    yield f"{folder}/WHEEL", f"Wheel-Version: 1.0\nGenerator: {PACKAGE}\nRoot-Is-Purelib: {is_pure}\nTag: {tag}\n".encode()
    yield f"{folder}/entry_points.txt", f"[console_scripts]\n{scripts}".encode()
    yield f"{folder}/LICENSE", text_of("LICENSE").encode()


def write_wheel(folder, tag="py3-none-any", package=None, more=()):
    """Writes a wheel into a folder, and gives its name. `package` has the files of the package, and `more` further ones, each a name and
    its bytes; the program among them is the file whose bytes begin as those of a program do."""
    name, records = f"{base_name()}-{tag}.whl", []
    with zipfile.ZipFile(os.path.join(folder, name), "w", zipfile.ZIP_DEFLATED) as wheel:

        def put(file, data):
            entry = zipfile.ZipInfo(file, EPOCH)
            entry.compress_type = zipfile.ZIP_DEFLATED
            entry.external_attr = (0o100755 if data.startswith(b"\x7fELF") else 0o100644) << 16
            wheel.writestr(entry, data)

        for file, data in [*(files_of_package() if package is None else package), *more, *information(tag)]:
            put(file, data)
            records.append(f"{file},sha256={base64.urlsafe_b64encode(hashlib.sha256(data).digest()).rstrip(b'=').decode()},{len(data)}")
        record = f"{base_name()}.dist-info/RECORD"
        put(record, "\n".join([*records, f"{record},,", ""]).encode())
    return name


# ---- what pip calls


def build_wheel(wheel_directory, config_settings=None, metadata_directory=None):
    return write_wheel(wheel_directory)


def build_editable(wheel_directory, config_settings=None, metadata_directory=None):
    return write_wheel(wheel_directory, package=[(f"{PACKAGE}.pth", f"{HERE}\n".encode())])


def build_sdist(sdist_directory, config_settings=None):
    name = f"{base_name()}.tar.gz"
    told = [(file, text_of(file).encode()) for file in ("LICENSE", "README.md", "building.py", "pyproject.toml")]
    with tarfile.open(os.path.join(sdist_directory, name), "w:gz", format=tarfile.PAX_FORMAT) as archive:
        for file, data in [("PKG-INFO", metadata().encode()), *told, *files_of_package()]:
            entry = tarfile.TarInfo(f"{base_name()}/{file}")
            entry.size = len(data)
            archive.addfile(entry, io.BytesIO(data))
    return name
