"""Builds the wheel of the client with Python's own library, so that an install fetches nothing.

This is what PEP 517 asks of a build backend, and PEP 660 of an editable install. A wheel is a zip file of
the modules, with a folder of facts beside them (PEP 427). The facts are those of pyproject.toml.

    decl_wheel.py PROGRAM SHARE FOLDER    a wheel for one platform, with the program inside and a command `decl` that is it, and with the
                                          files below SHARE, the pages and examples, for the folder `share` of the environment
"""

import ast
import base64
import hashlib
import io
import pathlib
import re
import sys
import tarfile
import zipfile

HERE = pathlib.Path(__file__).resolve().parent.parent
WHEEL = "Wheel-Version: 1.0\nGenerator: decl_wheel\nRoot-Is-Purelib: {}\nTag: {}\n"
ANY = "py3-none-any"
#: x86-64 Linux with glibc 2.34 or later (PEP 600), as the program needs
PLATFORM = "py3-none-manylinux_2_34_x86_64"
#: where the program stands in a wheel that has it; `decl.program` looks there
PROGRAM = "decl/bin/decl"
DATE = (2026, 1, 1, 0, 0, 0)
EXECUTABLE, PLAIN = 0o100755, 0o100644


def table(name):
    """The entries of a table of pyproject.toml, which are texts and lists of texts."""
    lines = (HERE / "pyproject.toml").read_text(encoding="utf-8").partition(f"[{name}]\n")[2].partition("\n[")[0]
    return {name: ast.literal_eval(value) for name, value in re.findall(r'(?m)^([\w-]+) = (".*"|\[[^]]*\])$', lines)}


PROJECT = table("project")
#: what Pygments finds of the package
LEXERS = table('project.entry-points."pygments.lexers"')
NAME = PROJECT["name"].replace("-", "_")
VERSION = PROJECT["version"]
FACTS = f"{NAME}-{VERSION}.dist-info"
#: the command of that wheel, which pip puts on the path of the environment
COMMAND = f"{NAME}-{VERSION}.data/scripts/decl"
#: the folder whose files pip puts into `share` of the environment
SHARED = f"{NAME}-{VERSION}.data/data/share"


def metadata():
    """The facts of the package as a wheel tells them (PEP 566), with the page as its description."""
    lines = [
        "Metadata-Version: 2.1",
        f"Name: {PROJECT['name']}",
        f"Version: {VERSION}",
        f"Summary: {PROJECT['description']}",
        f"Keywords: {','.join(PROJECT['keywords'])}",
        *(f"Classifier: {each}" for each in PROJECT["classifiers"]),
        f"Requires-Python: {PROJECT['requires-python']}",
        *(f"Requires-Dist: {each}" for each in PROJECT["dependencies"]),
        "Description-Content-Type: text/markdown",
        "",
        (HERE / PROJECT["readme"]).read_text(encoding="utf-8"),
    ]
    return "\n".join(lines).encode()


def entry_points():
    """What other packages find of this one (entry_points.txt)."""
    return "".join(["[pygments.lexers]\n", *(f"{name} = {place}\n" for name, place in LEXERS.items())]).encode()


def get_requires_for_build_wheel(config_settings=None):
    """Nothing is needed but Python."""
    return []


get_requires_for_build_editable = get_requires_for_build_wheel
get_requires_for_build_sdist = get_requires_for_build_wheel


def modules():
    """The files of the package, each with its name in the wheel; `py.typed` says that its hints are to be used."""
    source = HERE / "src"
    paths = sorted([*source.rglob("*.py"), *source.rglob("py.typed")])
    return [(path.relative_to(source).as_posix(), path.read_bytes()) for path in paths]


def shared(folder):
    """The files below a folder, each with its name in the wheel."""
    paths = sorted(path for path in pathlib.Path(folder).rglob("*") if path.is_file())
    return [(f"{SHARED}/{path.relative_to(folder).as_posix()}", path.read_bytes()) for path in paths]


def is_executable(name, data):
    """Whether a file of the wheel is a program: the one inside, its command, and scripts among the pages and examples."""
    return name in (PROGRAM, COMMAND) or (name.startswith(SHARED) and data.startswith(b"#!"))


def record_line(name, data):
    """The line of RECORD for one file: its name, checksum and length."""
    digest = base64.urlsafe_b64encode(hashlib.sha256(data).digest()).rstrip(b"=").decode()
    return f"{name},sha256={digest},{len(data)}\n"


def write_wheel(folder, files, tag=ANY):
    """Writes a wheel of these files with this tag to the folder; its name."""
    facts = WHEEL.format("true" if tag == ANY else "false", tag)
    files = files + [(f"{FACTS}/METADATA", metadata()), (f"{FACTS}/WHEEL", facts.encode()), (f"{FACTS}/entry_points.txt", entry_points())]
    record = "".join(record_line(name, data) for name, data in files) + f"{FACTS}/RECORD,,\n"
    files = files + [(f"{FACTS}/RECORD", record.encode())]
    wheel = f"{NAME}-{VERSION}-{tag}.whl"
    with zipfile.ZipFile(pathlib.Path(folder) / wheel, "w", zipfile.ZIP_DEFLATED) as archive:
        for name, data in files:
            entry = zipfile.ZipInfo(name, DATE)
            entry.external_attr = (EXECUTABLE if is_executable(name, data) else PLAIN) << 16
            entry.compress_type = zipfile.ZIP_DEFLATED
            archive.writestr(entry, data)
    return wheel


def build_wheel(wheel_directory, config_settings=None, metadata_directory=None):
    """The wheel with the modules."""
    return write_wheel(wheel_directory, modules())


def build_wheel_with(program, share, folder):
    """The wheel with the modules, the program, a command that is it, and the files below a folder."""
    command = (HERE / "backend" / "command.py").read_bytes()
    inside = [(PROGRAM, pathlib.Path(program).read_bytes()), (COMMAND, command)]
    return write_wheel(folder, modules() + inside + shared(share), PLATFORM)


def build_editable(wheel_directory, config_settings=None, metadata_directory=None):
    """A wheel that points at the modules where they are."""
    return write_wheel(wheel_directory, [(f"{NAME}.pth", f"{HERE / 'src'}\n".encode())])


def build_sdist(sdist_directory, config_settings=None):
    """The sources as a tar file, with their facts in PKG-INFO."""
    top = f"{NAME}-{VERSION}"
    with tarfile.open(pathlib.Path(sdist_directory) / f"{top}.tar.gz", "w:gz") as archive:
        for part in ("pyproject.toml", "README.md", "backend/decl_wheel.py", "src"):
            archive.add(HERE / part, f"{top}/{part}", filter=lambda each: None if "__pycache__" in each.name else each)
        facts = tarfile.TarInfo(f"{top}/PKG-INFO")
        facts.size = len(metadata())
        archive.addfile(facts, io.BytesIO(metadata()))
    return f"{top}.tar.gz"


if __name__ == "__main__":
    print(f"{sys.argv[3]}/{build_wheel_with(*sys.argv[1:])}")
