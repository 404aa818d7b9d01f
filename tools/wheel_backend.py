"""Builds the wheel of the Python package, with the shared library in it: what pip asks of a build backend, and tools/package of this.

    python3 tools/wheel_backend.py FOLDER      writes FOLDER/vengutari-VERSION-py3-none-PLATFORM.whl and prints its name

The static library has to be there already (tools/build capi). Nothing is fetched, and no other package is needed.
"""

import base64
import hashlib
import pathlib
import re
import sys
import sysconfig
import tempfile
import tomllib
import zipfile

ROOT = pathlib.Path(__file__).resolve().parent.parent
PACKAGE = ROOT / "python" / "vengutari"
# The oldest time that a zip file can hold: the same files make the same wheel.
TIME = (1980, 1, 1, 0, 0, 0)


def project():
    with open(ROOT / "pyproject.toml", "rb") as file:
        made = tomllib.load(file)["project"]
    made["version"] = re.search('__version__ = "([^"]+)"', (PACKAGE / "__init__.py").read_text(encoding="utf-8")).group(1)
    return made


def metadata(made):
    lines = ["Metadata-Version: 2.1", f"Name: {made['name']}", f"Version: {made['version']}", f"Summary: {made['description']}",
             f"Requires-Python: {made['requires-python']}", "Description-Content-Type: text/markdown", ""]
    return "\n".join(lines) + "\n" + (ROOT / "docs" / "USERS.md").read_text(encoding="utf-8")


def shared_library():
    """The shared library of the static one, as bytes."""
    sys.path.insert(0, str(ROOT / "python"))
    from vengutari.library import ARCHIVE, SHARED, linked

    with tempfile.TemporaryDirectory() as folder:
        return linked(ROOT / ARCHIVE, pathlib.Path(folder) / SHARED).read_bytes()


def contents(made, tag):
    """The files of the wheel by their names."""
    info = f"{made['name']}-{made['version']}.dist-info"
    sources = [path for path in sorted(PACKAGE.iterdir()) if path.suffix == ".py" or path.name == "py.typed"]
    files = {f"vengutari/{path.name}": path.read_bytes() for path in sources}
    files["vengutari/libvengutari.so"] = shared_library()
    scripts = "".join(f"{name} = {place}\n" for name, place in made["scripts"].items())
    files[f"{info}/METADATA"] = metadata(made).encode()
    files[f"{info}/WHEEL"] = f"Wheel-Version: 1.0\nGenerator: vengutari\nRoot-Is-Purelib: false\nTag: {tag}\n".encode()
    files[f"{info}/entry_points.txt"] = f"[console_scripts]\n{scripts}".encode()
    sums = {name: base64.urlsafe_b64encode(hashlib.sha256(data).digest()).decode().rstrip("=") for name, data in files.items()}
    record = "".join(f"{name},sha256={sums[name]},{len(data)}\n" for name, data in files.items())
    files[f"{info}/RECORD"] = (record + f"{info}/RECORD,,\n").encode()
    return files


def build_wheel(wheel_directory, config_settings=None, metadata_directory=None):
    made = project()
    tag = "py3-none-" + re.sub("[-.]", "_", sysconfig.get_platform())
    name = f"{made['name']}-{made['version']}-{tag}.whl"
    with zipfile.ZipFile(pathlib.Path(wheel_directory) / name, "w", zipfile.ZIP_DEFLATED) as wheel:
        for place, data in contents(made, tag).items():
            entry = zipfile.ZipInfo(place, TIME)
            entry.compress_type, entry.external_attr = zipfile.ZIP_DEFLATED, 0o644 << 16
            wheel.writestr(entry, data)
    return name


def build_sdist(sdist_directory, config_settings=None):
    raise NotImplementedError("the package is built from the whole source tree; there is no source distribution")


if __name__ == "__main__":
    print(build_wheel(sys.argv[1]))
