"""Builds the wheel of the package beside it, with the standard library alone.

It is a backend as PEP 517 describes them. What it knows of the package stands in pyproject.toml.
"""
import base64
import hashlib
import pathlib
import tomllib
import zipfile

TOP = pathlib.Path(__file__).resolve().parents[1]
WHEEL = "Wheel-Version: 1.0\nGenerator: nukwashe\nRoot-Is-Purelib: true\nTag: py3-none-any\n"


def _project():
    return tomllib.loads((TOP / "pyproject.toml").read_text(encoding="utf-8"))["project"]


def _metadata(project):
    return (f"Metadata-Version: 2.1\nName: {project['name']}\nVersion: {project['version']}\n"
            f"Summary: {project['description']}\n"
            f"Requires-Python: {project['requires-python']}\n"
            "Description-Content-Type: text/markdown\n\n"
            + (TOP / project["readme"]).read_text(encoding="utf-8"))


def _entry_points(project):
    lines = [f"{name} = {place}\n" for name, place in project["scripts"].items()]
    return "[console_scripts]\n" + "".join(lines)


def _package_files(project):
    """The files of the package by the names that they are installed under."""
    for path in sorted((TOP / project["name"]).rglob("*")):
        if path.is_file() and "__pycache__" not in path.parts:
            yield str(path.relative_to(TOP)), path.read_bytes()


def _row(name, data):
    digest = base64.urlsafe_b64encode(hashlib.sha256(data).digest()).rstrip(b"=").decode()
    return f"{name},sha256={digest},{len(data)}\n"


def build_wheel(wheel_directory, config_settings=None, metadata_directory=None):
    """Writes the wheel into a folder, and gives its name."""
    project = _project()
    stem = f"{project['name']}-{project['version']}"
    info = f"{stem}.dist-info"
    files = dict(_package_files(project))
    files[f"{info}/METADATA"] = _metadata(project).encode()
    files[f"{info}/WHEEL"] = WHEEL.encode()
    files[f"{info}/entry_points.txt"] = _entry_points(project).encode()
    record = "".join(_row(name, data) for name, data in files.items())
    files[f"{info}/RECORD"] = (record + f"{info}/RECORD,,\n").encode()
    name = f"{stem}-py3-none-any.whl"
    with zipfile.ZipFile(pathlib.Path(wheel_directory) / name, "w",
                         zipfile.ZIP_DEFLATED) as wheel:
        for path, data in files.items():
            wheel.writestr(path, data)
    return name


def build_sdist(sdist_directory, config_settings=None):
    """Refuses: the folder itself is the source archive."""
    raise NotImplementedError("only wheels are built")
