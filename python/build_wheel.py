"""Builds the wheel of the package for pip, by the standard library alone. So `pip install ./python` needs no network."""
import base64
import hashlib
import pathlib
import tomllib
import zipfile

HERE = pathlib.Path(__file__).resolve().parent
DATE = (1980, 1, 1, 0, 0, 0)
WHEEL = "Wheel-Version: 1.0\nGenerator: clockbed\nRoot-Is-Purelib: true\nTag: py3-none-any\n"


def record_of(name, content):
    """Returns the line of a file in RECORD."""
    digest = base64.urlsafe_b64encode(hashlib.sha256(content).digest()).rstrip(b"=").decode()
    return f"{name},sha256={digest},{len(content)}\n"


def metadata_of(project):
    return (
        f"Metadata-Version: 2.1\nName: {project['name']}\nVersion: {project['version']}\n"
        f"Summary: {project['description']}\nRequires-Python: {project['requires-python']}\n"
    )


def build_wheel(wheel_directory, config_settings=None, metadata_directory=None):
    """Writes the wheel to a folder, and returns its name (PEP 517)."""
    project = tomllib.loads((HERE / "pyproject.toml").read_text(encoding="utf-8"))["project"]
    release = f"{project['name']}-{project['version']}"
    package = HERE / project["name"]
    files = {f"{package.name}/{it.name}": it.read_bytes() for it in [*package.glob("*.py"), package / "py.typed"]}
    files[f"{release}.dist-info/METADATA"] = metadata_of(project).encode()
    files[f"{release}.dist-info/WHEEL"] = WHEEL.encode()
    record = f"{release}.dist-info/RECORD"
    lines = [record_of(name, content) for name, content in sorted(files.items())]
    files[record] = "".join([*lines, f"{record},,\n"]).encode()
    wheel = f"{release}-py3-none-any.whl"
    with zipfile.ZipFile(pathlib.Path(wheel_directory) / wheel, "w", zipfile.ZIP_DEFLATED) as archive:
        for name, content in sorted(files.items()):
            archive.writestr(zipfile.ZipInfo(name, DATE), content)
    return wheel
