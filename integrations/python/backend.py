"""Builds the package's wheel with the standard library alone (PEP 517, "A build-system independent format for source trees", 2015).

The wheel notes the repository that it was built in, so that an installed package finds the program and tools of that repository.
"""
import base64
import hashlib
import pathlib
import re
import zipfile

HERE = pathlib.Path(__file__).resolve().parent
TOP = HERE.parent.parent


def read_project():
    """The values of the project's table as text, and its scripts. The file is read line by line, as Python 3.9 has no reader of TOML."""
    values, scripts, table = {}, {}, ""
    for line in (HERE / "pyproject.toml").read_text(encoding="utf-8").splitlines():
        if line.startswith("["):
            table = line.strip("[]")
        elif found := re.fullmatch(r'([\w-]+) = "(.*)"', line):
            (scripts if table == "project.scripts" else values)[found[1]] = found[2]
    return values, scripts


def write_wheel(folder, modules):
    """Writes a wheel of the files {name in the wheel: bytes}, and returns its name."""
    values, scripts = read_project()
    name, version = values["name"], values["version"]
    info = f"{name}-{version}.dist-info"
    points = "".join(f"{script} = {target}\n" for script, target in scripts.items())
    files = {**modules, **{f"{info}/{file}": text.encode() for file, text in {
        "METADATA": f"Metadata-Version: 2.1\nName: {name}\nVersion: {version}\nSummary: {values['description']}\n"
                    f"Requires-Python: {values['requires-python']}\n",
        "WHEEL": "Wheel-Version: 1.0\nGenerator: bprice\nRoot-Is-Purelib: true\nTag: py3-none-any\n",
        "entry_points.txt": f"[console_scripts]\n{points}",
    }.items()}}
    record = "".join(f"{file},sha256={digest(content)},{len(content)}\n" for file, content in files.items())
    files[f"{info}/RECORD"] = f"{record}{info}/RECORD,,\n".encode()
    wheel = f"{name}-{version}-py3-none-any.whl"
    with zipfile.ZipFile(pathlib.Path(folder) / wheel, "w", zipfile.ZIP_DEFLATED) as archive:
        for file, content in files.items():
            archive.writestr(file, content)
    return wheel


def digest(content):
    return base64.urlsafe_b64encode(hashlib.sha256(content).digest()).rstrip(b"=").decode()


def build_wheel(wheel_directory, config_settings=None, metadata_directory=None):
    """Called by pip for an installation."""
    modules = {f"bprice/{path.name}": path.read_bytes() for path in sorted((HERE / "bprice").glob("*.py"))}
    return write_wheel(wheel_directory, {**modules, "bprice/repository.txt": str(TOP).encode()})


def build_editable(wheel_directory, config_settings=None, metadata_directory=None):
    """Called by pip for `pip install -e`: the wheel has a path to the sources in place of the sources."""
    return write_wheel(wheel_directory, {"bprice.pth": f"{HERE}\n".encode()})
