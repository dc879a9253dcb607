"""Builds the package's wheel. So pip needs no index and no other package (PEP 517, PEP 427).

The wheel has librelkvanu.so.0 beside the package, and librelkvanu-store.so.0 if it is there. They come from the folder that RELKVANU_LIB
names, otherwise from `build` of this repository, where `make` leaves them. Without the first there is no wheel. The same files give the same
bytes.
"""
import base64
import hashlib
import os
import pathlib
import re
import sysconfig
import zipfile
from typing import Any, Dict

HERE = pathlib.Path(__file__).resolve().parent
LIBRARY = "librelkvanu.so.0"
STORE = "librelkvanu-store.so.0"
CLIENT = HERE.parent.parent / "service/client/python/relkvanu_service.py"
# What relkvanu[dask] installs (docs/DASK.md), the versions of Debian 12, over which it is tested; and what the client of the service needs.
EXTRAS = {"dask": ("boto3", "distributed==2022.12.1", "numpy<2", "pandas<2", "streamz==0.6.4", "xxhash"), "service": ("requests",)}
SCRIPTS = "[console_scripts]\nrelkvanu-conform = relkvanu.conform:main\n"


def version() -> str:
    """That of the header."""
    found = re.search(r'^VERSION = "(.*)"$', (HERE / "relkvanu/header.py").read_text(), re.M)
    assert found is not None
    return found.group(1)


def library() -> pathlib.Path:
    path = pathlib.Path(os.environ.get("RELKVANU_LIB", HERE.parent.parent / "build")).resolve() / LIBRARY
    if not path.is_file():
        raise FileNotFoundError(f"{path} is not there: run make, or set RELKVANU_LIB to the folder that has the library")
    return path


def contents() -> Dict[str, bytes]:
    """The files of the wheel except its RECORD."""
    files = {f"relkvanu/{path.name}": path.read_bytes() for path in sorted((HERE / "relkvanu").glob("*.py"))}
    files["relkvanu/py.typed"] = b""
    files[CLIENT.name] = CLIENT.read_bytes()
    shared = library()
    files[f"relkvanu/{LIBRARY}"] = shared.read_bytes()
    if shared.with_name(STORE).is_file():
        files[f"relkvanu/{STORE}"] = shared.with_name(STORE).read_bytes()
    tag = "py3-none-" + re.sub(r"[-.]", "_", sysconfig.get_platform())
    info = f"relkvanu-{version()}.dist-info"
    told = f"Metadata-Version: 2.1\nName: relkvanu\nVersion: {version()}\nRequires-Python: >=3.8\n"
    told += "Summary: The checkpoint coordinator of a stream processor\n"
    told += "".join(f"Provides-Extra: {extra}\n" + "".join(f'Requires-Dist: {it}; extra == "{extra}"\n' for it in needed)
                    for extra, needed in EXTRAS.items())
    files[f"{info}/METADATA"] = told.encode()
    files[f"{info}/entry_points.txt"] = SCRIPTS.encode()
    files[f"{info}/WHEEL"] = f"Wheel-Version: 1.0\nGenerator: relkvanu\nRoot-Is-Purelib: false\nTag: {tag}\n".encode()
    return files


def digest(data: bytes) -> str:
    return base64.urlsafe_b64encode(hashlib.sha256(data).digest()).rstrip(b"=").decode()


def build_wheel(wheel_directory: str, config_settings: Any = None, metadata_directory: Any = None) -> str:
    files = contents()
    (info,) = {path.split("/")[0] for path in files if ".dist-info/" in path}
    lines = [f"{path},sha256={digest(data)},{len(data)}\n" for path, data in files.items()]
    files[f"{info}/RECORD"] = ("".join(lines) + f"{info}/RECORD,,\n").encode()
    tag = files[f"{info}/WHEEL"].decode().rsplit("Tag: ", 1)[1].strip()
    name = f"relkvanu-{version()}-{tag}.whl"
    with zipfile.ZipFile(os.path.join(wheel_directory, name), "w", zipfile.ZIP_DEFLATED) as wheel:
        for path, data in files.items():
            entry = zipfile.ZipInfo(path)  # of 1980, whatever the clock says
            entry.external_attr = 0o644 << 16
            entry.compress_type = zipfile.ZIP_DEFLATED
            wheel.writestr(entry, data)
    return name
