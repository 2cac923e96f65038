"""Packs the module of Python as a wheel, with the library and tables in it: `bin/c-library --wheel` calls it.

  wheel.py LIBRARY TABLES TO     LIBRARY is libcollate.so.1, TABLES a folder whose NAME.table files are packed, or "", TO a folder

The wheel is for Linux on x86-64, and for each Python 3.8 or later, as it calls the library by ctypes. The same files make the same
bytes."""
import base64
import hashlib
import os
import sys
import zipfile

HERE = os.path.dirname(os.path.realpath(__file__))
NAME, VERSION, TAG = "collate", "0.1", "py3-none-linux_x86_64"
INFO = f"{NAME}-{VERSION}.dist-info"
METADATA = f"""Metadata-Version: 2.1
Name: {NAME}
Version: {VERSION}
Summary: Collation (UTS #10) by table files, with a proved order
Requires-Python: >=3.8
Description-Content-Type: text/markdown

"""
WHEEL = f"""Wheel-Version: 1.0
Generator: bin/c-library
Root-Is-Purelib: false
Tag: {TAG}
"""
# Files of a zip have a time; it has none before this one.
TIME = (1980, 1, 1, 0, 0, 0)


def read(*path):
    with open(os.path.join(*path), "rb") as it:
        return it.read()


def files(library, tables):
    """What the wheel has, by names, but for the list of it."""
    module = os.path.join(HERE, NAME)
    made = {f"{NAME}/{it}": read(module, it) for it in os.listdir(module) if it.endswith((".py", ".typed"))}
    made[f"{NAME}/libcollate.so.1"] = read(library)
    for name in os.listdir(tables) if tables else []:
        if name.endswith(".table"):
            made[f"{NAME}/tables/{name}"] = read(tables, name)
    made[f"{INFO}/LICENSE"] = read(HERE, "..", "..", "LICENSE")
    made[f"{INFO}/METADATA"] = METADATA.encode() + read(HERE, "README.md")
    made[f"{INFO}/WHEEL"] = WHEEL.encode()
    return dict(sorted(made.items()))


def listed(name, data):
    """The line of a file in the list."""
    digest = base64.urlsafe_b64encode(hashlib.sha256(data).digest()).rstrip(b"=").decode()
    return f"{name},sha256={digest},{len(data)}\n"


def main(library, tables, to):
    packed = files(library, tables)
    record = f"{INFO}/RECORD"
    packed[record] = "".join([*(listed(*it) for it in packed.items()), f"{record},,\n"]).encode()
    path = os.path.join(to, f"{NAME}-{VERSION}-{TAG}.whl")
    with zipfile.ZipFile(path, "w") as wheel:
        for name, data in packed.items():
            entry = zipfile.ZipInfo(name, TIME)
            entry.create_system, entry.external_attr, entry.compress_type = 3, 0o100644 << 16, zipfile.ZIP_DEFLATED
            wheel.writestr(entry, data)
    print(path)


if __name__ == "__main__":
    main(*sys.argv[1:])
