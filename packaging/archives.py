"""An archive of a folder, which has the same bytes at each making: names are sorted, and times, owners and modes are fixed."""
import lzma
import os
import subprocess
import tarfile

import crates
import notices
import staging
from errors import Refused

# Files that are alike for the greatest part, as table files are, are packed as one if the packer sees as far back.
PACKED = [{"id": lzma.FILTER_LZMA2, "preset": 6, "dict_size": 16 << 20}]


def time_of_sources():
    """The time that all files get: SOURCE_DATE_EPOCH, or that of the last commit."""
    asked = os.environ.get("SOURCE_DATE_EPOCH")
    if asked and not asked.isdigit():
        raise Refused(f"SOURCE_DATE_EPOCH={asked}: no number of seconds; unset it, or set it to one")
    if asked:
        return int(asked)
    ran = subprocess.run(["git", "log", "-1", "--format=%ct"], cwd=crates.TOP, capture_output=True, text=True, check=False)
    return int(ran.stdout) if ran.returncode == 0 and ran.stdout.strip() else 0


def entry(top, path, when):
    info = tarfile.TarInfo(os.path.join(top, path) if path else top)
    info.mtime, info.mode = when, staging.mode_of(path)
    return info


def folders_of(files):
    """The folders of files, from the top on."""
    found = {""}
    for it in files:
        while it := os.path.dirname(it):
            found.add(it)
    return sorted(found)


def write(folder, path):
    """Writes the archive of a folder, as a whole or not at all, and returns its checksum."""
    with notices.whole(path) as new:
        with lzma.open(new, "wb", filters=PACKED) as packed, tarfile.open(fileobj=packed, mode="w", format=tarfile.USTAR_FORMAT) as made:
            add_all(made, folder)
    return notices.digest(path)


def add_all(made, folder):
    """Adds what is in a folder: the folders, and then the files."""
    top, files, when = f"collate-{crates.version()[0]}", notices.files_below(folder), time_of_sources()
    for it in folders_of(files):
        info = entry(top, it, when)
        info.type, info.mode = tarfile.DIRTYPE, 0o755
        made.addfile(info)
    for it in files:
        info = entry(top, it, when)
        info.size = os.path.getsize(os.path.join(folder, it))
        with open(os.path.join(folder, it), "rb") as text:
            made.addfile(info, text)
