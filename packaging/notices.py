"""What goes with the programs for whoever gets them: versions, what they need, licences, and checksums."""
import contextlib
import hashlib
import os
import re
import shutil
import subprocess

import crates
import program_needs
from errors import Refused

DEP = re.compile(r"(?m)^dep (\w+)$")
# Rows of the README's table of versions that the programs can't say of themselves.
ROWS = re.compile(r"(?m)^\| (Unicode data[^|]*|UTS #10|Ported crate) \| ([^|]*) \|$")
# Files with the licence of CLDR's data: those in a folder of the data, or that of the usual folder, which a package of Debian installs.
OF_CLDR = ("LICENSE", "LICENSE.txt", "unicode-license.txt")
USUAL_CLDR, OF_DEBIAN = "/usr/share/unicode/cldr", "/usr/share/doc/unicode-cldr-core/copyright"


def read_bytes(path):
    with open(path, "rb") as it:
        return it.read()


def digest(path):
    return hashlib.sha256(read_bytes(path)).hexdigest()


def write(path, text):
    os.makedirs(os.path.dirname(path), exist_ok=True)
    with open(path, "w", encoding="utf-8") as it:
        it.write(text)


@contextlib.contextmanager
def whole(path):
    """The path of a file to write, which takes the place of this one when it is written, and is removed if that fails."""
    new = os.path.join(os.path.dirname(path), f".unfinished-{os.path.basename(path)}")
    try:
        yield new
        os.replace(new, path)
    except OSError as why:
        raise OSError(why.errno, why.strerror, path) from why
    finally:
        with contextlib.suppress(FileNotFoundError):
            os.remove(new)


# ---- versions, and what is needed


def toolchain():
    """What the toolchain says of its version."""
    ran = subprocess.run(["rt", "version"], stdin=subprocess.DEVNULL, capture_output=True, text=True, check=False)
    if ran.returncode:
        raise Refused(f"rt version: {ran.stderr.strip() or ran.returncode}; the toolchain's version belongs to what is installed")
    return ran.stdout.strip()


def versions(said, programs):
    """The versions of all that is in the programs; `said` is what the first says of its own and of CLDR's data."""
    own, *data = [line.partition(",")[0] for line in said.splitlines()]
    rest = [f"{what}: {re.sub(r' *[(].*', '', it)}" for what, it in ROWS.findall(crates.read(os.path.join(crates.TOP, "README.md")))]
    needs = program_needs.needs_of([read_bytes(it) for it in programs])
    lines = [f"{own.rpartition(' ')[0]} {' '.join(crates.version())}", *data, *rest, f"Toolchain: {toolchain()}", f"Needs: {needs}"]
    return "\n".join(lines) + "\n"


# ---- licences


def of_toolchain(kit, programs):
    """The toolchain's crates that stand in these programs: those that crates.txt names, and those below them."""
    listed = crates.listed()
    ahead = {it for name in programs for below in [*crates.below(listed, name), name] for it in listed[below].of_kit}
    found = set()
    while ahead:
        name = ahead.pop()
        found.add(name)
        ahead |= {*DEP.findall(crates.read(os.path.join(kit, "rlibs", f"{name}.rlib", "format")))} - found
    return sorted(found)


def copy_licence_of_data(folder, to, is_for_others):
    """Copies the licence of CLDR's data in a folder; what is for others has to have it."""
    places = [os.path.join(folder, it) for it in OF_CLDR] + [OF_DEBIAN] * (os.path.realpath(folder) == os.path.realpath(USUAL_CLDR))
    found = next((it for it in places if os.path.isfile(it)), None)
    if found:
        shutil.copy(found, os.path.join(to, "LICENSE"))
    elif is_for_others:
        why = "compiled tables may go to others only beside the licence of the data"
        raise Refused(f"{folder}: no file {', '.join(OF_CLDR[:-1])} or {OF_CLDR[-1]}: {why}; put it there")


def copy_licences(programs, to):
    """Copies our licence, and those of the toolchain's crates that stand in the programs."""
    kit = crates.kit()
    if not kit:
        raise Refused("the toolchain's command 'rt' is not on the PATH; it has the licences of its crates")
    os.makedirs(to, exist_ok=True)
    shutil.copy(os.path.join(crates.TOP, "LICENSE"), to)
    without = []
    for name in of_toolchain(kit, programs):
        own = os.path.join(kit, "rattle", name)
        files = sorted(it for it in os.listdir(own) if it.startswith("LICENSE")) if os.path.isdir(own) else []
        for it in files:
            os.makedirs(os.path.join(to, "toolchain", name), exist_ok=True)
            shutil.copy(os.path.join(own, it), os.path.join(to, "toolchain", name))
        without += [] if files else [name]
    said = "Crates of the toolchain that stand in the programs, and come without a licence of their own:\n"
    write(os.path.join(to, "toolchain", "WITHOUT_LICENCE"), said + "".join(f"{it}\n" for it in without))


# ---- checksums


def files_below(folder):
    """The files below a folder, by their sorted paths from there."""
    return sorted(os.path.relpath(os.path.join(at, it), folder) for at, _, names in os.walk(folder) for it in names)


def write_sums(folder, to):
    """Writes the checksums of all files below a folder, as `sha256sum -c` reads them there."""
    text = "".join(f"{digest(os.path.join(folder, it))}  {it}\n" for it in files_below(folder))
    write(os.path.join(folder, to), text)
