"""Puts files below a prefix, and takes them away. A list there names each file and folder that was made, and nothing else is touched."""
import contextlib
import os
import shutil

import notices
import staging
from errors import Refused

LIST = f"{staging.DOCUMENTS}/INSTALLED"


def listed(root):
    """What the list below a prefix names; a folder ends with a slash."""
    try:
        with open(os.path.join(root, LIST), encoding="utf-8") as it:
            return it.read().splitlines()
    except FileNotFoundError:
        return []


def write_list(root, names):
    with notices.whole(os.path.join(root, LIST)) as new:
        notices.write(new, "".join(f"{it}\n" for it in sorted({*names})))


def make_folders(root, files):
    """Makes the folders that files need and that aren't there, and returns them, the prefix as well, each with a slash at its end."""
    os.makedirs(os.path.dirname(root), exist_ok=True)
    needed = {".", *(folder for it in files for folder in parents(it))}
    made = [it for it in sorted(needed) if not os.path.isdir(os.path.join(root, it))]
    for it in made:
        os.mkdir(os.path.normpath(os.path.join(root, it)))
    return [f"{it}/" for it in made]


def parents(path):
    """The folders of a path: the last one first."""
    while path := os.path.dirname(path):
        yield path


def refuse_foreign(folder, root, files, before):
    """Refuses to replace a file that no run put there and that isn't the same."""
    for it in files:
        path = os.path.join(root, it)
        if it not in before and os.path.lexists(path):
            if not os.path.isfile(path) or notices.digest(path) != notices.digest(os.path.join(folder, it)):
                raise Refused(f"{path}: it is there, and bin/install didn't put it there; remove it, or name another --prefix")


def place(source, path, mode):
    """Puts a copy of a file in the place of another one, which a program that runs goes on with."""
    with notices.whole(path) as new:
        shutil.copyfile(source, new)
        os.chmod(new, mode)


def install(folder, root):
    """Puts the files of a folder below a prefix, and takes those away that an earlier run put there and that are no more."""
    before, files = listed(root), notices.files_below(folder)
    refuse_foreign(folder, root, files, before)
    folders = make_folders(root, [*files, LIST])
    # The next run knows what a run that is broken off has put there.
    write_list(root, [*before, *folders, *files, LIST])
    for it in files:
        place(os.path.join(folder, it), os.path.join(root, it), staging.mode_of(it))
    kept = {*files, LIST}
    remove(root, [it for it in before if not it.endswith("/") and it not in kept])
    write_list(root, [*(it for it in [*before, *folders] if it.endswith("/")), *kept])


def remove(root, files):
    for it in files:
        with contextlib.suppress(FileNotFoundError):
            os.remove(os.path.join(root, it))


def uninstall(root):
    """Takes away what the list below a prefix names, the list last, and of its folders those that are empty then."""
    names = listed(root)
    if not names:
        raise Refused(f"{os.path.join(root, LIST)}: no such list, so nothing is installed there; --prefix names another place")
    remove(root, [it for it in names if not it.endswith("/") and it != LIST])
    remove(root, [LIST])
    for it in sorted((it for it in names if it.endswith("/")), reverse=True):
        path = os.path.normpath(os.path.join(root, it))
        if os.path.isdir(path) and not os.listdir(path):
            os.rmdir(path)
