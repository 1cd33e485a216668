"""What can be seen of a file by looking at it, and texts for messages."""

import os
import stat
import unicodedata

# The most bytes of a file that are looked at at once.
MOST = 8 << 20


def shown(text):
    """A text without what would move the cursor."""
    return "".join(it if it.isprintable() or it == "\t" else "\ufffd" for it in text)


def width_of(sign):
    """The columns that a character takes on a terminal."""
    if unicodedata.combining(sign):
        return 0
    return 2 if unicodedata.east_asian_width(sign) in "WF" else 1


def is_regular(name):
    return name is not None and os.path.isfile(name)


def content(name):
    """The bytes of a regular file, or None."""
    try:
        if not is_regular(name):
            return None
        with open(name, "rb") as file:
            return file.read(MOST)
    except OSError:
        return None


def folder_of(name):
    return os.path.dirname(name) or "."


def why_not_there(name):
    """Why no file of this name is there, or nothing."""
    folder = folder_of(name)
    if not name:
        return "the name is empty"
    if not os.path.isdir(folder):
        return f"there is no folder {folder}" if not os.path.exists(folder) else f"{folder} is no folder"
    if os.path.islink(name) and not os.path.exists(name):
        return f"is a link to {os.readlink(name)}, which isn't there"
    return "" if os.path.exists(name) else "there is no such file"


def why_unreadable(name):
    """Why a file can't be read, as far as one can see, or nothing."""
    if why := why_not_there(name):
        return why
    if os.path.isdir(name):
        return "is a folder"
    return "" if os.access(name, os.R_OK) else "may not be read (no permission)"


def why_unwritable(name):
    """Why a file can't be made or written, as far as one can see, or nothing."""
    folder = folder_of(name)
    if not name:
        return "the name is empty"
    if not os.path.isdir(folder):
        return f"there is no folder {folder}: make it first" if not os.path.exists(folder) \
            else f"{folder} is no folder"
    if os.path.isdir(name):
        return "is a folder"
    if os.path.exists(name) and not os.access(name, os.W_OK):
        return "may not be written (no permission)"
    if not os.path.exists(name) and not os.access(folder, os.W_OK):
        return f"may not be made in {folder} (no permission)"
    return why_full(os.stat(name if os.path.exists(name) else folder), name, folder)


def why_full(found, name, folder):
    """Why a file or device takes no more bytes, or nothing."""
    if is_full_device(found):
        return "is a device that is always full"
    if stat.S_ISCHR(found.st_mode):
        return ""
    system = os.statvfs(name if os.path.exists(name) else folder)
    if system.f_flag & os.ST_RDONLY:
        return "lies on a file system that can only be read"
    if system.f_bavail * system.f_frsize < 65536 or (system.f_files and not system.f_favail):
        return "lies on a file system that is full"
    return ""


def is_full_device(found):
    return stat.S_ISCHR(found.st_mode) and found.st_rdev == os.makedev(1, 7)
