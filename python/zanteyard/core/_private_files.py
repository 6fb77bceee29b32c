"""Files that only their owner may read, since they contain keys, values and statements of an
application."""

import contextlib
import errno
import os
import stat

from .errors import FolderUnfitError


def private(path: str, flags: int) -> int:
    """An opener for `open`: only the owner can read and write the file, even if it existed before
    with other permissions. Raises OSError as `os.open` does, and PermissionError for what another
    user has put there, in a folder that others may write to: a file, a link, or a pipe."""
    opens = (flags & ~os.O_TRUNC) | os.O_CLOEXEC  # what is somebody else's stays as it is
    with contextlib.suppress(FileNotFoundError):
        _check_owner(os.lstat(path), path)  # to open another user's pipe would wait for a reader
    try:
        file = os.open(path, opens | os.O_NOFOLLOW, 0o600)
    except OSError as error:
        if error.errno != errno.ELOOP:
            raise
        file = os.open(path, opens, 0o600)
    try:
        its = os.fstat(file)
        _check_owner(its, path)
        if stat.S_ISREG(its.st_mode):
            if its.st_uid != os.geteuid() or its.st_nlink > 1:
                raise PermissionError(errno.EPERM, "it may be another user's, too", path)
            os.fchmod(file, 0o600)
            if flags & os.O_TRUNC:
                os.ftruncate(file, 0)
    except BaseException:
        os.close(file)
        raise
    return file


def _check_owner(its: os.stat_result, path: str) -> None:
    if not stat.S_ISCHR(its.st_mode) and its.st_uid not in (os.geteuid(), 0):
        raise PermissionError(errno.EPERM, "it is another user's", path)


def check_folder(path: str) -> None:
    """Checks that the folder belongs to this user and that no other user may read or write it.
    Raises FolderUnfitError, which says how to fix it, and OSError if it can't be examined."""
    seen = os.lstat(path)
    if not stat.S_ISDIR(seen.st_mode):
        raise FolderUnfitError(f"{path} isn't a folder")
    if seen.st_uid != os.geteuid():
        raise FolderUnfitError(
            f"the folder {path} belongs to user {seen.st_uid}, but this process runs as user "
            f"{os.geteuid()}: use a folder of that user, made by `mkdir -m 700`"
        )
    if seen.st_mode & 0o066:
        deed = "write" if seen.st_mode & 0o022 else "read"
        raise FolderUnfitError(
            f"other users may {deed} the folder {path}, which holds the application's data: run "
            f"`chmod go-rw {path}`, or use a folder made by `mkdir -m 700`"
        )
