"""What the processes of one service note for one another: a folder of their own, which goes away with the service."""

from __future__ import annotations

import contextlib
import hashlib
import os
import shutil
import tempfile
from pathlib import Path
from typing import Final

from catchup.service.process import try_lock

PREFIX: Final = "catchup-service-"
TOLD: Final = "told"


def make_folder() -> Path:
    """A folder for the notes of one service, which it keeps locked as long as one of its processes is there; those of
    killed ones go away. Whoever cleans old files up leaves a locked folder alone."""
    for old in Path(tempfile.gettempdir()).glob(PREFIX + "*"):
        remove_left(old)
    while True:
        folder = Path(tempfile.mkdtemp(prefix=PREFIX))
        # Another service that starts just now may take it for one that is left, until it is locked.
        with contextlib.suppress(FileNotFoundError):
            descriptor = os.open(folder, os.O_RDONLY | os.O_DIRECTORY | os.O_CLOEXEC)
            if try_lock(descriptor) and folder.is_dir():
                return folder
            os.close(descriptor)


def remove_left(folder: Path) -> None:
    """Removes the folder of a service that is gone."""
    try:
        descriptor = os.open(folder, os.O_RDONLY | os.O_DIRECTORY | os.O_CLOEXEC)
    except OSError:
        return
    try:
        if try_lock(descriptor):
            shutil.rmtree(folder, ignore_errors=True)
    finally:
        os.close(descriptor)


def first_to_tell(folder: Path | None, line: str) -> bool:
    """Whether no worker of this service has told a line yet."""
    if folder is None:
        return True
    name = TOLD + hashlib.blake2b(line.encode(), digest_size=12).hexdigest()
    try:
        os.close(os.open(folder / name, os.O_CREAT | os.O_EXCL | os.O_CLOEXEC, 0o600))
    except FileExistsError:
        return False
    except OSError:
        return True
    return True
