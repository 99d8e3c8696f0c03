"""A folder of its own, in which a trial writes files and puts commands in place of others."""
from __future__ import annotations

import os
import shutil
import tempfile

TOP = os.path.dirname(os.path.dirname(os.path.dirname(os.path.abspath(__file__))))


def read(name: str) -> str:
    """The text of a file of this repository."""
    with open(os.path.join(TOP, name), encoding="utf-8") as file:
        return file.read()


class Scratch:
    def make(self, prefix: str = "aide-test-") -> None:
        os.umask(0o022)  # Others have to read what root makes here, whatever umask the caller has.
        self.root = tempfile.mkdtemp(prefix=prefix)
        os.chmod(self.root, 0o755)

    def path(self, *names: str) -> str:
        return os.path.join(self.root, *names)

    def write(self, name: str, text: str | bytes, mode: int = 0o644) -> str:
        """Writes a file. A link of either sort that lies there is not followed: root would write a
        file of the machine, or one that other tests have too."""
        path = self.path(name)
        os.makedirs(os.path.dirname(path), exist_ok=True)
        if os.path.isfile(path) and os.lstat(path).st_nlink > 1:
            os.remove(path)
        with open(
            path, "wb", opener=lambda path, flags: os.open(path, flags | os.O_NOFOLLOW, 0o644)
        ) as file:
            file.write(text if isinstance(text, bytes) else text.encode())
        os.chmod(path, mode)
        return path

    def read(self, name: str) -> bytes:
        with open(self.path(name), "rb") as file:
            return file.read()

    def stub(self, name: str, body: str, folder: str = "stubs") -> str:
        """A command of the trials, found before that of the machine."""
        return self.write(os.path.join(folder, name), "#!/bin/sh\n%s\n" % body, 0o755)

    def remove(self) -> None:
        shutil.rmtree(self.root, ignore_errors=True)
