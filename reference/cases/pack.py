#!/usr/bin/env python3
"""Pack the files of one folder into a .tar.xz that is the same every time.

    python3 pack.py FOLDER ARCHIVE

Names sorted, no folder inside, times and owners zero, so that the same files
give the same archive and a difference in the archive is a difference in a case.
"""

import io
import lzma
import os
import sys
import tarfile


def member(name, content):
    """The archive's entry for one file: its name and size, all else fixed."""
    entry = tarfile.TarInfo(name)
    entry.size = len(content)
    entry.mtime = 0
    entry.mode = 0o644
    entry.uid = entry.gid = 0
    entry.uname = entry.gname = ""
    return entry


def packed(folder):
    """The archive's bytes."""
    plain = io.BytesIO()
    with tarfile.open(fileobj=plain, mode="w", format=tarfile.USTAR_FORMAT) as archive:
        for name in sorted(os.listdir(folder)):
            with open(os.path.join(folder, name), "rb") as file:
                content = file.read()
            archive.addfile(member(name, content), io.BytesIO(content))
    return lzma.compress(plain.getvalue(), preset=9 | lzma.PRESET_EXTREME)


def main():
    folder, archive = sys.argv[1:]
    with open(archive, "wb") as file:
        file.write(packed(folder))


if __name__ == "__main__":
    main()
