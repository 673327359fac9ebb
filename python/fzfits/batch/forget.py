"""`fzbatch forget`: takes rows of files out of the manifest of which nothing is left, or which were never packed."""
from __future__ import annotations

import os
from typing import Sequence, TextIO

from . import keep, lock, names, survey
from .manifest import now
from .wanted import Refuse, open_manifest


def forget(packed: bytes, wanted: Sequence[str], out: TextIO) -> None:
    """Forgets the files of these names, as they are shown: all of them, or none if one may not be forgotten."""
    with lock.held(os.path.join(packed, names.LOCK)), open_manifest(packed) as manifest:
        began = now()
        rows = {names.shown(it.path): it for it in manifest.rows()}
        for name in wanted:
            row = rows.get(name)
            if row is None:
                raise Refuse(f"{name} is not in the manifest")
            if row.done and survey.files_there(packed, names.packed_name(row.path)):
                raise Refuse(f"{name} has a packed file, and is not forgotten")
        for name in dict.fromkeys(wanted):
            manifest.forget(rows[name].path)
            print(f"forgotten: {name}", file=out)
        manifest.note("forget", began, f"forget: {', '.join(dict.fromkeys(wanted))}"[:1000])
        for it in keep.keep(manifest, packed):
            print(it, file=out)
