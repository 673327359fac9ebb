"""Whether a file that is packed beside itself, and the packed file beside it, are those that the manifest knows."""
from __future__ import annotations

from typing import TYPE_CHECKING

from .. import advice, files, names
from .alone import SUMS
from .calling import Undone
from .rows import NOT_WELL, RESTORED

if TYPE_CHECKING:
    from .in_place import Place

FORGET = "fetch it from another copy; or fzbatch adopt, and then fzbatch forget, take the packed file out of the manifest"


def check_plain(place: "Place", before: files.Looked, accept: bool) -> None:
    """The plain file is the one that the manifest knows, if it knows one, and nothing is wrong with it."""
    row = place.adopted
    if row is not None and row.sha256.hex() != before.sha256:
        raise Undone("plain file changed", "the plain file is another than the one that was adopted", "fetch the one that was adopted from another copy; fzbatch adopt --update takes the file as it is now, if that is right")
    if row is not None and row.status in NOT_WELL and row.findings != [RESTORED] and not (accept and {it.cause for it in row.findings} <= {SUMS}):
        raise Undone("not well", "it is not well by the manifest, and stays as it is", "fzbatch missing says what is wrong; if the file is right again, run fzbatch adopt first")


def check_lost(place: "Place", before: files.Looked) -> None:
    """The packed file is not there: it is made only if the manifest knows none, or knows that it was packed of this very file."""
    if not place.packed_sha256:
        return
    if place.plain is None:
        raise Undone("packed file is lost", f"{names.shown(place.packed_name)} is gone, and the manifest does not say what it was packed of", FORGET)
    if place.plain.sha256 != before.sha256:
        raise Undone("packed file is lost, and plain file changed", advice.BOTH_CHANGED, FORGET.replace("fetch it", "fetch one of them"))


def check_there(place: "Place", before: files.Looked, packed: files.Looked) -> None:
    """The packed file is the one that the manifest knows, or was packed of this very file by it. (What `retile` was about to make is, too.)"""
    if place.plain is not None and place.plain.sha256 != before.sha256:
        raise Undone("plain file changed", "the plain file is another than the one that was packed", "decide which one is right, and move the other one away")
    if place.plain is None and place.packed_sha256 and packed.sha256 not in (place.packed_sha256, place.next_sha256):
        raise Undone("packed file changed", f"{names.shown(place.packed_name)} is another file than the one that was adopted", "fetch that one from another copy; fzbatch adopt --update takes the file as it is now, if that is right")
