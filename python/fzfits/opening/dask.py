"""Images as arrays of dask. A chunk is a group of whole tiles, so that no tile is decoded twice."""
from __future__ import annotations

from typing import TYPE_CHECKING, Any, Sequence, Tuple, Union

if TYPE_CHECKING:
    from .hdus import Image

NBYTES = 1 << 25


def chunks_of(image: "Image", nbytes: int = NBYTES) -> Tuple[int, ...]:
    """The shape of a group of whole tiles of at most `nbytes` bytes, or of one tile: tiles that follow each other in the file."""
    room = max(1, nbytes // int(image.dtype.itemsize))
    shape = list(image.chunks)
    for length in image.chunks:
        room //= length
    for axis in range(image.ndim - 1, -1, -1):
        many = max(1, min(image.tiles[axis], room))
        shape[axis] = min(image.shape[axis], many * image.chunks[axis])
        room //= many
    return tuple(shape)


def array_of(image: "Image", chunks: Union[str, Sequence[int], int, dict] = "tiles", nbytes: int = NBYTES) -> Any:  # type: ignore[type-arg]
    """The image as an array of dask, which reads each chunk in the process that needs it."""
    try:
        import dask.array  # type: ignore[import]  # pylint: disable=import-outside-toplevel
        from dask.base import tokenize  # type: ignore[import]  # pylint: disable=import-outside-toplevel
    except ImportError:
        raise ImportError("to_dask needs dask, which is not installed: pip install 'dask[array]'; image.read(..) needs only numpy") from None
    wanted = chunks_of(image, nbytes) if chunks == "tiles" else chunks
    name = f"fz-{tokenize(image.token(), wanted)}"
    return dask.array.from_array(image, chunks=wanted, name=name, lock=False, fancy=False, inline_array=True)
