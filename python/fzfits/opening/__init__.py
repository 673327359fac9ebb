"""Files opened in this process: packed images as lazy arrays, over libfz. `fzfits.open` is what callers use.

Reading order: `file` and `hdus`, which callers see; `pixels`, `reading` and `grid`, from a part to tiles; `layer` and its bodies, which
know what bytes mean; `sources`, where bytes come from.
"""
from .file import File, open  # pylint: disable=redefined-builtin
from .hdus import Hdu, Image

__all__ = ["File", "Hdu", "Image", "open"]
