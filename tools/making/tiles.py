"""Arrays and their tiles, by coordinates; axis 1 is fastest in both."""
import math


def tile_counts(axes, tile):
    return [-(-axis // length) for axis, length in zip(axes, tile)]


def tiles_of(axes, tile):
    """The boxes of the tiles in order, each as its corner and its lengths."""
    counts = tile_counts(axes, tile)
    for number in range(math.prod(counts)):
        corner, lengths = [], []
        for axis, length, count in zip(axes, tile, counts):
            corner.append(number % count * length)
            lengths.append(min(length, axis - corner[-1]))
            number //= count
        yield corner, lengths


def places_of(axes, corner, lengths):
    """The places of a box in the array."""
    places, stride = [0], 1
    for axis, low, length in zip(axes, corner, lengths):
        places = [it + (low + step) * stride for step in range(length) for it in places]
        stride *= axis
    return places


def tile_for(axes, asked):
    """The lengths of a tile, each at most that of its axis: as asked along the leading axes, 1 along the others."""
    asked = list(asked) if asked else [axes[0]]
    asked += [1] * (len(axes) - len(asked))
    return [min(axis, it) for axis, it in zip(axes, asked)]
