#!/usr/bin/env python3
"""sky.py OUT: writes a packed image of a made-up galaxy among stars, with celestial coordinates and units, for the pictures of docs/PICTURES.md."""
import sys
from pathlib import Path

import numpy as np

sys.path.insert(0, str(Path(__file__).resolve().parents[2] / "python"))
import fzfits  # noqa: E402

WIDE, HIGH = 256, 192
CARDS = {
    "OBJECT": "made-up galaxy", "BUNIT": "adu", "CTYPE1": "RA---TAN", "CTYPE2": "DEC--TAN", "CRPIX1": 128.5, "CRPIX2": 96.5,
    "CRVAL1": 10.68, "CRVAL2": 41.27, "CD1_1": -5.2e-4, "CD1_2": 2.0e-4, "CD2_1": 2.0e-4, "CD2_2": 5.2e-4, "RADESYS": "ICRS",
}


def pixels():
    """Counts of 16 bits: a disk with two arms, 60 stars, and noise."""
    chance = np.random.default_rng(7)
    y, x = np.mgrid[:HIGH, :WIDE]
    along, across = (x - 128) * 0.9 + (y - 96) * 0.44, ((y - 96) * 0.9 - (x - 128) * 0.44) * 1.9
    far = np.hypot(along, across)
    arms = 1 + 0.6 * np.cos(2 * np.arctan2(across, along) - far / 7)
    sky = 400 + 900 * np.exp(-far / 24) * arms + 5000 * np.exp(-far / 4)
    for _ in range(60):
        left, low, bright = chance.uniform(0, WIDE), chance.uniform(0, HIGH), 60 * chance.pareto(0.9) + 40
        sky = sky + min(bright, 20000) * np.exp(-((x - left) ** 2 + (y - low) ** 2) / 2.5)
    return np.clip(chance.poisson(sky), 0, 65535).astype("u2")


if __name__ == "__main__":
    fzfits.write(sys.argv[1], pixels(), header=CARDS, tile=(64, 64), sums=True)
