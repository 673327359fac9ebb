#!/usr/bin/env python3
"""night.py FOLDER [--images N] [--side N] [--workers N]: the mean of a night of packed images on a cluster of this machine, without unpacking.

N images (20), each `side` pixels square with 16 bits, are made in FOLDER and packed by fz in squares of 128 x 128. dask.distributed
starts `workers` processes with one thread each; each task reads one group of tiles of one image, and a bar shows how far it is. Then
the same mean is taken with astropy, which unpacks a whole image in a task. The two means and numpy's are compared. Seconds on the
clock, and those of the processors of the workers. Needs numpy, dask, distributed and astropy; FZ names the program, FZ_LIBRARY libfz.
"""
import argparse
import os
import sys
import time
from pathlib import Path

TOP = Path(__file__).resolve().parents[2]
sys.path[:0] = [str(TOP / "bench"), str(TOP / "python")]
os.environ["PYTHONPATH"] = os.pathsep.join([str(TOP / "python"), os.environ.get("PYTHONPATH", "")])
import dask  # noqa: E402
import dask.array as da  # noqa: E402
import numpy as np  # noqa: E402
from distributed import Client, LocalCluster, progress  # noqa: E402

import fzfits  # noqa: E402
from images import image_header, noise, write_file  # noqa: E402


def night(folder, images, side):
    """The packed files of a night."""
    found = []
    for it in range(images):
        plain, packed = folder / f"n{it:02}.{side}.fits", folder / f"n{it:02}.{side}.fits.fz"
        if not packed.exists():
            write_file(plain, [(image_header(16, [side, side]), noise(it, side, side))])
            fzfits.pack(plain, packed, tile=(128, 128))
            plain.unlink()
        found.append(packed)
    return found


def by_open(paths, nbytes):
    """The mean as a lazy array, by `fzfits.open`."""
    return da.stack([fzfits.open(it).first.to_dask(nbytes=nbytes) for it in paths]).mean(axis=0)


def whole(path):
    """The pixels of an image by astropy."""
    from astropy.io import fits  # pylint: disable=import-outside-toplevel

    with fits.open(path) as file:
        return next(it.data for it in file if it.data is not None)


def by_astropy(paths, side):
    """The mean as a lazy array, by astropy."""
    return da.stack([da.from_delayed(dask.delayed(whole)(it), (side, side), ">i2") for it in paths]).mean(axis=0)


def used(client):
    """Seconds of processors of all workers so far."""
    return sum(client.run(lambda: sum(os.times()[:2])).values())


def timed(client, lazy, bar):
    """The mean, and what it took on the clock and of the workers' processors."""
    begin, before = time.perf_counter(), used(client)
    future = client.compute(lazy)
    if bar:
        progress(future)
        print()
    found = future.result()
    return found, time.perf_counter() - begin, used(client) - before


def main():
    arguments = argparse.ArgumentParser(description=__doc__, formatter_class=argparse.RawDescriptionHelpFormatter)
    arguments.add_argument("folder", type=Path)
    arguments.add_argument("--images", type=int, default=20)
    arguments.add_argument("--side", type=int, default=2048)
    arguments.add_argument("--workers", type=int, default=2)
    arguments.add_argument("--nbytes", type=int, default=1 << 20)
    arguments.add_argument("--no-bar", action="store_true")
    arguments.add_argument("--by", choices=("fzfits.open", "astropy"), help="only this one")
    given = arguments.parse_args()
    given.folder.mkdir(parents=True, exist_ok=True)
    paths = night(given.folder, given.images, given.side)
    wanted = sum(fzfits.open(it).first[...].astype("f8") for it in paths) / len(paths)
    with LocalCluster(n_workers=given.workers, threads_per_worker=1, processes=True, dashboard_address=None) as cluster, Client(cluster) as client:
        ways = {"fzfits.open": by_open(paths, given.nbytes), "astropy": by_astropy(paths, given.side)}
        for name, lazy in ways.items():
            if given.by not in (None, name):
                continue
            found, clock, processors = timed(client, lazy, not given.no_bar)
            print(f"{name:12} {clock:6.2f} s on the clock, {processors:6.2f} s of processors, {len(lazy.__dask_graph__())} tasks, the same mean: {np.allclose(found, wanted, rtol=1e-12)}")
    print(f"{given.images} images of {given.side} x {given.side}, {given.workers} workers, load {os.getloadavg()[0]:.0f}")


if __name__ == "__main__":
    main()
