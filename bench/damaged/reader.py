"""reader.py astropy|plug|fitsio|tiles: answers files that standard input names, a line each, with what a reader of Python found.

The first file is an undamaged one. The answer is a line of JSON: how it ended (`read`, `error` or `signal`), a digest of the pixels of all images, whether there was a warning,
seconds of a processor, and megabytes beyond what the reader has before it opens a file. Each file is read in a process of its own, so
that one that is ended by a signal ends no other; it is stopped after SECONDS of a processor, and gets no more than ROOM bytes.
`plug` is astropy with fzfits.astropy; `tiles` is fzfits.codec over the rows of the tables, with nothing else.
"""
import contextlib
import hashlib
import json
import os
import resource
import sys
import warnings
from pathlib import Path

sys.path.insert(0, str(Path(__file__).resolve().parents[2] / "python"))

SECONDS = 4
ROOM = 6 << 30


def of_astropy():
    import astropy
    from astropy.io import fits

    def read(path):
        with fits.open(path, do_not_scale_image_data=True, memmap=False) as found:
            return [it.data for it in found if it.is_image and it.data is not None]

    return f"astropy {astropy.__version__}", read


def of_plug():
    import fzfits.astropy

    fzfits.astropy.install()
    name, read = of_astropy()
    return f"{name} with fzfits.astropy", read


def of_fitsio():
    import fitsio

    def read(path):
        with fitsio.FITS(path) as found:
            return [it.read() for it in found if it.get_exttype() == "IMAGE_HDU" and it.has_data()]

    whole, part = str(fitsio.cfitsio_version()).split(".")  # such as 4.060
    return f"fitsio {fitsio.__version__.partition('+')[0]} (cfitsio {whole}.{int(part[:2])})", read


def of_tiles():
    import numpy as np
    from fzfits import codec, headers, rows

    def pixels(spans):
        count = 1
        for it in spans.strip("[]").split(","):
            first, last = it.split(":")
            count *= int(last) - int(first) + 1
        return count

    def parameter(header, name, default):
        number = next((it for it in range(1, 9) if header.value(f"ZNAME{it}") == name), None)
        return default if number is None else header.integer(f"ZVAL{number}")

    def tile(data, header, columns, row):
        for name in codec.COLUMNS:
            at, size = columns.get(name, (0, 0))
            at += header.data + row * header.integer("NAXIS1")
            count, offset = (int.from_bytes(data[it : it + size], "big") for it in (at, at + size))
            if count:
                form = str(header.value(next(f"TFORM{it}" for it in range(1, 99) if str(header.value(f"TTYPE{it}")).upper() == name)))
                length = count * rows.SIZES[form.lstrip("1")[1]]
                heap = header.data + header.integer("THEAP", header.integer("NAXIS1") * header.integer("NAXIS2"))
                if heap + offset + length > header.data + header.size or header.data + header.size > len(data):
                    raise ValueError("the record is not in the heap")
                words = {"codec": str(header.value("ZCMPTYPE")), "bitpix": header.integer("ZBITPIX"), "column": name}
                words.update(bytepix=parameter(header, "BYTEPIX", 4), block=parameter(header, "BLOCKSIZE", 32))
                spans = rows.pixels_of_row(header, row)
                return codec.decode_tile(data[heap + offset : heap + offset + length], pixels(spans), **words)
        raise ValueError("a row has no record")

    def read(path):
        data = Path(path).read_bytes()
        found = [it for it in headers.headers(path) if it.is_packed]
        if not found:
            raise ValueError("no packed image")
        return [np.concatenate([tile(data, it, rows.columns_of(it), row) for row in range(it.integer("NAXIS2"))]) for it in found]

    return f"libfz {codec.version()}, by its tiles", read


def digest(arrays):
    """A digest of shapes and pixels."""
    found = hashlib.sha256()
    for it in arrays:
        found.update(repr((it.shape, it.dtype.kind)).encode() + it.astype(it.dtype.newbyteorder(">")).tobytes())
    return found.hexdigest()


def child(read, path, pipe):
    """Reads a file, and writes how it ended."""
    resource.setrlimit(resource.RLIMIT_CPU, (SECONDS, SECONDS + 1))
    resource.setrlimit(resource.RLIMIT_AS, (ROOM, ROOM))
    resource.setrlimit(resource.RLIMIT_CORE, (0, 0))
    with warnings.catch_warnings(record=True) as told:
        warnings.simplefilter("always")
        try:
            said = {"ended": "read", "digest": digest(read(path))}
        except BaseException as error:  # pylint: disable=broad-except
            said = {"ended": "error", "why": f"{type(error).__name__}: {error}"[:200]}
    os.write(pipe, json.dumps({**said, "warned": bool(told)}).encode())
    os._exit(0)


def answer(read, path):
    out, into = os.pipe()
    before = resource.getrusage(resource.RUSAGE_SELF).ru_maxrss
    pid = os.fork()
    if pid == 0:
        os.close(out)
        child(read, path, into)
    os.close(into)
    with os.fdopen(out, "rb") as pipe:
        text = pipe.read()
    _, status, used = os.wait4(pid, 0)
    found = json.loads(text) if text else {"ended": "signal", "signal": -os.waitstatus_to_exitcode(status)}
    return {**found, "seconds": used.ru_utime + used.ru_stime, "megabytes": max(0, used.ru_maxrss - before) / 1024}


def main():
    try:
        name, read = {"astropy": of_astropy, "plug": of_plug, "fitsio": of_fitsio, "tiles": of_tiles}[sys.argv[1]]()
    except Exception as error:  # pylint: disable=broad-except
        print(json.dumps({"name": None, "why": f"{type(error).__name__}: {error}"[:300]}), flush=True)
        return
    print(json.dumps({"name": name}), flush=True)
    for number, line in enumerate(sys.stdin):
        if number == 0:
            # an undamaged file, so that what a library imports at its first file is there for all
            with contextlib.suppress(Exception), warnings.catch_warnings():
                warnings.simplefilter("ignore")
                read(line.rstrip("\n"))
        print(json.dumps(answer(read, line.rstrip("\n"))), flush=True)


if __name__ == "__main__":
    main()
