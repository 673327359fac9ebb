"""The version, and the commit of the sources."""
from importlib import resources

VERSION = "1.0.0"


def commit() -> str:
    """The commit that this package was made from, or nothing if that is not known, as in a checkout."""
    file = resources.files(__package__).joinpath("COMMIT")
    return file.read_text(encoding="ascii").strip() if file.is_file() else ""


def shown(program: str) -> str:
    """The line of `--version`: the commit by its first 12 digits."""
    digits, *changes = commit().split(" ", 1)
    return f"{program} {VERSION} ({' '.join([f'commit {digits[:12]}', *changes]) if digits else 'commit not known'})"
