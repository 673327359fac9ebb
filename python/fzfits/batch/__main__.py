"""`python -m fzfits.batch` and the command `fzbatch`."""
import sys

from .cli import main

if __name__ == "__main__":
    sys.exit(main())
