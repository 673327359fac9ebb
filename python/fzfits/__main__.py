"""`python -m fzfits`: the command fzfits."""
import sys

from .shell.cli import main

if __name__ == "__main__":
    sys.exit(main())
