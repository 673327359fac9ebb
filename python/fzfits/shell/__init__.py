"""The command `fzfits`, for people in a shell: several files in one call, names and causes in every message."""
