"""Folders of FITS files of any packer, as they are: a manifest beside them, and what each file is worth.

Nothing in such a folder is changed. `look` compares the names, lengths and times of a folder with the manifest (`store`); what is
new or looks otherwise is read by a task (`examine`), which reads each HDU by itself if `fz` does not take the file as a whole
(`alone`, `tiles`); `run` puts these together. `survey` and `page` say what the manifest knows. Nothing here has a list of all files
in memory: what waits is in a database of its own on a disk (`waiting`).
"""
