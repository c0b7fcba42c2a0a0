"""Starts a server for the probe, on the files of a tree file: `rooted` in a folder as its root, `folders` makes that,
`mounts` and `apart` keep it from the machine, `streams` are its streams."""
