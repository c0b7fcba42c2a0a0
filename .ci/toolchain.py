"""Finds the toolchain's `rt`: in no folder that depends on where a script is called, whatever PATH says."""
import os
import shutil

LACKS = "no folder that the PATH names from the root on has an rt, the Rattle toolchain"


def found():
    """Returns the path of `rt`, or None. An empty or relative folder of PATH would be one of the current folder."""
    folders = [it for it in os.get_exec_path() if os.path.isabs(it)]
    return shutil.which("rt", path=os.pathsep.join(folders))
