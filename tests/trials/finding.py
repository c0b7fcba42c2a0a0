"""How code that a test runs in a process of its own finds the package."""
from sftpv3.system.program import PACKAGE

# Its first lines.
FIND = f"""import sys
sys.modules["sftpv3"] = package = type(sys)("sftpv3")
package.__path__ = [{PACKAGE!r}]
"""
