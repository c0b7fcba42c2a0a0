"""The package python/sftpv3: `rt ci` refuses a link to it."""
import os

__path__ = [os.path.dirname(os.path.dirname(os.path.realpath(__file__))) + "/python/sftpv3"]
