"""The package tests/broken: `rt ci` refuses a link to it."""
import os

__path__ = [os.path.dirname(os.path.dirname(os.path.realpath(__file__))) + "/tests/broken"]
