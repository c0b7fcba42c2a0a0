"""The package models/model: `rt ci` refuses a link to it."""
import os

__path__ = [os.path.dirname(os.path.dirname(os.path.realpath(__file__))) + "/models/model"]
