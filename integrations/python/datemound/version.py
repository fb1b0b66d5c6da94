"""The version of Datemound, of this module and of the package that it comes in."""

VERSION = "0.1.0"
