"""The program's version: that of the first heading of CHANGELOG.md."""
VERSION = "0.1.0"
