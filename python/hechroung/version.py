"""The version of the package, in a module of its own: building reads it without the library."""

VERSION = "2.1.0"
