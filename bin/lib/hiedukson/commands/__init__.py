"""The commands, one module each: `main(cmd, arguments)` returns the status, the docstring is what --help prints.

To add one: a module here, and a copy of bin/verdict under its name.
"""
