"""The toolchain: where it is, and the modules of its command `rt` that know how a crate is read, tried and proved."""

import importlib.machinery
import importlib.util
import os
import shutil
import subprocess
import sys


class NoKit(Exception):
    """There is no command `rt` on the path, or it isn't of a kit."""


class Kit:
    """The kit whose `rt` stands on the path."""

    def __init__(self):
        command = shutil.which("rt")
        if command is None:
            raise NoKit("there is no command rt on the path: README.md says under 'Set up' what it is")
        self.command = os.path.realpath(command)
        self.folder = os.path.dirname(os.path.dirname(self.command))

    def version(self):
        """The line that names the kit."""
        told = subprocess.run([self.command, "version"], capture_output=True, text=True)
        return told.stdout.strip()

    def module(self, name):
        """A module of the kit's folder bin/, `rt` or `rtlib`."""
        file = f"{self.folder}/bin/{name}" if name == "rt" else f"{self.folder}/bin/{name}.py"
        loader = importlib.machinery.SourceFileLoader(name, file)
        made = importlib.util.module_from_spec(importlib.util.spec_from_loader(name, loader))
        writes, sys.dont_write_bytecode = sys.dont_write_bytecode, True
        sys.modules[name] = made
        try:
            loader.exec_module(made)
        except (OSError, SyntaxError) as reason:
            raise NoKit(f"{file} can't be read: {reason}") from None
        finally:
            sys.dont_write_bytecode = writes
        return made
