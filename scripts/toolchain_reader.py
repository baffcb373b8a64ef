"""Reads the definitions of the toolchain's crates, as far as words of ours lead to them. scripts/believed.py stands on it."""
import subprocess
from functools import cache
from pathlib import Path

from spec_reader import bound_names, read_module, words_of

# Numbers, lists, options and results, which mean what they mean everywhere, are passed on by modules of this name.
PLAINEST = 'Prelude'
# The crates with the tables of Unicode, which are no definitions to be read.
TABLES = 'ucd_'


def toolchain_folder():
    """The folder in which the toolchain's crates lie, each with its specs/."""
    guide = subprocess.run(['rt', 'doc'], capture_output=True, text=True, check=True).stdout.strip()
    return Path(guide).parent / 'rattle'


class Toolchain:
    """The definitions of the toolchain's crates, each named by the path of its module and its own name."""

    def __init__(self, folder):
        self.folder = folder
        self.module = cache(self.read)

    def file_of(self, path):
        """Where a module such as clap.specs.Words stands, if it is a file."""
        crate, *rest = path.split('.')
        file = self.folder.joinpath(crate, *rest).with_suffix('.antt')
        return file if file.exists() else None

    def read(self, path):
        """A module by its path, or by the path under which a module above it passes it on; none where it is no file."""
        if file := self.file_of(path):
            return read_module(file, path)
        above, _, last = path.rpartition('.')
        if '.' not in above:
            return None
        head = self.module(f'{above}.Lib') if above.endswith('.specs') else self.module(above)
        if head is None or above.endswith('.specs'):
            return self.module(head.aliases[last]) if head and last in head.aliases else None
        return self.module(f'{head.path}.{last}') if head.path != above else None

    def find(self, path, name):
        """The definition that a name of a module stands for; none where it is one of the plainest, a table, a type of code or a builtin."""
        is_left_out = path.endswith(f'.{PLAINEST}') or path.startswith(TABLES) or '.declared.' in path
        module = None if is_left_out else self.module(path)
        if module is None:
            return None
        for definition in module.definitions:
            if name == definition.name or name in definition.constructors:
                return module.path, definition.name
        return self.find(*module.names[name]) if name in module.names else None

    @cache
    def named_by(self, node):
        """The definitions that a definition names."""
        path, name = node
        module = self.module(path)
        unit = next(definition.unit for definition in module.definitions if definition.name == name)
        found = set()
        for definition in module.definitions:
            if definition.unit != unit and definition.name != name:
                continue
            for line in definition.parts():
                bound = bound_names(line)
                for head, members in words_of(line):
                    if head in module.aliases and members:
                        found.add(self.find(module.aliases[head], members[0]))
                    elif head not in bound:
                        found.add(self.find(path, head))
        return found - {None}

    def reached(self, words):
        """All definitions that words lead to; a word is the path of its module and its name."""
        queue = [node for node in (self.find(path, name) for path, name in words) if node]
        found = set(queue)
        while queue:
            new = self.named_by(queue.pop()) - found
            found |= new
            queue += new
        return found

    def lines(self, nodes):
        """How many lines definitions have, without those in plain words."""
        return sum(d.size() for path, name in nodes for d in self.module(path).definitions if d.name == name)
