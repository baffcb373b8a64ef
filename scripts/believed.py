#!/usr/bin/env python3
"""Computes from the contracts what has to be believed, and fails where the layout of specs/ or docs/TRUST.md does not say so.

Each crate's definitions stand in three places: right in specs/ what the theorem of the tool reaches, which has to be believed; in specs/calls/
what else the contracts of public calls reach; in specs/inner/ what only the contracts of private functions and the proofs use. A definition
reaches what it names, a contract what its clauses name, and a type what its model names. Proofs reach nothing: the prover has read them.
A second list has what the sentences of `ctd-lint --verdicts` rest on besides, and a third what the lines of `ctd-lint --guarantees` do.
It fails too where a proof stands outside of specs/inner/, where a definition has no line in plain words above it, and where a definition to be
believed has a word that cannot be followed.
"""
import argparse
import re
import sys
from collections import deque
from pathlib import Path

from spec_reader import domains_of, exported, logical_lines, read_modules, read_source, unknown_words, words_of
from toolchain_reader import PLAINEST, Toolchain, toolchain_folder

ROOT = Path(__file__).resolve().parent.parent
PAGE = 'docs/TRUST.md'
# The calls whose contracts are the theorem of the tool, and the module that has it.
THEOREM = {('ctd_tool', name) for name in ('answer', 'run_words', 'run_tool')}
THEOREM_MODULE = 'ctd_tool.specs.Theorem'
# The call on whose contract the sentences of `ctd-lint --verdicts` rest, and what it says of all else that is written: a parameter of the theorem,
# which holds whatever it is.
VERDICTS = ('ctd_lint_tool', 'answer')
PARAMETER = ('ctd_lint_report.specs.calls.Report', 'AreRemarks')
# What the lines of `ctd-lint --guarantees` say: that each is so, and how it is written.
GUARANTEES = {('ctd_guarantees.specs.calls.Guarantees', 'IsGuaranteed'), ('ctd_lint_report.specs.calls.Report', 'asked_guarantees')}
# What the toolchain calls a fact, besides what begins with Is.
FACTS = {'Consumes', 'CmpEqualImpliesEq', 'IfSome', 'IfOk', 'IfErr', 'All'}
REASONS = {
    '': 'has to be believed, since the theorem of the tool reaches it: it belongs right into specs/',
    'calls': 'is reached by public contracts, and not by the theorem of the tool: it belongs to specs/calls/',
    'inner': 'is reached by no public contract: it belongs to specs/inner/',
}


class Repository:
    """All definitions and contracts, as a graph: a definition is (module, name), a thing of the code ('code', crate, name..)."""

    def __init__(self, root):
        self.root = root
        listed = [line.split()[0].rstrip(':') for line in (root / 'crates.txt').read_text().split('\n') if line.strip() and not line.startswith('#')]
        self.crates = [root / 'crates' / name for name in listed]
        self.modules, self.sources, self.exports = {}, [], {}
        for crate in self.crates:
            for module in read_modules(crate):
                self.modules[module.path] = module
            if not crate.name.startswith('test_'):
                self.exports[crate.name] = exported(crate)
                self.sources += [read_source(crate.name, file) for file in sorted((crate / 'src').rglob('*.rt')) if 'tests' not in file.parts]
        self.homes = {}
        for path, definition in self.definitions():
            for name in [definition.name] + definition.constructors:
                self.homes[path, name] = definition
        self.types = {}
        for source in self.sources:
            for item in source.items:
                if len(item.key) == 2:
                    self.types.setdefault(item.key[1], set()).add(('code',) + item.key)
        self.edges = {}
        for module in self.modules.values():
            self.add_module(module)
        for source in self.sources:
            for item in source.items:
                self.add_item(source, item)

    def find(self, path, name):
        """The node that a name of a module stands for, if it is one of ours."""
        if (path, name) in self.homes:
            return (path, self.homes[path, name].name)
        if path in self.modules and name in self.modules[path].passed_on:
            return self.find(*self.modules[path].names[name])
        parts = path.split('.')
        if 'declared' in parts and parts[0] in self.exports:
            owner = parts[-2] if parts[-1] in ('TheVariants', 'TheViews') else parts[-1]
            return ('code', parts[0], name if owner == 'TheConstants' else owner)
        return None

    def resolve(self, text, names, aliases, local):
        """The nodes that the words of a text name. A name that a line binds for itself counts too, if it is also that of a definition."""
        found = set()
        for head, members in words_of(text):
            if head in local:
                found |= local[head]
            elif head in names:
                found.add(self.find(*names[head]))
            if members and head in aliases:
                found.add(self.find(aliases[head], members[0]))
        return found - {None}

    def add_module(self, module):
        """The edges of the definitions of a module."""
        local = {}
        for definition in module.definitions:
            for name in [definition.name] + definition.constructors:
                local.setdefault(name, set()).add((module.path, definition.name))
        units = {}
        for definition in module.definitions:
            node = (module.path, definition.name)
            units.setdefault(definition.unit, []).append(node)
            edges = self.edges.setdefault(node, set())
            for line in definition.parts():
                edges |= self.resolve(line, module.names, module.aliases, local)
        for nodes in units.values():
            for node in nodes:
                self.edges[node].update(nodes)

    def add_item(self, source, item):
        """The edges of a thing of the code."""
        edges = self.edges.setdefault(('code',) + item.key, set())
        for clause in item.clauses:
            edges |= self.resolve(clause, source.names, source.aliases, {})
        for name in item.mentions & source.brought:
            found = self.types.get(name, set())
            edges |= {node for node in found if node[1] == item.key[0]} or found
        if item.invariants:
            rests = self.edges.setdefault(('invariant',) + item.key, set())
            for clause in item.invariants:
                rests |= self.resolve(clause, source.names, source.aliases, {})

    def lost_imports(self):
        """The imports of definitions and of code here that the reader does not find, with the file of each; what it does not see cannot be reached."""
        for importer in [*self.modules.values(), *self.sources]:
            for path, name in importer.names.values():
                if self.is_lost(path, name):
                    yield importer.file, f'{path}.{name}'

    def is_lost(self, path, name):
        """Whether a name is one of ours that the reader does not find."""
        if path in self.modules and name in self.modules[path].passed_on:
            return self.is_lost(*self.modules[path].names[name])
        parts = path.split('.')
        # `contracts` is what the toolchain makes of contracts, for proofs.
        return parts[0] in self.exports and 'contracts' not in parts and self.find(path, name) not in self.edges

    def is_proof(self, node):
        """Whether a definition is the proof of a fact, which the prover has read."""
        definition = self.homes.get(node)
        if definition is None or definition.kind in ('data', 'record'):
            return False
        return self.is_fact(node[0], definition.domains()[-1])

    def is_fact(self, path, text, seen=()):
        """Whether a type is a fact about values: an equation, a predicate that holds, or a record or relation of such."""
        head = text.split()[0].strip('(')
        if re.search(r' [≡≢≤<] ', text) or (head.startswith('Is') and head != 'IsTrue') or head in FACTS:
            return True
        names = self.modules[path].names
        node = (path, head) if (path, head) in self.homes else self.find(*names[head]) if head in names else None
        definition = self.homes.get(node)
        if definition is None or definition.kind == 'plain' or node in seen:
            return False
        if definition.kind == 'record':
            fields = [line.split(' : ', 1)[1] for line in logical_lines(definition.lines[1:]) if ' : ' in line]
            return any(self.is_fact(node[0], domains_of(text)[-1], (*seen, node)) for text in fields)
        return any(not re.fullmatch(r'[({][^:]* : Type \d[)}]|Type \d', domain) for domain in definition.domains())

    def public_calls(self):
        """The exported calls, types and traits, with the methods of these types."""
        roots = set()
        for source in self.sources:
            for item in source.items:
                crate, name = item.key[:2]
                if name in self.exports[crate] and (len(item.key) == 2 or item.public):
                    roots |= {('code',) + item.key, ('invariant',) + item.key}
        return roots

    def reached(self, roots, without=frozenset()):
        """Each node that is reached, with the one before it on the way; some are passed over."""
        before, queue = {root: None for root in roots}, deque(sorted(roots))
        while queue:
            node = queue.popleft()
            for other in sorted(self.edges.get(node, ())):
                if other not in before and other not in without and not self.is_proof(other):
                    before[other] = node
                    queue.append(other)
        return before

    def theorem(self):
        """What the theorem of the tool reaches."""
        return self.reached({('code', *call) for call in THEOREM})

    def verdicts(self):
        """What the sentences of ctd-lint on verdicts rest on."""
        return self.reached({('code', *VERDICTS)}, {PARAMETER})

    def guarantees(self):
        """What the lines of ctd-lint on accepted files rest on."""
        return self.reached(GUARANTEES)

    def definitions(self):
        """Each definition with the path of its module, in reading order: the theorem first, then from the lowest crate up."""
        paths = sorted(self.modules, key=lambda path: path != THEOREM_MODULE)
        return [(path, definition) for path in paths for definition in self.modules[path].definitions]

    def places(self):
        """Where each definition belongs: right in specs/, in its branch calls, or in its branch inner."""
        theorem, public = self.theorem(), self.reached(self.public_calls())
        nodes = [(path, definition.name) for path, definition in self.definitions()]
        return {node: '' if node in theorem else 'calls' if node in public else 'inner' for node in nodes}

    def folder(self, path):
        """The branch of specs/ in which a module stands."""
        rest = path.split('.')[2:]
        return rest[0] if len(rest) > 1 else ''

    def show(self, path):
        """A module by its file."""
        return str(self.modules[path].file.relative_to(self.root))


# The page.

def row(*cells):
    return '| ' + ' | '.join(str(cell) for cell in cells) + ' |'


def definitions_table(repository):
    """The modules to be read, in order, with how many lines their definitions have."""
    rows, total = [], 0
    for path in dict.fromkeys(path for path, _ in repository.definitions() if repository.folder(path) == ''):
        module = repository.modules[path]
        size = sum(definition.size() for definition in module.definitions)
        total += size
        head = module.lines[0].removeprefix('-- ').rstrip('.')
        crate, name = path.split('.')[0], path.split('.')[-1]
        rows.append(row(crate, f'[`{name}`](../{repository.show(path)})', size, head))
    return [row('Crate', 'Definitions', 'Lines', 'What they say'), row(*['---'] * 4), *rows, row('', f'in {len(rows)} files', total, '')]


def verdicts_table(repository):
    """What the sentences of ctd-lint on verdicts rest on besides what stands in the first tables."""
    return besides_table(repository, repository.verdicts(), repository.theorem())


def guarantees_table(repository):
    """What the lines of ctd-lint on accepted files rest on besides what stands in all other tables."""
    return besides_table(repository, repository.guarantees(), repository.theorem() | repository.verdicts())


def besides_table(repository, reached, known):
    """The definitions and types of code that are reached besides those that are known, from the lowest crate up."""
    rows, total = [], 0
    for path in dict.fromkeys(path for path, _ in repository.definitions()):
        nodes = [(path, definition.name) for definition in repository.modules[path].definitions]
        found = [repository.homes[node] for node in nodes if node in reached and node not in known]
        if found:
            size = sum(definition.size() for definition in found)
            total += size
            names = ', '.join(f'`{definition.name}`' for definition in found)
            rows.append(row(path.split('.')[0], f'[`{path.split(".")[-1]}`](../{repository.show(path)})', size, names))
    first = code_items(repository, known)
    code, lines = code_rows(repository, [item for item in code_items(repository, reached) if item not in first])
    head = [row('Crate', 'Definitions or code', 'Lines', 'Names'), row(*['---'] * 4)]
    return [*head, *rows, *code, row('', f'in {len(rows)} files of definitions', total, ''), row('', f'in {len(code)} files of code', lines, '')]


def code_table(repository):
    """The types, traits and constants of the code that these definitions name."""
    rows, total = code_rows(repository, code_items(repository, repository.theorem()))
    return [row('Crate', 'Code', 'Lines', 'Types, traits and constants'), row(*['---'] * 4), *rows, row('', f'in {len(rows)} files', total, '')]


def code_items(repository, reached):
    """The types, traits and constants of the code that definitions among some nodes name."""
    named = set()
    for path, definition in repository.definitions():
        if (path, definition.name) in reached:
            named |= repository.edges[path, definition.name]
    items = [item for source in repository.sources for item in source.items if item.kind and ('code', *item.key) in reached]
    return [item for item in items if item.kind == 'trait' or ('code', *item.key) in named]


def code_rows(repository, items):
    """A row for each file that has some of these items, and how many lines they have in all."""
    found = {}
    for item in items:
        found.setdefault(item.file, []).append(item)
    rows = []
    for file, inside in found.items():
        crate, place = inside[0].key[0], file.relative_to(repository.root)
        rows.append(row(crate, f'[`{file.name}`](../{place})', sum(item.size for item in inside), ', '.join(f'`{item.key[1]}`' for item in inside)))
    return rows, sum(item.size for item in items)


def kit_table(repository):
    """The words of the toolchain's crates that these definitions use, but for the plainest, and how many lines of definitions they lead to."""
    found = {}
    for path, definition in repository.definitions():
        if repository.folder(path) == '':
            names = repository.modules[path].names
            for head, _ in words_of('\n'.join(definition.parts())):
                if head in names and names[head][0].split('.')[0] not in repository.exports and names[head][0].split('.')[-1] != PLAINEST:
                    found.setdefault(names[head][0], set()).add(names[head][1])
    toolchain = Toolchain(toolchain_folder())
    reached = {path: toolchain.reached((path, name) for name in names) for path, names in found.items()}
    rows = [row(f'`{path}`', ', '.join(f'`{name}`' for name in sorted(names)), toolchain.lines(reached[path]) or '') for path, names in sorted(found.items())]
    total = row('', 'all, each once', toolchain.lines(set().union(*reached.values())))
    return [row('Module of the toolchain', 'Words', 'Lines that they lead to'), row(*['---'] * 3), *rows, total]


TABLES = {'definitions': definitions_table, 'code': code_table, 'toolchain': kit_table, 'verdicts': verdicts_table, 'guarantees': guarantees_table}


def renewed(repository, page):
    """The page with its tables computed anew."""
    for name, table in TABLES.items():
        begin, end = f'<!-- {name}: written by scripts/believed.py -->', f'<!-- end of {name} -->'
        if begin not in page or end not in page:
            raise SystemExit(f'{PAGE} has no place for the table of {name}')
        front, rest = page.split(begin, 1)
        page = front + '\n'.join([begin, *table(repository), end]) + rest.split(end, 1)[1]
    return page


# The checks.

def failures(repository):
    """What is wrong with the definitions, each in one line."""
    places, told = repository.places(), repository.verdicts() | repository.guarantees()
    calls = {item.key for source in repository.sources for item in source.items}
    for call in sorted(THEOREM - calls):
        yield f'{call[0]} has no call {call[1]}, whose contract is a part of the theorem'
    if VERDICTS not in calls:
        yield f'{VERDICTS[0]} has no call {VERDICTS[1]}, on whose contract the sentences of ctd-lint rest'
    if PARAMETER not in repository.homes:
        yield f'{PARAMETER[0]} has no definition {PARAMETER[1]}, which is passed over'
    for home, name in sorted(GUARANTEES - set(repository.homes)):
        yield f'{home} has no definition {name}, on which the lines of ctd-lint on accepted files rest'
    for path, definition in repository.definitions():
        node, where = (path, definition.name), repository.folder(path)
        if where != 'inner' and repository.is_proof(node):
            yield f'{repository.show(path)}: {definition.name} is a proof, which nobody has to believe: it belongs to specs/inner/'
        elif where != places[node]:
            yield f'{repository.show(path)}: {definition.name} {REASONS[places[node]]}'
        if not definition.described:
            yield f'{repository.show(path)}: {definition.name} has no line in plain words above it'
        if where == '' or node in told:
            for word in unknown_words(repository.modules[path], definition):
                yield f'{repository.show(path)}: {definition.name} names {word}, which its module neither defines nor imports'
    for file, name in repository.lost_imports():
        yield f'{file.relative_to(repository.root)} imports {name}, which is not found'


def late_names(repository):
    """Modules to be believed that name one which stands later in reading order."""
    paths = list(dict.fromkeys(path for path, _ in repository.definitions() if repository.folder(path) == ''))
    for index, path in enumerate(paths):
        named = {other[0] for definition in repository.modules[path].definitions for other in repository.edges[path, definition.name]}
        for later in paths[index + 1:]:
            if later in named and path != THEOREM_MODULE:
                yield f'{repository.show(path)} names {later.split(".")[-1]}, which stands below it in reading order (the order of crates.txt and Lib.antt)'


def way_to(repository, name):
    """By which way a definition is reached, from it to the contract."""
    for nodes in (repository.theorem(), repository.verdicts(), repository.guarantees(), repository.reached(repository.public_calls())):
        for node in nodes:
            if '.'.join(node).endswith(f'.{name}'):
                while node is not None:
                    yield '.'.join(node)
                    node = nodes[node]
                return


def main():
    parser = argparse.ArgumentParser(description=__doc__.split('\n')[0])
    parser.add_argument('--write', action='store_true', help=f'renew the tables of {PAGE}')
    parser.add_argument('--why', metavar='MODULE.NAME', help='tell by which way a definition is reached')
    options = parser.parse_args()
    repository = Repository(ROOT)
    if options.why:
        print('\n'.join(way_to(repository, options.why)) or 'no public contract reaches it')
        return 0
    page = (ROOT / PAGE).read_text()
    wanted = renewed(repository, page)
    if options.write:
        (ROOT / PAGE).write_text(wanted)
        page = wanted
    found = [*failures(repository), *late_names(repository)]
    if page != wanted:
        found.append(f'{PAGE} is not what the contracts say: scripts/believed.py --write renews it')
    for failure in found:
        print(failure)
    print(f'{len(repository.definitions()) + 1 - len(found)} passed, {len(found)} failed')
    return bool(found)


if __name__ == '__main__':
    sys.exit(main())
