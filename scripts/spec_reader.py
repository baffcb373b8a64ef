"""Reads the definitions of specs/ (.antt) and the contracts of the code (.rt): what each names. scripts/believed.py stands on it."""
import re
from dataclasses import dataclass, field
from pathlib import Path

DECLARATION = re.compile(r'(?P<marks>(?:(?:unfoldable|abbrev|pub|data|record) )*)(?P<name>[^\s(){}]+)(?= )(?P<rest>.*)')
WORD = re.compile(r'[^\s(){};,"λ⟦⟧]+')
# Words of the language, values and types that it has built in, numbers, and signs that are no operators.
BUILT_IN = re.compile(r'pub|abbrev|unfoldable|if|then|else|do|let|in|where|record|Type|Unit|tt|⊥|_|\d+|[=:→×←¬^*\[\]|]|::')
IMPORT = re.compile(r'use ([^\s{};]+?)(?:\.\{([^}]*)\}| as (\S+?))?;?$')


# Definitions.

@dataclass
class Definition:
    """A definition with its lines. Those of one `unit` stand in one mutual block, and cannot be parted."""
    name: str
    kind: str
    start: int
    end: int
    described: bool
    constructors: list = field(default_factory=list)
    lines: list = field(default_factory=list)
    unit: int = 0

    def size(self):
        """How many lines it has, without those in plain words."""
        return sum(bool(line.strip()) and not line.strip().startswith('--') for line in self.lines)

    def parts(self):
        """The lines of the definition, each with those that go on from it; of a type its head, and what each constructor or field takes."""
        if self.kind not in ('data', 'record'):
            return logical_lines(self.lines)
        inner = [line.split(' : ', 1)[-1] for line in logical_lines(self.lines[1:])]
        return [self.lines[0].split(self.name, 1)[1]] + inner

    def domains(self):
        """What the definition takes, and at last what it gives."""
        signature = logical_lines(self.lines)[0]
        if self.kind not in ('data', 'record'):
            return domains_of(signature.split(' : ', 1)[1])
        head = re.split(r' where(?: |$)', signature)[0]
        parameters = re.findall(r'[({][^(){}]*(?:\([^()]*\)[^(){}]*)*[)}]', head)
        return parameters + domains_of(head.rsplit(' : ', 1)[1])


@dataclass
class Module:
    """A file of definitions, with its path in the language, such as ctd_source.specs.TestData, and its imports: names, and other modules by
    an alias. `passed_on` are the names that it imports for others; `blocks` are its mutual blocks and those with parameters of their own.
    """
    file: Path
    path: str
    lines: list
    names: dict = field(default_factory=dict)
    aliases: dict = field(default_factory=dict)
    passed_on: set = field(default_factory=set)
    children: list = field(default_factory=list)
    definitions: list = field(default_factory=list)
    blocks: list = field(default_factory=list)


def read_imports(lines, names, aliases, passed_on=None):
    """Puts the imports of `use` lines into `names` (name -> path, item) and `aliases` (name -> path)."""
    for line in lines:
        found = re.match(r'\s*(?:unfoldable )?(pub )?(?:ghost )?(use Rattle\..*)', line)
        if not found:
            continue
        path, items, alias = IMPORT.match(found[2].strip()).groups()
        path = path.removeprefix('Rattle.')
        if items is None:
            aliases[alias or path.split('.')[-1]] = path
            continue
        for item in items.split(','):
            name, _, other = item.strip().partition(' as ')
            names[other or name] = (path, name)
            if found[1] and passed_on is not None:
                passed_on.add(other or name)


def indentation(line):
    return len(line) - len(line.lstrip(' '))


def read_definitions(module, start, end, indent, unit=None):
    """Reads the definitions among lines that stand `indent` deep; a block of mutual ones is one unit."""
    above, current, index = None, None, start
    while index < end:
        line = module.lines[index]
        text = line.strip()
        if not text:
            above, index = None, index + 1
            continue
        if text.startswith('--'):
            above = index if above is None else above
            current, index = None if above == index else current, index + 1
            continue
        stop = index + 1
        while stop < end and (not module.lines[stop].strip() or indentation(module.lines[stop]) > indent):
            stop += 1
        while not module.lines[stop - 1].strip() or (stop - 1 > index and module.lines[stop - 1].strip().startswith('--')):
            stop -= 1
        if re.match(r'(abbrev )?mutual$|module ', text):
            mutual = not text.startswith('module ')
            module.blocks.append((index if above is None else above, stop, mutual))
            read_definitions(module, index + 1, stop, indent + 2, index if mutual else unit)
            above = current = None
        elif re.match(r'(unfoldable )?(pub )?(use|mod) ', text):
            if text.startswith(('mod ', 'pub mod ')):
                module.children.append(text.split()[-1])
            above = current = None
        elif text.startswith('infix'):
            above = index if above is None else above
        else:
            current = read_line(module, index, stop, above, current, unit)
            above = None
        index = stop


def read_line(module, index, stop, above, current, unit):
    """Reads a declaration, or a clause of the one before it."""
    text = module.lines[index].strip()
    found = DECLARATION.match(text)
    declares = found and (' data ' in f' {found["marks"]}' or ' record ' in f' {found["marks"]}' or re.match(r' *:(?= |$)', found['rest']))
    if not declares:
        last = current or module.definitions[-1]
        named = [d for d in module.definitions if d.name == text.split()[0] and d.unit == last.unit]
        last = named[-1] if named else last
        last.lines += module.lines[index:stop]
        last.end = max(last.end, stop)
        return last
    marks = found['marks'].split()
    kind = 'data' if 'data' in marks else 'record' if 'record' in marks else 'abbrev' if 'abbrev' in marks else 'plain'
    first = index if above is None else above
    described = any(line.strip().startswith('--') for line in module.lines[first:index])
    made = Definition(found['name'], kind, first, stop, described, lines=module.lines[index:stop])
    made.unit = first if unit is None else unit
    if kind == 'data':
        depth = indentation(module.lines[index]) + 2
        for line in made.lines[1:]:
            if indentation(line) == depth and not line.strip().startswith('--') and ' : ' in line:
                made.constructors += line.split(' : ')[0].split()
    module.definitions.append(made)
    return made


def read_module(file, path):
    """Reads a file of definitions."""
    if not file.exists():
        raise SystemExit(f'{file} is missing, which the Lib.antt of its crate names')
    lines = file.read_text().split('\n')
    module = Module(file, path, lines)
    read_imports(lines, module.names, module.aliases, module.passed_on)
    read_definitions(module, 0, len(lines), 0)
    return module


def read_modules(crate):
    """The modules of a crate's specs/, in the order in which Lib.antt and its branches name them."""
    def read_branch(file, path):
        module = read_module(file, path)
        folder = file.parent if file.name == 'Lib.antt' else file.with_suffix('')
        found = [] if file.name == 'Lib.antt' else [module]
        for child in module.children:
            found += read_branch(folder / f'{child}.antt', f'{path}.{child}')
        return found
    lib = crate / 'specs' / 'Lib.antt'
    return read_branch(lib, f'{crate.name}.specs') if lib.exists() else []


def bound_names(line):
    """The names that a line binds for itself: in binders, after λ, and by `let`."""
    bound = set()
    for binder in re.findall(r'[({]([^(){}:]*) : ', line):
        bound.update(binder.split())
    for names in re.findall(r'λ ([^.]*)\. ', line):
        bound.update(names.split())
    return bound | set(re.findall(r'\blet (\S+)', line))


def logical_lines(lines):
    """Lines with those that go on from them, without comments."""
    found, depth = [], None
    for line in lines:
        if line.strip().startswith('--') or not line.strip():
            continue
        if depth is not None and indentation(line) > depth:
            found[-1] += ' ' + line.strip()
        else:
            depth = indentation(line)
            found.append(line.strip())
    return found


def domains_of(signature):
    """The domains of a type, and at last its result."""
    found, depth, last = [], 0, 0
    for at, letter in enumerate(signature):
        depth += {'(': 1, '{': 1, ')': -1, '}': -1}.get(letter, 0)
        if depth == 0 and letter == '→':
            found.append(signature[last:at].strip())
            last = at + 1
    return found + [signature[last:].strip()]


def words_of(text):
    """Each word of a text, with what stands after its dots."""
    for word in WORD.findall(re.sub(r'"(\\.|[^"\\])*"', '""', text)):
        head, *members = word.rstrip('.').split('.')
        yield head, members
        yield '◌>>=◌' if head == 'do' else f'◌{head}◌', []


def unknown_words(module, definition):
    """The words of a definition that are neither bound in it, nor defined or imported by its module, nor a part of the language. What such a
    word names would be reached, and nobody would know it.
    """
    known = {*module.names, *module.aliases}
    for other in module.definitions:
        known |= {other.name, *other.constructors}
    for start, stop, mutual in module.blocks:
        if not mutual and start <= definition.start < stop:
            known |= bound_names(' '.join(module.lines[start:definition.start]).split(' where')[0])
    for line in [logical_lines(definition.lines)[0]] + definition.parts():
        taken = re.split(r' =(?= |$)', line)[0] if definition.kind not in ('data', 'record') else ''
        named_fields = re.findall(r'[{;]\s*(\S+) = ', line)
        steps = ' '.join(re.findall(r'(\([^()]*\)|\S+) ←', line))
        known |= bound_names(line) | set(named_fields) | {word for word, _ in words_of(f'{taken} {steps}')}
    if definition.kind == 'record':
        known |= set(re.findall(r'^\s+(?:pub )?(\S+) : ', '\n'.join(definition.lines[1:]), re.M))
    heads = {head for part in definition.parts() for head, _ in words_of(part) if not head.startswith('◌')}
    return sorted(head for head in heads if head and not {head, f'◌{head}◌'} & known and not BUILT_IN.fullmatch(head))


# Code.

@dataclass
class Item:
    """A call, type, trait or constant of the code, named by its crate and its path in it, with its clauses and the types that it names.

    `invariants` are those clauses that say nothing new to who believes the others: of a type that they always hold, and the laws of its traits.
    """
    key: tuple
    file: Path
    public: bool
    kind: str = ''
    size: int = 0
    clauses: list = field(default_factory=list)
    mentions: set = field(default_factory=set)
    invariants: list = field(default_factory=list)


@dataclass
class Source:
    """A file of code: what its clauses import, the types that it names without a path, and what it holds."""
    file: Path
    text: str
    names: dict = field(default_factory=dict)
    aliases: dict = field(default_factory=dict)
    brought: set = field(default_factory=set)
    items: list = field(default_factory=list)


def blanked(text):
    """The text with comments, strings and characters made blank."""
    pattern = r'//[^\n]*|"(?:\\.|[^"\\])*"|\'(?:\\.[^\']*|[^\\\'\n])\''
    return re.sub(pattern, lambda found: re.sub(r'[^\n]', ' ', found[0]), text)


def closing(text, at):
    """Where the brace that opens at `at` is closed."""
    depth = 0
    for index in range(at, len(text)):
        depth += {'{': 1, '}': -1}.get(text[index], 0)
        if depth == 0:
            return index
    raise ValueError('a brace is not closed')


def contract(text, at):
    """The head of the function that begins at `at`, and its clauses."""
    clauses, last, index, head = [], at, at, ''
    while True:
        index = next(i for i in range(index, len(text)) if text[i] in '{;')
        between = text[last:index]
        if text[index] == ';' and between.count('[') > between.count(']'):
            index += 1
            continue
        clause = re.search(r'\b(requires|ensures)\*?\s*\w*\s*$', between)
        head += between[:clause.start()] if clause else between
        if not clause:
            return head, clauses
        end = closing(text, index)
        clauses.append(text[index + 1:end])
        index = last = end + 1


def ghost_items(text, names=r'\w+'):
    """What stands between the braces of the ghost items of a body that have one of these names."""
    return [text[found.end():closing(text, found.end() - 1)] for found in re.finditer(rf'\bghost (?:{names})\s*[:=]\s*\{{', text)]


def lines_of(text):
    """How many lines of a text are not blank."""
    return sum(bool(line.strip()) for line in text.split('\n'))


def types_in(text):
    """The names of types and traits in a text of code."""
    return set(re.findall(r'(?<![.:\w])(?:\w+::)*([A-Z]\w*)', text))


def read_functions(body, source, owner, public):
    """The functions of a body, each with its clauses."""
    found = []
    for start in re.finditer(r'(?P<pub>\bpub(?:\([a-z]+\))? )?(?:unsafe )?(?:extern +)?\bfn (?P<name>\w+)', body):
        head, clauses = contract(body, start.start())
        is_public = public or (start['pub'] or '').strip() == 'pub'
        found.append(Item((*owner, start['name']), source.file, is_public, clauses=clauses, mentions=types_in(head)))
    return found


def read_source(crate, file):
    """The types, traits, implementations and functions of a file."""
    text = file.read_text()
    source = Source(file, text)
    read_imports(text.split('\n'), source.names, source.aliases)
    code = blanked(text)
    source.brought = set(re.findall(r'\b(?:struct|enum|trait) (\w+)', code))
    for used in re.findall(r'\buse (?:crate|super|ctd_\w+)::([^;]*);', code):
        source.brought |= types_in(used)
    covered = []
    for start in re.finditer(r'(?P<pub>\bpub(?:\([a-z]+\))? )?\b(?P<kind>struct|enum|trait) (?P<name>\w+)', code):
        opens = re.search(r'[{;]', code[start.end():])
        at = start.end() + opens.start()
        end = closing(code, at) if code[at] == '{' else at
        made = Item((crate, start['name']), file, (start['pub'] or '').strip() == 'pub', start['kind'], lines_of(code[start.start():end + 1]))
        body = code[start.end():end + 1]
        if start['kind'] == 'trait':
            made.clauses = ghost_items(body)
            for function in read_functions(body, source, (crate,), False):
                made.clauses += function.clauses
        else:
            made.invariants = ghost_items(body)
            made.mentions = types_in(body)
        source.items.append(made)
        covered.append((start.start(), end))
    for start in re.finditer(r'\bconst (?P<name>[A-Z]\w*):[^;]*;', code):
        source.items.append(Item((crate, start['name']), file, True, 'const', 1))
    for start in re.finditer(r'\bimpl\b(?P<head>[^{;]*)\{', code):
        if code[:start.start()].rstrip()[-1:] not in ('', '}', ';', ']'):
            continue
        end = closing(code, start.end() - 1)
        source.items += read_implementation(crate, source, code, start, end)
        covered.append((start.start(), end))
    outside = list(code)
    for start, end in covered:
        outside[start:end + 1] = [c if c == '\n' else ' ' for c in code[start:end + 1]]
    source.items += read_functions(''.join(outside), source, (crate,), False)
    return source


def read_implementation(crate, source, code, start, end):
    """Ghost items belong to the type; the methods are calls of their own."""
    head = re.sub(r'^\s*<(?:[^<>]|<[^<>]*>)*>', '', start['head'])
    trait, _, name = head.partition(' for ') if ' for ' in head else ('', '', head)
    name = re.match(r"\s*(?:&\s*)?(?:'\w+ )?(?:mut )?([\w:]+)", name)
    owner = name[1].split('::')[-1] if name else '?'
    body = code[start.end():end]
    made = Item((crate, owner), source.file, False)
    if trait.strip() == 'Model':
        made.clauses, made.invariants = ghost_items(body, 'Value|view'), ghost_items(body, 'invariant')
    elif trait.strip().split('<')[0] in source.brought:
        made.clauses = ghost_items(body)
    else:
        made.invariants = ghost_items(body)
    return [made] + read_functions(body, source, (crate, owner), bool(trait.strip()))


def exported(crate):
    """The names that a library hands out."""
    lib = crate / 'src' / 'lib.rt'
    if not lib.exists():
        return set()
    text = blanked(lib.read_text())
    names = set(re.findall(r'\bpub (?:unsafe )?(?:extern +)?(?:fn|struct|enum|trait|const) (\w+)', text))
    for used in re.findall(r'\bpub use [\w:]+::(\{[^}]*\}|\w+);', text):
        names |= {item.strip().split(' as ')[0] for item in used.strip('{}').split(',') if item.strip()}
    return names
