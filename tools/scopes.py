"""What the names in a source stand for: the `use` lines of specs/*.antt and src/*.rt, followed to the definitions of this repository
or to names of other crates."""
import copy, functools, os, re
from collections import namedtuple
from sources import TOP, below_top, crates, rust_definitions, spec_definitions

# a name of std, of a kit crate or of the logic
Outside = namedtuple('Outside', 'crate module name')
# a proved lemma of this repository
Lemma = namedtuple('Lemma', 'crate module name')

USE = re.compile(r'^\s*(?:ghost |pub )?use ([\w.:]+?)(?:(?:\.|::)\{([^}]*)\})?(?: as (\w+))?;?$')
OURS = set(crates())


def imports(lines):
    """The names that the `use` lines bring in, each with the path of its module and its name there, which a module itself lacks."""
    found = {}
    for line in lines:
        match = USE.match(line)
        if not match:
            continue
        path, names, alias = match.groups()
        is_rust, path = '::' in path, tuple(re.split(r'\.|::', path))
        if names is None and is_rust:
            found[alias or path[-1]] = (path[:-1], path[-1])
        elif names is None:
            found[alias or path[-1]] = (path, None)
        for name in (names or '').split(','):
            parts = name.strip().split(' as ')
            if parts[0]:
                found[parts[-1]] = (path, parts[0])
    return found


class Module:
    """A source file: what it defines, and what it brings in."""

    def __init__(self, path):
        self.path = below_top(path)
        self.lines = open(path, encoding='utf-8').read().split('\n')
        self.is_spec = path.endswith('.antt')
        self.definitions = (spec_definitions if self.is_spec else rust_definitions)(path)
        self.uses = imports(line for line in self.lines if line.startswith(('use ', 'pub use ', 'ghost use ')))
        self.own = {x.name: x for x in self.definitions if x.kind != 'fn'}
        if self.is_spec:
            for x in self.definitions:
                if x.kind == 'data':
                    self.own.update((name, x) for name in constructors(x))

    def definition(self, name):
        return next(x for x in self.definitions if x.name == name)

    def with_uses(self, more):
        """The same file with more names brought in."""
        inner = copy.copy(self)
        inner.uses = {**self.uses, **more}
        return inner

    def title(self):
        """The sentence at the head of the file."""
        first = self.lines[0]
        return first[3:].strip() if first.startswith(('-- ', '//!')) else ''


def constructors(definition):
    found = (re.match(r'^\s+(\S+) :', line) for line in definition.text[1:])
    return [match.group(1) for match in found if match]


@functools.lru_cache(None)
def module(path):
    return Module(path) if os.path.isfile(path) else None


def spec_module(crate, names):
    """The file of specs/ that the front of these names is, and the names that are left."""
    for size in range(len(names), 0, -1):
        path = os.path.join(TOP, 'crates', crate, 'specs', *names[:size]) + '.antt'
        if os.path.isfile(path):
            return module(path), names[size:]
    lower = handed_on(crate).get(names[0]) if names else None
    return spec_module(lower, names) if lower else (None, names)


@functools.lru_cache(None)
def handed_on(crate):
    """The files of lower crates' specs/ that a crate hands on under its own name, each with the crate that it stands in."""
    path = os.path.join(TOP, 'crates', crate, 'specs', 'Lib.antt')
    lines = open(path, encoding='utf-8').read().split('\n') if os.path.isfile(path) else []
    found = (re.match(r'^pub use Rattle\.(\w+)\.specs\.(\w+)$', line) for line in lines)
    return {match.group(2): match.group(1) for match in found if match}


def declared(crate, names, name):
    """A type or constant that a Rust source declares, by the path `MODULE.TYPE`, or by `MODULE.TheConstants` and its name."""
    source = module(os.path.join(TOP, 'crates', crate, 'src', names[0] + '.rt'))
    wanted = name if len(names) < 2 or names[1] == 'TheConstants' else names[1]
    return source.own.get(wanted) if source else None


def follow(path, name):
    """What a name of a module is: a definition, a name of another crate, or a lemma."""
    if path[0] != 'Rattle' or path[1] not in OURS:
        crate = path[1] if path[0] == 'Rattle' else path[0]
        rest = path[3:] if path[0] == 'Rattle' else path[1:]
        return Outside(crate, '.'.join(rest), name)
    if path[2] == 'proofs':
        return Lemma(path[1], '.'.join(path[3:]), name)
    if path[3] == 'declared':
        return declared(path[1], path[4:], name)
    source, rest = spec_module(path[1], path[3:])
    if source is None:
        return None
    return source.own.get(rest[0]) if rest else find(source, name)


def find(source, name):
    """What a name in a file of specs/, or a ghost name in a Rust source, stands for."""
    if source.is_spec and name in source.own:
        return source.own[name]
    if name in source.uses and source.uses[name][0][0] in ('Rattle', 'base', 'denote', 'mathlib'):
        path, there = source.uses[name]
        return follow(path, there) if there else None
    head, dot, rest = name.partition('.')
    if dot and head in source.uses and source.uses[head][1] is None:
        return follow(source.uses[head][0], rest)
    return None


def find_type(source, name):
    """The type or constant that a name in the code of a Rust source stands for; none for one of std or of a kit crate."""
    if name in source.own:
        return source.own[name]
    path, there = source.uses.get(name, ((), None))
    crate = source.path.split(os.sep)[1] if path[:1] == ('crate',) else path[0] if path else ''
    if crate not in OURS or there is None:
        return None
    if path[1:]:
        return declared(crate, path[1:2], there)
    root = module(os.path.join(TOP, 'crates', crate, 'src', 'lib.rt'))
    inner = imports(line[4:] for line in root.lines if line.startswith('pub use ')).get(there)
    return declared(crate, inner[0][:1], inner[1]) if inner else None
