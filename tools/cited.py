"""What a definition cites: the names in its text, less variables, fields and projections, each followed by the scope of its file."""
import functools, os, re
from scopes import Outside, find, find_type, imports, module
from sources import TOP

# constructors of std that begin with a small letter
CASES = {'true', 'false', 'zero', 'suc', 'pos', 'negsuc'}
WORD = re.compile(r'[^\s(){};,\[\]]+')


def plain(lines):
    """The lines without comments and string literals, as one text."""
    return '\n'.join(re.sub(r'(?:^|\s)(?:--|//).*$', '', re.sub(r'b?"(?:\\.|[^"\\])*"', ' ', line)) for line in lines)


def is_case(found, word):
    """Whether a name in a pattern is a constructor, and not a variable."""
    name = word.split('.')[-1]
    if isinstance(found, Outside):
        return name in CASES or name[:1].isupper() or '.' in word
    return found is not None and (found.name != name or name[:1].isupper() or '.' in word)


def variables(source, code, pattern):
    """The variables of a piece: those of its patterns, of λ and let, and of typed binders."""
    words = [word for part in [pattern] + re.findall(r'\|\s*([^|↦]*?)\s*↦', code) for word in WORD.findall(part)]
    bound = {word for word in words if not is_case(find(source, word), word)}
    for names in re.findall(r'λ ([^.]*)\.', code) + re.findall(r'[({]([^(){}:;=]+) :\s', code):
        bound.update(names.split())
    return bound | set(re.findall(r'\blet (\S+)', code))


def words_of(source, code, bound):
    """The names in a piece: for `a.b` the module `a`'s `b` where `a` is one, else `a`."""
    code = re.sub(r'([{;\n]\s*)(?:pub )?[^\s(){};]+ [=:](?=\s)', r'\1', code)
    for word in WORD.findall(code):
        head = word.split('.')[0]
        if head and head not in bound:
            yield word if find(source, word) else head


def operators(source, code):
    """The operators that the file brings in and that are written here."""
    words = set(code.split()) | set(WORD.findall(code))
    return [name for name in source.uses if '◌' in name and all(part in words for part in name.split('◌') if part)]


def ghost_names(source, code, pattern='', fields=frozenset()):
    bound = variables(source, code, pattern) | fields
    return [find(source, word) for word in list(words_of(source, code, bound)) + operators(source, code)]


def pieces(definition):
    """The signature and the clauses of a definition, each behind the pattern that it begins with."""
    begins = [at for at, line in enumerate(definition.text) if at and line.startswith(definition.name + ' ')]
    for first, last in zip([0] + begins, begins + [len(definition.text)]):
        text = plain(definition.text[first:last])
        if first == 0:
            yield '', re.sub(r'^(?:(?:abbrev|unfoldable|pub|record|data) )*\S+', '', text)
        else:
            pattern, _, body = text[len(definition.name):].partition(' =')
            yield pattern, pattern + '\n' + body


def signature(definition):
    """The type of a definition of specs/, on one line."""
    first = next(pieces(definition))[1]
    return ' '.join(first.split()).removeprefix(': ')


def spec_names(source, definition):
    """What the names in a definition of specs/ stand for. The fields of a record are no names outside of it."""
    inside = '\n'.join(definition.text[1:])
    fields = frozenset(re.findall(r'^\s+(?:pub )?(\S+) :', inside, re.M)) if definition.kind == 'record' else frozenset()
    return [found for pattern, code in pieces(definition) for found in ghost_names(source, code, pattern, fields)]


def model(source, name):
    """The lines of `impl Model for NAME`, which say what contracts see of a type; none where they see the type itself."""
    for at, line in enumerate(source.lines):
        if re.match(r'^impl\b.*\bModel for ' + name + r'\b', line):
            return [inner.strip() for inner in source.lines[at:at + source.lines[at:].index('}')]]
    return []


def rust_names(source, definition):
    """What the names in a type, trait or constant stand for. A type with a model rests on what contracts see of it alone."""
    code = plain(definition.text)
    if definition.kind == 'enum':
        code = re.sub(r'^\s+\w+(?=[({,\s]|$)', '', code, flags=re.M)
    types = [find_type(source, word) for word in re.findall(r'(?<![.\w])[A-Z]\w*', code)]
    if definition.kind in ('trait', 'fn'):
        return ghost_names(source, code) + types
    lines = model(source, definition.name)
    if not lines:
        return types
    values = [line for line in lines if line.startswith('ghost Value')]
    return ghost_names(source.with_uses(imports(lines)), plain(values).replace('ghost Value', ''))


@functools.lru_cache(None)
def cited(definition):
    """What a definition rests on by name: definitions, names of other crates, and lemmas, each once."""
    source = module(os.path.join(TOP, definition.path))
    found = (spec_names if source.is_spec else rust_names)(source, definition)
    return [x for x in dict.fromkeys(found) if x is not None and x != definition]
