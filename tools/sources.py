"""What the sources define: the definitions of specs/*.antt, and the types, traits and constants of src/*.rt, each with the sentence
above it. tools/definitions and tools/reading read them by this."""
import glob, os, re
from collections import namedtuple

TOP = os.path.dirname(os.path.dirname(os.path.abspath(__file__)))
HEAD = re.compile(r'^(?P<marks>(?:(?:abbrev|unfoldable|pub|record|data) )*)(?P<name>[^\s:{(]+)(?P<rest>.*)$')
DECLARED = re.compile(r'^(?:pub(?:\(crate\))? )?(struct|enum|trait|const|fn) (\w+)')

# `path` is below the top; `sentence` is empty where nothing stands above; `partner` is the first definition of its mutual block, empty
# outside of one; `text` has the lines of the definition
Definition = namedtuple('Definition', 'crate path line name kind public sentence partner text')


def crates():
    """The crates in the order of crates.txt: each stands on earlier ones."""
    lines = open(os.path.join(TOP, 'crates.txt'), encoding='utf-8')
    return [line.split(':')[0] for line in lines if ':' in line and not line.startswith('#')]


def write_list(name, text):
    """Writes a list into the folder that git ignores."""
    folder = os.path.join(TOP, 'out', 'lists')
    os.makedirs(folder, exist_ok=True)
    with open(os.path.join(folder, name), 'w', encoding='utf-8') as page:
        page.write(text)


def spec_files(crate):
    return sorted(glob.glob(os.path.join(TOP, 'crates', crate, 'specs', '**', '*.antt'), recursive=True))


def below_top(path):
    return os.path.relpath(path, TOP)


def sentence(comments):
    """The comment lines as one sentence; empty where there are none."""
    text = ' '.join(comments).replace('|', '\\|').strip()
    if not text:
        return ''
    return text[:1].upper() + text[1:] + ('' if text.endswith(('.', ':')) else '.')


def head(line):
    """The match of a line that begins a definition, without its indentation."""
    match = HEAD.match(line)
    if not match or match.group('name') in ('use', 'mod', 'mutual'):
        return None
    declares = 'record ' in match.group('marks') or 'data ' in match.group('marks')
    return match if declares or re.match(r'\s*:\s', match.group('rest') + ' ') else None


def kind_of(marks):
    return 'record' if 'record ' in marks else 'data' if 'data ' in marks else 'value'


def spec_definitions(path):
    """The definitions of a file of specs/, in order. A definition of a mutual block has the sentence of the block if it is the first."""
    crate, short = below_top(path).split(os.sep)[1], below_top(path)
    found, comments, inside, partner, open_text = [], [], False, '', None
    for number, line in enumerate(open(path, encoding='utf-8'), 1):
        line = line.rstrip('\n')
        plain = line[2:] if inside and line.startswith('  ') else line
        if line and not line.startswith((' ', '-')):
            inside, partner = line.split(' ')[-1] == 'mutual', ''
            if inside:
                open_text = None
                continue
        match = head(plain) if not plain.startswith((' ', '-')) else None
        if match:
            open_text = [plain]
            marks, name, comments_above, comments = match.group('marks'), match.group('name'), comments, []
            partner = (partner or name) if inside else ''
            found.append(Definition(crate, short, number, name, kind_of(marks), 'pub ' in marks, sentence(comments_above), partner, open_text))
        elif plain.startswith('-- ----'):
            comments, open_text = [], None
        elif plain.startswith('-- '):
            comments.append(plain[3:])
            open_text = None
        elif open_text is not None and plain.strip():
            open_text.append(plain)
        else:
            comments, open_text = [], None
    return [x._replace(text=tuple(x.text)) for x in found]


def whole(lines, start, is_function):
    """The lines of a Rust item that begins there: to the line that closes it, and of a function what stands before its body."""
    taken, depth = [], 0
    for line in lines[start:]:
        taken.append(line)
        code = line.split('//')[0].rstrip()
        depth += code.count('{') + code.count('(') - code.count('}') - code.count(')')
        if code in ('{', '}') or not is_function and depth <= 0 and code.endswith((';', '}')):
            break
    return tuple(taken)


def rust_definitions(path):
    """The types, traits, constants and functions at the top level of a Rust file, in order."""
    crate, short = below_top(path).split(os.sep)[1], below_top(path)
    lines = open(path, encoding='utf-8').read().split('\n')
    found, comments = [], []
    for at, line in enumerate(lines):
        match = DECLARED.match(line)
        if match:
            kind, name = match.groups()
            public, text = line.startswith('pub '), whole(lines, at, kind == 'fn')
            found.append(Definition(crate, short, at + 1, name, kind, public, sentence(comments), '', text))
        if line.startswith('///'):
            comments.append(line[3:].strip())
        elif not line.startswith('#['):
            comments = []
    return found
