# What the tools share: the repository's root, its crates, and texts without their comments.
# Called: imported by the scripts of tools/; it does nothing when run.
# Reads: crates.txt, crates/ and, for the names that a file declares, its text.
import re
from pathlib import Path

ROOT = Path(__file__).resolve().parent.parent
CRATES = ROOT / 'crates'

# The marks that may precede a declaration of antt.
MARKS = r'(?:(?:abbrev|unfoldable|pub)\s+)*'


def rel(path):
    """The path relative to the repository's root."""
    return str(Path(path).relative_to(ROOT))


def text_of(path):
    return Path(path).read_text(encoding='utf-8')


def crate_names():
    """The folders under crates/, sorted by name."""
    return sorted(p.name for p in CRATES.iterdir() if p.is_dir()) if CRATES.is_dir() else []


def listing(text=None):
    """Each crate of crates.txt, or of such a text, with the crates that its line lists, in the file's order."""
    bare = re.sub(r'#.*', '', text_of(ROOT / 'crates.txt') if text is None else text)
    lines = [line.partition(':') for line in bare.split('\n') if ':' in line]
    return {head.split()[0]: needs.split() for head, _, needs in lines}  # a head may go on after the name: `NAME staticlib`


def files(pattern):
    """The files under the root that a pattern names, in order, without target/, .git/ and what rt keeps in crates/CRATE/out/."""
    return sorted(p for p in ROOT.glob(pattern) if p.is_file() and not hidden(p))


def hidden(path):
    parts = path.relative_to(ROOT).parts
    return 'target' in parts or parts[0] == '.git' or '__pycache__' in parts or (parts[0] == 'crates' and parts[2:3] == ('out',))


def is_program(crate):
    return (CRATES / crate / 'src' / 'main.rt').is_file()


def blank(piece):
    """The text with every character but line breaks replaced by a space, so that positions do not change."""
    return re.sub(r'[^\n]', ' ', piece)


# What begins a comment, and quoted texts, in which it does not.
ANTT = re.compile(r'"(?:\\.|[^"\\])*"|\{-|(?:(?<=[\s(){}.;,@])|^)--[^\n]*', re.M)
RATTLE = re.compile(r'b?"(?:\\.|[^"\\])*"|b?\'(?:\\.|[^\'\\])\'|/\*.*?\*/|//[^\n]*', re.S)


def block_end(text, at):
    """The position after the comment {- .. -} that begins at a position; such comments nest."""
    depth = 0
    for mark in re.finditer(r'\{-|-\}', text[at:]):
        depth += 1 if mark[0] == '{-' else -1
        if depth == 0:
            return at + mark.end()
    return len(text)


def bare_antt(text):
    """The text of an antt file with its comments and quoted texts blanked."""
    out, at = [], 0
    while found := ANTT.search(text, at):
        end = block_end(text, found.start()) if found[0] == '{-' else found.end()
        out += [text[at:found.start()], blank(text[found.start():end])]
        at = end
    return ''.join(out) + text[at:]


def bare_rattle(text):
    """The text of a Rattle file with its comments and quoted texts blanked."""
    return RATTLE.sub(lambda found: blank(found[0]), text)


def bare_of(path):
    text = text_of(path)
    return bare_rattle(text) if str(path).endswith('.rt') else bare_antt(text)


def declares(bare, name):
    """Whether an antt text without comments declares a name: by `name :`, or as a record or data type."""
    word = re.escape(name)
    typed = rf'^[ \t]*{MARKS}{word}(?:\s*\{{[^}}\n]*\}})*\s+:(?=\s)'
    named = rf'^[ \t]*{MARKS}(?:record|data)\s+{word}(?=[\s({{:]|$)'
    return bool(re.search(typed, bare, re.M) or re.search(named, bare, re.M))


def record_body(bare, name):
    """The indented lines under `record NAME .. where`, or None if the text has no such record."""
    head = re.search(rf'^([ \t]*){MARKS}record\s+{re.escape(name)}(?=[\s({{:])[^\n]*\n', bare, re.M)
    if not head:
        return None
    body = []
    for line in bare[head.end():].split('\n'):
        if line.strip() and len(line) - len(line.lstrip()) <= len(head[1]):
            break
        body.append(line)
    return body


def record_fields(bare, name):
    """The fields of a record, or None if the text has no such record."""
    body = record_body(bare, name)
    if body is None:
        return None
    lines = [line for line in body if line.strip()]
    first = min((len(line) - len(line.lstrip()) for line in lines), default=0)
    heads = [re.match(rf'[ \t]{{{first}}}{MARKS}(\S+)\s+:(?=\s|$)', line) for line in lines]
    return [head[1] for head in heads if head]


def claims():
    """Each crate that has specs/Claims.antt with a record Claims, and the fields of that record."""
    found = {}
    for path in files('crates/*/specs/Claims.antt'):
        fields = record_fields(bare_of(path), 'Claims')
        if fields is not None:
            found[path.relative_to(CRATES).parts[0]] = fields
    return found


def edits():
    """Each must-fail edit as (crate, label, path)."""
    return [(path.relative_to(CRATES).parts[0], path.stem, path) for path in files('crates/*/must-fail/*.edit')]
