# What changed files reach: the crates that must be proved again, the must-fail edits to be tried, the tests to be run.
# Called: imported by tools/gate, tools/lint and tests/gate/run; it does nothing when run.
# Reads: nothing; it is given paths from the repository's root, what crates.txt lists, and the texts of the tests.
from fnmatch import fnmatchcase
from pathlib import PurePosixPath


def parts_of(path):
    return PurePosixPath(path).parts


def is_edit(path):
    parts = parts_of(path)
    return len(parts) == 4 and parts[0] == 'crates' and parts[2] == 'must-fail' and path.endswith('.edit')


def changed_edits(paths):
    """The must-fail edits among the changed files, as (crate, label)."""
    return {(parts_of(path)[1], PurePosixPath(path).stem) for path in paths if is_edit(path)}


def changed_crates(paths, before, now):
    """The crates of a listing with a changed file that is no edit, and those that it lists otherwise than before."""
    touched = {parts_of(path)[1] for path in paths if len(parts_of(path)) > 2 and parts_of(path)[0] == 'crates' and not is_edit(path)}
    return {name for name, needs in now.items() if name in touched or before.get(name) != needs}


def upward(crates, listing):
    """The crates and all that list one of them, directly or not: proofs cite laws of the crates below, so proofs/ counts, too."""
    reached = set(crates)
    while more := {name for name, needs in listing.items() if name not in reached and reached & set(needs)}:
        reached |= more
    return reached


def depends(text):
    """The words of the `# Depends:` lines in a test's head, or none where it has no such line."""
    words = None
    for line in text.split('\n'):
        if not line.startswith('#'):
            break
        if line.startswith('# Depends:'):
            words = (words or []) + line.removeprefix('# Depends:').split()
    return words


def lies_below(path, word):
    """Whether a path is, or lies below, the one that a word gives; a part of a word may hold `*`."""
    parts, wanted = parts_of(path), parts_of(word)
    return len(parts) >= len(wanted) and all(map(fnmatchcase, parts, wanted))


def reason(name, words, reached, paths):
    """Why the test tests/NAME is to be run: what of its words is reached or changed. None where nothing is."""
    if words is None:
        return 'it does not say what it depends on'
    for word in [f'tests/{name}', *words]:
        if word in reached:
            return f'{word} is reached'
        if below := [path for path in paths if lies_below(path, word)]:
            return f'{below[0]} changed'
    return None


def unseen(paths, tests):
    """The changed files that no crate has and no test depends on."""
    words = [word for name, own in tests.items() for word in [f'tests/{name}', *(own or [])]]
    return [path for path in paths if path != 'crates.txt' and parts_of(path)[0] != 'crates'
            and not any(lies_below(path, word) for word in words)]


class Plan:
    """What changed paths reach, by crates.txt before and now, the edits there are as (crate, label), and the words of each test."""

    def __init__(self, paths, before, now, edits, tests):
        changed = changed_crates(paths, before, now)
        reached = upward(changed, now)
        new = changed_edits(paths)
        self.paths, self.every = paths, edits
        self.changed = [name for name in now if name in changed]
        self.above = [name for name in now if name in reached - changed]
        self.edits = [edit for edit in edits if edit[0] in reached or edit in new]
        why = {name: reason(name, words, reached, paths) for name, words in tests.items()}
        self.tests = {name: said for name, said in why.items() if said}
        self.idle = [name for name, said in why.items() if not said]
        self.unseen = unseen(paths, tests)
