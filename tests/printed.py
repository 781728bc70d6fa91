# What a program of crates/ printed when rt last ran it, compared with its file stdout: the cases that differ, each with its label.
# Called: imported by tests/vectors/make and tests/images/make; it does nothing when run. It counts nothing: rt has counted the run.
# Reads: out/stdout of crates/NAME, which rt ci writes, and its stdin, args and stdout.
from itertools import zip_longest

MOST = 20  # cases that are printed


def first_other(wanted, printed):
    """The first line in which two texts differ, of both."""
    pairs = zip_longest(wanted.split('\n'), printed.split('\n'), fillvalue='nothing')
    return next((pair for pair in pairs if pair[0] != pair[1]), (wanted, 'nothing'))


def tell(folder, cases_of):
    """Prints the cases of the last run that differ; cases_of splits an output into [(label, text)]. A run of older files is left out."""
    log = folder / 'out' / 'stdout'
    inputs = [path for path in (folder / name for name in ('stdin', 'args', 'stdout')) if path.exists()]
    if not log.exists() or any(path.stat().st_mtime > log.stat().st_mtime for path in inputs):
        return
    printed = dict(cases_of(log.read_text('utf-8', 'replace')))
    other = [(label, text) for label, text in cases_of((folder / 'stdout').read_text()) if printed.get(label) != text]
    for label, text in other[:MOST]:
        wanted, got = first_other(text, printed.get(label, ''))
        print(f'{folder.name} as rt ran it, {label}:', f'    expected {wanted}', f'    printed  {got}', sep='\n')
    if other[MOST:]:
        print(f'{folder.name} as rt ran it: {len(other) - MOST} more cases differ')
