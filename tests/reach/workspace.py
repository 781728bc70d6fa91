# Writes the crates as a Cargo workspace with counters, under target/reach, and builds it: the archive libtrm.a, the programs, the sample.
# Called: imported by tests/reach/run; it does nothing when run.
# Reads: crates.txt, crates/*/src, tests/reach/stand_in for the counters and for the kit's std, tests/reach/sample.source.
import os
import re
import shutil
import subprocess
from pathlib import Path

from plant import Planter

ROOT = Path(__file__).resolve().parents[2]
CRATES = ROOT / 'crates'
STAND_IN = ROOT / 'tests' / 'reach' / 'stand_in'
SAMPLE = ROOT / 'tests' / 'reach' / 'sample.source'
ROOM = ROOT / 'target' / 'reach'
RELEASE = ROOM / 'target' / 'release'
ARCHIVE = ROOM / 'archive' / 'libtrm.a'
# Overflow checks are on, although the proofs exclude overflow; a panic ends the process, which every test counts as a failure.
PROFILE = '''
[profile.release]
opt-level = 1
overflow-checks = true
panic = "abort"
codegen-units = 1
'''


def listed():
    """(crate, the crates that it depends on, whether it is a static library) for each crate of crates.txt."""
    for line in (ROOT / 'crates.txt').read_text(encoding='utf-8').split('\n'):
        if found := re.match(r'(\w+)( staticlib)?:([^#]*)', line):
            yield found[1], found[3].split(), bool(found[2])


def write(path, text):
    """Writes a file unless it is unchanged, so that a second build is short."""
    path.parent.mkdir(parents=True, exist_ok=True)
    if not path.exists() or path.read_text(encoding='utf-8') != text:
        path.write_text(text, encoding='utf-8')


def write_manifest(crate, needs, is_static=False):
    kind = '\n[lib]\ncrate-type = ["staticlib"]\n' if is_static else ''
    needs = ''.join(f'{name} = {{ path = "../{name}" }}\n' for name in needs)
    write(ROOM / crate / 'Cargo.toml',
          f'[package]\nname = "{crate}"\nversion = "0.1.0"\nedition = "2021"\n{kind}\n[dependencies]\n{needs}')


def write_crate(crate, first, is_static):
    """Writes the crate as Rust; returns its places, numbered from `first` on."""
    places, source = [], CRATES / crate / 'src'
    for path in sorted({*source.rglob('*.rt')} - {source / 'tests.rt'}):  # tests.rt is built for the crate's own tests alone
        planter = Planter(str(path.relative_to(CRATES)), path.read_text(encoding='utf-8'), first + len(places), is_static)
        write((ROOM / crate / 'src' / path.relative_to(source)).with_suffix('.rs'), planter.plant())
        places += planter.places
    return places


def write_sample():
    """Writes the sample as a program; returns its places, numbered from 0 on."""
    planter = Planter(SAMPLE.name, SAMPLE.read_text(encoding='utf-8'), 0, False)
    write(ROOM / 'sample' / 'src' / 'main.rs', planter.plant())
    write_manifest('sample', ['reach'])
    return planter.places


def write_workspace():
    """Writes the whole workspace but for the sample; returns every place, its index being its number."""
    places, members = [], ['reach', 'sample']
    write_manifest('reach', [])
    for path in STAND_IN.glob('*.rs'):
        write(ROOM / 'reach' / 'src' / path.name, path.read_text(encoding='utf-8'))
    for crate, needs, is_static in listed():
        write_manifest(crate, ['reach', *needs], is_static)
        places += write_crate(crate, len(places), is_static)
        members.append(crate)
    names = ', '.join(f'"{name}"' for name in members)
    write(ROOM / 'Cargo.toml', f'[workspace]\nresolver = "2"\nmembers = [{names}]\n{PROFILE}')
    return places


def cargo(*arguments, folder, **variables):
    """Whether cargo succeeds; its warnings come from the translation and are not shown."""
    environment = {**os.environ, 'RUSTFLAGS': '--cap-lints allow', **variables}
    done = subprocess.run(['cargo', 'build', '--release', '--offline', '--quiet', *map(str, arguments)],
                          cwd=folder, env=environment, capture_output=True, text=True)
    if done.returncode:
        print(done.stdout + done.stderr)
    return done.returncode == 0


def build_crates():
    """Builds all; the archive of trm_c gets the library's name, as tools/archive does it."""
    if not cargo('--target-dir', ROOM / 'target', folder=ROOM):
        return False
    ARCHIVE.parent.mkdir(exist_ok=True)
    shutil.copy(RELEASE / 'libtrm_c.a', ARCHIVE)
    return True


def build_compare():
    """Builds tests/rust/compare with the archive that has counters."""
    return cargo('--package', 'compare', '--target-dir', ROOM / 'compare', folder=ROOT / 'tests' / 'rust',
                 TRM_ARCHIVE=str(ARCHIVE.parent), CARGO_PROFILE_RELEASE_OPT_LEVEL='1')

