"""The kit's own rattle over the libraries that rt ci has just proved and left in crates/NAME/out.

rt does not take these for its other commands: rt lib, in a fresh clone, proves every library below once more, one after the other.
Where rt check or rt lib has built libraries of this checkout, rt ci puts those back, and rt lib first brings them up to date.
"""
import shutil
import subprocess
import sys
from pathlib import Path

ROOT = Path(__file__).resolve().parents[1]


def read_crates():
    """Of each crate of crates.txt the libraries that it names, and those that are static libraries."""
    uses, static = {}, set()
    for line in (ROOT / 'crates.txt').read_text(encoding='utf-8').splitlines():
        head, _, names = line.partition('#')[0].partition(':')
        if head.strip():
            uses[head.split()[0]] = names.split()
            static.update(head.split()[:1] if 'staticlib' in head.split()[1:] else [])
    return uses, static


def below(crate, uses, found=None):
    """The repository's libraries below a crate, each after those that it uses."""
    found = [] if found is None else found
    for name in uses[crate]:
        if name in uses and name not in found:
            below(name, uses, found)
            found.append(name)
    return found


def library_of(name):
    return ROOT / 'crates' / name / 'out' / 'rlib' / f'{name}.rlib'


def bring_up_to_date(crate, uses):
    """Has rt build what this checkout has built before by itself. What rt ci has left has no stamp."""
    if any((library_of(name).parent / 'stamp').exists() for name in below(crate, uses)):
        for name in uses[crate]:
            if name in uses:
                subprocess.run(['rt', 'lib'], cwd=ROOT / 'crates' / name, check=True, stdout=sys.stderr)


def words_for(crate, uses, static):
    """What says to rattle which crate it is, over which libraries, as rt says it."""
    kit = Path(shutil.which('rt')).resolve().parents[1]
    root = 'src/main.rt' if (ROOT / 'crates' / crate / 'src' / 'main.rt').is_file() else 'src/lib.rt'
    words = ['--crate-name', crate, root, '-L', f'dependency={kit}/rlibs']
    for name in ['std', *uses[crate]]:
        words += ['--extern', f'{name}={library_of(name) if name in uses else kit / "rlibs" / f"{name}.rlib"}']
    for name in below(crate, uses):
        words += ['-L', f'dependency={library_of(name).parent}']
    words += ['--antt-project', f'{kit}/rattle/logic/antt-project.json', '--logic-built', f'{kit}/logic_built', '--jobs', '2']
    words += ['--links', f'{crate}=', *(['--crate-type', 'staticlib'] if crate in static else [])]
    return kit, words


def check(crate, folder):
    """What rattle says of a crate whose src/, specs/ and proofs/ stand in a folder."""
    uses, static = read_crates()
    bring_up_to_date(crate, uses)
    kit, words = words_for(crate, uses, static)
    ran = subprocess.run([kit / 'bin' / 'rattle', 'check', *words], cwd=folder, stdout=subprocess.PIPE, stderr=subprocess.STDOUT, errors='replace')
    return ran.returncode, ran.stdout


def build(crate, to):
    """Proves a static library and compiles it into an archive; whether that went well."""
    uses, static = read_crates()
    bring_up_to_date(crate, uses)
    kit, words = words_for(crate, uses, static)
    words += ['--toolchain', f'{kit}/toolchain', '--backend', 'llvm', '-o', str(to)]
    return subprocess.run([kit / 'bin' / 'rattle', 'build', *words], cwd=ROOT / 'crates' / crate).returncode == 0
