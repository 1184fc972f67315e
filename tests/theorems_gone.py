#!/usr/bin/env python3
"""Takes the end theorems out one at a time, in a copy of the repository, and asks who misses each.

    rt all check && tests/theorems_gone.py [NAME ...]

For each public law of the files below it prints who misses it: `promises`, if the test of docs/PROMISES.md fails without it, and
`proofs`, if `rt check` in crates/claims does (not asked of the claims themselves, on which nothing stands). Exits with 1 if nobody misses
one. NAMEs are FILE or FILE.LAW; without any, all are tried, in some 20 minutes.
"""
import re
import shutil
import subprocess
import sys
import tempfile
from pathlib import Path

ROOT = Path(__file__).resolve().parents[1]
FILES = [
    'claims/specs/Claims', 'claims/specs/OwnCalls', 'theorems/specs/Theorems', 'theorems/specs/LateTheorems',
    'theorems_refusals/specs/Refusals', 'theorems_calls/specs/Runs', 'theorems_calls/specs/Composes', 'theorems_host/proofs/HostRuns',
    'theorems_host/proofs/HostComposes', 'theorems_host/specs/HostReads', 'theorems_texts/specs/Texts', 'read_log/proofs/Readings',
]
LAW = re.compile(r'^( *)pub ([a-z][a-z_]*) : ')


def depth(line):
    return len(line) - len(line.lstrip(' '))


def laws(lines):
    """The public laws: the line and the name of each. What stands inside a record is a field."""
    record = None
    for number, line in enumerate(lines):
        if record is not None and line.strip() and depth(line) <= record:
            record = None
        if line.lstrip().startswith('pub record '):
            record = depth(line)
        found = LAW.match(line)
        if found and record is None:
            yield number, found[2]


def without(lines, start, name):
    """The lines without a law: its type, what it unfolds, its clauses, the brace that closes one."""
    at, edge = start + 1, depth(lines[start])
    own = re.compile(rf'(unfolding |{re.escape(name)}( |$)|}}$)')
    while at < len(lines) and lines[at].strip() and (depth(lines[at]) > edge or own.match(lines[at].lstrip())):
        at += 1
    return lines[:start] + lines[at:]


def fails(command, folder):
    return subprocess.run(command, cwd=folder, stdout=subprocess.DEVNULL, stderr=subprocess.DEVNULL).returncode != 0


def copied(scratch):
    """A copy of the files. What rt has proved of the repository it takes over to the copy by itself."""
    listed = subprocess.run(['git', 'ls-files', '-co', '--exclude-standard'], cwd=ROOT, capture_output=True, text=True, check=True)
    for name in listed.stdout.split('\n'):
        if name and (ROOT / name).is_file():
            (scratch / name).parent.mkdir(parents=True, exist_ok=True)
            shutil.copy2(ROOT / name, scratch / name)
    if missed_by(scratch, True):
        sys.exit('the copy fails as it is')


def missed_by(scratch, stood_on):
    promises = ['cargo', 'test', '--release', '--offline', '--quiet', '--test', 'promises']
    who = ['promises'] if fails(promises, scratch / 'tests') else []
    if stood_on:
        who += ['proofs'] if fails(['rt', 'check'], scratch / 'crates' / 'claims') else []
    return who


def tried(scratch, path, words):
    """Each law of a file, and who misses it."""
    file = scratch / 'crates' / f'{path}.antt'
    text = file.read_text(encoding='utf-8')
    lines = text.split('\n')
    for start, name in laws(lines):
        law = f'{file.stem}.{name}'
        if not words or file.stem in words or law in words:
            file.write_text('\n'.join(without(lines, start, name)), encoding='utf-8')
            yield law, missed_by(scratch, not path.startswith('claims/'))
            file.write_text(text, encoding='utf-8')


def main(words):
    count, unmissed = 0, 0
    with tempfile.TemporaryDirectory() as folder:
        scratch = Path(folder)
        copied(scratch)
        for path in FILES:
            for law, who in tried(scratch, path, words):
                print(f'{law}: {", ".join(who) or "NOBODY"}', flush=True)
                count, unmissed = count + 1, unmissed + (not who)
    print(f'{count} laws, {unmissed} of them missed by nobody')
    return int(unmissed > 0)


if __name__ == '__main__':
    sys.exit(main(sys.argv[1:]))
