"""Faults planted in copies of the repository, each with what a check says of it."""
import os, re, shutil, subprocess, sys, tempfile
from collections import namedtuple

# Whether the check refused, the crate that it refused, the first place there as FILE:LINE, and all that it said.
Outcome = namedtuple('Outcome', 'refused crate place said')


def root():
    return subprocess.run(['git', 'rev-parse', '--show-toplevel'], capture_output=True, text=True).stdout.strip()


def rests_on(top):
    """Of each crate, in the order of crates.txt, all those that it rests on."""
    with open(os.path.join(top, 'crates.txt'), encoding='utf-8') as file:
        lines = [re.match(r'(\w+)[^:#]*:(.*)', line) for line in file]
    uses = {line.group(1): set(line.group(2).split()) for line in lines if line}
    for _ in uses:
        for used in uses.values():
            used |= set().union(*(uses.get(it, ()) for it in used))
    return uses


def has_tests(folder):
    return subprocess.run(['grep', '-rqF', '#[test]', os.path.join(folder, 'src')]).returncode == 0


def complaints(said):
    """What a check says is wrong in a crate: errors, each with what is told of it below, and goals that it does not prove."""
    return re.findall(r'^(?:(?:\./)?(?:src|specs|proofs)/\S+?:\d+:\d+: error|note: src/\S+?:\d+:\d+: .*\(`).*\n(?:  .*\n)*', said, re.M)


def is_unfit(complaint):
    """Whether a proof only cites what the code no longer has: a goal, a step, a field; or what cites such a proof is not
    looked at. Or it means another arm of a match than the code, where both have a value of that kind."""
    return re.search(r'has no `|has no field|is not in scope|was not admitted|one has `c\.in-([^.` ]*).*?other has `c\.in-(?!\1[.` ])',
                     complaint, re.S) is not None


def replace(what, work, path, old, new):
    with open(os.path.join(work, path), encoding='utf-8') as file:
        text = file.read()
    # A fault that no longer fits its text shows nothing.
    if text.count(old) != 1:
        sys.exit(f'{what}: the text to replace stands {text.count(old)} times in {path}')
    with open(os.path.join(work, path), 'w', encoding='utf-8') as file:
        file.write(text.replace(old, new))


def tried(what, changes, crate):
    """Checks a crate of a copy, in which each change (PATH, OLD, NEW) is made. What an earlier check of the crates kept is
    copied too, so that only what hangs on the changes is proved anew."""
    top = root()
    with tempfile.TemporaryDirectory() as work:
        shutil.copy(os.path.join(top, 'crates.txt'), work)
        shutil.copytree(os.path.join(top, 'crates'), os.path.join(work, 'crates'))
        for path, old, new in changes:
            replace(what, work, path, old, new)
        run = subprocess.run(['rt', 'check'], cwd=os.path.join(work, 'crates', crate), capture_output=True, text=True)
    said = run.stdout + run.stderr
    # The crates below are proved first, and say so too.
    verdicts = re.findall(r'^logic=(\S+)', said, re.M)
    below = re.search(r'^rt: the library (\w+) did not build', said, re.M)
    first = re.search(r'((?:src|specs|proofs)/\S+?):(\d+):\d+: (?:error|note: it is|it is)', said)
    return Outcome(
        # a check that breaks off says nothing of the fault
        refused=run.returncode != 0 and bool(below or verdicts[-1:] == ['not-proved']),
        crate=below.group(1) if below else crate,
        place=f'{first.group(1)}:{first.group(2)}' if first else None,
        said=said,
    )
