"""What the checks of the house have in common: the files, the prose of a page, and lists that may only get shorter."""
import pathlib
import re
import subprocess

TOP = pathlib.Path(__file__).resolve().parent.parent
ALLOWED = TOP / '.ci' / 'allowed'


def names():
    """The names of the files of the checkout: those that git knows and does not ignore, or all where it tells none."""
    command = ['git', 'ls-files', '-co', '--exclude-standard']
    try:
        return subprocess.run(command, cwd=TOP, capture_output=True, text=True, check=True).stdout.split('\n')
    except (OSError, subprocess.CalledProcessError):
        found = (path.relative_to(TOP) for path in TOP.rglob('*'))
        return [str(path) for path in found if not {'.git', 'out', 'draft'} & set(path.parts)]


def files(kinds):
    """The files of the checkout of some kinds, by name: a kind is what a name ends in, and '' stands for no ending."""
    for name in sorted(names()):
        path = TOP / name
        if name and not name.startswith('draft/') and path.suffix in kinds and path.is_file():
            yield name, path


def text_of(path):
    """The text of a file, whatever its bytes are."""
    return path.read_text(encoding='utf-8', errors='replace')


def in_page(text):
    """Each line of a page with its number and what it is: 'prose', 'row' of a table, or 'code'."""
    is_fenced, was_blank, was_code = False, True, False
    for number, line in enumerate(text.split('\n'), 1):
        is_blank, is_fence = not line.strip(), line.lstrip().startswith('```')
        is_code = is_fenced or is_fence or line.startswith('    ') and (was_blank or was_code)
        if is_fence:
            is_fenced = not is_fenced
        yield number, line, 'code' if is_code else 'row' if line.lstrip().startswith('|') else 'prose'
        was_blank, was_code = is_blank, is_code and not is_fence or is_blank and was_code


def allowed(check):
    """How much of a kind each file may still have, by the list of a check."""
    path = ALLOWED / check
    lines = path.read_text(encoding='utf-8').split('\n') if path.is_file() else []
    rows = (line.split() for line in lines if line and not line.startswith('#'))
    return {name: int(count) for count, name in rows}


def write_allowed(check, counts):
    """Writes the list of a check anew, behind the comment at its head."""
    path = ALLOWED / check
    head = [line for line in path.read_text(encoding='utf-8').split('\n') if line.startswith('#')]
    rows = [f'{count} {name}' for name, count in sorted(counts.items()) if count]
    path.write_text('\n'.join([*head, *rows, '']), encoding='utf-8')


def judge(check, found, words, what):
    """Compares what was found with the list of a check, says what differs, and gives the status to end with.

    `found` has for each file the places of what the check looks for; `what` says in a few words what it is. With
    `--all` each place is told. A file may not have more than the list says, nor fewer: `--lower` writes the smaller
    numbers into the list, and never a greater one.
    """
    if words not in ([], ['--all'], ['--lower']):
        print(f'usage: .ci/{check} [--all | --lower]')
        return 4
    if words == ['--all']:
        print(*(f'{name}:{place}' for name in sorted(found) for place in found[name]), sep='\n')
    listed = allowed(check)
    counts = {name: len(places) for name, places in found.items()}
    if words == ['--lower']:
        listed = {name: min(most, counts.get(name, 0)) for name, most in listed.items()}
        write_allowed(check, listed)
    wrong = 0
    for name in sorted({*listed, *counts}):
        count, most = counts.get(name, 0), listed.get(name, 0)
        if count > most:
            print(f'{name}:{found[name][0]}: {count} {what}, of which .ci/allowed/{check} allows {most}')
        elif count < most:
            print(f'{name}: {count} {what}, and .ci/allowed/{check} still says {most}: .ci/{check} --lower mends that')
        wrong += count != most
    print(f'{check}: {sum(counts.values())} {what}, {wrong} files that differ from the list')
    return 1 if wrong else 0
