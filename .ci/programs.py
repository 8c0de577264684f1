"""What the scripts of .ci share: which programs are run, a run of one, what tells a difference, and a read of a file.

ARMUS_PROGRAMS says which programs: `proved` takes crates/NAME/out/NAME, which `rt ci` and `rt run` leave, and proves one first where it is not there or older
than what it is made from; `built` takes bin/NAME, which ./build leaves without a proof. Where it says nothing a script takes a proved program that is fresh, and
else one of ./build; each script that runs programs says in its first line which it has."""
import difflib, functools, os, re, subprocess, sys

# the programs of this repository; one whose crate is not there is passed over
PROGRAMS = ['armus', 'armus_explain', 'armus_monitor']

TOP = os.path.abspath(os.path.join(os.path.dirname(os.path.abspath(__file__)), '..'))
LONGEST = 120   # so many seconds may a run take


def read(path):
    """The bytes of a file, by its path from the top."""
    with open(os.path.join(TOP, path), 'rb') as file:
        return file.read()


@functools.cache
def crates():
    """The crates that each crate names in crates.txt, in the order of the file."""
    lines = [line.partition('#')[0].partition(':') for line in read('crates.txt').decode().splitlines()]
    return {name.split()[0]: rest.split() for name, colon, rest in lines if colon}


@functools.cache
def below(crate):
    """The crates of this repository on which a crate stands, with itself."""
    found = {crate}
    for it in crates()[crate]:
        if it in crates():
            found |= below(it)
    return found


def there():
    """The programs whose crates are in this repository."""
    return [name for name in PROGRAMS if name in crates()]


def newest(crate, parts):
    """When the newest file that a program is made from was written."""
    times = [0]
    for part in (f'{TOP}/crates/{it}/{part}' for it in below(crate) for part in parts):
        times += [os.path.getmtime(f'{at}/{name}') for at, _, names in os.walk(part) for name in names]
    return max(times)


def is_fresh(path, crate, parts):
    return os.path.exists(path) and os.path.getmtime(path) >= newest(crate, parts)


def proved(name):
    """The path of a proved program, which is proved first where it is not there or older than what it is made from."""
    path = f'{TOP}/crates/{name}/out/{name}'
    if not is_fresh(path, name, ('src', 'specs')):
        print(f'{name} is proved first', flush=True)
        subprocess.run(['rt', 'run'], cwd=f'{TOP}/crates/{name}', stdin=subprocess.DEVNULL, stdout=subprocess.DEVNULL)
    return path if is_fresh(path, name, ('src', 'specs')) else sys.exit(f'{name} is not proved')


def built(name):
    """The path of a program that ./build left."""
    path = f'{TOP}/bin/{name}'
    return path if is_fresh(path, name, ('src',)) else sys.exit(f'bin/{name} is not there, or older than its source: run ./build first')


@functools.cache
def program(name):
    """The path of the program of this name."""
    which = os.environ.get('ARMUS_PROGRAMS', '')
    if which == 'proved' or not which and is_fresh(f'{TOP}/crates/{name}/out/{name}', name, ('src', 'specs')):
        return proved(name)
    if which in ('built', ''):
        return built(name)
    return sys.exit(f'ARMUS_PROGRAMS is {which}, and neither proved nor built')


def programs(*names):
    """The paths of these programs; says in a line which they are."""
    paths = [program(name) for name in names]
    print(f'by {" and ".join(os.path.relpath(path, TOP) for path in paths)}', flush=True)
    return paths


def run(command, text=b'', folder='', seconds=LONGEST, **more):
    """What a command writes of this text in this folder: its output, its status, with 124 where it does not end, and what it writes on standard error."""
    try:
        ran = subprocess.run(command, input=text, stdout=subprocess.PIPE, stderr=subprocess.PIPE, timeout=seconds, cwd=os.path.join(TOP, folder), **more)
        return ran.stdout, ran.returncode, ran.stderr
    except subprocess.TimeoutExpired as late:
        return late.stdout or b'', 124, late.stderr or b''


def lines_differ(found, wanted, ours='found', theirs='wanted'):
    """What is wrong with the lines that were found, or nothing."""
    return None if found == wanted else '\n'.join(difflib.unified_diff(wanted, found, theirs, ours, lineterm=''))


def differs(found, wanted):
    """What is wrong with an output and a status that were found, or nothing."""
    if found == wanted:
        return None
    lines = [side[0].decode(errors='replace').splitlines() for side in (found, wanted)]
    return '\n'.join([f'status {found[1]}, and wanted is {wanted[1]}', lines_differ(*lines) or 'they differ in what ends their lines'])


class Block:
    """A command of a transcript, what it has to write and its status, with the text that it reads, what a mark in front of it says, and where it stands."""

    def __init__(self, command, text, name, mark, place):
        self.command, self.text, self.name, self.mark, self.place = command, text, name, mark, place
        self.output, self.status = b'', 0


def unescaped(line):
    """The bytes of a line of a transcript."""
    ends = not line.endswith(' (no-eol)')
    line = line if ends else line[:-len(' (no-eol)')]
    if line.endswith(' (esc)'):
        data = line[:-len(' (esc)')].encode().decode('unicode_escape').encode('latin-1')
    else:
        data = line.encode()
    return data + b'\n' if ends else data


def tell(blocks, lines):
    """Gives what these lines say to the commands that stand one below another in front of them; those that nothing stands behind write nothing."""
    kept = lines[:-1] if lines and not lines[-1] else lines
    is_status = kept and re.fullmatch(r'\[\d+\]', kept[-1])
    for block in blocks:
        block.status = int(kept[-1][1:-1]) if is_status else 0
        block.output = b''.join(map(unescaped, kept[:-1] if is_status else kept))


def transcript(path, text=None, name=''):
    """The blocks of a transcript. `$ COMMAND` stands in front of what the command has to write, and of its status in brackets where it is not 0; commands that
    stand one below another write the same. A line of what is read or written may end with ` (esc)`, where it has escapes as \\x0d, and with ` (no-eol)`, where no
    line feed stands behind it. `# ..` is a mark of the next block. Where the text is not given, `== NAME` begins one, up to the first command; the lines in
    front of the first text or command say what the file has."""
    told, waiting, lines, mark, is_text = [], [], [], '', False
    file = read(path).decode().split('\n')
    for number, line in enumerate([*file[:-1], '=='], 1):
        begins = re.match(r'\$ |# |== |==$', line)
        if not begins:
            lines.append(line)
            continue
        if is_text:
            text = b''.join(map(unescaped, lines))
        elif lines or begins[0] != '$ ':
            tell(waiting, lines)
            told, waiting = told + waiting, []
        lines, is_text = [], begins[0].startswith('==')
        if is_text:
            name, text, mark = line[3:], b'', ''
        elif begins[0] == '# ':
            mark = line[2:]
        else:
            waiting.append(Block(line[2:], text, name, mark, f'{os.path.relpath(os.path.join(TOP, path), TOP)}:{number}'))
            mark = ''
    return told


def written(path, command):
    """What the first block of a transcript with this command says that it writes."""
    return next(block.output for block in transcript(path) if block.command == command)
