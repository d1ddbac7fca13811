#!/usr/bin/env python3
"""commands.py TABLE: what bin/am2 and bin/am2_lab answer to each command line of a table.

A row is `ROOM$ COMMAND`, `ROOM% COMMAND` where standard error is a terminal, or `ROOM@ COMMAND` where standard input is one too, at which nothing is typed but the end of the input. Standard output
is a pipe. Behind it stand `= STATUS`, if it isn't 0, `1 TEXT` for each line of standard output and `2 TEXT` for each of standard error that must be there, in this order; a TEXT that ends in `...` is
the beginning of a line. Where no such line stands the stream is empty. The rooms are small repositories with the bin/ of this one, in which no proof is ever run:

    fresh     nothing is built, and no `rt` is on PATH
    built     programs that print their words and what they read are built; STATUS is the status that they end with
    failing   nothing is built, and an `rt` that proves nothing is there
    building  nothing is built, and an `rt` that builds these programs at once is there
    real      this repository itself; its rows are left out where its programs aren't built, and those of terminals where there are none
"""
import os
import pty
import re
import shutil
import subprocess
import sys
import tempfile
from concurrent.futures import ThreadPoolExecutor

ROW = re.compile(r"^(fresh|built|failing|building|real)([$%@]) (.*)$")
TOOLS = """awk basename bash cat chmod cp cut dirname env find git grep head install ln ls mkdir mktemp mv od printf readlink rm sed sleep sort tail tar touch tr true wc""".split()
PROGRAM = """#!/usr/bin/env bash
echo "words: $*"
[ "${*#*make}" != "$*" ] || cat
exit "${STATUS:-0}"
"""
RT = {
    "failing": 'echo "rt: am_names NOT PROVED"\necho "0 passed, 1 failed"\nexit 1\n',
    "building": 'for name in am2 am2_lab; do\n[ -d crates/$name ] || continue\nmkdir -p crates/$name/out\ncp "$ROOM/program" crates/$name/out/$name\necho "rt: $name proved"\ndone\necho "2 passed, 0 failed"\n',
}
SECONDS = 60


def write(path, text, mode=0o644):
    os.makedirs(os.path.dirname(path), exist_ok=True)
    with open(path, "w", encoding="utf-8") as file:
        file.write(text)
    os.chmod(path, mode)


def make_room(top, name):
    """A small repository, in which the programs stand on one crate, and the environment of its commands."""
    room = f"{top}/{name}"
    for part in ("bin", "check", "docs", "examples"):
        shutil.copytree(part, f"{room}/{part}", ignore=shutil.ignore_patterns("*.svg", "__pycache__"))
    shutil.copy("README.md", f"{room}/README.md")
    write(f"{room}/crates.txt", "am_names:\nam2: am_names\nam2_lab: am_names\n")
    write(f"{room}/HANDLES", "Handles allowed: none.\n")
    write(f"{room}/bench/gate.txt", "am_names proof 60\nam2 proof 60\nam2_lab proof 60\n")
    for crate in ("am_names", "am2", "am2_lab"):
        write(f"{room}/crates/{crate}/src/main.rt", "")
    write(f"{room}/program", PROGRAM, 0o755)
    os.mkdir(f"{room}/tools")
    for tool in TOOLS:
        if found := shutil.which(tool):
            os.symlink(found, f"{room}/tools/{tool}")
    os.symlink(sys.executable, f"{room}/tools/python3")
    if name in RT:
        write(f"{room}/tools/rt", f'#!/usr/bin/env bash\n[ "$1" = version ] && echo "rattle-kit-0" && exit\n{RT[name]}', 0o755)
    if name == "built":
        for crate in ("am2", "am2_lab"):
            write(f"{room}/crates/{crate}/out/{crate}", PROGRAM, 0o755)
    return room, {"PATH": f"{room}/tools", "ROOM": room, "HOME": room, "LC_ALL": "C", "TMPDIR": f"{top}/tmp"}


def read_all(master):
    """What stands in a terminal whose other end is closed."""
    found = b""
    try:
        while part := os.read(master, 65536):
            found += part
    except OSError:
        pass
    return found.decode(errors="replace").replace("\r\n", "\n")


def ran(room, environment, how, command):
    """The status, standard output and standard error of a command."""
    words = ["bash", "-c", command]
    if how == "$":
        found = subprocess.run(words, cwd=room, env=environment, stdin=subprocess.DEVNULL, capture_output=True, timeout=SECONDS, check=False)
        return found.returncode, found.stdout.decode(errors="replace"), found.stderr.decode(errors="replace")
    master, slave = pty.openpty()
    if how == "@":
        os.write(master, b"\x04")
    given = slave if how == "@" else subprocess.DEVNULL
    with subprocess.Popen(words, cwd=room, env=environment, stdin=given, stdout=subprocess.PIPE, stderr=slave) as process:
        os.close(slave)
        out, _ = process.communicate(timeout=SECONDS)
    told = read_all(master)
    os.close(master)
    return process.returncode, out.decode(errors="replace"), told


def lacks(wanted, text):
    """The first line that is wanted and doesn't stand in the text behind those before it; also where the text should be empty."""
    if not wanted:
        return "nothing at all" if text else None
    lines = iter(text.splitlines())
    for it in wanted:
        if not any(line.startswith(it[:-3]) if it.endswith("...") else line == it for line in lines):
            return it
    return None


def rows_of(path):
    with open(path, encoding="utf-8") as text:
        rows = []
        for line in text.read().splitlines():
            if found := ROW.match(line):
                rows.append((*found.groups(), {"=": [], "1": [], "2": []}))
            elif line[:2] in ("= ", "1 ", "2 ") and rows:
                rows[-1][3][line[0]].append(line[2:])
            elif line and not line.startswith("#"):
                sys.exit(f"{path}: no row and no answer: {line}")
    return rows


def wrong_with(rooms, row):
    """What is wrong with the answer to a row, if anything."""
    name, how, command, answer = row
    room, environment = rooms[name]
    status, out, told = ran(room, environment, how, command.replace("ROOM", room))
    found = []
    if str(status) != (answer["="] or ["0"])[0]:
        found.append(f"status {status}")
    for stream, wanted, text in (("output", answer["1"], out), ("standard error", answer["2"], told)):
        lack = lacks([it.replace("ROOM", room) for it in wanted], text)
        if lack is not None:
            found.append(f"{stream} lacks `{lack}`: {text[:600]!r}")
    return f"{name}{how} {command}: {'; '.join(found)}" if found else None


def has_terminals():
    try:
        for it in pty.openpty():
            os.close(it)
    except OSError:
        return False
    return True


def can_be_tried(rows):
    """The rows that can be tried here: those of terminals where the system has some, and those of this repository where its programs are built."""
    without = "" if has_terminals() else "%@"
    is_built = all(os.access(f"crates/{it}/out/{it}", os.X_OK) for it in ("am2", "am2_lab"))
    return [it for it in rows if it[1] not in without and (is_built or it[0] != "real")]


def main(table):
    rows = rows_of(table)
    with tempfile.TemporaryDirectory() as top:
        top = os.path.realpath(top)
        os.mkdir(f"{top}/tmp")
        rooms = {name: make_room(top, name) for name in ("fresh", "built", "failing", "building")}
        rooms["real"] = os.getcwd(), dict(os.environ)
        tried = can_be_tried(rows)
        with ThreadPoolExecutor(4) as pool:
            wrong = [it for it in pool.map(lambda row: wrong_with(rooms, row), tried) if it]
    print(*wrong, f"commands: {len(tried)} tried, {len(rows) - len(tried)} left out, {len(wrong)} answered otherwise", sep="\n")
    return 1 if wrong or len(rows) < 80 else 0


if __name__ == "__main__":
    sys.exit(main(*sys.argv[1:]))
