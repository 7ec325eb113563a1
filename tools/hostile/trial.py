"""Runs of the program and what is known of its answers, for the scripts beside this file."""

import os
import re
import shutil
import subprocess
from collections import namedtuple
from pathlib import Path

import endings

REPOSITORY = Path(__file__).resolve().parent.parent.parent
CASES = REPOSITORY / "crates" / "wp_cases" / "data"
EXAMPLES = REPOSITORY / "examples"

LIMIT = 10  # seconds that a run may take

# How a run ended: its status, below 0 where a signal ended it and None where it took too long, and what it printed.
End = namedtuple("End", "status output errors")

ROW_WHY = (
    b"columns|not-utf8|bad-name|bad-number|out-of-range|unknown-location|location-twice|unknown-article|unknown-command"
    b"|unknown-order|order-twice|desk-number|too-many-rows|too-many-places|too-many-orders|too-many-lines"
    b"|too-many-waves"
)
NODE_WHY = (
    rb"bad-cuts|cut|split-kept|not-dead \d+|duals-length|decided-prices|sum-low|not-feasible( \d+)*|bad-marks"
    rb"|not-tight \d+|bad-pair"
)
KEY = b"(version|aisles|slots|pitch|clearance|spacings?|depot|end)"
FILE = b"(layout|stock|orders|desks|certificate|open|journal)"

# The one line that each status but 0, 4 and 5 has.
LINES = {
    1: rb"refused words (no-mode|unknown-mode|bad-words|too-many-waves \d+)\n",
    2: rb"refused (layout (not-json|not-object|unknown-key|not-end|(missing-key|not-whole|out-of-range) %s)|%s too-long"
    rb"|(stock|orders|desks|open) row \d+ (%s))\n" % (KEY, FILE, ROW_WHY),
    3: rb"read fault %s\n" % FILE,
    6: rb"refused (certificate (not-json|bad-shape|out-of-range|node \d+ (%s))"
    rb"|journal (line \d+|entry \d+ printed [^\n]+ right [^\n]+)"
    rb"|store (too-long|record \d+|entry \d+ printed [^\n]+ right [^\n]+|entries \d+))\n" % NODE_WHY,
    7: rb"store fault\n",
}

# What the whole output of each mode is, where the status is 0.
OUTPUTS = {
    "plan": rb"journal\n.*end journal\n.*refills\n.*end refills\n(crew [^\n]*\n(picker [^\n]*\n)+end "
           rb"crew\n)?stock\n.*end stock\nend\n",
    "check": rb"bound \d+\n",
    "audit": rb"audit \d+ entries\n",
    "waves": rb"desks\ndesk,command,arguments\n.*end desks\nwaves\n.*end waves\nleft\n.*end left\nend\n",
    "make": rb"made [^\n]*\ncommands \d+ released \d+ units \d+\ncost \d+ bound \d+ proven \d+\n",
}


def run(program, words, folder, **how):
    """Runs the program in a folder."""
    how = {"stdout": subprocess.PIPE, "stderr": subprocess.PIPE, "stdin": subprocess.DEVNULL, "timeout": LIMIT, **how}
    try:
        done = subprocess.run([program, *words], cwd=folder, **how)
    except subprocess.TimeoutExpired:
        return End(None, b"", b"")
    return End(done.returncode, done.stdout or b"", done.stderr or b"")


def program_of(path):
    """The program that a path names. Fails where it is none, or answers otherwise than waveplan."""
    program = str(Path(path).resolve())
    if os.path.isdir(program) or not os.access(program, os.X_OK):
        raise endings.Trouble("%s is no program that can be run" % path)
    if run(program, [], "/").output != b"refused words no-mode\n":
        raise endings.Trouble("%s is no waveplan: without words it doesn't say `refused words no-mode`" % path)
    return program


def is_named(end, mode):
    """Whether a run ended with its output, or with a status that has a line and just that line."""
    if end.errors:
        return False
    if end.status == 0:
        return re.fullmatch(OUTPUTS[mode], end.output, re.DOTALL) is not None
    return end.status in LINES and re.fullmatch(LINES[end.status], end.output) is not None


def knows_make(program):
    """Whether the program has the mode `make`."""
    return run(program, ["make"], "/").output != b"refused words unknown-mode\n"


def plan_words(capacity=2, *more):
    """The words of a plan of the files of `day`."""
    files = ("--layout", "layout.json", "--stock", "stock.csv", "--orders", "orders.csv", "--desks", "desks.csv")
    return ["plan", *files, "--capacity", str(capacity), *more]


CHECK = ["check", "--layout", "layout.json", "--certificate", "certificate.json"]
AUDIT = ["audit", "--layout", "layout.json", "--stock", "stock.csv", "--orders", "orders.csv", "--journal",
         "journal.txt"]
WAVES = ["waves", "--layout", "layout.json", "--stock", "stock.csv", "--orders", "orders.csv", "--wave", "2",
         "--capacity", "2", "--open", "open.csv", "--journal", "journal.txt"]
MAKE = "make --number 1 --aisles 2 --orders 3 --desks 1 --wave 3 --capacity 2".split()


def layout_text(aisles=3, slots=4):
    """A layout with these aisles and slots."""
    text = '{"version":1,"aisles":%d,"slots":%d,"pitch":2,"clearance":1,"spacing":5,"depot":1}'
    return text % (aisles, slots)


def wave_day(places):
    """A day with one wave, whose orders pick at these places of three aisles with four slots: a text for each file."""
    rows = sorted(set(places))
    return {
        "layout.json": layout_text(),
        "stock.csv": "location,article,on_hand\n" + "".join("%s-L,A%s,9\n" % (row, row) for row in rows),
        "orders.csv": "order,article,quantity\n" + "".join("O%d,A%s,1\n" % pair for pair in enumerate(places)),
        "desks.csv": "desk,command,arguments\n1,submit,W1,%s\n1,release,W1\n"
        % ",".join("O%d" % order for order, _ in enumerate(places)),
    }


def open_day(places):
    """The day of one wave of an order at the first place alone, whose orders at all places are open."""
    orders = ["O%d" % order for order, _ in enumerate(places)]
    return {**wave_day(places), "desks.csv": "desk,command,arguments\n1,submit,W1,O0\n1,release,W1\n",
            "open.csv": "order,group,rank\n" + "".join("%s,G,%d\n" % (order, at) for at, order in enumerate(orders))}


def put(folder, files):
    """Writes files into a folder, and gives the folder."""
    folder = Path(folder)
    folder.mkdir(parents=True, exist_ok=True)
    for name, content in files.items():
        (folder / name).write_bytes(content.encode() if isinstance(content, str) else content)
    return folder


def certificates(output):
    """The certificates of an output, each with the bound of its sheet's heading."""
    return re.findall(rb"^wave .* bound (\d+) .*\n(?:(?!certificate ).*\n)*certificate (.*)\n", output, re.MULTILINE)


def compiler():
    """The C compiler, None where there is none: CC, or one of the usual names."""
    return next(filter(shutil.which, filter(None, (os.environ.get("CC"), "cc", "clang", "gcc"))), None)


def shim(folder, name, text):
    """Compiles C text to a library that is loaded before the C library, and gives its path."""
    source, library, with_it = Path(folder, name + ".c"), Path(folder, name + ".so"), compiler()
    if with_it is None:
        raise endings.Trouble("there is no C compiler here: name one in CC")
    source.write_text(text)
    subprocess.run([with_it, "-O2", "-shared", "-fPIC", "-o", library, source], check=True)
    return str(library)


class Tally:
    """Counts runs, and those that ended wrong."""

    def __init__(self):
        self.runs = self.wrong = 0

    def add(self, right, what, end):
        """Counts one run, and tells of it where it is wrong."""
        self.runs += 1
        if not right:
            self.wrong += 1
            self.tell(what, "status %s, output %r, errors %r" % (end.status, end.output[:200], end.errors[:200]))

    def tell(self, what, how):
        print("wrong: %s: %s" % (what, how), flush=True)

    def end(self):
        """Prints the line that sums up, and gives the script's status."""
        print("%d runs, %d wrong" % (self.runs, self.wrong))
        return endings.WRONG if self.wrong else endings.RIGHT
