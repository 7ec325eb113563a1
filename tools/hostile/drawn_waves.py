"""Days that are drawn for `waves`, and what has to follow from an output of it, for tools/hostile/fuzz."""

import re

from opinion.refusals import Refusal
from opinion.words import read_words

# The names that a run has for its files.
FILES = ("layout.json", "stock.csv", "orders.csv", "open.csv", "journal.txt")
NAMES = {"open": "open.csv", "journal": "journal.txt"}
GROUPS = ("W", "G", "H", "North-gate", "g" * 32)
RANKS = (0, 0, 1, 2, 1430, 10**9)
MOST_WAVES = 100  # with so many at most it is tried what follows


def layout_of(dice):
    aisles = dice.choice((1, 2, 3, 5, 8))
    numbers = (aisles, dice.choice((1, 2, 4, 7)), dice.randrange(1, 4), dice.randrange(1, 9),
               dice.randrange(1, aisles + 1))
    return numbers[:2], ('{"version":1,"aisles":%d,"slots":%d,"pitch":%d,"clearance":1,"spacing":%d,"depot":%d}'
                         % numbers).encode()


def stock_of(dice, size):
    """Rows of few articles, of which some have nothing on hand."""
    places = ["%d-%d-%s" % (aisle, slot, side) for aisle in range(1, size[0] + 1) for slot in range(1, size[1] + 1)
              for side in "LR"]
    rows = dice.sample(places, dice.randrange(1, min(len(places), 16) + 1))
    articles = ["A%d" % number for number in range(dice.randrange(1, len(rows) + 1))]
    most = dice.choice((2, 5, 12, 40))
    lines = ["%s,%s,%d" % (row, articles[place % len(articles)], dice.randrange(most + 1))
             for place, row in enumerate(rows)]
    return articles, "".join("%s\n" % line for line in ["location,article,on_hand", *lines]).encode()


def orders_of(dice, articles):
    """Orders of few lines, whose articles may stand there twice."""
    names = ["O%d" % number for number in range(dice.choice((0, 1, 3, 8, 20, 40)))]
    most = dice.choice((1, 2, 4))
    lines = [(name, dice.choice(articles), dice.randrange(1, most + 1)) for name in names
             for _ in range(dice.randrange(1, 4))]
    if dice.random() < 0.3:
        dice.shuffle(lines)
    return names, "".join(["order,article,quantity\n", *("%s,%s,%d\n" % line for line in lines)]).encode()


def open_of(dice, names):
    """Some of the orders in some order, in few groups and ranks."""
    listed = dice.sample(names, dice.randrange(len(names) + 1) if dice.random() < 0.4 else len(names))
    groups, ranks = dice.sample(GROUPS, dice.randrange(1, 4)), dice.sample(RANKS, dice.randrange(1, 5))
    lines = ["%s,%s,%d\n" % (name, dice.choice(groups), dice.choice(ranks)) for name in listed]
    return "".join(["order,group,rank\n", *lines]).encode()


def all_open(orders):
    """An open file of all orders of an order file, in one group."""
    names = dict.fromkeys(line.split(b",")[0] for line in orders.splitlines()[1:] if b"," in line)
    return b"order,group,rank\n" + b"".join(b"%s,W,0\n" % name for name in names)


def earlier_of(dice, names):
    """Commands of the day before, some of which are refused."""
    left, waves, lines = list(names), [], []
    dice.shuffle(left)
    for _ in range(dice.randrange(1, 12)):
        word = dice.choice(("submit", "submit", "release", "release", "allot", "cancel"))
        if word == "submit" and left:
            waves.append(dice.choice(("W", "G", "X")) + ".%d" % dice.randrange(1, 5))
            some = dice.randrange(1, 4)
            lines.append(["submit", waves[-1], *left[:some]])
            del left[:some]
        elif word != "submit" and waves:
            lines.append([word, dice.choice(waves)])
    return lines


def desk_file(commands):
    """A desk file in which the first desk gives these commands."""
    return "".join(["desk,command,arguments\n", *("1,%s\n" % ",".join(words) for words in commands)]).encode()


def words_of(dice, has_open, has_journal):
    words = ["waves", "--layout", "layout.json", "--stock", "stock.csv", "--orders", "orders.csv",
             "--wave", str(dice.choice((1, 2, 3, 3, 5, 8, 64))), "--capacity", str(dice.randrange(1, 9))]
    more = (("units", (1, 2, 3, 5, 9, 40), 0.4), ("most", (1, 2, 3, 500), 0.3), ("desk", (1, 2, 8), 0.2),
            ("effort", (0, 1, 3, 40), 0.6))
    for name, values, often in more:
        if dice.random() < often:
            words += ["--" + name, str(dice.choice(values))]
    for name, is_given in (("open", has_open), ("journal", has_journal)):
        words += ["--" + name, NAMES[name]] if is_given else []
    return words


def made(dice):
    """The words and files of a run, and the commands of the day before it, whose journal isn't there yet."""
    size, layout = layout_of(dice)
    articles, stock = stock_of(dice, size)
    names, orders = orders_of(dice, articles)
    files = {"layout.json": layout, "stock.csv": stock, "orders.csv": orders}
    if dice.random() < 0.7:
        files["open.csv"] = open_of(dice, names)
    earlier = earlier_of(dice, names) if dice.random() < 0.5 else []
    return words_of(dice, "open.csv" in files, bool(earlier)), files, earlier


def cart_of(words):
    """The units of a cart that words say, as words of another mode."""
    try:
        units = read_words(words).numbers["units"]
    except Refusal:
        return []
    return [] if units is None else ["--units", str(units)]


def said_again(words):
    """The words of a second run: those of the first, with all waves, an open file and a journal."""
    job = read_words(words)
    numbers = {name: value for name, value in job.numbers.items() if value is not None}
    given = {**job.files, **NAMES, **numbers, "most": 500}
    return ["waves", *(word for name, value in given.items() for word in ("--" + name, str(value)))]


def commands_in(journal):
    """The commands of a journal, and their replies."""
    entries = journal.split(b"end journal\n")[0].decode().splitlines()[1:]
    return [(line.split(" -> ")[0].split(" ")[2:], line.split(" -> ")[1]) for line in entries]


def section(output, name):
    """The lines of a section."""
    return output.split(b"%s\n" % name, 1)[1].split(b"end %s\n" % name)[0].decode().splitlines()


class Following:
    """What has to follow from an output of `waves` with status 0: `plan` is run over commands, and gives an end, and
    `again` over files, and gives an end and what is wrong with it."""

    def __init__(self, words, files, output, plan, again):
        self.words, self.files, self.plan, self.again = words, files, plan, again
        self.sent = [line.split(",")[1:] for line in section(output, b"desks")[1:]]
        self.left = dict(line.split(" ", 1) for line in section(output, b"left"))
        has_journal = "journal" in read_words(words).files
        self.before = [words for words, _ in commands_in(files["journal.txt"])] if has_journal else []

    def short(self):
        """The orders that are short; with a later wave there is stock at the end that they were short of."""
        is_later = "later" in self.left.values()
        return [] if is_later else [order for order, why in self.left.items() if why.startswith("short ")]

    def fault(self):
        """What is wrong, or None."""
        if len(self.sent) > 2 * MOST_WAVES:
            return None
        short, tried = self.short()[:MOST_WAVES], []
        for number, order in enumerate(short):
            tried += [["submit", "alone-%d" % number, order], ["release", "alone-%d" % number]]
        end = self.plan(self.before + self.sent + tried)
        if end.status != 0:
            return "the section is planned with status %s" % end.status
        return self.fault_of(commands_in(end.output), short) or self.fault_again(end.output)

    def fault_of(self, entries, short):
        """What is wrong with the replies to the waves, and to the short orders alone."""
        done = {"submit": "submitted", "release": "released"}
        for words, reply in entries[len(self.before):][:len(self.sent)]:
            if reply != done[words[0]]:
                return "%s is answered %s" % (" ".join(words), reply)
        alone = entries[len(self.before) + len(self.sent):]
        for order, (submitted, released) in zip(short, zip(alone[::2], alone[1::2])):
            if submitted[1] != "submitted" or not released[1].startswith("refused short "):
                return "%s is told as short, and alone it is answered %s and %s" % (order, submitted[1], released[1])
        return None

    def fault_again(self, planned):
        """What is wrong with a second run after the first one's waves: each served order is told in its wave."""
        count = len(self.before) + len(self.sent)
        journal = b"".join(planned.splitlines(True)[:count + 1]) + b"end journal\n"
        files = {**self.files, "journal.txt": journal}
        if "open" not in read_words(self.words).files:
            files["open.csv"] = all_open(files["orders.csv"])
        end, wrong = self.again(said_again(self.words), files)
        if wrong or end.status != 0:
            return "a second run ends with status %s: %s" % (end.status, wrong)
        told = {line.split(" ", 1)[0]: line.split(" ", 1)[1] for line in section(end.output, b"left")}
        for words in self.sent:
            for order in words[2:] if words[0] == "submit" else ():
                if told.get(order) != "in %s" % words[1]:
                    return "%s went out in %s, and a second run tells it as %s" % (order, words[1], told.get(order))
        return None


def waves_in(output):
    """How many waves and orders an output sends out, and how many it leaves."""
    counted = [int(found) for found in re.findall(rb"^wave \S+ orders (\d+)", output, re.MULTILINE)]
    return len(counted), sum(counted), len(section(output, b"left"))
