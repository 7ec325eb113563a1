"""Names that fit for texts that don't: a file keeps both, so that the same text has the same name in every table and
run, and two texts never have one.

The file is a table with the heading name,text. Texts that fit are kept too: so none of them is given to another text
later.
"""

import csv
import io
import itertools
import os
import re
import unicodedata

from . import whole_files
from .cells import NAME
from .trouble import Trouble, read_bytes

LONGEST = 40
LETTERS = {'ä': 'ae', 'ö': 'oe', 'ü': 'ue', 'ß': 'ss', 'æ': 'ae', 'ø': 'oe', 'å': 'aa', 'œ': 'oe', 'ł': 'l', 'đ': 'd'}
LETTERS.update({letter.upper(): text.upper() for letter, text in LETTERS.items() if letter != 'ß'})
# Which words of a command are names, where not all behind the first are.
NAMED = {'pick': (1, 2), 'missing': (1, 2), 'receive': (2,)}


def fitted(text):
    """A name that fits, as near to a text as it goes."""
    if NAME.fullmatch(text):
        return text
    spelled = ''.join(LETTERS.get(letter, letter) for letter in text)
    plain = unicodedata.normalize('NFKD', spelled).encode('ascii', 'ignore').decode()
    name = re.sub('[^A-Za-z0-9._-]+', '-', plain).strip('-')[:LONGEST]
    return name if re.search('[A-Za-z]', name) else ('N-' + name)[:LONGEST].rstrip('-')


class Names:
    """The texts of a file of names, with their names, and the other way round."""

    def __init__(self, path):
        self.path, self.name_of, self.text_of = path, {}, {}
        if os.path.lexists(path):
            self.read(read_bytes(path))

    def read(self, data):
        try:
            rows = list(csv.reader(io.StringIO(data.decode('utf-8-sig', 'replace'))))
        except csv.Error as why:
            raise Trouble('%s is no table of names: %s' % (self.path, why)) from None
        if rows[:1] != [['name', 'text']]:
            raise Trouble('%s is no file of names: its first line is not name,text' % self.path)
        for number, row in enumerate(rows[1:], 2):
            if len(row) != 2 or not NAME.fullmatch(row[0]) or row[0] in self.text_of or row[1] in self.name_of:
                raise Trouble('row %d of %s is not a name that fits and a text, or one of them stands above already'
                              % (number, self.path))
            self.keep(*row)

    def keep(self, name, text):
        self.name_of[text], self.text_of[name] = name, text

    def of(self, text):
        """The name of a text, which it has from now on. Of the two ways to write an accent both are the same."""
        text = unicodedata.normalize('NFC', text)
        if text not in self.name_of:
            wanted = name = fitted(text)
            for number in itertools.count(2):
                if name not in self.text_of:
                    break
                name = '%s-%d' % (wanted[:LONGEST - 6], number)
            self.keep(name, text)
        return self.name_of[text]

    def changed(self):
        """The texts by the names that they have in their place."""
        return {name: text for name, text in self.text_of.items() if text != name}

    def write(self):
        to = io.StringIO()
        csv.writer(to, lineterminator='\n').writerows([('name', 'text'), *self.text_of.items()])
        whole_files.write(self.path, to.getvalue())


def kept_in(path):
    """The names of a file that is there."""
    if not os.path.exists(path):
        raise Trouble('%s cannot be read: there is no file of names of this name' % path)
    return Names(path)


def texts_of(path):
    """The texts that a file of names keeps for names; none where no file is given."""
    return kept_in(path).changed() if path else {}


def named_by(path):
    """What gives a text the name that a file keeps for it, and leaves it as it is where there is none."""
    known = kept_in(path).name_of if path else {}
    return lambda text: known.get(unicodedata.normalize('NFC', text), text)


def _command(words, texts):
    places = NAMED.get(words[0], range(1, len(words)))
    return [texts.get(word, word) if place in places else word for place, word in enumerate(words)]


def _reply(words, texts):
    first = {'lost': 1, 'refused': 2}.get(words[0], len(words))
    if words[1:2] and words[1] in ('not-held', 'wrong-state'):
        first = len(words)
    return words[:first] + [texts.get(word, word) for word in words[first:]]


def _restored_entry(entry, texts):
    return entry._replace(command=_command(entry.command, texts), reply=_reply(entry.reply, texts))


def _restored_picker(picker, texts):
    return picker._replace(batches=[_batch_name(each, texts) for each in picker.batches])


def _restore_wave(wave, texts):
    wave.name = texts.get(wave.name, wave.name)
    for batch in wave.batches:
        batch.orders = [texts.get(order, order) for order in batch.orders]
        batch.picks = [_with_texts(pick, texts) for pick in batch.picks]


def _with_texts(record, texts):
    """A record of an output with the texts in its fields that are names."""
    fields = {field: getattr(record, field) for field in ('article', 'order', 'wave') if hasattr(record, field)}
    return record._replace(**{field: texts.get(name, name) for field, name in fields.items()})


def _batch_name(name, texts):
    wave, slash, number = name.rpartition('/')
    return texts.get(wave, wave) + slash + number


def restored(day, path):
    """A day with the texts that a file of names keeps in the place of their names; unchanged where no file is given."""
    texts = texts_of(path)
    if texts:
        day.entries = [_restored_entry(entry, texts) for entry in day.entries]
        day.refills, day.rows = ([_with_texts(each, texts) for each in records] for records in (day.refills, day.rows))
        for wave in day.waves:
            _restore_wave(wave, texts)
        if day.crew:
            day.crew = day.crew._replace(pickers=[_restored_picker(picker, texts) for picker in day.crew.pickers])
    return day


def restored_line(line, texts):
    """A line of text with the texts in the place of their names."""
    return re.sub('[A-Za-z0-9._-]+', lambda found: texts.get(found[0], found[0]), line) if texts else line


def taken_from(words):
    """The words without `--names FILE`, and that file, None where it isn't named."""
    for place, word in enumerate(words):
        if word == '--names' and place + 1 < len(words):
            return words[:place] + words[place + 2:], words[place + 1]
        if word.startswith('--names='):
            return words[:place] + words[place + 1:], word.partition('=')[2]
    return words, None
