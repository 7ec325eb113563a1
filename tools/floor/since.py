"""What became of the picks on the sheets since they were printed: what was missing, what is held in its stead, and
what of that is still to be picked."""

from collections import namedtuple

from .holding import still_held

# A refill with units to pick; its wave and its batch are None where an earlier run has the sheet.
Left = namedtuple('Left', 'refill article units wave batch')


def cancelled(day):
    """The names of the waves that were cancelled."""
    return {entry.command[1] for entry in day.entries if entry.reply == ['cancelled']}


def _told_later(day, refill):
    """The units that were told as picked or missing at a refill's place after it."""
    key = [refill.wave, refill.order, refill.location]
    told = [entry for entry in day.entries[refill.entry + 1:] if entry.command[0] in ('pick', 'missing')]
    return sum(int(entry.command[4]) for entry in told if entry.command[1:4] == key and entry.reply[0] != 'refused')


def _held(day):
    """The units that waves with a sheet still hold, by wave, order and location."""
    return {(wave.name, *key): units for wave in day.waves
            for key, units in still_held(day, wave, wave.batches).items()}


def carts_of(day):
    """The wave and the batch of each order of a wave with a sheet."""
    return {(wave.name, order): (wave, batch) for wave in day.waves for batch in wave.batches for order in batch.orders}


def left_refills(day):
    """The refills of waves that weren't cancelled of which units are still to be picked, in the order of the
    locations."""
    given_up, articles, held = cancelled(day), {row.location: row.article for row in day.rows}, _held(day)
    carts, found = carts_of(day), []
    for refill in reversed(day.refills):
        key = (refill.wave, refill.order, refill.location)
        wave, batch = carts.get(key[:2], (None, None))
        units = min(refill.quantity, held.get(key, 0) if wave else refill.quantity - _told_later(day, refill))
        held[key] = held.get(key, 0) - units
        if units > 0 and refill.wave not in given_up:
            found.append(Left(refill, articles.get(refill.location, ''), units, wave, batch))
    return sorted(found, key=lambda left: (by_location(left.refill.location), left.refill.entry))


def by_location(location):
    """A location as something to sort by: its aisle, its slot, its side."""
    aisle, slot, side = location.split('-')
    return int(aisle), int(slot), side


def missing(day):
    """What was told missing, by wave, order and location: for each time the units, and where how many are held in
    their stead, nowhere where they are lost."""
    steads, found = {}, {}
    for refill in day.refills:
        steads.setdefault(refill.entry, []).append((refill.location, refill.quantity))
    for entry in day.entries:
        if entry.command[0] == 'missing' and entry.reply[0] != 'refused':
            told = (int(entry.command[4]), entry.reply[0] == 'lost', steads.get(entry.number, ()))
            found.setdefault(tuple(entry.command[1:4]), []).append(told)
    return found


def remark(found, key, known=()):
    """What is to be said of a pick, of what is found missing at its place and then at the places in its stead."""
    lines = []
    for units, is_lost, places in found.get(key, ()):
        found_there = ' and '.join('%d at %s' % (many, place) for place, many in places)
        stead = 'none in its stead' if is_lost else 'in its stead %s' % found_there
        lines.append('%s: %d missing, %s' % (key[2], units, stead if is_lost or places else 'held elsewhere'))
        for place, _ in places:
            lines += remark(found, (*key[:2], place), (*known, key[2])) if place not in (*known, key[2]) else []
    return list(dict.fromkeys(lines))
