"""Which carts of a day have the same page as in an earlier output, and which of that output's pages are void by now."""

from collections import namedtuple

from .since import missing

Unchanged = namedtuple('Unchanged', 'path same void')


def _page(day, wave, batch, found):
    """All that stands on the page of a cart and may change."""
    told = [(key, tuple(some)) for key, some in found.items() if key[0] == wave.name and key[1] in batch.orders]
    picker = day.picker_of().get('%s/%d' % (wave.name, batch.number))
    facts = (wave.units, len(wave.batches), picker, told)
    return batch.length, batch.orders, batch.tour, batch.picks, batch.rules, facts


def _pages(day):
    found = missing(day)
    return {(wave.name, batch.number): _page(day, wave, batch, found) for wave in day.waves if not wave.cancelled
            for batch in wave.batches}


def unchanged(path, earlier, day):
    """The carts of a day whose pages an earlier output has, and the names of that output's carts that are no longer
    there, or are others now. Carts of an earlier run over the same store hold as long as their waves do."""
    old, new = _pages(earlier), _pages(day)
    held = {name for name, is_cancelled in day.earlier().items() if not is_cancelled}
    void = ['%s/%d' % key for key in old if old[key] != new.get(key) and key[0] not in held]
    return Unchanged(path, {key for key in new if old.get(key) == new[key]}, void)
