"""The layout of a warehouse, of either version, as a drawing needs it."""

from opinion import layouts
from opinion.refusals import Refusal

from .trouble import Trouble, read_bytes


class Layout(layouts.Layout):
    """A layout that also tells how far its aisles lie from the first."""

    def across(self, aisle):
        return sum(self.spacings[:aisle - 1])


def read_layout(path):
    """The layout that a file says."""
    return layout_of(read_bytes(path), path)


def layout_of(data, path):
    """The layout that the bytes of a file say."""
    try:
        return Layout(*layouts.read_layout(data))
    except Refusal as why:
        raise Trouble('%s is no layout file (%s); docs/FORMATS.md says what stands in one' % (path, why.line)) from None


def test_fits(layout, day):
    """Fails where a tour of the day leaves the layout: the layout is then that of another day."""
    for wave in day.waves:
        for batch in wave.batches:
            for aisle, slot in batch.tour:
                if aisle > layout.aisles or slot > layout.slots + 1:
                    raise Trouble('the tour of %s, batch %d, goes to %d-%d, which the layout has not: is it the '
                                  'layout of this day?'
                                  % (wave.name, batch.number, aisle, slot))
            if batch.tour and batch.tour[0] != layout.depot_point():
                raise Trouble('the tour of %s, batch %d, does not begin at the depot of the layout: is it the layout '
                              'of this day?'
                              % (wave.name, batch.number))
