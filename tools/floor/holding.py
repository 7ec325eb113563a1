"""What a wave still holds at the end of a day, by what is printed of it."""


def still_held(day, wave, batches):
    """The units that some batches of a wave still hold, by order and location, in the order of the sheets and then of
    the refills."""
    orders, held = {order for batch in batches for order in batch.orders}, {}
    for batch in batches:
        for pick in batch.picks:
            _add(held, pick.order, pick.location, pick.quantity)
    refills = {}
    for refill in day.refills:
        refills.setdefault(refill.entry, []).append(refill)
    for entry in day.entries[wave.entry:]:
        is_told = entry.command[0] in ('pick', 'missing') and entry.reply[0] != 'refused'
        if is_told and entry.command[1] == wave.name and entry.command[2] in orders:
            _add(held, entry.command[2], plain(entry.command[3]), -int(entry.command[4]))
            for refill in refills.get(entry.number, ()):
                _add(held, refill.order, refill.location, refill.quantity)
    return {key: units for key, units in held.items() if units}


def _add(held, order, location, units):
    held[order, location] = held.get((order, location), 0) + units


def plain(location):
    """A location without leading zeros, as the sheets have it."""
    aisle, slot, side = location.split('-')
    return '%d-%d-%s' % (int(aisle), int(slot), side)
