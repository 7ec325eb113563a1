"""Numbers as sheets show them: one way to set thousands apart, one for hundredths, and lengths with their unit."""

THIN = '\u202f'  # a narrow blank at which no line breaks

# How many of a unit make a metre.
OF_METRE = {'mm': 1000, 'cm': 100, 'dm': 10, 'm': 1}


def thousands(value):
    """A whole number with its thousands set apart."""
    return '{:,}'.format(value).replace(',', THIN)


def hundredths(value):
    """A number of hundredths as a decimal."""
    return '{}.{:02}'.format(thousands(value // 100), value % 100)


def tenths(part, whole):
    """A part of a whole to one tenth, rounded."""
    tens = round(10 * part / whole)
    return '{}.{}'.format(thousands(tens // 10), tens % 10)


def percent(part, whole):
    return '%.1f%s%%' % (100 * part / whole, THIN) if whole else ''


def length(value, unit):
    """A length with its unit, where one is told."""
    return '%s\u00a0%s' % (thousands(value), unit) if unit else thousands(value)


def length_of_line(total, lines, unit):
    """How far a line is walked for, in metres where the unit is one that has them: its name and its figure."""
    if unit in OF_METRE:
        return 'metres a line', tenths(total, OF_METRE[unit] * lines)
    return 'walk a line', ' '.join(filter(None, (tenths(total, lines), unit)))


def counted(count, name):
    """A number of things with their name."""
    return '%s %s%s' % (thousands(count), name, '' if count == 1 else 's')
