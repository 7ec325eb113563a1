"""A decoder of Code 128, of its code set B, for bar codes that stand in a page as SVG. It is written from the table of
the standard (ISO/IEC 15417)."""

import re
import xml.etree.ElementTree as ElementTree

# Of each value from 0 to 105 its modules, a bar as 1.
MODULES = '''
11011001100 11001101100 11001100110 10010011000 10010001100 10001001100 10011001000 10011000100 10001100100
11001001000 11001000100 11000100100 10110011100 10011011100 10011001110 10111001100 10011101100 10011100110
11001110010 11001011100 11001001110 11011100100 11001110100 11101101110 11101001100 11100101100 11100100110
11101100100 11100110100 11100110010 11011011000 11011000110 11000110110 10100011000 10001011000 10001000110
10110001000 10001101000 10001100010 11010001000 11000101000 11000100010 10110111000 10110001110 10001101110
10111011000 10111000110 10001110110 11101110110 11010001110 11000101110 11011101000 11011100010 11011101110
11101011000 11101000110 11100010110 11101101000 11101100010 11100011010 11101111010 11001000010 11110001010
10100110000 10100001100 10010110000 10010000110 10000101100 10000100110 10110010000 10110000100 10011010000
10011000010 10000110100 10000110010 11000010010 11001010000 11110111010 11000010100 10001111010 10100111100
10010111100 10010011110 10111100100 10011110100 10011110010 11110100100 11110010100 11110010010 11011011110
11011110110 11110110110 10101111000 10100011110 10001011110 10111101000 10111100010 11110101000 11110100010
10111011110 10111101110 11101011110 11110101110 11010000100 11010010000 11010011100
'''.split()
START, STOP, QUIET = 104, '1100011101011', 10


def modules_of(text):
    """The modules of a code that is drawn as one line whose dashes are its bars, the white beside it included."""
    root = ElementTree.fromstring(text)
    path = root.find('path')
    left, right = re.fullmatch(r'M(\d+) \d+H(\d+)', path.get('d')).groups()
    found = ''.join(sign * int(wide) for wide, sign in zip(path.get('stroke-dasharray').split(), '10' * 500))
    assert len(found) == int(right) - int(left), 'the line is as long as its dashes'
    return '0' * int(left) + found + '0' * (int(root.get('width')) - int(right))


def decoded(modules):
    """The text of a code. Fails where it is none."""
    bars = modules.strip('0')
    quiet = [len(modules) - len(modules.lstrip('0')), len(modules) - len(modules.rstrip('0'))]
    assert min(quiet) >= QUIET and bars.endswith(STOP), 'white at both ends, and the stop'
    body = bars[:-len(STOP)]
    start, *values, check = [MODULES.index(body[place:place + 11]) for place in range(0, len(body), 11)]
    due = (start + sum(place * value for place, value in enumerate(values, 1))) % 103
    assert (start, check) == (START, due), 'the start and the check'
    return ''.join(chr(32 + value) for value in values)


def picture(modules, scale=3, high=40):
    """A code as a picture of grey dots (PGM)."""
    line = ''.join(('\0' if module == '1' else '\xff') * scale for module in modules).encode('latin-1')
    return b'P5 %d %d 255\n' % (len(line), high) + line * high
