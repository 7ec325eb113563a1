"""Bar codes of names and locations, as SVG: Code 128, of its code set B alone, which has every sign that a name may
have."""

from html import escape

from .trouble import Trouble

# Of each value from 0 to 105 the widths of its three bars and three spaces, in turn; the stop sign has one bar more.
WIDTHS = '''
212222 222122 222221 121223 121322 131222 122213 122312 132212 221213 221312 231212 112232 122132 122231 113222 123122
123221 223211 221132 221231 213212 223112 312131 311222 321122 321221 312212 322112 322211 212123 212321 232121 111323
131123 131321 112313 132113 132311 211313 231113 231311 112133 112331 132131 113123 113321 133121 313121 211331 231131
213113 213311 213131 311123 311321 331121 312113 312311 332111 314111 221411 431111 111224 111422 121124 121421 141122
141221 112214 112412 122114 122411 142112 142211 241211 221114 413111 241112 134111 111242 121142 121241 114212 124112
124211 411212 421112 421211 212141 214121 412121 111143 111341 131141 114113 114311 411113 411311 113141 114131 311141
411131 211412 211214 211232
'''.split()
START, STOP = 104, '2331112'
# White at both ends, and the height, in modules: a module is a pixel wide, a quarter of a millimetre on paper.
QUIET, HIGH = 10, 32


def widths_of(text):
    """The widths of bars and spaces in turn: the start, a value for each sign, the check, the stop."""
    if not all(' ' <= sign <= '~' for sign in text):
        raise Trouble('%s has a sign that no name has, so that it has no bar code: leave --codes or --names out'
                      % ascii(text))
    values = [START, *(ord(sign) - 32 for sign in text)]
    check = (START + sum(place * value for place, value in enumerate(values))) % 103
    return ''.join(WIDTHS[value] for value in [*values, check]) + STOP


def wide_of(text):
    """How many modules wide a code is, the white at its ends included."""
    return 11 * (len(text) + 3) + 2 + 2 * QUIET


def bar_code(text):
    """The code of a text: one line as high as its bars, whose dashes are the bars."""
    wide, widths = wide_of(text), widths_of(text)
    size = 'width="%d" height="%d" viewBox="0 0 %d %d"' % (wide, HIGH, wide, HIGH)
    line = '<path d="M%d %dH%d" stroke-dasharray="%s"/>' % (QUIET, HIGH // 2, wide - QUIET, ' '.join(widths))
    return '<svg class="code" role="img" aria-label="%s" %s>%s</svg>' % (escape(text), size, line)
