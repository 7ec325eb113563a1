"""What can be wrong with the words and files of a run, as the program is to tell it."""


class Refusal(Exception):
    """The first thing that is wrong: the status, the line that tells it, and where it stands.

    `field` is the number of the field in its record, from 1 on, or the name of a key or option; `text` is what stands
    there. Both may be None.
    """

    def __init__(self, status, line, field=None, text=None):
        super().__init__(line)
        self.status, self.line, self.field, self.text = status, line, field, text


MOST_BYTES = 16777216


def whole(name, read):
    """The bytes of a file, as `read` gives them: None where it can't be read. Fails where there are none, or too many.
    """
    data = read()
    if data is None:
        raise Refusal(3, 'read fault %s' % name)
    if len(data) > MOST_BYTES:
        raise Refusal(2, 'refused %s too-long' % name)
    return data
