"""A validator of JSON Schema, of the keywords that docs/day.schema.json uses and of no others."""

import re

TYPES = {'object': dict, 'array': list, 'string': str, 'boolean': bool, 'null': type(None)}
SAID = ('$schema', '$defs', 'title', 'description')


def is_of(value, name):
    """Whether a value is of a type. A boolean is no number."""
    return type(value) is int if name == 'integer' else isinstance(value, TYPES[name])


class Schema:
    def __init__(self, whole):
        self.whole = whole

    def faults(self, value, schema=None, path='$'):
        """What is wrong with a value, a text for each fault."""
        schema = self.whole if schema is None else schema
        for word, told in schema.items():
            if word not in SAID:
                yield from getattr(self, 'of_' + word.strip('$'))(value, told, path)

    def of_ref(self, value, told, path):
        yield from self.faults(value, self.whole['$defs'][told.rpartition('/')[2]], path)

    def of_type(self, value, told, path):
        if not any(is_of(value, name) for name in ([told] if isinstance(told, str) else told)):
            yield '%s is no %s: %r' % (path, told, value)

    def of_const(self, value, told, path):
        yield from self.of_enum(value, [told], path)

    def of_enum(self, value, told, path):
        if value not in told:
            yield '%s is none of %s: %r' % (path, told, value)

    def of_pattern(self, value, told, path):
        if isinstance(value, str) and not re.search(told, value):
            yield '%s is not of the form %s: %r' % (path, told, value)

    def of_minimum(self, value, told, path):
        if is_of(value, 'integer') and value < told:
            yield '%s is below %s: %r' % (path, told, value)

    def of_maximum(self, value, told, path):
        if is_of(value, 'integer') and value > told:
            yield '%s is above %s: %r' % (path, told, value)

    def of_minItems(self, value, told, path):
        if len(value) < told:
            yield '%s has fewer than %s' % (path, told)

    def of_maxItems(self, value, told, path):
        if len(value) > told:
            yield '%s has more than %s' % (path, told)

    def of_required(self, value, told, path):
        for name in told:
            if name not in value:
                yield '%s has no %s' % (path, name)

    def of_properties(self, value, told, path):
        for name in value:
            yield from self.faults(value[name], told[name], '%s.%s' % (path, name)) if name in told else ()

    def of_items(self, value, told, path):
        for place, each in enumerate(value):
            yield from self.faults(each, told, '%s[%d]' % (path, place))

    def of_anyOf(self, value, told, path):
        if all(any(self.faults(value, each, path)) for each in told):
            yield '%s is of no form that there is: %r' % (path, value)
