"""The section of a crew: batches dealt to pickers, as docs/CREWS.md tells it."""

import re

NUMBER = '(0|[1-9][0-9]*)'


def _heading(lines):
    found = re.fullmatch('crew longest %s least %s' % (NUMBER, NUMBER), lines.next())
    lines.test(found, 'no heading of a crew')
    return int(found[1]), int(found[2])


def _picker(lines, number, lengths):
    """The load of a picker and the places of its batches in the output."""
    found = re.fullmatch(r'picker %d load %s batches((?: \S+)*)' % (number, NUMBER), lines.next())
    lines.test(found, 'no line of picker %d' % number)
    names = found[2].split()
    lines.test(all(name in lengths for name in names), 'picker %d has a batch that there is none of' % number)
    places = [lengths[name][0] for name in names]
    lines.test(places == sorted(places), 'the batches of picker %d are not in the order of the output' % number)
    load = sum(lengths[name][1] for name in names)
    lines.test(int(found[1]) == load, 'the load of picker %d is %s where its batches come to %d'
               % (number, found[1], load))
    return load, places


def judge_crew(lines, batches, pickers):
    """Judges the section of so many pickers, over all batches of the output: a wave, a number and a length of each."""
    longest, least = _heading(lines)
    lengths = {'%s/%d' % (wave, number): (place, length) for place, (wave, number, length) in enumerate(batches)}
    crew = [_picker(lines, number, lengths) for number in range(1, pickers + 1)]
    lines.is_due('end crew')
    dealt = sorted(place for _, places in crew for place in places)
    lines.test(dealt == list(range(len(batches))), 'the batches are not each dealt to one picker')
    firsts = [min(places, default=len(batches)) for _, places in crew]
    lines.test(firsts == sorted(firsts), 'the pickers are not numbered by the places of their first batches')
    _judge_numbers(lines, (longest, least), [load for load, _ in crew], [length for _, _, length in batches])
    _judge_settled(lines, longest, [(load, [batches[place][2] for place in places]) for load, places in crew])


def _judge_numbers(lines, told, loads, lengths):
    """The two numbers of the heading: the longest load, and what no crew's longest load is below."""
    longest, least = told
    lines.test(longest == max(loads), 'the longest load is %d where %d is printed' % (max(loads), longest))
    right = max(max(lengths, default=0), -(-sum(lengths) // len(loads)))
    lines.test(least == right, 'the least longest load is %d where %d is printed' % (right, least))


def _judge_settled(lines, longest, crew):
    """No length of a picker with the longest load would come with another picker's load to less than that."""
    for number, (load, lengths) in enumerate(crew):
        others = [other for place, (other, _) in enumerate(crew) if place != number]
        for length in lengths if load == longest else ():
            lines.test(all(other + length >= longest for other in others),
                       'the crew is not settled: with a batch of %d of picker %d another load is below the longest'
                       % (length, number + 1))
