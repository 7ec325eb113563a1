"""Outputs of plans with --rules 1, --pickers 2 and --root 1, worked out by hand: three orders at (1,4), (2,4) and
(3,1), and a fourth at (1,1).

They are those of a budget of 0, which pays for no duals of a node's own and for no round of a bracket: its sides are
the share duals and a first batching.
"""

LAYOUT = '{"version":1,"aisles":3,"slots":4,"pitch":2,"clearance":1,"spacing":5,"depot":1}'
CLOSING = ['stock', '1-1-L D 5 5 0', '1-4-L A 5 4 1', '2-4-L B 5 4 1', '3-1-L C 5 4 1', 'end stock', 'end', '']
ROUND = 'tour 1-0 2-0 2-1 2-2 2-3 2-4 2-5 1-5 1-4 1-3 1-2 1-1 1-0'
FIRST = 'tour 1-0 1-1 1-2 1-3 1-4 1-3 1-2 1-1 1-0'
SECOND = 'tour 1-0 2-0 2-1 2-2 2-3 2-4 2-3 2-2 2-1 2-0 1-0'
THIRD = 'tour 1-0 2-0 3-0 3-1 3-0 2-0 1-0'

# Carts of two orders: a wave of two batches. Past the first, return goes 14 into each aisle and out again, and 5 there
# and 5 back. The share duals are 420, 720 and 660 sixtieths, half of each order's own tour. The linear bound is 48.
PAIR = [
    'journal', '0 1 submit W1 O1 O2 O3 -> submitted', '1 1 release W1 -> released', 'end journal',
    'wave W1 entry 1 orders 3 capacity 2 cost 48 bound 30 open',
    'batch 1 length 26 orders O1 O2', ROUND, 'pick 1-4-L A 1 O1', 'pick 2-4-L B 1 O2',
    'rules s-shape 26 0 return 38 12 largest-gap 26 0',
    'batch 2 length 22 orders O3', THIRD, 'pick 3-1-L C 1 O3', 'rules s-shape 22 0 return 22 0 largest-gap 22 0',
    'certificate {"capacity":2,"nodes":[{"kind":"kept"}],"orders":[[[1,4]],[[2,4]],[[3,1]]],"version":1}',
    'root 1800 2880 over 60 open', 'end wave',
    'refills', 'end refills',
    'crew longest 26 least 26', 'picker 1 load 26 batches W1/1', 'picker 2 load 22 batches W1/2', 'end crew', *CLOSING]

# Carts of one order: a wave of three batches, and one of a fourth, which is cancelled later. 24 and 22 are dealt first,
# then 14 to the 22 and 2 to the 24.
ALONE = [
    'journal', '0 1 submit W1 O1 O2 O3 -> submitted', '1 1 release W1 -> released', '2 1 submit W2 O4 -> submitted',
    '3 1 release W2 -> released',
    '4 1 cancel W2 -> cancelled', 'end journal',
    'wave W1 entry 1 orders 3 capacity 1 cost 60 bound 60 proven',
    'batch 1 length 14 orders O1', FIRST, 'pick 1-4-L A 1 O1', 'rules s-shape 14 0 return 14 0 largest-gap 14 0',
    'batch 2 length 24 orders O2', SECOND, 'pick 2-4-L B 1 O2', 'rules s-shape 24 0 return 24 0 largest-gap 24 0',
    'batch 3 length 22 orders O3', THIRD, 'pick 3-1-L C 1 O3', 'rules s-shape 22 0 return 22 0 largest-gap 22 0',
    'certificate {"capacity":1,"nodes":[{"kind":"kept"}],"orders":[[[1,4]],[[2,4]],[[3,1]]],"version":1}',
    'root 3600 3600 over 60 narrow', 'end wave',
    'wave W2 entry 3 orders 1 capacity 1 cost 2 bound 2 proven cancelled later',
    'batch 1 length 2 orders O4', 'tour 1-0 1-1 1-0', 'pick 1-1-L D 1 O4',
    'rules s-shape 2 0 return 2 0 largest-gap 2 0',
    'certificate {"capacity":1,"nodes":[{"kind":"kept"}],"orders":[[[1,1]]],"version":1}',
    'root 120 120 over 60 narrow',
    'end wave',
    'refills', 'end refills',
    'crew longest 36 least 31', 'picker 1 load 36 batches W1/1 W1/3', 'picker 2 load 26 batches W1/2 W2/1', 'end crew',
    *CLOSING]

# No wave goes out, and there is one picker.
NOBODY = ['journal', 'end journal', 'refills', 'end refills', 'crew longest 0 least 0', 'picker 1 load 0 batches',
          'end crew',
          'stock', '1-1-L D 5 5 0', '1-4-L A 5 5 0', '2-4-L B 5 5 0', '3-1-L C 5 5 0', 'end stock', 'end', '']

# Units are missing and held elsewhere: of W1 three, of which one is picked since and one is missing again, and one is
# lost; of W2, which is cancelled later.
# W3 is short at first and goes out later; W4 stays short.
MISSING = [
    'journal',
    '0 1 submit W1 O1 O2 -> submitted',
    '1 1 submit W2 O3 -> submitted',
    '2 1 release W1 -> released',
    '3 1 release W2 -> released',
    '4 1 missing W1 O1 1-1-L 3 -> refilled 3',
    '5 1 pick W1 O1 2-1-L 1 -> picked',
    '6 1 missing W2 O3 2-2-L 1 -> refilled 1',
    '7 1 cancel W2 -> cancelled',
    '8 1 missing W1 O2 1-2-L 1 -> lost B 1',
    '9 1 submit W3 O3 -> submitted',
    '10 1 release W3 -> refused short B 4 2',
    '11 1 receive 1-2-L B 6 -> received',
    '12 1 release W3 -> released',
    '13 1 missing W1 O1 3-1-L 1 -> refilled 1',
    '14 1 missing W1 O2 1-2-L 9 -> refused too-much 1',
    '15 2 submit W4 O4 -> submitted',
    '16 2 release W4 -> refused short C 9 0',
    'end journal',
    'wave W1 entry 2 orders 2 capacity 2 cost 4 bound 4 proven',
    'batch 1 length 4 orders O1 O2',
    'tour 1-0 1-1 1-2 1-1 1-0',
    'pick 1-1-L A 3 O1',
    'pick 1-2-L B 2 O2',
    'certificate {"capacity":2,"nodes":[{"kind":"kept"}],"orders":[[[1,1]],[[1,2]]],"version":1}',
    'end wave',
    'wave W2 entry 3 orders 1 capacity 2 cost 14 bound 14 proven cancelled later',
    'batch 1 length 14 orders O3',
    'tour 1-0 2-0 2-1 2-2 2-1 2-0 1-0',
    'pick 2-2-L B 4 O3',
    'certificate {"capacity":2,"nodes":[{"kind":"kept"}],"orders":[[[2,2]]],"version":1}',
    'end wave',
    'wave W3 entry 12 orders 1 capacity 2 cost 4 bound 4 proven',
    'batch 1 length 4 orders O3',
    'tour 1-0 1-1 1-2 1-1 1-0',
    'pick 1-2-L B 4 O3',
    'certificate {"capacity":2,"nodes":[{"kind":"kept"}],"orders":[[[1,2]]],"version":1}',
    'end wave',
    'refills',
    'refill 4 W1 O1 2-1-L 1',
    'refill 4 W1 O1 3-1-L 2',
    'refill 6 W2 O3 3-2-L 1',
    'refill 13 W1 O1 3-3-L 1',
    'end refills',
    'stock',
    '1-1-L A 0 0 0',
    '1-2-L B 6 1 5',
    '2-1-L A 0 0 0',
    '2-2-L B 3 3 0',
    '3-1-L A 3 2 1',
    '3-2-L B 1 1 0',
    '3-3-L A 3 2 1',
    'end stock',
    'end',
    '']


def without(lines, *words):
    """The lines that begin with none of some words."""
    return [line for line in lines if not line.startswith(words)]


def plain(lines):
    """The lines as a plan prints them without these options."""
    return without(lines, 'rules ', 'crew ', 'picker ', 'end crew', 'root ')
