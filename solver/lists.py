"""Makes block lists: a writer of the format, sheets to write, houses like real ones, and lists damaged on purpose.

Everything that is random takes a `random.Random`, so that a seed makes the same list again.
"""

import operator
import random

BLOCK = 512
CHECK = 508
FULL = 126  # records in a full block
MOST_INPUT = 65_536  # bytes the program takes
NO_POINTS = 65_535  # stands in a table for two that don't fit
MOST_POINTS = NO_POINTS - 1


# ---- The format ----

def check(block):
    """The check of a block: each byte before it times its place counted from 1, summed."""
    return sum(map(operator.mul, range(1, CHECK + 1), block))


def seal(data, block):
    """Makes the check of one block of `data` (a bytearray) right."""
    at = block * BLOCK
    data[at + CHECK:at + BLOCK] = check(data[at:at + BLOCK]).to_bytes(4, "little")


def written(n, pairs):
    """The block list of n candidates and a dict from (u, v), u < v, of the pairs that fit to their points."""
    records = [bytes((u, v)) + pairs[u, v].to_bytes(2, "little") for u, v in sorted(pairs, key=lambda p: (p[1], p[0]))]
    blocks = max(1, -(-len(records) // FULL))
    data = bytearray(blocks * BLOCK)
    for block in range(blocks):
        own = records[block * FULL:(block + 1) * FULL]
        at = block * BLOCK
        data[at:at + 4] = block.to_bytes(2, "little") + bytes((len(own), n - 1))
        data[at + 4:at + 4 + 4 * len(own)] = b"".join(own)
        seal(data, block)
    return bytes(data)


def read(data):
    """n and the pairs of a block list without fault."""
    pairs = {}
    for at in range(0, len(data), BLOCK):
        for record in range(at + 4, at + 4 + 4 * data[at + 2], 4):
            u, v, low, high = data[record:record + 4]
            pairs[u, v] = low | high << 8
    return data[3] + 1, pairs


# ---- Sheets ----

def table_pairs(n, entries):
    """The pairs of a table: the entry for u < v stands at v(v - 1)/2 + u."""
    found = {(u, v): entries[v * (v - 1) // 2 + u] for v in range(n) for u in range(v)}
    return {pair: points for pair, points in found.items() if points != NO_POINTS}


def evidence_points(meters, flats, a, b):
    """The points of candidates a and b, or None if they don't fit."""
    (meter_a, flat_a), (meter_b, flat_b) = a, b
    if meter_a == meter_b or flat_a == flat_b:
        return None
    (serial_a, collector_a), (serial_b, collector_b) = meters[meter_a], meters[meter_b]
    (riser_a, floor_a), (riser_b, floor_b) = flats[flat_a], flats[flat_b]
    one_collector, one_riser = collector_a == collector_b, riser_a == riser_b
    points = 0
    if one_collector and one_riser:
        points = 40
    elif not one_collector and not one_riser:
        points = 15
    if floor_a == floor_b:
        return points + 4
    return points + (11 if (serial_a > serial_b) == (floor_a > floor_b) else 0)


def evidence_pairs(meters, flats, candidates):
    """The pairs that fit, from meters (serial, collector), flats (riser, floor) and candidates (meter, flat)."""
    pairs = {}
    for v, b in enumerate(candidates):
        for u, a in enumerate(candidates[:v]):
            points = evidence_points(meters, flats, a, b)
            if points is not None:
                pairs[u, v] = points
    return pairs


def random_pairs(rng, n, density, points):
    """Each pair fits with the chance `density` and earns `points(rng)`."""
    return {(u, v): points(rng) for v in range(n) for u in range(v) if rng.random() < density}


def sparse_pairs(rng, n, count, points):
    """About `count` pairs, drawn one by one; for many candidates of which few fit."""
    drawn = (sorted(rng.sample(range(n), 2)) for _ in range(count))
    return {(u, v): points(rng) for u, v in drawn}


# ---- Houses ----

def house(rng, n, share=3.0):
    """Meters, flats and n candidates as in a house refitted riser by riser, about `share` candidates for each meter.

    An installer climbs a riser and takes the meters from the box in order, with a few slips; a collector hears one riser, and
    now and then a meter of another. Each meter has its true flat and one to four that it could be confused with. A very small
    house may have fewer candidates than n.
    """
    risers = rng.randint(2, 4)
    floors = max(2, -(-round(n / share) // risers))
    flats = [(10 + riser, floor) for riser in range(risers) for floor in range(floors)]
    hung = climbed(rng, risers, floors)
    meters = fitted(rng, hung, floors)
    near = [[other for other in range(len(flats)) if confusable(flats[flat], flats[other])] for flat in hung]
    booked = [[flat, rng.choice(wrong)] for flat, wrong in zip(hung, near)]
    open_wrongs = [(meter, flat) for meter, wrong in enumerate(near) for flat in wrong if flat not in booked[meter]]
    rng.shuffle(open_wrongs)
    for meter, flat in open_wrongs:
        if sum(map(len, booked)) < n and len(booked[meter]) < 5:
            booked[meter].append(flat)
    return meters, flats, [(meter, flat) for meter, own in enumerate(booked) for flat in sorted(own)][:n]


def climbed(rng, risers, floors):
    """The flat of each meter in the order of their serials: riser by riser, upwards, some neighbours swapped."""
    hung = []
    for riser in range(risers):
        flats = [riser * floors + floor for floor in range(floors)]
        for floor in range(1, floors):
            if rng.random() < 0.15:
                flats[floor - 1], flats[floor] = flats[floor], flats[floor - 1]
        hung += flats
    return hung


def fitted(rng, hung, floors):
    """Meters with rising serials; the collector is that of the riser, but for some that another one hears."""
    risers = len(hung) // floors
    serial = rng.randint(1_000, 9_000_000)
    meters = []
    for flat in hung:
        riser = flat // floors if rng.random() < 0.9 else rng.randrange(risers)
        meters.append((serial, 500 + riser))
        serial += rng.choice((1, 1, 1, 2, 7))
    return meters


def confusable(flat, other):
    """Whether a meter of one flat might be booked on the other: near on the same riser, or at most a floor off on another."""
    apart = abs(flat[1] - other[1])
    return flat != other and apart <= (3 if flat[0] == other[0] else 1)


# ---- Damage ----
#
# An aimed damage takes a random.Random and a bytearray that holds a list without fault, alters it so that one question is
# answered no, and answers that fault, or None if this list can't be damaged so. Checks are made right again where the
# question is not about them.

LAYERS = {10: "program", 12: "block", 13: "block", 15: "block", 16: "block"}


def refusal(fault):
    """The line that the program prints for a fault (number, block, record), with None for an absent place."""
    number, *places = fault
    block, record = ("-" if place is None else place for place in places)
    return f"refused {number} layer {LAYERS.get(number, 'list')} block {block} record {record}\n"


def asked(fault):
    """A key by which faults sort in the order of the questions."""
    number, block, record = fault
    stage = 0 if number < 12 else 1 if number < 17 else 2
    return stage, block or 0, record or 0, number


def blocks_of(data):
    return len(data) // BLOCK


def some_block(rng, data):
    """A block by chance, the first and the last more often than others."""
    last = blocks_of(data) - 1
    return rng.choice((0, last, rng.randint(0, last)))


def some_record(rng, data, least=0):
    """The block, the record in it and the byte of a record by chance, `least` or later in the whole list; or None."""
    count = sum(data[at + 2] for at in range(0, len(data), BLOCK))
    if count <= least:
        return None
    place = rng.choice((least, count - 1, rng.randrange(least, count), min(count - 1, max(least, FULL))))
    block, record = divmod(place, FULL)
    return block, record, block * BLOCK + 4 + 4 * record


def change(rng, data, at):
    """Another value for one byte."""
    data[at] = (data[at] + rng.randint(1, 255)) % 256


def too_long(rng, data):
    data += bytes(MOST_INPUT + rng.choice((1, 1, 511, 512, 5_000, 80_000)) - len(data))
    return 10, None, None


def not_whole(rng, data):
    if rng.random() < 0.5 and len(data) < MOST_INPUT:
        data += rng.randbytes(rng.choice((1, 2, 511, rng.randint(1, 511))))
    elif rng.random() < 0.1:
        data.clear()
    else:
        del data[len(data) - rng.choice((1, 2, 511, rng.randint(1, 511))):]
    return 11, None, None


def check_wrong(rng, data):
    block = some_block(rng, data)
    at = block * BLOCK
    change(rng, data, at + rng.choice((0, 2, 3, CHECK - 1, CHECK, BLOCK - 1, rng.randrange(BLOCK))))
    return 12, block, None


def place_wrong(rng, data):
    block = some_block(rng, data)
    change(rng, data, block * BLOCK + rng.randint(0, 1))
    seal(data, block)
    return 13, block, None


def size_differs(rng, data):
    if blocks_of(data) < 2:
        return None
    block = rng.choice((1, blocks_of(data) - 1, rng.randint(1, blocks_of(data) - 1)))
    change(rng, data, block * BLOCK + 3)
    seal(data, block)
    return 14, block, None


def count_wrong(rng, data):
    block = some_block(rng, data)
    blocks = blocks_of(data)
    wrong = [*range(FULL + 1, 256), 127, 255]
    if block + 1 < blocks:
        wrong += [*range(FULL), 125]
    elif blocks > 1:
        wrong += [0] * 50
    data[block * BLOCK + 2] = rng.choice(wrong)
    seal(data, block)
    return 15, block, None


def rest_used(rng, data):
    block = blocks_of(data) - 1
    first = block * BLOCK + 4 + 4 * data[block * BLOCK + 2]
    last = block * BLOCK + CHECK - 1
    if first > last:
        return None
    change(rng, data, rng.choice((first, last, rng.randint(first, last))))
    seal(data, block)
    return 16, block, None


def pair_impossible(rng, data):
    found = some_record(rng, data)
    if not found:
        return None
    block, record, at = found
    u, v, n = data[at], data[at + 1], data[3] + 1
    wrong = [(v, u), (v, v), (u, u), (u, rng.randint(0, u)), (rng.randint(v, 255), v)]
    if n < 256:
        wrong += [(u, n), (u, 255), (n - 1, n), (u, rng.randint(n, 255))]
    data[at:at + 2] = bytes(rng.choice(wrong))
    seal(data, block)
    return 17, block, record


def pair_not_after(rng, data):
    found = some_record(rng, data, 1)
    if not found:
        return None
    block, record, at = found
    before = at - 4 if record else at - BLOCK + 4 * (FULL - 1)
    u, v = data[before:before + 2]
    not_after = [(u, v), (0, v), (0, 1)] + [(u - 1, v)] * (u > 0) + [(v - 2, v - 1)] * (v > 1)
    data[at:at + 2] = bytes(rng.choice(not_after))
    seal(data, block)
    return 18, block, record


def points_too_high(rng, data):
    found = some_record(rng, data)
    if not found:
        return None
    block, record, at = found
    data[at + 2:at + 4] = b"\xff\xff"
    seal(data, block)
    return 19, block, record


AIMED = {10: too_long, 11: not_whole, 12: check_wrong, 13: place_wrong, 14: size_differs, 15: count_wrong, 16: rest_used,
         17: pair_impossible, 18: pair_not_after, 19: points_too_high}


def damaged(rng, data, numbers):
    """The list with damage for each of the numbers, and the line it must be refused with, or None where none could be made.

    Later questions are damaged first: what makes a check right again must come before what makes it wrong. Half of the time
    the damages draw alike, and so mostly hit the same block and record.
    """
    data = bytearray(data)
    alike = rng.random() if rng.random() < 0.5 else None
    faults = [AIMED[number](rng if alike is None else random.Random(alike), data)
              for number in sorted(numbers, reverse=True)]
    faults = [fault for fault in faults if fault]
    return bytes(data), refusal(min(faults, key=asked)) if faults else None


def scratched(rng, data):
    """Some bytes altered by chance, with the checks made right again half of the time."""
    data = bytearray(data)
    sealed = rng.random() < 0.5
    for _ in range(rng.choice((1, 1, 1, 2, 3, 10))):
        block = some_block(rng, data)
        at = rng.choice((rng.randrange(4), rng.randrange(4, 12), rng.randrange(BLOCK)))
        change(rng, data, block * BLOCK + at)
        if sealed:
            seal(data, block)
    return bytes(data)


def sealed_noise(rng, blocks):
    """Random blocks whose checks are right, and often the places and sizes too."""
    data = bytearray(rng.randbytes(blocks * BLOCK))
    placed, sized, filled = (rng.random() < 0.8 for _ in range(3))
    for block in range(blocks):
        at = block * BLOCK
        if placed:
            data[at:at + 2] = block.to_bytes(2, "little")
        if sized:
            data[at + 3] = data[3]
        if filled:
            data[at + 2] = FULL
        seal(data, block)
    return bytes(data)
