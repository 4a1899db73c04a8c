"""The cards at the edges of the ranges and rules of documents 01 and 02, each with what it is.

A case more goes to the end, so that the others keep their numbers.
"""
from math import ceil

from layout import card_of, start_of
from paper import (
    ACCELERATED, AGE, BEND, BLANK, COLUMNS, LEAST_STRESS, LEAST_TRANSFER, LIFE, LINE_FEED, LOW_RELAXATION, MOIST, MOST_AGES,
    MOST_APART, MOST_CREEP, MOST_CURING_IF_MOIST, MOST_KAPPA, MOST_MOMENTS, MOST_SEGMENTS, MOST_TRANSFER, MOST_X, NORMAL, NUMBER,
    PARABOLA, POST_TENSIONED, PRETENSIONED, SEGMENT_RANGES, STRAIGHT, STRESS_RELIEVED, T, TICKS, Age, Head, Segment, card_rows,
    drop_at_jack, field_of, friction, friction_factor, friction_loss, inches, most_of, path_length, path_that_goes_on, run,
    seating_losses, stress_left, whole_creep,
)

MONTH, YEAR = 744, 8784
AGES = [Age(MONTH, 0), Age(YEAR, 0), Age(LIFE, 0)]
POST = Head(
    kind=POST_TENSIONED, steel=STRESS_RELIEVED, ultimate_strength=240000, jacking_stress=120000, deflector_loss=0, slip=0, length=102400,
    cure=ACCELERATED, concrete=NORMAL, es=28000000, eci=3500000, ec=4000000, volume_to_surface=3072,
    area=131072, inertia=1048576, eccentricity=0, steel_area=1024, own_weight_moment=0,
    end_of_curing=24, transfer=24, wobble=0, curvature=0, segments=0, ages=len(AGES),
)
PRE = POST._replace(
    kind=PRETENSIONED, steel=LOW_RELAXATION, ultimate_strength=270000, jacking_stress=189000, deflector_loss=5000,
    inertia=268435456, eccentricity=4096, own_weight_moment=1000000,
)

# More than the longest card has bytes.
MANY_SPACES = 8192

# What older wedges draw in, and a blank slip read up to document 02's W2.
OLDER_SLIP = 256

# The largest X that passed up to document 02's W3, 0.3 T.
OLDER_MOST_X = 3 * T // 10

# The most ages up to document 02's W6.
OLDER_MOST_AGES = 64


def card(base, path=(), loads=AGES, /, second=(), **changes):
    """A card with a base's head, its counts those of path, second path and loads, and then some fields changed."""
    head = base._replace(segments=len(path), second_segments=len(second), ages=len(loads))._replace(**changes)
    return card_of(head, path, second, loads)


def of_field(name, value):
    return "field %d = %d" % (NUMBER[name], value)


def company(name, value, least, most):
    """The fields that have to go with a field's value, so that it alone is at an edge."""
    if name == "ultimate_strength" and value <= least:
        return dict(jacking_stress=80000 if value == least else 70000)
    if name == "area" and value <= least:
        return dict(steel_area=1)
    if name == "eccentricity":
        return dict(inertia=most_of("inertia"))
    if name == "steel_area" and value >= most:
        return dict(area=most_of("area"))
    if name == "own_weight_moment":
        return dict(inertia=most_of("inertia"), eccentricity=0)
    return {}


def ranges():
    names = (
        "ultimate_strength deflector_loss slip length es eci ec volume_to_surface area inertia eccentricity steel_area "
        "own_weight_moment wobble curvature"
    ).split()
    for name in names:
        base = PRE if name in ("deflector_loss", "own_weight_moment") else POST
        least, most = field_of(name).range(base)
        for value in (least - 1, least, most, most + 1):
            if value >= 0:
                yield of_field(name, value), card(base, **{name: value}, **company(name, value, least, most))
    for strength, stresses in ((240000, (999, 1000, 192000, 192001)), (240001, (192000, 192001))):
        for stress in stresses:
            label = "jacking stress %d at ultimate strength %d" % (stress, strength)
            yield label, card(POST, ultimate_strength=strength, jacking_stress=stress)
    yield "deflector loss 1, post-tensioned", card(POST, deflector_loss=1)


def ages_of(count):
    """So many ages, the last at the end of the service life."""
    return [Age(MONTH + 100 * i, 0) for i in range(count - 1)] + [Age(LIFE, 0)]


def counts():
    yield "%d segments" % (MOST_SEGMENTS + 1), card(POST, segments=MOST_SEGMENTS + 1)
    yield "2 ages", card(POST, (), AGES[:2])
    yield "%d ages" % (MOST_AGES + 1), card(POST, (), [Age(MONTH + i, 0) for i in range(MOST_AGES + 1)])
    yield "%d ages, post-tensioned" % MOST_AGES, card(POST, (), ages_of(MOST_AGES))


def codes():
    for name in ("kind", "steel", "cure", "concrete"):
        for code in (0, 3):
            yield of_field(name, code), card(POST, **{name: code})
    for code in (0, 4):
        yield "segment kind %d" % code, card(POST, [Segment(code, 1024, 0)])


def segments():
    _, longest_straight, _ = SEGMENT_RANGES[STRAIGHT]
    shortest, longest, highest = SEGMENT_RANGES[PARABOLA]
    _, _, widest = SEGMENT_RANGES[BEND]
    for label, *segment in (
        ("straight, length 0", STRAIGHT, 0, 0),
        ("straight, length 1", STRAIGHT, 1, 0),
        ("straight, length %d" % longest_straight, STRAIGHT, longest_straight, 0),
        ("straight, length %d" % (longest_straight + 1), STRAIGHT, longest_straight + 1, 0),
        ("straight, rise 1", STRAIGHT, 1024, 1),
        ("parabola, length %d" % (shortest - 1), PARABOLA, shortest - 1, 0),
        ("parabola, length %d" % shortest, PARABOLA, shortest, 0),
        ("parabola, length %d, rise %d" % (longest, highest), PARABOLA, longest, highest),
        ("parabola, length %d" % (longest + 1), PARABOLA, longest + 1, 0),
        ("parabola, rise %d" % (highest + 1), PARABOLA, longest, highest + 1),
        ("bend, length 1", BEND, 1, 0),
        ("bend, angle 0", BEND, 0, 0),
        ("bend, angle %d" % widest, BEND, 0, widest),
        ("bend, angle %d" % (widest + 1), BEND, 0, widest + 1),
    ):
        yield label, card(POST, [Segment(*segment)], wobble=2, curvature=10000)


def moments():
    """Together the most, and one more at the second age."""
    quarter = MOST_MOMENTS // 4
    for more in (0, 1):
        loads = [Age(MONTH, quarter), Age(YEAR, quarter + more), Age(LIFE, 0)]
        yield "moments together %d" % (MOST_MOMENTS + more), card(POST, (), loads, own_weight_moment=2 * quarter)


def hours():
    first, last = LEAST_TRANSFER[MOIST], MOST_TRANSFER
    curing = MOST_CURING_IF_MOIST
    moist = POST._replace(cure=MOIST)
    for label, base, end_of_curing, transfer in (
        ("accelerated, transfer 0", POST, 0, 0),
        ("accelerated, transfer 1", POST, 1, 1),
        ("accelerated, transfer %d" % last, POST, 24, last),
        ("accelerated, transfer %d" % (last + 1), POST, 24, last + 1),
        ("moist, transfer %d" % (first - 1), moist, first - 1, first - 1),
        ("moist, transfer %d" % first, moist, first, first),
        ("moist, end of curing %d, transfer %d" % (curing, last), moist, curing, last),
        ("moist, end of curing %d" % (curing + 1), moist, curing + 1, last),
        ("moist, transfer %d" % (last + 1), moist, curing, last + 1),
        ("end of curing 25, transfer 24", POST, 25, 24),
        ("end of curing 0, transfer 24", POST, 0, 24),
        ("pretensioned, end of curing 23, transfer 24", PRE, 23, 24),
        ("pretensioned, both hours 1", PRE, 1, 1),
        ("pretensioned, both hours %d" % last, PRE, last, last),
    ):
        loads = [Age(last + 101, 0), Age(YEAR, 0), Age(LIFE, 0)]
        yield label, card(base, (), loads, end_of_curing=end_of_curing, transfer=transfer)
    for label, *of_ages in (
        ("first age at transfer", POST.transfer, YEAR, LIFE),
        ("first age an hour after transfer", POST.transfer + 1, YEAR, LIFE),
        ("second age at the first", MONTH, MONTH, LIFE),
        ("second age an hour after the first", MONTH, MONTH + 1, LIFE),
        ("second age before the first", MONTH, MONTH - 1, LIFE),
        ("last age %d" % (LIFE + 1), MONTH, YEAR, LIFE + 1),
        ("last age %d" % (LIFE - 1), MONTH, YEAR, LIFE - 1),
    ):
        yield label, card(POST, (), [Age(hour, 0) for hour in of_ages])


def shortest_straight(wobble, x):
    """The shortest straight that reaches this X."""
    return Segment(STRAIGHT, -(-x * TICKS * 10**6 // (wobble * T)), 0)


def straight_of(x):
    """A wobble and a straight whose X is this."""
    _, longest, _ = SEGMENT_RANGES[STRAIGHT]
    for wobble in range(200, most_of("wobble") + 1):
        segment = shortest_straight(wobble, x)
        if segment.length <= longest and friction(wobble, 0, [segment]) == x:
            return wobble, segment
    raise SystemExit("no straight has X %d" % x)


def parabola_of(x):
    """A curvature and a parabola whose X is this."""
    _, _, highest = SEGMENT_RANGES[PARABOLA]
    for curvature in range(100000, most_of("curvature") + 1, 7):
        for length in (1024, 1536, 2560, 4096):
            segment = Segment(PARABOLA, length, -(-x * 10**6 * length // (curvature * 2 * T)))
            if 0 < segment.rise <= highest and friction(0, curvature, [segment]) == x:
                return curvature, segment
    raise SystemExit("no parabola has X %d" % x)


def duct():
    yield "pretensioned with a segment", card(PRE, [Segment(STRAIGHT, 1024, 0)])
    for x in (MOST_X, MOST_X + 1):
        wobble, segment = straight_of(x)
        yield "X %d: straight, length %d, wobble %d" % (x, segment.length, wobble), card(POST, [segment], wobble=wobble)
    for x in (MOST_X, MOST_X + 1):
        curvature, segment = parabola_of(x)
        label = "X %d: parabola, length %d, rise %d, curvature %d" % (x, segment.length, segment.rise, curvature)
        yield label, card(POST, [segment], curvature=curvature)


# A member that creeps so that its U·κ can be at its edge.
CREEPING = POST._replace(ec=2000000, volume_to_surface=5120)


def creep_edge(base, over):
    """The largest U·κ that passes, or the one `over` above it, by area, inertia and eccentricity."""
    kappa = MOST_CREEP // whole_creep(base) + over
    steel = 1024
    area = steel * 2**32 // kappa + 1
    rest = kappa - steel * 2**32 // area
    inertias = field_of("inertia")
    for eccentricity in range(1, 4096):
        inertia = 4096 * steel * eccentricity**2 // rest
        if inertias.least <= inertia <= inertias.most and 4096 * steel * eccentricity**2 // inertia == rest:
            return base._replace(area=area, inertia=inertia, eccentricity=eccentricity, steel_area=steel)
    raise SystemExit("no section has U·κ at its edge")


def section_and_creep():
    steel = 1024
    area = steel * 2**32 // MOST_KAPPA
    yield "κ 2^30", card(POST, area=area, steel_area=steel)
    yield "κ over 2^30", card(POST, area=area - 1, steel_area=steel)
    young = dict(cure=MOIST, end_of_curing=72, transfer=72, ec=1000000, volume_to_surface=1024)
    yield "U·κ far over 2^56", card(POST, area=area, steel_area=steel, **young)
    yield "U·κ largest not above 2^56", card(creep_edge(CREEPING, 0))
    yield "U·κ least above 2^56", card(creep_edge(CREEPING, 1))


def stress():
    least = LEAST_STRESS // TICKS
    spread = dict(area=most_of("area"), steel_area=1)
    for age, jacked in enumerate((least, 9000, 13000), 1):
        yield "stress under %d psi at age %d" % (least, age), card(POST, jacking_stress=jacked, **spread)
    yield "stress under %d psi by slip" % least, card(POST, jacking_stress=least, slip=256)
    yield "slip larger than the stress", card(POST, slip=2048, length=1024)


def longest():
    """The longest good card; its two paths begin with another kind."""
    kinds = (Segment(STRAIGHT, 2048, 0), Segment(PARABOLA, 32768, 512), Segment(BEND, 0, 10))
    first, second = ([kinds[(start + i) % len(kinds)] for i in range(MOST_SEGMENTS)] for start in (0, 1))
    loads = [age._replace(moment=i * 1000 % 7777) for i, age in enumerate(ages_of(MOST_AGES))]
    section = dict(inertia=2**26, eccentricity=2048, own_weight_moment=2**20)
    duct = dict(slip=field_of("slip").blank, length=path_length(first + second), wobble=100, curvature=100000)
    return card(POST, first, loads, second=second, jacking_stress=180000, **section, **duct)


def long_cards():
    text = longest()
    label = "the longest good card, post-tensioned, two paths of %d segments and %d ages: %d bytes"
    yield label % (MOST_SEGMENTS, MOST_AGES, len(text)), text
    hours = [PRE.transfer + 1 + 3 * i * i for i in range(MOST_AGES - 1)] + [LIFE]
    yield "pretensioned, %d ages" % MOST_AGES, card(PRE, (), [Age(hour, 50 * i) for i, hour in enumerate(hours)])


def last_line_missing(text):
    return text[: -(COLUMNS * len(AGE) + len(LINE_FEED))]


def with_columns(text, name, columns):
    """A card with a field's columns replaced."""
    start = start_of(name)
    return text[:start] + columns + text[start + COLUMNS :]


def shape():
    good = card(POST)
    start = start_of("ultimate_strength")
    yield "slip %d, of older wedges" % OLDER_SLIP, card(POST, slip=OLDER_SLIP)
    yield "blank deflector loss", with_columns(good, "deflector_loss", BLANK)
    yield "no byte", b""
    yield "a line feed more", good + LINE_FEED
    yield "a space more", good + b" "
    yield "last line feed missing", good[: -len(LINE_FEED)]
    yield "last line missing", last_line_missing(good)
    yield "a space behind a digit", with_columns(good, "ultimate_strength", good[start:][: COLUMNS - 1] + b" ")
    # A count out of range before a column that is no digit, on one line.
    label = "%d segments and a letter in the count of ages" % (MOST_SEGMENTS + 1)
    yield label, card(POST, segments=MOST_SEGMENTS + 1, ages="x")
    # Bytes behind the longest good card are one line more, a wrong one, however many.
    text = longest()
    for label, more in (("a line feed more", LINE_FEED), ("a space more", b" "), ("a digit more", b"0"), ("twice", text)):
        yield "the longest good card, %s: %d bytes" % (label, len(text + more)), text + more
    yield "%d spaces before a good card" % MANY_SPACES, b" " * MANY_SPACES + good


# A member whose stress a moment lifts, and the moment of a tick of g.
LIFTED = POST._replace(jacking_stress=60000, es=20000000, eci=8000000, ec=8000000, eccentricity=1024)
MOMENT_OF_TICK = LIFTED.inertia // LIFTED.eccentricity


def loaded(base, moment, number=1):
    """A card with a moment at the age of this number."""
    return card(base, (), [age._replace(moment=moment if i == number else 0) for i, age in enumerate(AGES, 1)])


def gain_edge(over):
    """A card whose stress after the first age's gain is so many ticks over 0.80 F."""
    for strength in range(150000, most_of("ultimate_strength"), 5):
        base = LIFTED._replace(ultimate_strength=strength)
        _, (first, *_) = run(base, [], [], AGES)
        gain = strength * 4 * TICKS // 5 + over - first.stress
        rise = -(-gain * base.ec // base.es)
        if base.es * rise // base.ec == gain:
            return loaded(base, MOMENT_OF_TICK * rise)
    raise SystemExit("no stress is %d ticks over 0.80 F" % over)


def gains():
    yield "0.80 F reached after a gain, to the tick", gain_edge(0)
    yield "0.80 F passed by a tick after a gain", gain_edge(1)
    yield "a moment a tick short of a tick of g", loaded(LIFTED, MOMENT_OF_TICK - 1)
    yield "a moment of a tick of g, at the second age", loaded(LIFTED, MOMENT_OF_TICK, 2)
    yield "0.80 F passed at the last age", loaded(LIFTED, 2**36, len(AGES))
    # Too little is left by the losses, which the gain does not mend.
    weak = LIFTED._replace(jacking_stress=2 * LEAST_STRESS // TICKS, area=most_of("area"), steel_area=1)
    yield "stress under 1000 psi before a gain", loaded(weak, 2**33)
    # Es times the rise of g, of 2^41 ticks, is 3 times 2^64, and 0 where 64 bits hold it.
    slender = POST._replace(es=3 * 2**23, area=most_of("area"), inertia=1024, eccentricity=8192, steel_area=1)
    yield "a rise of g whose product with Es passes 64 bits", loaded(slender, 2**38)


def with_blank_slip(base):
    return with_columns(card(base), "slip", BLANK)


def blank_slips():
    reads = field_of("slip").blank
    yield "blank slip", with_blank_slip(POST)
    yield "slip %d, as a blank one reads" % reads, card(POST, slip=reads)
    # So short that older wedges leave enough for all later losses, where a blank slip leaves just too little.
    short = POST._replace(length=12800)
    losses, _ = run(short._replace(slip=reads), [], [], AGES)
    weak = short._replace(jacking_stress=(LEAST_STRESS + losses.slip - 1) // TICKS)
    yield "stress under %d psi by a blank slip" % (LEAST_STRESS // TICKS), with_blank_slip(weak)
    yield "slip %d of the same, enough stress left" % OLDER_SLIP, card(weak, slip=OLDER_SLIP)


# A tendon through a bridge; the parabolas of document 002's girder, example 1.
BRIDGE = POST._replace(jacking_stress=190000, wobble=200, curvature=250000)
GIRDER = [
    Segment(PARABOLA, feet * TICKS, rise)
    for feet, rise in ((64, 2560), (80, 3413), (16, 682), (14, 682), (70, 3413), (56, 2560))
]

# What leaves no stress in the concrete and so no shortening: the stress that friction leaves comes to the first age.
UNLOADED = dict(eccentricity=1024, own_weight_moment=2**26)

# The least X at which 14 and 16 powers both give another factor than 15; the least one after which the factor rises by 3.
X_OF_POWERS = 14937497
X_BEFORE_RISE = 22428083


def bridge_friction(path):
    """X, in a bridge."""
    return friction(BRIDGE.wobble, BRIDGE.curvature, path)


def bridge(path):
    label = "X %d: a bridge's tendon, %d segments" % (bridge_friction(path), len(path))
    return label, card(BRIDGE, path, length=path_length(path))


def bridge_path_of(x, path):
    """A path with a bend and a straight more, so that its X in a bridge is this."""
    _, _, widest = SEGMENT_RANGES[BEND]
    for angle in range(widest + 1):
        bent = path + [Segment(BEND, 0, angle)]
        straight = shortest_straight(BRIDGE.wobble, x - bridge_friction(bent))
        whole = bent + [straight]
        if straight.length > 0 and path_length(whole) <= most_of("length") and bridge_friction(whole) == x:
            return whole
    raise SystemExit("no path has X %d" % x)


def without_and_with_bend(x, **changes):
    """Two cards: a straight with this X, and the same with a bend behind it that adds 1."""
    wobble, straight = straight_of(x)
    bend = Segment(BEND, 0, -(-TICKS * 10**6 // T))
    return [card(BRIDGE, path, **{"wobble": wobble, "curvature": 1, **changes}) for path in ([straight], [straight, bend])]


def least_jacking_stress(x):
    """The least jacking stress of which this X leaves enough."""
    return -(-LEAST_STRESS * T // (TICKS * friction_factor(x)))


def long_ducts():
    yield bridge(6 * GIRDER)
    yield bridge(bridge_path_of(MOST_X, (MOST_SEGMENTS - 2) * [Segment(PARABOLA, 30 * TICKS, TICKS)]))
    for x, label in ((OLDER_MOST_X + 1, "just above 0.3 T"), (X_OF_POWERS, "whose factor takes 15 powers")):
        wobble, segment = straight_of(x)
        yield "X %d, %s: straight, length %d, wobble %d" % (x, label, segment.length, wobble), card(BRIDGE, [segment], wobble=wobble)
    least, enough = LEAST_STRESS // TICKS, least_jacking_stress(MOST_X)
    wobble, segment = straight_of(MOST_X)
    for jacked, label in ((enough - 1, "stress under %d psi by friction"), (enough, "%d psi left by friction, not by the first age")):
        yield label % least, card(POST, [segment], wobble=wobble, jacking_stress=jacked, **UNLOADED)
    for x, text in zip((X_BEFORE_RISE, X_BEFORE_RISE + 1), without_and_with_bend(X_BEFORE_RISE)):
        yield "X %d, factor %d" % (x, friction_factor(x)), text
    # A straight that ends under it by a tick; a bend behind it lifts the factor.
    x = next(x for x in range(X_BEFORE_RISE, MOST_X) if least_jacking_stress(x) > least_jacking_stress(x + 1))
    under, dips = without_and_with_bend(x, jacking_stress=least_jacking_stress(x + 1), **UNLOADED)
    yield "stress under %d psi at a path's end, by a tick" % least, under
    yield "stress under %d psi along that path, not at its end" % least, dips


# A tendon whose wedges slip, so long that an affected length passes it only where a card says so.
ANCHORED = POST._replace(slip=field_of("slip").blank, length=most_of("length"))


def bend_of(x):
    """A curvature and a bend whose X is this."""
    _, _, widest = SEGMENT_RANGES[BEND]
    for angle in range(1, widest + 1):
        curvature, segment = -(-x * TICKS * 10**6 // (angle * T)), Segment(BEND, 0, angle)
        if curvature <= most_of("curvature") and friction(0, curvature, [segment]) == x:
            return curvature, segment
    raise SystemExit("no bend has X %d" % x)


def anchored(base, x, length):
    """A head and a path: its X comes of a bend alone, its length of a straight alone."""
    curvature, bend = bend_of(x)
    return base._replace(curvature=curvature), [bend, Segment(STRAIGHT, length, 0)]


def drop_of(head, path):
    """Z."""
    return drop_at_jack(head, friction_loss(head, path), inches(path_length(path)))


def slips_of(head, path, drop):
    """Each slip and the Es, unrounded, that meet a drop at the jack exactly."""
    least, most = field_of("es").range(head)
    d, length = friction_loss(head, path), inches(path_length(path))
    for slip in range(1, most_of("slip") + 1):
        es = drop**2 * length / (4 * d * slip)
        if least < es <= most:
            yield slip, es


def less_es(head):
    """The head with an Es of a psi less."""
    return head._replace(es=head.es - 1)


def reaching(head, path, drop):
    """The head with a slip and an Es that reach a drop at the jack; with an Es of a psi less it is a tick less."""
    for slip, es in slips_of(head, path, drop):
        found = head._replace(slip=slip, es=ceil(es))
        if (drop_of(less_es(found), path), drop_of(found, path)) == (drop - 1, drop):
            return found
    raise SystemExit("no slip has a drop at the jack of %d" % drop)


def accepted(text):
    return len(card_rows(text)) > 1


def anchored_girder():
    girder = BRIDGE._replace(slip=ANCHORED.slip, length=path_length(GIRDER))
    yield "slip that reaches the end of a girder's first parabola", card(girder, GIRDER[:1])
    yield "slip that dies out before the girder's far end", card(girder, GIRDER)
    yield "slip 0 along the girder, with a tendon length under that of the path", card(girder, GIRDER, slip=0, length=TICKS)


def old_slips():
    """A path without friction or without length, where the tendon length counts."""
    curvature, bend = bend_of(T // 8)
    straight = Segment(STRAIGHT, 2 * POST.length, 0)
    yield "slip along a straight without friction", card(POST, [straight], slip=ANCHORED.slip)
    yield "slip along bends alone", card(POST, [bend, bend], slip=ANCHORED.slip, curvature=curvature)


def whole_root():
    """A drop at the jack that is met exactly. 1024·d·Es·slip is 3 times 2^64 there, and 0 where 64 bits hold it."""
    jacked, d, drop = 2**27, 2**21, 2**25
    x = next(x for x in range(d * T // jacked, MOST_X) if stress_left(jacked, x) == jacked - d)
    base, path = anchored(ANCHORED._replace(jacking_stress=jacked // TICKS), x, 2**14)
    slip, es = next((slip, int(es)) for slip, es in slips_of(base, path, drop) if es.denominator == 1)
    exact = base._replace(slip=slip, es=es)
    for head, label in ((exact, "Es %d: drop at the jack %d, met exactly"), (less_es(exact), "Es %d: drop at the jack %d")):
        yield label % (head.es, drop_of(head, path)), card(head, path)


def of_drop(head, path):
    return "path length %d: drop at the jack %d" % (path_length(path), drop_of(head, path)), card(head, path)


def longest_path():
    """The longest path, of straights, and the largest wobble whose X passes along it."""
    _, longest_straight, _ = SEGMENT_RANGES[STRAIGHT]
    path = MOST_SEGMENTS * [Segment(STRAIGHT, longest_straight, 0)]
    return path, max(wobble for wobble in range(most_of("wobble") + 1) if friction(wobble, 0, path) <= MOST_X)


def path_lengths():
    """A path of a tick, by itself and with about the largest product of d, Es and slip; with that the fewest feet; the longest path."""
    base = ANCHORED._replace(ultimate_strength=most_of("ultimate_strength"), es=most_of("es"), **UNLOADED)
    _, jacked = field_of("jacking_stress").range(base)
    strong = base._replace(jacking_stress=jacked)
    yield of_drop(*anchored(strong._replace(slip=1), T // 256, 1))
    of_length = lambda length: anchored(strong._replace(slip=most_of("slip")), MOST_X, length)
    # With such a product a path of a tick leaves no stress. Where 32 bits hold the drop, this slip dies out.
    head, path = of_length(1)
    dies_out = lambda slip: drop_of(head._replace(slip=slip), path) % 2**32 <= 2 * friction_loss(head, path)
    yield of_drop(head._replace(slip=max(filter(dies_out, range(head.slip + 1)))), path)
    feet = next(feet for feet in range(1, most_of("length") // TICKS) if accepted(card(*of_length(feet * TICKS))))
    yield of_drop(*of_length(feet * TICKS))
    path, wobble = longest_path()
    yield of_drop(ANCHORED._replace(wobble=wobble), path)


def tick_of_friction():
    """X 1, of a jacking stress of T ticks, in the longest tendon; a straight shorter by a tick has X 0."""
    straight = shortest_straight(1, 1)
    shorter = straight._replace(length=straight.length - 1)
    base = ANCHORED._replace(jacking_stress=T // TICKS, wobble=1, area=most_of("area"), steel_area=1)
    of_slip = lambda segment, slip: card(base, [segment], slip=slip)
    over = next(slip for slip in range(1, most_of("slip") + 1) if not accepted(of_slip(straight, slip)))
    for segment, slip in ((straight, over - 1), (straight, over), (shorter, over)):
        label = "friction %d: straight, length %d, slip %d" % (friction_loss(base, [segment]), segment.length, slip)
        yield label, of_slip(segment, slip)


def affected_lengths():
    """Affected lengths of the path and of one and a half of it, and those of a drop at the jack of a tick more."""
    base, path = anchored(ANCHORED, T // 16, 100 * TICKS)
    d, length = friction_loss(base, path), path_length(path)
    over = reaching(base, path, 2 * d + 1)
    at = less_es(over)
    yield "drop at the section 0, affected length that of path and tendon", card(at, path, length=length)
    yield "drop at the section 0, tendon length a tick under the affected length", card(at, path, length=length - 1)
    yield "drop at the section 1, affected length over that of path and tendon", card(over, path, length=length)
    yield "drop at the section 1, tendon length a tick over that of the path", card(over, path, length=length + 1)
    over = reaching(base, path, 3 * d + 1)
    at, length = less_es(over), 3 * length // 2
    yield "affected length %d, that of the tendon" % length, card(at, path, length=length)
    yield "affected length %d, tendon length a tick under it" % length, card(at, path, length=length - 1)
    yield "affected length over %d by less than a tick, tendon length %d" % (length, length), card(over, path, length=length)


def refusals_at_slip():
    least, x, length = LEAST_STRESS // TICKS, T // 8, 10 * TICKS
    enough, too_long = least_jacking_stress(x), "affected length over that of the tendon"
    short, path = anchored(ANCHORED._replace(length=length), x, length)
    yield "stress under %d psi by friction, before an %s" % (least, too_long), card(short, path, jacking_stress=enough - 1)
    yield "%s, before a stress under %d psi by slip" % (too_long, least), card(short, path, jacking_stress=enough)
    creeping = creep_edge(CREEPING, 1)._replace(slip=short.slip, length=short.length, curvature=short.curvature)
    yield "U·κ least above 2^56, before an %s" % too_long, card(creeping, path)
    base, path = anchored(ANCHORED._replace(jacking_stress=30000, **UNLOADED), x, length)
    all_but_least = base.jacking_stress * TICKS + friction_loss(base, path) - LEAST_STRESS
    under = reaching(base, path, all_but_least + 1)
    yield "stress under %d psi by slip along a path, by a tick" % least, card(under, path)
    yield "%d psi left by slip along a path, not by the first age" % least, card(less_es(under), path)


def too_many_ages():
    """A count of ages past the most, and what else may be wrong; the most ages, with a line too few and a line too many."""
    yield "%d ages, the most up to document 02's W6" % OLDER_MOST_AGES, card(POST, (), ages_of(OLDER_MOST_AGES))
    over = ages_of(MOST_AGES + 1)
    for label, changes in (
        ("a letter in the count of segments", dict(segments="x")),
        ("%d segments" % (MOST_SEGMENTS + 1), dict(segments=MOST_SEGMENTS + 1)),
        ("a kind that is not listed", dict(kind=0)),
    ):
        yield "%d ages, %s" % (len(over), label), card(POST, (), over, **changes)
    yield "%d ages, last line feed missing" % len(over), card(POST, (), over)[: -len(LINE_FEED)]
    yield "%d ages, no line behind the count" % len(over), card(POST, (), (), ages=len(over))
    yield "as many ages as the columns hold", card(POST, (), (), ages=10**COLUMNS - 1)
    yield "%d ages, last line missing" % MOST_AGES, last_line_missing(card(POST, (), ages_of(MOST_AGES)))
    yield "%d ages, a line more" % MOST_AGES, card(POST, (), over, ages=MOST_AGES)


def gauges_apart():
    """A psi at the jack that makes two ticks of friction of one, where slip along the path is steep in it."""
    path, one_tick = [shortest_straight(1, 1)], T // TICKS
    for stress in (one_tick, one_tick + 1):
        base = POST._replace(jacking_stress=stress, slip=16, length=most_of("length"), wobble=1, steel_area=1)
        label = "%d psi at the jack, friction %d along a path of %d ticks"
        yield label % (stress, friction_loss(base, path), path_length(path)), card(base, path)


# The girder jacked at both ends, with a section at its pier: the first path comes to it from the left, the second from the right.
FRAME = BRIDGE._replace(slip=ANCHORED.slip)
LEFT, RIGHT = GIRDER[:3], GIRDER[:2:-1]

# Ages right after transfer, when hardly any stress is lost.
SOON = [Age(POST.transfer + hours, 0) for hours in (1, 2, 3)]


def both(base, first, second, loads=AGES, /, **changes):
    """A card with two paths and a tendon as long as both together, and then some fields changed."""
    return card(base, first, loads, second=second, **{"length": path_length(first + second), **changes})


def of_paths(label, base, first, second):
    """The card, and with its label what each path loses and which one goes on."""
    head = base._replace(length=path_length(first + second))
    goes_on = "first" if path_that_goes_on(head, first, second) is first else "second"
    losses = ", ".join("friction %d and slip %d" % seating_losses(head, path) for path in (first, second))
    return "%s: %s, the %s path goes on" % (label, losses, goes_on), both(base, first, second)


def straights(*lengths):
    return [Segment(STRAIGHT, length, 0) for length in lengths]


def both_ends():
    yield "a girder jacked at its left end alone", card(FRAME, LEFT, length=path_length(GIRDER))
    yield of_paths("jacked at both ends", FRAME, LEFT, RIGHT)
    yield of_paths("the same from the other side", FRAME, RIGHT, LEFT)
    wobbling = FRAME._replace(wobble=most_of("wobble"))
    for label, near, far in (("slip at the section", 20, 30), ("slip on one path", 10, 90)):
        paths = straights(near * TICKS), straights(far * TICKS)
        yield of_paths(label, wobbling, *paths)
        yield of_paths("the same from the other side", wobbling, *reversed(paths))
    yield of_paths("no segment on the first path", FRAME, [], GIRDER)


def second_counts():
    """Each count wholly before the next, in the order 23, 24, 25; the most segments of a second path, and a line too few or too many."""
    over, few = MOST_SEGMENTS + 1, AGES[:2]
    yield "%d segments on each path and 2 ages" % over, card(POST, (), few, segments=over, second_segments=over)
    yield "2 ages and %d segments on the second path" % over, card(POST, (), few, second_segments=over)
    yield "%d segments on the second path" % over, card(POST, (), AGES, second=over * straights(TICKS))
    yield "%d segments on the second path, no line of them" % over, card(POST, second_segments=over)
    yield "as many segments on the second path as the columns hold", card(POST, second_segments=10**COLUMNS - 1)
    for label, changes in (
        ("a letter", dict(second_segments="x")),
        ("%d segments on the first path and a letter" % over, dict(segments=over, second_segments="x")),
        ("no digit", dict(second_segments="")),
    ):
        yield label + " in the count of the second path's segments", card(POST, **changes)
    text, start = card(POST), start_of("second_segments")
    yield "line 4 without the second path's count", text[:start] + text[start + COLUMNS :]
    most = MOST_SEGMENTS * straights(TICKS)
    yield "%d segments on the second path alone" % MOST_SEGMENTS, both(BRIDGE, [], most)
    yield "the same, last line missing", last_line_missing(both(BRIDGE, [], most))
    yield "the same, a line of a segment more", both(BRIDGE, [], most + most[:1], second_segments=MOST_SEGMENTS)
    yield "a line of a segment and no second path", both(FRAME, LEFT, RIGHT[:1], second_segments=0)


def second_segments():
    """Fields of the second path, numbered on from the first's, and those of ages, numbered on from the second's."""
    for label, segment in (
        ("segment kind 0", Segment(0, 1024, 0)),
        ("segment kind 4", Segment(4, 1024, 0)),
        ("straight, length 0", Segment(STRAIGHT, 0, 0)),
        ("straight, rise 1", Segment(STRAIGHT, 1024, 1)),
        ("parabola, length 1023", Segment(PARABOLA, 1023, 0)),
        ("bend, length 1", Segment(BEND, 1, 0)),
        ("bend, angle 4097", Segment(BEND, 0, 4097)),
    ):
        yield "on the second path: " + label, both(FRAME, LEFT, RIGHT + [segment])
    wrong = straights(0)
    yield "straights of length 0 on both paths", both(FRAME, LEFT + wrong, RIGHT + wrong)
    yield "a straight of length 0, and segment kind 4 on the second path", both(FRAME, wrong, [Segment(4, 1024, 0)])
    first, second, last = AGES
    yield "two paths, second age at the first", both(FRAME, LEFT, RIGHT, [first, first, last])
    yield "two paths, moments over the most", both(FRAME, LEFT, RIGHT, [first, second, last._replace(moment=MOST_MOMENTS + 1)])


def second_ducts():
    """The duct's checks: 4 at 1, 14, 4 at 2 and 15, each before the next."""
    wobble, over = straight_of(MOST_X + 1)
    yield "pretensioned with a second path", card(PRE, second=straights(PRE.length))
    yield "pretensioned with two paths", card(PRE, LEFT, second=RIGHT)
    yield "pretensioned with a second path, X over the most", both(PRE, [], [over], wobble=wobble)
    yield "pretensioned with a second path, a tick long", card(PRE, second=straights(1))
    for x in (MOST_X, MOST_X + 1):
        curvature, bend = bend_of(x)
        for label, paths in (
            ("on the second path", (straights(TICKS), [bend, *straights(TICKS)])),
            ("on the first path", ([bend, *straights(TICKS)], straights(TICKS))),
            ("on each path", ([bend, *straights(TICKS)], [bend, *straights(TICKS)])),
        ):
            yield "X %d %s" % (x, label), both(BRIDGE, *paths, wobble=0, curvature=curvature)
    label = "X over the most on the second path, %d ticks long in a tendon of %d"
    yield label % (over.length, TICKS), card(POST, second=[over], wobble=wobble, length=TICKS)


def path_sums():
    """Two paths as long as the tendon, a foot more and less, and a tick beyond; a tendon with one path may have any length."""
    whole = path_length(GIRDER)
    for apart in (MOST_APART, MOST_APART + 1):
        yield "two paths together %d ticks longer than the tendon" % apart, both(FRAME, LEFT, RIGHT, length=whole - apart)
        yield "two paths together %d ticks shorter than the tendon" % apart, both(FRAME, LEFT, RIGHT, length=whole + apart)
    for name, path in (("longer", 2 * GIRDER), ("shorter", GIRDER[:1])):
        yield "one path, far %s than the tendon" % name, card(FRAME, path, length=whole)
    yield "each path as long as the tendon", both(FRAME, GIRDER, GIRDER, length=whole)
    yield "the second path as long as the tendon, the first of bends", both(FRAME, [Segment(BEND, 0, 100)], GIRDER)
    longest_paths, _ = longest_path()
    yield "the two longest paths", card(POST, longest_paths, second=longest_paths, length=most_of("length"))
    narrow = dict(area=field_of("area").least, steel_area=most_of("steel_area"))
    yield "κ over 2^30, and paths over a foot longer than the tendon", both(FRAME, LEFT, RIGHT, length=whole - 2 * MOST_APART, **narrow)


def ties():
    """The same stress after slip, of a path along which it dies out and of bends, where it goes over the tendon's length. Of a jacking
    stress of T ticks each X leaves another stress."""
    base = ANCHORED._replace(jacking_stress=T // TICKS, wobble=20, area=most_of("area"), steel_area=1)
    along = straights(base.length)
    (d, _), (_, slip) = seating_losses(base, along), seating_losses(base, [])
    x = next(x for x in range(d - slip, MOST_X) if stress_left(T, x) == T - (d - slip))
    curvature, bend = bend_of(x)
    tied = base._replace(curvature=curvature)
    for paths in ((along, [bend]), ([bend], along)):
        yield of_paths("the same stress after slip", tied, *paths)


def rules_of_slip():
    """One path under the old rule of slip and one under that of document 02's W5."""
    curvature, bend = bend_of(T // 16)
    base = POST._replace(slip=ANCHORED.slip, curvature=curvature)
    smooth, bent = straights(100 * TICKS), [bend, *straights(100 * TICKS)]
    for label, paths in (
        ("no friction on the first path", (smooth, bent)),
        ("no friction on the second path", (bent, smooth)),
        ("no friction on either path", (smooth, smooth)),
        ("bends alone on the first path", (3 * [bend], 2 * bent)),
        ("bends alone on the second path", (2 * bent, [bend])),
    ):
        yield of_paths(label, base, *paths)


def left_behind():
    """A path with less than the least stress that is left, and one that goes on."""
    least, x = LEAST_STRESS // TICKS, T
    wobble, long = straight_of(MOST_X)
    curvature, bend = bend_of(x)
    base = POST._replace(wobble=wobble, curvature=curvature, jacking_stress=least_jacking_stress(MOST_X) - 1)
    yield "stress under %d psi on the first path, which is left" % least, both(base, [long], [bend], SOON)
    yield "stress under %d psi on the second path, which is left" % least, both(base, [bend], [long], SOON)
    enough = least_jacking_stress(x)
    yield "stress under %d psi on both paths" % least, both(base, [long], [bend], jacking_stress=enough - 1, **UNLOADED)
    label = "%d psi left on the second path alone, not by the first age" % least
    yield label, both(base, [long], [bend], jacking_stress=enough, **UNLOADED)
    curvature, bend = bend_of(13 * T // 20)
    base = FRAME._replace(wobble=0, curvature=curvature)
    yield of_paths("slip larger than the stress on the first path", base, [bend, bend], [bend, *straights(10 * TICKS)])


def sets_of_two():
    """12 of either path, also of one that would be left, ahead of any 7; with one path 7 by friction comes first."""
    least, x, half = LEAST_STRESS // TICKS, T // 8, 5 * TICKS
    weak, too_long = least_jacking_stress(x) - 1, "affected length over that of the tendon"
    curvature, bend = bend_of(x)
    base, bent = ANCHORED._replace(curvature=curvature), [bend, *straights(half)]
    for label, paths in (
        ("%s on the first path", (2 * bent, [bend])),
        ("%s on the second path", ([bend], 2 * bent)),
        ("%s on the second path, which alone has segments", ([], 2 * bent)),
        ("%s on both paths", (bent, bent)),
    ):
        yield label % too_long, both(base, *paths)
        yield label % too_long + ", stress under %d psi by friction" % least, both(base, *paths, jacking_stress=weak)
    yield "the same on one path", card(base, 2 * bent, jacking_stress=weak, length=2 * half)
    creeping = creep_edge(CREEPING, 1)._replace(slip=base.slip, curvature=curvature)
    yield "U·κ least above 2^56, %s on both paths" % too_long, both(creeping, bent, bent)
    reached, path = anchored(ANCHORED, T // 16, 100 * TICKS)
    over = reaching(reached, path, 2 * friction_loss(reached, path) + 1)
    for label, head in (("that of the tendon", less_es(over)), ("over that of the tendon by less than a tick", over)):
        yield "affected length of the second path " + label, both(head, path[:1], path)


PARTS = (
    ranges, counts, codes, segments, moments, hours, duct, section_and_creep, stress, long_cards, shape, gains, blank_slips, long_ducts,
    anchored_girder, old_slips, whole_root, path_lengths, tick_of_friction, affected_lengths, refusals_at_slip, too_many_ages,
    gauges_apart, both_ends, second_counts, second_segments, second_ducts, path_sums, ties, rules_of_slip, left_behind, sets_of_two,
)


def cases():
    """What each card is, and the card."""
    return [case for part in PARTS for case in part()]
