"""What ten thousand offices cost, drawn from measured figures: python3 bench/shards.py [OBJECTS] [SEED]

Draws buckets of very different sizes with OBJECTS versions in all (1,000,000,000 if not given), splits those above the planned filling by
prefix, gives each bucket an office for good as it comes, lets them grow for a year, and prints for several plans: offices, those
that reach a limit, memory, machines, journals, syncs and the time to open. Nothing is started: the figures of one office are those of
docs/PERFORMANCE.md and docs/OPERATIONS.md, named below, and the rest is a model with the numbers that stand here.
"""
import math
import random
import sys

# Measured (docs/PERFORMANCE.md and docs/OPERATIONS.md, "Limits"; 4 processors, ext4).
BYTES_A_VERSION, BYTES_OF_A_PROCESS = 288, 4_036 * 1_024      # memory.py; serve_memory.py with 1 worker
PUTS_A_SECOND, SYNCS_A_PUT = 9_843, 2                         # commits.py
OPENED_A_SECOND = 376_916                                     # opening.py, entries
ACT_US = 17                                                   # acts.py: in a bucket of 200,000 objects, without syncs
# Of the program (docs/FORMATS.md).
VERSIONS, BUCKETS, NAMES, JOURNAL = 200_000, 1_000, 536_870_912, 1 << 30
# The model: what is in no measurement.
KEY, BUCKET_NAME = 60, 20                     # bytes
BUCKETS_IN_ALL = 60_000                       # lognormal sizes: half of all objects lie in about one bucket of a hundred
SPREAD = 2.4
TURNOVER = 1.0                                # puts a year for each version that is there; as many are removed by the rules
GROWTH, GROWTH_SPREAD = 0.25, 0.35            # a bucket's growth in a year: the mean, and how much buckets differ
OPEN = 16                                     # offices that take new buckets
MEMORY_OF_A_MACHINE, PROCESSORS, OFFICES_OF_A_MACHINE = 256 << 30, 32, 2_000
YEAR = 365 * 86_400


def put_bytes():
    """A put's frame in the journal."""
    return 5 + 9 + 2 + BUCKET_NAME + 2 + KEY + 8 + 1 + 1


def act_bytes():
    return 5 + 9 + 2 + BUCKET_NAME


def sizes(objects, draw):
    """The versions of each bucket."""
    found = [draw.lognormvariate(0, SPREAD) for _ in range(BUCKETS_IN_ALL)]
    scale = objects / sum(found)
    return [max(1, round(it * scale)) for it in found]


def pieces_of(size, planned, draw):
    """A bucket in pieces by prefix, each below the plan. Prefixes differ in size, so pieces are cut finer than an even split asks for."""
    if size <= planned:
        return [size]
    count = math.ceil(1.5 * size / planned)
    weights = [draw.gammavariate(4, 1) for _ in range(count)]
    found = []
    for it in weights:
        found += pieces_of(round(size * it / sum(weights)), planned, draw)
    return found


def offices_of(found, planned):
    """The pieces in each office: a new bucket goes for good to the fullest of OPEN offices that are being filled in which it fits."""
    closed, filling = [], []
    for it in found:
        fits = [office for office in filling if sum(office) + it <= planned and len(office) < BUCKETS]
        office = max(fits, key=sum, default=None)
        if office is None:
            office = []
            filling.append(office)
            if len(filling) > OPEN:
                fullest = max(filling[:-1], key=sum)
                filling.remove(fullest)
                closed.append(fullest)
        office.append(it)
    return closed + filling


def grown(size, draw):
    mean = math.log(1 + GROWTH) - GROWTH_SPREAD ** 2 / 2
    return size * draw.lognormvariate(mean, GROWTH_SPREAD)


def human(count):
    for unit in ("B", "KiB", "MiB", "GiB"):
        if count < 1_024:
            return f"{count:.0f} {unit}"
        count /= 1_024
    return f"{count:.1f} TiB"


def plan(objects, share, seed):
    """Prints what one planned filling comes to."""
    draw, planned = random.Random(seed), round(VERSIONS * share)
    all_sizes = sizes(objects, draw)
    pieces = [it for size in all_sizes for it in pieces_of(size, planned, draw)]
    split = sum(size > planned for size in all_sizes)
    draw.shuffle(pieces)
    offices = offices_of(pieces, planned)
    after = [sum(grown(it, draw) for it in office) for office in offices]
    full = sum(it > VERSIONS for it in after)
    held = [min(it, VERSIONS) for it in after]
    memory = sum(held) * (BYTES_A_VERSION + KEY - 12) + len(offices) * BYTES_OF_A_PROCESS
    puts = sum(held) * TURNOVER / YEAR
    entries = [sum(office) + it * TURNOVER * 2 for office, it in zip(offices, held)]  # the first fill, and a year of puts and acts
    journals = [sum(office) * put_bytes() + it * TURNOVER * (put_bytes() + act_bytes()) for office, it in zip(offices, held)]
    machines = max(math.ceil(memory / (0.7 * MEMORY_OF_A_MACHINE)), math.ceil(len(offices) / OFFICES_OF_A_MACHINE))
    here = len(offices) / machines
    acts = sum(held) * TURNOVER / 365 / machines
    computed, synced = acts * ACT_US / 1e6 / PROCESSORS, acts / PUTS_A_SECOND  # an act is as durable as a put: two syncs each
    opening = sum(entries) / machines / OPENED_A_SECOND / PROCESSORS
    print(f"planned filling {share:.0%}: {planned} versions an office")
    print(f"  {len(all_sizes)} buckets, {split} of them split by prefix, {len(pieces)} pieces, as many lines in the proxy's map")
    print(f"  {len(offices)} offices, {sum(map(sum, offices)) / len(offices) / VERSIONS:.0%} full on the average; after a year {full} "
          f"({full / len(offices):.2%}) are above {VERSIONS} versions")
    print(f"  memory {human(memory)} in all, {human(memory / len(offices))} an office; {machines} machines of {human(MEMORY_OF_A_MACHINE)}, {here:.0f} offices each")
    print(f"  journals {human(sum(journals))} after a year, the longest {human(max(journals))} of {human(JOURNAL)}, which is full after "
          f"{JOURNAL / max(journals):.1f} years; three copies {human(3 * sum(journals))}")
    print(f"  {puts:.0f} puts and as many acts a second in all, {2 * SYNCS_A_PUT * puts / machines:.1f} syncs a second a machine "
          f"(one disk took {SYNCS_A_PUT * PUTS_A_SECOND} a second); {2 * puts * 86_400 / len(offices):.0f} commands a day an office")
    print(f"  a night's sweep of {acts:.0f} acts takes {max(computed, synced):.0f} s on each machine: {computed:.1f} s of {PROCESSORS} processors, "
          f"{synced:.0f} s of one disk's syncs")
    print(f"  a machine that starts again opens {sum(entries) / machines:.0f} entries in {opening:.0f} s on {PROCESSORS} processors; "
          f"one office in {max(entries) / OPENED_A_SECOND:.1f} s at most", flush=True)


def main():
    objects = int(sys.argv[1]) if sys.argv[1:] else 1_000_000_000
    seed = int(sys.argv[2]) if sys.argv[2:] else 42
    print(f"{objects} versions; a put is {put_bytes()} bytes of journal and an act {act_bytes()}, with a key of {KEY} and a bucket's name of {BUCKET_NAME} bytes")
    for share in (0.3, 0.5, 0.7, 0.85):
        plan(objects, share, seed)


if __name__ == "__main__":
    main()
