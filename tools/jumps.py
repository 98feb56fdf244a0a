"""The jumps of a listing of code, drawn as arrows beside its lines."""
import re

LINE = 22  # the height of a line of the listing
LANE = 12
# Where an instruction may go on but at the next one; a failure begins again at the first.
JUMP = re.compile(r"^\d+ (?:(?:unless .* )?goto|flip|again|loop \d+) (\d+)\b|^\d+ (fail)$")


def found(listing):
    """The jumps, each from a line to a line."""
    for start, line in enumerate(listing.splitlines()):
        jump = JUMP.search(line)
        if jump:
            yield start, int(jump[1] or 0)


def lanes(jumps):
    """A lane for each jump, so that no two that overlap share one: the shortest jumps go innermost."""
    taken, lane = [], {}
    for jump in sorted(jumps, key=lambda it: abs(it[1] - it[0])):
        low, high = sorted(jump)
        free = (i for i, row in enumerate(taken) if all(high < start or end < low for start, end in row))
        lane[jump] = next(free, len(taken))
        if lane[jump] == len(taken):
            taken.append([])
        taken[lane[jump]].append((low, high))
    return lane, len(taken)


def arrow(start, end, x, right):
    """From the middle of a line to another: away from it a little above or below, so that arrows that meet can be told apart."""
    begin, tip = LINE * start + 13, LINE * end + (9 if end > start else 17)
    kind = "jump" if end > start else "jump back"
    return f'<path class="{kind}" d="M{right} {begin}H{x}V{tip}H{right}m-5 -3l5 3l-5 3"/>'


def drawn(listing):
    """A picture as high as the listing."""
    jumps = list(found(listing))
    lane, count = lanes(jumps)
    right, height = 10 + LANE * count, LINE * len(listing.splitlines())
    arrows = "".join(arrow(*jump, right - 10 - LANE * lane[jump], right - 2) for jump in jumps)
    return f'<svg width="{right + 4}" height="{height}" role="img" aria-label="jumps">{arrows}</svg>'
