"""Files that are changed blindly."""


def changed_once(rng, data, pieces):
    """The file after one change: one of these pieces is put in, a few bytes are taken out, one is another, or a line is repeated
    elsewhere or changes places with another."""
    place, kind = rng.randrange(len(data) + 1), rng.randrange(6)
    if kind < 3:
        return data[:place] + rng.choice(pieces) + data[place:]
    if kind == 3:
        return data[:place] + data[place + rng.choice([1, 1, 2, 5]) :]
    if kind == 4:
        return data[:place] + bytes([rng.randrange(256)]) + data[place + 1 :]
    lines = data.split(b"\n")
    one, other = rng.randrange(len(lines)), rng.randrange(len(lines))
    if rng.random() < 0.5:
        lines.insert(other, lines[one])
    else:
        lines[one], lines[other] = lines[other], lines[one]
    return b"\n".join(lines)
