"""Proposals for the bundles of a comparison: what normalization makes of them, with a pool made anew, prefixes of a maker's
own, and faults of every kind."""
import bundle_cases
import bundles
import reading

NONE = reading.NONE
WIDTH = reading.WIDTH


def written(rows, pool):
    """The bundle of rows, each a list of words."""
    return bundles.join([word for row in rows for word in row], pool)


def written_old(rows, pool):
    """The bundle of version 1 of rows, whose makers it does not have."""
    return bundle_cases.old_bytes_of([word for row in rows for word in row], pool)


def anew(rows, pool, once):
    """The same rows over a pool that is made anew: each field again, or each text once."""
    made, places, moved = bytearray(), {}, []
    for row in rows:
        words = list(row)
        for at in (2, 4, 6, 8):
            text = pool[words[at]:words[at] + words[at + 1]]
            if words[at + 1] and len(text) == words[at + 1]:
                if not once or text not in places:
                    places[text] = len(made)
                    made += text
                words[at] = places[text]
        moved.append(words)
    return (moved, bytes(made)) if len(made) <= reading.MOST_BYTES else (rows, pool)


def renamed(rows, pool):
    """Every attribute's prefix NSk becomes mk, where it is declared and used."""
    made, moved = bytearray(pool), []
    for row in rows:
        words = list(row)
        for at in (2, 4) if words[0] in (1, 2) else (4,) if words[0] == 13 else ():
            text = pool[words[at]:words[at] + words[at + 1]]
            if text[:2] == b"NS" and (at == 2 or words[0] == 13):
                words[at], words[at + 1] = len(made), len(text) - 1
                made += b"m" + text[2:]
        moved.append(words)
    return (moved, bytes(made)) if len(made) <= reading.MOST_BYTES else (rows, pool)


def changed(rows, pool, numbers):
    """One word of one row, or the rows, are changed."""
    rows = [list(row) for row in rows]
    what = numbers(10)
    if what == 0 and rows:
        rows.pop()
    elif what == 1 and rows:
        rows.append([13, numbers(len(rows)), 0, 0, 0, min(1, len(pool)), 0, 0, 0, min(1, len(pool)), numbers(3)])
    elif what == 2:
        rows.append([3, NONE, 0, 0, 0, 0, 0, 0, 0, 0, 0])
    elif what in (8, 9) and rows:
        # Another maker: of the last row, which is often further than the original's, or of any.
        row = rows[-1 if what == 8 else numbers(len(rows))]
        row[10] = (0, 1, row[10] ^ 1, row[10] ^ 1 << 31)[numbers(4)]
    elif what == 3 and rows:
        rows[numbers(len(rows))][0] = (1, 2, 3, 13, 257, 258)[numbers(6)]
    elif what == 4 and len(rows) > 1:
        rows[numbers(len(rows))][1] = numbers(len(rows))
    elif rows:
        row, at = rows[numbers(len(rows))], (2, 4, 6, 8)[numbers(4)]
        if what == 5:
            row[at], row[at + 1] = 0, 0
        elif what == 6 and pool:
            row[at], row[at + 1] = numbers(len(pool)), 1
        else:
            other = rows[numbers(len(rows))]
            row[at], row[at + 1] = other[at], other[at + 1]
    return rows, pool


def proposals(bundle, normalized, numbers):
    """Some proposals for a bundle, which normalizes to another or to none."""
    yield bundle
    yield bundle[:numbers(len(bundle) + 1)]
    for start in (bundle, normalized) if normalized is not None else (bundle,):
        try:
            table, pool = bundles.split(start)
        except bundles.Refused:
            continue
        rows = [list(table[at:at + WIDTH]) for at in range(0, len(table), WIDTH)]
        yield start
        yield written_old(rows, pool)
        for made in (anew(rows, pool, False), anew(rows, pool, True), renamed(rows, pool)):
            yield written(*made)
            yield written(*changed(*made, numbers))
        yield written(*changed(rows, pool, numbers))
