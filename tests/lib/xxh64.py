"""XXH64 (the xxHash algorithm of 64 bits), by which layout 6 seals the commits of a log."""

MASK = (1 << 64) - 1
P1, P2, P3, P4, P5 = (
    0x9E3779B185EBCA87, 0xC2B2AE3D27D4EB4F, 0x165667B19E3779F9, 0x85EBCA77C2B2AE63, 0x27D4EB2F165667C5,
)


def turned(number, by):
    return (number << by | number >> (64 - by)) & MASK


def mixed(lane, word):
    return turned((lane + word * P2) & MASK, 31) * P1 & MASK


def xxh64(data, seed=0):
    """The digest of these bytes."""
    words = memoryview(data)
    at = 0
    if len(data) >= 32:
        lanes = [(seed + P1 + P2) & MASK, (seed + P2) & MASK, seed, (seed - P1) & MASK]
        while len(data) - at >= 32:
            for i in range(4):
                lanes[i] = mixed(lanes[i], int.from_bytes(words[at : at + 8], "little"))
                at += 8
        digest = sum(turned(lane, by) for lane, by in zip(lanes, (1, 7, 12, 18))) & MASK
        for lane in lanes:
            digest = ((digest ^ mixed(0, lane)) * P1 + P4) & MASK
    else:
        digest = (seed + P5) & MASK
    digest = (digest + len(data)) & MASK
    while len(data) - at >= 8:
        digest = (turned(digest ^ mixed(0, int.from_bytes(words[at : at + 8], "little")), 27) * P1 + P4) & MASK
        at += 8
    if len(data) - at >= 4:
        digest = (turned(digest ^ int.from_bytes(words[at : at + 4], "little") * P1 & MASK, 23) * P2 + P3) & MASK
        at += 4
    for byte in words[at:]:
        digest = turned(digest ^ byte * P5 & MASK, 11) * P1 & MASK
    digest = (digest ^ digest >> 33) * P2 & MASK
    digest = (digest ^ digest >> 29) * P3 & MASK
    return digest ^ digest >> 32
