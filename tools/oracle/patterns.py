"""The lower half of the second program: how paths and patterns are formed, what fits, and what can still be continued.

Sentences in quotes are document 01's. Whether a pattern fits is a table: for each rest of the pattern and each rest of the
path, both counted in labels, whether they fit.
"""
from functools import lru_cache

PATH_FORM, PATH_LENGTH, PATTERN_FORM, PATTERN_LENGTH = 1, 2, 7, 8


# How they are formed


LABEL_BYTES = frozenset(b for b in range(256) if (0x20 <= b <= 0x7E or 0x80 <= b <= 0xFF) and b not in b"/*")


def labels(text):
    """The labels of a text that begins with `/`, each without its `/`: the last one is empty where the text ends with `/`."""
    return text.split(b"/")[1:]


def of_label_bytes(label):
    return all(byte in LABEL_BYTES for byte in label)


def is_formed_path(path):
    """"one or more labels, each `/` followed by at least one byte from 20 to 7E or 80 to FF hex, other than `/` and `*`": of any
    length, as in "The path in this rule may be of any length and is otherwise formed as above"."""
    return path[:1] == b"/" and all(label and of_label_bytes(label) for label in labels(path))


def is_formed_pattern_label(label):
    """"not empty, of path bytes and `*`. Two stars stand together only as the whole label `**`." """
    return label != b"" and of_label_bytes(label.replace(b"*", b"")) and (b"**" not in label or label == b"**")


def path_fault(path):
    """Addition's checks "2, 1" of the path; 0 where neither holds."""
    if len(path) > 200:
        return PATH_LENGTH
    return 0 if is_formed_path(path) else PATH_FORM


def pattern_fault(pattern):
    """Search's checks "8, 7" of the pattern; 0 where neither holds. 8 is "pattern over 200 bytes or over 32 `/`"."""
    if len(pattern) > 200 or pattern.count(b"/") > 32:
        return PATTERN_LENGTH
    formed = pattern[:1] == b"/" and all(is_formed_pattern_label(label) for label in labels(pattern))
    return 0 if formed else PATTERN_FORM


# Matching


def past_stars(wanted, places):
    """`places` and what can be reached from them by stars that take nothing: "A `*` takes zero or more bytes"."""
    reached = set()
    for place in places:
        reached.add(place)
        while place < len(wanted) and wanted[place] == ord("*"):
            place += 1
            reached.add(place)
    return reached


def places_after(wanted, given):
    """The places inside the pattern label `wanted` at which one can stand after it has taken the bytes `given`."""
    places = past_stars(wanted, {0})
    for byte in given:
        stays = {place for place in places if place < len(wanted) and wanted[place] == ord("*")}
        moves = {place + 1 for place in places if place < len(wanted) and wanted[place] == byte != ord("*")}
        places = past_stars(wanted, stays | moves)
    return places


@lru_cache(maxsize=1 << 16)
def label_fits(wanted, given):
    """"A `*` takes zero or more bytes inside one label." For labels other than `**`."""
    return len(wanted) in places_after(wanted, given)


@lru_cache(maxsize=1 << 16)
def label_goes_on(wanted, given):
    """Some label that is not empty begins with `given` and fits `wanted`: from any place the stars can take nothing more, and a
    label `*` can take a byte."""
    return bool(places_after(wanted, given))


@lru_cache(maxsize=1 << 16)
def fits(pattern, path):
    """"A `**` either takes one label and is tried again, or gives way to the next label of the pattern, so it takes zero or more.
    After a label fits, the pattern that remains is tried against the rest of the path." Both well formed."""
    wanted, given = labels(pattern), labels(path)
    rest_fits = {(len(wanted), j): j == len(given) for j in range(len(given) + 1)}  # (i, j): wanted from i fits given from j
    for i in reversed(range(len(wanted))):
        for j in reversed(range(len(given) + 1)):
            if wanted[i] == b"**":
                rest_fits[i, j] = rest_fits[i + 1, j] or (j < len(given) and rest_fits[i, j + 1])
            else:
                rest_fits[i, j] = j < len(given) and label_fits(wanted[i], given[j]) and rest_fits[i + 1, j + 1]
    return rest_fits[0, 0]


def begins_a_path(known):
    """Some formed path begins with these bytes, at least one and no end byte: only the last label may still be empty."""
    return known[:1] == b"/" and all(labels(known)[:-1]) and all(map(of_label_bytes, labels(known)))


@lru_cache(maxsize=1 << 16)
def path_goes_on(pattern, known):
    """The known path bytes "can be continued to a path that matches"; "The path in this rule may be of any length and is otherwise
    formed as above". Bytes up to an end byte are a whole path; bytes no path begins with cannot be continued."""
    if known[-1:] == b"\0":
        return is_formed_path(known[:-1]) and fits(pattern, known[:-1])
    if known == b"":
        return True  # every formed pattern has a path that fits
    if not begins_a_path(known):
        return False
    wanted, given = labels(pattern), labels(known)
    for at, label in enumerate(given):
        if at == len(wanted):
            return False  # this label is there, and nothing is left to take it
        if wanted[at] == b"**":
            return True  # it takes this label and all that follow; what the rest of the pattern wants can come after them
        if at == len(given) - 1:
            return label_goes_on(wanted[at], label)  # and here the same holds of the rest
        if not label_fits(wanted[at], label):
            return False


def value_goes_on(low, high, known):
    """The known value bytes "can be continued to [...] a value in range"; "A range is a low and a high value, both included"."""
    rest = 8 - len(known)
    if rest < 0:
        return False
    least, greatest = known + b"\0" * rest, known + b"\xff" * rest
    return int.from_bytes(greatest, "big") >= low and int.from_bytes(least, "big") <= high
