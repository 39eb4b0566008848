"""Elements of DER, as far as a script needs them to take a message apart and to damage it.

A step to a member is its tag, for the first one with that tag, or the tag and 0x100 for the second one.
"""


def element(data, at=0):
    """The tag, the content and the end of the element at this place, whose tag is one byte."""
    tag, length, begin = data[at], data[at + 1], at + 2
    if length >= 0x80:
        count = length & 0x7F
        length, begin = int.from_bytes(data[begin : begin + count], "big"), begin + count
    if begin + length > len(data):
        raise ValueError(f"the element at {at} ends after the data")
    return tag, data[begin : begin + length], begin + length


def encoded(tag, content):
    """An element of DER."""
    length = len(content)
    if length < 0x80:
        return bytes([tag, length]) + content
    octets = length.to_bytes((length.bit_length() + 7) // 8, "big")
    return bytes([tag, 0x80 | len(octets)]) + octets + content


def members(content):
    """The elements of a content, with all their bytes."""
    found, at = [], 0
    while at < len(content):
        end = element(content, at)[2]
        found.append(content[at:end])
        at = end
    return found


def children(content):
    """The elements of a content, each with its tag and all its bytes."""
    return [(it[0], it) for it in members(content)]


def index_of(parts, step):
    """Which of these elements a step leads to. Raises a StopIteration if there is none."""
    found = (index for index, it in enumerate(parts) if it[0] == step & 0xFF)
    for _ in range(step >> 8):
        next(found)
    return next(found)


def inside(data, *steps):
    """The content of what these steps lead to, from the content of the data on."""
    _, content, _ = element(data)
    for step in steps:
        parts = members(content)
        content = element(parts[index_of(parts, step)])[1]
    return content


def has(data, *steps):
    """Whether these steps lead to something."""
    try:
        inside(data, *steps)
    except StopIteration:
        return False
    return True


def number(data, *steps):
    """The INTEGER that these steps lead to."""
    return int.from_bytes(inside(data, *steps), "big", signed=True)


def place_of(data, *steps):
    """Where the element begins that these steps lead to, as far as the elements before it and around it are DER."""
    place = 0
    for step in steps:
        _, content, end = element(data, place)
        place, left = end - len(content), step >> 8
        while data[place] != step & 0xFF or left:
            left -= data[place] == step & 0xFF
            place = element(data, place)[2]
    return place


def changed(data, steps, change):
    """The element with a change of what these steps lead to, a function of that element, and the headers around it made anew."""
    if not steps:
        return change(data)
    tag, content, _ = element(data)
    parts = members(content)
    index = index_of(parts, steps[0])
    parts[index] = changed(parts[index], steps[1:], change)
    return encoded(tag, b"".join(parts))
