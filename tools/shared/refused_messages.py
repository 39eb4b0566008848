"""The messages of data/ that break a rule, and where that shows."""
from .der import element, has, inside, members, place_of
from .messages import NONCES, has_negative_nonce, steps_of

# messages that break a rule: the steps to where that shows, how many bytes of it are consumed, and the error
REFUSED = {
    # a curve in full, where its name is wanted (RFC 5915, 3)
    "keys/ec-explicit.der": ("A0.30", 1, "InvalidData"),
    # an explicit tag where an implicit one is wanted (RFC 5652, 12.1), which is only looked at
    "keys/hxtool-signed.der:A0": ("131.30.A0", 0, "InvalidData"),
    "keys/hxtool-enveloped.der:A0": ("31.30.A0", 0, "InvalidData"),
    # an explicit tag where an implicit one is wanted (RFC 5755, B)
    "bouncycastle/attributes-name.der:30.330.130.31.30.": ("A0.30", 0, "InvalidData"),
    # no attributes, where the set is wanted, if only empty (RFC 2986, 4.1): the end of what is signed comes too early
    "bouncycastle/request-no-attributes.der": ("30", None, "TruncatedData"),
}
# the sets that some programs leave unsorted, of each type
UNSORTED = {"der_cms::SignedData": 0xA0, "der_cms::EnvelopedData": 0x31}


def refusal(kind: str, name: str, data: bytes) -> str | None:
    """The answer for a message that isn't DER or has another value than its type, or None."""
    if name in REFUSED:
        steps, taken, error = REFUSED[name]
        place = place_of(data, *steps_of(steps))
        return f"refused {error} at {element(data, place)[2] if taken is None else place + taken}"
    if has_negative_nonce(kind, data):
        return f"refused UnsupportedValue at {element(data, place_of(data, *NONCES[kind]))[2]}"
    if kind in UNSORTED and has(data, UNSORTED[kind]):
        parts, (_, content, end) = members(inside(data, UNSORTED[kind])), element(data, place_of(data, UNSORTED[kind]))
        for index in range(1, len(parts)):
            if parts[index] < parts[index - 1]:
                return f"refused InvalidData at {end - len(content) + sum(map(len, parts[: index + 1]))}"
    return None
