"""Values that an attacker chose who knows the hashes of the library, which docs/lin_hash.md and the sources tell.

What must hold: `hash_of` is the hash by which declared hashes and joins find values, and `shown_hash` that of distinct selects.
"""

FIRST_HASH = 14695981039346656037
FACTOR = 1099511628211
# What an index keeps of a hash.
KEPT = 2**32
# A text whose hash is 0 in these bits, and two pieces after which it still is.
FRONT, PIECES = b"jrkyvP.", (b"BSZQFIG", b"humcy-E")
SHOWN_FACTOR = 11400714819323198485
UNSHOWN_FACTOR = pow(SHOWN_FACTOR, -1, 2**64)


def hash_of(content):
    """The hash of a value by its bytes: 0 and eight of an integer, the greatest first, or 1 and those of a text."""
    number = FIRST_HASH
    for byte in content:
        number = (number ^ byte) * FACTOR % 2**64
    return number


def texts_of_one_hash(count):
    """Texts whose hashes are equal in the bits that an index keeps."""
    places = range((count - 1).bit_length())
    return [FRONT + b"".join(PIECES[number >> place & 1] for place in places) for number in range(count)]


def shown_hash(integer):
    """The hash by which a distinct select finds rows that show this integer alone."""
    product = integer % 2**64 * SHOWN_FACTOR % 2**64
    return (product ^ product >> 32) * SHOWN_FACTOR % 2**64 // KEPT


def integers_shown_alike(count):
    """Integers that have one such hash."""
    mixed = (number * UNSHOWN_FACTOR % 2**64 for number in range(count))
    numbers = ((number ^ number >> 32) * UNSHOWN_FACTOR % 2**64 for number in mixed)
    return [number - 2**64 if number >= 2**63 else number for number in numbers]
