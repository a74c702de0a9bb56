"""The deck that demo/hunt draws a card from: 52 cards of 32 bytes. A card is its name, filled up with spaces, and
behind it bytes of the name's SHA-256, by which whoever has no deck sees that a card came whole. Assumes nothing."""
import hashlib

RANKS = ["ace", "two", "three", "four", "five", "six", "seven", "eight", "nine", "ten", "jack", "queen", "king"]
SUITS = ["spades", "hearts", "diamonds", "clubs"]
NAMES = ["%s of %s" % (rank, suit) for suit in SUITS for rank in RANKS]     # a card's number is its place here
BYTES = 32
NAME_BYTES = max(map(len, NAMES))
CHECK_BYTES = BYTES - NAME_BYTES


def check_of(name):
    return hashlib.sha256(name).digest()[:CHECK_BYTES]


def card_of(name):
    """The bytes of the card of this name."""
    return name.encode().ljust(NAME_BYTES) + check_of(name.encode())


DECK = b"".join(map(card_of, NAMES))


def name_of(card):
    """The name that stands on a card; None where the bytes behind it are not the name's."""
    name = card[:NAME_BYTES].rstrip()
    return name.decode("ascii", "replace") if card[NAME_BYTES:] == check_of(name) else None
