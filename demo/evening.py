"""The evening of demo/hunt: the tally that each phone keeps over its hunts, by the library's own calls through the
program player; what the tallies join to; and beside it, worked out from the values alone, what they must join to.
Assumes nothing."""
import collections

import match
from programs import player

# One hunt: its number from 1 on, where its piece stands, what it is, the width of its grid, and each player's key.
Hunt = collections.namedtuple("Hunt", "number point value width keys")


class Phone:
    """A phone with its tally: four numbers, and the table. Of each hunt it sees its own key alone."""

    def __init__(self, board, number):
        self.number, self.board = number, board
        # Making clears the bytes that it is lent, whatever they are.
        self.table = self.asked("tally-make", b"\xFF" * (board.positions * board.valueBytes))

    def asked(self, call, given, *words):
        """What the player writes of one of the tally's calls."""
        numbers = self.board.players, self.number, self.board.positions, self.board.valueBytes
        return bytes.fromhex("".join(player([call] + [str(number) for number in numbers + words], given)))

    def add(self, hunt):
        key = hunt.keys[self.number]
        self.table = self.asked("tally-add", b"%d\n%s%s" % (len(key), key, self.table))

    def entries(self):
        """Its entry of every square, looked up one by one."""
        looked_up = self.asked("tally-look-up", self.table, *range(self.board.positions))
        return [match.entry(looked_up, self.board, position) for position in range(self.board.positions)]

    def total(self):
        return self.asked("tally-total", self.table)


def joined(board, sent):
    """Join shares of what all phones sent of each square: the XORs, one behind another."""
    words = [str(number) for number in (board.players, board.valueBytes, len(sent))]
    return bytes.fromhex("".join(player(["shares"] + words, b"".join(b"".join(shares) for shares in sent))))


def joined_table(board, phones):
    """All phones' entries, joined square by square."""
    return joined(board, list(zip(*[phone.entries() for phone in phones])))


def joined_total(board, phones):
    return joined(board, [[phone.total() for phone in phones]])


# ---- what they must join to ----

def xored(values, value_bytes):
    """The XOR of values, each of so many bytes. Nothing of the library's is asked."""
    joint = 0
    for value in values:
        joint ^= int.from_bytes(value, "big")
    return joint.to_bytes(value_bytes, "big")


def hidden_on(hunts, position):
    """The hunts whose piece stood on this square."""
    return [hunt for hunt in hunts if hunt.point == position]


def hidden_table(hunts, board):
    """On each square the XOR of all values that were hidden there."""
    squares = ([hunt.value for hunt in hidden_on(hunts, position)] for position in range(board.positions))
    return b"".join(xored(values, board.valueBytes) for values in squares)


def hidden_total(hunts, board):
    return xored([hunt.value for hunt in hunts], board.valueBytes)


# ---- in words ----

def counted(count, thing):
    return "%d %s%s" % (count, thing, "" if count == 1 else "s")


def order_words(hunts):
    """The numbers of hunts, in the order that they stand in."""
    return "hunt%s %s" % ("" if len(hunts) == 1 else "s", match.listed(hunt.number for hunt in hunts))


def square_words(place, hunts, shown):
    """What was hidden on one square, in which hunts, and what the joined tally has there."""
    values = [hunt.value.hex().upper() for hunt in hunts]
    pieces = match.listed("%s in hunt %d" % (value, hunt.number) for value, hunt in zip(values, hunts))
    has = "has %s there" % shown.hex().upper() if len(hunts) == 1 else "has their XOR there, %s" % shown.hex().upper()
    cancelled = ": equal values cancel" if len(set(values)) < len(values) else ""
    return "%s had a piece in %s: %s. The joined tally %s%s." % (place, counted(len(hunts), "hunt"), pieces, has, cancelled)
