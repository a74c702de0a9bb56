"""A published match from whatever a person has of it: keys found in files and texts, each checked, put in the players' order, and joined. The
same as web/match.mjs, step by step and with the sentences of web/words.mjs; tests/match holds both to the same cases. What a key is and what
keys join to are answers of the library's calls (class Library of demo/programs.py); worked out here is which bytes are a key, and how a
person would name what is wrong. Assumes nothing of the bytes; nothing here fails for what they are."""
import collections
import hashlib
import json
import os
import re

MOST_KEYS = 6
# The shortest key there is: of two players, one position and one byte. Fewer bytes are not asked about.
LEAST_KEY_BYTES = 40
SQUARES_IN_A_LINE = 8
# Of a text that has nothing to do with keys not every line is named.
MOST_WRONG = 5
# All keys of the largest board have 1,579,056 bytes; written as text, they are some times longer.
MOST_FILE_BYTES = 16 * 1024 * 1024
# Refusals of refusals.txt that are told from each other here.
PLAYER, LENGTH, MARKS = 11, 12, 13

Header = collections.namedtuple("Header", "players player positions width valueBytes")


def words_of(text):
    """The sentences of web/words.mjs: what stands between its braces is JSON."""
    return json.loads(text[text.index("{", text.index("WORDS")):text.rindex("}") + 1])


with open(os.path.join(os.path.dirname(os.path.abspath(__file__)), "..", "web", "words.mjs"), encoding="utf-8") as file:
    WORDS = words_of(file.read())


def sentence(name, **values):
    """A sentence of WORDS with what belongs in its braces."""
    return re.sub(r"\{(\w+)\}", lambda brace: str(values[brace.group(1)]), WORDS[name])


def listed(things):
    things = [str(thing) for thing in things]
    return "".join(things) if len(things) < 2 else "%s and %s" % (", ".join(things[:-1]), things[-1])


def fingerprint(key):
    """SHA-256 of a key's bytes, as 64 digits in groups of four."""
    return " ".join(re.findall("....", hashlib.sha256(key).hexdigest().upper()))


# ---- the keys in bytes ----

def long_as_asked(library, key):
    """Whether these bytes are as long as their header asks: Check key accepts them, or has only their marks to refuse."""
    return library.check(key)[1] in (None, MARKS)


def is_accepted(library, key):
    return len(key) >= LEAST_KEY_BYTES and library.check(key)[1] is None


def asked_length(library, given):
    """How long the key that begins these bytes says it is; None where no key begins them."""
    header = header_numbers(given)
    return None if header is None else library.key_length(header)


def keys_by_headers(library, given):
    """The keys in these bytes by the length that each asks for, and what is left behind the last; none where not two of them are whole."""
    parts, at = [], 0
    while len(given) - at >= LEAST_KEY_BYTES:
        asked = asked_length(library, given[at:])
        if asked is None or asked > len(given) - at or not long_as_asked(library, given[at:at + asked]):
            break
        parts.append(given[at:at + asked])
        at += asked
    if len(parts) < 2:
        return []
    return parts if at == len(given) else parts + [given[at:]]


def keys_apart(library, given):
    """The keys that stand one after another in these bytes, cut in equal parts or by their headers; all of them as one, where neither gives
    a key."""
    best, most = [given], 0
    for many in range(1, MOST_KEYS + 1):
        long = len(given) // many
        if len(given) % many != 0 or long < LEAST_KEY_BYTES:
            continue
        parts = [given[place * long:(place + 1) * long] for place in range(many)]
        fitting = sum(1 for part in parts if long_as_asked(library, part))
        if fitting > most:
            best, most = parts, fitting
    return best if most else keys_by_headers(library, given) or best


# ---- the keys in a text ----

BREAKS = re.compile("\r\n?|[\u000B\u000C\u0085\u2028\u2029]")
UNSEEN = re.compile("[\u200B-\u200D\u2060\uFEFF]")
SPACES = re.compile("[\t\u00A0\u1680\u2000-\u200A\u202F\u205F\u3000]")
# What people and programs put around a line: mail's quotes, bullets, quotation marks, brackets, fences.
BEFORE = " >|*\u2022\u2013\"'\u201C\u201D\u201E\u2018\u2019\u00AB\u00BB`[](){}-"
BEHIND = " \"'\u201C\u201D\u2018\u2019\u00AB\u00BB`[](){},;.="
LABEL = re.compile("^player *#?([0-9]{1,2})[\"'\u201D\u2019]*(?:s? key)? *[:=.)-]* *", re.IGNORECASE | re.ASCII)
NUMBERED = re.compile("^(?:[0-9]{1,3}(?:[.)\\]]+:? *|: +)|#[0-9]{1,3}[.:)\\]]* +)")
# Any other name in front of digits: "Anna: 0400..".
NAMED = re.compile("^.{1,80}?[:=] *(?=[0-9A-Fa-f][0-9A-Fa-f ,;:_-]{31,}$)")
COMMENT = re.compile("^(?:#|//)")
NO_DIGIT = re.compile("[^0-9A-Fa-f]")
# A row of letters and digits that is long enough to be a fingerprint or a part of a key; the shortest key there is has 40 bytes.
LONG_ROW = re.compile("[0-9A-Za-z]{40,}")
PRINT_BYTES = 32
# A row of fewer signs, some of which are no digits, is a word rather than a damaged key.
LEAST_DAMAGED = 16
CONTROL = re.compile("[\u0000-\u0008\u000E-\u001F\u007F]")

# One line of a text: its number, the player that it says it is of, whether a key begins with it, its hexadecimal digits, and a sign that is
# none.
Line = collections.namedtuple("Line", "number text label begins digits other")
# A key that was found: its bytes, where, and the player that the line says it is of.
Found = collections.namedtuple("Found", "bytes origin label")


def digits_of(text):
    """A line without what stands between digits."""
    return re.sub("[ ,;:_-]", "", re.sub(r"\b0x", "", text, flags=re.IGNORECASE | re.ASCII))


def read_line(number, text):
    rest = text.lstrip(BEFORE).rstrip(BEHIND)
    label = LABEL.search(rest)
    numbered = label or NUMBERED.search(rest) or (NAMED.search(rest) if NO_DIGIT.search(digits_of(rest)) else None)
    if numbered:
        rest = rest[numbered.end():].lstrip(BEFORE)
    elif COMMENT.search(rest):
        rest = ""
    digits = digits_of(rest)
    other = NO_DIGIT.search(digits)
    return Line(number, text, int(label.group(1)) if label else None, bool(numbered), digits, other and other.group())


def rows_of(line):
    """The long rows of letters and digits in a line, whatever stands around them."""
    return [re.sub("^0[xX]", "", row) for row in LONG_ROW.findall(line.text)]


def has_print(line):
    """A line of words around a fingerprint."""
    rows = rows_of(line)
    return len(rows) == 1 and len(rows[0]) == 2 * PRINT_BYTES and not NO_DIGIT.search(rows[0])


def is_words(line):
    """Whether a line with a sign that is no digit is words, or a fingerprint among words, and not a key in which something was changed."""
    signs, digits = len(line.digits), len(line.digits) - len(NO_DIGIT.findall(line.digits))
    return signs < LEAST_DAMAGED or 5 * digits < 4 * signs or has_print(line)


def read_amidst(library, line, name):
    """What a line has amidst words, where one of its long rows is a key: each row is a key, or is named. None where none is a key."""
    found, damage, where = [], [], where_of(name, [line])
    for row in rows_of(line):
        other = NO_DIGIT.search(row)
        if other:
            damage.append(sentence("no digit", where=where, sign=other.group()))
        elif len(row) % 2:
            damage.append(sentence("odd digits", where=where, count=len(row)))
        else:
            found += [(line, key) for key in keys_apart(library, bytes.fromhex(row))]
    return (found, damage, []) if any(is_accepted(library, key) for _, key in found) else None


def blocks_of(text):
    """The lines that belong together, and whose they say they are: a labelled or numbered line begins a block; an empty one and words end it."""
    blocks, is_open = [], False
    for index, text_line in enumerate(SPACES.sub(" ", UNSEEN.sub("", BREAKS.sub("\n", text))).split("\n")):
        line = read_line(index + 1, text_line)
        apart = line.other is not None and is_words(line)
        if line.begins or apart or (line.digits and not is_open):
            blocks.append((line.label, []))
        is_open = not apart and (line.begins or line.digits != "")
        if line.digits:
            blocks[-1][1].append(line)
    return [(label, lines) for label, lines in blocks if lines]


def by_line(lines):
    """A key to each of these lines, where each has whole bytes."""
    if any(len(line.digits) % 2 for line in lines):
        return []
    return [(line, bytes.fromhex(line.digits)) for line in lines]


def run_on(library, lines):
    """The bytes of these lines run on, cut in keys; each stands where its first byte does."""
    digits = "".join(line.digits for line in lines)
    if len(digits) % 2:
        return []
    found, ends, end = [], [], 0
    for line in lines:
        end += len(line.digits)
        ends.append(end)
    start = 0
    for part in keys_apart(library, bytes.fromhex(digits)):
        found.append((next(line for line, end in zip(lines, ends) if start < end), part))
        start += 2 * len(part)
    return found


def keys_of_block(library, lines):
    """The keys of one block: a key to each line, or bytes that run on over the lines, whichever is accepted more often."""
    if len(lines) == 1:
        return run_on(library, lines)
    ways = [by_line(lines), run_on(library, lines)]
    line_count, run_on_count = [sum(1 for _, key in way if is_accepted(library, key)) for way in ways]
    alike = ways[0] and all(len(key) == len(ways[0][0][1]) and key[0] == ways[0][0][1][0] for _, key in ways[0])
    return ways[0] if line_count > run_on_count or (line_count == run_on_count and alike) else ways[1]


def where_of(name, lines):
    first, last = lines[0].number, lines[-1].number
    return "%s%s" % (name and name + ", ", "line %d" % first if first == last else "lines %d to %d" % (first, last))


def odd_words(lines, name):
    return sentence("odd digits", where=where_of(name, lines), count=sum(len(line.digits) for line in lines))


def wrong_words(line, name):
    where = where_of(name, [line])
    return sentence("fingerprint", where=where) if has_print(line) else sentence("no digit", where=where, sign=line.other)


def read_line_alone(library, line, name):
    """What is in a line by itself: keys, what may be a damaged one, and words."""
    amidst = read_amidst(library, line, name)
    if amidst:
        return amidst
    if line.other is not None:
        said = [wrong_words(line, name)]
        return ([], [], said) if is_words(line) else ([], said, [])
    return (by_line([line]), [], []) if len(line.digits) % 2 == 0 else ([], [odd_words([line], name)], [])


def read_each(library, lines, name):
    """What is in these lines, each by itself."""
    reads = [read_line_alone(library, line, name) for line in lines]
    return tuple([one for read in reads for one in read[place]] for place in range(3))


def read_block(library, lines, name):
    """The keys of one block, and what is wrong with it: sentences of what may be a damaged key, and of words."""
    is_digits = all(line.other is None for line in lines)
    runs = keys_of_block(library, lines) if is_digits else []
    if any(is_accepted(library, key) for _, key in runs):
        return runs, [], []
    each = read_each(library, lines, name)
    if any(is_accepted(library, key) for _, key in each[0]) or (not is_digits and len(lines) == 1):
        return each
    # No line is a key by itself: these are parts of one, in which something was changed.
    if is_digits:
        return (runs, [], []) if runs else ([], [odd_words(lines, name)], [])
    damage = [wrong_words(line, name) for line in lines if line.other is not None]
    return [], damage + [sentence("left out", where=where_of(name, lines))], []


def limited(library, found, problems, where):
    """Not more refused keys and sentences of one text than a person reads; how many more there are is said."""
    if not found and not problems:
        return [], [sentence("empty", where=where)]
    refused = [key for key in found if not is_accepted(library, key.bytes)]
    dropped = {id(key) for key in refused[MOST_WRONG:]} if len(refused) > MOST_WRONG + 1 else set()
    shown = problems[:MOST_WRONG] if len(problems) > MOST_WRONG + 1 else problems
    count = len(dropped) + len(problems) - len(shown)
    keys = [key for key in found if id(key) not in dropped]
    return keys, shown + ([sentence("more wrong", where=where, count=count)] if count else [])


def keys_of_text(library, text, name=""):
    """The keys in a text, and what could not be read. A line that is no hexadecimal takes none of the others with it; what may be a damaged
    key is named before words are."""
    found, damage, words = [], [], []
    for label, lines in blocks_of(text):
        keys, damaged, said = read_block(library, lines, name)
        labelled = len(keys) == 1 and keys[0][0] is lines[0]
        found += [Found(key, where_of(name, [line]), label if labelled else None) for line, key in keys]
        damage += damaged
        words += said
    # As many bytes as a fingerprint has, for no more than there are players; more are parts of something else.
    prints = [key for key in found if len(key.bytes) == PRINT_BYTES]
    if len(prints) <= MOST_KEYS:
        found = [key for key in found if len(key.bytes) != PRINT_BYTES]
        damage += [sentence("fingerprint", where=key.origin) for key in prints]
    return limited(library, found, damage + words, name or "the text")


def text_of(given):
    """The text that these bytes are, in UTF-8 or, with its mark, UTF-16, or else a byte to a sign; None where they are none. A binary key
    never begins as a text does."""
    wide = {b"\xFF\xFE": "utf-16-le", b"\xFE\xFF": "utf-16-be"}.get(given[:2])
    try:
        text = given.decode(wide or "utf-8")
    except UnicodeDecodeError:
        if wide:
            return None
        text = given.decode("latin-1")
    return None if CONTROL.search(text) else text


def keys_of_file(library, given, name):
    """The keys in a file, and what could not be read: text, or binary with one key or several one after another."""
    if len(given) > MOST_FILE_BYTES:
        return [], [sentence("too long", where=name)]
    if not given:
        return [], [sentence("empty", where=name)]
    text = text_of(given)
    if text is not None:
        return keys_of_text(library, text, name)
    parts = keys_apart(library, given)
    return [Found(part, name if len(parts) == 1 else "%s, part %d" % (name, place + 1), None) for place, part in enumerate(parts)], []


def match_text(keys):
    """The whole match as a text: a line for each key, in the players' order."""
    return "".join("player %d: %s\n" % (player, key.hex().upper()) for player, key in enumerate(keys))


# ---- what the keys are ----

def header_numbers(key):
    """The five numbers that these bytes begin with, as a key's header has them; None where they are cut short."""
    numbers, at = [], 0
    while len(numbers) < 5:
        number, shift = 0, 0
        while True:
            if at == len(key) or shift > 14:
                return None
            number |= (key[at] & 127) << shift
            shift += 7
            at += 1
            if key[at - 1] < 128:
                break
        numbers.append(number)
    return Header(*numbers)


def refused_words(library, key, refusal):
    """Why a key by itself is refused, as a person would say it."""
    if refusal == MARKS:
        return sentence("damaged")
    if refusal == PLAYER:
        return sentence("no such player")
    if refusal != LENGTH:
        return sentence("no key")
    asked = library.key_length(header_numbers(key))
    return sentence("cut short" if len(key) < asked else "too many bytes", bytes=len(key), asked=asked)


def board_in(header):
    """What a header says of its board: all but the player."""
    return header._replace(player=None)


def other_board_words(header, board):
    """How a key's board differs from that of the match."""
    if header.players != board.players:
        return sentence("other players", players=WORDS["numbers"][header.players])
    if header.positions != board.positions:
        return sentence("other squares", positions=header.positions)
    if header.width != board.width:
        return sentence("other width", width=header.width)
    return sentence("other value", valueBytes=header.valueBytes)


def board_of(headers):
    """The board of the match: the first for which all players' keys are here; else the first of those with most."""
    here = collections.OrderedDict()
    for header in headers:
        here.setdefault(board_in(header), set()).add(header.player)
    best = None
    for board, players in here.items():
        worth = (len(players) == board.players, len(players))
        if best is None or worth > best[0]:
            best = worth, board
    return best and best[1]


class Key:
    """A key beside the others of a match. `header` or `refusal` is Check key's answer; `state` is used, copy, conflict, other or refused;
    `words` is what a person is to be told of it, or None."""

    def __init__(self, library, found):
        self.bytes, self.origin, self.label = found
        self.header, self.refusal = library.check(self.bytes)
        self.state, self.words = None, None

    def stand(self, library, before, board):
        """What is to be said of it beside those before it, and whether the match can do without it."""
        if self.refusal is not None:
            self.state, self.words = "refused", refused_words(library, self.bytes, self.refusal)
            return
        if board_in(self.header) != board:
            self.state, self.words = "other", other_board_words(self.header, board)
            return
        player = self.header.player
        earlier = [key.bytes for key in before if key.header == self.header]
        self.state = "copy" if self.bytes in earlier else "conflict" if earlier else "used"
        if earlier:
            self.words = sentence(self.state, player=player)
        elif self.label not in (None, player):
            self.words = sentence("other label", label=self.label, player=player)


# The keys as given, each standing; the match's board; its keys by player, None where one is missing; who is missing, and that in words; the
# joined table, or the library's refusal to join what is here.
Examined = collections.namedtuple("Examined", "keys board players missing missing_words joined refusal")


def examine(library, found):
    """Checks each key, puts those of the match in the players' order, and joins them when none is missing and no two speak against each
    other."""
    keys = [Key(library, one) for one in found]
    board = board_of([key.header for key in keys if key.header])
    for place, key in enumerate(keys):
        key.stand(library, keys[:place], board)
    if board is None:
        return Examined(keys, None, [], [], None, None, None)
    used = {key.header.player: key for key in keys if key.state == "used"}
    players = [used.get(player) for player in range(board.players)]
    missing = [player for player, key in enumerate(players) if key is None]
    missing_words = sentence("missing", player=missing[0]) if len(missing) == 1 else None
    if len(missing) > 1:
        missing_words = sentence("several missing", players=listed(missing))
    in_order = sorted((key for key in keys if key.state in ("used", "conflict")), key=lambda key: key.header.player)
    joined, refusal = library.join(b"".join(key.bytes for key in in_order))
    return Examined(keys, board, players, missing, missing_words, joined, refusal)


# ---- what they join to ----

def entry(table, board, position):
    return table[position * board.valueBytes:(position + 1) * board.valueBytes]


def marked(table, board):
    """The positions whose entry is not zero."""
    return [position for position in range(board.positions) if any(entry(table, board, position))]


def square_words(position, sensor):
    """A square in words; `sensor` is None where the board is not the spring board."""
    return sentence("square" if sensor is None else "square with sensor", position=position, line=position // SQUARES_IN_A_LINE,
                    column=position % SQUARES_IN_A_LINE, sensor=sensor)


def joined_words(table, board, sensor_of):
    """What a joined table shows, in a sentence: the piece, several squares, or none."""
    found = marked(table, board)
    if not found:
        return sentence("zero")
    if len(found) > 1:
        return sentence("several", count=len(found))
    return sentence("piece", place=square_words(found[0], sensor_of(found[0])), value=entry(table, board, found[0]).hex().upper())
