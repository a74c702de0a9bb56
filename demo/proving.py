"""How far the proving is, in words: a function from the crates that are proved and the seconds that passed to "proving 12 of 38, about
3 minutes left". Assumes that crates.txt names for each crate those that it uses, and that rt builds these first, in the order of its line, and
says which crate it begins and that this is proved. Of a crate that was proved before it says nothing."""
import re

GOALS = ("dealer", "joiner", "nosingginger_c")     # the two programs and the C library: what the hunt runs

# Seconds that rt of an older kit took for each crate in one run on two processors. Only how they compare with each other matters, and that little: a crate
# that is not named here counts as the usual one. Beside another run (tests/hunt/second-run.txt, 282 seconds) the time left was wrong by 23
# seconds on average; by the sizes of the crates' files it would have been by 77, and with all crates alike by 49.
SECONDS = {
    "xor": 3, "writer": 4, "reader": 2, "chacha20": 11, "grid": 7, "digits": 3, "chacha20_lanes": 7, "chacha20_words": 7, "text": 7,
    "keys": 3, "grid_arrays": 5, "chacha20_lane_blocks": 7, "chacha20_blocks": 6, "key_header": 13, "deal_marks": 6, "seed_row": 9,
    "key_lengths": 4, "seed_rows": 8, "key_marks": 5, "deal_grid_rows": 11, "key_check": 9, "open_grid_row": 11, "deal_last_word": 8,
    "call_answers": 3, "open_key": 9, "deal_keys": 9, "join_shares_call": 6, "deal_call": 9, "open_call": 10, "program_output": 5,
    "join_keys_call": 11, "nosingginger": 8, "promises": 5, "program_deal": 13, "program_join": 11, "dealer": 8, "joiner": 8,
    "nosingginger_c": 10,
}
USUAL = 7
# That run took 199 seconds for all of them together, as crates were proved side by side. Its pace counts as much as this many seconds of
# work that were measured, so that the first crates alone, quick or slow, do not make the time left jump.
PACE = 199 / sum(SECONDS.values())
BELIEVED = 60


def crates_needed(listed, goals=GOALS):
    """The crates that the goals stand on, themselves among them, by the text of crates.txt, in the order in which rt comes to them."""
    below, needed = {}, []
    for line in listed.splitlines():
        name, colon, used = line.partition("#")[0].partition(":")
        if colon:
            below[name.split()[0]] = used.split()   # a word behind the name says what kind of crate it is

    def need(name):
        if name in below and name not in needed:    # what is not listed comes with the kit
            for other in below[name]:
                need(other)
            needed.append(name)

    for goal in goals:
        need(goal)
    return needed


def work(names):
    return sum(SECONDS.get(name, USUAL) for name in names)


def seconds_left(done, left, seconds):
    """How long the crates `left` will take, when those of `done` took `seconds` together."""
    return work(left) * (seconds + BELIEVED * PACE) / (work(done) + BELIEVED)


def time_words(seconds):
    """Roughly how long, to the half minute below two minutes and to the minute above."""
    if seconds < 20:
        return "some seconds"
    if seconds < 45:
        return "half a minute"
    minutes = max(1, round(seconds / 60))
    return "about 1 minute" if minutes == 1 else "about %d minutes" % minutes


def progress_words(done, left, seconds):
    """What is said when the crates of `done` were proved in `seconds`, and those of `left` are still to be."""
    return "proving %d of %d, %s left" % (min(len(done) + 1, len(done) + len(left)), len(done) + len(left),
                                          time_words(seconds_left(done, left, seconds)))


class Progress:
    """Follows what rt writes. A crate that was proved in an earlier run is neither done nor left: it is not counted."""

    def __init__(self, needed):
        self.done, self.left, self.begun = [], list(needed), None

    def proved(self, name):
        if name in self.left:
            self.left.remove(name)
            self.done.append(name)

    def read(self, line):
        """Takes one line of rt's. Answers whether a crate was proved by it. What rt has come past without a word was proved before."""
        begins = re.match(r"rt: chose --jobs \d+ for (\w+)$", line.rstrip())
        if begins:
            self.begun = begins.group(1)
            if self.begun in self.left:
                del self.left[:self.left.index(self.begun)]
        if not line.startswith("logic=proved ") or self.begun not in self.left:
            return False
        self.proved(self.begun)
        return True
