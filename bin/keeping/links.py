"""Links that only repeat themselves. Where many letters wait in both directions of two providers, both links fill, and no
answer finds room: in one round letters are put, in the next one each is a repeat, and so on, with nothing learned."""

import collections

PERIOD = 2
ROUNDS = 8  # how many that are as those a period before are enough
LEARNED = ("took", "charged", "learned", "acked", "decided", "anomaly", "dropped")
AFTER = 12  # rounds behind the one that a provider lets pass


class Links:
    def __init__(self, providers):
        self.providers, self.block, self.alike, self.turn = providers, [], 0, 0
        self.past = collections.deque([()] * PERIOD, PERIOD)

    def hear(self, line):
        """A line of the program. The block of a round is complete with `round`."""
        if line.startswith("http "):
            self.block = []
        elif line != "round":
            self.block.append(line)
        else:
            # (the lines of clocks name no provider)
            block = tuple(one for one in self.block if one.split(" ")[0] in self.providers)
            self.alike = self.alike + 1 if block == self.past[0] else 0
            self.past.append(block)
            self.block = []

    def moved(self):
        """Whether the last round had letters."""
        return bool(self.past[-1])

    def said(self):
        """The name and the word of each line of the last rounds."""
        return [tuple(line.split(" ")[:2]) for block in self.past for line in block]

    def only_repeat(self):
        """Whether the last rounds were alike, and had repeats alone."""
        words = {word for _, word in self.said()}
        return self.alike >= ROUNDS and "repeat" in words and not words & set(LEARNED)

    def settling(self, moment):
        """The script by which one provider lets a round pass, each time another one: its clock is looked at one moment
        ahead, and it has no turn in a round that comes before that."""
        repeating = [name for name in self.providers if (name, "repeat") in self.said()]
        name = repeating[self.turn % len(repeating)]
        self.turn, self.alike = self.turn + 1, 0
        return name, f"tick {name} {moment + 1}\nround {moment}\n" + f"round {moment + 1}\n" * AFTER
