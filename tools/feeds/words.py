"""The words of one line of a text, taken one after the other, and what is wrong with them."""

from .binary32 import MINUS, nearest_bits


class BadText(Exception):
    """What is wrong, and in which line."""

    def __init__(self, line, what):
        super().__init__("line %d: %s" % (line, what))


class Line:
    """What is left of a line."""

    def __init__(self, number, text):
        self.number = number
        self.words = text.split("#", 1)[0].split()

    def bad(self, what):
        raise BadText(self.number, what)

    def next(self):
        return self.words.pop(0)

    def begins(self, word):
        """Whether that word is next; it is then taken."""
        if self.words[:1] != [word]:
            return False
        self.words.pop(0)
        return True

    def number_of(self, name, least, greatest):
        """The next word, a whole number from least to greatest."""
        word = self.next()
        sign, body = (-1, word[1:]) if word[:1] == "-" else (1, word)
        try:
            if not body.isascii():
                raise ValueError
            if body[:2] in ("0x", "0X") and body[2:].isalnum():
                value = sign * int(body[2:], 16)
            elif body.isdigit():
                value = sign * int(body)
            else:
                raise ValueError
        except ValueError:
            self.bad("%s is not a whole number: %s" % (name, word))
        if not least <= value <= greatest:
            self.bad("%s %s is not from %d to %d" % (name, word, least, greatest))
        return value

    def only_number(self, name, greatest):
        """The one number that is left, from 0."""
        if len(self.words) != 1:
            self.bad("%s needs one number" % name)
        return self.number_of(name, 0, greatest)

    def bits(self, name):
        """The number after the word `bits`."""
        if not self.words:
            self.bad("%s bits needs a number" % name)
        return self.number_of(name + " bits", 0, (1 << 32) - 1)

    def reading(self, name):
        """A decimal, or `bits` and a number."""
        if self.begins("bits"):
            return self.bits(name)
        word = self.next()
        body = word[1:] if word[:1] == "-" else word
        whole, point, part = body.partition(".")
        if not (whole.isascii() and whole.isdigit()) or len(body) > 80 \
                or point and not (part.isascii() and part.isdigit()):
            self.bad("%s is not a decimal number: %s" % (name, word))
        bits = nearest_bits(int(whole + part), 10 ** len(part))
        if bits is None:
            self.bad("%s %s is above every binary32" % (name, word))
        return bits | (MINUS if word[:1] == "-" else 0)

    def options(self, kind, known):
        """The `name number` pairs that are left; known is name: (least, greatest, default)."""
        values = {}
        while self.words:
            name = self.next()
            if name not in known:
                self.bad("%s does not know %s" % (kind, name))
            if name in values:
                self.bad("%s is given twice" % name)
            if not self.words:
                self.bad("%s needs a number" % name)
            least, greatest, _ = known[name]
            values[name] = self.number_of(name, least, greatest)
        return {name: values.get(name, default) for name, (_, _, default) in known.items()}
