"""Scripts with spoiled lines: words are left out, doubled, swapped or written differently."""

from collections import Counter

from made_up.maker import Maker
from made_up.sessions import make_sessions
from made_up.views import make_interfaces
from model.scripts import told_by

NUMBERS = "0 -0 +1 -1 01 1.5 1e3 255 65535 65536 2147483647 2147483648 -2147483648 -2147483649 4294967296".split()
NUMBERS += [str(number) for number in (2**63 - 1, 2**63, -(2**63), -(2**63) - 1, 2**64 - 1, 2**64, 2**128)]
WORDS = NUMBERS + (
    'root Root start end common all hidden clips =1 a= "" "a "\\n" "\\t" document_end Other(7) Other(65536) Other() print'
    " 00000000-0000-0000-0000-000000000001 {00000000-0000-0000-0000-000000000001} 00000000000000000000000000000001"
).split(" ")


def leave_out(dice, words, at):
    """A word is left out."""
    del words[at]


def double(dice, words, at):
    """A word is doubled."""
    words.insert(at, words[at])


def exchange(dice, words, at):
    """Two words are exchanged."""
    other = dice.randrange(len(words))
    words[at], words[other] = words[other], words[at]


def replace(dice, words, at):
    """Another word stands in its place, or comes before it."""
    words[at : at + dice.randrange(2)] = [dice.choice(WORDS)]


def revalue(dice, words, at):
    """A field gets another value."""
    words[at] = words[at].partition("=")[0] + "=" + dice.choice(WORDS)


def respell(dice, words, at):
    """A byte of a word is left out, doubled, or another one."""
    word = words[at] or " "
    index = dice.randrange(len(word))
    words[at] = word[:index] + dice.choice(["", word[index] * 2, " ", ",", "\t", '"', "\\", "9", "\u00e4"]) + word[index + 1 :]


WAYS = [leave_out, double, exchange, replace, replace, revalue, respell, respell]


def spoiled(seed):
    """A script with one spoiled line, what the model says of it, the number of its bad line, if it has one, and what was
    met."""
    maker = Maker(seed)
    dice = maker.dice
    dice.choice([make_sessions, make_interfaces])(maker)
    lines = [step.line for step in maker.steps]
    at = dice.randrange(len(lines))
    words = lines[at].split(" ")
    dice.choice(WAYS)(dice, words, dice.randrange(len(words)))
    kind = lines[at].split(" ")[0]
    lines[at] = " ".join(words)
    script = "".join(line + "\n" for line in lines).encode()
    told, bad = told_by(script)
    outcome = "well" if bad is None else "bad" if bad == at + 1 else "bad elsewhere"
    return script, told, bad, Counter([f"{kind}: {outcome}", outcome] if kind and kind[0] != "#" else [outcome])
