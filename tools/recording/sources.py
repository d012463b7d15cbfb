"""Where a recorder's answers come from: the accessibility bus or a browser, with what is answered kept in a file, or such a file alone.

A recording is a row of steps: `begin`, `turn`, .. Within a step the recorder asks questions. What was answered is kept by question, and
again only where it differs from the last answer to the same question. So a recording can be replayed without a bus or a browser.
"""

import gzip
import json

ATSPI, ROOT, NOTHING = "org.a11y.atspi.", "/org/a11y/atspi/accessible/root", "/org/a11y/atspi/null"
REGISTRY = "/org/a11y/atspi/registry"


class Keeper:
    """Keeps the steps of a recording, each with what came by itself and what was answered."""

    def __init__(self, path, about):
        self.path, self.about, self.steps, self.answers = path, about, [], {}

    def step(self, name, given):
        self.steps.append({"step": name, "given": given, "answers": {}})

    def answered(self, of, question, answer):
        """Keeps an answer; `of` is what was asked, as the path of an accessible."""
        answer = json.loads(json.dumps(answer))
        if (of, question) not in self.answers or self.answers[of, question] != answer:
            self.answers[of, question] = answer
            self.steps[-1]["answers"].setdefault(of, {})[question] = answer

    def note(self, name, value):
        """Keeps what the recorder saw in this step besides."""
        self.steps[-1][name] = value

    def save(self):
        """Writes the file, whose bytes depend on what was kept alone."""
        text = json.dumps({**self.about, "steps": self.steps}, ensure_ascii=False, separators=(",", ":"))
        with open(self.path, "wb") as file:
            file.write(gzip.compress(text.encode("utf-8", "surrogatepass"), 9, mtime=0))


class Kept:
    """What was kept, answered again: the last answer to a question up to the present step, or else none."""

    def __init__(self, kept):
        self.about, self.steps, self.answers, self.at = kept, kept["steps"], {}, {}

    @classmethod
    def read(cls, path):
        with gzip.open(path) as file:
            return cls(json.loads(file.read().decode("utf-8", "surrogatepass")))

    def go(self):
        """Goes to each step: its name, and what came by itself."""
        for step in self.steps:
            self.at = step
            for of, answers in step["answers"].items():
                self.answers.setdefault(of, {}).update(answers)
            yield step["step"], step["given"]

    def ask(self, questions):
        """The answers to questions, each a pair: what is asked, and what of it."""
        return [self.answers.get(of, {}).get(question) for of, question in questions]
