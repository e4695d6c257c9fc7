"""What is to be said of something that is made of what was read: notes, and refusals."""

from __future__ import annotations

from typing import Sequence

# How much a note weighs; they are said in this order. An answer by the plan may be another than
# the machine's; a value was guessed; something else that one may want to know.
CHANGES, GUESSED, INFORMS = range(3)


def listed(words: Sequence[object]) -> str:
    """Words as in a sentence: `a`, `a and b`, `a, b and c`."""
    texts = [str(word) for word in words]
    return " and ".join([", ".join(texts[:-1])] * bool(texts[1:]) + texts[-1:])


class Findings:
    """What is to be said of a plan: notes by their weight, and `refusals`."""

    def __init__(self) -> None:
        self.weighed: list[tuple[int, str]] = []
        self.refusals: list[str] = []

    def note(self, text: str, weight: int = INFORMS) -> None:
        """Adds a note, with a weight of those above."""
        self.weighed.append((weight, text))

    def refuse(self, text: str) -> None:
        """Adds a refusal."""
        self.refusals.append(text)

    @property
    def notes(self) -> list[str]:
        """The notes, those that change the answer first."""
        return [text for _, text in sorted(self.weighed, key=lambda note: note[0])]
