"""What the auditor finds."""
from dataclasses import dataclass, field

MOST = 200


@dataclass(frozen=True)
class Finding:
    """A sentence that doesn't hold at a line of a file, what was found there and what was wanted."""
    file: str
    line: int
    sentence: str
    found: str
    wanted: str

    def __str__(self) -> str:
        return f"{self.file}:{self.line}: {self.sentence}: found {self.found}; wanted {self.wanted}"


@dataclass
class Findings:
    """The findings of one file: the first of them, and how many there are."""
    file: str
    kept: list[Finding] = field(default_factory=list)
    count: int = 0

    def add(self, line: int, sentence: str, found: object, wanted: object) -> None:
        """One more finding."""
        self.count += 1
        if len(self.kept) < MOST:
            self.kept.append(Finding(self.file, line, sentence, str(found), str(wanted)))
