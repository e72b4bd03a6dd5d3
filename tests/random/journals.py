"""Random journals of either version, for `audit` and `migrate`: those of random scripts, whole, cut, or with one line, field or byte another."""
import re

import scripts
from explaining import journal_errors
from journal import ANSWERS, HEADER, entry_of


def changed(chance, lines):
    """The lines with one left out, twice, elsewhere, of another number, or spoilt."""
    if not lines:
        return lines
    at, kind = chance.randrange(len(lines)), chance.randrange(5)
    line = lines[at]
    if kind == 0:
        return lines[:at] + lines[at + 1 :]
    if kind == 1:
        return lines[:at] + [line] + lines[at:]
    if kind == 2:
        rest = lines[:at] + lines[at + 1 :]
        to = chance.randrange(len(lines))
        return rest[:to] + [line] + rest[to:]
    if kind == 3:
        numbers = [found.span() for found in re.finditer(r"(?<= )[0-9]+(?= |$)", line)]
        start, end = chance.choice(numbers) if numbers else (len(line), len(line))
        other = chance.choice((0, 1, 2, 5, 1024, 2048, 4096, 1 << 44, (1 << 44) + 1, 1 << 46, 1 << 64))
        return lines[:at] + [line[:start] + str(other) + line[end:]] + lines[at + 1 :]
    return lines[:at] + [scripts.spoilt(chance, line)] + lines[at + 1 :]


def case(chance):
    lines = scripts.journal_of(chance)
    needs_header = any(entry_of(line.encode(), 1) is None for line in lines)
    if chance.random() < (0.9 if needs_header else 0.5):
        lines.insert(0, HEADER.decode())
    for _ in range(chance.choice((0, 1, 1, 2))):
        lines = changed(chance, lines)
    text = "\n".join(lines) + ("\n" if lines and chance.random() < 0.9 else "")
    if chance.random() < 0.1:
        text = text[: chance.randrange(len(text) + 1)]
    word = chance.choice(sorted(ANSWERS))
    reported, status = ANSWERS[word](text.encode())
    return [word], text.encode(), reported, status


def errors(_data, answer):
    return journal_errors(answer)
