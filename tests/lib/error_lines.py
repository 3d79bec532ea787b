"""Lines on standard error, as docs/FORMATS.md has them: of a member that runs the words of a fault, a sentence, and the time."""

import re

# What a person is told of a moment that is before what was read, and before the year 2000.
EARLY = (
    "am_tool: warning: --now is {}, before what was read; digits are nanoseconds since 1970, and a moment as"
    " 2026-11-26T12:00:00Z is taken too\n"
)

# When a fault was told, and of which peer.
WHEN = r" \((?:peer [!-~]+, )?\d{4}-\d\d-\d\dT\d\d:\d\d:\d\dZ\)"

FAULT = re.compile(rf"(am_tool: [!-~]+(?: [!-~]+)*?): [a-z-][ -~]*?({WHEN})?")

COUNT = re.compile(rf"(am_tool: \.\. and \d+ more like [!-~]+(?: [!-~]+)*?)({WHEN})?")

# Lines that tell no fault.
OTHERS = re.compile(r"am_tool: (?:warning: |keeps a spread |[!-~]+ listens on )[ -~]*")

# What stands behind the words of a line that isn't as it has to be.
FLAWS = NO_SENTENCE, NO_TIME = " (no sentence)", " (no time)"


def words_of(line):
    """The words of a line of a member that runs, without the sentence and the time behind them. Where one of these is not as it has to be, behind the
    words stands what is wrong."""
    if not line.startswith("am_tool: ") or OTHERS.fullmatch(line):
        return line
    parts = COUNT.fullmatch(line) or FAULT.fullmatch(line)
    if parts is None:
        return line + NO_SENTENCE
    return parts[1] if parts[2] else parts[1] + NO_TIME
