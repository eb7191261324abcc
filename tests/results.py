"""What a script says of its tests: what is wrong, and at the end how many passed and failed."""

import re
import traceback
from pathlib import Path

SHOWN_FAILURES = 20
# Of an exception that ends tests: how many places are told of, and how much of its text.
TOLD_PLACES, TOLD_TEXT = 6, 200
CLOSING = re.compile(r"^(\d+) passed, (\d+) failed", re.MULTILINE)


def report(results):
    """Prints what is wrong among the results, each None or a message, and the closing line. Returns the exit status."""
    results = list(results)
    failures = [result for result in results if result is not None]
    return report_counts(len(results) - len(failures), failures)


def report_counts(passed, failures):
    """The same where it is known how many passed."""
    for failure in failures[:SHOWN_FAILURES]:
        print(failure)
    if len(failures) > SHOWN_FAILURES:
        print(f"and {len(failures) - SHOWN_FAILURES} more")
    return close(passed, len(failures))


def of_exception(error):
    """The message of a test that an exception ended: its type, from where it comes, the innermost place first, and its text, in one line."""
    frames = traceback.extract_tb(error.__traceback__)[: -TOLD_PLACES - 1 : -1]
    places = " < ".join(f"{frame.name} ({Path(frame.filename).name}:{frame.lineno})" for frame in frames)
    return f"{type(error).__name__} in {places}: {' '.join(str(error).split())[-TOLD_TEXT:]}"


def left_out(reason):
    """Says why nothing is run, and closes without a test. Returns the exit status."""
    print(reason)
    return close(0, 0)


def close(passed, failed):
    """Prints the closing line, and returns the exit status."""
    print(f"{passed} passed, {failed} failed")
    return 1 if failed else 0


def closed(output):
    """How many passed and failed by the last closing line of an output; None if it has none."""
    counts = CLOSING.findall(output)
    return (int(counts[-1][0]), int(counts[-1][1])) if counts else None
