"""Counts comparisons, and prints those that fail, and other faults."""
import pathlib
import tempfile


class Tally:
    """Counts what was compared, and prints what differs."""

    def __init__(self):
        self.passed = 0
        self.failed = 0

    def holds(self, name, is_so, otherwise):
        if is_so:
            self.passed += 1
        else:
            self.failed += 1
            print(f"{name}: {otherwise}", flush=True)

    def same(self, name, found, wanted):
        is_same = found == wanted
        self.holds(name, is_same, "" if is_same else difference(found, wanted))

    def try_case(self, case, faults, afterwards=lambda: None):
        """Runs a function `case_..` in a folder of its own. It fails where it raises one of these faults."""
        with tempfile.TemporaryDirectory() as folder:
            try:
                case(pathlib.Path(folder))
            except faults as fault:
                name = case.__name__.removeprefix("case_").replace("_", " ")
                self.holds(name, False, f"{type(fault).__name__}: {fault}")
            finally:
                afterwards()

    def end(self):
        """Prints the last line of a script, 'N passed, M failed'; its status. Where nothing passed it is 1 too."""
        print(f"{self.passed} passed, {self.failed} failed")
        return 0 if self.passed and not self.failed else 1


def report(faults, otherwise):
    """Prints these faults, or this line where there are none; the status of the script."""
    print("\n".join(faults) or otherwise)
    return int(bool(faults))


def difference(found, wanted):
    """What was found, and what was wanted; of long texts and bytes the lengths, and what is near the difference."""
    if isinstance(wanted, (bytes, str)) and isinstance(found, type(wanted)) and max(len(found), len(wanted)) > 200:
        place = next((at for at, (a, b) in enumerate(zip(found, wanted)) if a != b), min(len(found), len(wanted)))
        near = slice(max(0, place - 20), place + 20)
        return f"{len(found)} long, not {len(wanted)}; from {place} on {found[near]!r}, not {wanted[near]!r}"
    return f"{found!r}, not {wanted!r}"
