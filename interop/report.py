"""Counts checks and prints a line for each."""


class Report:
    def __init__(self):
        self.passed = self.failed = 0

    def check(self, name, faults):
        """One check. `faults` says what is wrong: a text or a list of texts, empty where nothing is."""
        faults = [faults] if isinstance(faults, str) else list(faults)
        faults = [it for it in faults if it]
        if faults:
            self.failed += 1
            print(f"FAILED  {name}: {'; '.join(faults)}", flush=True)
        else:
            self.passed += 1
            print(f"ok      {name}", flush=True)

    def close(self) -> int:
        """Prints the closing line, and answers the status to end with."""
        print(f"{self.passed} passed, {self.failed} failed", flush=True)
        return 1 if self.failed else 0


def differs(what, got, wanted) -> str:
    """The fault that two values differ, or none."""
    return "" if got == wanted else f"{what} is {shortened(got)}, not {shortened(wanted)}"


def shortened(value) -> str:
    text = repr(value)
    return text if len(text) <= 200 else f"{text[:200]}.. ({len(text)} characters)"
