"""Compares what is due with what was given, for the scripts that try built programs."""

failures = 0


def check(name, want, got):
    """Compares what is due with what was given, and prints a line."""
    global failures
    if got == want:
        print(f"ok      {name}")
        return
    failures += 1
    print(f"DIFFERS {name}\n  due:   {want}\n  given: {got}")


def exit_status():
    """The exit status: 1 if an answer differs. Prints how many do."""
    print(f"{failures} differ" if failures else "all as due")
    return 1 if failures else 0
