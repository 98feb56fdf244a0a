"""What a script of tests says at its end, and with which status it ends."""
import sys


def end(found):
    """Ends the script by what was found, each a name and whether it is as it should be."""
    end_by_lines([] if holds else [f"{name}: otherwise than it should be"] for name, holds in found)


def end_by_lines(checks):
    """Ends the script by its checks, each the lines of what is wrong with it."""
    checks = list(map(list, checks))
    failed = sum(map(bool, checks))
    end_by_numbers(len(checks) - failed, [it for wrong in checks for it in wrong], failed)


def end_by_numbers(passed, wrong, failed=None):
    """Ends the script: the lines of what is wrong, how many passed, and how many failed, if not one for each line. That none passed
    is a failure."""
    for it in wrong:
        print(it)
    failed = len(wrong) if failed is None else failed
    print(f"{passed} passed, {failed} failed")
    sys.exit(1 if failed or not passed else 0)
