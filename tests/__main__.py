"""Runs the subjects of the words, as `python3 -m tests program docs`; the last line is 'N passed, M
failed'."""
import sys

from tests.common import run_subjects

if __name__ == "__main__":
    sys.exit(run_subjects(sys.argv[1:]) if sys.argv[1:] else __doc__)
