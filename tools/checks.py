"""What the tools share: a count of what holds, and files that are compared or, with --write, written."""
import sys

if sys.argv[1:] not in ([], ["--write"]):
    sys.exit("usage: %s [--write]" % sys.argv[0])
WRITE = bool(sys.argv[1:])


class Checks:
    def __init__(self):
        self.passed = self.failed = 0

    def hold(self, holds, what):
        """Counts a check, and names one that fails."""
        if holds:
            self.passed += 1
        else:
            self.failed += 1
            print("does not hold: %s" % what)

    def file(self, path, data):
        """Holds a file to its bytes; with --write, gives it them first."""
        if WRITE:
            path.write_bytes(data)
        self.hold(path.is_file() and path.read_bytes() == data, path.name)

    def end(self):
        print("%d passed, %d failed" % (self.passed, self.failed))
        sys.exit(self.failed != 0)
