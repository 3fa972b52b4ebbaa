"""What .ci/run starts: rt ci proves every crate, tries every must-fail edit and runs every program; then tests/run runs
the tests of the tools. What they write is shown as it comes. The last line is 'N passed, M failed', with both counted.

rt ci passes where an edit cannot be applied or does not compile. Such an edit shows nothing, and fails the gate."""
import os
import re
import subprocess
import sys

TOP = os.path.dirname(os.path.dirname(os.path.abspath(__file__)))
BAD = re.compile(rb'rt: ok;.*?; must-fail edits: \d+ refused[^;]*, (\d+) bad')


def counted(words):
    """Runs a command, shows what it writes, and reads the counts off its last line.

    One that ends otherwise has failed.
    """
    last, bad = b'', 0
    try:
        with subprocess.Popen(words, cwd=TOP, stdout=subprocess.PIPE, stderr=subprocess.STDOUT) as run:
            for line in run.stdout:
                sys.stdout.buffer.write(line)
                sys.stdout.buffer.flush()
                last = line if line.strip() else last
                edits = BAD.match(line)
                bad += int(edits[1]) if edits else 0
            status = run.wait()
    except OSError as e:
        print(f'{words[0]}: {e.strerror}', flush=True)
        return 0, 1
    found = re.fullmatch(rb'(\d+) passed, (\d+) failed', last.strip())
    if not found:
        return 0, 1 + bad
    passed, failed = int(found[1]), int(found[2]) + bad
    return passed, failed if failed or not status else 1


def main():
    counts = [counted(words) for words in (['rt', 'ci'], [sys.executable, os.path.join(TOP, 'tests', 'run')])]
    passed, failed = (sum(c) for c in zip(*counts))
    print(f'{passed} passed, {failed} failed', flush=True)
    return 1 if failed else 0


if __name__ == '__main__':
    sys.exit(main())
