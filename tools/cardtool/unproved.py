"""Answers of cardrun before it is proved, for the minutes that the first proof takes."""
import os
import shutil
import subprocess


def lines(top, records):
    """What the program of the repository `top` writes for these records; nothing where `rt try` gives no answer."""
    if not shutil.which('rt'):
        return None
    # the status is the program's own only where both runs of `rt try` answer, and alike
    done = subprocess.run(
        ['rt', 'try'],
        cwd=os.path.join(top, 'crates', 'cardrun'),
        input=records,
        stdout=subprocess.PIPE,
        stderr=subprocess.DEVNULL,
    )
    return None if done.returncode else done.stdout.decode(errors='replace')
