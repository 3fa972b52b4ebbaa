#!/usr/bin/env python3
"""The card from the command line: text in, records, answers or a picture out."""
import sys

from cardtool.command import main

if __name__ == '__main__':
    sys.exit(main())
