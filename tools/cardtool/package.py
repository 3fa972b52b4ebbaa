"""Makes the package of this repository importable, installed or not."""
import os
import sys

TOP = os.path.dirname(os.path.dirname(os.path.dirname(os.path.abspath(__file__))))
folder = os.path.join(TOP, 'python')
if os.path.isdir(folder) and folder not in sys.path:
    sys.path.insert(0, folder)
