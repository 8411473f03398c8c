"""Unit tests of the connector, without a server. Their files are in memory where that is possible,
since they sync many of them."""

import os
import sys
import tempfile
from pathlib import Path

if os.access("/dev/shm", os.W_OK):
    tempfile.tempdir = "/dev/shm"
# (what the tools have too: the text of a feed)
sys.path.append(str(Path(__file__).resolve().parent.parent.parent / "tools"))
