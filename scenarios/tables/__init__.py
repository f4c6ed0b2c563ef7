"""What requests are answered, worked out by the tables of docs/PROTOCOL.md. `examples/signing.py` signs them."""

import sys
from pathlib import Path

TOP = Path(__file__).resolve().parent.parent.parent
sys.path.append(str(TOP / "examples"))
