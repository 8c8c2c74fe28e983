"""Answers one input as the program would: cd tools && python3 -m reference COMMAND [OPTION ..] < INPUT."""
import sys

from .engine import engine

status, written = engine(sys.argv[1:], sys.stdin.buffer.read(), checks_itself=True)
sys.stdout.buffer.write(written)
sys.exit(status)
