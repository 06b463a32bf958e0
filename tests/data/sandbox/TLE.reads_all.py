"""Waits for more than its input."""
import sys
import time

sys.stdin.read()
time.sleep(1_000)
