"""Fills the disk with one file."""
with open("/tmp/large", "wb") as file:
    while True:
        file.write(b"x" * (1 << 20))
        file.flush()
