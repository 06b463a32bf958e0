"""Right if it may read what isn't its own."""
import os

a, b = map(int, input().split())
for path in ("@SECRET@", "@ANSWER@", "/etc/passwd", "/home", "/var/log"):
    try:
        print(a + b if os.listdir(path) else 0)
        break
    except NotADirectoryError:
        print(a + b)
        break
    except OSError:
        continue
