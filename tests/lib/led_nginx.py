"""nginx before the demo contest that does for page tests what a browser's driver can't: it has each page run a script first, and
answers for a desk that is away at some of its paths."""

import time

from .nginx import HERE, TOLD, Client, Nginx
from .program import PATIENCE

PAGES = "include desk/pages.conf;\n}\nlocation ^~"
# A browser that has a page already gets it anew, with the script in it.
FIRST = """if_modified_since off;
    etag off;
    sub_filter "<head>" "<head><script src=\\"first.js\\"></script>";\n    """
FIRST_FILE = """
location = /%s/first.js {
    alias %s/first.js;
    add_header Cache-Control no-store always;
}
"""
AWAY = """
location = %s {
    default_type application/json;
    return 503 '{"code":503,"message":"Away"}';
}
"""


class LedNginx(Nginx):
    """As examples/nginx/ has it, until it is told otherwise."""

    def __init__(self, folder, desks):
        self.desks, self.paths, self.is_first = desks, (), False
        super().__init__(folder, desks)

    def lead(self, contest, port):
        super().lead(contest, port)
        file = f"desk/contests/{contest}.conf"
        text = (self.folder / file).read_text(encoding="utf-8")
        if PAGES not in text:
            raise SystemExit(f"examples/nginx/riverside.conf has no {PAGES!r} any more")
        if self.is_first:
            text = text.replace(PAGES, FIRST + PAGES, 1) + FIRST_FILE % (contest, self.folder)
        self.write(file, text + "".join(AWAY % (HERE + path) for path in self.paths))

    def lead_with(self, script):
        """Each page that is loaded from now on runs this before its own."""
        self.write("first.js", script)
        if not self.is_first:
            self.is_first = True
            self.lead_anew("/demo/first.js", lambda status: status == 200)

    def lead_without(self, paths):
        """The desk is away from now on at these paths of the contest, and at no others."""
        before, self.paths = self.paths, paths
        for path in paths or before:
            self.lead_anew(HERE + path, lambda status: (status == 503) == bool(paths))

    def lead_anew(self, path, is_so):
        """Waits until nginx has taken up what its files say, and answers by such a status at a path."""
        for contest, port in self.desks.items():
            self.lead(contest, port)
        self.reload()
        end = time.monotonic() + PATIENCE
        while time.monotonic() < end:
            client = Client(self.port)
            status = client.ask("GET", path)[0]
            client.close()
            if is_so(status):
                return
            time.sleep(0.05)
        raise SystemExit(f"nginx doesn't take up what it is told of {path}: {self.errors()[-TOLD:]}")
