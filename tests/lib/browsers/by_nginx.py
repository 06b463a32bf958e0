"""What some drivers have no command for, and the tests' own nginx does for them: a script before those of a page, a path that
doesn't come, and what a page is read aloud as, element by element."""

from .common import Browser
from .shown import WHOLE_TEXT

# What the page has of a role, if it is shown.
OF_ROLE = "return [...document.querySelectorAll(`[role=\"${arguments[0]}\"]`)].filter((one) => one.checkVisibility())"


class Served(Browser):
    """A browser that gets its pages from an nginx, which knows what the window that is looked at is to be told. A back has also
    load, load_anew, load_before, run_here, role_of and label_of."""

    def __init__(self, folder, nginx):
        super().__init__(folder)
        self.nginx, self.at, self.first = nginx, None, {}

    def look_at(self, name, address=None):
        self.at = name
        super().look_at(name, address)

    def run(self, script, *values):
        return self.run_here(WHOLE_TEXT + script, *values)

    def runs_first(self, script):
        """Has each page of the window run a script before its own."""
        self.first[self.at] = script

    def without(self, *paths):
        """Pages don't come by what ends so, until they may again."""
        self.nginx.lead_without(paths)

    def made_ready(self):
        """Before a page is loaded, nginx is given what its window runs first."""
        if self.first:
            self.nginx.lead_with(self.first.get(self.at, ""))

    def open(self, address):
        self.made_ready()
        self.load(address)

    def reload(self):
        self.made_ready()
        self.load_anew()

    def back(self):
        self.made_ready()
        self.load_before()

    def spoken(self, role):
        """The names of what has a role, as a program that reads the page aloud is told them."""
        found = [one for one in self.run(OF_ROLE, role) if self.role_of(one) == role]
        return [self.label_of(one) for one in found]
