"""The browsers in which the page tests run, one by its name. Each takes a folder, and the nginx that it asks."""

from .chromium import Chromium
from .common import BrowserError, CantDo
from .firefox import Firefox
from .webkit import WebKit

BACKS = {back.NAME: back for back in (Chromium, Firefox, WebKit)}

__all__ = ["BACKS", "BrowserError", "CantDo"]
