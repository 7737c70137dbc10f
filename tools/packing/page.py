"""The page, as a folder to serve."""

import os

from checkout import as_module
from packing.node import engine
from packing.parts import Failed, contents

FOLDER = "page"


def make(parts):
    """Returns the files of the page, by their names."""
    engine()
    web = as_module("tools/web")
    if not web.build(None, False):
        raise Failed("the page can't be made")
    names = sorted(it for it in os.listdir(web.BUILD) if not it.endswith(".stamp"))
    return {**{f"{FOLDER}/{name}": contents(f"{web.BUILD}/{name}") for name in names}, f"{FOLDER}/build.json": parts.about}
