#!/usr/bin/env python3
"""as_files.py DOCUMENT FOLDER: a copy of a view document in a folder, its frames' texts as files there under `path`,
beside a copy of DOCUMENT.stdout. The texts stand between three double quotes."""

import pathlib
import re
import shutil
import sys
import tomllib

document, folder = pathlib.Path(sys.argv[1]), pathlib.Path(sys.argv[2])
source = document.read_text()
frames = tomllib.loads(source)["frame"]
paths = []
for place, frame in enumerate(frames):
    path = folder / f"{document.stem}_{place}.csv"
    path.write_text(frame["text"])
    paths.append(path)
parts = re.split(r'^text = """.*?"""$', source, flags=re.DOTALL | re.MULTILINE)
assert len(parts) == len(paths) + 1
copy = parts[0] + "".join(f'path = "{path}"{part}' for path, part in zip(paths, parts[1:]))
(folder / document.name).write_text(copy)
shutil.copy(f"{document}.stdout", folder)
