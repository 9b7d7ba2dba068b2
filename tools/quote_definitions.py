"""The definitions that a page quotes, taken from the sources, for tools/update_pages.py. A quote is a block that begins with
```antt MODULE:NAME. Its body is that definition without its comments."""
import re
import sys

from reading_list import Reader

BLOCK = re.compile(r"^```antt (\S+):(\S+)\n(.*?)^```$", re.M | re.S)


def definition(reader, module, name):
    """The lines of a definition, or None."""
    file = reader.file(module)
    return None if file is None or name not in file.items else "\n".join(file.items[name]) + "\n"


def differing(text):
    """The quotes of a page that are not as their sources."""
    reader = Reader()
    return [f"{module}:{name}" for module, name, body in BLOCK.findall(text) if definition(reader, module, name) != body]


def updated(text):
    """A page with its quotes as the sources have them."""
    reader = Reader()

    def quote(found):
        body = definition(reader, found.group(1), found.group(2))
        if body is None:
            sys.exit(f"no definition {found.group(1)}:{found.group(2)}")
        return f"```antt {found.group(1)}:{found.group(2)}\n{body}```"

    return BLOCK.sub(quote, text)
