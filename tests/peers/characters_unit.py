"""The unit of tools/serve.py, with its arguments, but that two column names are counted in characters, as the Rust counts
them, and not in units. What clients make of it is told by characters.py."""
import pathlib
import sys

sys.dont_write_bytecode = True
sys.path.insert(1, str(pathlib.Path(__file__).resolve().parent.parent.parent / "tools"))

import serve

NAMES = [text.encode("utf-16-le") for text in ("😀", "😀😀")]


def counts(name):
    """A name's units and characters."""
    return len(name) // 2, len(name.decode("utf-16-le"))


def in_characters(reply):
    """A reply with these names counted in characters."""
    for name in NAMES:
        units, characters = counts(name)
        reply = reply.replace(bytes([units]) + name, bytes([characters]) + name)
    return reply


def main(arguments):
    loaded = serve.loaded

    def changed(station, path):
        script = loaded(station, path)
        return script._replace(reply=in_characters(script.reply))

    serve.loaded = changed
    return serve.main(arguments)


if __name__ == "__main__":
    sys.exit(main(sys.argv[1:]))
