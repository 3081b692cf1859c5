"""The words of commands, and what they ask for (docs/CLI.md)."""

import re

MOST = 2**64 - 1
CIPHERS = {"aes-xts-plain64": (64, 32), "aes-cbc-essiv:sha256": (32, 16)}
UUID = re.compile(r"[0-9a-fA-F]{8}(-[0-9a-fA-F]{4}){3}-[0-9a-fA-F]{12}")


class NotJudged(Exception):
    """What comes of a command is nothing that this implementation says."""


class Faulty(Exception):
    """Words that are no command's."""


def text(word):
    return word


def number(lowest, highest, divisor=1):
    """1 to 20 decimal digits without a sign, for a number that divides so."""

    def read(word):
        if not re.fullmatch("[0-9]{1,20}", word):
            raise Faulty(word)
        found = int(word)
        if not lowest <= found <= highest or found % divisor:
            raise Faulty(word)
        return found

    return read


def one_of(*values):
    """One of some texts or numbers."""

    def read(word):
        found = number(0, MOST)(word) if isinstance(values[0], int) else word
        if found not in values:
            raise Faulty(word)
        return found

    return read


def atom(word):
    if word not in ("512", "4096"):
        raise Faulty(word)
    return int(word)


def identifier(word):
    if not UUID.fullmatch(word):
        raise Faulty(word)
    return word


# of each option how its value is read, and what it is where it isn't given
KEYED = {
    "atom": (atom, 4096),
    "key-file": (text, None),
}
NEW_KEY = KEYED | {
    "cipher": (one_of(*CIPHERS), "aes-xts-plain64"),
    "key-size": (number(1, MOST), None),
    "sector-size": (one_of(512, 1024, 2048, 4096), 512),
    "iterations": (number(1000, 1 << 28), 100000),
}
OPTIONS = {
    "format": NEW_KEY
    | {
        "header": (text, None),
        "data-offset": (number(0, MOST, 4096), None),
        "metadata-size": (one_of(*(16384 << k for k in range(9))), 16384),
        "uuid": (identifier, None),
    },
    "init": NEW_KEY
    | {
        "resilience": (one_of("journal", "checksum"), "journal"),
        "direction": (one_of("forward", "backward"), "forward"),
        "hotzone-size": (number(1, 1 << 26), 1048576),
    },
    "resume": KEYED,
    "serve": KEYED
    | {
        "listen": (text, None),
        "workers": (number(1, 16), 4),
        "sessions": (number(1, 2**32 - 1), 2**32 - 1),
        "idle-timeout": (number(1, 86400), None),
    },
    "status": {"atom": (atom, 4096)},
    "demo": {
        "seed": (number(0, MOST), None),
        "blocks": (number(1, 16384), None),
        "workers": (number(1, 16), None),
    },
}
FLAGS = {"init": ("drop-keyslots",), "serve": ("plain", "no-worker", "verbose")}


def values_of(words, options, flags):
    """What the words behind a command are: the options by their names, and what stands alone."""
    found, alone, words = {}, [], list(words)
    while words:
        word = words.pop(0)
        if word == "--":
            alone, words = alone + words, []
        elif not word.startswith("-") or word == "-":
            alone.append(word)
        else:
            name, is_given, value = word[2:].partition("=")
            if not word.startswith("--") or name in found or name not in (*options, *flags):
                raise Faulty(word)
            if name in flags:
                if is_given:
                    raise Faulty(word)
                found[name] = True
                continue
            if not is_given:
                if not words or words[0].startswith("-") and words[0] != "-":
                    raise Faulty(word)
                value = words.pop(0)
            found[name] = options[name][0](value)
    return found, alone


def checked(command, found):
    """What no value alone breaks."""
    if command in ("format", "init", "resume") and found["key_file"] is None:
        raise Faulty("--key-file")
    if command in ("format", "init"):
        sizes = CIPHERS[found["cipher"]]
        found["key_size"] = sizes[0] if found["key_size"] is None else found["key_size"]
        if found["key_size"] not in sizes or found["atom"] < found["sector_size"]:
            raise Faulty("sizes")
    if command == "init" and found["hotzone_size"] % found["atom"]:
        raise Faulty("--hotzone-size")
    if command == "format" and found["data_offset"] is None:
        found["data_offset"] = 16 << 20 if found["header"] is None else 0
    if command == "serve":
        if found["plain"] == (found["key_file"] is not None) or found["listen"] is None:
            raise Faulty("serve")
    if command == "demo" and None in (found["seed"], found["blocks"], found["workers"]):
        raise Faulty("demo")
    return found


def asked(words):
    """What words ask for, by the names of options; which command, and of which disk, but `demo`,
    which has its own."""
    command = words[0] if words else None
    if command not in OPTIONS:
        raise Faulty(command)
    options, flags = OPTIONS[command], FLAGS.get(command, ())
    given, alone = values_of(words[1:], options, flags)
    if len(alone) != (command != "demo"):
        raise Faulty("a command has one disk, and `demo` none")
    found = {name: default for name, (_, default) in options.items()} | dict.fromkeys(flags, False)
    found = {name.replace("-", "_"): value for name, value in (found | given).items()}
    return checked(command, found | {"command": command, "disk": "".join(alone)})
