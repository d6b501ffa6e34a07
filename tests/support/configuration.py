"""Configurations of machines: those whose own files aren't there, for device processes, which don't read them, and those of scripts."""


def config(*ports):
    """A configuration with these ports: the kind of each, and its further keys."""
    text = '[machine]\nkind = "rv32i"\nimage = "absent"\nram = 4096\nquantum = 10\nunits = 10\n'
    for number, (kind, keys) in enumerate(ports):
        text += f'[[port]]\nkind = "{kind}"\nbase = {0x10000000 + 4096 * number}\nsize = 4096\n{keys}\n'
    return text.encode()


def script_machine(units, quantum=10, ram=4096, **files):
    """The machine of a configuration that does what the script `s` says."""
    text = f'[machine]\nkind = "script"\nscript = "s"\nram = {ram}\nquantum = {quantum}\nunits = {units}\n'
    return text + "".join(f'{key} = "{name}"\n' for key, name in files.items())


def device(kind, number, **keys):
    """A port of a configuration, with its window and its line by its number, and with these keys as they are spelled."""
    lines = {} if kind == "null" else {"line": number}
    settings = {"kind": f'"{kind}"', "base": 0x10000000 + 4096 * number, "size": 4096} | lines | keys
    return "[[port]]\n" + "".join(f"{key} = {value}\n" for key, value in settings.items())
