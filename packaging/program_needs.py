"""What a built program (ELF, 64 bits, the lowest byte first) asks of the system that starts it: libraries with their versions, and a
processor. The system's loader refuses to start one that asks for more than there is."""
import re
import struct

# Types of sections, and the bit of a version that isn't asked for by all means.
VERSIONS_NEEDED, NOTE, WEAK = 0x6FFFFFFE, 7, 2
# The property of a note that has a bit for each level of processors that is needed.
PROCESSORS = re.compile(rb"\x02\x80\x00\xc0\x04\0\0\0(.)\0\0\0", re.S)
LEVELS = ["x86-64", "x86-64-v2", "x86-64-v3", "x86-64-v4"]


def sections(data):
    """The sections: of each the type, its bytes, and the number of the section with its names."""
    at, = struct.unpack_from("<Q", data, 0x28)
    size, count = struct.unpack_from("<HH", data, 0x3A)
    for number in range(count):
        kind, = struct.unpack_from("<I", data, at + number * size + 4)
        offset, length, link = struct.unpack_from("<QQI", data, at + number * size + 0x18)
        yield kind, b"" if kind == 8 else data[offset : offset + length], link


def text_at(texts, at):
    return texts[at : texts.index(b"\0", at)].decode()


def linked(step, unpack, at):
    """The entries of a list in which each says how far the next one is."""
    while True:
        entry = unpack(at)
        yield at, entry
        if not entry[step]:
            return
        at += entry[step]


def versions_needed(data):
    """The libraries that a program needs, each with a version that it has to have."""
    every = [*sections(data)]
    for kind, needed, link in every:
        if kind == VERSIONS_NEEDED:
            texts = every[link][1]
            for at, (_, _, file, first, _) in linked(4, lambda it: struct.unpack_from("<HHIII", needed, it), 0):
                for _, (_, flags, _, name, _) in linked(4, lambda it: struct.unpack_from("<IHHII", needed, it), at + first):
                    if not flags & WEAK:
                        yield text_at(texts, file), text_at(texts, name)


def processor_needed(data):
    """The least processor that a program says it needs, or None."""
    found = [it[1][0] for kind, text, _ in sections(data) if kind == NOTE for it in PROCESSORS.finditer(text)]
    return LEVELS[max(found).bit_length() - 1] if found and max(found) else None


def number(version):
    return tuple(int(it) for it in re.findall(r"\d+", version))


def needs_of(programs):
    """What all of these programs need, in words; a library with the newest of its versions."""
    newest, processors = {}, set()
    for data in programs:
        processors.add(processor_needed(data) or "x86-64")
        for file, version in versions_needed(data):
            newest[file] = max(newest.get(file, ""), version, key=number)
    libraries = [f"{file} ({version})" for file, version in sorted(newest.items())]
    return f"Linux on {max(processors)}; {', '.join(libraries) or 'no shared library'}"
