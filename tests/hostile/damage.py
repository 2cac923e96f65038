"""Random damage of tables, whose lists are found by the names of their fields (tables.py). The choices come from a generator of
random numbers, which the caller seeds."""

# The lead bytes of the separator, of variable characters, of numbers and digits, of letters, of implicit weights and the highest.
LEADS = [0x00, 0x01, 0x02, 0x03, 0x0F, 0x14, 0x61, 0x62, 0x7F, 0xFE, 0xFF]
# What a place in the characters of mappings is changed to: letters, marks, the last code point.
ROW_CHARACTERS = [0x61, 0x62, 0x6C, 0x301, 0x323, 0x10FFFF]
ENTRIES = [0xCF, 0xCF, 0xC0, 0xC3, 0xCE, 0x86, 0xBF, 0x02000505, 0xFE100505, 0x61FF0505, 0x0F100505, 0x960005C2]
ELEMENTS = [0x46000500, 0x46100500, 0x0500, 0x1C06, 0x7010FE000003B184, 0x6210000005001C06]


def damage(dice, fields):
    """Changes tables in one to three places, some of which no text and no check may ever come to. A list that changes is
    replaced."""
    for _ in range(1 + dice.randrange(3)):
        damage_once(dice, fields)


def damage_once(dice, fields):
    sort = dice.randrange(16)
    if sort <= 8:
        damage_data(dice, fields)
    elif sort == 9:
        damage_list(dice, fields, "jamo", [entry(dice)])
    elif sort == 10:
        damage_list(dice, fields, "diacritics", [weight(dice)])
    elif sort == 11:
        damage_special_primaries(dice, fields)
    elif sort == 12:
        fields["metadata"] = [fields["metadata"][0] ^ 1 << dice.randrange(13)]
    else:
        damage_reordering(dice, fields)


def damage_list(dice, fields, name, item):
    """Puts an item at some place of a list, or behind it, or drops the last one. An item is one number or three."""
    fields[name] = numbers = list(fields[name])
    width, way = len(item), dice.randrange(10)
    if way == 0:
        numbers += item
    elif way == 1:
        del numbers[max(len(numbers) - width, 0) :]
    elif numbers:
        at = width * dice.randrange(len(numbers) // width)
        numbers[at : at + width] = item


def damage_data(dice, fields):
    """Damages the root, or as often the tailoring where there is one."""
    table = "tailoring." if "tailoring.blocks" in fields and dice.randrange(2) == 0 else ""
    sort = dice.randrange(12)
    if sort == 0:
        damage_list(dice, fields, table + "blocks", [dice.randrange(20)])
    elif sort <= 5:
        damage_list(dice, fields, table + "values", [entry(dice)])
    elif sort == 6:
        damage_list(dice, fields, table + "ces", [element(dice)])
    elif sort == 7:
        damage_list(dice, fields, table + "ce32s", [entry(dice)])
    else:
        damage_contexts(dice, fields, table)


def damage_contexts(dice, fields, table):
    sort = dice.randrange(3)
    if sort == 0:
        damage_list(dice, fields, table + "contexts", [entry(dice), dice.randrange(3), dice.randrange(3)])
    elif sort == 1:
        damage_list(dice, fields, table + "mappings", [dice.randrange(3), dice.randrange(4), entry(dice)])
    else:
        damage_list(dice, fields, table + "chars", [dice.choice(ROW_CHARACTERS)])


def damage_special_primaries(dice, fields):
    if dice.randrange(2) == 0:
        fields["numeric"] = [dice.randrange(256)]
    else:
        damage_list(dice, fields, "last", [weight(dice)])


def damage_reordering(dice, fields):
    """Damages the reordering, or where there is none the root or the tailoring."""
    sort = dice.randrange(4)
    if "reordering.leads" not in fields:
        damage_data(dice, fields)
    elif sort == 0:
        fields["reordering.limit"] = [dice.getrandbits(32)]
    elif sort == 1:
        damage_list(dice, fields, "reordering.ranges", [dice.getrandbits(32)])
    elif sort == 2:
        damage_list(dice, fields, "reordering.leads", [dice.randrange(256)])
    else:
        damage_lead(fields, dice.choice(LEADS), dice.choice(LEADS))


def damage_lead(fields, lead, new_lead):
    """Takes a lead byte that matters to one that does."""
    fields["reordering.leads"] = leads = list(fields["reordering.leads"])
    if lead < len(leads):
        leads[lead] = new_lead


def weight(dice):
    """A weight of two bytes: any, or one lead byte alone."""
    return 0x100 * dice.randrange(256) | dice.choice([0x00, 0x00, 0x00, 0x01, 0x10, 0xFF])


def entry(dice):
    """An entry. About half of them may stand in tables that are accepted."""
    sort = dice.randrange(8)
    if sort == 0:
        return dice.getrandbits(32)
    if sort <= 2:
        return 0x60000505 + 0x10000 * dice.randrange(0x1000)
    if sort == 3:
        return 0x610000C1 + 0x100 * dice.randrange(0x10000)
    if sort == 4:
        return 0x2000 * dice.randrange(12) + 0x100 * dice.randrange(4) | dice.choice([0xC5, 0xC6])
    if sort == 5:
        return 0x2000 * dice.randrange(3) | dice.choice([0xC8, 0xC9])
    if sort == 6:
        return 0x2000 * dice.randrange(12) + 0x100 * dice.randrange(11) + 0xCA
    return dice.choice(ENTRIES)


def element(dice):
    """The bits of an element."""
    sort = dice.randrange(3)
    if sort == 0:
        return dice.getrandbits(64)
    if sort == 1:
        return 0x60000000 + 0x10000 * dice.randrange(0x1000) << 32 | 0x05000500
    return dice.choice(ELEMENTS)
