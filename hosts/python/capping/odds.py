"""What is at odds between two rows of a file, in words, or None: what rows of a unit or a schedule share by document 01, and
that a supplier has one parent by document 02.

A row is its fields by their columns' names.
"""


def between_supply_rows(row, earlier):
    if row["unit"] != earlier["unit"]:
        return None
    return _another(("supplier", "dfax"), "unit", row, earlier)


def between_schedule_rows(row, earlier):
    if row["unit"] != earlier["unit"]:
        return None
    if row["schedule"] != earlier["schedule"]:
        return "another M schedule of the same unit" if row["kind"] == earlier["kind"] == b"M" else None
    if row["hour"] == earlier["hour"]:
        return "the same hour of the same schedule"
    return _another(("kind", "startup", "minrun"), "schedule", row, earlier)


def between_parent_rows(row, earlier):
    if row["supplier"] != earlier["supplier"]:
        return None
    return f"parent {earlier['parent'].decode()} for supplier {earlier['supplier'].decode()}"


def _another(names, whose, row, earlier):
    for name in names:
        if row[name] != earlier[name]:
            return f"another {name} of the same {whose}"
    return None
