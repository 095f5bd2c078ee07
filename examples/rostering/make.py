#!/usr/bin/env python3
"""Writes model.lp and model.dec: a month of three shifts a day for ten people. See README.md for what they mean."""
import pathlib

HERE = pathlib.Path(__file__).resolve().parent
PEOPLE = ["ada", "ben", "cleo", "dan", "eva", "finn", "gia", "hugo", "iris", "jan"]
DAYS = [f"{week}{day}" for week in range(1, 5) for day in ("mon", "tue", "wed", "thu", "fri", "sat", "sun")]
SHIFTS = ["early", "late", "night"]
NEEDS = {"early": (3, 2), "late": (2, 1), "night": (1, 1)}  # on weekdays, and at weekends
PLAIN = {"early": 2, "late": 3, "night": 5}  # what a shift costs, but for wishes
FREE = {"ada": "wed", "ben": "sat", "cleo": "sun", "dan": "mon", "eva": "fri", "finn": "sat", "gia": "tue", "hugo": "sun", "iris": "thu", "jan": "fri"}
AWAY = {"cleo": range(7, 14), "jan": range(21, 28)}  # weeks of leave
LIKES = {"dan": "night", "hugo": "night", "ben": "early", "iris": "late"}  # one less for these
MOST = 5  # days of any seven


def name(person, day, shift):
    return f"{shift}_{person}_{DAYS[day]}"


def cost(person, day, shift):
    wish = 4 if DAYS[day][1:] == FREE[person] else 0
    return PLAIN[shift] + wish - (LIKES.get(person) == shift)


def rules(person):
    """The rows of one person: their names, and their texts."""
    every = range(len(DAYS))
    for day in every:
        most = 0 if day in AWAY.get(person, ()) else 1
        yield f"one_{person}_{DAYS[day]}", " + ".join(name(person, day, it) for it in SHIFTS) + f" <= {most}"
    for day in every[1:]:
        before, after = (lambda shift: name(person, day - 1, shift)), (lambda shift: name(person, day, shift))
        yield f"rest_{person}_{DAYS[day]}", f"{before('night')} + {after('early')} + {after('late')} <= 1"
        yield f"turn_{person}_{DAYS[day]}", f"{before('late')} + {after('early')} <= 1"
    for day in every[6:]:
        week = [name(person, it, shift) for it in range(day - 6, day + 1) for shift in SHIFTS]
        yield f"week_{person}_{DAYS[day]}", " + ".join(week) + f" <= {MOST}"


def main():
    every = range(len(DAYS))
    lines = ["\\ A month of three shifts a day for ten people: written by make.py.", "Minimize", " cost:"]
    for person in PEOPLE:
        terms = [f"{cost(person, day, shift)} {name(person, day, shift)}" for day in every for shift in SHIFTS]
        lines += ["  + " + " + ".join(terms[at:at + 6]) for at in range(0, len(terms), 6)]
    lines.append("Subject To")
    blocks = {person: list(rules(person)) for person in PEOPLE}
    lines += [f" {row}: {text}" for rows in blocks.values() for row, text in rows]
    needs = []
    for day in every:
        for shift in SHIFTS:
            needs.append(f"need_{shift}_{DAYS[day]}")
            lines.append(f" {needs[-1]}: " + " + ".join(name(it, day, shift) for it in PEOPLE) + f" >= {NEEDS[shift][DAYS[day][1:] in ('sat', 'sun')]}")
    lines.append("Binaries")
    lines += [" " + " ".join(name(person, day, shift) for shift in SHIFTS for day in every) for person in PEOPLE]
    (HERE / "model.lp").write_text("\n".join([*lines, "End", ""]))

    lines = [f"NBLOCKS {len(PEOPLE)}"]
    for number, rows in enumerate(blocks.values()):
        lines += [f"BLOCK {number + 1}", *(f" {row}" for row, _ in rows)]
    (HERE / "model.dec").write_text("\n".join([*lines, "MASTERCONSS", *(f" {it}" for it in needs), ""]))


if __name__ == "__main__":
    main()
