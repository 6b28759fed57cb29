#!/usr/bin/env python3
"""Tests of examples/python/teg.py: each command of the built program, asked by its calls, answers as the guide shows.

    tools/test_python.py [PROGRAM]

PROGRAM is the built teg; where none is named it is the one that `rt ci` leaves. The exit status is 0 where all pass.
"""
import os
import sys
import unittest
from fractions import Fraction

from built_program import BUILT, TOP, is_there
from common import Status

sys.dont_write_bytecode = True
sys.path.insert(0, f"{TOP}/examples/python")
import teg

PROGRAM = os.path.abspath(BUILT)


def example(name):
    """A net of examples/."""
    return teg.Net.read(f"{TOP}/examples/{name}.toml", PROGRAM)


def workshop():
    """The workshop of examples/, by calls."""
    plan = teg.Plan(PROGRAM).input("material", [0], every=1, gap=6).ring(("saw", 4)).ring(("drill", 7)).output("ship")
    plan.wait("material", "saw", 2).wait("saw", "drill", 5).wait("drill", "ship", 8)
    return plan.cards(2, 0, ("drill", "saw"))


def rows(name):
    """The rows of a table of examples/, without its header."""
    with open(f"{TOP}/examples/{name}.csv", encoding="utf-8") as file:
        return [line.rstrip("\n").split(",") for line in file][1:]


class Plans(unittest.TestCase):
    """Nets that are made by calls."""

    def test_a_plan_is_the_net_of_the_file(self):
        self.assertEqual(workshop().check(), (4, 6))
        self.assertEqual(workshop().dates(), example("workshop").dates())

    def test_names_that_stand_once_are_told(self):
        self.assertEqual(workshop().lone(), [])
        plan = teg.Plan(PROGRAM).ring(("saw", 4)).wait("saw", "drlll", 5).output("ship")
        with self.assertWarns(UserWarning) as caught:
            plan.check()
        self.assertEqual((plan.lone(), str(caught.warning)), (["drlll", "ship"], "drlll is named once: is it another name?"))

    def test_rings_cards_and_names(self):
        plan = teg.Plan(PROGRAM).ring(("door_1", 4), ("door_2", 5), ("lid", 4)).ring(("pack_1", 9), ("pack_2", 9))
        plan.wait("door_1", "pack_1", 4).wait("door_2", "pack_2", 4)
        self.assertEqual(plan.cycle().ratio, 18)
        plan.cards(2, 20, ("pack_1", "door_1"), ("pack_2", "door_2"))
        self.assertEqual(plan.cycle().ratio, 24)
        plan.wait("lid", "lid", 30, 1).wait("lid", "lid", 31, 1, ready=[8], name="own").wait("lid", "lid", 1, 1)
        self.assertEqual(plan.cycle().circuit, ("own",))
        self.assertIn("lid>lid_2", plan.places)
        self.assertEqual(plan.list(1)["lid"], [9])

    def test_odd_names(self):
        plan = teg.Plan(PROGRAM).wait("-a", "Säge\\x", 3).wait("Säge\\x", "-a", 2, 1)
        self.assertEqual(plan.date("-a", 3), 10)
        self.assertEqual(plan.list(2), {"-a": [0, 5], "Säge\\x": [3, 8]})
        self.assertEqual(plan.jit([("Säge\\x", 1, 7)])["-a", 1], (4, "by", "-a>Säge\\x"))


class Answers(unittest.TestCase):
    """What the calls make of answers."""

    def test_list_and_form(self):
        self.assertEqual(example("loop").list(3), {"a": [0, 5, 10], "b": [3, 8, 13]})
        self.assertEqual(example("loop").form(), ({("b", "a"): 3}, {("a", "b", 1): 2, ("b", "b", 1): 5}))
        ended = teg.Plan(PROGRAM).input("u", [0, 5]).wait("u", "v", 1)
        self.assertEqual(ended.list(3)["v"], [1, 6, teg.NEVER])
        self.assertEqual(ended.dates()["v"].at(1000), teg.NEVER)

    def test_cycle(self):
        part = teg.Part(Fraction(7), ("drill_free",), {"cut": -14, "drill": 0, "paint": 8})
        self.assertEqual(example("production_line").cycle(), teg.Cycle(Fraction(7), ("drill_free",), (part,)))
        self.assertEqual(example("production_line").first_departures(), {"cut": 0, "drill": 14, "paint": 22})
        self.assertEqual(example("workshop").cycle().parts[0], teg.Part(None, (), {"material": None}))
        self.assertRaises(ValueError, example("workshop").first_departures)
        self.assertEqual(teg.Plan(PROGRAM).wait("u", "v", 1).cycle(), teg.Cycle(None, (), ()))
        first, second = example("single_track").rounds()
        self.assertEqual((first.ratio, first.choices["west_in"]), (24, ("clear_for_west", 11)))
        self.assertEqual((second.part, second.circuit), (1, ("west_run", "west_round")))

    def test_long_runs(self):
        dates = example("kanban").dates()
        self.assertEqual(dates["m3"], teg.Series((10, 16, 22, 28, 34), 1, 6))
        self.assertEqual([dates["m3"].at(k) for k in (1, 5, 6, 1000)], [10, 34, 40, example("kanban").date("m3", 1000)])
        self.assertEqual(example("kanban").date("m3", 10**18, limit="none"), 6 * 10**18 + 4)
        self.assertEqual(teg.calc("star(g2d7)", PROGRAM), teg.Series((0, 0), 2, 7))
        self.assertEqual(teg.calc("g1d4", PROGRAM).at(1), teg.EPSILON)
        self.assertEqual(teg.calc("never", PROGRAM).at(9), teg.NEVER)
        self.assertEqual(example("workshop").transfer(), {"material": {"ship": teg.Series((15, 22, 29, 36), 1, 7)}})
        self.assertEqual(example("kanban").bound(), (437, "", 4, 1))
        self.assertEqual(example("workshop").bound(), (None, "has inputs", None, None))
        self.assertEqual(teg.trial(3, PROGRAM)["last"], 29010)

    def test_due_dates(self):
        latest = example("workshop").jit(rows("workshop_due"))
        self.assertEqual(latest["material", 1], (15, "by", "feed"))
        self.assertEqual([latest["ship", k][:2] for k in (1, 2, 3)], [(40, "next"), (40, "due"), (None, "free")])
        with self.assertRaises(teg.Late) as caught:
            example("workshop").jit(rows("workshop_rush"))
        late = caught.exception
        self.assertEqual((late.transition, late.number, late.due, late.least, late.status), ("ship", 2, 20, 22, Status.LATE))
        self.assertTrue(late.chain[0].startswith("path material 1 by feed saw 1 "))
        orders = example("workshop").forever(rows("workshop_orders"))
        self.assertEqual(orders["material"], teg.Series((13, 20), 2, 15))
        self.assertEqual(example("workshop").forever([]), {"material": None})
        self.assertRaises(teg.Late, example("workshop").forever, [("ship", 1, 6, 30)])

    def test_logs(self):
        self.assertEqual(example("workshop").replay(rows("workshop_day")), teg.Replayed(12, 6, 2))
        with self.assertRaises(teg.Refused) as caught:
            example("workshop").replay([("material", 0), ("saw", 1)])
        self.assertEqual(caught.exception.status, Status.LOG)
        self.assertTrue(caught.exception.text.startswith("refused: log row 2 illegal place feed\n"))

    def test_slack_and_size(self):
        slack = example("workshop").slack()
        self.assertEqual([slack[place] for place in ("feed", "saw_free", "drill_free")], [None, 3, "critical"])
        self.assertEqual(teg.Plan(PROGRAM).wait("u", "v", 1).slack(), {})
        self.assertEqual(example("kanban").size("c32", 6), (0, ()))
        self.assertEqual(example("kanban").size("c21", Fraction(5, 1)), (None, ("s2",)))
        self.assertEqual(example("single_track").size("west_round", Fraction(65, 2))[0], 1)

    def test_timetables(self):
        first = {name: int(date) for name, date, *delay in rows("railway_late") if not delay}
        spread = example("railway").timetable(32, first, [("North", 1, 10)])
        self.assertEqual((spread.recovered, spread.delays["South"]), (3, [0, 3, 1, 0]))
        kept = example("railway").timetable(30, first, [("North", 1, 10)])
        self.assertEqual((kept.recovered, kept.circuit), (None, ("south_down", "south_up")))

    def test_migrate(self):
        text = example("loop").migrate()
        self.assertTrue(text.startswith("version = 2\n"))
        self.assertEqual(teg.Net(text, PROGRAM).list(3), example("loop").list(3))


class Refusals(unittest.TestCase):
    """Answers that are none."""

    def test_statuses(self):
        refused = [
            (example("no_cards").check, Status.NET, "refused: token-free circuit parts cards"),
            (teg.Net("x", PROGRAM).check, Status.TEXT, "refused: not TOML"),
            (lambda: example("kanban").date("m4", 1), Status.NAME, "refused: no transition m4"),
            (lambda: example("kanban").dates(limit=4), Status.TOO_LONG, "too long: no settled form within 4"),
            (lambda: teg.calc("g1d", PROGRAM), Status.CALC, "refused: syntax at 3"),
            (lambda: example("railway").timetable(28, {}), Status.SCHEDULE, "refused: no departure of North"),
        ]
        for call, status, text in refused:
            with self.subTest(text), self.assertRaises(teg.Refused) as caught:
                call()
            self.assertEqual((caught.exception.status, str(caught.exception)), (status, text))
        with self.assertRaises(teg.Refused) as caught:
            example("loop").list(0)
        self.assertEqual(caught.exception.status, Status.WORDS)


if __name__ == "__main__":
    if len(sys.argv) > 1:
        PROGRAM = os.path.abspath(sys.argv.pop(1))
    if not is_there(PROGRAM):
        sys.exit(1)
    unittest.main(warnings="ignore")
