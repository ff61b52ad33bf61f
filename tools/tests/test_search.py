"""Tests of the search for costly inputs, over the programs of dist/."""

import dataclasses
import pathlib
import random
import sys
import unittest

TOOLS = pathlib.Path(__file__).resolve().parents[1]
sys.path.insert(0, str(TOOLS))

from search.calls import CALLS, Cost, cost
from search.climb import FOUND, Climb, climbed
from search.genes import VALUES, WHAT, Genes, Inputs, Part, any_genes, inputs_of, varied
from search.made import made

SIZE = 2**14


def part(what: str, name: str = "fresh", count: int = 1, value: str = "right") -> Part:
    return Part(what, name, 8, count, value)


def genes(form: str, what: str, **more: str) -> Genes:
    return Genes(form, (dataclasses.replace(part(what), **more),), 10)


def found_of(call: str, *inputs: Genes) -> Cost:
    found = cost(Inputs(call, inputs), SIZE, 20)
    assert found is not None, call
    return found


class Made(unittest.TestCase):
    """What is made of genes."""

    def test_what_is_to_be_lawful_is_taken(self) -> None:
        lawful = [
            ("warg_audit package", "package log", "release", "ok "),
            ("warg_audit package", "package log", "grant", "ok "),
            ("warg_audit operator", "operator log", "define", "ok "),
            ("warg_audit operator", "operator log", "import", "ok "),
            ("audit package", "package log", "release", "ok "),
            ("claims package", "package log", "release", "toy:"),
            ("resume package", "package state", "releases", "{"),
            ("resume package", "package state", "keys", "{"),
            ("resume package", "package state", "unknown", "{"),
            ("resume operator", "operator state", "namespaces", "{"),
            ("prove checkpoint", "leaves", "leaf", '{"logLength"'),
        ]
        for call, form, what, line in lawful:
            found = found_of(call, genes(form, what))
            self.assertEqual((found.line[: len(line)], found.status), (line, 0), (call, what))

    def test_names_of_one_hash_are_lawful(self) -> None:
        for call, form, what in [
            ("warg_audit operator", "operator log", "define"),
            ("resume operator", "operator state", "namespaces"),
            ("warg_audit package", "package log", "release"),
        ]:
            self.assertEqual(found_of(call, genes(form, what, name="one hash")).status, 0, call)

    def test_a_log_may_end_by_what_is_refused(self) -> None:
        refused = [("package", "grant", "YankOfUnreleased"), ("operator", "define", "InvalidNamespace")]
        for kind, what, offence in refused:
            for a_record in (10, 10**9):
                lawful = dataclasses.replace(genes(f"{kind} log", what), a_record=a_record)
                lines = made(lawful, SIZE).count(b"\n")
                found = found_of(f"audit {kind}", dataclasses.replace(lawful, ending="refused"))
                self.assertEqual((found.line, found.status), (f"refused {lines - 1} {offence}", 1))

    def test_a_checkpoint_and_a_proof_are_read(self) -> None:
        found = found_of("verify absence", genes("checkpoint", "unknown"), genes("proof", "path"))
        self.assertIn(found.status, (1, 2))
        self.assertGreater(found.given, SIZE)

    def test_every_value_of_json_is_json(self) -> None:
        for value in VALUES:
            found = found_of("resume package", genes("package state", "unknown", value=value))
            self.assertEqual(found.status, 0, value)

    def test_none_is_longer_than_asked(self) -> None:
        draw = random.Random(7)
        for form in WHAT:
            for _ in range(3):
                drawn, asked = any_genes(draw, form), 2**19
                self.assertTrue(asked // 64 < len(made(drawn, asked)) <= asked, drawn)

    def test_a_line_makes_the_same_again(self) -> None:
        draw = random.Random(8)
        for call, (_, formats) in CALLS.items():
            inputs = Inputs(call, tuple(varied(draw, any_genes(draw, it)) for it in formats))
            again = inputs_of(inputs.text())
            self.assertEqual(again, inputs)
            self.assertEqual([made(it, SIZE) for it in again.genes], [made(it, SIZE) for it in inputs.genes])


class Climbs(unittest.TestCase):
    """What a climb keeps."""

    def test_it_takes_what_costs_more_for_a_byte(self) -> None:
        climb = Climb("latest", "time")
        cheap, dear = (Inputs("latest", (genes("package log", it),)) for it in ("empty", "release"))
        self.assertTrue(climb.tried(cheap, Cost(0, 1.0, 2**23, 1000, 0, "")))
        self.assertFalse(climb.tried(dear, Cost(0, 2.0, 2**23, 4000, 0, "")))
        self.assertTrue(climb.tried(dear, Cost(0, 3.0, 2**23, 2000, 0, "")))
        self.assertEqual(climb.best, dear)

    def test_memory_is_counted_apart(self) -> None:
        climb = Climb("latest", "memory")
        given = Inputs("latest", (genes("package log", "release"),))
        self.assertFalse(climb.tried(given, Cost(0, 9.0, 2**20, 1000, 0, "")))
        self.assertTrue(climb.tried(given, Cost(0, 0.0, 2**24, 1000, 0, "")))

    def test_it_tries_inputs_of_its_call_alone(self) -> None:
        draw = random.Random(9)
        climb = Climb("compare package", "time")
        for place in range(50):
            inputs = climb.next(draw)
            self.assertEqual([it.format for it in inputs.genes], ["package log", "package log"])
            climb.tried(inputs, Cost(0, 1.0 + place, 2**23, 1000, 0, ""))

    def test_each_call_is_climbed_by_each_measure(self) -> None:
        tries, every = climbed(["latest", "make"], 3, 2)
        self.assertGreater(tries, 0)
        self.assertEqual([it.call for it in every], ["latest", "latest", "make", "make"])
        self.assertEqual([it.measure for it in every], ["time", "memory"] * 2)
        self.assertTrue(any(it.best for it in every))

    def test_what_was_found_can_be_made_again(self) -> None:
        for line in FOUND.read_text(encoding="utf-8").splitlines():
            with self.subTest(line):
                inputs = inputs_of(line)
                self.assertEqual(inputs.text(), line)
                self.assertIsNotNone(cost(inputs, SIZE, 20))


if __name__ == "__main__":
    unittest.main()
