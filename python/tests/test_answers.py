"""The independent answers beside the stored cases and the program."""

from __future__ import annotations

import unittest
from itertools import islice

import speedex
from speedex import answers, errors, rules
from speedex.explanation import explain
from tests.cases import stored


class StoredCases(unittest.TestCase):
    """What this package works out of an input is what is stored: exit code, output and line."""

    def test_all_commands_that_are_answered_here(self) -> None:
        answered = 0
        for case in stored():
            if case.words and case.words[0] in ("seal", "demo") and case.code == 0:
                continue
            with self.subTest(case.name):
                found = answers.answer(case.words, case.input)
                self.assertEqual(found, (case.code, case.output, case.line))
                answered += 1
        self.assertGreater(answered, 390)

    def test_what_is_sealed_is_valid_and_leaves_the_stored_state(self) -> None:
        engine, sealed_cases = speedex.Engine(), 0
        for case in stored("seal"):
            if case.code != 0:
                continue
            with self.subTest(case.name):
                state, _ = speedex.decode_all(case.input)
                assert isinstance(state, speedex.State)
                data = engine.call(case.words, case.input)
                block, outcomes = speedex.decode_all(data)
                assert isinstance(block, speedex.Block) and isinstance(outcomes, speedex.Outcomes)
                rules.check(state, block)
                self.assertEqual(speedex.encode(speedex.replay(state, [block])), case.after)
                accepted = [one for one in outcomes.outcomes if isinstance(one, speedex.Accepted)]
                self.assertEqual(len(accepted), len(block.transactions))
                sealed_cases += 1
        self.assertGreater(sealed_cases, 20)


class Lines(unittest.TestCase):
    def test_each_line_of_the_program_is_its_error_again(self) -> None:
        seen = set()
        for case in stored():
            if case.code in (0, 1):
                continue
            error = errors.error_of(case.code, case.line)
            self.assertEqual(str(error), case.line, case.name)
            self.assertEqual(error.code, case.code, case.name)
            self.assertNotIsInstance(error, speedex.EngineError, case.name)
            seen.add(type(error).__name__)
        self.assertEqual(seen, {"DecodeError", "RefusedError", "UsageError"})

    def test_a_line_that_is_none_is_an_engine_error(self) -> None:
        for code, line in ((5, "malformed at 3: 1 Tag"), (6, "refused block 0: 10 Overdrawn account 1"), (126, "no")):
            self.assertIsInstance(errors.error_of(code, line), speedex.EngineError)


class Explanations(unittest.TestCase):
    """``explain`` ends with the line of ``check``, at the rule that the program names."""

    def test_all_stored_checks(self) -> None:
        explained = 0
        for case in stored("check"):
            if case.code not in (0, 6):
                continue
            with self.subTest(case.name):
                state, block = speedex.decode_all(case.input)
                assert isinstance(state, speedex.State) and isinstance(block, speedex.Block)
                found = explain(state, block)
                wanted = case.output.decode().strip() if case.code == 0 else case.line
                self.assertEqual(found.line, wanted)
                self.assertEqual(str(found).splitlines()[-1], wanted)
                *before, last = found.steps
                self.assertTrue(all(step.holds for step in before))
                self.assertEqual(last.holds, case.code == 0)
                if found.refusal is not None:
                    self.assertEqual(last.rule, found.refusal.rule)
                else:
                    self.assertEqual([step.rule for step in found.steps], [rule for rule, _ in rules.RULES])
                explained += 1
        self.assertGreater(explained, 40)

    def test_first_blocks_of_stored_replays(self) -> None:
        engine = speedex.Engine()
        compared = 0
        for case in stored("replay"):
            if case.code not in (0, 6) or case.name.endswith("_workers") or case.name.endswith("_worker"):
                continue
            found = list(islice(speedex.records_of(case.input), 2))
            if len(found) < 2:
                continue
            state, block = found
            assert isinstance(state, speedex.State) and isinstance(block, speedex.Block)
            with self.subTest(case.name):
                answer = engine.run(["check"], speedex.encode(state) + speedex.encode(block))
                said = answer.output.decode().strip() if answer.code == 0 else answer.line
                self.assertEqual(explain(state, block).line, said)
                compared += 1
        self.assertGreater(compared, 20)


if __name__ == "__main__":
    unittest.main()
