"""The program, called by ``Engine``; fills beside the states before and after."""

from __future__ import annotations

import json
import os
import unittest
from collections import defaultdict
from typing import Dict, Tuple
from unittest import mock

import speedex
from speedex import fills, gathering, ledger, rules
from tests.cases import TOP, stored


def market() -> Tuple[speedex.State, speedex.Candidates]:
    folder = TOP / "examples" / "market"
    state = speedex.decode((folder / "state.record").read_bytes(), speedex.State)
    return state, speedex.decode((folder / "candidates.record").read_bytes(), speedex.Candidates)


class Commands(unittest.TestCase):
    def setUp(self) -> None:
        self.engine = speedex.Engine()
        self.state, self.candidates = market()

    def test_seal_check_and_replay(self) -> None:
        sealed = self.engine.seal(self.state, self.candidates, workers=1, mu=10)
        verdict = self.engine.check(self.state, sealed.block)
        self.assertEqual(str(verdict), "valid height 1 value 784223640 bounds kept")
        self.assertEqual(rules.check(self.state, sealed.block), verdict)
        after = (TOP / "examples" / "market" / "after.record").read_bytes()
        self.assertEqual(speedex.encode(self.engine.replay(self.state, [sealed.block], workers=2)), after)
        self.assertEqual(speedex.encode(self.engine.replay(self.state, sealed.data)), after)
        self.assertEqual(speedex.encode(self.engine.follow(self.state, [sealed.block])), after)
        self.assertEqual(sealed.outcomes.outcomes[4:], (speedex.Overdraft(0, 4), speedex.Static(6)))

    def test_filter_migrate_interleave_show(self) -> None:
        self.assertEqual(self.engine.filter(self.state, self.candidates), gathering.kept(self.state, self.candidates))
        self.assertEqual(self.engine.migrate(self.state), gathering.migrate(self.state))
        script = speedex.Script(2, bytes((0, 1, 1, 0)))
        found = self.engine.interleave(self.state, self.candidates, script)
        self.assertEqual(found, gathering.interleave(self.state, self.candidates, script))
        shown: Tuple[speedex.Record, ...] = (self.state, self.candidates, script)
        for record in shown:
            self.assertEqual(self.engine.show(record), speedex.show(record))
        self.assertEqual(self.engine.demo(1).splitlines()[0], "demo 1")

    def test_prove_and_verify(self) -> None:
        proof = self.engine.prove(self.state, 3)
        assert proof is not None
        self.assertEqual(proof, gathering.prove(self.state, 3))
        verdict = self.engine.verify(proof)
        self.assertEqual(verdict, (True, 3, 2, gathering.root_of(self.state)))
        self.assertIsNone(self.engine.prove(self.state, 12345))

    def test_what_is_refused_has_its_figures(self) -> None:
        sealed = self.engine.seal(self.state, self.candidates)
        with self.assertRaises(speedex.RefusedError) as caught:
            self.engine.replay(self.state, [sealed.block, sealed.block])
        error = caught.exception
        self.assertEqual((error.block, error.number, error.name, error.rule), (1, 2, "WrongHeight", "NextHeight"))
        self.assertEqual(error.figures, {"have": 1, "said": 1})
        with self.assertRaises(speedex.DecodeError) as malformed:
            self.engine.check(speedex.encode(self.state), b"\1")
        self.assertEqual(malformed.exception.offset, len(speedex.encode(self.state)))
        with self.assertRaises(speedex.UsageError):
            self.engine.seal(self.state, self.candidates, workers=65)

    def test_a_program_that_is_not_there(self) -> None:
        with self.assertRaises(speedex.EngineNotFoundError):
            speedex.Engine("no-such-program-anywhere")
        with mock.patch.dict(os.environ, {"SPEEDEX": "/no/such/program"}):
            with self.assertRaises(speedex.EngineNotFoundError):
                speedex.Engine()


class DecodeErrors(unittest.TestCase):
    def test_faults_are_those_of_the_program(self) -> None:
        """Each stored input that is malformed, and each of some inputs with one byte changed."""
        engine, compared = speedex.Engine(), 0
        for case in stored("check", "show", "verify"):
            if case.code == 5:
                answer = engine.run(case.words, case.input)
                self.assertEqual((answer.code, answer.line), (case.code, case.line), case.name)
                compared += 1
        self.assertGreater(compared, 40)


class Fills(unittest.TestCase):
    """Fills beside the difference of the states that the program leaves."""

    def test_fills_are_the_difference_of_the_states(self) -> None:
        traded = 0
        for case in stored("check"):
            if case.code != 0:
                continue
            state, block = speedex.decode_all(case.input)
            assert isinstance(state, speedex.State) and isinstance(block, speedex.Block)
            with self.subTest(case.name):
                after = speedex.Engine().replay(state, [block])
                report = fills.execution_report(state, block)
                self.compare(state, block, after, report)
                traded += len(report.fills)
        self.assertGreater(traded, 15)

    def compare(
        self, state: speedex.State, block: speedex.Block, after: speedex.State, report: speedex.ExecutionReport
    ) -> None:
        effects = ledger.settled(state, block.transactions)
        gets: Dict[Tuple[int, int], int] = defaultdict(int)
        for fill in report.fills:
            gets[fill.account, fill.buy] += fill.gets
        for account in after.accounts:
            for asset, units in enumerate(account.balances):
                self.assertEqual(units - effects.balances[account.id][asset], gets.get((account.id, asset), 0))
        stays = {offer.key: offer.amount for offer in after.offers}
        for fill in report.fills:
            key = (fill.sell, fill.buy, fill.limit, fill.account, fill.seq)
            self.assertEqual(stays.pop(key, 0), fill.stays)
        self.assertEqual(stays, {offer.key: offer.amount for offer in report.untouched})
        self.assertEqual([total.rounding for total in report.totals], list(block.roundings))
        self.assertEqual(ledger.totals_of(state), ledger.totals_of(after))

    def test_forms(self) -> None:
        state, candidates = market()
        report = fills.execution_report(state, speedex.Engine().seal(state, candidates).block)
        rows = fills.as_csv(report).splitlines()
        self.assertEqual(rows[0].split(","), list(fills.COLUMNS))
        self.assertEqual(len(rows), 4)
        again = json.loads(json.dumps(fills.as_json(report)))
        self.assertEqual([row["gives"] for row in again["fills"]], [10, 9, 30])
        self.assertEqual([row["stays"] for row in again["fills"]], [0, 1, 0])
        self.assertIn("account 4 seq 1 gives 9 of asset 0 and gets 13 of asset 1", fills.as_text(report))


if __name__ == "__main__":
    unittest.main()
