"""Misuse of the package: what is raised, and that random calls raise nothing else and end nothing.

usage: misuse.py [SECONDS]     (SECONDS of random calls; 2 without)
"""
import copy
import os
import pickle
import random
import subprocess
import sys
import tempfile
import time
import unittest

import abt
import abt.journal

SECONDS = float(sys.argv.pop()) if len(sys.argv) > 1 and sys.argv[-1].replace(".", "").isdigit() else 2
ASK = abt.Request(1, 100, 1, 0, 0x5258)


class Misuse(unittest.TestCase):
    def refused(self, name, call, *given):
        with self.assertRaises(abt.Fault) as raised:
            call(*given)
        self.assertEqual(raised.exception.name, name)

    def test_faults_have_their_names_in_c(self):
        self.refused("TauRange", abt.Policer, 10**12 + 1)
        self.refused("SpacingRange", abt.Gcra(0).check, 0, 0)
        self.refused("TimeRange", abt.Shaper, 2**64 - 1)
        self.refused("Zero", abt.Shaper().emit, 0, 0)
        self.refused("Length", abt.read_cell, bytes(51))
        self.refused("Length", abt.crc10, b"")
        self.refused("VpiRange", abt.write_cell, abt.Request(4096, 0, 1, 0, 0))
        self.refused("SeqZero", abt.write_cell, abt.Request(0, 0, 0, 0, 0))
        self.refused("RateOrder", abt.write_cell, abt.Request(0, 0, 1, 0x5258, 0))
        self.refused("CapacityRange", abt.Table, 2**60 + 1)
        self.refused("UnitsRange", abt.rate, "9999999999999999999cps", "above")

    def test_a_source_in_another_state(self):
        source = abt.Source(abt.MemoryStore(), 1, 100)
        self.refused("Down", source.ask, "400cps")
        self.refused("Down", source.emit, 0)
        self.refused("Down", source.crash)
        source.start(0)
        self.refused("Running", source.start, 0)
        self.refused("NotAsking", source.again)
        self.refused("Kind", source.answer, ASK)
        self.refused("Length", abt.Source(abt.MemoryStore(b"abc"), 1, 100).start, 0)

    def test_a_port_and_its_table(self):
        table = abt.Table(512000)
        table.add(1, 100)
        self.refused("Known", table.add, 1, 100)
        self.refused("TauRange", table.add, 1, 101, 10**12 + 1)
        self.refused("NotIngress", table.arrive, 1, 100, 0)
        self.refused("SeqZero", abt.turn, abt.Request(1, 100, 0, 0, 0))
        self.refused("NotRm", table.cell, bytes(52))
        table.take(ASK)
        self.refused("BelowSum", table.set_capacity, 0)
        self.refused("Held", table.remove, 1, 100)
        table.add(1, 102, tau=0)
        with self.assertRaises(abt.Fault) as raised:
            table.arrive_burst([(1, 102, 5), (1, 7, 5), (1, 102, 4)])
        self.assertEqual((raised.exception.name, raised.exception.judged), ("ClockBack", [abt.Verdict.NO_RATE, None]))
        with self.assertRaises(TypeError):
            abt.Port(1).take(table, ASK)
        for it in (table, abt.Port(1), abt.Connection(0, 1), abt.Source(abt.MemoryStore(), 0, 1)):
            for copied in (copy.copy, copy.deepcopy, pickle.dumps):
                self.assertRaises(TypeError, copied, it)

    def test_what_is_compared_is_not_tested(self):
        table = abt.Table(0)
        table.add(1, 100)
        second = abt.Request(1, 100, 2, 0, 0x5258)
        for refused in (abt.Port(0).take(abt.Connection(1, 100), ASK), table.take(ASK), table.cell(abt.write_cell(second))):
            self.assertIs(refused.decision, abt.Decision.REFUSE)
            self.assertRaisesRegex(TypeError, "decision is Decision.PASS", bool, refused)
        for passed in (abt.Port(512000).take(abt.Connection(1, 100), ASK), abt.Served(abt.Decision.PASS, bytes(52))):
            self.assertEqual(passed.decision, abt.Decision.PASS)
            self.assertRaisesRegex(TypeError, "decision is Decision.PASS", bool, passed)
        for woven in (False, True):
            self.assertRaisesRegex(TypeError, r"test \.woven", bool, abt.journal.Audit(woven, []))

    def test_what_c_would_cut_off(self):
        for call in (lambda: abt.Policer(-1), lambda: abt.Policer(2**64), lambda: abt.units(65536), lambda: abt.Policer(0).arrive(0, 65536)):
            self.assertRaises(OverflowError, call)
        for call in (lambda: abt.Policer(1.5), lambda: abt.Policer(True), lambda: abt.read_cell("text"), lambda: abt.units(None)):
            self.assertRaises(TypeError, call)
        for words in ("1000 cps", "1Tbps", "1gbps", "1Gcps", "Gbps", "1.Gbps", "1.0000000001Gbps", "-1cps", "1e3cps"):
            self.assertRaises(ValueError, abt.rate, words, "below")
        self.assertRaises(ValueError, abt.rate, "0.001cps")

    def test_a_store_that_fails(self):
        class Failing(abt.MemoryStore):
            error = abt.StoreFailed("no room")

            def write(self, record):
                raise self.error

        store = Failing()
        source = abt.Source(store, 1, 100)
        source.start(0)
        for store.error in (abt.StoreFailed("no room"), abt.StoreFailed("no sync", after=True), KeyError("a bug"), KeyboardInterrupt()):
            with self.assertRaises(type(store.error)):
                source.ask("400cps")
            self.refused("NotAsking", source.again)
        with tempfile.TemporaryDirectory() as folder:
            source = abt.Source(folder + "/none/record", 1, 100)
            source.start(0)
            with self.assertRaises(abt.StoreFailed) as raised:
                source.ask("400cps")
            self.assertFalse(raised.exception.after)

    def test_numbers_rise_over_a_crash(self):
        with tempfile.TemporaryDirectory() as folder:
            numbers = []
            for now in range(3):
                source = abt.Source(folder + "/record", 1, 100)
                source.start(now)
                numbers += [source.ask("400cps").seq, source.ask("500cps").seq]
            self.assertEqual(numbers, sorted(set(numbers)))
            self.assertEqual(os.listdir(folder), ["record"])

    def test_a_missing_library_is_told(self):
        for call, told in (("", ""), ("; abt.rate('1cps')", f"abt {abt.VERSION} finds no library /none")):
            words = [sys.executable, "-c", f"import abt{call}"]
            said = subprocess.run(words, env={**os.environ, "ABT_LIBRARY": "/none"}, capture_output=True, text=True)
            self.assertIn(told, said.stderr)
            self.assertEqual(bool(told), said.returncode != 0)

    def test_random_calls(self):
        until, seed = time.time() + SECONDS, random.Random(0)
        while time.time() < until:
            table, port, connection = abt.Table(seed.choice([0, 512000, 2**60])), abt.Port(512000), abt.Connection(1, 100)
            source = abt.Source(abt.MemoryStore(seed.randbytes(seed.choice([0, 4, 12]))), 1, 100)
            octets = bytearray(abt.write_cell(ASK))
            for _ in range(200):
                number = seed.choice([0, 1, 100, 101, 0x5258, 2**16 - 1, 2**32 - 1, 10**12, 2**61, 2**64 - 1, seed.getrandbits(16), -1])
                octets[seed.randrange(52)] ^= 1 << seed.randrange(8)
                message = abt.Request(seed.choice([1, number]), seed.choice([100, number]), seed.choice([1, 2, number]), 0, seed.choice([0x5120, number]))
                answer = message.answered(seed.random() < 0.5)
                call = seed.choice([
                    lambda: table.add(1, number), lambda: table.take(message), lambda: table.take(answer), lambda: table.cell(bytes(octets)),
                    lambda: table.set_capacity(number), lambda: table.held(1, number), lambda: port.take(connection, message),
                    lambda: port.take(connection, answer), lambda: port.set_capacity(number), lambda: source.start(number),
                    lambda: source.ask(number), lambda: source.answer(answer), source.again, lambda: source.emit(number), source.crash,
                    lambda: table.add(1, number, tau=number), lambda: table.remove(1, number), lambda: table.arrive(1, 100, number),
                    lambda: table.arrive_burst([(1, 100, 1), (1, number, number)]), lambda: abt.Policer(200).arrive_burst([1, number], 0x5120),
                    lambda: table.reservation(1, number), lambda: source.next, lambda: abt.turn(message),
                    lambda: abt.Policer(200).arrive(number, 0x5120), lambda: abt.rate(f"{number}cps", "below"),
                ])
                try:
                    call()
                except (abt.Fault, OverflowError, ValueError):
                    pass
            self.assertLessEqual(table.total, 2**60)


if __name__ == "__main__":
    unittest.main()
