"""Random streams of commands and of noise, judged by plain lists of rows, under each policy and in pieces; and the rows of tests/rows."""

import random
import unittest

from support import harness, model, random_streams, sizes, texts

STREAMS = sizes.size(300, 10_000, 100)
STREAMS_OF_TEXTS = sizes.size(60, 2_000)


class RandomStreams(unittest.TestCase):
    """The program answers as plain lists of rows do."""

    def check(self, draw, stream, answers):
        for policy in harness.POLICIES:
            self.assertEqual(harness.run_whole(stream, ["--policy", policy]).out, answers, policy)
        self.assertEqual(harness.run_in_pieces(random_streams.random_pieces(draw, stream)).out, answers)

    def test_random_streams_under_each_policy_and_in_pieces(self):
        draw = random.Random(random_streams.SEED)
        for number in range(STREAMS):
            with self.subTest(stream=number):
                self.check(draw, *random_streams.stream_and_answers(draw))

    def test_random_streams_of_texts_around_a_cell(self):
        draw = random.Random(random_streams.SEED)
        for number in range(STREAMS_OF_TEXTS):
            stream = texts.stream(draw)
            with self.subTest(stream=number):
                self.check(draw, stream, model.answers_to(stream))

    def test_the_rows_are_answered_so_by_the_lists(self):
        for name, stream, answers in harness.rows():
            with self.subTest(row=name):
                self.assertEqual(model.answers_to(stream), answers)

    def test_the_rows_under_limits_are_answered_so_by_the_lists(self):
        for name, limits, stream, answers in harness.limited_rows():
            with self.subTest(row=name):
                self.assertEqual(model.answers_to(stream, limits), answers)

    def test_ten_thousand_rows_in_any_order(self):
        keys = random.Random(random_streams.SEED).sample(range(-(2**40), 2**40), 10_000)
        stream = b"table t (id int, n int)\n" + b"".join(b"insert t (%d, %d)\n" % (key, -key) for key in keys)
        records = b"".join(b"%d,%d\n" % (key, -key) for key in sorted(keys))
        ended = harness.run_whole(stream + b"select * from t\n")
        self.assertEqual(ended.out, b"ok\n" + b"ok 1\n" * len(keys) + b"rows 10000\nt.id,t.n\n" + records)
