"""Which crates are begun, and with how many jobs."""

import unittest

from plan import Start, starts

BEHIND = {"long": 9.0, "middle": 5.0, "short": 1.0, "last": 1.0}
MUCH = 100.0


class Starts(unittest.TestCase):
    def test_the_longest_chain_has_half_of_the_processors(self) -> None:
        begun = starts(["long", "middle", "short"], [], 4, MUCH, BEHIND)
        self.assertEqual(begun, [Start("long", 2), Start("middle", 1), Start("short", 1)])

    def test_a_shorter_chain_has_no_more_than_its_share(self) -> None:
        begun = starts(["middle", "short"], [Start("long", 2)], 4, MUCH, BEHIND)
        self.assertEqual(begun, [Start("middle", 1), Start("short", 1)])

    def test_a_crate_has_the_processors_that_no_other_waits_for(self) -> None:
        self.assertEqual(starts(["last"], [], 4, MUCH, BEHIND), [Start("last", 4)])
        self.assertEqual(starts(["short"], [Start("long", 2)], 4, MUCH, BEHIND), [Start("short", 2)])

    def test_a_crate_over_many_libraries_has_one_job(self) -> None:
        self.assertEqual(starts(["last"], [], 4, MUCH, BEHIND, {"last"}), [Start("last", 1)])

    def test_two_processors_prove_two_crates(self) -> None:
        self.assertEqual(starts(["long", "middle"], [], 2, MUCH, BEHIND), [Start("long", 1), Start("middle", 1)])

    def test_no_more_is_begun_than_memory_holds_and_one_always(self) -> None:
        self.assertEqual(starts(["long", "middle"], [], 4, 1.5, BEHIND), [Start("long", 1)])
        self.assertEqual(starts(["long", "middle"], [], 4, 0.1, BEHIND), [Start("long", 1)])
        self.assertEqual(starts(["middle"], [Start("long", 1)], 4, 1.5, BEHIND), [])


if __name__ == "__main__":
    unittest.main()
