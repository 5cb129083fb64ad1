"""What is found in repositories, by the engine and by Git."""

import unittest
from random import Random

from common import DOUBLE, WithRepositories, run
from bagjulen_tools.repository.fsck import (
    BEHIND_TAGS,
    NOT_REACHED,
    NO_BEGINNING,
    NO_BORDER,
    ONE_LINK,
    UNBORN,
    UNEXPLAINED,
    Findings,
    differences,
    laid_out,
    read_state,
    told_by_engine,
    told_by_git,
)
from bagjulen_tools.repository.git import Repository
from bagjulen_tools.trials.damage import Damage
from bagjulen_tools.trouble import BAD_INPUT, DIFFERENT, DONE, Trouble

NO_ID = "f" * 40


class Checking(WithRepositories):
    def state(self):
        return read_state(Repository(self.server))[0]

    def told(self, state):
        return told_by_git(laid_out(state, self.folder))

    def test_nothing_is_found(self):
        self.assertEqual(self.told(self.state()), Findings())

    def test_an_object_that_is_gone(self):
        state = self.state()
        tip = next(each for each in state.objects if each.id == self.tip)
        tree = tip.data.split(b"\n")[0].split(b" ")[1].decode()
        state.objects = [each for each in state.objects if each.id != tree]
        found = self.told(state)
        self.assertEqual((found.links, found.missing, found.broken), ({(self.tip, tree)}, {tree}, set()))
        self.assertEqual(len(found.unreached), 1)

    def test_references_that_lead_to_nothing(self):
        state = self.state()
        state.references |= {"refs/heads/lost": NO_ID, "refs/heads/a": "@refs/heads/b", "refs/heads/b": "@refs/heads/a",
                             "refs/heads/unborn": "@refs/heads/absent"}
        found = self.told(state)
        self.assertEqual(found.broken, {"refs/heads/lost", "refs/heads/a", "refs/heads/b", "refs/heads/unborn"})
        ours = Findings(broken=found.broken - {"refs/heads/unborn"})
        self.assertEqual(list(differences(state, ours, found)), [(UNBORN, "broken refs/heads/unborn")])
        self.assertEqual(read_state(Repository(self.path("copy.git")))[0].references, state.references)

    def test_a_history_that_is_cut_off(self):
        state = self.state()
        state.border = [self.tip]
        stored = {each.id for each in state.objects}
        found = self.told(state)
        self.assertEqual((found.links, found.broken), (set(), set()))
        self.assertEqual(len(stored - found.unreached), 3)

    def test_reasons(self):
        state = self.state()
        stored = sorted(each.id for each in state.objects)
        state.references["refs/heads/behind"] = "@refs/heads/main"
        ours = Findings(links={(stored[0], NO_ID), (stored[1], NO_ID), (stored[2], "e" * 40), ("d" * 40, "d" * 40)},
                        broken={"refs/heads/behind"}, unreached={stored[2]})
        theirs = Findings(links={(stored[0], NO_ID)}, missing={NO_ID}, has_beginning=False)
        reasons = sorted(reason for reason, _ in differences(state, ours, theirs))
        self.assertEqual(reasons, sorted([ONE_LINK, NOT_REACHED, NO_BORDER, BEHIND_TAGS, NO_BEGINNING]))
        theirs = Findings(links={(stored[0], stored[1])}, missing={NO_ID}, broken={"refs/heads/main"}, unreached={stored[3]})
        unexplained = [what for reason, what in differences(state, Findings(), theirs) if reason == UNEXPLAINED]
        self.assertEqual(len(unexplained), 4)

    def test_what_the_engine_writes(self):
        found = told_by_engine(1, b"missing a b\nbroken refs/x MissingObject b\nunreached c\nfound 3\n")
        self.assertEqual(found, Findings({("a", "b")}, {"b"}, {"refs/x"}, {"c"}))
        self.assertEqual(told_by_engine(0, b"ok\n"), Findings())
        for status, text in ((1, b"ok\n"), (0, b"found 0\n"), (1, b"missing a b\nfound 2\n"), (1, b"lost a\nfound 1\n"), (0, b"")):
            self.assertRaises(Trouble, told_by_engine, status, text)

    def test_harm_is_that_of_its_seed(self):
        def harmed(seed):
            state = self.state()
            return Damage(Random(seed), state).some(3), state.to_server_bytes()
        self.assertEqual(harmed("a"), harmed("a"))
        self.assertGreater(len({harmed(str(seed))[1] for seed in range(20)}), 10)

    def test_the_tool(self):
        status, told, _ = run("check-repository", *DOUBLE, self.server)
        self.assertEqual((status, told.splitlines()[-1].strip()), (DONE, b"1 alike"))
        status, told, _ = run("check-repository", *DOUBLE, self.server, behaviour="malformed")
        self.assertEqual((status, told.splitlines()[-1].strip()), (BAD_INPUT, b"1 not read"))
        state = self.state()
        state.references["refs/heads/main"] = NO_ID
        status, told, _ = run("check-repository", *DOUBLE, laid_out(state, self.folder).path)
        self.assertEqual(status, DIFFERENT)
        self.assertIn(b"UNEXPLAINED: broken refs/heads/main", told)


if __name__ == "__main__":
    unittest.main()
