"""Texts that follow the changes of a session over random commands."""

import random

from shared import FAMILY, Scripts, main

import lodvarn
from lodvarn import Direction, Movement, ReportKind, Session
from typed import MOVEMENTS, NAMES, WORDS, do

PIECES = ["", "a", "é", "漢字", "one two", FAMILY, "e\u0301", "\n", "  x\n\ty", "Ωμέγα ß", "0\0_-."]


def some(rng, session, letter):
    """An argument for a letter of the words: now and then an index that may be outside the text."""
    if letter == "M":
        letters, make = MOVEMENTS[rng.choice(list(MOVEMENTS))]
        return make(*(some(rng, session, it) for it in letters))
    if letter in NAMES:
        return rng.choice(list(NAMES[letter][0]))
    if letter == "Q":
        return rng.randrange(99) if rng.random() < 0.05 else rng.randint(0, len(session))
    return {"T": rng.choice(PIECES) * rng.randrange(3), "C": rng.choice("ab1é漢 \n-"), "K": rng.randrange(40)}.get(
        letter, rng.choice([0, 1, 1, 1, 2, 3])
    )


class Mirrors(Scripts):
    # The seed of the commands, and how many found no memory, and of these had changed the text.
    seed, failed, halfway = 7, 0, 0

    def follow_reports(self, mirror, session):
        """Makes the changes of all reports in a text, which is the session's then. Their kinds, and the cursor after
        the last change."""
        seen = []
        while session.report_count:
            try:
                seen.extend(session.changes())
            except lodvarn.NoMemoryError:
                self.failed += 1
        for it in seen:
            new = session.slice(it.at, it.at + it.new_len) if it.new_text is None else it.new_text
            self.assertIn(it.old_text, ("".join(mirror[it.at : it.at + it.old_len]), None))
            mirror[it.at : it.at + it.old_len] = new
        self.assertEqual("".join(mirror), session.text)
        return {it.kind for it in seen}, [it.pos_after for it in seen if it.old_len or it.new_len][-1:]

    def follow_splice(self, mirror, session):
        """Makes the change that `take_change` returns in a text, which is the session's then."""
        if splice := session.take_change():
            mirror[splice.start : splice.old_end] = session.slice(splice.start, splice.new_end)
        self.assertEqual("".join(mirror), session.text)

    def do(self, rng, session):
        """Does a random command, which may fail for its arguments, or for want of memory."""
        before = session.text
        word = rng.choice([*WORDS, "ins", "ins", "ins", "paste", "str", "yank", "undo", "redo"])
        try:
            do(session, word, [some(rng, session, it) for it in WORDS[word][0]])
            if rng.random() < 0.1:
                session.type(rng.choice(PIECES).encode()[: rng.randrange(9)])
                session.kill(Movement.to_match(rng.choice("a漢 "), rng.choice(list(Direction))))
            if rng.random() < 0.03:
                session.max_bytes = session.max_ring_bytes = rng.choice([None, 300])
                session.keep_undone = rng.random() < 0.5
                session.restart(rng.choice(PIECES))
        except (lodvarn.NoSuchNumberError, lodvarn.NoRoomError, lodvarn.NoMemoryError) as fault:
            self.failed += isinstance(fault, MemoryError)
            self.halfway += isinstance(fault, MemoryError) and session.text != before

    def leads_to_the_text(self, session, patience, kinds):
        """Two texts follow the reports, read every `patience` commands or sooner, and what changed, over random
        commands. There are these kinds of reports."""
        by_reports, by_splices, seen, wait, rng = [], [], set(), 1, random.Random(self.seed)
        for _ in range(20000):
            self.do(rng, session)
            wait -= 1
            if not wait:
                new, last = self.follow_reports(by_reports, session)
                seen |= new
                if patience == 1:
                    self.assertIn(session.pos, last or [session.pos])
                wait = rng.randint(1, patience)
            if rng.random() < 0.5:
                self.follow_splice(by_splices, session)
        self.assertEqual(seen, kinds)

    def test_queues_of_one_of_four_with_short_texts_and_of_many_reports(self):
        every = set(ReportKind)
        for room, patience, kinds in [
            ((1,), 1, every - {ReportKind.KILL_STARTED, ReportKind.KILL_STOPPED}),
            ((4, 64), 3, every),
            ((1000,), 30, every - {ReportKind.FOLDED}),
        ]:
            session = Session("", limit_bytes=200)
            session.watch(*room)
            self.leads_to_the_text(session, patience, kinds)


if __name__ == "__main__":
    main()
