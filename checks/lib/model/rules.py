"""The rules of which call may be next, by the names under which each can be left out."""

# What safety asks of the calls. A sector is behind a flush where a flush was asked after its write was told done, and was told done too. A record is
# durable where all its sectors are.
RULES = {
    "commit": "format 1: the commit is written only where the other sectors of its record are behind a flush",
    "record": "a sector of the next record is written only where the record before is durable",
    "slot": "a slot is written only where the head that passed its last record is behind a flush",
    "home": "a block is brought home only from a durable record",
    "order": "a block is brought home only where no older record would bring it home later",
    "head": "the head passes a record only where all its blocks are at home, behind a flush",
    "count": "the head passes no record more than those",
    "promise": "a promise is told only where the record that holds its WRITE is durable",
    "mark": "a flush makes promises good for what its record took, not for what was accepted since",
    "asked": "no event changes the call that is asked, or its bytes",
    "frozen": "the frozen batch takes no WRITE",
    "whole": "a WRITE is in one batch, whole",
    "kept": "a kept record is let go only where the writes of all its blocks home were told done",
    "refused flush": "behind a refused flush nothing is asked",
    "refused write": "behind a refused write nothing is asked",
    "reset write": "a reset drops a WRITE that waits for room, bytes and all",
    "reset read": "what a read brings that was in flight at a reset is thrown away",
    "reset promise": "a reset drops a promise that waits: it was not given",
    "reset mark": "a reset makes nothing durable",
    "recovery": "a recovery ends with the head two past the last record that it found: the stamp between may have been tried",
}
# Which of them a store can break that follows one plan, or that has single sectors and no events but WRITEs.
OF_ROLL = tuple(it for it in RULES if it not in ("commit", "record", "home", "order", "count"))
OF_EVERY = ("commit", "record", "slot", "home", "order", "head", "promise", "recovery")


class Wrong(Exception):
    """What a store may not do, or a cut may not leave."""
