"""Why calls are refused. `host/python/test` compares names, numbers and reasons with those of `hingerota.h`."""
from __future__ import annotations

import enum


class Refusal(enum.IntEnum):
    """Why a call is refused, by its number. No call gives 9 and 16 to 18: lines of scripts and seasons are refused by these."""

    NODES_OUT_OF_RANGE = 1
    MINUTES_OUT_OF_RANGE = 2
    OPENING_OUT_OF_RANGE = 3
    NO_TICKET_LEFT = 5
    PAST_LAST_MINUTE = 6
    NOT_RUNNING = 7
    LACKS_THE_FORM = 9
    TOO_SHORT = 10
    NOT_WAITING = 11
    CLEANUP_OUT_OF_RANGE = 12
    QUOTAS_OUT_OF_RANGE = 13
    UNKNOWN_TENANT = 14
    QUOTA_FULL = 15
    LONGEST_OUT_OF_RANGE = 16
    ARRIVES_TOO_EARLY = 17
    NO_RUN_LENGTH = 18
    LEAST_ABOVE_MOST = 19
    BEFORE_LEAST = 20
    WANTED_MINUTE_PAST = 21
    TEXT_MALFORMED = 22
    TEXT_REJECTED = 23

    @property
    def reason(self) -> str:
        """What it says of any call."""
        return _REASONS[self]


_REASONS = {
    Refusal.NODES_OUT_OF_RANGE: "nodes out of range",
    Refusal.MINUTES_OUT_OF_RANGE: "an estimate or a wait outside 1 to 10,080",
    Refusal.OPENING_OUT_OF_RANGE: "opened past minute 1,000,000, or with a first ticket outside 1 to 999,999",
    Refusal.NO_TICKET_LEFT: "ticket 999,999 has been given",
    Refusal.PAST_LAST_MINUTE: "past the last minute, 1,000,000",
    Refusal.NOT_RUNNING: "the ticket is not running",
    Refusal.LACKS_THE_FORM: "the line lacks the form",
    Refusal.TOO_SHORT: "the list, the page or the text is too short",
    Refusal.NOT_WAITING: "the ticket is not waiting",
    Refusal.CLEANUP_OUT_OF_RANGE: "opened with a cleanup above 30",
    Refusal.QUOTAS_OUT_OF_RANGE: "opened with places that are not 64 together, or with none for a house",
    Refusal.UNKNOWN_TENANT: "neither house A nor house B",
    Refusal.QUOTA_FULL: "the house's places are all live",
    Refusal.LONGEST_OUT_OF_RANGE: "a season with a longest estimate outside 1 to 10,080",
    Refusal.ARRIVES_TOO_EARLY: "the line arrives before one above it",
    Refusal.NO_RUN_LENGTH: "an actual run length of 0",
    Refusal.LEAST_ABOVE_MOST: "the least is above the most",
    Refusal.BEFORE_LEAST: "the end is before the least",
    Refusal.WANTED_MINUTE_PAST: "the minute asked for is past",
    Refusal.TEXT_MALFORMED: "a line lacks the form or is unclosed, or there is none",
    Refusal.TEXT_REJECTED: "one of the conditions of a desk is broken",
}


class Refused(Exception):
    """A call was refused, and has changed nothing.

    `refusal` says why, `number` is its number, and `reason` is what that number says.
    """

    def __init__(self, number: int) -> None:
        self.refusal = Refusal(number)
        self.number = number
        self.reason = self.refusal.reason
        super().__init__(f"refused by {number}: {self.reason}")

    def __reduce__(self) -> tuple[type[Refused], tuple[int]]:
        return type(self), (self.number,)


def judge(number: int) -> None:
    """Raises what a refusal's number says; 0 says that the call is taken."""
    if number:
        raise Refused(number)
