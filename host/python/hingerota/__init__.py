"""Hingerota: two proved batch schedulers for a machine of up to 1,024 nodes.

A `Desk` is the scheduler of one machine. It does conservative backfilling (`Desk.promise`) or EASY backfilling (`Desk.loose`).

>>> import hingerota
>>> desk = hingerota.Desk.promise(nodes=10)
>>> answer = desk.submit(nodes=6, estimate=20)
>>> answer.ticket, answer.promise, answer.started
(1, 0, (1,))
>>> try:
...     desk.submit(nodes=11, estimate=5)
... except hingerota.Refused as refused:
...     print(refused.number, refused.reason)
1 nodes out of range

The module asks the shared library libhingerota.so, whose calls are proved, by ctypes. HINGEROTA_LIB names a folder that has it.
"""
from ._desk import Advanced, Answer, Block, Desk, Head, Job, Kind, Passed, Point, State
from ._refusals import Refusal, Refused

__all__ = ["Advanced", "Answer", "Block", "Desk", "Head", "Job", "Kind", "Passed", "Point", "Refusal", "Refused", "State"]
for _public in __all__:
    globals()[_public].__module__ = __name__
del _public
