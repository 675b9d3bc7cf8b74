"""The program's commands as functions, and what its tools stand on. Outside of what is proved, and never in its way.

    from niskjeld import plan, Refused
    try:
        for answer in plan("scene.xml", "safety.book", "town.lattice").answers:
            print(answer.vector, " ".join(answer.maneuvers))
    except Refused as refused:
        print(refused)          # scene.xml:12:5: <velocity> has no <exact>
"""

from .commands import accept, check, compare, derive, judge, pick, plan, show, walk
from .place import Place
from .program import Call, Fault, NoProgram, Status, TooSlow, call, find_program
from .refusals import CannotRead, NoMemory, NotDone, Refused, Rejected, TooManyLabels, Usage, WriteFault
from .values import Answer, Derivation, Front, Judgement, Recording, Row, Shown, Standing, Verdict, Walk

__all__ = [
    "Answer",
    "Call",
    "CannotRead",
    "Derivation",
    "Fault",
    "Front",
    "Judgement",
    "NoMemory",
    "NoProgram",
    "NotDone",
    "Place",
    "Recording",
    "Refused",
    "Rejected",
    "Row",
    "Shown",
    "Standing",
    "Status",
    "TooManyLabels",
    "TooSlow",
    "Usage",
    "Verdict",
    "Walk",
    "WriteFault",
    "accept",
    "call",
    "check",
    "compare",
    "derive",
    "find_program",
    "judge",
    "pick",
    "plan",
    "show",
    "walk",
]
