"""Optimal multi-agent path finding and the judging of plans, by the program mapf or its library.

>>> import mapf
>>> answer = mapf.solve("examples/bay.map", "examples/bay.scen", 2)
>>> answer.cost
4
>>> mapf.check("examples/bay.map", "examples/bay.scen", answer).valid
True

What the program answers is proved, by its contracts; this package and its converters are tested only.
"""
from .arrays import Instance
from .calls import check, read_plan, solve, version
from .faults import (
    ArgumentFault,
    BackendFailure,
    ConversionFault,
    Fault,
    FileFault,
    InstanceFault,
    MapFault,
    NotBuilt,
    OutOfMemory,
    PlanFault,
    ScenarioFault,
)
from .plan import GaveUp, NoPlan, OutOfTime, Plan, Unsolved
from .plan_text import read_text
from .verdict import Verdict

__version__ = "0.1.0-dev"

__all__ = [
    "ArgumentFault",
    "BackendFailure",
    "ConversionFault",
    "Fault",
    "FileFault",
    "GaveUp",
    "Instance",
    "InstanceFault",
    "MapFault",
    "NoPlan",
    "NotBuilt",
    "OutOfMemory",
    "OutOfTime",
    "Plan",
    "PlanFault",
    "ScenarioFault",
    "Unsolved",
    "Verdict",
    "check",
    "read_plan",
    "read_text",
    "solve",
    "version",
]
