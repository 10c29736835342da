"""Runs Kolvunh's program `signal`, and reads, draws and explains what it writes. Standard library alone; Python 3.11 or later.

    from kolvunh import run
    report = run(["turns", "examples/corridor.toml", "examples/corridor.csv"])
    print(report.records.totals.delay / 1000, "vehicle seconds")

Seconds are whole. What a text has is read as it is there: amounts in thousandths of a vehicle, a delay in thousandths of a vehicle times
seconds. Measures, frames and the world of a closed loop have vehicles, and vehicles times seconds.
"""

from . import measures
from .arrivals import Arrival, arrivals_text, read_arrivals
from .faults import Fault
from .frames import frame_of
from .lanes import read_lanes
from .measures import Measures, Study, study_of
from .network_text import network_text, write_network
from .networks import Network, read_network
from .plans import PlanRow, read_plan
from .programs import Report, run
from .queues import read_queues
from .reports import read_report
from .serving import Serving
from .worlds import World, max_pressure

__version__ = "1.0"

__all__ = [
    "Arrival", "Fault", "Measures", "Network", "PlanRow", "Report", "Serving", "Study", "World",
    "arrivals_text", "frame_of", "max_pressure", "measures", "network_text", "read_arrivals", "read_lanes", "read_network",
    "read_plan", "read_queues", "read_report", "run", "study_of", "write_network",
]  # fmt: skip
