"""Controllers' high-resolution logs: a report as a log, and a log as a sheet and arrivals. docs/FORMATS.md, "Event log"."""
