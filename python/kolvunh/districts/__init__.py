"""A city that is cut into districts, each a process with its own nodes: docs/SWEEPS.md, "A city in districts". Nothing here is proved."""
