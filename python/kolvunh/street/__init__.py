"""A street in the words of the trade, and what is made of it: a network file, arrivals, a fixed plan."""
