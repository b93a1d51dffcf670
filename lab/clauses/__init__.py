"""The clauses of progress of `run` and `World::run`, executable.

One module for each clause: what it ranges over (`Choice`), whether its preconditions hold of a choice (`lacking`), and a search for
the choice with the earliest bound (`find`). The search only proposes choices; `lacking` decides. The other modules have the
definitions that clauses share, with their names in the specs."""
