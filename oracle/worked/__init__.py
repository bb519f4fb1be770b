"""Worked cases: the examples that the programs of the gate run, with the answers of paper, and what documents and bindings show."""
