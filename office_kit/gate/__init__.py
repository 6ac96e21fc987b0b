"""The parts of the gate: the list of crates, the transcripts, the number of checks side by side, and the results of mutants in the lines of rt."""
