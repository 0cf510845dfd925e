"""Plays against the circuit that psyn printed: the user moves for the losing player."""
