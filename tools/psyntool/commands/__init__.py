"""The commands, one file each: its function `run` runs the command. `table` describes the commands."""
