"""The commands of `dlkt`, a file each: `HELP`, `EXAMPLE`, `add_words` for the words of the command line, and `run`."""
