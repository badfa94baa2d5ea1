"""The commands of `python3 -m rdfax`: a module each, with `add_arguments(parser)` and `run(arguments) -> int`."""
