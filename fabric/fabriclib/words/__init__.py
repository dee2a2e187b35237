"""One module for each word of fabric/fabric: `add_arguments(parser)` and `run(told) -> exit status`."""
