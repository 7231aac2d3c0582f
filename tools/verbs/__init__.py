"""The verbs of ./stumpchoir, a module each. Its text says what it is for, the usage in the first line; `run(words, write)` does it, and
answers the status: 0, or 2 where the input is refused. A message for standard error, with status 1, is `Failed`."""
