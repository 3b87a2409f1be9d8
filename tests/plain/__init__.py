"""What the crates are compared with: an interpreter, a validator and a machine, written from docs/
and not from the program."""
