"""What the tests share: where things lie, the program as a process, terminals, and counts of what came of hostile use."""
