"""What answers rows: a module a folder of rows, with `play(programs, example)`, which gives what comes at each row in turn."""
