"""The machine that the lab runs on: terminal, files, signals, and the program, which gives the verdicts."""
