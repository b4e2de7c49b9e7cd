"""Where and why a text is refused, for ./program_check and for `check` of the Python package: programs, events files, traces and
logs.

`json_text` reads JSON as the program does and finds a value's line and column, `forms` has what all texts share, `programs`,
`events`, `traces` and `logs` have the form of each text, `world` makes the events of a trace again, with its phasers in
`phasers`, `logs` those of a log, `refused` says which act of a program a task was refused, and `command` has the words, the
files and the statuses.

Nothing here is proved, and nothing of it is asked by the program: it puts into words what the program answers.
"""
