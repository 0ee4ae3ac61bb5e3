"""A plain reading of the formats and commands, written from docs/FORMATS.md and docs/COMMANDS.md alone.

Nothing here is fast or proved. It shares no code with the program: `strength/run differ` compares the two.
"""
