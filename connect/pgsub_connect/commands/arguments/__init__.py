"""Options that several subcommands have: a dataclass for each group, and what adds it to a parser.

`words` has what reads and rejects words, for all of them."""
