"""How a follower goes: `progress` has it, in parts of `state`. `files` writes the status file and
`metrics`, `notify` tells the service manager, and `health` judges a status file."""
