"""The subcommands: one module each, with its options, its help, what is rejected of them, and
`run`. `arguments` has the options that several share."""
