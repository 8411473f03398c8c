"""Tables that are added, or copied anew, while the stream goes on: what is asked for, and
which can't be (`requests`), the table whose turn it is (`turn`), and the steps (`adder`).
`replacement` says what the stream becomes, and whose changes are left out of it."""
