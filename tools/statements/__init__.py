"""The statement of the theorem: what a clause stands on, and the page that shows it to an auditor.

- `definitions`: the files of definitions, and which of them a clause stands on
- `contracts`: the clauses of functions, and the declarations of types
- `sentences`: what the documents say, each sentence with the clauses that it names
- `examples`: the worked cases that hold a definition to its meaning
- `sections`: the sections of PostgreSQL's documentation that a module states
- `page`: all of it as one page of HTML
"""
