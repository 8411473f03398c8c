"""A feed over two pipes, for readers on other hosts: commits go out, and LSNs come in.

`pgsub-feed --pipe` (`serving`) is at the feed, behind ssh or a socket unit of systemd; the reader
(`following`) has the other ends. Each side writes lines.

| Who | Writes |
|---|---|
| the reader first | the LSN that its rows are at, as `0/1958B68`; an empty line asks for all commits that are there |
| the reader | an LSN once its rows have all up to there |
| the feed first | the head of a segment, as in the file, without the blanks |
| the feed | to who has 0 or nothing, the rows from before the first commit: `{"base":"0/1958B68","end":"0/0","n":0,"rows":2,"bytes":164}` and so many bytes of a definition and rows; `n` rows came before, and `end` isn't 0 where they are the last |
| the feed | each commit that ends above, as in the file: its line, and as many bytes as that says |
| the feed | before a commit, each definition that its changes name, unless this reader has it: `{"at":1280,"op":"table",..}`, the line with its offset, in place of another of that offset |
| the feed | where its file `types` is new, before a commit that it is of: `{"types":1,"bytes":312}` and so many bytes of that file |
| the feed last | `{"done":"0/1958C10"}` where it doesn't follow, or `{"fault":5,"text":".."}`, an exit status and why |

Whatever else ends the pipes is a cut: the reader comes again, with the LSN that it has then.

A key of ssh may be for one reader alone, in `authorized_keys`:

    restrict,command="pgsub-feed --pipe --follow --feed /var/lib/pgsub/copy.db.feed --reader mirror" ssh-ed25519 ..

In a service that a socket unit with `Accept=yes` starts, `ExecStart=` is that command, with
`StandardInput=socket`. Its reader sets what carries the pipes, which passes over the words that ssh
would get: `PGSUB_SSH="sh -c 'exec socat - UNIX-CONNECT:/run/pgsub-feed.sock'"`.
"""
