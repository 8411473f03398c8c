"""The tables that an engine keeps: the definition of each that was told last, and its name.

As in tables of SQLite a name belongs to the table that was described with it last. Another one that
had it is called `pgsub:old:OID` from then on, since the server doesn't say whether it was dropped
or gets another name.
"""

import dataclasses
import functools
import json
from typing import Any

from .. import log
from ..formats.keys import key_of, table_text
from ..interruption import Check, never
from ..json_texts import list_of, object_of, oid_of, parsed, text_of
from ..known_tables import KnownTables
from ..reader.commits import Change, Missed
from ..reader.following import Chosen
from ..reader.lines import read_relation
from ..relation import Relation
from ..tables.indexes import OTHER, UNKNOWN, lacking, other_key
from ..tables.schema import relation_text
from ..tables.set_aside import cure

ASIDE = "pgsub:old:"
# A table whose name is what the engine's own keys begin with.
OWN, INSTEAD = "pgsub", "%70gsub"
LEFT = "the table was left out before, by its name or as it had no key, so rows of it are missing"


@dataclasses.dataclass(frozen=True)
class Kept:
    """A table: its definition and its name. `primary`: the columns of its primary key, where its
    replica identity is another, so that no message tells when it doesn't hold any more."""

    relation: Relation
    name: str
    primary: tuple[str, ...] = ()

    @property
    def oid(self) -> int:
        return self.relation.oid

    @functools.cached_property
    def columns(self) -> list[str]:
        return [it.name for it in self.relation.shape.columns]

    @functools.cached_property
    def key(self) -> list[int]:
        """The numbers of the columns of its key."""
        return key_of(self.relation, self.primary)

    @functools.cached_property
    def keys(self) -> list[str]:
        """Their names."""
        return [self.columns[at] for at in self.key]


class Holder:
    """What has the rows."""

    def make(self, new: Kept) -> None:
        """A table is new."""

    def carry(self, old: Kept, new: Kept) -> None:
        """A table has another definition or name from now on."""

    def remove(self, old: Kept) -> None:
        """A table is left out from now on."""


class Relations:
    """The tables. `is_keyed_only`: those without a key are left out. `known`: the store knows the
    primary keys that no message tells."""

    def __init__(
        self,
        chosen: tuple[str, ...],
        is_keyed_only: bool,
        holder: Holder,
        known: KnownTables | None = None,
        check: Check = never,
    ) -> None:
        self.chosen, self.is_keyed_only, self.holder = Chosen(chosen), is_keyed_only, holder
        self.known, self.check = known, check
        self.told = log.Once()
        self.load("")

    def load(self, text: str) -> None:
        """Has what `text` returned."""
        found: dict[str, Any] = object_of(parsed(text)) if text else {"kept": [], "left": []}
        self.saved = text
        self.left: set[int] = {oid_of(it) for it in found["left"]}
        # those of them that could be kept by now, but for their rows from before
        self.late = set[int]()
        self.kept = dict[int, Kept]()
        self.names = dict[str, int]()
        self.is_changed = False
        for name, definition, *more in found["kept"]:
            primary = tuple(text_of(it) for part in more for it in list_of(part))
            self.put(Kept(read_relation(definition), text_of(name), primary))

    def go_back(self) -> None:
        """Has again what was saved last."""
        self.load(self.saved)

    def touch(self) -> None:
        """It is to be saved, whatever is in it."""
        self.is_changed = True

    def note_saved(self, text: str) -> None:
        """What `text` returned is there."""
        self.saved, self.is_changed = text, False

    def text(self) -> str:
        kept = ",".join(
            f"[{json.dumps(it.name)},{relation_text(it.relation)},{json.dumps(it.primary)}]"
            for it in self.kept.values()
        )
        return f'{{"kept":[{kept}],"left":{json.dumps(sorted(self.left))}}}'

    def put(self, kept: Kept) -> None:
        old = self.kept.get(kept.oid)
        if old and self.names.get(old.name) == kept.oid:
            del self.names[old.name]
        self.kept[kept.oid], self.names[kept.name] = kept, kept.oid
        self.is_changed = True

    def describe(self, relation: Relation, lsn: int) -> Kept | None:
        """The table of a relation in a commit that ends there; None where it is left out."""
        kept = self.kept.get(relation.oid)
        return self.keep(relation, kept, self.primary(relation, kept, lsn))

    def begin(self, relation: Relation) -> Kept | None:
        """That of an export, which has a key, and doesn't say whether it is the identity's."""
        key = tuple(relation.shape.columns[at].name for at in key_of(relation))
        return self.keep(relation, None, key or self.primary(relation, None, 0))

    def keep(self, relation: Relation, kept: Kept | None, primary: tuple[str, ...]) -> Kept | None:
        is_same = kept and (kept.relation, kept.primary) == (relation, primary)
        if kept and is_same and not kept.name.startswith(ASIDE):
            return kept
        self.late.discard(relation.oid)
        if self.leaves_out(relation, primary):
            self.leave_out(relation, kept)
            return None
        if relation.oid in self.left:
            self.late.add(relation.oid)
            return None
        new = Kept(relation, self.claim(relation), primary)
        if kept:
            self.holder.carry(kept, new)
        else:
            self.holder.make(new)
        self.put(new)
        return new

    def take_up(self, it: Change | Missed, lsn: int) -> Kept | None:
        """A table that was left out, and needn't be once a TRUNCATE has left no row of it."""
        relation = it.relation
        if relation.oid in self.late:
            if isinstance(it, Change) and it.op == "t":
                self.left.discard(relation.oid)
                return self.describe(relation, lsn)
            self.tell(relation, LEFT, f"{LEFT}. {self.anew(relation)}")
        return None

    def primary(self, relation: Relation, kept: Kept | None, lsn: int) -> tuple[str, ...]:
        """The columns of the primary key of a table with another replica identity, as the store
        knows it; where it knows none that fits, those that the table has, as long as they hold."""
        if relation.shape.identity not in OTHER or not self.is_keyed_only:
            return ()
        oid, columns = relation.oid, {it.name for it in relation.shape.columns}
        has = kept.primary if kept and columns.issuperset(kept.primary) else ()
        if self.known is None:
            return has
        self.known.look()
        if not kept and oid not in self.left:
            self.known.wait(oid, lsn, self.check)
        found = self.known.primary(oid)
        lacks = lacking(found or (), relation)
        if found and not lacks:
            return other_key(relation, found)
        if found == () and relation.shape.identity == "i":
            # (the index of the identity is a key, too, and the stream tells it)
            return ()
        if found is not None and found != has:
            text = lacks or "there is no primary key on the server any more"
            self.tell(relation, text, text + (f": {', '.join(has)} stays the key" if has else ""))
        return has

    def leaves_out(self, relation: Relation, primary: tuple[str, ...]) -> bool:
        if not self.chosen(relation):
            return True
        is_bag = self.is_keyed_only and not key_of(relation, primary)
        if is_bag:
            text = "has no key, so its rows can't be hashes and are left out: --as streams has its changes"
            self.tell(relation, "bag", text + ("" if self.known else UNKNOWN), " ")
        return is_bag

    def give_up(self, oid: int) -> None:
        """Leaves out a table whose primary key doesn't hold: its rows can't be told apart by it."""
        kept = self.kept[oid]
        text = f"rows have null in the key {', '.join(kept.keys)}, or equal values"
        text = f"{text}, so they can't be hashes and are left out"
        self.tell(kept.relation, text, f"{text}. {self.anew(kept.relation)}")
        self.leave_out(kept.relation, kept)

    def anew(self, relation: Relation) -> str:
        name = f"{relation.namespace or 'pg_catalog'}.{relation.name}"
        return f"Its rows come anew by: {cure(self.known.path if self.known else '', [name])}"

    def tell(self, relation: Relation, what: str, text: str, sign: str = ": ") -> None:
        """Tells something of a table once."""
        self.told.warning((relation.oid, what), f"{relation.text()}{sign}{text}")

    def leave_out(self, relation: Relation, kept: Kept | None) -> None:
        if kept:
            self.holder.remove(kept)
            del self.kept[kept.oid], self.names[kept.name]
        if kept or relation.oid not in self.left:
            self.left.add(relation.oid)
            self.is_changed = True

    def claim(self, relation: Relation) -> str:
        """A relation's name. A table that had it gets another one."""
        name = table_text(relation.namespace, relation.name)
        name = INSTEAD if name == OWN else name
        holder = self.names.get(name, relation.oid)
        if holder != relation.oid:
            old = self.kept[holder]
            new = dataclasses.replace(old, name=f"{ASIDE}{holder}")
            self.holder.carry(old, new)
            self.put(new)
        return name
