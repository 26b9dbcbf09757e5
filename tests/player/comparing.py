"""Compares what was recorded with what was expected, entry by entry.

Numbers that stand for something (uses, routines, contexts, words above 32 bits, seats) may differ: what they stand for has
to be the same all along. Looks, preparations and frees of what has ended aren't compared."""

from conditions import is_refused
from playable import MOVES, owner_after

PREPARING = ("set_next", "copy_to_next", "set_routine")
SHOWN = {0: "device", 3: "major", 4: "location", 6: "status", 7: "information", 8: "PendingReturned", 9: "cancel flag",
         11: "has_lower"}
ASKED = ("dispatch", "cancel", "completion")


class Differs(Exception):
    """The first difference: the place among the compared entries, what it is, what was expected, what is there."""

    def __init__(self, place, what, wanted, got):
        super().__init__(f"compared entry {place}: {what}: wanted {wanted}, got {got}")
        self.place, self.what, self.wanted, self.got = place, what, wanted, got


def significant(entries):
    """Yields the entries that are compared."""
    owners = {}
    for entry in entries:
        do = entry["call"]["do"]
        if is_refused(entry["reply"]):
            continue
        use = entry["call"]["irp"][1] if "irp" in entry["call"] else None
        if do in ("allocate", "reuse"):
            owners[entry["reply"]["irp"][1]] = "o"
        if do == "look" or do in PREPARING or do == "free" and owners.get(use) == "ended":
            continue
        if do in MOVES:
            owners[use] = owner_after(entry, owners.get(use))
        yield entry


def change_of(asked):
    """Returns the replacement of a routine's answer. One by what stands there already is none to a recorder."""
    replaced = asked["answer"][2]
    return None if replaced == asked["shown"][6:8] else replaced


class Comparison:
    """Which numbers of the record stand for which of what was expected."""

    def __init__(self, with_seats=False):
        self.maps, self.with_seats, self.place = {}, with_seats, -1

    def same(self, kind, got, wanted, both=True):
        """Whether `got` stands for `wanted`; with `both`, for nothing else."""
        there, back = self.maps.setdefault(kind, ({}, {}))
        if there.setdefault(got, wanted) != wanted:
            return False
        return not both or back.setdefault(wanted, got) == got

    def need(self, what, good, wanted, got):
        if not good:
            raise Differs(self.place, what, wanted, got)

    def entry(self, w, g):
        cw, cg = w["call"], g["call"]
        self.need("call", cw["do"] == cg["do"], cw, cg)
        for key in ("driver", "device", "to", "lower", "size", "status", "information", "by", "target"):
            self.need(f"call.{key}", cw.get(key) == cg.get(key), cw, cg)
        if "irp" in cw:
            self.need("use", self.same("use", cg["irp"][1], cw["irp"][1]), cw, cg)
        if cw["do"] == "set_cancel_routine":
            self.need("cancel routine", self.same("cancel", cg["cancel"], cw["cancel"]), cw, cg)
        self.need("seat", not self.with_seats or self.same("seat", g["seat"], w["seat"]), w, g)
        for k, (aw, ag) in enumerate(zip(w["asked"], g["asked"])):
            self.asked(k, aw, ag)
        n = min(len(w["asked"]), len(g["asked"]))
        self.need(f"asked {n}", len(w["asked"]) == len(g["asked"]), w["asked"][n:], g["asked"][n:])
        self.reply(w["reply"], g["reply"])

    def reply(self, w, g):
        if isinstance(w, dict) and isinstance(g, dict) and "irp" in w and "irp" in g:
            self.need("reply", self.same("use", g["irp"][1], w["irp"][1]), w, g)
        elif isinstance(w, dict) and isinstance(g, dict) and "previous" in w and "previous" in g:
            self.need("reply", self.same("cancel", g["previous"], w["previous"]), w, g)
        else:
            self.need("reply", w == g, w, g)

    def asked(self, k, w, g):
        def need(what, good):
            self.need(f"asked {k}, {what}", good, w, g)

        need("who", [it for it in ASKED if it in w] == [it for it in ASKED if it in g])
        sw, sg = w["shown"], g["shown"]
        for place, name in SHOWN.items():
            need(f"shown {name}", sw[place] == sg[place])
        need("shown use", self.same("use", sg[2], sw[2]))
        need("shown word", self.same("word", sg[5], sw[5]))
        if "dispatch" in w:
            need("dispatch", self.same("dispatch", g["dispatch"], w["dispatch"]))
            self.plan(need, w["plan"], g["plan"])
        elif "cancel" in w:
            need("cancel routine", self.same("cancel", g["cancel"], w["cancel"]))
            need("answer", w["answer"] == g["answer"])
        else: # one routine may stand as several: a rule is the smallest that fits what it did
            need("routine", self.same("routine", tuple(g["completion"]), tuple(w["completion"]), False))
            need("context", self.same("context", sg[10], sw[10]))
            need("answer", w["answer"][:2] == g["answer"][:2])
            need("replacement", change_of(w) == change_of(g))

    def plan(self, need, w, g):
        w = ["hold", None] if w[0] == "hold_slot" else w
        need("plan", w[0] == g[0] and (w[0] != "finish" or w == g))
        if w[0] == "hold":
            need("plan's cancel routine", self.same("cancel", g[1], w[1]))
        elif w[0].startswith("forward"):
            need("plan's setting", (w[1] is None) == (g[1] is None))
            if w[1]:
                need("plan's routine", self.same("routine", tuple(g[1][:2]), tuple(w[1][:2]), False))
                need("plan's context", self.same("context", g[1][2], w[1][2]))
                need("plan's flags", w[1][3] == g[1][3])

    def looks(self, wanted, recorded, got):
        """The recorder looks behind a call that a packet survives: there it is as the simulation has it."""
        places, last = {id(it): k for k, it in enumerate(got)}, {}
        for entry in recorded:
            do, use = entry["call"]["do"], entry["call"].get("irp", [0, None])[1]
            if id(entry) in places:
                self.place = places[id(entry)]
                key = entry["reply"]["irp"][1] if do in ("allocate", "reuse") else use
                last[key] = wanted[self.place]["seen"], self.place
            elif do == "look" and use in last:
                seen, self.place = last[use]
                mine, theirs = list(seen), list(entry["reply"]["seen"])
                self.need("look, cancel routine", self.same("cancel", theirs[5], mine[5]), mine, theirs)
                mine[5] = theirs[5] = None
                self.need("look", mine == theirs, mine, theirs)


def compare(expected, lines, script, with_seats=False):
    """Raises Differs at the first difference of a record's lines. Returns how many entries were compared."""
    header, *recorded = [it for it in lines if "n" in it or "drivers" in it]
    it = Comparison(with_seats)
    wanted = list(significant([it for it in expected if it and "call" in it]))
    got = list(significant(recorded))
    for it.place, (w, g) in enumerate(zip(wanted, got)):
        it.entry(w, g)
    if len(wanted) != len(got):
        n = min(len(wanted), len(got))
        raise Differs(n, "how many entries", len(wanted), len(got))
    if got and "seen" in wanted[0]:
        it.looks(wanted, recorded, got)
    for driver, (mine, theirs) in enumerate(zip(header["drivers"], script["drivers"])):
        if [it[0] for it in mine] != sorted(it[0] for it in theirs):
            raise Differs(-1, f"table of driver {driver}", theirs, mine)
    return len(wanted)
