"""The words of the pages of docs/statement/ that no source has."""


def joined(text):
    """A text of several lines as one line."""
    return " ".join(text.split())


# A page: what it states, where it is promised, its theorem, the words that it explains first, and
# which pages are read before it.
PAGES = {
    "replay-right": {
        "title": "Points 1 to 4 of a replay",
        "root": ("headline.specs.Headline", "IsRight"),
        "states": joined("""
            In the history of a replay each packet is at exactly one place, each drop has its
            cause, each flow is delivered in the order of its arrivals, and flows change their
            processor and their transmit queue exactly where the manual lets them."""),
        "promised": joined("""
            The clause `call` of `steer_top::steer`, which `main` calls, says: if
            `replay PLAN CAPTURE` returns status 0, then `IsRight i h` holds, where `i` is the plan
            and the packets that the bytes of the two files have, and `h` is the only history whose
            report the text is that went out (`headline/specs/Headline.Headline`, field `right`).
            `run PLAN CAPTURE` promises the same. `IsRight` reads lists. The field `run` of
            `Headline` says that these are the lists of the run, that a packet is in no other
            application's inbox than its own, that no transmit queue drops, and that counts, heads
            and `at` are those of the moment. [8-theorem](../model/8-theorem.md) says what is not
            promised."""),
        "words": ("lane",),
        "after": (),
    },
    "good-history": {
        "title": "A good history",
        "root": ("steer_model.specs.Good.GoodHistory", "Good"),
        "states": joined("""
            A history meets the eleven clauses of a good history of a plan and of the packets of a
            capture, whoever made it."""),
        "promised": joined("""
            The clause `good` of `workers::run_threads` says it of the history that the threads of
            a run leave, and the field `good` of `LiveHeadline`
            (`headline/specs/Live.LiveHeadline`) of the history that the text of
            `run PLAN CAPTURE` is the report of. [7b-good](../model/7b-good.md) explains the
            clauses, and says what is not promised."""),
        "words": ("lane", "choice", "class", "want", "count"),
        "after": ("replay-right",),
    },
    "run-headline": {
        "title": "The theorem of a run with threads",
        "root": ("headline.specs.Live", "LiveHeadline"),
        "states": joined("""
            The output of a run with threads is the report of exactly one history; that history is
            good, its lists are those of one order of all that was done at each hop, points 1 to 4
            hold of it, and every packet that was not dropped has come to its inbox, and its reply
            to the port."""),
        "promised": joined("""
            The clause `call` of `steer_top::steer`, the function that `main` calls, says: if
            `run PLAN CAPTURE` returns status 0, the text that went out has the `LiveHeadline`
            (field `headline` of `steer_top/specs/Calls.IsAnswered`).
            [8d-run](../model/8d-run.md) explains it field by field, and says what is not
            promised."""),
        "words": ("lane", "choice", "class", "want", "count"),
        "after": ("replay-right", "good-history"),
    },
    "verdict": {
        "title": "The verdict on a report",
        "root": ("steer_top.specs.Checks", "IsVerdictLine"),
        "states": joined("""
            A line says whether a file is the report of a good history of a plan and a capture, and
            if it is that of another history, which clause that history fails first."""),
        "promised": joined("""
            The clause `call` of `steer_top::steer`, the function that `main` calls, says: if
            `check PLAN CAPTURE REPORT` returns status 0, the text that went out is one that the
            command may write (field `text` of `steer_top/specs/Calls.IsAnswered`), and by
            `steer_top/specs/Outcomes.Writes` that is one with `IsVerdictLine`.
            [7f-verdict](../model/7f-verdict.md) explains it, and says what is not promised."""),
        "words": ("lane", "choice", "class", "want", "count"),
        "after": ("replay-right", "good-history", "run-headline"),
    },
}
CLAUSES = (
    ("Clause 1: arrivals", ("arrived",), ()),
    ("Clause 2: receive queues", ("queues",), ()),
    ("Clause 3: choices of processors", ("choices",), ()),
    ("Clause 4: wants", ("wants",), ()),
    ("Clause 5: heads", ("heads",), ()),
    ("Clause 6: drops", ("drops",), ()),
    ("Clause 7: places and order", ("steered",), ()),
    ("Clause 8: all is done", ("swept",), ()),
    ("Clause 9: writes", ("writes",), ()),
    ("Clause 10: commands", ("commands",), ()),
    ("Clause 11: replies", ("replies",), ()),
)
# The parts of a theorem: each with its title, its fields, and the words that it explains first.
PARTS = {
    ("headline.specs.Headline", "IsRight"): (
        ("Point 1: each packet is at exactly one place", ("once", "places"), ()),
        ("Point 2: each drop has its cause", ("drops", "drops_rise"), ()),
        ("Point 3: each flow is delivered in the order of its arrivals", ("inboxes", "port"), ()),
        ("Point 4: processors", ("processors",), ("choice", "class", "want", "count")),
        ("Point 4: transmit queues", ("queues",), ()),
        ("Point 4: nothing is outstanding", ("clear",), ()),
    ),
    ("steer_model.specs.Good.GoodHistory", "Good"): CLAUSES,
    ("steer_model.specs.Good.GoodHistory", "Clause"): CLAUSES,
    ("headline.specs.Live", "LiveHeadline"): (
        ("What the bytes say", ("says",), ()),
        ("The report", ("reports", "only"), ()),
        ("The history is good", ("good",), ()),
        ("The history is that of a run", ("by_run",), ()),
        ("The history is right", ("right",), ()),
        ("All is delivered", ("whole",), ()),
    ),
    ("steer_top.specs.Checks", "IsVerdictLine"): (
        ("What the bytes say", ("says",), ()),
        ("The verdict", ("is_verdict",), ()),
        ("The line", ("is_line",), ()),
    ),
}
# Types whose fields are not plain: their comments stand where the type is needed first.
EXPLAINED = {"History", "LaneList", "Choice"}
READING = joined("""
    All {count} definitions that `{name}` rests on are here; nothing else of the repository has to
    be read. After the theorem, each part takes up some of its fields, with what they rest on and no
    earlier part has; a definition comes soon after the first that uses it. A search for `f :` finds
    f. What comes after the parts is for looking up. The definitions have the words of
    `crates/*/specs`, which a check compares; line breaks and spaces are others, and some comments
    are plainer. The table counts lines of definitions, without comments and types.""")
NOTATION = joined("""
    Definitions read as in Agda: `f : A → B`, after `abbrev pub` or `unfoldable pub`, gives the
    types of f, and `f x = ..` its value, an equation for each case. A name with a capital letter is
    a type or a statement (of `Type 0`). `×` is and, `⊎` or, `→ ⊥` not, `↔` if and only if;
    `(x : ℕ) → P x` is for every x, `(x : ℕ) × P x` for some x. The fields of a statement's record
    all hold; one such as `at : ℕ → ℕ` says that there is such a value. `record s {{ f = v }}` is s
    with another f, and a field without a name is `0`. Numbers do not wrap, and `a - b` is 0 where b
    is the greater. Brackets say what a name of the libraries is where it occurs first, and recall
    names from far above. [0-reading](../model/0-reading.md) has examples. Types are those of the
    code, without `pub`, facts that they carry (`ghost`) and what no other crate sees; a `List` or a
    slice is a list, and numbers of any width are ℕ, as are {numbers}.""")
ALONE = joined("""
    For whoever begins with a later part: what its definitions name of earlier ones.""")
PLACEHOLDERS = joined("""
    What a look-up gives where there is no such item: numbers are 0, lists are empty, options are
    `None`, and cases hold nothing.""")
WORDS = {
    "lane": joined("""
        A *lane* is the backlog of a processor, or a transmit queue. It accepts or drops a packet
        that is *put*, or offered, to it. An accepted packet is *pulled*, *delivered* to an *out
        lane* (an inbox; of replies the port) and *retired*; the *head* of the lane is the number
        of those retired."""),
    "choice": joined("""
        A *producer* chooses lanes: a receive queue for its packets, an application for its
        replies. A *choice* is the lane that was chosen, with all that was seen for it."""),
    "class": joined("""
        A *class* is the flows that share an entry of a flow table: the hash modulo the flow count
        of the queue (`rps_flow_cnt`); of a reply it is the flow number. A flow is said to move
        where its class does. The *entry* has the lane of the last choice, and the *recorded tail*:
        the position in that lane of the last packet of the class that was accepted since the class
        came there."""),
    "want": joined("""
        A *want* is the processor that was read from the socket flow table; of a reply it is the
        queue that the maps pick."""),
    "count": joined("""
        A *count* does not wrap; a *counter number* is the plan's start and a count, modulo
        2^32."""),
}
# What a definition says that has no comment of its own in its file.
SAYINGS = {
    ("steer_base.specs.Drops", "offers_of"): "the packets that were put to a lane, in order",
    ("steer_base.specs.Entries", "is_class"): "whether the class of a choice is this one",
    ("steer_base.specs.Sets", "is_empty"): "whether a list has no member",
    ("steer_base.specs.Sets", "with_cpu"): "a set with a processor more",
    ("steer_base.specs.Sets", "without_cpu"): "a set without one processor",
}
# Comments that are plainer than in the sources, or shorter where the lines below them say the rest:
# each with the digest of the comment in the source, which dev/statement.py compares.
PLAINER = {
    ("headline.specs.Replies", "IsSentBy"): ("6f17efdc", joined("""
        Transmit choice k of application a, of its reply k, with these settings: the
        migration rule with the flow as class, the pick as want and as desired queue, and
        all queues online.""")),
    ("headline.specs.Processors", "IsChosen"): ("e415f6e2", joined("""
        Choice k of queue q, with these settings: it is by the migration rule over the entry
        of its class, so by the three conditions, and a want was written by an application at
        the place of the packet's hash.""")),
    ("headline.specs.Processors", "ChangesByThree"): ("25b9ca8d", joined("""
        A choice gives a class another lane than it had just where the class may leave its
        lane, by the head that the choice keeps; and then the desired one.""")),
    ("headline.specs.Processors", "entry_before"): ("77eb30b3", joined("""
        The entry of a class before choice k of a list, by the choices from `since` on.""")),
    ("headline.specs.Drops", "IsDroppedFor"): ("c6741f2c", joined("""
        Drop j of processor c has the cause that its two counts give, with the packets that
        were put there before it.""")),
    ("history.specs.Places", "AreInOnePlace"): ("85289c01", joined("""
        Each packet is in at most one list of accepted or dropped packets and in at most one
        inbox, each time once, and in an inbox only if some lane delivered it.""")),
    ("history.specs.Places", "place_by"): ("355b3d9f", joined("""
        a place by the first case that applies""")),
    ("headline.specs.Orders", "AreInOrder"): ("59d5cf7c", joined("""
        The packets in a list that came by queue q and are of the flow of packet x are a
        prefix of those that arrived, without the dropped ones.""")),
    ("steer_base.specs.Drops", "flow_cause"): ("5bb79816", joined("""
        the flow limit: more than half of the limit waits, and the packet's bucket occurs
        more than 128 times among the last offers""")),
    ("steer_model.specs.State.Setup", "Setup"): ("80b843d5", joined("""
        What the plan and the capture fix; `homes` are the home processors of the receive
        queues.""")),
    ("steer_base.specs.Entries", "since_move"): ("ebba33df", joined("""
        the last choice that moved and those after it; all if none moved""")),
    ("steer_base.specs.Sets", "those_below"): ("cd06b8de", joined("""
        those of the numbers below n that pass the test, ascending""")),
}
