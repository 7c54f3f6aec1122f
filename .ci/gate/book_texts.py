"""What the book says besides definitions: its front, the words of the library, what is read in the
first hour and what that leaves to a sentence."""

SENTENCE = """\
> In every interleaving of beaconing, registration, lookup, sending and router turns, a packet sent
> on a path that the verifier accepted is refused by no router, passes exactly the hops of that path
> in order, and is delivered in its destination AS once it has had two router turns per hop field;
> these hops are a word of the policy's sequence and pass its ACL."""

# What the front says of the parts, on the page of the first one and on that of all.
FIRST_PART = """\
[The first hour](#part-0-the-first-hour) has the promise, the premises and what a turn does, from
the top down. Every other definition is among [its words](#the-words-of-part-0), but for ten, which
[a sentence](#what-part-0-leaves-to-a-sentence) sums up, and the types of refusals, which
[refusals.md](refusals.md) lists. [proved.md](proved.md#sources) has the drafts, of the control
plane and of the data plane; scionproto is the usual program for SCION. `python3 .ci/gate
pages` makes a page of the whole book, `out/pages/book.md`: the rest of what the theorem cites,
crate by crate, and the contracts of the two calls that run networks.

`.ci/gate/book.py` prints this page from the crates, without imports; the gate checks that it is up
to date. Nobody has to believe what is in `proofs/`. [headline.md](headline.md) says the same in
words, and [questions.md](questions.md) answers what a referee asks first.
"""
ALL_PARTS = """\
- [Part 0](#part-0-the-first-hour) is for the first hour, and is read from the top down: the
  promise, the premises and what a turn does; [its words](#the-words-of-part-0) come behind it.
- [Part 1](#part-1-the-rest-of-the-theorem) has the rest of what the theorem cites, crate by crate,
  each definition after those that it cites.
- [Part 2](#part-2-how-the-theorem-is-a-clause-of-calls) has the contracts of the two calls that run
  networks, and what those cite beside the theorem.

Nobody has to believe what is in `proofs/`. [headline.md](headline.md) says the same in words.
"""
FRONT = f"""# The book of the headline

What a reader has to believe to believe this sentence about the networks that `scionet run` runs, in
one process, where turns are events of a list:

{SENTENCE}

PARTS
## How to read it

Above each definition stand its name and links to what it cites. A definition says what it takes and
gives, and then what it is, case by case, of which the first that fits counts (`_` fits anything);
lines that begin with `--` are comments. In them, the flag C, SegID, ConsIngress and ConsEgress are
the drafts' names for `construction`, `seg_id`, `cons_ingress` and `cons_egress`. `abbrev` and `unfoldable` tell the prover when to look
inside, and say nothing to a reader; `pub` lets other files cite it. A `record` holds if each of its
fields does; a field that is a value says that there is one. `data` lists the forms of a value. A
field that holds for each `k` can be applied: `forwarded k after quiet` is the `IsForwarded` for
this `k`.CONTRACTS

In a definition a value of the code is what it contains. Numbers of each size, addresses (`IsdAs`)
and numbers of interfaces (`IfId`) are numbers; arrays, slices and vectors are lists, and bytes are
a list of numbers. `Keys` is the list of the keys that an AS accepts, the one in use first, each a
list of bytes. A struct is the record of its fields, and an enum has its variants; a `Topology` is
its `Network`, and a `Net` its `NetValue` (`ghost view` in their declarations). A constructor that
several types have is printed with its type, as `LinkKind.Core`. An argument in braces is left out
where a word is used.

The words and signs of the toolchain's library and logic are not defined here; this table says what
they mean. In a crate, `rt lemma slice_get` prints the definition of such a word.
"""

# How contracts are read, which stand in the whole book alone.
OF_CALLS = """ The contract of a call is its `ensures`: what holds of `result` whenever it returns;
`x.old` and `x.new` are an argument before and after the call, and `x.now` is what is lent to it."""

# The words of the library and the logic, as a reader meets them, and what they mean.
LIBRARY = (
    ("ℕ Bool true false", "the natural numbers; the two truth values"),
    ("Type", "`Type 0` is the type of statements and of types"),
    ("→ λ", "from premises to a conclusion, or from an argument to a value; `λ x. b` is the"
     " function that gives `b` for `x`"),
    ("× ⊎ ↔ ¬", "both statements, or the type of pairs `(a, b)`; one of them; each if the other; not"
     " this one. `(x : A) × B` says that `B` holds for some `x`, and `(x : A) → B` that it does for"
     " each"),
    ("≡ ≢", "the two are equal; they differ"),
    ("⊥ ⊤ Unit tt", "what never holds; what always does (`Unit {0}` too, and `tt` is its value)"),
    ("x.0 x.1", "the first and the second part of a pair"),
    ("record let in do ←", "`record { f = v }` is a record of these fields, `record x { f = v"
     " }` is `x` with `f` changed; `let` names a value; `do` goes on with the value of each step"
     " (`x ← step`), up to the first refusal, and is short for `>>=`"),
    ("where infixl enum bool usize u8", "`where` stands before the fields or the forms; `infixl`"
     " says how tightly a sign binds, whose arguments stand at each `◌`; `enum`, `bool`, `usize`, `u8` and the like are types of the"
     " code"),
    ("+ - * / % ^", "of numbers; `-` ends at 0, `/` and `%` are quotient and rest"),
    ("suc zero min", "`suc n` is `n + 1`; 0; the smaller of two numbers"),
    ("< ≤ nat_lt", "comparisons, as statements; `<` as a test"),
    ("nat_le nat_cmp Ordering Less ordering_then", "`≤` as a test; the comparison with the result"
     " less, equal or greater; the second result, if the first is equal"),
    ("== && || not if then else", "equality as a test, and, or, not; a choice by a test"),
    ("beq", "equality of truth values, as a test"),
    ("bit_and bit_xor", "the bits that both have; exclusive or"),
    ("w16 w32 w64 to_be_bytes from_be_bytes", "numbers of 16, 32 and 64 bits as bytes, the highest"
     " first, and back"),
    ("List [] ∷ ++ length", "lists: the empty one; an item before a list; one list before another;"
     " how long it is"),
    ("map filter_map flat_map fold", "each item changed; those for which something is given; the"
     " lists of all items joined; from a value on, a function applied to it and each item in turn"),
    ("filter", "the items that pass a test"),
    ("take drop reverse", "the first `n` items; all but these; backwards"),
    ("replicate", "one item `n` times"),
    ("slice_get slice_set", "item number `i`, counted from 0, if there is one; the list with this"
     " item there"),
    ("slice_index slice_index_or", "item number `i`, or else 0; or else this one"),
    ("find count_by sum_by", "the first item that passes a test; how many do; the sum of a number"
     " of each item"),
    ("list_any list_all", "whether some item passes a test; whether all do"),
    ("before_first after_first join_by", "what stands before, or after, the first item that passes"
     " a test; lists joined with something between them"),
    ("All AllByRecursion Any", "the statement holds of each item, for both; of some item"),
    ("AllPairs Contains", "the statement holds of each item and each later one; the item is in the"
     " list"),
    ("Option Some None", "a value or none"),
    ("is_none", "whether there is no value"),
    ("option_map_or unwrap_or ok_or", "a function of the value if there is one, or else this; the"
     " value or else this; the value or else a refusal"),
    ("option_map option_and_then", "a function of the value, if there is one; the same of one that"
     " may give none"),
    ("Result Ok Err result_unwrap_or", "a value or a refusal; the value or else this"),
    ("IsOk is_err IfOk IfErr result_ok", "it is a value; whether it is a refusal; the statement"
     " holds of the value, or of the refusal, if it is one; the value as an option"),
    ("codes chars is_utf8 bytes_eq", "the bytes of a text that is written out; the characters of"
     " bytes; whether bytes are UTF-8; whether two lists of bytes are the same"),
    ("decimal digits digit_value digits_value", "a number in decimal digits, or in those of a base;"
     " the value of a digit, and of digits"),
    ("pointwise slice_cmp", "a test of each pair of items of two lists that are equally long; which"
     " list comes first, by the first items that differ"),
    ("Data Items item no_items get as_str as_array as_bool as_number as_u64", "values of JSON, and"
     " lists of them; a member of an object (the last, if two have one name); what a value is, if"
     " it is that"),
    ("read decode_of sha256", "the JSON value of a text, the bytes that hexadecimal digits spell,"
     " and SHA-256, as the kit's crates define them"),
    ("Consumes Appends IsAtEnd Keeps ReadConsumes WriteAppends ReadsAtMost WritesAtMost", "of bytes"
     " that a stream makes known: these are its first ones, and are gone after it; these follow"
     " those that it held; none is left; they are as before; what one read or write did to them,"
     " and how many it may take. **Of a stream whose bytes aren't known they say nothing**"),
)

# What is read in the first hour: some words, and the definitions that follow them, each with what
# it says in plain words.
FIRST_HOUR: tuple[tuple[str, tuple[tuple[str, str], ...]], ...] = (
    (
        "AS, ISD, beacon and segment are explained in [the tutorial](tutorial.md). A link joins two"
        " interfaces, one of each AS, and is up unless it is cut. Each interface is owned by one"
        " router of its AS. A segment begins in"
        " a core AS and goes on to other core ASes, or from parents to children; this is its"
        " construction direction. A hop field is an"
        " AS's entry in a path, with its authenticator; an info field says how a segment is"
        " travelled, and has the accumulator: two bytes that go into each authenticator and are changed"
        " by it. `run_lines`, the call behind `scionet run`, carries out a run (`Ran`) of the events"
        " of its lines, one a line; a clause of its contract says so, which part 2 of the whole book"
        " has. A run has a history: what happened, event by event.",
        (
            ("network_core/Ran.Ran", "A run of these events: `network` is its topology, and `net`"
             " the network with which it ends."),
            ("network_core/Ran.IsRun", "What is promised of every run. The headline is"
             " `delivered`."),
            ("network_core/History.Occurs", "An event happened and had this reply."),
            ("network_core/Event.EventValue", "What may happen. A decision made here: the drafts"
             " have no events. `beta` is the first accumulator of a beacon, `limit` the most paths"
             " of an answer; byte `at` of a packet becomes the exclusive or of it and `change`. The texts"
             " of options are access lists and sequences, as lines have them."),
            ("network_core/History.IsHistory", "Each event starts from the network that the one"
             " before it left."),
            ("network_core/History.net_at", "The network before an event."),
            ("network_core/Value.NetValue", "All that there is: topology, clock, beacons,"
             " registered segments, answers, packets."),
            ("network_core/Value.PacketValue", "A packet, with what was sent in it."),
            ("network_core/Value.Shipment", "What is sent: the way and the payload."),
            ("forwarding/Turn.Packet", "Its bytes, where it is, and the hops that it has passed."
             " The bytes are a frame, decided here: both AS addresses, then the draft's path"
             " header, then the payload."),
        ),
    ),
    (
        "What is promised of a packet. It is delivered in its destination AS, since it has then"
        " passed its whole walk (`whole`), which ends there (the rule of `Destination` in"
        " [`Keeps`](#path_verifier-Accepted-Keeps)). [headline.md](headline.md#line-by-line) goes"
        " through the sentence word by word.",
        (
            ("network_core/Headline.Headline", "The promise, for one packet that was sent."),
            ("network_core/Delivery.IsForwarded", "Not refused, on its path, and delivered exactly"
             " when it has had all its turns."),
            ("path_verifier/Walk.walk_of", "The hops of a path, AS by AS (data plane draft, segment"
             " combinations)."),
            ("forwarding/Journey.turns_for", "How many turns a walk takes: one in the first AS, one"
             " in the last, and one or two in each between, by how many of its routers own the two"
             " interfaces. Decided here."),
            ("network_core/Headline.turns_since", "How many turns the packet has had: its Turn"
             " events, also those behind its delivery, which are refused."),
            ("path_verifier/Header.total_hops", "The hop fields of a path."),
        ),
    ),
    (
        "These are the premises, for the first `k` events; what happens later doesn't matter. Here"
        " `number` is that of the Send event, as in `Headline`, `p` that of its packet, and an"
        " event is done if it was not refused; a turn in which a router refuses the packet is done."
        " An expiry is counted in half seconds, and the network's `moment` in seconds.",
        (
            ("network_core/Headline.Undisturbed", "All premises about one packet."),
            ("network_core/Headline.Kept", "Its segments were issued, and keys and links held"
             " since, but for one change of each AS's key. Decided here: the key before the one in use is"
             " still accepted."),
            ("network_core/Headline.AreIssuedFrom", "Each piece is of a segment that the network"
             " issued before the Send."),
            ("network_core/History.IssuedIn", "A segment was made by events of the history (control"
             " plane draft, path construction and registration)."),
            ("network_core/Headline.IsDone", "An event happened and was not refused."),
            ("forwarding/Sound.AvoidsAs", "The AS is not on the piece."),
            ("forwarding/Sound.AvoidsLink", "No link that the piece travels ends at this interface,"
             " of this `number`."),
            ("path_verifier/Accepted.IsExpiry", "The earliest expiry of the travelled hops (data"
             " plane draft: hop expiry; counted in half seconds by a decision made here)."),
        ),
    ),
    (
        "The path of a Send that is done is one that the verifier accepts: it keeps each of these"
        " rules. Each fault has a rule, and the verifier refuses by the fault whose rule is the"
        " first to be broken, as [refusals.md](refusals.md) numbers them. No rule asks who issued a"
        " segment: that is a premise.",
        (
            ("path_verifier/Accepted.IsAccepted", "The path may be sent."),
            ("path_verifier/Accepted.Keeps", "The rules (data plane draft, segment combinations,"
             " without its links between peers; the policies are scionproto's). What `AclDenied` tells"
             " besides is left out."),
            ("path_verifier/Accepted.Request", "What is judged: the pieces, the header, the ends,"
             " the current second and the policy's rules."),
            ("path_verifier/Piece.PieceValue", "A piece of a segment, travelled one way or the"
             " other (data plane draft, segment combinations)."),
            ("policy_expr/Policy.HasWord", "The hops match the sequence, a regular expression"
             " (scionproto's path policy language)."),
            ("policy_expr/Policy.AllowsHops", "The access list denies none of the hops"
             " (the same)."),
        ),
    ),
    (
        "And this is what a turn does: the router that has the packet judges its bytes, and the"
        " packet goes where the router's outcome says. A hop is noted as passed by these outcomes,"
        " and not by the path in the packet. `Step` is one event, and a router's step is its turn.",
        (
            ("network_core/Step.turns", "The network after one turn of a packet."),
            ("network_core/Step.Leads", "An event that is done gives its reply and its network; a"
             " refused one changes nothing."),
            ("forwarding/Turn.by_place", "The router that has the packet makes a step."),
            ("forwarding/Turn.after_step", "A refusal leaves the bytes as they were."),
            ("forwarding/Turn.after_outcome", "Over a link, to another router of the AS, or"
             " delivered (data plane draft, path processing)."),
            ("forwarding/Turn.with_passed_hop", "The hop is noted. Decided here: the drafts note no"
             " hops."),
        ),
    ),
)

# What part 0 names and ends at a sentence.
OUTSIDE = (
    ("network_core/Step.Step", "One event, from the network before it to its reply and the network"
     " after it. A Turn does as `turns` says. A Send is refused if there is no such way, if the"
     " payload has more than 1,024 bytes, if the way breaks a rule, if its source or the interface"
     " by which its walk begins is not in the topology, or if a million packets were sent; else the"
     " packet is at the router that owns this interface. Tick moves the clock on, never back;"
     " Originate, Extend and Terminate make beacons over links that are up, with the key in use, and"
     " register segments; Sweep drops expired segments; Ask gives an answer; Lose and Alter lose a"
     " packet and change a byte of it; CutLink, MendLink and RotateKey change the topology. An event"
     " that is refused changes nothing."),
    ("network_core/Step.shipment_by", "What a Send sends: the payload, and the way of an answer, a"
     " given way or the way back of a delivered packet, which has no policy; or why there is"
     " none."),
    ("network_core/History.AreAsked", "Every answer that is kept was given by an Ask. Its paths"
     " were accepted then, and their segments were issued by events before."),
    ("network_core/Headline.IsAnswerable", "A delivered packet can be answered: the way back is"
     " accepted up to the path's expiry, and refused as Expired after it."),
    ("scion_topology/Rules.IsNetwork", "The rules of a topology: 1 to 1,024 ASes, at most"
     " 4,096 links, no two ASes of one address, no interface at two ends, and rules of each AS and"
     " link."),
    ("beaconing/Issued.IsIssued", "The segment is the one that these ASes make with these keys,"
     " entry by entry, each with its authenticator."),
    ("beaconing/Calls.terminated_beacon", "The segment that a beacon becomes if it ends in this AS;"
     " or why it does not."),
    ("router_step/Packet.packet_step", "All thirteen steps of a router on the bytes of a packet:"
     " the first refusal, or the outcome and the new bytes. [router.md](router.md) lists them."),
    ("path_verifier/Header.header_of", "The header that these pieces make, by the draft's layout,"
     " with the packet at its first hop field."),
    ("forwarding/OnPath.arrived_with", "The packet as it arrives: the header, at its last info and"
     " hop field, the payload as it was sent, the whole walk passed."),
)

# The most definitions that part 0 may leave to a sentence.
MOST_OUTSIDE = 10
