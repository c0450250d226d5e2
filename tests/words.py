#!/usr/bin/env python3
"""tests/words.py [HEADER]: holds the header, include/dzervolat.h if none is named, against the definitions of the engine.

Where each field of a message, a candidate, a record, a step or an exchange stands among words is defined once, under crates/*_words/specs, and the
numbers of refusals, decisions, comparisons, states, roles, types and link messages under the specs that name them. The header says the same
in enumerators. Here the definitions are read as they stand and worked out with names in place of values, so that every word of the answer is
the field that stands there; the tables below only say which field is which enumerator. Also every call's parameters are those that the code
declares, array lengths included.

It names every enumerator and every field that differ, that lack or that nobody knows, and then ends with status 1.
"""
import math
import pathlib
import re
import sys

ROOT = pathlib.Path(__file__).resolve().parent.parent

# ---- which field is which enumerator: CRATE.DEFINITION, the field as the definition writes it. A part of several words is named by where it begins.

GRANDMASTER = {"priority1": "PRIORITY1", "class": "CLASS", "accuracy": "ACCURACY", "variance": "VARIANCE", "priority2": "PRIORITY2",
               "identity": "GRANDMASTER"}
CANDIDATE = {f"grandmaster.{field}": f"DZ_C_{name}" for field, name in GRANDMASTER.items()} | {
    "steps": "DZ_C_STEPS", "sender.clock": "DZ_C_SENDER_CLOCK", "sender.port": "DZ_C_SENDER_PORT", "port": "DZ_C_PORT", "wrflags": "DZ_C_WRFLAGS"}
SET = {field: name for field, name in CANDIDATE.items() if field not in ("port", "wrflags")} | {
    "receiver.clock": "DZ_S_RECEIVER_CLOCK", "receiver.port": "DZ_S_RECEIVER_PORT"}
RECORD = {f"notice.grandmaster.{field}": f"DZ_R_{name}" for field, name in GRANDMASTER.items()} | {
    "notice.sender.clock": "DZ_R_SENDER_CLOCK", "notice.sender.port": "DZ_R_SENDER_PORT", "notice.sequence": "DZ_R_SEQUENCE",
    "receipts": "DZ_R_RECEIPTS", "newest": "DZ_R_NEWEST", "older": "DZ_R_OLDER", "notice.steps": "DZ_R_STEPS", "notice.wrflags": "DZ_R_WRFLAGS"}
HEADER = {"body": "DZ_M_TYPE", "header.transport": "DZ_M_TRANSPORT", "header.domain": "DZ_M_DOMAIN", "header.flags": "DZ_M_FLAGS",
          "header.correction": "DZ_M_CORRECTION", "header.source.clock": "DZ_M_CLOCK", "header.source.port": "DZ_M_PORT",
          "header.sequence": "DZ_M_SEQUENCE", "header.interval": "DZ_M_INTERVAL"}
BODY = {f"{kind}.t.{field}": name for kind in ("Sync", "DelayReq", "FollowUp")
        for field, name in (("seconds", "DZ_M_SECONDS"), ("nanoseconds", "DZ_M_NANOS"))} | {
    "DelayResp.x.receive.seconds": "DZ_M_SECONDS", "DelayResp.x.receive.nanoseconds": "DZ_M_NANOS",
    "DelayResp.x.requester.clock": "DZ_M_REQUESTER_CLOCK", "DelayResp.x.requester.port": "DZ_M_REQUESTER_PORT",
    "Announce.a.origin.seconds": "DZ_M_SECONDS", "Announce.a.origin.nanoseconds": "DZ_M_NANOS", "Announce.a.utc": "DZ_M_UTC",
    "Announce.a.priority1": "DZ_M_PRIORITY1", "Announce.a.class": "DZ_M_CLASS", "Announce.a.accuracy": "DZ_M_ACCURACY",
    "Announce.a.variance": "DZ_M_VARIANCE", "Announce.a.priority2": "DZ_M_PRIORITY2", "Announce.a.grandmaster": "DZ_M_GRANDMASTER",
    "Announce.a.steps": "DZ_M_STEPS", "Announce.a.timesource": "DZ_M_SOURCE",
    "Signaling.p.clock": "DZ_M_TARGET_CLOCK", "Signaling.p.port": "DZ_M_TARGET_PORT"}
STEP = {"link.state": "DZ_T_STATE", "link.role": "DZ_T_ROLE", "link.mode": "DZ_T_MODE", "link.retries": "DZ_T_RETRIES", "report": "DZ_T_REPORT",
        "sends.sends_words": "DZ_T_SENDS", "sends.One.a": "DZ_T_FIRST", "sends.Two.a": "DZ_T_FIRST", "sends.Two.b": "DZ_T_SECOND"}
STAMPS = {f"stamps.t{i}.{field}": f"DZ_E_T{i}_{name}" for i in (1, 2, 3, 4) for field, name in (("seconds", "SECONDS"), ("nanos", "NANOS"))}
EXCHANGE = STAMPS | {
    "stamps.t2.fraction": "DZ_E_T2_FRACTION", "stamps.t3.fraction": "DZ_E_T3_FRACTION", "corrections.sync": "DZ_E_SYNC",
    "corrections.follow": "DZ_E_FOLLOW", "corrections.resp": "DZ_E_RESP", "latencies.mtx": "DZ_E_MASTER_TX", "latencies.mrx": "DZ_E_MASTER_RX",
    "latencies.stx": "DZ_E_SLAVE_TX", "latencies.srx": "DZ_E_SLAVE_RX", "asymmetry": "DZ_E_ASYMMETRY"}
READER = {"next": "DZ_READER_NEXT", "last": "DZ_READER_LAST"}
FORM = {"little": "DZ_FORM_LITTLE", "unit": "DZ_FORM_UNIT"}


def of(variable, fields):
    """Fields of a variable of a definition."""
    return {f"{variable}.{field}": name for field, name in fields.items()}


# Definitions that work a word out of several fields: the word is named after them.
WORKED_OUT = {"begin_of", "end_of"}

# What a definition gives in words. A constant is named by the definition that it stands in. The last of each line is how many words there are.
PACKED = [
    ("candidate_words.candidate_words", of("c", CANDIDATE), "DZ_CANDIDATE_WORDS"),
    ("candidate_words.found_words", {"found_words": "DZ_FOUND", "c": "DZ_FOUND_CANDIDATE"}, "DZ_FOUND_WORDS"),
    ("candidate_words.ranked_words", {"r.len": "DZ_LIST_COUNT"} | {f"r.slots.{i}": f"DZ_LIST_AT({i})" for i in range(4)}, "DZ_LIST_WORDS"),
    ("candidate_words.record_words", {"record_words": "DZ_R_HELD"} | of("r", RECORD), "DZ_RECORD_WORDS"),
    ("candidate_words.status_words", {"Ok.last": "DZ_STATUS_LAST", "Ok.k": "DZ_STATUS_INTERVAL"}, "DZ_STATUS_WORDS"),
    ("message_words.message_words", of("m", HEADER | of("body", BODY)), "DZ_MESSAGE_WORDS"),
    ("message_words.tail_words", {"Ok.m.body": "DZ_TAIL_AT", "size": "DZ_TAIL_LENGTH"}, "DZ_TAIL_WORDS"),
    ("message_words.tlv_words", {"Ok.x.data_words": "DZ_FOUND", "Ok.x.Some.at": "DZ_FOUND_DATA_AT", "size": "DZ_FOUND_DATA_LENGTH"}, "DZ_FOUND_DATA_WORDS"),
    ("message_words.walked_words", {
        "Ok.x.place_words": "DZ_FOUND", "Ok.x.Some.x.place": "DZ_TLV_AT", "Ok.x.Some.x.kind": "DZ_TLV_TYPE", "Ok.x.Some.x.length": "DZ_TLV_LENGTH",
        "Ok.x.Some.x.begin_of": "DZ_TLV_DATA_AT", "Ok.x.Some.x.end_of": "DZ_TLV_END"}, "DZ_FOUND_TLV_WORDS"),
    ("message_words.suffix_words", {"Ok.x.flags_words": "DZ_FOUND", "Ok.x.Some.n": "DZ_FOUND_WRFLAGS"}, "DZ_FOUND_WRFLAGS_WORDS"),
    ("message_words.link_words", {"Ok.x.carried_words": "DZ_FOUND", "Ok.x.Some.m": "DZ_FOUND_LINK_MESSAGE"}, "DZ_FOUND_LINK_WORDS"),
    ("message_words.link_message_words", {
        "link_message_words": "DZ_L_NUMBER", "Calibrate.pattern": "DZ_L_PATTERN", "Calibrate.retry": "DZ_L_RETRY", "Calibrate.period": "DZ_L_PERIOD",
        "Calibrated.tx": "DZ_L_TX", "Calibrated.rx": "DZ_L_RX"}, "DZ_LINK_MESSAGE_WORDS"),
    ("message_words.origin_words", {"stamp.6 octets": "DZ_STAMP_SECONDS", "stamp.4 octets": "DZ_STAMP_NANOS"}, "DZ_STAMP_WORDS"),
    ("link_words.step_words", of("s", STEP), "DZ_STEP_WORDS"),
    ("exchange_words.measured_words", {"Ok.d": "DZ_D_DELAY", "Ok.o.seconds": "DZ_D_SECONDS", "Ok.o.rest": "DZ_D_REST"}, "DZ_MEASURED_WORDS"),
    ("trace_words.next_words", of("Some.p", {
        "place_words": "DZ_FOUND", "time": "DZ_N_TIME", "port": "DZ_N_PORT", "at": "DZ_N_AT", "length": "DZ_N_LENGTH", "end": "DZ_N_END"}), "DZ_FOUND_ENTRY_WORDS"),
    ("playback.reader_words", of("r", READER), "DZ_READER_WORDS"),
    ("capture_words.form_words", of("f", FORM), "DZ_FORM_WORDS"),
]

# What a definition takes out of words.
UNPACKED = [
    ("candidate_words.candidate_at", CANDIDATE, "DZ_CANDIDATE_WORDS"),
    ("candidate_words.grandmaster_at", {field: f"DZ_C_{name}" for field, name in GRANDMASTER.items()}, "DZ_OWN_WORDS"),
    ("candidate_words.ranked_of", {"len": "DZ_LIST_COUNT"} | {f"slots.{i}": f"DZ_LIST_AT({i})" for i in range(4)}, "DZ_LIST_WORDS"),
    ("candidate_words.set_of", SET, "DZ_SET_WORDS"),
    ("exchange_words.exchange_of", EXCHANGE, "DZ_EXCHANGE_WORDS"),
    ("playback.reader_of", READER, "DZ_READER_WORDS"),
    ("capture_words.form_by", FORM, "DZ_FORM_WORDS"),
]

# Words that a definition lists one by one, each named by the definition or the field that it is; then how many there are.
LISTED = [
    ("capture_words.packet_after", {"time_of": "DZ_K_TIME", "stored_of": "DZ_K_STORED"}, "DZ_PACKET_WORDS"),
    ("exporting.reader_behind", {"next": "DZ_EXPORTER_NEXT", "last": "DZ_EXPORTER_LAST", "port_behind": "DZ_EXPORTER_PORT"}, "DZ_EXPORTER_WORDS"),
]

# The numbers of cases.
NUMBERS = [
    ("refusal.number_of", {name: f"DZ_REFUSED_{name.upper()}" for name in (
        "Short", "Version", "Type", "Length", "Stamp", "Tlv", "WrBad", "Port", "Domain", "Own", "Backward", "Stale", "Full", "Range", "Unranked",
        "Room", "Many", "Field", "Long", "Block", "Pcap", "Export")}),
    ("election.code_of", {name: f"DZ_{name}" for name in ("M1", "M2", "M3", "S1", "S2", "P1", "P2")}),
    ("candidate_words.comparison_number", {
        "ABetter": "DZ_A_BETTER", "BBetter": "DZ_B_BETTER", "ABetterByTopology": "DZ_A_BETTER_BY_TOPOLOGY",
        "BBetterByTopology": "DZ_B_BETTER_BY_TOPOLOGY", "Error1": "DZ_ERROR_1", "Error2": "DZ_ERROR_2"}),
    ("link.state_number", {
        "Idle": "DZ_STATE_IDLE", "Present": "DZ_STATE_PRESENT", "MLock": "DZ_STATE_M_LOCK", "SLock": "DZ_STATE_S_LOCK", "Locked": "DZ_STATE_LOCKED",
        "Calibration": "DZ_STATE_CALIBRATION", "Calibrated": "DZ_STATE_CALIBRATED", "RespCalibReq": "DZ_STATE_RESP_CALIB_REQ"}),
    ("links.role_number", {"Slave": "DZ_ROLE_SLAVE", "Master": "DZ_ROLE_MASTER"}),
    ("layout.kind_of", {
        "Sync": "DZ_SYNC", "DelayReq": "DZ_DELAY_REQ", "FollowUp": "DZ_FOLLOW_UP", "DelayResp": "DZ_DELAY_RESP", "Announce": "DZ_ANNOUNCE",
        "Signaling": "DZ_SIGNALING"}),
    ("tlv.link_number", {
        "SlavePresent": "DZ_LINK_SLAVE_PRESENT", "Lock": "DZ_LINK_LOCK", "Locked": "DZ_LINK_LOCKED", "Calibrate": "DZ_LINK_CALIBRATE",
        "Calibrated": "DZ_LINK_CALIBRATED", "ModeOn": "DZ_LINK_WR_MODE_ON"}),
]

# The places in a row of words that a definition reads or sets, as it names them from left to right.
ROWS = [
    ("bursts.port_in", ["DZ_BURST_PORT"]),
    ("bursts.time_in", ["DZ_BURST_TIME"]),
    ("bursts.octets_in", ["DZ_BURST_AT", "DZ_BURST_LENGTH"]),
    ("bursts.answered", ["DZ_BURST_ANSWER"]),
    ("recording.next_of", ["DZ_RECORDING_NEXT"]),
    ("recording.last_of", ["DZ_RECORDING_LAST"]),
    ("recording.end_of", ["DZ_RECORDING_END"]),
    ("exporting.port_behind", ["DZ_EXPORTER_PORT", "DZ_EXPORTER_PORT"]),
]

# The numbers that a definition tests for, or is.
TESTED = [
    ("link.CanSlave", ["DZ_CONFIG_SLAVE", "DZ_CONFIG_BOTH"]),
    ("link.CanMaster", ["DZ_CONFIG_MASTER", "DZ_CONFIG_BOTH"]),
    ("bursts.is_many", ["DZ_BURST_MOST"]),
    ("block.block_octets", ["DZ_BLOCK_OCTETS"]),
    ("block.longest", ["DZ_TRACE_LONGEST"]),
    ("pcap.file_head", ["DZ_CAPTURE_HEAD_OCTETS"]),
    ("pcap.packet_head", ["DZ_PACKET_HEAD_OCTETS"]),
    ("importing.frame_head", ["DZ_FRAME_HEAD_OCTETS"]),
]

# Enumerators of which no definition speaks: no refusal, no config, what follows from another, the length of a row, which a call's parameter has, and
# the bits of wrFlags.
NOT_DEFINED = {"DZ_OK", "DZ_CONFIG_NONE", "DZ_LIST_FIRST", "DZ_LIST_CANDIDATES", "DZ_BURST_WORDS", "DZ_RECORDING_WORDS"}
NOT_DEFINED_ENUMS = {"dz_wrflags"}

# ---- the definitions


class Definition:
    """The equations of a name: patterns on the left, a term on the right; and whether it gives words, or takes more than a number out of them."""

    def __init__(self, crate, imports):
        self.crate, self.imports, self.equations, self.of_words = crate, imports, [], False


def tokens_of(text):
    """The tokens of a text, where a field of a term stands behind it in brackets: `(r .slots)` for `r.slots`, and `((f x) .slots)` for `(f x).slots`."""
    tokens = []
    for token in re.findall(r"[(){};]|[^\s(){};]+", text):
        head, *fields = re.split(r"\.(?=[a-z0-9])", token)
        start = len(tokens)
        if head:
            tokens.append(head)
        elif fields:
            start = opening(tokens)
        for field in fields:
            tokens[start:] = ["(", *tokens[start:], f".{field}", ")"]
    return tokens


def opening(tokens):
    """Where the bracket opens that the last token closes."""
    depth = 0
    for i in range(len(tokens) - 1, -1, -1):
        depth += (tokens[i] in ")}") - (tokens[i] in "({")
        if depth == 0:
            return i
    raise ValueError("no bracket opens")


def definitions_of(crate):
    """Every definition in a crate's specs, by name."""
    found = {}
    for path in sorted((ROOT / "crates" / crate / "specs").rglob("*.antt")):
        text = re.sub(r"--.*", "", path.read_text())
        imports = {name.strip(): other for other, names in re.findall(r"^use Rattle\.(\w+)\.[^\n{]*\{([^}]*)\}", text, re.M) for name in names.split(",")}
        for line in re.split(r"\n(?=\S)", text):
            signature = re.match(r"(?:abbrev|unfoldable) pub (\S+) :(.*)", line, re.S)
            name = signature[1] if signature else line.split(" ")[0].strip()
            if signature:
                found[name] = Definition(crate, imports)
                found[name].of_words = "List ℕ" in signature[2] and signature[2].split("→")[-1].strip() not in ("ℕ", "ℤ", "Bool")
            elif name in found:
                left, right = re.split(r" =\s", line, maxsplit=1)
                found[name].equations.append((patterns_of(tokens_of(left)[1:]), term_of(tokens_of(right))))
    return found


CRATES = {}


def definition(crate, name):
    if crate not in CRATES:
        CRATES[crate] = definitions_of(crate) if (ROOT / "crates" / crate / "specs").is_dir() else {}
    return CRATES[crate].get(name)


def definition_of(title):
    """CRATE.DEFINITION"""
    known = definition(*title.split("."))
    if known is None or not known.equations:
        raise SystemExit(f"tests/words.py: there is no definition {title}")
    return known


def resolve(name, near):
    """The definition that a name means in another one."""
    return definition(near.crate, name) or (definition(near.imports[name], name) if name in near.imports else None)


def bare(name):
    """A variant without the name of its type: `body.Sync`, `«Type»`."""
    return name.split(".")[-1].strip("«»")


def patterns_of(tokens):
    """Each pattern as its words: a variable, a variant, or a variant and its variables, those of a pair or of a variant in it among them."""
    patterns = []
    while tokens:
        end = split_at(tokens, ")", False) if tokens[0] == "(" else 0
        patterns.append([token.rstrip(",") for token in tokens[:end + 1] if token not in "()"])
        tokens = tokens[end + 1:]
    return patterns


def split_at(tokens, operators, last):
    """Where the first, or the last, of some operators stands outside brackets."""
    depth, places = 0, []
    for i, token in enumerate(tokens):
        depth += (token in "({") - (token in ")}")
        if depth == 0 and token in operators:
            places.append(i)
    return (places[-1] if last else places[0]) if places else None


def term_of(tokens):
    """A term: an operator over two terms, a record, a field of a term, or a head with arguments."""
    for operators, last in ((("∷", "++"), False), (("&&", "||"), False), (("+", "-"), True), (("*", "/", "%"), True)):
        at = split_at(tokens, operators, last)
        if at is not None:
            return ("operator", tokens[at], term_of(tokens[:at]), term_of(tokens[at + 1:]))
    if tokens[0] == "record":
        return ("record", fields_of(tokens[2:-1]))
    if len(tokens) > 1 and tokens[-1].startswith("."):
        return ("field", term_of(tokens[:-1]), tokens[-1][1:])
    atoms = []
    while tokens:
        end = split_at(tokens, ")", False) if tokens[0] == "(" else 0
        atoms.append(term_of(tokens[1:end]) if end else ("name", tokens[0]))
        tokens = tokens[end + 1:]
    return atoms[0] if len(atoms) == 1 else ("call", atoms[0], atoms[1:])


def fields_of(tokens):
    fields = {}
    while tokens:
        end = split_at(tokens, ";", False)
        end = len(tokens) if end is None else end
        fields[tokens[0]] = term_of(tokens[2:end])
        tokens = tokens[end + 1:]
    return fields


# ---- working them out: a value is a number, words (a list), a record (a dict), the words that are lent (LENT), a Word of these, a Field,
# or a name of which nothing more is known. A constant among words is a field of its own; zeros only fill up.


LENT = object()


class Word(int):
    """The word that stands at a place of those that are lent."""


class Field(tuple):
    """A field by its path."""


def values(term, env, near, begun):
    """All that a term can be, one value for each choice of variants. `begun` is the path of a constant here."""
    kind = term[0]
    if kind == "name":
        yield from named(term[1], env, near, begun)
    elif kind == "field":
        for x in values(term[1], env, near, begun):
            yield x[term[2]] if isinstance(x, dict) else Field((*x, term[2]))
    elif kind == "record":
        yield {name: next(values(part, env, near, begun)) for name, part in term[1].items()}
    elif kind == "operator":
        for a in values(term[2], env, near, begun):
            for b in values(term[3], env, near, begun):
                yield operated(term[1], a, b, begun)
    else:
        yield from called(term[1][1], [next(values(x, env, near, begun)) for x in term[2]], near, begun)


def named(name, env, near, begun):
    if name in env:
        yield env[name]
    elif name == "[]":
        yield []
    elif re.fullmatch(r"0x[0-9A-Fa-f]+|\d+", name):
        yield int(name, 0)
    else:
        known = resolve(name, near)
        yield from applied(known, [], begun, name) if known and known.of_words else [name]


def operated(operator, a, b, begun):
    if operator == "∷":
        return [Field(begun) if type(a) in (int, str) and a != 0 else a] + b
    if operator in ("++", "+") and type(a) is type(b):
        return a + b
    return a


def called(name, arguments, near, begun):
    """A call: of words, it is worked out; of get_or, it is a place; of anything else, it is what its argument is, told in another way."""
    known = resolve(name, near)
    if name == "get_or":
        yield Word(arguments[1]) if arguments[0] is LENT else Field((*arguments[0], str(arguments[1])))
    elif known and known.of_words:
        path = next((x for x in arguments if isinstance(x, Field)), ())
        yield from applied(known, arguments, path, name)
    elif name in WORKED_OUT:
        yield Field((*arguments[0], name))
    else:
        inner = [x for x in arguments if isinstance(x, (Field, Word, dict))]
        width = f"{arguments[0]} octets" if name == "be" else None
        yield name if not inner else Field((*inner[0], width)) if width else inner[0]


def applied(known, arguments, path, name):
    """What the equations of a definition give of some arguments; a field may be any variant that they name."""
    for patterns, right in known.equations:
        env = {}
        for pattern, argument in zip(patterns, arguments):
            root = argument if isinstance(argument, Field) else ()
            if len(pattern) == 1 and pattern[0][0].islower() and "." not in pattern[0]:
                env[pattern[0]] = Field((pattern[0],)) if argument is None else argument
            else:
                env |= {x: Field((*root, bare(pattern[0]), x)) for x in pattern[1:]}
        yield from values(right, env, known, (*path, name))


def packed(known, name):
    """Each choice of variants as words."""
    arity = len(known.equations[0][0])
    return [x for x in applied(known, [None] * arity, (), name) if isinstance(x, list)]


def leaves(value, path=()):
    """The words beneath a record, with their paths."""
    if isinstance(value, (dict, list)):
        for name, part in value.items() if isinstance(value, dict) else enumerate(value):
            yield from leaves(part, (*path, str(name)))
    else:
        yield ".".join(path), value


def places(title, unpacks):
    """The places of all fields of a definition, and how many words there are."""
    known, name = definition_of(title), title.split(".")[1]
    found = {}
    if unpacks:
        for path, place in leaves(next(applied(known, [LENT, 0], (), name))):
            found.setdefault(path, set()).add(int(place))
        return found, {1 + max(place for at in found.values() for place in at)}
    cases = packed(known, name)
    for words in cases:
        for place, word in enumerate(words):
            if isinstance(word, Field):
                found.setdefault(".".join(word), set()).add(place)
    return found, {len(words) for words in cases}


# ---- the header


class Header:
    def __init__(self, path):
        text = re.sub(r"/\*.*?\*/", "", path.read_text(), flags=re.S)
        self.enums = {name: dict((key, int(value, 0)) for key, value in re.findall(r"(\w+) = (\w+)", body))
                      for name, body in re.findall(r"enum (\w+) \{(.*?)\};", text, re.S)}
        self.values = {name: value for enum in self.enums.values() for name, value in enum.items()}
        self.values |= {name: int(value, 0) for name, value in re.findall(r"#define (DZ_\w+) (\w+)", text)}
        self.calls = {name: (result, [parameter.strip() for parameter in re.sub(r"\s+", " ", parameters).split(",")])
                      for result, name, parameters in re.findall(r"^(\w+) (dz_\w+)\(([^)]*)\);", text, re.M)}
        self.list_at = re.search(r"#define DZ_LIST_AT\(i\) (.*)", text)[1]

    def value(self, name):
        """An enumerator, a constant, or a candidate's place in a list."""
        at = re.fullmatch(r"DZ_LIST_AT\((\d)\)", name)
        if not at:
            return self.values.get(name)
        return eval(re.sub(r"DZ_\w+", lambda x: str(self.values[x[0]]), self.list_at), {"i": int(at[1])})  # a sum and a product


def is_beneath(path, part):
    return path == part or path.startswith(part + ".")


def faults_of_places(header, title, table, count, unpacks):
    found, lengths = places(title, unpacks)
    for path, name in table.items():
        exact = {place for field, at in found.items() if field == path for place in at}
        beneath = [place for field, at in found.items() if is_beneath(field, path) for place in at]
        here = exact or {min(beneath, default=None)}
        if here == {None}:
            yield f"{title} has no {path}, which is {name}"
        elif here != {header.value(name)}:
            yield f"{name} is {header.value(name)}, but {title} has {path} at {', '.join(map(str, sorted(here)))}"
    for field in found:
        if not any(is_beneath(field, path) for path in table):
            yield f"{title} has {field}, which is no enumerator"
    if lengths != {header.value(count)}:
        yield f"{count} is {header.value(count)}, but {title} has {', '.join(map(str, sorted(lengths)))} words"


def words_in(term):
    """The names of the words of the first list that stands in a term."""
    if not isinstance(term, (tuple, list)):
        return []
    if term[:2] == ("operator", "∷"):
        word = term[2]
        return [word[2] if word[0] == "field" else word[1][1] if word[0] == "call" else word[1]] + words_in(term[3])
    return next((found for part in term if (found := words_in(part))), [])


def faults_of_lists(header, title, table, count):
    found = words_in(definition_of(title).equations[0][1])
    if found != sorted(table, key=lambda word: header.value(table[word])) or len(found) != header.value(count):
        yield f"{stand(header, [*table.values(), count])}, but {title} lists {', '.join(found)}"


def number_of(term, near):
    """The number that a term is, written out or by a name."""
    known = resolve(term[1], near)
    return number_of(known.equations[0][1], known) if known else int(term[1], 0)


def faults_of_numbers(header, title, table):
    known = definition_of(title)
    numbers = {bare(patterns[0][0]): number_of(right, known) for patterns, right in known.equations}
    for case in sorted(numbers.keys() | table.keys()):
        name = table.get(case)
        if name is None or case not in numbers or header.value(name) != numbers[case]:
            yield f"{name} is {header.value(name) if name else 'not there'}, but {title} has {case} as {numbers.get(case)}"


def numbers_in(term):
    """The numbers that stand in a term."""
    if isinstance(term, (tuple, list)):
        return {number for part in term for number in numbers_in(part)}
    return {int(term)} if isinstance(term, str) and term.isdigit() else set()


def stand(header, names):
    """What some enumerators are, in words."""
    return f"{' and '.join(names)} {'is' if len(names) == 1 else 'are'} {' and '.join(str(header.value(name)) for name in names)}"


def faults_of_tests(header, title, names):
    numbers = numbers_in([right for _, right in definition_of(title).equations])
    if numbers != {header.value(name) for name in names}:
        yield f"{stand(header, names)}, but {title} tests for {sorted(numbers)}"


def places_in(term):
    """The places that a term reads of a row, or sets in it, from left to right."""
    if not isinstance(term, (tuple, list)):
        return []
    here = [int(term[2][1][1])] if term[:2] in (("call", ("name", "get_or")), ("call", ("name", "set"))) else []
    return here + [place for part in term for place in places_in(part)]


def faults_of_rows(header, title, names):
    found = [place for _, right in definition_of(title).equations for place in places_in(right)]
    if found != [header.value(name) for name in names]:
        yield f"{stand(header, names)}, but {title} has {' and '.join(map(str, found))}"


def faults_of_names(header):
    """Enumerators that nothing above speaks of."""
    told = {name for _, table, *count in PACKED + UNPACKED + LISTED + NUMBERS for name in [*table.values(), *count]} | NOT_DEFINED
    told |= {name for _, names in ROWS + TESTED for name in names}
    for enum, names in header.enums.items():
        if enum not in NOT_DEFINED_ENUMS:
            yield from (f"{name} of enum {enum} is in no table of tests/words.py" for name in names if name not in told)


# ---- the calls


C_TYPES = {"u8": "uint8_t", "u16": "uint16_t", "u32": "uint32_t", "u64": "uint64_t", "usize": "size_t", "i8": "int8_t"}


def constant(text):
    """A length: a number, the name of a constant of the engine behind its crate, or a product of such."""
    if "*" in text:
        return math.prod(constant(factor.strip()) for factor in text.split("*"))
    if text.isdigit():
        return int(text)
    *modules, name = text.split("::")
    sources = "".join(path.read_text() for path in sorted((ROOT / "crates").glob(f"{modules[0] if modules else '*'}/src/*.rt")))
    return constant(re.search(rf"const {name}: usize = ([^;]+);", sources)[1])


def c_parameters(parameter):
    """A parameter of the code as C is to have it: what is pointed to, whether it may change, how many there are; a slice has its length beside it."""
    type_ = parameter.split(":", 1)[1].strip()
    lent = re.fullmatch(r"&(?:'\w+ )?(mut )?(.*)", type_)
    if not lent:
        return [C_TYPES[type_]]
    const = "" if lent[1] else "const "
    array = re.fullmatch(r"\[(\w+); ([\w:]+)\]", lent[2])
    if array:
        return [f"{const}{C_TYPES[array[1]]} [{constant(array[2])}]"]
    if lent[2] in C_TYPES:
        return [f"{const}{C_TYPES[lent[2]]} [1]"]
    rows = re.fullmatch(r"\[\[(\w+); ([\w:]+)\]\]", lent[2])
    if rows:
        return [f"{const}{C_TYPES[rows[1]]} [][{constant(rows[2])}]", "size_t"]
    inner = re.search(r"u8|u64", lent[2])[0]
    return [f"{const}{C_TYPES[inner]} *", "size_t"]


def code_calls():
    """The parameters of each call of the code, and its result."""
    text = "".join(path.read_text() for path in sorted((ROOT / "crates/dzervolat/src").glob("*.rt")))
    for name, parameters, result in re.findall(r'pub extern "C" fn (dz_\w+)(?:<[^>]*>)?\(([^)]*)\) -> (\w+)', text):
        given = [x.strip() for x in re.split(r",(?![^\[]*\])", parameters) if x.strip()]
        yield name, [C_TYPES[result], *(c for parameter in given for c in c_parameters(parameter))]


def header_parameters(header, parameters):
    for parameter in parameters:
        array = re.fullmatch(r"(.*) \w+(\[\])?\[(\w+)\]", parameter)
        single = re.fullmatch(r"((?:const )?uint64_t) \*\w+", parameter)
        if array:
            yield f"{array[1]} {array[2] or ''}[{header.value(array[3])}]"
        elif parameter != "void":
            yield re.sub(r"\w+$", "", parameter).strip() if not single else f"{single[1]} *"


def declarations(parameters):
    """How a header may declare them: one word is lent as a pointer to it, rows as they are or, since they lie one behind the other, as a pointer to words."""
    pointed = [x.replace("uint64_t [1]", "uint64_t *") for x in parameters]
    return pointed, [re.sub(r"\[\]\[\d+\]", "*", x) for x in pointed]


def faults_of_calls(header):
    code = dict(code_calls())
    for name in sorted(code.keys() | header.calls.keys()):
        result, parameters = header.calls.get(name, ("nothing", []))
        said = [result.replace("dz_answer", "uint64_t"), *header_parameters(header, parameters)]
        if code.get(name) is None or said not in declarations(code[name]):
            yield f"{name} has {', '.join(said)} in the header, but {', '.join(code.get(name, ['nothing']))} in the code"


def main():
    header = Header(pathlib.Path(sys.argv[1]) if len(sys.argv) > 1 else ROOT / "include/dzervolat.h")
    faults = [fault for title, table, count in PACKED for fault in faults_of_places(header, title, table, count, False)]
    faults += [fault for title, table, count in UNPACKED for fault in faults_of_places(header, title, table, count, True)]
    faults += [fault for title, table, count in LISTED for fault in faults_of_lists(header, title, table, count)]
    faults += [fault for title, table in NUMBERS for fault in faults_of_numbers(header, title, table)]
    faults += [fault for title, names in ROWS for fault in faults_of_rows(header, title, names)]
    faults += [fault for title, names in TESTED for fault in faults_of_tests(header, title, names)]
    faults += [*faults_of_names(header), *faults_of_calls(header)]
    fields = sum(len(table) for _, table, *_ in PACKED + UNPACKED + LISTED + ROWS)
    numbers = sum(len(table) for _, table in NUMBERS)
    print(*faults, sep="\n", end="\n" if faults else "")
    print(f"{fields} fields, {numbers} numbers and {len(header.calls)} calls of the header, {len(faults)} differ")
    return 1 if faults else 0


if __name__ == "__main__":
    sys.exit(main())
