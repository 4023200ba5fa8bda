"""Reads a recording of a QUIC connection: qlog as one JSON text or as JSON text sequences (RFC 7464), with the names of
draft-ietf-quic-qlog-quic-events, of version 0.3, or of older drafts.

A recording comes from others, so each value is checked once, where it is read: its type, its range, and how many there are. A tool declares the
names that it reads of each event as a form (`fields`, `several`, `COUNT`, ..), and gets Python's values. Numbers stay texts until their form reads
them, since 1e400000000 is short, and its digits are not. Everything else in a recording is ignored."""
import bisect
import decimal
import json
import re

from laboratory import Invalid, shown

RECORD = "\x1e"
SPACES = {"initial": "initial", "handshake": "handshake", "1RTT": "data", "0RTT": "data"}
NAMES = {  # names of events in older drafts
    "loss_timer_updated": "timer_updated", "key_retired": "key_discarded", "recovery_metrics_updated": "metrics_updated",
    "packet_retransmitted": "marked_for_retransmit", "transport_parameters_update": "parameters_set",
}
LARGEST = 2**62 - 1  # of packet numbers, offsets and counters (RFC 9000, 16)
LAST = 2**64 - 1  # nanoseconds: the end of the clock
NUMBER = re.compile(r"-?[0-9]{1,64}(\.[0-9]{1,64})?([eE][-+]?[0-9]{1,3})?")


class Literal(str):
    """A number, NaN or Infinity as the recording writes it."""

    __slots__ = ()


class Repeated(dict):
    """An object in which a name occurs twice (forbidden by RFC 7493, 2.3)."""


class Misfit(Exception):
    """A value that does not fit its form: the names and positions that lead to it, the last one first, and why."""

    def __init__(self, why):
        super().__init__(why)
        self.path, self.why = [], why

    def __str__(self):
        return "".join(reversed(self.path)).lstrip(".") + (" " if self.path else "") + self.why


# ---- forms: each reads a value of JSON with the nanoseconds of the recording's unit of time, and returns a value of Python


def misfit(value, wanted):
    """The error for a value that is not what is wanted."""
    return Misfit(f"is {described(value)}, and not {wanted}")


def described(value):
    """A value in an error: a long one, or one with other values in it, is not written out."""
    if isinstance(value, (list, dict)):
        return "a list" if isinstance(value, list) else "an object"
    if isinstance(value, str):
        return value if isinstance(value, Literal) and len(value) < 20 else shown(value)
    return json.dumps(value)


def exact(value, wanted):
    """A number, or, as in older drafts, a text with its digits."""
    if isinstance(value, str) and len(value) < 150 and NUMBER.fullmatch(value):
        return decimal.Decimal(value)
    raise misfit(value, wanted)


def count_up_to(largest):
    wanted = f"a whole number from 0 to {largest}"

    def read(value, _):
        number = exact(value, wanted)
        if not 0 <= number <= largest or number != number.to_integral_value():
            raise misfit(value, wanted)
        return int(number)
    return read


def moment(value, unit):
    """A time in whole nanoseconds. It may be before the one that the recording counts from."""
    wanted = "a time within 2^64 nanoseconds"
    nanos = exact(value, wanted) * unit
    if not -LAST <= nanos <= LAST:
        raise misfit(value, wanted)
    return int(nanos)


def span(value, unit):
    """A time span in whole nanoseconds."""
    nanos = moment(value, unit)
    if nanos < 0:
        raise misfit(value, "a time span from 0 on")
    return nanos


def flag(value, _):
    if not isinstance(value, bool):
        raise misfit(value, "true or false")
    return value


def label(value, _):
    if not isinstance(value, str) or isinstance(value, Literal):
        raise misfit(value, "a text")
    return value


def anything(value, _):
    return value


def several(form):
    """A list of any length."""

    def read(value, unit):
        if not isinstance(value, list):
            raise misfit(value, "a list")
        found = []
        for at, it in enumerate(value):
            try:
                found.append(form(it, unit))
            except Misfit as why:
                why.path.append(f"[{at}]")
                raise
        return found
    return read


def fields(needed=(), **forms):
    """An object with these names. Others are ignored. A name whose value is null counts as missing, and only the needed ones may not be missing."""

    def read(value, unit):
        if not isinstance(value, dict):
            raise misfit(value, "an object")
        if isinstance(value, Repeated):
            raise Misfit("has a name twice")
        found = {}
        for name, it in value.items():
            form = forms.get(name)
            if form and it is not None:
                try:
                    found[name] = form(it, unit)
                except Misfit as why:
                    why.path.append(f".{name}")
                    raise
        missing = next((it for it in needed if it not in found), None)
        if missing:
            raise Misfit(f"has no {missing}")
        return found
    return read


COUNT = count_up_to(LARGEST)


def numbers(value, unit):
    """A range of packet numbers of an ACK frame, as its first and last one. A single number may stand for both."""
    found = several(COUNT)(value, unit)
    if len(found) not in (1, 2) or found[0] > found[-1]:
        raise Misfit("is no range of packet numbers: one number, or a first and a last one")
    return found[0], found[-1]


KIND = fields(frame_type=label, needed=("frame_type",))
KINDS = {  # what is read of a frame, by its type
    "ack": fields(ack_delay=span, acked_ranges=several(numbers), ect0=COUNT, ect1=COUNT, ce=COUNT),
    "stream": fields(stream_id=COUNT, id=COUNT, offset=COUNT, length=COUNT),
    "crypto": fields(offset=COUNT, length=COUNT),
}


def frame(value, unit):
    kind = KIND(value, unit)
    form = KINDS.get(kind["frame_type"])
    return {**kind, **form(value, unit)} if form else kind


HEADER = fields(packet_type=label, packet_number=COUNT, packet_size=COUNT)
PACKET = dict(header=HEADER, packet_type=label, raw=fields(length=COUNT), frames=several(frame))  # what is read of a packet sent or received
EVENT = fields(name=label, time=moment, data=anything, needed=("name", "time"))
DESCRIPTION = dict(common_fields=fields(time_format=label), configuration=fields(time_units=label))
FIRST = fields(trace=fields(**DESCRIPTION))
WHOLE = fields(traces=several(anything))
TRACE = fields(event_fields=several(label), events=several(anything), **DESCRIPTION)


def space(packet, usual=None):
    """The packet number space of a packet, or None if its type has none. The usual one is that of a packet without a type."""
    kind = packet.get("header", {}).get("packet_type", packet.get("packet_type"))
    return usual if kind is None else SPACES.get(kind)


class Sent:
    """The numbers of the packets that were sent, in the order of sending, by their spaces."""

    def __init__(self):
        self.numbers = {it: [] for it in SPACES.values()}

    def add(self, place, space, packet):
        """The number of the next packet, which is above those of its space (RFC 9000, 12.3). If it has none, it is the one that follows."""
        known = self.numbers[space]
        number = packet.get("header", {}).get("packet_number", known[-1] + 1 if known else 0)
        if known and number <= known[-1]:
            raise Invalid(f"{place}: packet {number} is sent after packet {known[-1]} of the same packet number space")
        known.append(number)
        return number

    def between(self, space, first, last):
        """The positions of the packets whose numbers are in a range: the first one, and the one after the last."""
        known = self.numbers[space]
        return bisect.bisect_left(known, first), bisect.bisect_right(known, last)


# ---- the text of a recording


def unique(pairs):
    found = dict(pairs)
    return found if len(found) == len(pairs) else Repeated(found)


def parsed(text, what):
    try:
        return json.loads(text, parse_int=Literal, parse_float=Literal, parse_constant=Literal, object_pairs_hook=unique)
    except ValueError as why:
        raise Invalid(f"{what} is no JSON, or is cut off: {why}")
    except RecursionError:
        raise Invalid(f"{what} is nested too deeply")


def read(place, form, value, unit=1):
    try:
        return form(value, unit)
    except Misfit as why:
        raise Invalid(f"{place}: {why}" if why.path else f"{place} {why}")


def named(names, event):
    """An event of a draft before version 0.3, which is a list, by the names of that version."""
    found = {name: it for name, it in zip(names, event) if it is not None}
    name, time = found.get("event", found.get("event_type")), found.get("relative_time", found.get("time"))
    return {"name": name, "time": time, "data": found.get("data")}


def of_sequence(text):
    """The description in the first record of a sequence, then the others, each with its place."""
    for number, record in enumerate(text.split(RECORD)[1:], 1):
        place = f"record {number}"
        found = parsed(record, place)
        if not isinstance(found, dict):
            raise Invalid(f"{place} is no object of qlog: recordings older than version 0.3 are not read")
        yield place, read(place, FIRST, found).get("trace", {}) if number == 1 else found


def of_whole(text):
    """The description in the first trace of a JSON text, then its events, each with its place."""
    traces = read("the recording", WHOLE, parsed(text, "the recording")).get("traces")
    if not traces:
        raise Invalid("the recording has no trace")
    trace = read("the trace", TRACE, traces[0])
    yield "the trace", trace
    names = trace.get("event_fields")
    for number, event in enumerate(trace.get("events", []), 1):
        yield f"event {number}", named(names, event) if names and isinstance(event, list) else event


FORMATS = "relative", "absolute", "delta", "relative_to_epoch", "relative_to_previous_event"
UNITS = {"ms": 1_000_000, "us": 1_000}


class Clock:
    """Times in whole nanoseconds, by the unit that a recording names: milliseconds, or, in older drafts, microseconds. A time that is before the
    one of an earlier event counts as that one."""

    def __init__(self, place, description):
        self.format = description.get("common_fields", {}).get("time_format", "relative")
        units = description.get("configuration", {}).get("time_units", "ms")
        if self.format not in FORMATS:
            raise Invalid(f"{place} has an unknown time_format, {shown(self.format)}")
        if units not in UNITS:
            raise Invalid(f"{place} has unknown time_units, {shown(units)}")
        self.unit = UNITS[units]
        self.now = self.at = 0
        self.first = None if self.format in ("absolute", "relative_to_epoch") else 0

    def advance(self, place, nanos):
        if self.first is None:
            self.first = nanos
        self.at = self.at + nanos if self.format in ("delta", "relative_to_previous_event") else nanos - self.first
        self.now = max(self.now, self.at)
        if self.now > LAST:
            raise Invalid(f"{place} is past the end of the clock, 2^64 nanoseconds")
        return self.now


def events(text, forms):
    """The events of a recording whose names have a form, up to its end or to the first place that cannot be read: the place of each for errors, its
    time, its name, and its data."""
    found = (of_sequence if text.startswith(RECORD) else of_whole)(text)
    clock = Clock(*next(found))
    forms = {name: fields(data=form) for name, form in forms.items()}
    for place, record in found:
        event = read(place, EVENT, record, clock.unit)
        now, name = clock.advance(place, event["time"]), event["name"].rpartition(":")[2]
        name = NAMES.get(name, name)
        if name in forms:
            yield place, now, name, read(place, forms[name], {"data": event.get("data", {})}, clock.unit)["data"]
