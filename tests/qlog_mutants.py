"""Recordings that nobody wrote on purpose, for tools/qlog2script: those of tests/qlog with changes at random (`mutants`), and those that look for an
edge of the tool (`HOSTILE`). tests/qlog.py runs the tool on them."""
import copy
import json
import random

from tree import ROOT

TEXTS = [it.read_text() for it in sorted((ROOT / "tests" / "qlog").glob("*.qlog"))]
RECORD = "\x1e"
NUMBERS = {"@huge": "1e400000000", "@long": "9" * 5000, "@exact": "5e1", "@negative zero": "-0"}  # JSON has them, and Python does not write them
VALUES = [
    None, True, False, -1, 0, 7, 1.5, -0.5, 2**62 - 1, 2**62, 2**64, 10**30, float("nan"), float("inf"), *NUMBERS,
    "", "x", "1", "1e5", "1\nkeys", " 5", "\u0663", "1RTT", "0RTT", "initial", "retry", "ack", "stream", "crypto", "padding", "expired", "set",
    "delta", "absolute", "us", "transport:packet_sent", "recovery:packet_lost", "recovery:timer_updated", "show", "__init__",
    [], [1], [[]], [[0, 2**62 - 1]], [[5, 1]], [[0, 1, 2]], [["0", "9"]], {}, {"a": 1}, {"frame_type": "ack"},
    {"frame_type": "ack", "acked_ranges": [[0, 9]]},
]


def holders(value):
    """The lists and objects of a value of JSON that have something in them."""
    if isinstance(value, (dict, list)) and value:
        yield value
        for it in value.values() if isinstance(value, dict) else value:
            yield from holders(it)


def change(chance, data):
    """Changes one value: by another one, to nothing, or, in a list, to what is elsewhere in it."""
    holder = chance.choice(list(holders(data)))
    key = chance.choice(list(holder) if isinstance(holder, dict) else range(len(holder)))
    kind = chance.choice(["replace", "replace", "replace", "remove", "move"])
    if kind == "remove" and len(holder) > 1:
        del holder[key]
    elif kind == "move" and isinstance(holder, list):
        holder.insert(chance.randrange(len(holder)), copy.deepcopy(holder[key]))
    else:
        holder[key] = copy.deepcopy(chance.choice(VALUES))


def written(data, is_sequence):
    text = "".join(f"{RECORD}{json.dumps(it)}\n" for it in data) if is_sequence else json.dumps(data)
    for name, number in NUMBERS.items():
        text = text.replace(f'"{name}"', number)
    return text


def damage(chance, content):
    """Changes bytes of a recording: cuts it, repeats a part, or writes another byte."""
    at = chance.randrange(len(content))
    kind = chance.choice(["cut", "repeat", "byte", "byte"])
    if kind == "cut":
        return content[:at]
    if kind == "repeat":
        return content[:at] + content[max(0, at - chance.randrange(200)):]
    return content[:at] + bytes([chance.randrange(256)]) + content[at + 1:]


def mutants(seed, count):
    """Recordings with one to three changes each, and every eighth one also with damaged bytes."""
    chance = random.Random(seed)
    for number in range(count):
        text = chance.choice(TEXTS)
        is_sequence = text.startswith(RECORD)
        data = [json.loads(it) for it in text.split(RECORD)[1:]] if is_sequence else json.loads(text)
        for _ in range(chance.choice([1, 1, 1, 2, 3])):
            change(chance, data)
        content = written(data, is_sequence).encode()
        yield damage(chance, content) if number % 8 == 7 else content


# ---- recordings by hand


def trace(events, **described):
    return json.dumps({"traces": [{"events": ["@"], **described}]}).replace('"@"', ",".join(events))


def event(name="transport:packet_sent", data="{}", time="1"):
    return f'{{"time":{time},"name":{json.dumps(name)},"data":{data}}}'


def received(number):
    header = f'{{"packet_type":"1RTT","packet_number":{number}}}'
    return trace([event("transport:packet_received", f'{{"header":{header},"frames":[{{"frame_type":"ping"}}]}}')])


def sent(length="1200", frames='{"frame_type":"ping"}', kind='"1RTT"', number=0):
    return event(data=f'{{"header":{{"packet_type":{kind},"packet_number":{number}}},"raw":{{"length":{length}}},"frames":[{frames}]}}')


def acknowledged(ranges="[[0]]", delay="1", limited="false", ect0="1"):
    """A packet, and an ACK of it."""
    frame = f'{{"frame_type":"ack","ack_delay":{delay},"acked_ranges":{ranges},"ect0":{ect0}}}'
    data = f'{{"header":{{"packet_type":"1RTT"}},"app_limited":{limited},"frames":[{frame}]}}'
    return trace([sent(), event("transport:packet_received", data, "2")])


def at_one_time(count):
    """Packets, and as many timers that expire at their time."""
    return trace([*(sent(number=it) for it in range(count)), *[event("recovery:timer_updated", '{"event_type":"expired"}')] * count])


def paced(count):
    """Timers of the pacer after which no packet is sent."""
    return trace([event("recovery:timer_updated", '{"timer_type":"pacing","event_type":"set"}')] * count)


def in_holes(count):
    """Packets, and an ACK of every second one."""
    ranges = ",".join(f"[{it}]" for it in range(0, count, 2))
    data = f'{{"header":{{"packet_type":"1RTT"}},"frames":[{{"frame_type":"ack","acked_ranges":[{ranges}]}}]}}'
    return trace([*(sent(number=it) for it in range(count)), event("transport:packet_received", data, "2")])


SENT = "transmit data 1000000 1200 1\nsend data 1000000 1200 1 -\n"
WHOLE = "and not a whole number from 0 to 4611686018427387903"
TIME = "and not a time within 2^64 nanoseconds"
METHODS = ["all", "leaves", "show", "items", "confirms", "line", "events", "open", "place", "__init__", "__class__", "__setattr__", "packet_sent.x"]

HOSTILE = [  # a title, the recording, the script, and the last line of errors, or nothing for status 0
    ("a number with lines", received(r'"0 0\nnew-id 7 0 9"'), "", rf"event 1: data.header.packet_number is '0 0\nnew-id 7 0 9', {WHOLE}"),
    ("a negative number", received("-3"), "", f"event 1: data.header.packet_number is -3, {WHOLE}"),
    ("half a number", received("1.5"), "", f"event 1: data.header.packet_number is 1.5, {WHOLE}"),
    ("a number above 2^62", received(str(2**62)), "", f"event 1: data.header.packet_number is {2**62}, {WHOLE}"),
    ("the largest number", received(str(2**62 - 1)), f"received data 1000000 {2**62 - 1} 1\n", None),
    ("a number with an exponent", received("1e3"), "received data 1000000 1000 1\n", None),
    ("a number as a text", received('"12"'), "received data 1000000 12 1\n", None),
    ("a number with Arabic digits", received('"\u0663"'), "", rf"event 1: data.header.packet_number is '\u0663', {WHOLE}"),
    ("true for a number", received("true"), "", f"event 1: data.header.packet_number is true, {WHOLE}"),
    ("NaN", received("NaN"), "", f"event 1: data.header.packet_number is NaN, {WHOLE}"),
    ("Infinity", received("-Infinity"), "", f"event 1: data.header.packet_number is -Infinity, {WHOLE}"),
    ("an object for a number", received('{"a":1}'), "", f"event 1: data.header.packet_number is an object, {WHOLE}"),
    ("a size with a huge exponent", trace([sent("1e400000000")]), "", f"event 1: data.raw.length is 1e400000000, {WHOLE}"),
    ("a negative size", trace([sent("-5")]), "", f"event 1: data.raw.length is -5, {WHOLE}"),
    ("a size above 65,535", trace([sent("65536")]), SENT.replace("1200", "65535"), None),
    ("a huge time", trace([event(time="1e99999999")]), "", f"event 1: time is 1e99999999, {TIME}"),
    ("a time past the clock", trace([event(time="18446744073710")]), "", f"event 1: time is 18446744073710, {TIME}"),
    ("a time of 5,000 digits", trace([event(time="9" * 5000)]), "", f"event 1: time is '{'9' * 40}..', {TIME}"),
    ("no time", trace([event(time="null")]), "", "event 1 has no time"),
    ("times that add up past the clock", trace([event("x", time="1e13")] * 2, common_fields={"time_format": "delta"}), "",
     "event 2 is past the end of the clock, 2^64 nanoseconds"),
    ("a time that goes back", trace([sent(), sent(number=1).replace('"time":1', '"time":-7')]), SENT * 2, None),
    ("an unknown time format", trace([event()], common_fields={"time_format": "x"}), "", "the trace has an unknown time_format, 'x'"),
    ("unknown units", trace([event()], configuration={"time_units": "s"}), "", "the trace has unknown time_units, 's'"),
    ("a number for a name", trace([event(7)]), "", "event 1: name is 7, and not a text"),
    ("no name", trace([event(None)]), "", "event 1 has no name"),
    ("a list of data", trace([event(data="[1,2]")]), "", "event 1: data is a list, and not an object"),
    ("a name twice", trace([event(data='{"header":{"packet_type":"1RTT","packet_type":"x"}}')]), "", "event 1: data.header has a name twice"),
    ("methods for names of events", trace([event(it, '"new-id 0 0 9"') for it in METHODS]), "", None),
    ("an object of traces", '{"traces":{"0":1}}', "", "the recording: traces is an object, and not a list"),
    ("a number of events", '{"traces":[{"events":7}]}', "", "the trace: events is 7, and not a list"),
    ("lists for names of fields", '{"traces":[{"events":[[1]],"event_fields":[[],{}]}]}', "", "the trace: event_fields[0] is a list, and not a text"),
    ("a number for a trace", '\x1e{"trace":7}\n\x1e{"time":1,"name":"x"}', "", "record 1: trace is 7, and not an object"),
    ("a list of types", trace([sent(kind='["a"]')]), "", "event 1: data.header.packet_type is a list, and not a text"),
    ("no type of a frame", trace([sent(frames='{"offset":0}')]), "", "event 1: data.frames[0] has no frame_type"),
    ("a list for a stream", trace([sent(frames='{"frame_type":"stream","stream_id":[1]}')]), "",
     f"event 1: data.frames[0].stream_id is a list, {WHOLE}"),
    ("numbers that do not increase", trace([sent(number=4), sent(number=4)]), SENT,
     "event 2: packet 4 is sent after packet 4 of the same packet number space"),
    ("2^62 acknowledged numbers", acknowledged(f"[[0,{2**62 - 1}]]"), f"{SENT}ack data 2000000 1000000 0 0 0 ecn 1 0 0\n", None),
    ("ranges in one another", acknowledged("[[0,9],[0],[0,3]]"), f"{SENT}ack data 2000000 1000000 0 0 0 ecn 1 0 0\n", None),
    ("an empty range", acknowledged("[[]]"), SENT,
     "event 2: data.frames[0].acked_ranges[0] is no range of packet numbers: one number, or a first and a last one"),
    ("a range that goes back", acknowledged("[[2],[1,0]]"), SENT,
     "event 2: data.frames[0].acked_ranges[1] is no range of packet numbers: one number, or a first and a last one"),
    ("a text for ranges", acknowledged('"07"'), SENT, "event 2: data.frames[0].acked_ranges is '07', and not a list"),
    ("a delay with lines", acknowledged(delay=r'"1\nkeys"'), SENT, rf"event 2: data.frames[0].ack_delay is '1\nkeys', {TIME}"),
    ("a negative delay", acknowledged(delay="-1"), SENT, "event 2: data.frames[0].ack_delay is -1, and not a time span from 0 on"),
    ("a text for a flag", acknowledged(limited='"9"'), SENT, "event 2: data.app_limited is '9', and not true or false"),
    ("a negative count", acknowledged(ect0="-1"), SENT, f"event 2: data.frames[0].ect0 is -1, {WHOLE}"),
    ("deep nesting", "[" * 200_000, "", "the recording is nested too deeply"),
    ("deep nesting, closed", f'\x1e{{"trace":{{}}}}\n\x1e{"[" * 99_000}{"]" * 99_000}', "", "record 2 is nested too deeply"),
    ("a BOM", "\ufeff" + trace([sent()]), SENT, None),
    ("no UTF-8", b"\xff\xfe", "", "standard input is not UTF-8: byte 0 is 0xff"),
    ("more items than a line has", trace([sent(frames=",".join(f'{{"frame_type":"stream","offset":{it}}}' for it in range(2000)))]),
     SENT.splitlines(True)[0], "event 1: its line would be longer than the 4096 bytes that recovery-sender reads"),
]
