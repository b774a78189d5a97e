"""What the example in Python does not show of its face: odd numbers, odd memory, refusals."""

from rack import Number, Rack

rack = Rack("target/librack.so")
with open("examples/x.set", "rb") as file:
    x = file.read()

# A number that no word holds is out of range, and is not cut to one that is in range.
for odd in (-1, 2**64 + 1, 10**30):
    assert rack.judge(x, odd, 1, 1) == (Number.BAD_CALL, 0, 0, 0, 0, 0)
    assert rack.judge(x, 1, odd, 1) == (Number.BAD_CALL, 0, 0, 0, 0, 0)
    assert rack.demand(x, 0, 1, 1, odd) == (Number.BAD_CALL, 0, 0)
    assert rack.figures(x, odd) == (Number.NO_TASK, 0, 0, 0)

# A set may be any bytes, also none, at no address at all.
assert rack.judge(b"", 1, 1, 1) == (Number.OK, 0, 0, 0, 1, 1)
assert rack.judge(bytearray(x), 5, 3, 4) == (Number.OK, 0, 0, 0, 3, 4)
assert rack.judge(x[:-1], 2, 1, 1) == (Number.BAD_LENGTH, 0, 0, 0, 0, 0)
assert rack.judge(x[:-16], 2, 1, 1) == (Number.BAD_RECORD, len(x) // 16 - 1, 0, 0, 0, 0)
assert rack._judge(None, 0, 1, 1, 1).number == Number.OK
assert rack._layers(x, len(x), 0, 1, 1, None, 0).number == Number.SHORT_TABLE

# The speed used: as it was named, though 2/2 is 1/1 in other ticks, or what 0/0 stands for.
assert rack.judge(x, 2, 1, 1) == (Number.OVERRUN, 0, 9, 10, 1, 1)
assert rack.judge(x, 2, 2, 2) == (Number.OVERRUN, 0, 17, 18, 2, 2)
assert rack.judge(x, 2, 2, 3) == (Number.DENSE, 0, 0, 0, 0, 0)
assert rack.judge(x, 2, 0, 0) == (Number.OVERRUN, 0, 1, 2, 11, 15)
assert rack.judge(b"", 16, 0, 0) == (Number.OK, 0, 0, 0, 16, 31)
assert rack.judge(x, 17, 0, 0) == (Number.BAD_CALL, 0, 0, 0, 0, 0)

# A table of exactly the words that are needed, and of one fewer.
assert rack.layers(x, 0, 1, 1, words=6).pairs == [(1, 1), (3, 4), (2, 6)]
assert rack.layers(x, 0, 1, 1, words=5) == (Number.SHORT_TABLE, 0, [])


def uploaded(parts, room):
    """An upload with these parts, each of which is taken."""
    upload = rack.upload(room)
    assert [upload.part(part) for part in parts] == [Number.OK] * len(parts)
    return upload


def words(upload):
    return upload.held, upload.over, upload.closed


def refused(call, *numbers):
    """Whether Python itself refuses the call."""
    try:
        call(*numbers)
    except TypeError:
        return True
    return False


CLOSED = (Number.CLOSED, 0, 0, 0, 0, 0)
SHORT_ROOM = (Number.SHORT_ROOM, 0, 0, 0, 0, 0)
BAD_CALL = (Number.BAD_CALL, 0, 0, 0, 0, 0)

# Wherever the parts are cut, a closing is answered as judge is, at 0/0 too, and in a longer room.
for size in (1, 7, 16, len(x)):
    parts = [x[at : at + size] for at in range(0, len(x), size)]
    for room in (len(x), len(x) + 1, 65536):
        for speed in ((1, 1), (0, 0), (2, 3)):
            assert uploaded(parts, room).close(2, *speed) == rack.judge(x, 2, *speed)
assert uploaded([], 0).close(1, 1, 1) == (Number.OK, 0, 0, 0, 1, 1)
assert uploaded([x[:-1]], len(x)).close(2, 1, 1) == rack.judge(x[:-1], 2, 1, 1)

# A part may be of any type that holds bytes, and empty. Its bytes stand at the front of the room.
upload = uploaded([b"", bytearray(x[:5]), memoryview(x)[5:20], b"", x[20:]], len(x) + 3)
assert words(upload) == (len(x), False, False)
assert bytes(upload._room) == x + bytes(3)

# What is no bytes is no part, and what is no number is no m: then the upload stays open.
for odd in ("x", 1.5, None):
    assert refused(upload.part, odd)
    assert refused(upload.close, odd, 1, 1)
assert refused(upload.part, 7)
assert refused(rack.judge, 7, 1, 1, 1)
assert words(upload) == (len(x), False, False)

# A closing closes, and then nothing changes until it is begun anew, with the room as it is.
assert upload.close(2, 1, 1) == (Number.OVERRUN, 0, 9, 10, 1, 1)
for _ in range(2):
    assert upload.part(x) == Number.CLOSED
    assert upload.part(b"") == Number.CLOSED
    assert upload.close(2, 1, 1) == CLOSED
    assert upload.close(17, 1, 1) == CLOSED
assert words(upload) == (len(x), False, True)
assert bytes(upload._room) == x + bytes(3)
upload.begin()
assert words(upload) == (0, False, False)
assert bytes(upload._room) == x + bytes(3)
assert upload.part(x[:32]) == Number.OK
assert upload.close(2, 1, 1) == rack.judge(x[:32], 2, 1, 1)

# A room that is a byte short: what fits is kept, and the closing says so, after 1 and before 2.
upload = uploaded([x[:7], x[7:]], len(x) - 1)
assert words(upload) == (len(x) - 1, True, False)
assert bytes(upload._room) == x[:-1]
assert upload.close(2, 1, 1) == SHORT_ROOM
assert words(upload) == (len(x) - 1, True, True)
assert uploaded([b"1"], 0).close(2, 1, 1) == SHORT_ROOM
assert uploaded([x], 5).close(2, 1, 2**64 + 1) == BAD_CALL

# A number that no word holds is out of range, and such a closing closes too.
for odd in (-1, 2**64 + 1, 10**30):
    for call in ((odd, 1, 1), (1, odd, 1), (1, 1, odd)):
        upload = uploaded([x], len(x))
        assert upload.close(*call) == BAD_CALL
        assert words(upload) == (len(x), False, True)
        assert upload.close(2, 1, 1) == CLOSED

# The face for C takes no room and no part at no address.
state = rack._begin()
assert rack._part(state, None, 0, None, 0) == Number.OK
assert rack._close(state, None, 0, 1, 1, 1).number == Number.OK
