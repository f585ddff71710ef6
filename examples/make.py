#!/usr/bin/env python3
"""Writes the example logs beside this file: document01.log, larger.log, empty.log, remote_*.log, fd_*.log, means_*.log and damaged/*.log.
What framelog must print for each is the .out file of the same name."""
import os
import struct

HERE = os.path.dirname(os.path.abspath(__file__))

EXTENDED, MOTOROLA, SIGNED, MULTIPLEXOR, CONDITION = 1, 2, 4, 8, 16
# of a frame, beside EXTENDED
REMOTE = 2
# the lengths that an FD frame has in a log
FD_LENGTHS = (0, 1, 2, 3, 4, 5, 6, 7, 8, 12, 16, 20, 24, 32, 48, 64)
LARGEST = (2**24 - 1) * 2.0**104


def settings(alpha=0.5, threshold=3.0):
    return b"\xa5\x50" + struct.pack("<ff", alpha, threshold)


def define(can_id, start, length, scale=1.0, offset=0.0, flags=0, condition=0, name_hash=7):
    return b"\xa5\x44" + struct.pack("<IBHBffIH", can_id, flags, start, length, scale, offset, name_hash, condition)


def remove(slot):
    return b"\xa5\x52" + struct.pack("<H", slot)


def frame(can_id, data, length=None, flags=0):
    length = len(data) if length is None else length
    return b"\xa5\x46" + struct.pack("<BBI", flags, length, can_id) + bytes(data).ljust(8, b"\0")


def fd_frame(can_id, data, length=None, flags=0):
    length = len(data) if length is None else length
    return b"\xa5\x58" + struct.pack("<BBI", flags, length, can_id) + bytes(data).ljust(64, b"\0")


def place(data, start, length, flags, raw):
    """Writes a raw number bit by bit, the lowest first: Intel goes up from the start, Motorola has the highest bit there and goes down in each byte."""
    top = 8 * (start // 8) + 7 - start % 8
    for i in range(length):
        if flags & MOTOROLA:
            byte, bit = (top + length - 1 - i) // 8, 7 - (top + length - 1 - i) % 8
        else:
            byte, bit = (start + i) // 8, (start + i) % 8
        data[byte] = data[byte] & ~(1 << bit) | (raw >> i & 1) << bit


def document01():
    yield settings()
    yield define(0x100, 0, 8)
    for _ in range(5):
        yield frame(0x100, [0])
    yield frame(0x100, [1])


def larger():
    state = 1

    def noise(n):
        nonlocal state
        state = (state * 1103515245 + 12345) % 2**31
        return state // 65536 % n

    nan, infinity = float("nan"), float("inf")
    yield settings(0.25, 4.0)
    # slots 0 to 3: both byte orders, signed and not
    yield define(0x0C0, 0, 16, 0.25)
    yield define(0x0C0, 16, 8, 1.0, -40.0)
    yield define(0x1A0, 7, 12, 0.5, 0.0, MOTOROLA | SIGNED)
    yield define(0x1A0, 20, 12, 1.0, -100.0, SIGNED)
    # slots 4 to 6: a multiplexor, and a signal at each of two of its numbers
    yield define(0x2F0, 0, 4, flags=MULTIPLEXOR)
    yield define(0x2F0, 8, 16, 0.01, 0.0, CONDITION, 1)
    yield define(0x2F0, 15, 10, 0.1, 0.0, CONDITION | MOTOROLA | SIGNED, 2)
    # slots 7 to 9: extended frames, and one number as both frame types
    yield define(0x18FEF100, 8, 16, 1 / 256, 0.0, EXTENDED)
    yield define(0x100, 0, 8, flags=EXTENDED)
    yield define(0x100, 0, 8)
    # slots 10 to 18: nine signals of one frame, of which eight are listed
    for k in range(9):
        yield define(0x3A0, 7 * k, 7, 1.0 + k)
    # refused, in the order of the tests
    yield define(0x0C0, 0, 0, nan)
    yield define(0x0C0, 0, 65)
    yield define(0x900, 0, 8, nan)
    yield define(0x0C0, 0, 8, 1.0, infinity)
    yield define(0x800, 0, 8)
    yield define(0x20000000, 0, 8, flags=EXTENDED)
    yield define(0x2F0, 0, 17, flags=MULTIPLEXOR)
    yield define(0x1A0, 0, 1, flags=SIGNED)
    # removals: a live slot, the same again, one that never was
    yield remove(9)
    yield remove(9)
    yield remove(19)
    # the table filled up: one is refused, and taken once there is room
    for k in range(46):
        yield define(0x400 + k, k, 8)
    yield define(0x500, 0, 8)
    yield remove(30)
    yield define(0x500, 0, 8)

    for k in range(400):
        spike = 200 if k % 40 == 39 else 0
        speed = 2000 + noise(40) + 100 * spike
        torque = (-300 + noise(9) + 2 * spike) % 4096
        yield frame(0x0C0, [speed % 256, speed // 256 % 256, 90 + noise(3) + spike // 2])
        yield frame(0x1A0, [torque // 16, torque % 16 * 16, 0x30, 0xF0 + noise(8)])
        yield frame(0x2F0, [k % 4, noise(10) + spike, 1 + k % 2, 0])
        yield frame(0x18FEF100, [0, noise(5), 10 + spike % 128], flags=1)
        yield frame(0x100, [noise(4) + spike], flags=k % 2)
        yield frame(0x3A0, [noise(2) + spike] * 8, length=8 + k % 8)
        # an identifier above its mask, no bytes, and a frame that nothing matches
        yield frame(0x1F0C0 | 0x40000000, [speed % 256, speed // 256 % 256], length=k % 4)
        yield frame(0x0C0, [], length=0)
        yield frame(0x7FF, [k % 256])
        if k == 200:
            yield remove(5)
            yield remove(0)
            yield define(0x0C0, 0, 16, 0.25)


def remote_lengths():
    """Remote frames with every length field and far values in their bytes, of both types; the frame behind them is flagged as if there were none."""
    yield settings()
    for flags in (0, EXTENDED):
        yield define(0x100, 0, 8, flags=flags)
        for _ in range(5):
            yield frame(0x100, [0], flags=flags)
        for length in range(16):
            yield frame(0x100, [255] * 8, length=length, flags=flags | REMOTE)
        yield frame(0x100, [1], flags=flags)


def remote_multiplexors():
    """Remote frames whose bytes have each number of a multiplexor, and far values: no signal has a value. That no condition is met shows in scripts alone."""
    yield settings()
    yield define(0x200, 0, 8, flags=MULTIPLEXOR)
    yield define(0x200, 8, 8)
    for number in (0, 1, 255):
        yield define(0x200, 8, 8, flags=CONDITION, condition=number)
    # a multiplexor with a condition of its own, and a second one behind it
    yield define(0x201, 0, 4, flags=MULTIPLEXOR)
    yield define(0x201, 0, 8, flags=MULTIPLEXOR | CONDITION, condition=1)
    yield define(0x201, 8, 8, flags=CONDITION, condition=1)
    for k in range(18):
        for can_id in (0x200, 0x201):
            yield frame(can_id, [k % 2, 10])
            for number in (0, 1, 255):
                yield frame(can_id, [number, 200, 0, 0, 0, 0, 0, 0], length=k % 16, flags=REMOTE)
    for can_id in (0x200, 0x201):
        for number in (0, 1, 255):
            yield frame(can_id, [number, 200])


def remote_between():
    """Remote frames between other frames of the same key: while the detector is empty, warms up, scores and is frozen. They use no place of a freeze."""
    yield settings(0.5, 2.0)
    yield define(0x300, 0, 16, 0.5, -10.0)
    yield define(0x300, 0, 16, 0.5, -10.0, EXTENDED)
    for k in range(60):
        value = 100 + k % 3 + (50 if k in (20, 33, 34, 47) else 0)
        for flags in (0, EXTENDED):
            yield frame(0x300, [0xFF, 0xFF], length=k % 16, flags=flags | REMOTE)
            yield frame(0x300, [value, 0], flags=flags)
            if k % 4 == 0:
                yield frame(0x300, [], length=8, flags=flags | REMOTE)
                yield frame(0x300, [0, 0x80], length=8, flags=flags | REMOTE)
    yield remove(0)
    yield frame(0x300, [1, 0], flags=REMOTE)
    yield define(0x300, 0, 16, 0.5, -10.0)
    yield frame(0x300, [1, 0], flags=REMOTE)
    yield frame(0x300, [1, 0])


def fd_lengths():
    """FD frames of every length, of both types. A signal needs each of the lengths, and is flagged in the frame of that length; bytes behind it are far off."""
    yield settings()
    for flags in (0, EXTENDED):
        for length in FD_LENGTHS[1:]:
            yield define(0x100, 8 * (length - 1), 8, flags=flags)
        for _ in range(5):
            yield fd_frame(0x100, [0] * 64, flags=flags)
        for length in FD_LENGTHS:
            data = [0] * (length - 1) + [1] * (length > 0) + [200] * (64 - length)
            yield fd_frame(0x100, data, length=length, flags=flags)


def fd_signals():
    """Signals across byte 8 and up to the last bit of 64 bytes in both byte orders, each flagged once; frames of 48 bytes and of 8 have fewer of them."""
    signals = (
        (60, 8, 0), (59, 8, MOTOROLA), (76, 64, SIGNED), (163, 64, MOTOROLA | SIGNED), (300, 12, SIGNED), (327, 10, MOTOROLA), (367, 16, MOTOROLA | SIGNED),
        (448, 32, 0), (487, 16, MOTOROLA), (496, 8, 0), (511, 4, MOTOROLA), (504, 4, 0),
    )
    yield settings(0.25, 4.0)
    for k, (start, length, flags) in enumerate(signals):
        yield define(0x200, start, length, 0.5 * (k + 1), -10.0, flags)
    # the last bit alone, read as either order, and two signals that end behind it and never have a value
    for start, length, flags in ((511, 1, 0), (504, 1, MOTOROLA), (505, 8, 0), (510, 8, MOTOROLA)):
        yield define(0x200, start, length, flags=flags)
    for k in range(44):
        data = [0] * 64
        for i, (start, length, flags) in enumerate(signals):
            far = k == 10 + 3 * i
            raw = -3 if flags & SIGNED else 4
            place(data, start, length, flags, raw + (k + i) % 3 - 1 + (8 if far else 0))
        yield fd_frame(0x200, data, length={3: 48, 6: 8}.get(k % 9, 64))


def fd_multiplexors():
    """A multiplexor in byte 40, and signals before and behind it at each of its numbers. In frames that end before it no condition is met, 0 neither."""
    places = {0: (60, 0), 1: (336, 0), 2: (511, MOTOROLA), 255: (8, 0)}

    def sent(number, value, length=64, flags=0):
        data = [0] * 64
        for start, order in places.values():
            place(data, start, 8, order, value)
        data[40] = number
        return fd_frame(0x300, data, length=length, flags=flags)

    yield settings()
    for flags in (0, EXTENDED):
        yield define(0x300, 320, 8, flags=flags | MULTIPLEXOR)
        for number, (start, order) in places.items():
            yield define(0x300, start, 8, flags=flags | order | CONDITION, condition=number)
        for _ in range(5):
            for number in places:
                yield sent(number, 10, flags=flags)
    # byte 40 is outside, then byte 63 is, and then a classic frame has the number in its first byte
    for number in places:
        yield sent(number, 200, length=32)
        yield sent(number, 10, length=48)
        yield frame(0x300, [number] + [200] * 7)
    for number in places:
        yield sent(number, 200, flags=EXTENDED)
        yield sent(number, 200)


def fd_between():
    """Classic and FD frames of one key by turns, which share detectors, and remote frames between them. The signals at byte 8 have a value in FD frames alone:
    a classic frame has eight bytes, also if its length is 9 to 15."""
    yield settings(0.5, 2.0)
    for flags in (0, EXTENDED):
        yield define(0x300, 0, 16, 0.5, -10.0, flags)
        yield define(0x300, 64, 8, flags=flags)
        yield define(0x300, 60, 8, flags=flags)
    for k in range(28):
        value = 100 + k % 3 + (50 if k in (12, 15, 25) else 0)
        data = [value, 0, 0, 0, 0, 0, 0, 0x40, 0x64 + k // 2 % 2 + (0x18 if k in (16, 26) else 0)]
        for flags in (0, EXTENDED):
            if k % 2 == 0:
                yield fd_frame(0x300, data + [0xFF] * 3, flags=flags)
            else:
                yield frame(0x300, data[:8], length=8 + k // 2 % 8, flags=flags)
            if k % 4 == 1:
                yield frame(0x300, [0xFF] * 8, length=k % 16, flags=flags | REMOTE)
                yield fd_frame(0x300, [0xFF] * 64, length=0, flags=flags)


def means_warming():
    """Two extreme samples in warm-up, of both types by turns. The mean that the Rust then has is infinite, and it flags every sample; here the mean stays, and
    the count rises: the sixth sample is flagged, and one behind the freeze."""
    yield settings(1.0, 3.0)
    for flags in (0, EXTENDED):
        # from -127 * 2^121 to 127 * 2^121 the difference is infinite
        yield define(0x100, 0, 8, 2.0**121, 0.0, flags | SIGNED)
        # from 1.5 * 2^104 to the largest f32 it is finite, and the sum is not
        yield define(0x101, 0, 26, 2.0**103, 0.0, flags | SIGNED)
    ends = [-127, 127, -5, -5, -5, -6] + [-5] * 12 + [-6] + [-5] * 3
    near = [3, 2**25 - 2, 3, 3, 2**25 - 2, 4] + [3] * 12 + [4] + [3] * 3
    for k in range(22):
        for flags in (0, EXTENDED):
            sign = -1 if flags else 1
            yield frame(0x100, struct.pack("<b", sign * ends[k]), flags=flags)
            yield frame(0x101, struct.pack("<i", sign * near[k]), flags=flags)


def means_past():
    """Past warm-up, with a variance so large that the largest f32 is not anomalous: it is folded and the sum is infinite, in a positive and in a negative signal.
    The Rust then flags every sample; here the mean stays, three times, and nothing is flagged before the variance has become 0."""
    yield settings(1.0, LARGEST)
    yield define(0x200, 0, 64, (2**24 - 1) * 2.0**40)
    yield define(0x200, 0, 64, (2**24 - 1) * -(2.0**40))
    near, largest = 0x18000020000, 2**64 - 1
    for raw in (0, 0, 0, 1, near, largest, largest, near + 2**40, 1, 2, 1, near, largest, 1, 2, near, near, largest, near, near):
        yield frame(0x200, struct.pack("<Q", raw))


def means_among():
    """The mean of one signal of several goes bad in the Rust, in frames of which each third is an FD frame. The lines of the others are the same in either case."""
    yield settings(0.5, 3.0)
    yield define(0x300, 8, 16, 0.25)
    yield define(0x300, 24, 8, 1.0, -40.0)
    yield define(0x300, 0, 8, 2.0**121, 0.0, SIGNED)
    yield define(0x300, 39, 8, 2.0**121, 0.0, MOTOROLA | SIGNED)
    yield define(0x300, 480, 12)
    for k in range(30):
        spike = 1 if k in (9, 24) else 0
        wide = {1: 127, 3: 127, 20: -100}.get(k, -127)
        data = struct.pack("<bHBb", wide, 2000 + k % 3 + 500 * spike, 90 + k % 2, 60 - 9 * (k == 20))
        if k % 3 == 2:
            yield fd_frame(0x300, data.ljust(60, b"\0") + bytes([k // 3 % 2 + 100 * (k == 26)]), length=64)
        else:
            yield frame(0x300, data)


GOOD = b"".join(document01())

DAMAGED = {
    # what is left is one byte, or a record that is cut
    "one_byte": b"\xa5",
    "one_other_byte": b"\x00",
    "trailing_byte": GOOD + b"\xa5",
    "mark_only": b"\xa5\x50",
    "settings_cut": settings()[:-1],
    "definition_cut": settings() + define(1, 0, 8)[:-1],
    "removal_cut": settings() + remove(0)[:-1],
    "frame_cut": GOOD[:-1],
    # unknown marks
    "unknown_first_byte": b"\x5a\x50" + settings()[2:],
    "unknown_second_byte": GOOD + b"\xa5\x51",
    "unknown_at_once": b"\x00\x00",
    # the first record isn't the settings, or a later one is; a cut is found before
    "frame_first": frame(0x100, [0]),
    "definition_first": define(0x100, 0, 8, flags=32),
    "frame_first_cut": frame(0x100, [0])[:-1],
    "settings_again": GOOD + settings(),
    "bad_settings_again": GOOD + settings(0.0),
    "settings_again_cut": GOOD + settings()[:-1],
    # flags, and a condition number without its flag
    "definition_flag": settings() + define(0x100, 0, 8, flags=32),
    "definition_flag_high": settings() + define(0x100, 0, 8, flags=0x90),
    "condition_without_flag": settings() + define(0x100, 0, 8, condition=1),
    "condition_high_byte": settings() + define(0x100, 0, 8, condition=0x100),
    "bad_definition_bad_flag": settings() + define(0x900, 0, 0, flags=64),
    "frame_flag_4": GOOD + frame(0x100, [0], flags=4),
    "frame_flag_6": GOOD + frame(0x100, [0], flags=6),
    "frame_flag_128": GOOD + frame(0x100, [0], flags=128),
    "frame_flag_7_and_length": GOOD + frame(0x100, [0], length=16, flags=7),
    # bit 1 stopped a log with 13 before it was the remote flag
    "frame_flag": GOOD + frame(0x100, [0], flags=2),
    "frame_flag_and_length": GOOD + frame(0x100, [0], length=16, flags=3),
    "remote_length_255": GOOD + frame(0x100, [0], length=255, flags=2),
    "remote_cut": GOOD + frame(0x100, [0], flags=2)[:-1],
    "remote_first": frame(0x100, [0], flags=2),
    # frame lengths
    "frame_length_16": GOOD + frame(0x100, [0], length=16),
    "frame_length_255": GOOD + frame(0x100, [0], length=255),
    # FD frames: flags, then lengths, of which 9 to 15 but for 12 are none of theirs; a cut and the place are found before
    "fd_flag_2": GOOD + fd_frame(0x100, [0], flags=2),
    "fd_flag_4": GOOD + fd_frame(0x100, [0], flags=4),
    "fd_flag_128": GOOD + fd_frame(0x100, [0], flags=128),
    "fd_flag_3_and_length_10": GOOD + fd_frame(0x100, [0], length=10, flags=3),
    "fd_length_9": GOOD + fd_frame(0x100, [0], length=9),
    "fd_length_10": GOOD + fd_frame(0x100, [0], length=10),
    "fd_length_15": GOOD + fd_frame(0x100, [0], length=15),
    "fd_length_65": GOOD + fd_frame(0x100, [0], length=65),
    "fd_length_255": GOOD + fd_frame(0x100, [0], length=255),
    "fd_cut": GOOD + fd_frame(0x100, [0], length=255, flags=255)[:-1],
    "fd_first": fd_frame(0x100, [0], length=255, flags=255),
    "fd_first_cut": fd_frame(0x100, [0], length=255, flags=255)[:-1],
    # settings that no detector takes
    "alpha_zero": settings(0.0),
    "alpha_negative_zero": settings(-0.0),
    "alpha_above_one": settings(1.5) + define(0x100, 0, 8),
    "alpha_nan": settings(float("nan")),
    "threshold_negative": settings(0.5, -1.0),
    "threshold_infinite": settings(0.5, float("inf")),
    # nothing is wrong with these
    "settings_alone": settings(),
    "alpha_one": settings(1.0, 0.0) + GOOD[10:],
    "frame_length_15": GOOD + frame(0x100, [9], length=15),
    "fd_extended": GOOD + fd_frame(0x100, [9], flags=EXTENDED),
    "fd_length_0": GOOD + fd_frame(0x100, [9], length=0),
    "fd_length_64": GOOD + fd_frame(0x100, [9] * 64),
    "fd_bytes_after_the_length": GOOD + fd_frame(0x100, [9] + [255] * 63, length=1),
    "condition_zero": settings() + define(0x100, 0, 8, flags=CONDITION) + define(0x100, 0, 4, flags=MULTIPLEXOR) + frame(0x100, [0]),
}


def write(name, data):
    with open(os.path.join(HERE, name), "wb") as f:
        f.write(data)


write("document01.log", GOOD)
write("larger.log", b"".join(larger()))
write("empty.log", b"")
for made in (remote_lengths, remote_multiplexors, remote_between, fd_lengths, fd_signals, fd_multiplexors, fd_between, means_warming, means_past, means_among):
    write(f"{made.__name__}.log", b"".join(made()))
os.makedirs(os.path.join(HERE, "damaged"), exist_ok=True)
for name, data in DAMAGED.items():
    write(f"damaged/{name}.log", data)
