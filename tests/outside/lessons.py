"""The example days: scripts that tell a story in their comments. Two are of a lost lesson, one is of the sender."""

ROWS = [(0, 3, 5), (0, 1, 2, 3, 6), (2, 4, 7)]
CODE = "listed 3 8 " + " ".join(f"{r}:{c}" for r, row in enumerate(ROWS) for c in row)
BLOCK, YESTERDAY, TODAY = 12, 86400, 172800

MONDAY = ["Lab 2 08:00 Ito 9B", "Lab 2 09:00 Roy 8A", "Lab 2 10:00 Lie 7C", "Lab 2 11:00 Ito 9A", "Lab 2 12:00 Roy 8B"]
TUESDAY = ["Lab 2 08:00 Lie 7A", "Lab 2 09:00 Roy 8A", "Lab 2 10:00 Ito 9B", "Lab 2 11:00 Lie 7A", "Lab 2 12:00 Roy 8B"]
# when each booking was made, read off the digits: month, day, hour, minute
MADE = [0x11161530, 0x11170805, 0x11170950, 0x11161210, 0x11171420]


def cell(text):
    return int.from_bytes(text.encode().ljust(64, b"\0"), "big")


def whole(bookings):
    """The bookings and the three repair symbols that keep the parity checks."""
    sent = list(bookings)
    for *places, _ in ROWS:
        total = 0
        for place in places:
            total ^= sent[place]
        sent.append(total)
    return sent


def packet(place, symbol):
    return f"{BLOCK << 20 | place:08x}{symbol:0128x}"


def packets(stamp, texts, places):
    """A packet for each place, its text above it."""
    sent, lines = whole(map(cell, texts)), []
    for place in places:
        lines += [f"# {place}: {texts[place] if place < len(texts) else 'a repair packet'}", f"packet {stamp} {packet(place, sent[place])}"]
    return lines


def lost_lesson():
    sent = whole(map(cell, TUESDAY))
    heard = [1, 2, 4, 5, 6, 7]
    return [
        "# The lost lesson. The panel at the door of Lab 2 hears eight packets a night: five bookings (0 to 4) and three",
        "# repair packets (5 to 7). It can never ask for one again. A repair packet is made of bookings, by this code:",
        "# 5 of the bookings 0 and 3, 6 of 0, 1, 2 and 3, and 7 of 2 and 4. A repair packet is no text to read.",
        f"code {CODE}",
        "",
        "# Monday. The panel is new, and hears six of the eight packets. Bookings 0 and 4 are lost in the air.",
        f"open {BLOCK} {YESTERDAY} 8",
        *packets(YESTERDAY, MONDAY, [1, 2, 3, 5, 6, 7]),
        "figure",
        "",
        "# The packets heard settle the two lost ones: there is just one grid that fits. The panel may draw it.",
        "solve",
        "show 0",
        "grid",
        "",
        "# In the evening the permit goes back, and the panel can draw nothing more.",
        "close",
        "show 0",
        "",
        "# Tuesday, with the same panel. All of Monday's packets go, and a new night's come in. Bookings 0 and 3 are lost.",
        f"renew {TODAY}",
        *packets(TODAY, TUESDAY, heard),
        "figure",
        "",
        "# What was heard tells how 0 and 3 differ, but neither of them: more than one grid fits. A careless panel would",
        "# keep Monday's lesson at 08:00 (Ito 9B), work out the same for 11:00, find that every check is met, and draw two",
        "# lessons that nobody booked; 7A would stand before a door that does not know them. This one answers by refusal 14:",
        "# a booking is open (shortfall 1). There is no permit, and no lesson is drawn, only which packets came.",
        "solve",
        "show 0",
        "grid",
        "",
        "# A second panel, fresh from its box, hears the same packets in one go. It never knew Monday, and answers alike.",
        "use 2",
        f"open {BLOCK} {TODAY} 8",
        f"run {TODAY} {''.join(packet(place, sent[place]) for place in heard)}",
        "solve",
        "grid",
        "",
        "# An old packet of Monday's does not help, and is not taken.",
        "use 1",
        *packets(YESTERDAY, MONDAY, [3]),
        "",
        "# One more packet of Tuesday's comes late, and settles it: 7A has Lab 2 at 11:00, so the lost lesson at 08:00 is theirs.",
        *packets(TODAY, TUESDAY, [3]),
        "solve",
        "show 0",
        "grid",
        "",
        "# That permit is the first panel's alone: the second still has nothing to show, and is not shown anything under it.",
        "use 2",
        "show 0",
        "show 0 1",
        "",
        "# A slip of the pen is told, and the day goes on. At the end the first panel's permit is taken back by itself.",
        "shwo 0",
        "figure",
    ]


def booking_times():
    sent = whole(cell(text) << 32 | made for text, made in zip(TUESDAY, MADE))

    def receive(stamp, place, symbol):
        about = f"{TUESDAY[place]}, made {symbol & 0xFFFFFFFF:08x}" if place < len(TUESDAY) else "a repair packet"
        return [f"# {place}: {about}", f"receive {BLOCK} {stamp} {place} {symbol >> 32:0128x}:{symbol & 0xFFFFFFFF:08x}"]

    first = [line for place in (1, 2, 4, 5, 6, 7, 3) for line in receive(TODAY, place, sent[place])]
    altered = {**dict(enumerate(sent)), 1: sent[1] ^ 0x0805 ^ 0x0850}
    second = [line for place in (1, 2, 3, 4, 5, 6, 7) for line in receive(TODAY + 1, place, altered[place])]
    return [
        "# Booking times. In edition three each symbol is a cell and a word, the time at which the booking was made; the",
        "# host hands both in. The digits of a word are read as month, day, hour and minute: 11161530 is 16 November, 15:30.",
        "symbols dated",
        f"code {CODE}",
        "",
        "# Tuesday's bookings for Lab 2, without number 0.",
        f"open {BLOCK} {TODAY} 8",
        *first,
        "",
        "# The code gives back the lost lesson and its booking time.",
        "solve",
        "show 0",
        "grid",
        "close",
        "",
        "# A second later all is handed in again, but the host mistakes the time of number 1: 08:50 in place of 08:05. The",
        "# lessons would fit, the times do not: no grid fits what was handed in (refusal 13), and no lesson is drawn.",
        f"renew {TODAY + 1}",
        *second,
        "solve",
        "show 0",
        "grid",
        "",
        "# Bytes from the air have no room for a time: packets are for cells alone.",
        f"packet {TODAY + 1} -",
    ]


BOOKINGS = [
    "Lab 1  08:15-09:45  Physics 3a  Mr Moen",
    "Lab 2  09:00-10:30  Chemistry 2b  Ms Aune",
    "Lab 2  10:45-12:15  Chemistry 1c  Ms Aune",
    "Lab 3  12:30-14:00  Biology 2a  Dr Lie",
    "Lab 3  14:15-15:00  Parents' evening, set-up",
    "Workshop  08:15-11:00  Robotics  Mr Haug",
    "Workshop  12:30-15:00  closed for inspection",
]


def sender():
    cells = [text.encode().ljust(64).hex() for text in BOOKINGS]

    def header(place):
        return f"{BLOCK << 20 | place:08x}"

    return [
        "# A day at the laboratory wing. Block 12 has a packet for each booking; a cell holds its text, filled up with spaces.",
        "",
        "# The sender writes the packets.",
        *(line for place, text in enumerate(BOOKINGS) for line in (f"# {text}", f"write {BLOCK} {place} {cells[place]}")),
        "",
        "# A panel hears two of them, and a piece of a third.",
        *(f"read {header(place)}{cells[place]}" for place in (1, 4)),
        f"read {header(5)}{cells[5][:40]}",
        "figure 2 7",
        "",
        "# Numbers that no header holds, and a slice that is too long.",
        f"write 4096 0 {cells[0]}",
        f"write {BLOCK} 1048576 {cells[0]}",
        f"write {BLOCK} 7 {cells[0]} 70",
        "",
        "# A slip of the pen.",
        "raed 00c00001",
    ]


def scripts():
    days = {"session": lost_lesson, "dated": booking_times, "lab": sender}
    return {name: "".join(line + "\n" for line in made()).encode() for name, made in days.items()}
