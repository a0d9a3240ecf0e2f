"""Hands the paper's example events, and some of every other kind, to the gate by ctypes, lists the answers and reads a customer's desk;
then asks for the price of an auction, with the volume at the price of each of its orders, and keeps it current while orders come and go.

The archive as a shared object, from the project's root; then this program:

    cc -shared -o target/libguvontsira.so -Wl,--whole-archive target/staticlib/libguvontsira.a -Wl,--no-whole-archive
    python3 examples/python/day.py [libguvontsira.so]
"""

import ctypes
import pathlib
import struct
import sys

VERSION = 40300  # GUVONTSIRA_VERSION of include/guvontsira.h, whose numbers stand here too

CLOCK, SESSION, SETUP, PRICES, ORDER, CANCEL, MATCH, REST, FIGURES = range(1, 10)
CLOSED, PRE_OPEN, OPEN, BREAK, PRE_CLOSE = range(5)
MAIN, FOREIGN = range(2)
BUY, SELL = range(2)
LIMIT, ATO, ATC, MP = range(4)
FRONT_OFFICE, ONLINE, DMA = range(3)
FREE, OPEN_ROW, CANCELLED = range(3)

# The bytes of each kind: little-endian, without gaps.
FORMATS = {
    CLOCK: "<BI",
    SESSION: "<BB",
    SETUP: "<BHBBBII",
    PRICES: "<BHBIIII",
    ORDER: "<BHIHBBBBII",
    CANCEL: "<BHI",
    MATCH: "<BHII",
    REST: "<BHII",
    FIGURES: "<BHIIHH",
}

HEADER_WORDS, SECURITY_WORDS, DESK_WORDS, ROW_WORDS, DESK_ROWS = 4, 17, 291, 9, 32

MAX_AUCTION_ORDERS = 1024

Words = ctypes.POINTER(ctypes.c_uint32)


class AuctionOrder(ctypes.Structure):
    """The price is 0 for ATO or ATC."""

    _fields_ = [("side", ctypes.c_uint32), ("price", ctypes.c_uint32), ("volume", ctypes.c_uint32)]


class AuctionAnswer(ctypes.Structure):
    _fields_ = [("volume", ctypes.c_uint64), ("price", ctypes.c_uint32), ("refusal", ctypes.c_uint32)]


# Lent to every auction, two for the sums at the price of each order, or one for the volumes there.
Scratch = ctypes.c_uint64 * MAX_AUCTION_ORDERS


def load(path):
    library = ctypes.CDLL(path)
    library.guvontsira_version.argtypes = []
    library.guvontsira_version.restype = ctypes.c_uint32
    # First, since another release need not have the functions below.
    version = library.guvontsira_version()
    if version != VERSION:
        raise SystemExit(f"{path} is release {version}, and this program was written for {VERSION}")
    library.guvontsira_make.argtypes = [Words, ctypes.c_size_t, ctypes.c_uint32, ctypes.c_uint32]
    library.guvontsira_make.restype = ctypes.c_uint32
    # A bytes object lends its own memory, which the gate only reads.
    library.guvontsira_handle.argtypes = [Words, ctypes.c_size_t, ctypes.c_char_p, ctypes.c_size_t]
    library.guvontsira_handle.restype = ctypes.c_uint32
    for name in ("floor", "ceiling"):
        function = getattr(library, f"guvontsira_{name}")
        function.argtypes = [Words, ctypes.c_size_t, ctypes.c_uint32]
        function.restype = ctypes.c_uint32
    orders = [ctypes.POINTER(AuctionOrder), ctypes.c_size_t]
    scratch = [ctypes.POINTER(ctypes.c_uint64), ctypes.c_size_t]
    library.guvontsira_auction.argtypes = [*orders, ctypes.c_uint32, *scratch, *scratch]
    library.guvontsira_auction.restype = AuctionAnswer
    library.guvontsira_auction_volumes.argtypes = [*orders, ctypes.c_uint32, *scratch]
    library.guvontsira_auction_volumes.restype = AuctionAnswer
    held = [*orders, ctypes.POINTER(ctypes.c_size_t)]
    library.guvontsira_auction_add.argtypes = [*held, AuctionOrder, ctypes.c_uint32, *scratch]
    library.guvontsira_auction_add.restype = AuctionAnswer
    library.guvontsira_auction_take.argtypes = [*held, ctypes.c_size_t, ctypes.c_uint32, *scratch]
    library.guvontsira_auction_take.restype = AuctionAnswer
    return library


def text(answer):
    """The words of the day program's listing."""
    if answer == 0:
        return "ok"
    if answer < 100:
        return f"refused {answer}"
    if answer < 200:
        return "accept" if answer == 100 else f"warn {answer - 100}"
    return "reject " + chr(ord("A") - 1 + answer - 200)


class State:
    """The lent words of one trading day. One call at a time: the gate locks nothing."""

    def __init__(self, library, customers, securities):
        self.library, self.securities = library, securities
        self.words = (ctypes.c_uint32 * (HEADER_WORDS + SECURITY_WORDS * securities + DESK_WORDS * customers))()
        answer = library.guvontsira_make(self.words, len(self.words), customers, securities)
        if answer != 0:
            raise ValueError(text(answer))

    def send(self, kind, *fields):
        event = struct.pack(FORMATS[kind], kind, *fields)
        return self.library.guvontsira_handle(self.words, len(self.words), event, len(event))

    def desk(self, customer):
        """The three counters, and the marked rows in order of acceptance."""
        start = HEADER_WORDS + SECURITY_WORDS * self.securities + DESK_WORDS * customer
        words = self.words[start : start + DESK_WORDS]
        rows = [words[3 + ROW_WORDS * row :][:ROW_WORDS] for row in range(DESK_ROWS)]
        return words[:3], [row for row in rows if row[0] != FREE]

    def floor_and_ceiling(self, security):
        """The range of the day in satang; 0 and 0 for a security without one."""
        lent = self.words, len(self.words), security
        return self.library.guvontsira_floor(*lent), self.library.guvontsira_ceiling(*lent)


def given(answer):
    """The price in satang and its volume; 0 and 0 if there is none."""
    if answer.refusal != 0:
        raise ValueError(text(answer.refusal))
    return answer.price, answer.volume


def auction(library, orders, reference):
    lent = (AuctionOrder * len(orders))(*orders)
    buyers, sellers = Scratch(), Scratch()
    return given(library.guvontsira_auction(lent, len(lent), reference, buyers, len(buyers), sellers, len(sellers)))


def auction_volumes(library, orders, reference):
    """The same, and the volume at the price of each order; 0 for ATO or ATC."""
    lent = (AuctionOrder * len(orders))(*orders)
    volumes = Scratch()
    answer = library.guvontsira_auction_volumes(lent, len(lent), reference, volumes, len(volumes))
    return given(answer), volumes[: len(orders)]


class CurrentAuction:
    """A list of orders with its count, and its price after each call."""

    def __init__(self, library):
        self.library = library
        self.orders = (AuctionOrder * MAX_AUCTION_ORDERS)()
        self.count = ctypes.c_size_t(0)
        self.scratch = Scratch()

    def add(self, order, reference):
        """Adds the order at the end."""
        return given(self.library.guvontsira_auction_add(*self._list(), AuctionOrder(*order), reference, *self._volumes()))

    def take(self, place, reference):
        """Takes out the order at the place, from 0, and closes the gap."""
        return given(self.library.guvontsira_auction_take(*self._list(), place, reference, *self._volumes()))

    def volumes(self):
        return self.scratch[: self.count.value]

    def _list(self):
        return self.orders, len(self.orders), ctypes.byref(self.count)

    def _volumes(self):
        return self.scratch, len(self.scratch)


DAY = [
    (SESSION, OPEN),
    (PRICES, 0, MAIN, 0, 5000, 4975, 5025),
    (ORDER, 0, 1, 0, MAIN, BUY, LIMIT, ONLINE, 5000, 100),
    (ORDER, 0, 2, 0, MAIN, SELL, LIMIT, ONLINE, 5000, 100),
    (CANCEL, 0, 1),
    (CANCEL, 0, 1),
    (CLOCK, 36_000_000),
    (SETUP, 1, 50, 0, 0, 2450, 0),
    (ORDER, 0, 3, 1, FOREIGN, SELL, LIMIT, DMA, 2450, 150),
    (MATCH, 0, 3, 50),
    (CANCEL, 0, 3),
    (ORDER, 0, 4, 1, FOREIGN, SELL, LIMIT, DMA, 2460, 200),
    # A market-price order, matched in part at 50.25; what is left stands in the book a step past that.
    (ORDER, 0, 5, 0, MAIN, BUY, MP, ONLINE, 0, 300),
    (MATCH, 0, 5, 100),
    (REST, 0, 5, 5050),
    (ORDER, 0, 6, 0, MAIN, SELL, LIMIT, ONLINE, 5050, 100),
    # A right has gone: for 2 old shares, 3 new ones at 10.00.
    (SETUP, 2, 100, 0, 0, 15000, 0),
    (FIGURES, 2, 0, 1000, 2, 3),
    (ORDER, 1, 1, 2, MAIN, BUY, LIMIT, FRONT_OFFICE, 8600, 100),
    (ORDER, 1, 1, 2, MAIN, BUY, LIMIT, FRONT_OFFICE, 8575, 100),
]

# The book that source document 003 prints.
BOOK = [(BUY, 4900, 900), (BUY, 4800, 300), (SELL, 4900, 400), (SELL, 5200, 4400), (SELL, 0, 600)]


def main():
    root = pathlib.Path(__file__).resolve().parents[2]
    path = sys.argv[1] if len(sys.argv) > 1 else str(root / "target" / "libguvontsira.so")
    library = load(path)
    state = State(library, 8, 16)
    print("screen 8 16")
    for index, (kind, *fields) in enumerate(DAY):
        print(index, kind, text(state.send(kind, *fields)))
    counters, rows = state.desk(0)
    print("accepted {}, warned {}, rejected {}".format(*counters))
    for mark, number, security, board, side, order_type, price, volume, cancel_time in rows:
        what = "open" if mark == OPEN_ROW else f"cancelled at {cancel_time} ms"
        print(f"order {number}: security {security}, {'sell' if side == SELL else 'buy'} {volume} at {price / 100:.2f}, {what}")
    floor, ceiling = state.floor_and_ceiling(2)
    print(f"security 2: floor {floor / 100:.2f}, ceiling {ceiling / 100:.2f}")
    price, volume = auction(library, BOOK, 0)
    print(f"auction: price {price / 100:.2f}, volume {volume}")
    (price, volume), volumes = auction_volumes(library, BOOK, 0)
    print(f"with one scratch list: price {price / 100:.2f}, volume {volume}; at the orders' places {volumes}")
    current = CurrentAuction(library)
    for order in BOOK:
        price, volume = current.add(order, 0)
    print(f"kept current: price {price / 100:.2f}, volume {volume}; at the orders' places {current.volumes()}")
    price, volume = current.take(0, 0)
    print(f"without the buy at 49.00: price {price / 100:.2f}, volume {volume}; at the orders' places {current.volumes()}")
    try:
        current.take(4, 0)
    except ValueError as refusal:
        print(f"four orders are held, and none at place 4: {refusal}")


if __name__ == "__main__":
    main()
