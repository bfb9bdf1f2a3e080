"""A channel for threads in which the most urgent message comes out first, over a proved core.

    channel = Channel(10)
    channel.put("tidy up", 1)
    channel.put("put out the fire", 9)
    message, priority = channel.get()

The calls have the shape of `queue.PriorityQueue`, but the greatest priority comes first, and
messages need no order: they may be any objects. A priority is an int of 128 bits, or a pair of ints
of 64 bits each.

The core keeps the order, the limit, the close, the held places and the lists of waiters. This
module keeps the messages and has the lock; it is tested, and not proved. `library` is the path of
the shared library, by default `libpriority_channel.so` beside this file.
"""

import ctypes
import os
import queue
import threading
import time

__all__ = ["Channel", "Closed", "Empty", "Full"]

Full, Empty = queue.Full, queue.Empty

DONE, FULL, EMPTY, CLOSED, MEMORY, PENDING = range(6)

_WORD = 1 << 64


class Closed(Exception):
    """The channel is closed: it accepts nothing, or nothing will come."""


class _Handle(ctypes.Structure):
    _fields_ = [("at", ctypes.c_void_p)]


class _Priority(ctypes.Structure):
    _fields_ = [("high", ctypes.c_uint64), ("low", ctypes.c_uint64)]


class _Reply(ctypes.Structure):
    _fields_ = [
        ("code", ctypes.c_uint32),
        ("has_due", ctypes.c_bool),
        ("ticket", ctypes.c_uint64),
        ("message", ctypes.c_uint64),
        ("priority", _Priority),
    ]


class _Waiter(ctypes.Structure):
    _fields_ = [
        ("waker", ctypes.c_uint64),
        ("has_ticket", ctypes.c_bool),
        ("ticket", ctypes.c_uint64),
    ]


# What each call takes beside the handle and the place for it, and what it returns.
_CALLS = {
    "apc_try_send": ([ctypes.c_uint64, _Priority], _Reply),
    "apc_try_recv": ([], _Reply),
    "apc_poll_send": ([ctypes.c_uint64, _Priority, _Waiter], _Reply),
    "apc_poll_recv": ([_Waiter], _Reply),
    "apc_give_up": ([ctypes.c_uint64], _Reply),
    "apc_try_lease": ([], _Reply),
    "apc_put": ([ctypes.c_uint64, _Priority], _Reply),
    "apc_free_place": ([], _Reply),
    "apc_take_message": ([ctypes.c_uint64], _Reply),
    "apc_change_priority": ([ctypes.c_uint64, _Priority], _Reply),
    "apc_close": ([], _Reply),
    "apc_close_when_done": ([], _Reply),
    "apc_free": ([], ctypes.c_uint32),
    "apc_next_due": ([ctypes.POINTER(ctypes.c_uint64)], ctypes.c_bool),
    "apc_len": ([], ctypes.c_uint64),
    "apc_is_full": ([], ctypes.c_bool),
    "apc_is_closed": ([], ctypes.c_bool),
}


def _load(path):
    library = ctypes.CDLL(path)
    for name, (arguments, result) in _CALLS.items():
        call = getattr(library, name)
        call.argtypes = [_Handle, ctypes.POINTER(_Handle), *arguments]
        call.restype = result
    library.apc_open_bounded.argtypes = [ctypes.POINTER(_Handle), ctypes.c_uint64]
    library.apc_open_bounded.restype = ctypes.c_uint32
    return library


def _words(priority):
    """The key of a priority: the core compares these."""
    if isinstance(priority, tuple):
        high, low = priority
        key = (_half(high) << 64) | _half(low)
    else:
        key = priority + (1 << 127)
        if not 0 <= key < 1 << 128:
            raise OverflowError("a priority has 128 bits")
    return _Priority(key >> 64, key % _WORD)


def _half(number):
    half = number + (1 << 63)
    if not 0 <= half < _WORD:
        raise OverflowError("each number of a pair has 64 bits")
    return half


class Channel:
    """A channel for at most `maxsize` pending messages; without a limit if that is 0 or less."""

    def __init__(self, maxsize=0, library=None):
        beside = os.path.join(os.path.dirname(os.path.abspath(__file__)), "libpriority_channel.so")
        self._library = _load(library or beside)
        self._handle = _Handle()
        self._lock = threading.Lock()
        # Messages with their priorities, and who waits, under numbers that the core has.
        self._pairs, self._waiting = {}, {}
        self._next_message = self._next_waker = 0
        capacity = min(maxsize, _WORD - 1) if maxsize > 0 else _WORD - 1
        if self._library.apc_open_bounded(self._handle, capacity) != DONE:
            raise MemoryError("no memory for a channel")

    def __del__(self):
        # A channel that did not open has nothing to free.
        if getattr(self, "_handle", _Handle()).at:
            self._call("apc_close")
            self._wake()
            self._call("apc_free")

    def _call(self, name, *arguments):
        # The open handle goes in by value, and comes back into an empty place.
        opened, self._handle = self._handle, _Handle()
        return getattr(self._library, name)(opened, self._handle, *arguments)

    def _wake(self):
        waker = ctypes.c_uint64()
        while self._call("apc_next_due", waker):
            # An event's `set` takes its own lock alone, so it may be called under ours.
            self._waiting[waker.value].set()

    def _told(self, reply):
        if reply.has_due:
            self._wake()
        return reply

    def _wait(self, attempt, block, timeout):
        """Polls by `attempt` until the reply is not PENDING; None if the time is over."""
        deadline = None if timeout is None else time.monotonic() + timeout
        event = threading.Event()
        waiter = None
        try:
            while True:
                event.clear()
                with self._lock:
                    if waiter is None:
                        waiter = _Waiter(self._next_waker, False, 0)
                        self._next_waker += 1
                        self._waiting[waiter.waker] = event
                    reply = self._told(attempt(waiter))
                    if reply.code != PENDING:
                        return reply
                    waiter.has_ticket, waiter.ticket = True, reply.ticket
                left = None if deadline is None else deadline - time.monotonic()
                if not block or (left is not None and left <= 0):
                    return None
                event.wait(left)
        finally:
            if waiter is not None:
                with self._lock:
                    if waiter.has_ticket:
                        self._call("apc_give_up", waiter.ticket)
                    del self._waiting[waiter.waker]

    def put(self, message, priority=0, block=True, timeout=None):
        """Sends a message. Full if there is no room, for `timeout` seconds or, without `block`,
        now; Closed; MemoryError. What is refused was not sent."""
        if not block:
            timeout = None
        words = _words(priority)
        with self._lock:
            number = self._next_message
            self._next_message += 1
            self._pairs[number] = (message, priority)
            try:
                reply = self._told(self._call("apc_try_send", number, words))
            except BaseException:
                del self._pairs[number]
                raise
        code = reply.code
        try:
            if code == FULL and block:
                send = lambda waiter: self._call("apc_poll_send", number, words, waiter)
                reply = self._wait(send, block, timeout)
                code = FULL if reply is None else reply.code
        finally:
            if code != DONE:
                self._pairs.pop(number, None)
        if code != DONE:
            raise {FULL: Full, CLOSED: Closed}.get(code, MemoryError)

    def get(self, block=True, timeout=None):
        """Receives the most urgent message, and among equals the first, with its priority. Empty
        if nothing comes, for `timeout` seconds or, without `block`, now; Closed."""
        if not block:
            with self._lock:
                return self._received(self._told(self._call("apc_try_recv")))
        reply = self._wait(lambda waiter: self._call("apc_poll_recv", waiter), block, timeout)
        if reply is None:
            raise Empty
        with self._lock:
            return self._received(reply)

    def _received(self, reply):
        if reply.code == DONE:
            return self._pairs.pop(reply.message)
        raise {EMPTY: Empty, CLOSED: Closed}.get(reply.code, MemoryError)

    def lease(self, block=True, timeout=None):
        """Receives a message whose place stays held, for a `with`: at its end the message is done,
        and after an exception it goes back, behind its equals. Raises as `get`."""

        def attempt(waiter):
            leased = self._call("apc_try_lease")
            # In an empty channel a poll lists the caller.
            return self._call("apc_poll_recv", waiter) if leased.code == EMPTY else leased

        reply = self._wait(attempt, block, timeout)
        if reply is None:
            raise Empty
        if reply.code != DONE:
            raise {CLOSED: Closed}.get(reply.code, MemoryError)
        return _Lease(self, reply.message, reply.priority)

    def change_priority(self, message, priority):
        """Gives a pending message, the same object, another priority. False if there is none."""
        words = _words(priority)
        with self._lock:
            for number, (pending, _) in self._pairs.items():
                if pending is message:
                    if self._call("apc_change_priority", number, words).code == DONE:
                        self._pairs[number] = (message, priority)
                        return True
        return False

    def close(self):
        """Closes the channel for good. True if it was open. What is pending can still be got."""
        with self._lock:
            return self._told(self._call("apc_close")).code == DONE

    def close_when_done(self):
        """From now on the channel closes once nothing is pending or leased."""
        with self._lock:
            self._told(self._call("apc_close_when_done"))

    @property
    def closed(self):
        """Whether the channel is closed."""
        with self._lock:
            return self._call("apc_is_closed")

    def qsize(self):
        """The number of pending messages."""
        with self._lock:
            return self._call("apc_len")

    def empty(self):
        """Whether nothing is pending."""
        return self.qsize() == 0

    def full(self):
        """Whether there is no room."""
        with self._lock:
            return self._call("apc_is_full")

    def __iter__(self):
        """Receives until the channel is closed and empty."""
        while True:
            try:
                yield self.get()
            except Closed:
                return


class _Lease:
    """A message in hand. Until `done` or `put_back` its place is held."""

    def __init__(self, channel, number, words):
        self._channel, self._number, self._words = channel, number, words
        with channel._lock:
            self.message, self.priority = channel._pairs[number]

    def __enter__(self):
        return self.message

    def __exit__(self, kind, error, trace):
        if kind is None:
            self.done()
        else:
            self.put_back()

    def _spend(self):
        if self._number is None:
            raise ValueError("the lease has ended")
        number, self._number = self._number, None
        return number

    def done(self):
        """The message is done, and its place comes free."""
        number, channel = self._spend(), self._channel
        with channel._lock:
            del channel._pairs[number]
            channel._told(channel._call("apc_free_place"))

    def put_back(self):
        """The message is pending again, behind its equals, also in a closed channel."""
        number, channel = self._spend(), self._channel
        with channel._lock:
            channel._told(channel._call("apc_put", number, self._words))
