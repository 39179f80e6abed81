"""The time limits of a service: each is kept, and nobody is dropped without one."""
import select
import time

from harness.case import Checks, expect
from harness.hosts import (
    DO,
    ENTER,
    FIRST_WRITE,
    FUNCTIONS_IS,
    FUNCTIONS_REQUEST,
    INV_DEVICE_TYPE,
    MOST_CONNECTIONS,
    NEXT_WRITE,
    NOP,
    Server,
    WILL,
    device_type,
    event,
    in_seconds,
    until,
)

check = Checks()
cases = check.cases

# ---- time limits


# What a client says until it is bound.
NEGOTIATION = WILL + device_type(7, None) + FUNCTIONS_REQUEST


@check
def a_negotiation_that_stalls_is_dropped():
    """A client that stops at any byte of the negotiation is dropped after the limit, and others are
    served meanwhile."""
    with Server("serve", "--negotiate", "2") as host:
        bound = host.client().signs_on("PNL01")
        stalled = [host.client() for _ in NEGOTIATION]
        for count, client in enumerate(stalled):
            client.says(NEGOTIATION[:count])
            client.hears(DO)
        bound.enters()
        def all_end():
            for client in stalled:
                while client.more():
                    pass
        in_seconds(1, 10, "all end", all_end)
        bound.enters()
        until(
            "its log",
            lambda: len([it for it in host.events() if it.endswith("event=no-agreement")]) == len(
                stalled
            ),
        )
        host.client().signs_on("PNL02").enters()
        time.sleep(2.2)
        bound.enters()


@check
def silent_clients_make_room_again():
    """64 clients that say nothing are dropped after the limit; until then one more is turned
    away."""
    with Server("serve", "--negotiate", "1") as host:
        silent = [host.client() for _ in range(MOST_CONNECTIONS)]
        for client in silent:
            client.hears(DO)
        host.client().hears_the_end()
        for client in silent:
            client.hears_the_end()
        host.client().signs_on("PNL01").enters()
        expect(
            "are dropped",
            sum(it.endswith("event=no-agreement") for it in host.events()),
            MOST_CONNECTIONS,
        )


@check
def a_silent_client_is_kept_alive():
    """A bound client that is silent hears NOP each time the limit passes, goes on afterwards, and
    one that negotiates hears none."""
    with Server("serve", "--keepalive", "1") as host:
        client, talking = host.client().signs_on("PNL01"), host.client()
        talking.is_asked()
        client.hears_nop()
        for _ in range(2):
            in_seconds(0.8, 3, "NOP comes", client.hears_nop)
        client.enters()
        talking.says(NOP)
        expect(
            "one that negotiates hears",
            bool(select.select([talking.socket], [], [], 1.5)[0]),
            False,
        )


@check
def an_idle_client_is_dropped():
    """A client that says nothing for as long as the limit is dropped at any moment of its session;
    one that says something isn't."""
    with Server("serve", "--idle", "2", lus=[f"LU{it}" for it in range(8)]) as host:
        other = host.client().signs_on("LU0")
        silent, bound, entered = host.client(), host.client().signs_on(
            "LU1"
        ), host.client().signs_on("LU2")
        entered.enters()
        inside = host.client().signs_on("LU3")
        inside.says(b"\x00\x00\x00\x00\x00", ENTER[:3])
        for _ in range(5):
            time.sleep(0.5)
            other.says(NOP)
        for client in (silent, bound, entered, inside):
            client.came(1 << 16)
        until("its log", lambda: sum("event=idle" in it for it in host.events()) == 4)
        other.enters()
        host.client().signs_on("LU1").enters()
        ends = [it for it in host.events() if "event=idle" in it]
        expect(
            "ends",
            sorted(ends),
            sorted(
                [
                    event(1, silent, "idle"),
                    *(
                        event(*it)
                        for it in (
                            (2, bound, "idle turns=0"),
                            (3, entered, "idle turns=1"),
                            (4, inside, "idle turns=0"),
                        )
                    ),
                ]
            ),
        )


@check
def a_paint_under_way_is_no_idleness():
    """A client that takes longer than the limit to confirm a screen isn't dropped; it is, as long
    after that as the limit says."""
    with Server("serve", "--idle", "1") as host:
        slow = host.client()
        slow.is_asked()
        slow.asks_for(None)
        slow.hears(device_type(4, "PNL01"))
        slow.says(FUNCTIONS_REQUEST)
        slow.hears(FUNCTIONS_IS, FIRST_WRITE)
        time.sleep(2.2)
        slow.takes_write()
        slow.says(b"\x00\x00\x00\x00\x00", ENTER)
        slow.hears(b"\x00\x00\x02", slow.writes.to_bytes(2, "big"), NEXT_WRITE)
        time.sleep(2.2)
        slow.takes_write()
        in_seconds(0.8, 3, "it is dropped", slow.hears_the_end)
        until("its log", lambda: host.events()[-1] == event(0, slow, "idle turns=1"))


@check
def without_limits_nobody_is_dropped():
    """A limit of 0 seconds is none."""
    with Server("serve", "--negotiate", "0", "--keepalive", "0", "--idle", "0") as host:
        client, silent = host.client().signs_on("PNL01"), host.client()
        silent.hears(DO)
        client.hears_nop()
        time.sleep(2)
        expect(
            "hear something",
            bool(select.select([client.socket, silent.socket], [], [], 0)[0]),
            False,
        )
        client.enters()


@check
def it_serves_whether_or_not_its_log_can_be_written():
    """Lines of the log that can't be written are left out."""
    with open("/dev/full", "wb") as full, Server("serve", log=full) as host:
        host.client().signs_on("PNL01").leaves()
        client = host.client()
        client.is_asked()
        client.says(device_type(7, None, "X"))
        client.hears(INV_DEVICE_TYPE)
        client.asks_for("PNL02")
        client.is_bound("PNL02")
        client.enters()
