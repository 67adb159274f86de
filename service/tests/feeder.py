"""Checks of the feeder: feeding, and being watched."""

import concurrent.futures
import re
import signal
import socket
import sys
import time
from collections.abc import Iterator

from tests.standing import FEED, SERVICE, Between, Desk, agrees, answers, every, free_address
from tests.standing import get, is_at, need, run, tree, wait_for
from tools.bitcoin import twice
from tools.checks import demand


@every.check("300 blocks are fed by REST, and hashes are asked for by the hundred")
def by_rest(desk: Desk) -> None:
    node, served = desk.node(300), desk.served()
    desk.feed_once(served, node)
    agrees(served, node)
    demand(node.asked.count("rest") == 300, "not every block came by REST, once")
    demand(node.asked.count("getblock") == 0, "a block came by JSON-RPC")
    demand(node.posts < 12, f"{node.posts} calls were sent")


@every.check("300 blocks are fed by JSON-RPC where the node lacks REST")
def by_calls(desk: Desk) -> None:
    node, served = desk.node(300, rest=False), desk.served()
    desk.feed_once(served, node)
    agrees(served, node)
    demand(node.asked.count("getblock") == 300, "not every block came once")
    demand(node.asked.count("rest") == 1, "REST was asked more than once")


@every.check("the next block is asked for while the index takes one")
def ahead(desk: Desk) -> None:
    node, served, seen = desk.node(20), desk.served(), list[int]()

    def meddle(number: int) -> None:
        time.sleep(0.1)
        seen.append(node.asked.count("rest") - number)

    between = Between(desk, served, meddle)
    desk.feed_once(between, node)
    agrees(served, node)
    demand(seen == [1] * 19 + [0], f"so many blocks were asked for before their turn: {seen}")


@every.check(
    "reorganisations of one block, of all that are kept and of one more, which is left alone"
)
def reorganisations(desk: Desk) -> None:
    node, served = desk.node(60), desk.served(depth=20)
    desk.feed_once(served, node)
    for back, on in ((1, 2), (20, 21), (3, 3)):
        node.turn(back, on)
        desk.feed_once(served, node)
        agrees(served, node)
    before = served.status()
    node.turn(21, 22)
    feed = desk.feed_once(served, node, 2)
    demand("no block there is kept" in feed.told(), feed.told())
    demand(served.status() == before, f"it was {before}, and is {served.status()}")


@every.check("a shorter chain with another block is followed")
def shorter(desk: Desk) -> None:
    node, served = desk.node(30), desk.served()
    desk.feed_once(served, node)
    node.turn(5, 1)
    desk.feed_once(served, node)
    agrees(served, node)


@every.check("a node that is behind is waited for")
def behind(desk: Desk) -> None:
    node, served = desk.node(30), desk.served()
    desk.feed_once(served, node)
    before, whole = served.status(), list(node.active)
    node.turn(25, 0)
    feed = desk.feed(served, node)
    wait_for(lambda: "behind the index" in feed.told(), "it tells that it waits")
    time.sleep(1.5)
    demand(served.status() == before, "something was taken back")
    demand(feed.told().count("behind") == 1, "it tells it more than once")
    node.active = whole
    node.extend(2)
    wait_for(lambda: is_at(served, node), "the index has the node's tip")
    feed.stops()
    agrees(served, node)


@every.check("feeder and program are killed six times each")
def killed(desk: Desk) -> None:
    node, served = desk.node(300), desk.served()
    for turn in range(6):
        feed = desk.feed(served, node)
        count = node.asked.count("rest")
        wait_for(lambda: node.asked.count("rest") >= count + 20 or is_at(served, node), "blocks")
        feed.kill()
    node.turn(40, 240)
    feed = desk.feed(served, node)
    for turn in range(6):
        count = node.asked.count("rest")
        wait_for(lambda: node.asked.count("rest") >= count + 30 or is_at(served, node), "blocks")
        served.kill()
        served.start()
    wait_for(lambda: is_at(served, node), "the index has the node's tip")
    feed.stops()
    agrees(served, node)


@every.check("each fifth reply to a command is lost, and no command is sent twice")
def lost_replies(desk: Desk) -> None:
    node, served = desk.node(40), desk.served()
    between = Between(desk, served, lambda number: "lose" if number % 5 == 0 else None)
    desk.feed_once(between, node)
    node.turn(12, 13)
    desk.feed_once(between, node)
    agrees(served, node)
    sent = [body for path, body in between.commands if path == "/connect"]
    demand(len(sent) == len(set(sent)) == 53, f"{len(sent)} blocks were sent")
    demand(len(between.commands) == 65, f"{len(between.commands)} commands were sent")


@every.check("503 to a command changes nothing, and is waited out")
def no_memory(desk: Desk) -> None:
    node, served = desk.node(10), desk.served()
    between = Between(desk, served, lambda number: "503" if number in (3, 4, 5, 8) else None)
    feed = desk.feed_once(between, node)
    agrees(served, node)
    demand(feed.told().count("no memory") == 2, f"it tells it otherwise: {feed.told()}")


@every.check("a person is needed: another first block, `mainnet` on one side, a pruned block")
def stuck(desk: Desk) -> None:
    node, served = desk.node(10), desk.served()
    desk.feed_once(served, node)
    before = served.status()
    other = desk.node()
    other.marks = 1000
    other.extend(20)
    wrong = desk.node(5, chain="main")
    mainnet = desk.served("mainnet", profile="mainnet")
    for feeder, cause in (
        (desk.feed(served, other, "--once"), "first block"),
        (desk.feed(served, wrong, "--once"), "the node's chain is main"),
        (desk.feed(mainnet, node, "--once"), "counts by mainnet"),
    ):
        feeder.ends(2)
        demand(cause in feeder.told(), feeder.told())
    for rest in (True, False):
        node.rest = rest
        node.extend(2)
        node.pruned = {node.active[-1]}
        feeder = desk.feed_once(served, node, 2)
        demand("thrown a block away" in feeder.told(), feeder.told())
        before["blocks"] += 1 if rest else 2
        demand(served.status()["blocks"] == before["blocks"], f"there is {served.status()}")
        node.pruned = set()


@every.check("a person is needed: a refused block")
def refused(desk: Desk) -> None:
    node, served = desk.node(3), desk.served()
    tip = bytes.fromhex(node.active[-1])[::-1]
    data = (1).to_bytes(4, "little") + tip + bytes(44) + b"\0"
    node.take((data, twice(data[:80]), [bytes(32)]))
    feeder = desk.feed_once(served, node, 2)
    demand("at height 3 was refused: 3 80" in feeder.told(), feeder.told())
    demand(served.status()["blocks"] == 3, f"there is {served.status()}")


@every.check("signals end it in two seconds: while it catches up, and while the node says nothing")
def signals(desk: Desk) -> None:
    node, served = desk.node(200), desk.served()
    between = Between(desk, served, lambda number: time.sleep(0.05))
    feed = desk.feed(between, node)
    wait_for(lambda: len(between.commands) >= 10, "ten commands")
    feed.stops()
    sent = len(between.commands)
    demand(served.status()["blocks"] == sent < 200, "a command under way was cut off")
    node.silent.clear()
    posts = node.posts
    try:
        feed = desk.feed(served, node)
        wait_for(lambda: node.posts > posts, "the feeder asks the node")
        feed.stops(signal.SIGINT)
    finally:
        node.silent.set()
    feed = desk.feed_once(served, node)
    agrees(served, node)
    feed = desk.feed(served, node)
    wait_for(lambda: "at the tip" in feed.told(), "it is at the tip")
    feed.stops()


@every.check(
    "a node that starts, is busy, is away, has another cookie or gives a wrong block is waited for"
)
def troubles(desk: Desk) -> None:
    node, served = desk.node(5), desk.served()
    feed = desk.feed(served, node)

    def passes(what: str, cause: str) -> Iterator[None]:
        wait_for(lambda: cause in feed.told(), f"{what}: it is told")
        yield
        node.extend(1)
        wait_for(lambda: is_at(served, node), f"{what}: it goes on")
        demand(feed.told().count(cause) == 1, f"{what}: it isn't told once: {feed.told()}")

    wait_for(lambda: is_at(served, node), "it is at the tip")
    node.warming = True
    for _ in passes("it starts", "Loading block index"):
        node.warming = False
    node.busy = 3
    for _ in passes("it is busy", "Work queue depth exceeded"):
        pass
    node.new_cookie()
    for _ in passes("another cookie", "status 401"):
        pass
    node.stop()
    for _ in passes("it is away", "refused"):
        node.start()
    node.extend(1)
    name = node.active[-1]
    node.wrong = {name: node.blocks[node.active[0]]}
    feed.kill()
    feed = desk.feed(served, node)
    for _ in passes("a wrong block", "is another"):
        node.wrong = {}
    node.cookie_file.unlink()
    feed.kill()
    feed = desk.feed(served, node)
    for _ in passes("no cookie", "No such file"):
        node.new_cookie()
    feed.stops()
    agrees(served, node)


@every.check("words that it doesn't know end it with 1, and the public door is no operator's")
def words(desk: Desk) -> None:
    node, served = desk.node(2), desk.served()
    cookie = str(node.cookie_file)
    sides = ["--ox", served.operator, "--node", node.address, "--cookie", cookie]
    rows: list[tuple[list[str], int]] = [
        ([], 1),
        (["--help"], 0),
        (sides[:4], 1),
        (["--ox", "nowhere", *sides[2:]], 1),
        ([*sides, "--follow"], 1),
        ([*sides, "--watch", served.public], 1),
    ]
    for given, wanted in rows:
        status, told = run(sys.executable, FEED, *given)
        demand(status == wanted, f"{given} ended with {status}: {told}")
    feed = desk.feed(served.public, node)
    wait_for(lambda: "operator's door?" in feed.told(), "it is told")
    time.sleep(1)
    demand(feed.told().count("operator's door?") == 1, feed.told())
    feed.stops()
    demand(served.status()["blocks"] == 0, f"there is {served.status()}")


@every.check("systemd is told readiness, state and life")
def notified(desk: Desk) -> None:
    node, served = desk.node(12), desk.served()
    place, told = desk.folder / "notify", list[str]()
    with socket.socket(socket.AF_UNIX, socket.SOCK_DGRAM) as wire:
        wire.bind(str(place))
        wire.settimeout(20)

        def listen() -> None:
            while "STOPPING=1" not in told:
                told.extend(wire.recv(1000).decode().split("\n"))

        with concurrent.futures.ThreadPoolExecutor(1) as pool:
            heard = pool.submit(listen)
            feed = desk.feed(served, node, env={"NOTIFY_SOCKET": str(place)})
            wait_for(lambda: is_at(served, node), "the index has the node's tip")
            # what the feeder tells of a block comes behind the block
            wait_for(lambda: "STATUS=12 blocks" in told, "the last block is told")
            feed.stops()
            heard.result()
    demand(told[0] == "READY=1" and "WATCHDOG=1" in told, f"it tells {told[:3]}")


def numbers_at(address: str) -> dict[str, float]:
    text = get(address, "/metrics")[2].decode()
    return {name: float(value) for name, value in re.findall(r"^(\w+) (\S+)$", text, re.M)}


@every.check("the numbers are those of what was done, and /ready turns within three seconds")
def watched(desk: Desk) -> None:
    node, served, address = desk.node(30), desk.served(), free_address()
    between = Between(desk, served)
    feed = desk.feed(between, node, "--watch", address)

    def turns(wanted: int, what: str) -> None:
        wait_for(lambda: answers(address, "/ready") == wanted, f"/ready is {wanted}: {what}", 3)

    wait_for(lambda: answers(address, "/ready") == 200, "/ready")
    node.turn(4, 6)
    wait_for(lambda: is_at(served, node), "the other chain")
    turns(200, "the other chain")
    wait_for(lambda: "ox_audit_balanced" in numbers_at(address), "an audit")
    numbers = numbers_at(address)
    sent = [body for path, body in between.commands if path == "/connect"]
    audit = tree(served.public, "/audit")
    wanted = {
        "ox_up": 1,
        "ox_node_up": 1,
        "ox_waits_total": 0,
        "ox_node_waits_total": 0,
        "ox_blocks": 32,
        "ox_node_blocks": 32,
        "ox_kept": 32,
        "ox_depth": 100,
        "ox_at_tip": 1,
        "ox_tip_time_seconds": 31,
        "ox_connects_total": 36,
        "ox_connect_bytes_total": sum(map(len, sent)),
        "ox_disconnects_total": 4,
        "ox_reorganisations_total": 1,
        "ox_audit_balanced": 1,
    }
    for name, value in wanted.items():
        demand(numbers[name] == value, f"{name} is {numbers[name]}, and not {value}")
    demand(numbers["ox_audit_claimable"] <= audit["claimable"], "the audit is another")
    demand(between.paths.count("/audit") == 1, "the audit is asked more than once in ten minutes")
    demand(answers(address, "/other") == 404, "another path is answered")
    node.warming = True
    turns(503, "the node starts")
    node.warming = False
    turns(200, "the node has started")
    served.kill()
    turns(503, "the program is gone")
    served.start()
    turns(200, "the program is back")
    demand(numbers_at(address)["ox_waits_total"] > 0, "no wait was counted")
    feed.stops()


@every.check("Prometheus reads the numbers, and the rules pass their tests")
def rules(desk: Desk) -> None:
    need("prometheus")
    node, served, address = desk.node(3), desk.served(), free_address()
    feed = desk.feed(served, node, "--watch", address, "--audit", "1")
    wait_for(lambda: answers(address, "/ready") == 200, "/ready")
    wait_for(lambda: "ox_audit_balanced" in numbers_at(address), "an audit")
    status, told = run("promtool", "check", "metrics", input=get(address, "/metrics")[2])
    demand(status == 0 and not told.strip(), f"`promtool check metrics` tells {told}")
    feed.stops()
    named = set(re.findall(r"\box_\w+", (SERVICE / "alerts.yml").read_text()))
    demand(named - {"ox_feed"} <= numbers_of_feed(), f"the rules name {named}")
    for words in (["check", "rules", "alerts.yml"], ["test", "rules", "alerts_test.yml"]):
        status, told = run("promtool", *words, cwd=SERVICE)
        demand(status == 0, f"`promtool {words[0]} rules` tells {told}")


def numbers_of_feed() -> set[str]:
    return set(re.findall(r'^    "(ox_\w+)": ', FEED.read_text(), re.M))
