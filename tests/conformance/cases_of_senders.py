"""The cases of senders, each with its rule of docs/FORMATS.md: what a played server does, and how the sender ends."""
import functools
import time

from cases_of_servers import Case
from frames import BAD_BLOCK, bad_frame, CLOSE, DELAYED_STORE, NO_ROOM, notice, reply_of, STORED, TABLE_FULL
from frames import verdict, WRONG_TOTAL
from links import Failed
from senders import Broken, Play

BAD_LINKS = 4  # that are cut, of a sender that then meets a link that lasts
SHORT = 3  # seconds in which a sender that hears nothing must not end with 0


# What the server does on a link


def rightly(play, link):
    for message in link.messages():
        link.send(play.replies(message))


def byte_by_byte(play, link):
    for message in link.messages():
        link.send(play.replies(message), step=1)
        time.sleep(0.001)


def backwards(play, link):
    """Replies once the sender waits, to the last message first."""
    for batch in link.batches():
        replies = [reply for message in batch for reply in play.replies(message)]
        link.send(replies[::-1])


def over_and_over(play, link):
    """Says each verdict three times, and the one before again."""
    before = []
    for message in link.messages():
        replies = play.replies(message)
        link.send(replies * 3 + before)
        before = replies


def cut_in_frames(play, link):
    """Breaks links off inside a frame of the sender's."""
    if link.number < BAD_LINKS:
        link.room = play.chance.randrange(60_000, 400_000)
    rightly(play, link)


def cut_at_once(play, link):
    """Takes what comes over the first two links, and breaks them off without a reply."""
    for at, message in enumerate(link.messages()):
        replies = play.replies(message)
        if link.number < 2:
            if at == 3 * link.number:
                raise Broken
        else:
            link.send(replies)


def lost_messages(play, link):
    """Loses all messages of a link that come after the third one."""
    for at, message in enumerate(link.messages()):
        if at >= 3 and link.number < BAD_LINKS:
            if at == 8:
                raise Broken
        else:
            link.send(play.replies(message))


def lost_replies(play, link):
    """Stores all messages of a link, but its replies after the third one are lost."""
    for at, message in enumerate(link.messages()):
        replies = play.replies(message)
        if at < 3 or link.number >= BAD_LINKS:
            link.send(replies)
        elif at == 8:
            raise Broken


def cut_in_replies(play, link):
    """Breaks links off inside a reply."""
    count = 0
    for message in link.messages():
        replies = play.replies(message)
        count += 1
        if count == 3 + link.number and link.number < BAD_LINKS:
            link.socket.sendall(b"".join(replies)[: 3 + 2 * link.number])
            return
        link.send(replies)


def last_verdict_lost(play, link):
    """Stores CLOSE on the first link, and loses its verdict."""
    for message in link.messages():
        replies = play.replies(message)
        if message.kind == CLOSE and link.number == 0:
            return
        link.send(replies)


def notices_first(play, link):
    """Answers the first links with notices alone: the store, the memory, the table."""
    codes = (DELAYED_STORE, NO_ROOM, TABLE_FULL)
    for batch in link.batches():
        if link.number < len(codes):
            link.send([notice(play.name, message.number, codes[link.number], 0) for message in batch])
            return
        link.send([reply for message in batch for reply in play.replies(message)])


def in_place_of_replies(said, play, link):
    """Answers the first link with this in place of replies."""
    for batch in link.batches():
        if link.number == 0:
            link.send(said(play, batch))
            return
        link.send([reply for message in batch for reply in play.replies(message)])


def other_names(play, batch):
    """Verdicts of another name, and of numbers that weren't sent."""
    others = [verdict(b"x" + play.name[1:], message.number, STORED) for message in batch]
    return others + [verdict(play.name + b"x", message.number, STORED) for message in batch]


def garbage(_play, _batch):
    return [b"HTTP/1.1 400 Bad Request\r\n\r\n"]


def bad_frames(_play, _batch):
    return [bad_frame(1, 0)]


def killed(play, link):
    """Has the sender killed and run again after nine verdicts."""
    for message in link.messages():
        if not play.was_killed and play.settled == 9:
            play.is_to_be_killed = play.was_killed = True
            return
        link.send(play.replies(message))


def silence(_play, link):
    for _message in link.messages():
        pass


def refusing(is_it, code, play, link):
    """Gives this verdict to one message."""
    for message in link.messages():
        for reply in play.replies(message):
            found = reply_of(reply)
            is_refused = found.following is None and is_it(found.number, play.requests[found.number])
            link.send([verdict(play.name, found.number, code) if is_refused else reply])


def conflicting(play, link):
    """Has got another block of the same length under number 2 from somebody else, before the sender's own."""
    for message in link.messages():
        if link.number > 0 or message.number == 0:
            link.send(play.replies(message))
        elif message.number == 2:
            play.replies(message._replace(payload=bytes(255 - byte for byte in message.payload)))
            raise Broken


# How the sender ends


def stores(sender, serve):
    """It ends with 0, and all of the recording is stored."""
    play = Play(serve)
    status = sender.run(play)
    if status != 0:
        raise Failed("it doesn't end" if status is None else f"it ends with {status}")
    play.is_whole()


def is_refused(sender, serve, existed=False):
    """It ends, but not with 0."""
    play = Play(serve, existed)
    status = sender.run(play)
    if not status:
        raise Failed("it doesn't end" if status is None else "it ends with 0, though a message is refused")
    if not play.has_refused:
        raise Failed(f"it ends with {status} before a message is refused")


def is_honest(sender, serve, longest=None):
    """It may end as it likes, or go on; but where it ends with 0 all is stored."""
    play = Play(serve)
    if sender.run(play, longest) == 0:
        play.is_whole()


ENDS = (
    ("a link that lasts", "Messages: OPEN is number 0, CLOSE the last", stores, rightly),
    ("replies that come byte by byte", "Replies: framed in the same way", stores, byte_by_byte),
    ("verdicts in another order", "Replies: a verdict has its number; Limits: a window of 16", stores, backwards),
    ("verdicts over and over", "Replies: a repeat gets its first verdict", stores, over_and_over),
    ("links that break inside frames", "Bad frames: 6 Cut", stores, cut_in_frames),
    ("links that break before any reply", "Replies: 34 Conflict: the same body again", stores, cut_at_once),
    ("messages that are lost with their link", "Replies: 34 Conflict: the same body again", stores, lost_messages),
    ("replies that are lost with their link", "Replies: 34 Conflict: the same body again", stores, lost_replies),
    ("links that break inside replies", "Replies: framed in the same way", stores, cut_in_replies),
    ("the verdict of CLOSE is lost", "Replies: 0 Stored", stores, last_verdict_lost),
    ("notices", "Replies: a notice is no verdict", stores, notices_first),
    (
        "verdicts under another name",
        "Replies: a verdict has its name",
        is_honest,
        functools.partial(in_place_of_replies, other_names),
    ),
    ("no replies but garbage", "Replies: body", is_honest, functools.partial(in_place_of_replies, garbage)),
    ("bad frames by reply", "Replies: bad frame", is_honest, functools.partial(in_place_of_replies, bad_frames)),
    ("no reply", "Replies: 0 Stored", functools.partial(is_honest, longest=SHORT), silence),
    ("a name that existed", "Replies: 1 NameTaken", functools.partial(is_refused, existed=True), rightly),
    (
        "one block is refused",
        "Replies: 6 BadBlock",
        is_refused,
        functools.partial(refusing, lambda number, _: number == 5, BAD_BLOCK),
    ),
    (
        "CLOSE is refused",
        "Replies: 11 WrongTotal",
        is_refused,
        functools.partial(refusing, lambda _, request: request[0] == CLOSE, WRONG_TOTAL),
    ),
    ("another block under a number", "Replies: 34 Conflict", is_refused, conflicting),
    ("killed, and run again", "Replies: 34 Conflict: the same body again", stores, killed),
)


def cases_of_senders(sender):
    return [Case(name, rule, functools.partial(ends, sender, serve)) for name, rule, ends, serve in ENDS]
