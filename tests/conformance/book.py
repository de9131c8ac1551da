"""What a server keeps, and its replies to each message, by docs/FORMATS.md (Replies)."""
from frames import ASK, CONFLICT, HELD, NEXT, notice, TABLE_FULL, TOO_FAR, verdict
from takes import Take

WINDOW = 16
MOST_NAMES = 256


class Session:
    """The messages under one name: those that were admitted, and the verdicts of those that are done."""

    def __init__(self, existed=False):
        self.take = Take(existed)
        self.admitted = {}  # requests by number
        self.verdicts = []

    @property
    def following(self):
        return len(self.verdicts)

    def drain(self):
        """Judges the numbers that follow without a gap; those that are done now."""
        before = self.following
        while self.following in self.admitted:
            self.verdicts.append(self.take.apply(self.admitted[self.following]))
        return range(before, self.following)


class Book:
    """The sessions of a server; nothing fails."""

    def __init__(self, existed=lambda name: False):
        self.existed = existed
        self.sessions = {}

    def replies(self, message):
        """The replies to a message or an ask."""
        if message.kind == ASK:
            session = self.sessions.get(message.name)
            return [notice(message.name, message.number, NEXT, self.next_of(session) if session else 0)]
        return self.turn(message)

    def next_of(self, session):
        return session.following

    def turn(self, message):
        name, number = message.name, message.number
        session = self.sessions.get(name) or Session(self.existed(name))
        if self.is_too_far(session, number):
            return [notice(name, number, TOO_FAR, session.following)]
        if name not in self.sessions and len(self.sessions) == MOST_NAMES:
            return [notice(name, number, TABLE_FULL, 0)]
        self.sessions[name] = session
        is_done = number < session.following
        self.admit(session, message)
        fresh = session.drain()
        verdicts = [verdict(name, it, session.verdicts[it]) for it in fresh]
        return verdicts + self.own_reply(session, message, is_done, fresh)

    def is_too_far(self, session, number):
        return number >= session.following + WINDOW

    def admit(self, session, message):
        session.admitted.setdefault(message.number, message.request)

    def own_reply(self, session, message, is_done, fresh):
        """The reply to the message itself, after the verdicts of the numbers that are done now."""
        name, number = message.name, message.number
        if session.admitted[number] != message.request:
            return [notice(name, number, CONFLICT, session.following)]
        if number in fresh:
            return []
        if is_done:
            return [verdict(name, number, self.verdict_again(session, message))]
        return [notice(name, number, HELD, session.following)]

    def verdict_again(self, session, message):
        return session.verdicts[message.number]
