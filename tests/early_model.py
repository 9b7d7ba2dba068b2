"""The model of `pair_model` for a client that sends in 0-RTT, before the handshake is done (RFC 9001 section 4.6)."""
from frames import Stream
from limits_model import Limits, limits_of
from pair_model import DECISIONS, DIRECTIONS, Model, opener_of, stream_id


class EarlyModel(Model):
    """Two ends whose client begins with limits that it remembers, until it is decided whether the server accepts its 0-RTT."""

    def __init__(self, configs, remembered, tally):
        super().__init__(configs, tally)
        self.given = limits_of(configs["b"])
        self.remembered = Limits(*remembered)
        self.client, self.server = self.ends["a"], self.ends["b"]
        self.client.hold(self.remembered)
        self.is_decided = False

    def refusal(self, verb, fields):
        if verb in DECISIONS:
            return self.refusal_of_decision(verb)
        if not self.is_decided and (verb in ("deliver", "deliver-all") or fields[0] == "b"):
            return "Undecided"
        return super().refusal(verb, fields)

    def refusal_of_decision(self, verb):
        if self.is_decided:
            return "Decided"
        is_below = any(old > new for old, new in zip(self.remembered, self.given))
        return "LimitsBelow" if verb == "early-accept" and is_below else None

    def early_accept(self):
        """The server accepts: the client takes its limits, and the limits of the client's streams rise to theirs."""
        self.tally["accepted"] += 1
        self.is_decided = True
        client = self.client
        written = {id: half.limit for id, half in client.send.items()}
        client.hold(self.given)
        for id in self.own_streams():
            client.raise_limit(id, client.first_limit(id))
            self.tally["raised"] += client.send[id].limit > written[id]
        return "ok"

    def own_streams(self):
        """The ids of the client's streams, bidirectional ones first."""
        return [stream_id("a", it, index) for it in DIRECTIONS for index in range(self.client.opened[it])]

    def leave(self):
        for payload in self.payloads:
            payload.leave()

    def early_reject(self):
        """The server rejects: the client's streams begin anew, with the server's limits, and the payloads are gone."""
        self.tally["rejected"] += 1
        self.is_decided = True
        client = self.client
        for end in self.ends.values():
            for halves in (end.send, end.receive):
                for id in [it for it in halves if opener_of(it) == "a"]:
                    del halves[id]
        client.opened = dict.fromkeys(DIRECTIONS, 0)
        client.known.clear()
        client.blocked.clear()
        client.hold(self.given)
        if client.is_adjusted:
            for remote in client.remote.values():
                remote.permitted_sent = 0
        self.leave()
        return "ok"

    def retry(self):
        """The server sends a Retry: all that the client sent has to be sent again, and the payloads are gone."""
        self.tally["retried"] += 1
        for payload in self.payloads:
            for sent in payload.sent:
                if not payload.settled and not isinstance(sent.frame, Stream):
                    self.client.lose(sent.frame)
        for half in self.client.send.values():
            half.send_again()
        self.leave()
        return "ok"
