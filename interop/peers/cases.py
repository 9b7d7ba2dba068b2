"""The cases. In each, `these` is the layer under test, and the other endpoint is another implementation."""
from common.folders import SITE
from peers import checks
from peers.drivers import CADDY, NGTCP2, QUIC_GO, QUINN, THESE, all_parts, all_small
from peers.running import Case

CLIENTS = (NGTCP2, QUIC_GO, QUINN)
SERVERS = (NGTCP2, QUIC_GO, CADDY, QUINN)
PAIRS = [(client, THESE) for client in CLIENTS] + [(THESE, server) for server in SERVERS]
MIX = {'loss': 2, 'reorder': 10, 'repeat': 5, 'damage': 2}
TINY = {'stream-window': 1500, 'receive-window': 3000}
UPLOAD = SITE / '1m'
REBINDING_CAUSE = "quic-go 0.29 does not follow a client that changes its port"
BLOCKED_CAUSE = "quinn 0.9's own streams report a full window before a stop, and its writers wait until the idle timeout"


def named(client, server, what):
    """The name of a case: the peer with its role, and what is tried."""
    return f'{client}-client/{what}' if server == THESE else f'{server}-server/{what}'


def case(client, server, what, **more):
    return Case(named(client, server, what), server, client, **more)


def downloads():
    contents = {
        'one-small': ('/1k',), 'one-large': ('/50m',), 'medium': ('/1m',), 'many-small': all_small(), 'side-by-side': all_parts(),
    }
    for client, server in PAIRS:
        for what, paths in contents.items():
            yield case(client, server, what, paths=paths)


def faulty():
    kinds = {
        'loss-1': {'loss': 1}, 'loss-5': {'loss': 5}, 'reordered': {'reorder': 20}, 'repeated': {'repeat': 20},
        'damaged': {'damage': 3},
    }
    for client, server in PAIRS:
        yield case(client, server, 'mix', paths=all_parts(), faults=MIX)
        if {client, server} & {NGTCP2, QUIC_GO}:
            for what, faults in kinds.items():
                yield case(client, server, what, paths=all_parts(), faults=faults)


def windows():
    """Windows of some kilobytes, on either side, for downloads and uploads."""
    post = {'post': SITE / '100k'}
    for server in SERVERS:
        yield case(THESE, server, 'our-tiny-window', paths=('/100k',), client_options=TINY,
                   checks=(checks.saw('MAX_DATA', 'sent', 10), checks.saw('MAX_STREAM_DATA', 'sent', 10)))
    for client in CLIENTS:
        yield case(client, THESE, 'our-tiny-window', paths=('/up',), client_options=post, server_options=TINY,
                   checks=(checks.answers_right, checks.saw('MAX_DATA', 'sent', 10)))
        yield case(client, THESE, 'its-tiny-window', paths=('/100k',), client_options=TINY,
                   checks=(checks.saw('MAX_STREAM_DATA', 'received', 10),))
        yield case(client, THESE, 'small-send-window', paths=('/1m', '/100k'), server_options={'send-window': 5000})
    for server in (QUIC_GO, QUINN):
        yield case(THESE, server, 'its-tiny-window', paths=('/up',), client_options=post, server_options=TINY,
                   checks=(checks.answers_right, checks.saw('MAX_STREAM_DATA', 'received', 10)))
    yield case(THESE, QUIC_GO, 'small-send-window', paths=('/up',), client_options={'post': UPLOAD, 'send-window': 5000},
               checks=(checks.answers_right,))


def few_streams():
    for client in (QUIC_GO, QUINN):
        yield case(client, THESE, 'two-streams-at-a-time', paths=all_small(), server_options={'max-bidirectional': 2},
                   checks=(checks.saw('MAX_STREAMS_BIDI', 'sent', 90),))
    for server in (NGTCP2, QUIC_GO, QUINN):
        yield case(THESE, server, 'three-streams-at-a-time', paths=all_small(), server_options={'max-bidirectional': 3},
                   checks=(checks.saw('MAX_STREAMS_BIDI', 'received', 20),))


def cancelled():
    """Downloads that are cancelled: with credit left, and with the connection's credit used up."""
    options = {'cancel-after': 20_000, 'times': 60, 'stream-window': 1_000_000, 'receive-window': 100_000_000}
    for client in (QUIC_GO, QUINN):
        for protocol in ('h3', 'hq'):
            yield case(client, THESE, f'cancelled-{protocol}', protocol=protocol, paths=('/1m',), client_options=options,
                       checks=(checks.saw('STOP_SENDING', 'received', 30), checks.saw('RESET_STREAM', 'sent', 30)))
        scarce = dict(options, **{'receive-window': 300_000, 'stream-window': 200_000, 'parallel': 60, 'times': 240})
        cause = BLOCKED_CAUSE if client == QUIC_GO else ''
        for protocol in ('h3', 'hq'):
            yield case(client, THESE, f'cancelled-without-credit-{protocol}', protocol=protocol, paths=('/1m',),
                       client_options=scarce, checks=(checks.saw('RESET_STREAM', 'sent', 100),), cause=cause)
    for server in SERVERS:
        yield case(THESE, server, 'cancelled', paths=('/1m',), client_options=options,
                   checks=(checks.saw('STOP_SENDING', 'sent', 30),))


def abandoned():
    options = {'abandon': 600}
    for client, server in ((QUIC_GO, THESE), (QUINN, THESE), (THESE, QUIC_GO), (THESE, QUINN)):
        yield case(client, server, 'six-hundred-abandoned', protocol='hq', paths=('/1m', '/1k'), client_options=options,
                   checks=(checks.saw('RESET_STREAM', 'received', 100), checks.saw('STOP_SENDING', 'sent', 100))
                   if client == THESE else
                   (checks.saw('STOP_SENDING', 'received', 100), checks.saw('RESET_STREAM', 'sent', 100)))


def uploads():
    options = {'post': UPLOAD, 'times': 20}
    for client, server in ((NGTCP2, THESE), (QUIC_GO, THESE), (QUINN, THESE), (THESE, QUIC_GO), (THESE, QUINN)):
        these = {'post': UPLOAD} if client == NGTCP2 else options
        yield case(client, server, 'uploads', paths=('/up',), client_options=these, checks=(checks.answers_right,))
    for client, server in ((QUIC_GO, THESE), (QUINN, THESE), (THESE, QUIC_GO), (THESE, QUINN)):
        yield case(client, server, 'stopped-upload', paths=('/unread',) * 5, client_options={'post': SITE / '10m'},
                   checks=(checks.uploads_stopped,), cause=BLOCKED_CAUSE if server == QUIC_GO else '')


def zero_rtt():
    resume = {'resume': True}
    for client, server in PAIRS:
        if CADDY in (client, server):
            continue
        retry = {'retry': True}
        yield case(client, server, 'retry', paths=('/1m',), server_options=retry)
        yield case(client, server, '0rtt-accepted', paths=('/1k', '/1m'), client_options=resume,
                   checks=(checks.early('accepted'),))
        yield case(client, server, '0rtt-behind-retry', paths=('/1k', '/1m'), client_options=resume, server_options=retry,
                   checks=(checks.early('accepted'),))
        # quic-go cannot use its HTTP/3 client again on a connection whose 0-RTT was rejected
        protocol = 'hq' if client == QUIC_GO else 'h3'
        yield case(client, server, '0rtt-rejected', protocol=protocol, paths=('/1k', '/1m'), client_options=resume,
                   restarts=True, checks=(checks.early('rejected'),))
        yield case(client, server, '0rtt-with-loss', paths=('/1k', '/1m'), client_options=resume, faults={'loss': 5})


def echoes():
    streams = {'bidirectional': 1000, 'unidirectional': 1000, 'stream-length': 1000}
    datagrams = {'datagrams': 400}
    for client, server in ((QUIC_GO, THESE), (QUINN, THESE), (THESE, QUIC_GO), (THESE, QUINN)):
        yield case(client, server, 'two-thousand-streams', protocol='echo', client_options=streams,
                   checks=(checks.echoed(1000),))
        yield case(client, server, 'datagrams', protocol='echo', client_options=datagrams,
                   checks=(checks.echoed(0, 400), checks.saw('DATAGRAM', 'sent', 400), checks.saw('DATAGRAM', 'received', 400)))
        both = {'bidirectional': 50, 'unidirectional': 50, 'stream-length': 20_000, 'datagrams': 400}
        yield case(client, server, 'datagrams-with-mix', protocol='echo', client_options=both, faults=MIX,
                   checks=(checks.echoed(50, 400, 0.8),))


def priorities():
    """Eight requests at once, the later the more urgent: the last is complete first."""
    paths = tuple(f'/1m?{number}' for number in range(8))
    options = {'priorities': True, 'stream-window': 4_000_000, 'receive-window': 32_000_000}
    for client in (QUIC_GO, QUINN):
        yield case(client, THESE, 'priorities', paths=paths, client_options=options, checks=(checks.in_order_of_priority,))
    upload = {'priorities': True, 'post': UPLOAD}
    for server in (QUIC_GO, QUINN):
        wide = {'stream-window': 4_000_000, 'receive-window': 32_000_000}
        yield case(THESE, server, 'priorities', paths=paths, client_options=upload, server_options=wide,
                   checks=(checks.in_order_of_priority,))


def lasting():
    """Connections that are idle, update their keys, or change their path."""
    for server in (NGTCP2, QUIC_GO, QUINN):
        for then in ('key-update', 'idle', 'rebind'):
            cause = REBINDING_CAUSE if (server, then) == (QUIC_GO, 'rebind') else ''
            yield case(THESE, server, then, paths=('/1m',), client_options={'then': then}, cause=cause)
    yield case(QUIC_GO, THESE, 'idle', paths=('/1m',), client_options={'idle': True})
    for what, options in (('key-update', {'key-update': '20ms'}), ('migration', {'change-local-addr': '20ms'}),
                          ('rebinding', {'change-local-addr': '20ms', 'nat-rebinding': True})):
        yield case(NGTCP2, THESE, what, paths=('/50m',), client_options=options)


def readings():
    """Four ways of reading, with frames that come in order and with those that do not."""
    for reading in ('buffer', 'chunk', 'chunks', 'unordered'):
        for server in (QUIC_GO, QUINN):
            yield case(THESE, server, f'read-{reading}', protocol='hq', paths=('/10m', '/1m', '/1k'),
                       client_options={'reading': reading}, faults={'loss': 1, 'reorder': 10})


def all_cases():
    groups = (cancelled, abandoned, windows, few_streams, zero_rtt, faulty, echoes, priorities, uploads, readings, lasting,
              downloads)
    return [one for group in groups for one in group()]
