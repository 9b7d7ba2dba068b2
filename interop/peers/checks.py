"""What has to be true after a case. Each check gives the reason of a failure, or None."""
import collections
import hashlib
import re

MOST_SWAPPED = 3


def files_received(outcome):
    """Each path was received as often as it was asked for, with its hash."""
    options = outcome.case.client_options
    cancelled, posted = 'cancel-after' in options, 'post' in options
    rounds = 1 + options.get('resume', False) + len(outcome.thens())
    wanted = collections.Counter(path for path in outcome.case.paths) if not posted else {}
    for path in wanted:
        wanted[path] *= options.get('times', 1) * rounds
    seen = collections.Counter()
    for path, status, _length, found in outcome.files():
        if cancelled and status == 'cancelled':
            seen[path] += 1
        elif not posted and status == '200' and found == outcome.hashes[path.split('?')[0]]:
            seen[path] += 1
        elif not posted:
            return f'{path}: status {status}, hash {found}'
    for path, count in wanted.items():
        if seen[path] != count:
            return f'{path} came {seen[path]} times for {count}'
    return None


def downloads_right(outcome):
    """The same for ngtcp2's client, which puts files into a folder."""
    if 'post' in outcome.case.client_options:
        return None
    for folder in sorted(outcome.folder.glob('downloads-*')):
        for path in outcome.case.paths:
            file = folder / path.rsplit('/', 1)[1]
            if not file.is_file():
                return f'{path} did not come'
            if hashlib.sha256(file.read_bytes()).hexdigest() != outcome.hashes[path]:
                return f'{path}: a wrong hash'
    return None


def answers_right(outcome):
    """The server told the length and the hash of what was sent."""
    sent = outcome.case.client_options['post'].read_bytes()
    right = f'{len(sent)} {hashlib.sha256(sent).hexdigest()}'
    answers = outcome.answers()
    wanted = len(outcome.case.paths) * outcome.case.client_options.get('times', 1)
    if len(answers) != wanted:
        return f'{len(answers)} answers for {wanted} uploads'
    wrong = [answer for answer in answers if answer != right]
    return f'the server received {wrong[0]}' if wrong else None


def uploads_stopped(outcome):
    """Each upload was answered, and the layer under test saw the stop of at least one."""
    statuses = [status for _, status, _, _ in outcome.files()]
    if len(statuses) != len(outcome.case.paths) or not all(status.startswith('200') for status in statuses):
        return f'statuses {statuses}'
    frames = outcome.frames('sent') + outcome.frames('received')
    return None if frames['STOP_SENDING'] else 'no STOP_SENDING was seen'


def echoed(streams, datagrams=0, least=1.0):
    """Every stream came back, and of the datagrams at least this share."""
    def check(outcome):
        found = [line for line in outcome.client_lines() if line.startswith('echo ')]
        if not found:
            return 'no echo was told'
        counts = {name: int(count) for name, count in re.findall(r'(\w+)=(\d+)', found[-1])}
        if counts['bidirectional'] != streams or counts['unidirectional'] != streams:
            return found[-1]
        if counts['datagrams'] < least * datagrams:
            return f'{counts["datagrams"]} of {datagrams} datagrams'
        return None
    return check


def early(verdict):
    """0-RTT was accepted or rejected, as the client or the server tells."""
    def check(outcome):
        told = [line for line in outcome.client_lines() if line.startswith('early ')]
        if told and told[-1] != f'early {verdict}':
            return f'0-RTT was {told[-1][6:]}'
        if not told and verdict == 'accepted' and 'early request' not in outcome.server_lines():
            return 'no request came in 0-RTT'
        return None
    return check


def in_order_of_priority(outcome):
    """Requests were complete in the reverse order of their making, since later ones are the more urgent. A lost packet may hold
    a stream up: 3 of the 28 pairs may be in the other order."""
    wanted, order = list(reversed(outcome.case.paths)), [path for path, *_ in outcome.files()]
    if sorted(order) != sorted(wanted):
        return f'the files were {order}'
    places = [wanted.index(path) for path in order]
    swapped = sum(one > other for number, one in enumerate(places) for other in places[number + 1:])
    return None if swapped <= MOST_SWAPPED else f'the order was {order}'


def saw(kind, direction, least=1):
    """The layer under test sent or received frames of a kind."""
    def check(outcome):
        count = outcome.frames(direction)[kind]
        return None if count >= least else f'{count} frames {kind} {direction}'
    return check


def had(fault):
    """The proxy did what the case says."""
    def check(outcome):
        counts = dict(re.findall(r'(\w+)=(\d+)', outcome.proxy_line()))
        return None if int(counts.get(fault, 0)) else f'the proxy says {outcome.proxy_line()}'
    return check
