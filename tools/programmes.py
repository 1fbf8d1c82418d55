# Works the programmes of all ranks out anew, message by message and not rank by rank, and prints what schedule_tests has to print:
#   python3 tools/programmes.py > crates/schedule_tests/stdout


def broadcast(p, root):
    """After step k the numbers below 2^(k+1), counted from the root, have the value."""
    rank = lambda number: (number + root) % p
    for k, step in enumerate(powers(p)):
        for number in range(step):
            if number + step < p:
                yield rank(number), rank(number + step), k, 'r'


def gather(p, root):
    for other in range(p):
        if other != root:
            yield other, root, 9, 'k'


def reduce(p, root):
    """At step k neighbouring blocks of 2^k ranks become one, at the first rank of the lower block."""
    for k, step in enumerate(powers(p)):
        for low in range(0, p - step, 2 * step):
            yield low + step, low, k, 'a'
    if root != 0:
        yield 0, root, 8, 'r'


def scan(p, merge):
    for k, step in enumerate(powers(p)):
        for low in range(p - step):
            yield low, low + step, k, merge


def allreduce(p):
    """Of the first 2s ranks each even one stands behind its odd neighbour; the others swap the values of neighbouring blocks."""
    steps = max(k for k in range(p) if 2**k <= p)
    s = p - 2**steps
    members = [r for r in range(p) if r >= 2 * s or r % 2 == 1]
    for r in range(0, 2 * s, 2):
        yield r, r + 1, 6, 'b'
    for k in range(steps):
        for block in range(0, len(members), 2 * 2**k):
            for low in range(block, block + 2**k):
                yield members[low], members[low + 2**k], k, 'b'
                yield members[low + 2**k], members[low], k, 'a'
    for r in range(0, 2 * s, 2):
        yield r + 1, r, 7, 'r'


def powers(p):
    return [2**k for k in range(p) if 2**k < p]


def programmes(p, messages):
    """Each rank's turns: of one label its sends stand before its takes."""
    ranks = [[] for _ in range(p)]
    labels = []
    for message in messages:
        if message[2] not in labels:
            labels.append(message[2])
    for label in labels:
        for source, target, k, merge in messages:
            if k == label:
                ranks[source].append(f' >{target}:{k}')
        for source, target, k, merge in messages:
            if k == label:
                ranks[target].append(f' <{source}:{k}{merge}')
    return ranks


def rounds(p, ranks):
    """Lets all ranks go on as long as they can, and counts by arrivals and departures."""
    done, arrival, departure, mail = [0] * p, [0] * p, [0] * p, {}
    moved = True
    while moved:
        moved = False
        for r in range(p):
            while done[r] < len(ranks[r]):
                turn = ranks[r][done[r]]
                other = int(turn[2:turn.index(':')])
                if turn[1] == '>':
                    departure[r] = max(departure[r], arrival[r]) + 1
                    mail[r, other] = departure[r]
                elif (other, r) in mail:
                    arrival[r] = max(arrival[r] + 1, mail[other, r])
                else:
                    break
                done[r] += 1
                moved = True
    assert all(done[r] == len(ranks[r]) for r in range(p))
    return max(arrival)


def show(name, p, root, messages):
    messages = list(messages)
    ranks = programmes(p, messages)
    print(f'{name} {p} {root}: {rounds(p, ranks)} rounds, {len(messages)} messages:' + ''.join(''.join(turns) + ';' for turns in ranks + [[]]))


for p in [1, 2, 3, 4, 5, 6, 7, 8, 13]:
    for root in range(p):
        show('broadcast', p, root, broadcast(p, root))
        show('gather', p, root, gather(p, root))
        show('reduce', p, root, reduce(p, root))
    show('scan', p, 0, scan(p, 'b'))
    show('exscan', p, 0, scan(p, 'p'))
    show('allreduce', p, 0, allreduce(p))
for refused in ['a root past the ranks', 'no ranks', 'too many ranks']:
    print('refused')
