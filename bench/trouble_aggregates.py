"""The scenes of `trouble.sh` with `serve --aggregate`: what a peer or a clock that misbehaves costs the aggregates of a slot, in which nothing is early, late, or of
another validator than those that are chosen. In a committee of 16 each validator is chosen, in one of 32 about every other one."""
from trouble_runs import *

TWO_THIRDS, ASKS, SIGNS = 8, 'AGGREGATION_SLOT', 'AGGREGATE_AND_PROOF'

class Between(Peer):
    """Stands between the program and a server: treats the requests that these words are in so, and hands all others on. `held` has the moments of the former."""

    def __init__(self, server, words, treat):
        self.to, self.words, self.treat_these, self.held = ('127.0.0.1', server.port), [word.encode() for word in words], treat, []
        super().__init__(self.hand_on)

    def hand_on(self, link, request):
        if all(word in request for word in self.words):
            self.held.append(time.time())
            self.treat_these(link, request)
            return
        with socket.create_connection(self.to) as other:
            other.sendall(request)
            while piece := other.recv(65536):
                link.sendall(piece)

class Aggregating(Run):
    """A run in which that many keys vote in slot 1."""

    def __init__(self, name, count=4, committee=16, lanes=4, nodes=(), signing=None, before=(), asked=(), **due):
        given_in = sessions(name, [{'op': 'activate', 'pubkey': key(n)} for n in range(count)] + list(asked))
        wanted('asked before: %s' % given_in, all(answer['answer'] in ('active', 'signed') for answer in given_in))
        genesis = int(time.time()) - 2
        node.set(**{'genesis_time': genesis, 'blocks': {}, 'votes': {n: 1 for n in range(count)}, 'committee': committee, **due})
        node.take(), signer.take()
        child = serve(name, 3, 0, lanes, [*nodes, node.url], before, signing, ['--aggregate'])
        super().__init__(child, {(1, 'vote', key(n)) for n in range(count)}, genesis, signing or signer.url, [(url, HEALTHY) for url in [*nodes, node.url]], count)
        self.count, self.committee = count, committee

    def come(self, votes, aggregates, told=()):
        """What is wrong with what came: the lines of votes and of the aggregates that these validators have, each with how it ended, where another one than
        `sent` is named, and what was signed and posted for them, in its time."""
        status = self.end(self.genesis + 5 * SLOT)
        asked, signatures = node.take(), signer.take()
        node.set(committee=2048, aggregate={}, takes_no_aggregate=False)
        self.proofs = {r.target[len(SIGN):]: signature_of(r.target[len(SIGN):], r.body['signingRoot']) for r in signatures if r.body['type'] == ASKS}
        chosen = [key(n) for n in range(self.count) if key(n) in self.proofs and is_aggregator(self.proofs[key(n)], self.committee)]
        ends = {k: 'sent' for k in chosen} if aggregates is not None else {}
        ends.update(aggregates or {})
        lines = ['1 vote %s %s' % (key(n), votes.get(key(n), 'sent')) for n in range(self.count)] + ['1 aggregate %s %s' % (k, ends[k]) for k in sorted(ends)]
        wrong = [] if status == 0 else ['status %s' % status]
        wrong += [] if [line for _, line in self.out] == lines else ['the lines %s in place of %s' % ([line for _, line in self.out], lines)]
        wrong += ['standard error has what the table has not: ' + line for line in unfit(self.lines())]
        wrong += amiss(self.lines(), self.started() + [(r'epoch \d+: .*', 1, 2), *told])
        return wrong + self.steps_amiss(asked, signatures, {k for k in ends if ends[k] == 'sent'}, chosen) + ['slashable: ' + pair for pair in slashable(signatures)]

    def steps_amiss(self, asked, signatures, sent, chosen):
        """What is wrong with what was asked for, signed and posted for aggregates: nothing before two thirds of the slot but the choices, nothing of validators
        that are not chosen, and each post with the votes' data, the proof, and a signature of the service, within the slot."""
        start, end, wrong = self.genesis + SLOT + TWO_THIRDS, self.genesis + 2 * SLOT, []
        steps = [r for r in asked if r.target.startswith((AGGREGATE, AGGREGATES))] + [r for r in signatures if r.body['type'] == SIGNS]
        wrong += ['%.2f s into the slot: %s' % (r.begun - self.genesis - SLOT, r.target) for r in steps if not start <= r.begun <= r.ended < end]
        given_to = {r.target[len(SIGN):]: signature_of(r.target[len(SIGN):], r.body['signingRoot']) for r in signatures if r.body['type'] == SIGNS}
        wrong += ['signed for a validator that is not chosen: %s' % k for k in given_to if k not in chosen]
        posts = [r for r in asked if r.target == AGGREGATES]
        for r in posts:
            message = r.body[0]['message']
            k = key(int(message['aggregator_index']))
            if message['aggregate']['data'] != data_at(1) or message['selection_proof'] != self.proofs.get(k) or r.body[0]['signature'] != given_to.get(k):
                wrong.append('posted: %s' % json.dumps(r.body)[:200])
        taken = sorted(key(int(r.body[0]['message']['aggregator_index'])) for r in posts if r.status == 200)
        return wrong + ([] if taken == sorted(sent) else ['taken: %s in place of %s' % (taken, sorted(sent))])

# ---- scenes

def some_are_chosen(name):
    """Of sixteen validators those that are chosen aggregate, and nothing else is signed for the others."""
    run = Aggregating(name, 16, 32)
    wrong = run.come({}, {})
    return wrong + ([] if len(run.proofs) == 16 else ['%d validators had the slot signed' % len(run.proofs)])

def node_keeps_its_aggregate(name):
    """The first node takes the question for an aggregate and never answers: the second one is asked after two seconds, in time."""
    first = Between(node, [AGGREGATE], swallow)
    run = Aggregating(name, nodes=[first.url])
    from_first = re.escape(first.at) + ': '
    wrong = run.come({}, {}, [(from_first + CALL + 'timed out', 4, 4), (from_first + r'(?:set aside for \d+ ms|taken back)', 1, None)])
    return wrong + ([] if len(first.held) == 4 else ['it was asked %d times' % len(first.held)])

def aggregate_of_other_votes(name):
    """The node's aggregate is of votes for another block: nothing is signed."""
    run = Aggregating(name, aggregate={'beacon_block_root': '0x' + '99' * 32})
    return run.come({}, {key(n): 'nodata differs' for n in range(4)})

def service_keeps_one_signature(name):
    """The signing service never answers for one validator's aggregate: that of the next one in the lane is late by its limit at most."""
    front = Between(signer, [SIGN + key(1), SIGNS], swallow)
    run = Aggregating(name, signing=front.url)
    return run.come({}, {key(1): 'unsigned fault'}, [(re.escape(front.at) + ': ' + CALL + 'timed out', 1, 1)])

def service_denies_one_choice(name):
    """The signing service signs the slot for all validators but one: its choice has a line, and its vote stands."""
    front = Between(signer, [SIGN + key(1), ASKS], answers(403, b'{"message":"not this"}'))
    run = Aggregating(name, signing=front.url)
    return run.come({}, {key(1): 'unsigned denied'}, [(re.escape(front.at) + ': ' + CALL + '403 .*', 1, 1)])

def no_node_takes_aggregates(name):
    """No node takes the aggregates: each has its line, and is not posted again."""
    run = Aggregating(name, takes_no_aggregate=True)
    return run.come({}, {key(n): 'unposted' for n in range(4)}, [(at(node) + 'POST %s: 503 ' % AGGREGATES + re.escape('{"code": 503, "message": "takes none"}'), 4, 4)])

def refused_vote_aggregates(name):
    """A validator whose vote is refused, since another one for the epoch stands in its record, aggregates the votes of the others."""
    earlier = {'op': 'vote', 'pubkey': key(1), 'source_epoch': '0', 'target_epoch': '0', 'signing_root': '0x' + 'bb' * 32}
    run = Aggregating(name, asked=[earlier])
    return run.come({key(1): 'refused double_vote'}, {})

def clock_jumps(stepped, name):
    """The clock jumps past the slot in the wait for its two thirds: the aggregates are dropped."""
    step, before = stepped()
    run = Aggregating(name, before=before)
    wait_until(run.genesis + SLOT + 6)
    step(30)
    wrong = run.come({}, None, [(r'a wait for second \d+ was over at \d+: [ -~]+', 1, 2)])
    step(0)
    return wrong

def scenes(stepped):
    return {
        'aggregates_of_the_chosen': some_are_chosen,
        'aggregates_first_node_hangs': node_keeps_its_aggregate,
        'aggregates_of_other_votes': aggregate_of_other_votes,
        'aggregates_one_signature_hangs': service_keeps_one_signature,
        'aggregates_one_choice_is_denied': service_denies_one_choice,
        'aggregates_are_not_taken': no_node_takes_aggregates,
        'aggregates_after_a_refused_vote': refused_vote_aggregates,
        'aggregates_clock_jumps': lambda name: clock_jumps(stepped, name),
    }
