"""Searches between the keys of a bucket, many at once. What is tried doesn't depend on which search ends first: it is what comes of rounds in each
of which every key that wasn't joined before tries its next pair."""
import collections


class Rounds:
    """What keys try by one search. `chains` has for each key its pairs, one after the other, with keys that are before it; `left` are the keys
    that may have a pair yet. A key that is ahead of another one waits where it has to know whether that was joined in an earlier round."""

    def __init__(self, chains):
        self.chains, self.left, self.ended, self.joined = chains, set(chains), dict.fromkeys(chains, 0), {}
        self._ahead, self._waiting = {}, collections.defaultdict(list)

    def ready(self, keys):
        """The pairs that keys try next, and those of others that waited for these."""
        found, keys = [], list(keys)[::-1]
        while keys:
            key = keys.pop()
            pair = self.next(key) if key in self.left else None
            if pair:
                found.append(pair)
            keys += self._waiting.pop(key, ())
        return found

    def took(self, pair, is_joined):
        """A try has ended, perhaps with its key joined: the pairs that are tried next."""
        self.ended[pair.key] += 1
        if is_joined:
            self.joined[pair.key] = self.ended[pair.key]
            self.left.discard(pair.key)
        return self.ready([pair.key])

    def next(self, key):
        """The next pair of a key, or None where it has none, or waits."""
        before = self.ended[key]
        while True:
            pair = self._ahead.pop(key, None) or next(self.chains[key], None)
            if pair is None:
                self.left.discard(key)
                return None
            if self.joined.get(pair.aim, before + 1) <= before:
                continue
            if pair.aim in self.left and self.ended[pair.aim] < before:
                self._ahead[key] = pair
                self._waiting[pair.aim].append(key)
                return None
            return pair


class Course:
    """The searches between keys, one after the other: `parts` are these with their rounds. `take` is called with each pair and its search:
    it answers whether it is known what comes of it, and whether the key is joined."""

    def __init__(self, keys, parts, take):
        self.keys, self.parts, self.take = keys, parts, take
        self.search, self.rounds, self.is_ended = None, Rounds({}), False

    def go_on(self, pairs=()):
        """Takes what is known of pairs and of all that follows them: the pairs of which it has to be asked."""
        due, asked = collections.deque(pairs), []
        while not self.is_ended:
            while due:
                pair = due.popleft()
                is_known, is_joined = self.take(pair, self.search)
                if is_known:
                    due += self.rounds.took(pair, is_joined)
                else:
                    asked.append(pair)
            if self.rounds.left:
                break
            self.search, self.rounds = next(self.parts, (None, None))
            self.is_ended = self.rounds is None
            due += self.rounds.ready(self.rounds.chains) if self.rounds else ()
        return asked
