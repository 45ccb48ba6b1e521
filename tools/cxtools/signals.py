"""Four of the nine machines of docs/machines.md: what each change makes of the state, and the state in words."""
from .locks import names


class Once:
    def __init__(self, _words):
        self.active, self.done = None, False

    def step(self, by, act):
        if act == ['begin']:
            if self.active is not None or self.done:
                return False
            self.active = by
            return True
        if self.active != by:
            return False
        self.active, self.done = None, act == ['finish']
        return True

    def __str__(self):
        return 'done' if self.done else 'idle' if self.active is None else 'active by %s' % self.active


class Condition:
    def __init__(self, _words):
        self.waiting, self.notified = [], []

    def step(self, by, act):
        if act == ['enter'] and by not in self.waiting + self.notified:
            self.waiting.append(by)
        elif act == ['notify_one', 'none'] and not self.waiting:
            pass
        elif act[0] == 'notify_one' and act[1] in self.waiting:
            self.waiting.remove(act[1])
            self.notified.append(act[1])
        elif act[0] == 'notify_all' and int(act[1]) == len(self.waiting):
            self.notified += self.waiting
            self.waiting = []
        elif act == ['unblock'] and by in self.notified:
            self.notified.remove(by)
        elif act == ['withdraw'] and by in self.waiting:
            self.waiting.remove(by)
        else:
            return False
        return True

    def __str__(self):
        parts = ['%s %s' % (word, names(people))
                 for word, people in (('waiting', self.waiting), ('notified', self.notified)) if people]
        return ', '.join(parts) or 'nobody waits'


class Stop:
    def __init__(self, words):
        self.requester, self.sources = None, 1 if words[0] == 'jthread' else len(words) - 2
        self.registered, self.running, self.ended, self.gone = [], {}, set(), set()

    def is_new(self, number):
        return number not in self.registered and number not in self.running and number not in self.ended | self.gone

    def step(self, by, act):
        number = int(act[1]) if len(act) > 1 else None
        if number is not None:
            return self.callback(by, act, number)
        if act == ['request'] and self.requester is None:
            self.requester = by
        elif act == ['another'] and self.sources:
            self.sources += 1
        elif act == ['drop'] and self.sources:
            self.sources -= 1
        else:
            return False
        return True

    def callback(self, by, act, number):
        word = ' '.join(act[:1] + act[2:])
        if word == 'register' and self.requester is None and self.sources and self.is_new(number):
            self.registered.append(number)
        elif word == 'register_now' and self.requester is not None and self.is_new(number):
            self.running[number] = by
        elif word == 'begin' and self.requester == by and number in self.registered:
            self.registered.remove(number)
            self.running[number] = by
        elif word == 'finish' and self.running.get(number) == by:
            del self.running[number]
            self.ended.add(number)
        elif word == 'deregister removed' and number in self.registered:
            self.registered.remove(number)
            self.gone.add(number)
        elif word == 'deregister ran' and number in self.ended:
            self.ended.remove(number)
            self.gone.add(number)
        else:
            return word == 'deregister inside' and self.running.get(number) == by
        return True

    def __str__(self):
        asked = 'not requested' if self.requester is None else 'requested by %s' % self.requester
        parts = [asked, 'no source' if not self.sources else '%d source%s' % (self.sources, 's' * (self.sources > 1))]
        parts += ['registered %s' % names(map(str, self.registered))] if self.registered else []
        parts += ['%d runs on %s' % pair for pair in sorted(self.running.items())]
        return ', '.join(parts)


class Future:
    def __init__(self, _words):
        self.state, self.by = 'fresh', None

    def step(self, by, act):
        if act == ['defer'] and self.state == 'fresh':
            self.state = 'deferred'
        elif act == ['run'] and self.state == 'deferred':
            self.state, self.by = 'running by %s' % by, by
        elif act[0] == 'set' and (self.state == 'fresh' or self.by == by):
            self.state, self.by = ' '.join(act[1:]), None
        else:
            return False
        return True

    def __str__(self):
        return self.state if self.state in ('fresh', 'deferred') or self.by is not None else 'ready, %s' % self.state
