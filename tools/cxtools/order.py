"""The order that a record gives its items: of each list, of each object's positions and stamps, of starts and joins.

`Order` has the row in which each item is drawn: one more than the greatest row of those that come before it, and the
same for a reply and the act that it follows. Where the order has a cycle, `cycle` is one, and `back` are the pairs of
items that stand against it.
"""
import heapq


class Graph:
    """What comes right before what. The first nodes are the items; the others are points between two positions of an
    object, so that there are few edges."""

    def __init__(self, items):
        self.items = items
        self.place = {item.key: node for node, item in enumerate(items)}
        self.after = [[] for _ in items]

    def point(self):
        self.after.append([])
        return len(self.after) - 1

    def edge(self, low, high):
        self.after[low].append(high)

    def before_counts(self):
        counts = [0] * len(self.after)
        for high in (node for nodes in self.after for node in nodes):
            counts[high] += 1
        return counts


def add_lists(graph, record):
    """Each item comes after the one above it, a thread's first after its start, and a join after the last."""
    for items in record.lists:
        for low, high in zip(items or [], (items or [])[1:]):
            graph.edge(graph.place[low.key], graph.place[high.key])
    for item in record.items():
        if item.mark != '*' or item.words[-1] == 'no-thread':
            continue
        other = record.lists[record.scenario.threads.index(item.words[1])]
        if other and item.words[0] == 'join':
            graph.edge(graph.place[other[-1].key], graph.place[item.key])
        elif other and item.words[0] != 'join':
            graph.edge(graph.place[item.key], graph.place[other[0].key])


def add_object(graph, items):
    """Orders the changes and looks of one object: changes by position, a look after so many of them and before the next."""
    changes = {}
    for item in items:
        if item.mark == '+':
            changes.setdefault(item.at, []).append(graph.place[item.key])
    looks = sorted((item.at, graph.place[item.key]) for item in items if item.mark == '?')
    before, seen = graph.point(), 0
    for position in sorted(changes) + [None]:
        then = graph.point()
        graph.edge(before, then)
        while seen < len(looks) and (position is None or looks[seen][0] <= position):
            graph.edge(before, looks[seen][1])
            graph.edge(looks[seen][1], then)
            seen += 1
        before = graph.point()
        for node in changes.get(position, ()):
            graph.edge(then, node)
            graph.edge(node, before)


def graph_of(record):
    graph = Graph(record.items())
    add_lists(graph, record)
    of_object = {}
    for item in graph.items:
        if item.object:
            of_object.setdefault(item.object, []).append(item)
    for items in of_object.values():
        add_object(graph, items)
    return graph


def components(graph, nodes):
    """The strongly connected components of some nodes, each node with the number of its own, from last to first in
    the order, by Tarjan's algorithm without recursion."""
    left, index, low, stack, number = set(nodes), {}, {}, [], {}
    for root in nodes:
        if root in index:
            continue
        index[root] = low[root] = len(index)
        stack.append(root)
        work = [(root, iter(graph.after[root]))]
        while work:
            node, rest = work[-1]
            for high in rest:
                if high not in left or high in number:
                    continue
                if high in index:
                    low[node] = min(low[node], index[high])
                    continue
                index[high] = low[high] = len(index)
                stack.append(high)
                work.append((high, iter(graph.after[high])))
                break
            else:
                work.pop()
                if work:
                    low[work[-1][0]] = min(low[work[-1][0]], low[node])
                if low[node] == index[node]:
                    close(stack, node, number)
    return number


def close(stack, node, number):
    """Takes a finished component from the stack and numbers its nodes."""
    mine = len(number)
    while True:
        member = stack.pop()
        number[member] = mine
        if member == node:
            return


def shortest_cycle(graph, start, members):
    """The items of a shortest cycle through an item, within a component; in their order, beginning with that item."""
    came = {start: None}
    line = [start]
    for node in line:
        for high in graph.after[node]:
            if high == start:
                path = []
                while node is not None:
                    path.append(node)
                    node = came[node]
                return [graph.items[node] for node in reversed(path) if node < len(graph.items)]
            if high in members and high not in came:
                came[high] = node
                line.append(high)
    return []


class Order:
    """The rows of a record's items by their keys, with a cycle of the order where there is one."""

    def __init__(self, record, follows):
        """`follows` says of an item whether it is drawn in the row of the one above it."""
        self.record = record
        self.graph = graph_of(record)
        self.follows = follows
        self.rows = {}
        self.cycle = []
        self.back = []
        self.place_all()
        if self.cycle:
            self.find_back()

    def place_all(self):
        """Places one node after the other, least row first; where none is free, the first of an earliest cycle."""
        after, counts = self.graph.after, self.graph.before_counts()
        level, done, number = [0] * len(after), [False] * len(after), None
        ready = [(0, node) for node, count in enumerate(counts) if not count]
        heapq.heapify(ready)
        left = len(after)
        while left:
            if not ready:
                if number is None:
                    number = components(self.graph, [node for node in range(len(after)) if not done[node]])
                    self.find_cycle(number)
                forced = self.first_of(done, number)
                ready.append((level[forced], forced))
            _, node = heapq.heappop(ready)
            if done[node]:
                continue
            done[node], left = True, left - 1
            row = self.row_of(node, level[node])
            for high in after[node]:
                level[high] = max(level[high], row)
                counts[high] -= 1
                if not counts[high] and not done[high]:
                    heapq.heappush(ready, (level[high], high))

    def row_of(self, node, level):
        """Gives an item its row, below all that come before it; a point between positions has that of the last."""
        if node >= len(self.graph.items):
            return level
        item = self.graph.items[node]
        same = self.follows(item) and level == self.rows[item.thread, item.number - 1]
        self.rows[item.key] = level if same else level + 1
        return self.rows[item.key]

    def first_of(self, done, number):
        """Of the items that stand next in their lists, one of the component that comes first."""
        best = None
        for items in self.record.lists:
            nodes = [self.graph.place[item.key] for item in items or ()]
            node = next((node for node in nodes if not done[node]), None)
            if node is not None and (best is None or number[node] > number[best]):
                best = node
        return best

    def find_cycle(self, number):
        """A shortest cycle through the first item that stands on one."""
        sizes = {}
        for node, mine in number.items():
            sizes.setdefault(mine, set()).add(node)
        for node in sorted(number):
            if node < len(self.graph.items) and len(sizes[number[node]]) > 1:
                self.cycle = shortest_cycle(self.graph, node, sizes[number[node]])
                return

    def find_back(self):
        """The pairs on the cycle of which the second is drawn no lower than the first."""
        for low, high in zip(self.cycle, self.cycle[1:] + self.cycle[:1]):
            below = low.thread == high.thread and low.number < high.number
            if not below and self.rows[high.key] <= self.rows[low.key]:
                self.back.append((low, high))
