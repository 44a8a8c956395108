"""Circles of links, by Tarjan's strongly connected components. Nothing is kept here."""


class Search:
    """A walk over a graph, along each link once."""

    def __init__(self, links_of):
        self.links_of = links_of
        self.order, self.lowest, self.done = {}, {}, set()
        self.open, self.path, self.parts = [], [], []

    def begin(self, node):
        self.order[node] = self.lowest[node] = len(self.order)
        self.open.append(node)
        self.path.append((node, list(self.links_of(node))))

    def lower(self, node, number):
        self.lowest[node] = min(self.lowest[node], number)

    def end(self, node):
        self.path.pop()
        if self.path:
            self.lower(self.path[-1][0], self.lowest[node])
        if self.lowest[node] == self.order[node]:
            at = self.open.index(node, max(0, self.order[node] - len(self.done)))
            part, self.open = self.open[at:], self.open[:at]
            self.done.update(part)
            if len(part) > 1 or node in self.links_of(node):
                self.parts.append(part)

    def walk(self, root):
        if root in self.order:
            return
        self.begin(root)
        while self.path:
            node, links = self.path[-1]
            if not links:
                self.end(node)
                continue
            link = links.pop()
            if link not in self.order:
                self.begin(link)
            elif link not in self.done:
                self.lower(node, self.order[link])


def circles(nodes, links_of):
    """The parts of a graph in which each node leads to itself; `links_of` gives nodes of the graph alone."""
    search = Search(links_of)
    for node in nodes:
        search.walk(node)
    return search.parts
