"""The book (docs/SPECIFICATION.md 11.1): nodes and dual variables from the calls and their answers alone, without a
look into the block."""
from .faults import NotCovered
from .words import DIRECTIONS, STATES


class Book:
    """Each defect with its vertex, state and dual variable.

    Before an `advance` the length is asked for, which is what it will move by.
    """

    def __init__(self):
        self.nodes = []  # [vertex, state, y]
        self.blossom = None  # where one was accepted
        self.limit = None

    def before(self, module, item):
        """What a call will move by, if it is an advance."""
        self.limit = None
        if item.word == 'advance' and 0 <= item.fields[0] < len(self.nodes):
            state = STATES[self.nodes[item.fields[0]][1]]
            self.limit = 0
            if state != 'stay':
                said = str(module.call('max_update_length', item.fields[0], DIRECTIONS.index(state), True)).split()
                if said[0] == 'free' and said[1] != '-1':
                    self.limit = int(said[1]) if state == 'grow' else -int(said[1])

    def after(self, item, said):
        """Takes a call with its answer."""
        name = said[0].split()[0] if said else ''
        if item.word == 'defect' and name == 'node':
            self.nodes.append([item.fields[0], item.fields[1], 0])
        elif item.word == 'blossom' and name == 'node':
            self.blossom = self.blossom or item
            self.nodes.append([None, item.fields[0], 0])
        elif item.word == 'state' and name == 'done':
            self.nodes[item.fields[0]][1] = item.fields[1]
        elif item.word == 'grow' and name == 'done':
            self.nodes[item.fields[0]][2] += item.fields[1]
        elif item.word == 'round' and name == 'done':
            for n in self.nodes:  # a round is its growths, one by one
                n[2] += {'grow': item.fields[0], 'shrink': -item.fields[0]}.get(STATES[n[1]], 0)
        elif item.word == 'advance' and name == 'done':
            self.nodes[item.fields[0]][2] += self.limit
        elif item.word == 'clear' and name == 'done':
            self.nodes, self.blossom = [], None

    def duals(self):
        """The dual variable of each defect's vertex; NotCovered where a blossom is among the nodes."""
        if self.blossom is not None:
            raise NotCovered('a blossom was accepted: the table from distances covers defects alone', self.blossom.line)
        return {vertex: y for vertex, _, y in self.nodes}
