"""The labels of a node, for reference.py: what each was given for, which FEC has which, and since when a FEC rests.

docs/FORMATS.md, "Labels", told again. An attachment of a site keeps its label for good. A FEC keeps its own while it is offered, and at
rest until the label is free; it is given up only in a step in which the node begins to offer some FEC.
"""

FIRST = 16  # the least label that isn't reserved


class Labels:
    """What one node gave labels for, in order; the label of each attachment that there ever was, and of each FEC that has one,
    offered or at rest."""

    def __init__(self, life):
        self.given, self.greatest = [], FIRST - 1
        self.attachments, self.fecs = {}, {}
        self.rested = {}  # by FEC the tick of the last step that laid it to rest
        self.life = life  # the greatest of the node's links, 0 without a link

    def give(self, label, *what):
        self.given.append((label, what))
        self.greatest = max(self.greatest, label)
        return label

    def attach(self, site, attachment):
        """An attachment is given one more than the greatest label that the node ever gave."""
        self.attachments[site, attachment] = self.give(self.greatest + 1, "site", site, attachment)

    def offer(self, fecs, free):
        """Where FECs are newly offered the free ones first give up their labels. Each of these then takes up its own, or is given
        the least that no attachment ever had and no FEC has."""
        for fec in free if fecs else ():
            del self.fecs[fec]
        for fec in sorted(fecs - self.fecs.keys()):
            had = {*self.attachments.values(), *self.fecs.values()}
            least = next(label for label in range(FIRST, self.greatest + 2) if label not in had)
            self.fecs[fec] = self.give(least, "fec", fec)

    def lay_to_rest(self, fecs, tick):
        self.rested |= dict.fromkeys(fecs, tick)

    def is_past(self, fec, tick):
        """No frame that was sent to the node before the FEC was last laid to rest can fly any more."""
        return self.rested.get(fec, 0) + self.life < tick

    def means(self, label):
        """What has the label now: a FEC, or an attachment, also one that has ended; None where nothing has."""
        of_sites = (("site", *which) for which, its in self.attachments.items() if its == label)
        return next((("fec", fec) for fec, its in self.fecs.items() if its == label), None) or next(of_sites, None)
