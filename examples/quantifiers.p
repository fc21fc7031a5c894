% Where one is loved by all, each loves someone: the quantifiers may be swapped this way round.
fof(swapped,conjecture,
    (? [Y] : ! [X] : loves(X,Y)) => (! [X] : ? [Y] : loves(X,Y))).
