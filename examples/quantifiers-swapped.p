% The other way round is no theorem. No step is left, but that decides nothing where there are quantifiers.
fof(swapped,conjecture,
    (! [X] : ? [Y] : loves(X,Y)) => (? [Y] : ! [X] : loves(X,Y))).
