% Exclusive or is associative up to an equivalence.
fof(associative,conjecture,
    (p <~> (q <~> r)) <=> ((p <~> q) <~> r)).
