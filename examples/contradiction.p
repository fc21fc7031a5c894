% A contradictory premise is refuted; without a conjecture, falsity is to be proved.
fof(both,axiom,
    p & ~p).
