% A negated conjunction is a disjunction of negations, and the other way round.
fof(de_morgan,conjecture,
    ~(p & q & r) <=> (~p | ~q | ~r)).
