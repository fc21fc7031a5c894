% A second conjecture is refused.
fof(first,conjecture,p => p).
fof(second,conjecture,q => q).
