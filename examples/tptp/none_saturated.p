% status: GaveUp
fof(f_p, axiom, p).
fof(goal, conjecture, q).
