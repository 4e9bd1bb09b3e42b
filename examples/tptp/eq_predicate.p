% status: Theorem
% uses: f_ab f_p goal
fof(f_ab, axiom, a = b).
fof(f_p, axiom, p(f(a))).
fof(goal, conjecture, p(f(b))).
