% status: Theorem
% uses: f_p f_q goal
fof(f_n, axiom, a != b).
fof(f_p, axiom, ! [X] : (X = a | X = b)).
fof(f_q, axiom, c != a).
fof(goal, conjecture, c = b).
