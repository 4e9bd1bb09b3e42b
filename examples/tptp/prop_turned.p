% status: Theorem
% uses: f_qp f_p goal
fof(f_qp, axiom, q <= p).
fof(f_p, axiom, p).
fof(goal, conjecture, q).
