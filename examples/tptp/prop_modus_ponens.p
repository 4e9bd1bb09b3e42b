% status: Theorem
% uses: f_p f_pq goal
fof(f_p, axiom, p).
fof(f_pq, axiom, p => q).
fof(f_spare, axiom, r).
fof(goal, conjecture, q).
