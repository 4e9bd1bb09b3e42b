% status: Theorem
% uses: goal
fof(goal, conjecture, ((p <=> (q <=> r)) <=> ((p <=> q) <=> r))).
